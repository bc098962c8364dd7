/*
 * Calls every exported function and compares it with expected answers and with the report program:
 *
 *     calls REPORT-PROGRAM FILE..
 *
 * The files are those of models.h. The report program, whose budget is 1,000,000, is run where that is the model's budget.
 */
#define _POSIX_C_SOURCE 200809L
#include "answers.h"
#include "models.h"
#include <limits.h>
#include <pthread.h>
#include <unistd.h>

enum { GUARD = 16 };

/* ---- One model by each function */

/* bounds_words on the bytes; the words behind its buffer stay as they were. */
static size_t words_of(const model *m, uint32_t *words)
{
    static uint32_t lent[BOUNDS_WORDS_SIZE + GUARD];
    memset(lent, 0xA5, sizeof lent);
    size_t count = bounds_words(m->bytes, m->length, lent);
    if (count != (m->length + 3) / 4)
        fail("the number of words", m->name);
    for (size_t i = 0; i < count; i++) {
        const uint8_t *b = m->bytes + 4 * i;
        uint32_t word = (uint32_t)b[0] | (uint32_t)b[1] << 8 | (uint32_t)b[2] << 16 | (uint32_t)b[3] << 24;
        if (lent[i] != (4 * i + 4 <= m->length ? word : 0))
            fail("a word", m->name);
    }
    for (size_t i = 0; i < GUARD; i++)
        if (lent[BOUNDS_WORDS_SIZE + i] != 0xA5A5A5A5)
            fail("bounds_words wrote past its buffer", m->name);
    memcpy(words, lent, count * sizeof *words);
    return count;
}

/* bounds_assess on buffers that hold something else before; numbers behind them stay as they were. */
static void check_assess(const model *m, const uint32_t *words, size_t count)
{
    uint64_t values[BOUNDS_VALUES + GUARD];
    int32_t powers[BOUNDS_POWERS + GUARD];
    memset(values, 0xA5, sizeof values);
    memset(powers, 0xA5, sizeof powers);
    uint64_t refusal = bounds_assess(words, count, m->budget, values, powers);
    for (int i = 0; i < GUARD; i++)
        if (values[BOUNDS_VALUES + i] != 0xA5A5A5A5A5A5A5A5 || (uint32_t)powers[BOUNDS_POWERS + i] != 0xA5A5A5A5)
            fail("bounds_assess wrote past a buffer", m->name);
    bounds_answer a = bounds_ask(words, count, m->budget);
    char text[512];
    put_answer(text, sizeof text, a);
    if (a.refusal != refusal || strcmp(text, m->expected) != 0)
        fail("the answer in numbers", m->name);
    if (refusal == BOUNDS_REPORTED) {
        if (values[BOUNDS_PLACE] != 0)
            fail("a report with a place", m->name);
        if (values[BOUNDS_LOWER_EXACT] > 1 || values[BOUNDS_UPPER_EXACT] > 1)
            fail("a mark that is neither 0 nor 1", m->name);
        return;
    }
    for (int i = 1; i < BOUNDS_VALUES; i++)
        if (values[i] != 0)
            fail("a refusal with a value", m->name);
    for (int i = 0; i < BOUNDS_POWERS; i++)
        if (powers[i] != 0)
            fail("a refusal with a power", m->name);
    if (*bounds_sentence(refusal) == '\0')
        fail("a refusal without a sentence", m->name);
}

static void check_text(const model *m, const uint32_t *words, size_t count)
{
    uint8_t text[BOUNDS_TEXT_SIZE + GUARD];
    memset(text, 0xA5, sizeof text);
    size_t length = bounds_text(words, count, m->budget, text);
    if (length != strlen(m->expected) || memcmp(text, m->expected, length) != 0)
        fail("the answer as text", m->name);
    for (int i = 0; i < GUARD; i++)
        if (text[BOUNDS_TEXT_SIZE + i] != 0xA5)
            fail("bounds_text wrote past its buffer", m->name);
}

static const char *program; /* the report program */

/* What it prints for the model's bytes, which stand in a file where tests/run builds, below the root. */
static void check_report(const model *m)
{
    char file[] = "target/tests/calls-XXXXXX", command[512], text[512];
    int descriptor = mkstemp(file);
    if (descriptor < 0 || write(descriptor, m->bytes, m->length) != (ssize_t)m->length || close(descriptor) != 0)
        fail("no temporary file", m->name);
    snprintf(command, sizeof command, "'%s' < %s", program, file);
    FILE *pipe = popen(command, "r");
    if (pipe == NULL)
        fail("the report program does not start", m->name);
    size_t length = fread(text, 1, sizeof text - 1, pipe);
    text[length] = '\0';
    int status = pclose(pipe);
    unlink(file);
    if (status != 0 || strcmp(text, m->expected) != 0)
        fail("the report program says otherwise", m->name);
}

static void check(const model *m)
{
    static uint32_t words[BOUNDS_WORDS_SIZE], before[BOUNDS_WORDS_SIZE];
    size_t count = words_of(m, words);
    memcpy(before, words, sizeof words);
    check_assess(m, words, count);
    check_text(m, words, count);
    if (memcmp(before, words, sizeof words) != 0)
        fail("lent words were changed", m->name);
    if (m->budget == BOUNDS_MOST_BUDGET)
        check_report(m);
}

/* ---- What no file has */

/* Model A, cut or with zeros behind it so that it has so many words. */
static void set(model *m, const char *name, uint64_t budget, size_t words, const char *expected)
{
    static const uint32_t model_a[] = { 0x11002001, 0x2000000A, 0x30000000, 0x41801000, 0x50001002, 0x60400001, 0xF0000000 };
    snprintf(m->name, sizeof m->name, "%s", name);
    snprintf(m->expected, sizeof m->expected, "%s", expected);
    m->budget = budget;
    set_words(m, model_a, sizeof model_a / sizeof model_a[0]);
    m->length = 4 * words;
}

static const char REPORT_A[] = "lower 9.99500000E-4\nupper 1.00000000E-3\ncut 0\ndeaths 1\ncuts 0\nsteps 1\nexact 11\n";

static void check_edges(void)
{
    static model m;
    set(&m, "model A", BOUNDS_MOST_BUDGET, 7, REPORT_A);
    check(&m);
    set(&m, "model A, budget 1", 1, 7, REPORT_A);
    check(&m);
    set(&m, "no words", BOUNDS_MOST_BUDGET, 0, "refused 3 at 0\n");
    check(&m);
    set(&m, "budget 0", 0, 7, "refused 2 at 0\n");
    check(&m);
    set(&m, "budget 1,000,001", 1000001, 7, "refused 2 at 0\n");
    check(&m);
    set(&m, "the greatest budget", UINT64_MAX, 7, "refused 2 at 0\n");
    check(&m);
    set(&m, "as many words as a model may have", BOUNDS_MOST_BUDGET, BOUNDS_MOST_WORDS, "refused 3 at 7\n");
    check(&m);
    set(&m, "one word more", BOUNDS_MOST_BUDGET, BOUNDS_MOST_WORDS + 1, "refused 1 at 0\n");
    check(&m);
    static uint8_t much[2 * MOST_BYTES];
    static uint32_t words[BOUNDS_WORDS_SIZE];
    if (bounds_words(much, sizeof much, words) != BOUNDS_WORDS_SIZE)
        fail("the number of words", "more bytes than any model");
}

/* States that the generator pruned: cases 03-000-named, 03-007, 03-008, 03-010, 03-017 and 03-020 of the answers of other hands. */
static void check_named(void)
{
    static const uint32_t rest[] = { 0x50001002, 0x60400001, 0x50001003, 0x60400001, 0x50002004, 0x60400001, 0x50002005, 0x60400001, 0xF0000000 };
    static const struct {
        uint32_t head, first, second;
        const char *expected;
    } cases[] = {
        { 0x11005001, 0xC0000003, 0xC0000005, "lower 4.99333333E-7\nupper 1.00100000E-3\ncut 1.00050000E-3\ndeaths 1\ncuts 2\nsteps 4\nexact 01\n" },
        { 0x11005001, 0xC0000000, 0xC0000005, "refused 6 at 4\n" },
        { 0x11005001, 0xC0000003, 0xC0000006, "refused 6 at 5\n" },
        { 0x11005001, 0xC0000003, 0xC0000002, "refused 15 at 5\n" },
        { 0x11005001, 0xC0000002, 0xC0000003, "refused 16 at 2\n" },
        { 0x11005003, 0xC0000003, 0xC0000005, "refused 11 at 3\n" },
    };
    static model m;
    for (size_t i = 0; i < sizeof cases / sizeof cases[0]; i++) {
        uint32_t words[6 + sizeof rest / sizeof rest[0]] = { cases[i].head, 0x2000000A, 0x30000000, 0x41801000, cases[i].first, cases[i].second };
        memcpy(words + 6, rest, sizeof rest);
        set_words(&m, words, sizeof words / sizeof words[0]);
        snprintf(m.name, sizeof m.name, "named states, case %zu", i);
        snprintf(m.expected, sizeof m.expected, "%s", cases[i].expected);
        m.budget = BOUNDS_MOST_BUDGET;
        check(&m);
    }
}

/* ---- What is inline */

/* Every number but 0 has a sentence, and one that is no number of the documents' says that it is not known. */
static void check_sentences(void)
{
    const char *unknown = bounds_sentence(12);
    char text[BOUNDS_SENTENCE_SIZE + GUARD];
    for (uint64_t refusal = 0; refusal <= 64; refusal++) {
        int known = (refusal >= 1 && refusal <= 11) || (refusal >= 13 && refusal <= 18);
        const char *sentence = bounds_sentence(refusal);
        if ((*sentence == '\0') != (refusal == 0) || (strcmp(sentence, unknown) == 0) != (refusal != 0 && !known))
            fail("a sentence too many or too few", "bounds_sentence");
        memset(text, 0xA5, sizeof text);
        bounds_sentence_at(refusal, UINT64_MAX, text);
        if (strlen(text) >= BOUNDS_SENTENCE_SIZE || strstr(text, "PLACE") != NULL)
            fail("a sentence with its place", "bounds_sentence_at");
    }
    if (strcmp(bounds_sentence_at(11, 17, text), "The start state 17 has no exits.") != 0)
        fail("a sentence with its place", "bounds_sentence_at");
    if (strcmp(bounds_sentence_at(14, 3, text), "Fewer rows were lent than the 3 that the model needs.") != 0)
        fail("a sentence with its place", "bounds_sentence_at");
    if (strcmp(bounds_sentence_at(15, 5, text), "The state named by word 5 is not greater than the one named before it.") != 0)
        fail("a sentence with its place", "bounds_sentence_at");
    if (strcmp(bounds_sentence_at(16, 2, text), "State 2 is named as the generator's and has exits.") != 0)
        fail("a sentence with its place", "bounds_sentence_at");
    if (strcmp(bounds_sentence_at(17, 0, text), "There must be from 1 to 16 pairs of figures.") != 0)
        fail("a sentence without a place", "bounds_sentence_at");
    if (strncmp(bounds_sentence_at(18, 15, text), "Pair 15 holds what is no figure, ", 33) != 0)
        fail("a sentence with its place", "bounds_sentence_at");
    if (strcmp(bounds_sentence_at(11, 0, text), "The start state 0 has no exits.") != 0)
        fail("a sentence with its place", "bounds_sentence_at");
    if (strcmp(bounds_sentence_at(BOUNDS_OTHER_VERSION, 0, text), unknown) == 0)
        fail("another version", "bounds_sentence_at");
}

/* Only 1 is a claim. */
static void check_marks(void)
{
    static const uint64_t none[] = { 0, 2, 256, (uint64_t)1 << 32 | 1, UINT64_MAX };
    const int32_t powers[BOUNDS_POWERS] = { 0 };
    uint64_t values[BOUNDS_VALUES] = { 0 };
    for (size_t i = 0; i < sizeof none / sizeof none[0]; i++) {
        values[BOUNDS_LOWER_EXACT] = 1;
        values[BOUNDS_UPPER_EXACT] = none[i];
        bounds_answer answer = bounds_answer_of(BOUNDS_REPORTED, values, powers);
        values[BOUNDS_LOWER_EXACT] = none[i];
        values[BOUNDS_UPPER_EXACT] = 1;
        bounds_answer other = bounds_answer_of(BOUNDS_REPORTED, values, powers);
        if (answer.lower_exact != 1 || answer.upper_exact != 0 || other.lower_exact != 0 || other.upper_exact != 1)
            fail("a mark that is not 1", "bounds_answer_of");
    }
}

static void check_version(void)
{
    if (bounds_version() != BOUNDS_VERSION || !bounds_version_agrees())
        fail("the archive has another version than the header", "bounds_version");
    if (BOUNDS_MAJOR(12034005) != 12 || BOUNDS_MINOR(12034005) != 34 || BOUNDS_PATCH(12034005) != 5)
        fail("its parts", "bounds_version");
}

/* A figure is at or below a limit of its own, also where the double above it is greater than the double that stands for the limit. */
static void check_order(void)
{
    static const bounds_figure rising[] = {
        { 0, 0 }, { 100000000, INT32_MIN }, { 100000000, -20 }, { 999999999, -18 }, { 100000000, -17 }, { 100000001, -17 }, { 100000000, 0 },
        { 999999999, INT32_MAX },
    };
    static const bounds_figure none[] = { { 0, 1 }, { 1, 0 }, { 99999999, -8 }, { 1000000000, -8 }, { UINT64_MAX, 0 } };
    const size_t figures = sizeof rising / sizeof rising[0];
    for (size_t i = 0; i < figures; i++) {
        for (size_t j = 0; j < figures; j++) {
            uint64_t answer = bounds_at_or_below(rising[i].digits, rising[i].power, rising[j].digits, rising[j].power);
            if (answer != (i <= j) || bounds_meets(rising[i], rising[j]) != (i <= j))
                fail("the order of two figures", "bounds_at_or_below");
        }
        for (size_t j = 0; j < sizeof none / sizeof none[0]; j++) {
            if (bounds_at_or_below(rising[i].digits, rising[i].power, none[j].digits, none[j].power) != 2 || bounds_meets(rising[i], none[j]))
                fail("a limit that is no figure", "bounds_at_or_below");
            if (bounds_at_or_below(none[j].digits, none[j].power, rising[i].digits, rising[i].power) != 2 || bounds_meets(none[j], rising[i]))
                fail("what is no figure", "bounds_at_or_below");
        }
    }
    bounds_figure millionth = { 100000000, -14 };
    if (!bounds_meets(millionth, millionth) || bounds_double_above(millionth) <= 1E-6)
        fail("a millionth", "bounds_at_or_below");
}

/* ---- Calls at once */

static void *same_again(void *unused)
{
    static const uint32_t loop[] = { 0x11002001, 0x2000000A, 0x30000000, 0x41818000, 0x50001002, 0x60300001, 0x50002001, 0x60300001, 0xF0000000 };
    char first[512], again[512];
    (void)unused;
    put_answer(first, sizeof first, bounds_ask(loop, 9, BOUNDS_MOST_BUDGET));
    for (int i = 0; i < 2000; i++) {
        put_answer(again, sizeof again, bounds_ask(loop, 9, BOUNDS_MOST_BUDGET));
        if (strcmp(first, again) != 0)
            fail("another answer in another thread", "calls at once");
    }
    return NULL;
}

/* Each thread has the stack that a call needs, and what the thread itself needs. */
static void check_threads(void)
{
    pthread_t threads[4];
    pthread_attr_t attributes;
    pthread_attr_init(&attributes);
    if (pthread_attr_setstacksize(&attributes, BOUNDS_STACK + PTHREAD_STACK_MIN) != 0)
        fail("no stack", "calls at once");
    for (int i = 0; i < 4; i++)
        if (pthread_create(&threads[i], &attributes, same_again, NULL) != 0)
            fail("no thread", "calls at once");
    for (int i = 0; i < 4; i++)
        pthread_join(threads[i], NULL);
    pthread_attr_destroy(&attributes);
}

int main(int count, char **arguments)
{
    if (count < 3) {
        fprintf(stderr, "usage: calls REPORT-PROGRAM FILE..\n");
        return 2;
    }
    long models = 0;
    program = arguments[1];
    check_version();
    check_sentences();
    check_marks();
    check_order();
    check_edges();
    check_named();
    check_threads();
    for (int i = 2; i < count; i++)
        models += each_model(arguments[i], check);
    printf("calls: %ld models agree, as numbers, as text and with the report program\n", models);
    return models == 0;
}
