/*
 * Lends rows to bounds_assess_rows and to bounds_ask_rows, and compares with expected answers:
 *
 *     rows FILE..
 *
 * The files are those of models.h, with a number of rows in each line. The rows that are lent stand between others; before a call all of them hold a
 * pattern, so that a row that was not to be changed is seen to be as it was.
 */
#include "answers.h"
#include "models.h"

enum { GUARD = 16, MOST_LENT = BOUNDS_MOST_ROWS + 100, PATTERN = 0xA5 };

static bounds_row room[GUARD + MOST_LENT + GUARD];
static bounds_row *const rows = room + GUARD;

static uint32_t words[BOUNDS_WORDS_SIZE];
static size_t count;

/* ---- One call */

static int is_pattern(const void *from, size_t length)
{
    const uint8_t *bytes = (const uint8_t *)from;
    while (length > 0 && bytes[length - 1] == PATTERN)
        length--;
    return length == 0;
}

/* All rows from one on, and those before the first, are as they were. */
static void check_unchanged_from(size_t first, const char *name)
{
    if (!is_pattern(room, GUARD * sizeof *room) || !is_pattern(rows + first, (MOST_LENT + GUARD - first) * sizeof *room))
        fail("a row that was not to be changed", name);
}

/* The answer with so many rows lent. Every number of the buffers is written, and none behind them. */
static bounds_answer assess(const model *m, size_t lent)
{
    uint64_t values[BOUNDS_VALUES + GUARD];
    int32_t powers[BOUNDS_POWERS + GUARD];
    memset(room, PATTERN, sizeof room);
    memset(values, PATTERN, sizeof values);
    memset(powers, PATTERN, sizeof powers);
    uint64_t refusal = bounds_assess_rows(words, count, m->budget, rows, lent, values, powers);
    if (!is_pattern(values + BOUNDS_VALUES, GUARD * sizeof *values) || !is_pattern(powers + BOUNDS_POWERS, GUARD * sizeof *powers))
        fail("bounds_assess_rows wrote past a buffer", m->name);
    for (int i = 0; i < BOUNDS_VALUES; i++)
        if (is_pattern(values + i, sizeof *values))
            fail("a value that was not written", m->name);
    return bounds_answer_of(refusal, values, powers);
}

/* How many rows are filled in the expected text. */
static size_t expected_rows(const model *m)
{
    size_t n = 0;
    for (const char *at = m->expected; (at = strstr(at, "row ")) != NULL; at++)
        n++;
    return n;
}

/* The answer and the first rows, as the text that is expected. */
static void check_text(const model *m, bounds_answer answer, size_t filled)
{
    static char text[1 << 16];
    size_t n = (size_t)put_answer(text, sizeof text, answer);
    for (size_t i = 0; i < filled; i++) {
        n += (size_t)snprintf(text + n, sizeof text - n, "row %" PRIu64, rows[i].state);
        n += (size_t)put_figure(text + n, sizeof text - n, "", rows[i].lower) - 1;
        n += (size_t)put_figure(text + n, sizeof text - n, "", rows[i].upper);
    }
    if (strcmp(text, m->expected) != 0)
        fail("the answer and its rows", m->name);
}

/* ---- One model */

/* bounds_ask_rows: the same, how many rows are filled, and zeros behind them. */
static void check_ask(const model *m, size_t lent, size_t filled)
{
    static const bounds_row zeros;
    size_t told = lent + 1;
    memset(room, PATTERN, sizeof room);
    bounds_answer answer = bounds_ask_rows(words, count, m->budget, rows, lent, &told);
    if (told != filled)
        fail("how many rows are filled", m->name);
    check_text(m, answer, filled);
    for (size_t i = filled; i < lent; i++)
        if (memcmp(&rows[i], &zeros, sizeof zeros) != 0)
            fail("a row behind the filled ones that is not zeros", m->name);
    check_unchanged_from(lent, m->name);
}

/* 0 rows, one fewer than are needed, as many, and one more. */
static void check_lent(const model *m, size_t needed)
{
    const size_t lent[] = { 0, needed > 0 ? needed - 1 : 0, needed, needed + 1, MOST_LENT };
    for (size_t i = 0; i < sizeof lent / sizeof lent[0]; i++) {
        bounds_answer answer = assess(m, lent[i]);
        if (lent[i] >= needed) {
            check_text(m, answer, needed);
            check_unchanged_from(needed, m->name);
            continue;
        }
        if (answer.refusal != BOUNDS_TOO_FEW_ROWS || answer.place != needed || answer.upper.digits != 0 || answer.steps != 0 ||
            answer.lower_exact != 0 || answer.upper_exact != 0)
            fail("fewer rows than are needed", m->name);
        check_unchanged_from(0, m->name);
    }
}

static void check(const model *m)
{
    static uint32_t before[BOUNDS_WORDS_SIZE];
    size_t lent = (size_t)m->rows, filled = expected_rows(m);
    if (m->rows < 0 || lent > MOST_LENT)
        fail("a number of rows is missing, or is too great", m->name);
    count = bounds_words(m->bytes, m->length, words);
    memcpy(before, words, sizeof words);
    bounds_answer answer = assess(m, lent);
    check_text(m, answer, filled);
    check_unchanged_from(filled, m->name);
    check_ask(m, lent, filled);
    if (answer.refusal == BOUNDS_REPORTED || answer.refusal == BOUNDS_OVER_BUDGET)
        check_lent(m, filled);
    if (answer.refusal == BOUNDS_TOO_FEW_ROWS && bounds_ask(words, count, m->budget).refusal == BOUNDS_TOO_FEW_ROWS)
        fail("bounds_assess refuses by 14", m->name);
    if (memcmp(before, words, sizeof words) != 0)
        fail("lent words were changed", m->name);
}

/* ---- What no file has */

/* Two exits of the start, each to a state of its own. */
static void set(model *m, const char *name, uint64_t budget, size_t length, long lent, const char *expected)
{
    static const uint32_t two[] = { 0x11003001, 0x2000000A, 0x30000000, 0x41801000, 0x50001003, 0x60400001, 0x50001002, 0x60400001, 0xF0000000 };
    snprintf(m->name, sizeof m->name, "%s", name);
    snprintf(m->expected, sizeof m->expected, "%s", expected);
    m->budget = budget;
    m->rows = lent;
    set_words(m, two, sizeof two / sizeof two[0]);
    m->length = 4 * length;
}

static void check_edges(void)
{
    static model m;
    set(&m, "one row of two", BOUNDS_MOST_BUDGET, 9, 1, "refused 14 at 2\n");
    check(&m);
    set(&m, "no row of two", BOUNDS_MOST_BUDGET, 9, 0, "refused 14 at 2\n");
    check(&m);
    set(&m, "14 before 13", 1, 9, 1, "refused 14 at 2\n");
    check(&m);
    set(&m, "13", 1, 9, 5, "refused 13 at 0\nrow 2 0 0\nrow 3 0 0\n");
    check(&m);
    set(&m, "2 before 14", 0, 9, 0, "refused 2 at 0\n");
    check(&m);
    set(&m, "2", UINT64_MAX, 9, 5, "refused 2 at 0\n");
    check(&m);
    set(&m, "3 before 14", BOUNDS_MOST_BUDGET, 8, 0, "refused 3 at 8\n");
    check(&m);
    set(&m, "3", BOUNDS_MOST_BUDGET, 8, 5, "refused 3 at 8\n");
    check(&m);
    set(&m, "11", BOUNDS_MOST_BUDGET, 9, 5, "refused 11 at 2\n");
    m.bytes[0] = 2; /* the start state */
    check(&m);
    set(&m, "11 before 14", BOUNDS_MOST_BUDGET, 9, 0, "refused 11 at 2\n");
    m.bytes[0] = 2;
    check(&m);
}

/* States 3 and 5 are the generator's, and have no row: cases 03-000-named, 03-001-rows-short and 03-027-13-zeros of the answers of other hands. */
static void check_named(void)
{
    static const uint32_t named[] = { 0x11005001, 0x2000000A, 0x30000000, 0x41801000, 0xC0000003, 0xC0000005, 0x50001002, 0x60400001,
                                      0x50001003, 0x60400001, 0x50002004, 0x60400001, 0x50002005, 0x60400001, 0xF0000000 };
    static const struct {
        uint64_t budget;
        long lent;
        const char *expected;
    } cases[] = {
        { BOUNDS_MOST_BUDGET, 1000,
          "lower 4.99333333E-7\nupper 1.00100000E-3\ncut 1.00050000E-3\ndeaths 1\ncuts 2\nsteps 4\nexact 01\nrow 4 4.99333333E-7 5.00000000E-7\n" },
        { BOUNDS_MOST_BUDGET, 0, "refused 14 at 1\n" },
        { 2, 3, "refused 13 at 0\nrow 4 0 0\n" },
    };
    static model m;
    for (size_t i = 0; i < sizeof cases / sizeof cases[0]; i++) {
        set_words(&m, named, sizeof named / sizeof named[0]);
        snprintf(m.name, sizeof m.name, "named states, case %zu", i);
        snprintf(m.expected, sizeof m.expected, "%s", cases[i].expected);
        m.budget = cases[i].budget;
        m.rows = cases[i].lent;
        check(&m);
    }
}

int main(int arguments, char **files)
{
    long models = 0;
    check_edges();
    check_named();
    for (int i = 1; i < arguments; i++)
        models += each_model(files[i], check);
    printf("rows: %ld models agree, with rows enough and too few, and nothing else is changed\n", models);
    return models == 0;
}
