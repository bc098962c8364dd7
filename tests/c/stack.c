/*
 * Measures the stack that calls need, on the models of files (models.h), on paths of 24 steps through every class and on pairs of figures:
 *
 *     stack FILE..
 *
 * Each call runs in a thread that has BOUNDS_STACK bytes of stack and what the thread itself needs. The stack was filled with a pattern; what the
 * call has changed is what it needed. Fails above BOUNDS_STACK. Below the stack lie pages that cannot be touched, so that a call that goes far
 * beyond it ends the program.
 */
#include "models.h"
#include <limits.h>
#include <pthread.h>
#include <sys/mman.h>

enum { STACK = BOUNDS_STACK + PTHREAD_STACK_MIN, GUARD = 1 << 20, PATTERN = 0xA5 };

static uint8_t *stack;
static uint32_t words[BOUNDS_WORDS_SIZE];
static size_t count;
static uint64_t budget;
static size_t most[4]; /* by function */
static uint8_t *entered; /* where the stack stood before the call */
static bounds_row rows[BOUNDS_MOST_ROWS];
static uint64_t digits[BOUNDS_OR_FIGURES]; /* of as many pairs as there may be */
static int32_t tens[BOUNDS_OR_FIGURES];

enum function { ASSESS, ASSESS_ROWS, TEXT, OR };

static void *call(void *asked)
{
    uint8_t text[BOUNDS_TEXT_SIZE];
    uint64_t values[BOUNDS_VALUES];
    int32_t powers[BOUNDS_POWERS];
    uint64_t or_values[BOUNDS_OR_VALUES];
    int32_t or_powers[BOUNDS_OR_POWERS];
    entered = (uint8_t *)__builtin_frame_address(0);
    switch (*(enum function *)asked) {
    case ASSESS:
        bounds_assess(words, count, budget, values, powers);
        break;
    case ASSESS_ROWS:
        bounds_assess_rows(words, count, budget, rows, BOUNDS_MOST_ROWS, values, powers);
        break;
    case OR:
        bounds_or(digits, tens, BOUNDS_MOST_PAIRS, or_values, or_powers);
        break;
    default:
        bounds_text(words, count, budget, text);
    }
    return NULL;
}

static void measure(enum function function)
{
    pthread_attr_t attributes;
    pthread_t thread;
    memset(stack, PATTERN, STACK);
    pthread_attr_init(&attributes);
    if (pthread_attr_setstack(&attributes, stack, STACK) != 0 || pthread_create(&thread, &attributes, call, &function) != 0)
        fail("no thread", "stack");
    pthread_join(thread, NULL);
    pthread_attr_destroy(&attributes);
    uint8_t *lowest = stack;
    while (lowest < entered && *lowest == PATTERN)
        lowest++;
    size_t used = (size_t)(entered - lowest);
    most[function] = used > most[function] ? used : most[function];
}

static void measure_each(void)
{
    measure(ASSESS);
    measure(ASSESS_ROWS);
    measure(TEXT);
}

static void measure_model(const model *m)
{
    count = bounds_words(m->bytes, m->length, words);
    budget = m->budget;
    measure_each();
}

/* A ring of 25 states, each with a slow exit to the next; where `fast` is set, with a fast one to a state without exits as well. */
static void measure_ring(int fast)
{
    uint32_t n = 0;
    words[n++] = 0x1101A001;
    words[n++] = 0x2000000A;
    words[n++] = 0x30000000;
    words[n++] = 0x41818000;
    for (uint32_t s = 1; s <= 25; s++) {
        words[n++] = 0x50000000 | s << 12 | (s % 25 + 1);
        words[n++] = 0x60400001;
        if (fast) {
            words[n++] = 0x7000001A | s << 12;
            words[n++] = 0x80400001;
            words[n++] = 0x90400001;
            words[n++] = 0xA0000001;
        }
    }
    words[n++] = 0xF0000000;
    count = n;
    budget = BOUNDS_MOST_BUDGET;
    measure_each();
}

/* As many pairs as there may be, of one lower and one upper. */
static void measure_pairs(bounds_figure lower, bounds_figure upper)
{
    for (size_t i = 0; i < BOUNDS_OR_FIGURES; i++) {
        digits[i] = i % 2 == 0 ? lower.digits : upper.digits;
        tens[i] = i % 2 == 0 ? lower.power : upper.power;
    }
    measure(OR);
}

int main(int arguments, char **files)
{
    static const bounds_figure zero = { 0, 0 }, tiny = { 123456789, -2000 }, third = { 333333333, -9 }, one = { 100000000, -8 };
    long models = 2;
    if (posix_memalign((void **)&stack, 4096, GUARD + STACK) != 0 || mprotect(stack, GUARD, PROT_NONE) != 0)
        fail("no memory", "stack");
    stack += GUARD;
    measure_ring(0);
    measure_ring(1);
    measure_pairs(zero, one);
    measure_pairs(tiny, third);
    measure_pairs(third, third);
    measure_pairs(one, third);
    for (int i = 1; i < arguments; i++)
        models += each_model(files[i], measure_model);
    printf("stack: %zu bytes at most over %ld models, with rows %zu and as text %zu, for pairs %zu, of the %d that the header states\n", most[ASSESS],
           models, most[ASSESS_ROWS], most[TEXT], most[OR], BOUNDS_STACK);
    return most[ASSESS] > BOUNDS_STACK || most[ASSESS_ROWS] > BOUNDS_STACK || most[TEXT] > BOUNDS_STACK || most[OR] > BOUNDS_STACK;
}
