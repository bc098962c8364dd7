/*
 * Combines pairs of figures by bounds_or and by bounds_ask_or, and compares with expected answers:
 *
 *     orprob FILE..
 *
 * A line of a file is a name, the pairs and the expected answer. A pair is LOWER:UPPER, each digits, e and a power; pairs stand apart by commas, and
 * `.` stands for none. The answer has `|` for line ends and `=` for spaces. What is lent ends where a page begins that cannot be touched, and cannot be
 * written while the call runs; what is written stands between numbers that hold a pattern.
 */
#include "answers.h"
#include "models.h"
#include <sys/mman.h>

enum { PAGE = 4096, GUARD = 16, MOST_GIVEN = 64 };

typedef struct {
    char name[64];
    bounds_pair pairs[MOST_GIVEN];
    size_t count;
    char expected[256];
} or_case;

static uint64_t *digits; /* BOUNDS_OR_FIGURES of each, at the end of a page */
static int32_t *powers;

/* ---- What is lent */

/* So many bytes at the end of a page, with one behind it that cannot be touched. */
static void *lent(size_t length)
{
    void *page;
    if (posix_memalign(&page, PAGE, 2 * PAGE) != 0 || mprotect((uint8_t *)page + PAGE, PAGE, PROT_NONE) != 0)
        fail("no memory", "orprob");
    return (uint8_t *)page + PAGE - length;
}

static void allow_writing(int allowed)
{
    const int how = allowed ? PROT_READ | PROT_WRITE : PROT_READ;
    uint8_t *ends[] = { (uint8_t *)(digits + BOUNDS_OR_FIGURES), (uint8_t *)(powers + BOUNDS_OR_FIGURES) };
    for (size_t i = 0; i < 2; i++)
        if (mprotect(ends[i] - PAGE, PAGE, how) != 0)
            fail("no memory", "orprob");
}

/* The first pairs, as many as there is room for, and this figure in every place behind them. */
static void lend(const or_case *c, bounds_figure behind)
{
    for (size_t i = 0; i < BOUNDS_OR_FIGURES; i++) {
        bounds_figure figure = i / 2 >= c->count ? behind : i % 2 == 0 ? c->pairs[i / 2].lower : c->pairs[i / 2].upper;
        digits[i] = figure.digits;
        powers[i] = figure.power;
    }
}

/* ---- One call */

static int is_pattern(const void *from, size_t length, uint8_t pattern)
{
    const uint8_t *bytes = (const uint8_t *)from;
    while (length > 0 && bytes[length - 1] == pattern)
        length--;
    return length == 0;
}

/* bounds_or with what is lent, its numbers between others that hold a pattern, and `skew` places further on, so that each alignment comes up. */
static bounds_or_answer combine(const char *name, size_t pairs, uint8_t pattern, size_t skew)
{
    static uint64_t values[GUARD + BOUNDS_OR_VALUES + GUARD];
    static int32_t out[GUARD + BOUNDS_OR_POWERS + GUARD];
    uint64_t *or_values = values + GUARD + skew;
    int32_t *or_powers = out + GUARD + skew;
    memset(values, pattern, sizeof values);
    memset(out, pattern, sizeof out);
    allow_writing(0);
    uint64_t refusal = bounds_or(digits, powers, pairs, or_values, or_powers);
    allow_writing(1);
    bounds_or_answer answer = { refusal,
                                or_values[BOUNDS_OR_PLACE],
                                { or_values[BOUNDS_OR_LOWER_DIGITS], or_powers[BOUNDS_OR_LOWER_POWER] },
                                { or_values[BOUNDS_OR_UPPER_DIGITS], or_powers[BOUNDS_OR_UPPER_POWER] } };
    memset(or_values, pattern, BOUNDS_OR_VALUES * sizeof *or_values);
    memset(or_powers, pattern, BOUNDS_OR_POWERS * sizeof *or_powers);
    if (!is_pattern(values, sizeof values, pattern) || !is_pattern(out, sizeof out, pattern))
        fail("bounds_or wrote beside a buffer", name);
    return answer;
}

/* Zeros for all but the place in a refusal, and a place of a pair; else no place, and figures with lower at most upper and upper at most 1. */
static void check_numbers(const char *name, size_t pairs, bounds_or_answer a)
{
    const bounds_figure one = { 100000000, -8 };
    if (a.refusal == BOUNDS_REPORTED) {
        if (a.place != 0 || !bounds_meets(a.lower, a.upper) || !bounds_meets(a.upper, one))
            fail("an answer that is none", name);
        return;
    }
    if (a.lower.digits != 0 || a.lower.power != 0 || a.upper.digits != 0 || a.upper.power != 0)
        fail("a refusal with a figure", name);
    if (a.refusal == BOUNDS_PAIR_COUNT_OUT_OF_RANGE ? a.place != 0 : a.refusal != BOUNDS_PAIR_OUT_OF_RANGE || a.place >= pairs)
        fail("a refusal by another number, or with another place", name);
}

static void check_text(const char *name, bounds_or_answer a, const char *expected)
{
    char text[256];
    if (a.refusal != BOUNDS_REPORTED) {
        snprintf(text, sizeof text, "refused %" PRIu64 " at %" PRIu64 "\n", a.refusal, a.place);
    } else {
        int n = put_figure(text, sizeof text, "lower", a.lower);
        put_figure(text + n, sizeof text - (size_t)n, "upper", a.upper);
    }
    if (strcmp(text, expected) != 0)
        fail("the combined figures", name);
}

/* ---- One case */

/* The same answer whatever the buffers held, wherever they stand, and whatever stands behind the pairs. */
static void check(const or_case *c)
{
    static const bounds_figure behind[] = { { 0, 0 }, { 0, 1 }, { 500000000, -9 }, { 999999999, 2000 }, { UINT64_MAX, INT32_MIN } };
    static const uint8_t patterns[] = { 0x00, 0xA5, 0xFF };
    for (size_t i = 0; i < sizeof behind / sizeof behind[0]; i++) {
        for (size_t j = 0; j < sizeof patterns; j++) {
            lend(c, behind[i]);
            bounds_or_answer answer = combine(c->name, c->count, patterns[j], i);
            check_numbers(c->name, c->count, answer);
            check_text(c->name, answer, c->expected);
        }
    }
    check_text(c->name, bounds_ask_or(c->pairs, c->count), c->expected);
}

/* Digits, e and a power; hands back what stands behind them. */
static char *figure_in(char *at, bounds_figure *figure)
{
    figure->digits = strtoull(at, &at, 10);
    if (*at != 'e')
        fail("a figure that isn't digits, e and a power", at);
    figure->power = (int32_t)strtol(at + 1, &at, 10);
    return at;
}

static void parse_case(char *line, or_case *c)
{
    char *name = strtok(line, " \n"), *pairs = strtok(NULL, " \n"), *expected = strtok(NULL, " \n");
    if (expected == NULL)
        fail("a line that isn't three parts", name == NULL ? "?" : name);
    snprintf(c->name, sizeof c->name, "%s", name);
    for (c->count = 0; *pairs != '\0' && *pairs != '.'; c->count++) {
        if (c->count == MOST_GIVEN)
            fail("too many pairs", name);
        pairs = figure_in(pairs, &c->pairs[c->count].lower);
        if (*pairs++ != ':')
            fail("a pair without :", name);
        pairs = figure_in(pairs, &c->pairs[c->count].upper);
        pairs += *pairs == ',';
    }
    size_t n = 0;
    for (; *expected != '\0' && n + 2 < sizeof c->expected; expected++)
        c->expected[n++] = *expected == '|' ? '\n' : *expected == '=' ? ' ' : *expected;
    c->expected[n++] = '\n';
    c->expected[n] = '\0';
}

static long each_case(const char *path)
{
    static char line[1 << 16];
    static or_case c;
    long cases = 0;
    FILE *file = fopen(path, "r");
    if (file == NULL)
        fail("cannot be read", path);
    for (; fgets(line, sizeof line, file) != NULL; cases++) {
        parse_case(line, &c);
        check(&c);
    }
    fclose(file);
    return cases;
}

/* ---- What no file has */

/* So many pairs of one lower and one upper. */
static void set(or_case *c, const char *name, size_t count, bounds_figure lower, bounds_figure upper, const char *expected)
{
    snprintf(c->name, sizeof c->name, "%s", name);
    snprintf(c->expected, sizeof c->expected, "%s", expected);
    c->count = count;
    for (size_t i = 0; i < MOST_GIVEN; i++) {
        c->pairs[i].lower = lower;
        c->pairs[i].upper = upper;
    }
}

/* No number of pairs above 16 is cut to one that is allowed. */
static void check_counts(void)
{
    static const size_t counts[] = {
        0, 17, 18, 32, 33, 255, 256, 257, 65536, 65537, (size_t)1 << 31, (size_t)1 << 32, ((size_t)1 << 32) + 1, SIZE_MAX / 2 + 2, SIZE_MAX - 1,
        SIZE_MAX,
    };
    static const bounds_figure half = { 500000000, -9 }, one = { 100000000, -8 };
    static or_case c;
    for (size_t i = 0; i < sizeof counts / sizeof counts[0]; i++) {
        set(&c, "a number of pairs that is refused", counts[i], half, one, "refused 17 at 0\n");
        check(&c);
        set(&c, "17 before 18", counts[i], one, half, "refused 17 at 0\n");
        check(&c);
    }
    set(&c, "1 pair", 1, half, one, "lower 5.00000000E-1\nupper 1.00000000E0\n");
    check(&c);
    set(&c, "16 pairs", 16, half, half, "lower 9.99984741E-1\nupper 9.99984742E-1\n");
    check(&c);
}

/* The first pair that is out of range, wherever it stands, and whatever comes behind it. */
static void check_places(void)
{
    static const bounds_figure half = { 500000000, -9 }, one = { 100000000, -8 }, none = { 0, 1 };
    static or_case c;
    char expected[32];
    for (size_t place = 0; place < BOUNDS_MOST_PAIRS; place++) {
        snprintf(expected, sizeof expected, "refused 18 at %zu\n", place);
        set(&c, "the first of several", BOUNDS_MOST_PAIRS, half, one, expected);
        for (size_t i = place; i < BOUNDS_MOST_PAIRS; i++) {
            c.pairs[i].lower = i % 2 == 0 ? one : none;
            c.pairs[i].upper = half;
        }
        check(&c);
        set(&c, "the last of all", place + 1, half, one, expected);
        c.pairs[place].upper = none;
        check(&c);
    }
}

int main(int arguments, char **files)
{
    long cases = 0;
    digits = (uint64_t *)lent(BOUNDS_OR_FIGURES * sizeof *digits);
    powers = (int32_t *)lent(BOUNDS_OR_FIGURES * sizeof *powers);
    check_counts();
    check_places();
    for (int i = 1; i < arguments; i++)
        cases += each_case(files[i]);
    printf("orprob: %ld cases agree, whatever stands behind the pairs and in the buffers, and nothing else is read or changed\n", cases);
    return cases == 0;
}
