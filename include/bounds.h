/*
 * Bounds on the probability that a system fails, from a model's words: the proved library for C and C++.
 *
 * `tools/archive` makes the archive, target/lib/libbounds.a; `tools/install PREFIX` puts it, this header and a file for pkg-config in place. The
 * functions under "Exported" are proved: each promises its result as an equation with the definitions of documents 01 and 02, for all words, all
 * budgets, any rows and any pairs of figures. The inline functions of this header are not proved; tests/c tries them.
 *
 * Which version. The archive must be of the header's own version, since another may write more numbers into a caller's buffers. Nothing but a
 * comparison at run time can tell: call bounds_version_agrees first, and nothing else where it says 0. bounds_ask, bounds_ask_rows and bounds_ask_or
 * look by themselves.
 *
 * Who owns what. Every buffer is the caller's. The library keeps no pointer after a call, asks for no memory, makes no system call and uses no
 * floating point. Words, bytes and figures that are lent by a pointer to const are only read. A pointer is never null, also where the count beside it
 * is 0, and is aligned for its type; a buffer that is written overlaps no other. Nothing else is asked of a caller: any words, any counts that
 * the memory holds and any budget have an answer.
 *
 * Re-entrancy. There is no global and no thread-local state. Any number of threads may call at once, each with its own buffers, and may lend
 * the same words.
 *
 * Stack. A call needs at most BOUNDS_STACK bytes of stack, 320 kilobytes; lent rows are not counted. That is measured, not proved: the tests run
 * every call in a thread that has so much and what the thread itself needs (PTHREAD_STACK_MIN), and see what it used (tests/c/stack.c).
 *
 * Time. It grows with the words and with the steps, of which the budget allows so many; measured (docs/BENCHMARK.md), not proved.
 */
#ifndef BOUNDS_H
#define BOUNDS_H

#include <float.h>
#include <stddef.h>
#include <stdint.h>
#include <string.h>

#ifdef __cplusplus
extern "C" {
#endif

/* ---- The version: major * 1,000,000 + minor * 1,000 + patch. CHANGELOG.md says what each brought. */

#define BOUNDS_VERSION 1005001
#define BOUNDS_MAJOR(version) ((int)((version) / 1000000))
#define BOUNDS_MINOR(version) ((int)((version) / 1000 % 1000))
#define BOUNDS_PATCH(version) ((int)((version) % 1000))

/* ---- Sizes */

#define BOUNDS_MOST_WORDS 16105      /* a model has at most so many words */
#define BOUNDS_MOST_BUDGET 1000000   /* a budget is from 1 to this */
#define BOUNDS_MOST_ROWS 1000        /* so many rows are enough for every model */
#define BOUNDS_MOST_PAIRS 16         /* bounds_or combines at most so many pairs of figures */
#define BOUNDS_OR_FIGURES (2 * BOUNDS_MOST_PAIRS) /* the digits, and the powers, that are lent to bounds_or */
#define BOUNDS_WORDS_SIZE (BOUNDS_MOST_WORDS + 1) /* the words that bounds_words writes: one more than a model may have */
#define BOUNDS_TEXT_SIZE 256         /* the bytes that bounds_text writes */
#define BOUNDS_STACK 327680          /* the stack that a call needs at most, in bytes */
#define BOUNDS_SENTENCE_SIZE 160     /* the bytes that bounds_sentence_at writes at most, the zero byte at the end included */

/*
 * ---- Refusals
 *
 * A refusal has a number and a place. For 3 to 9 and 15 the place is that of a word, counted from 0 (where the words ran out, it is their number);
 * for 10, 11 and 16 it is a state; for 14 it is the number of rows needed; for 18 it is a pair, counted from 0; for 1, 2, 13 and 17 it is 0. Only
 * bounds_assess_rows refuses by 14. Only bounds_or refuses by 17 and 18, and by no other. bounds_sentence has a sentence for each that a tool can
 * show. Only 0 is a report, or of bounds_or the combined figures: later versions add numbers, and one that a program does not know is a refusal all
 * the same.
 */
enum bounds_refusal {
    BOUNDS_REPORTED = 0, /* no refusal */

    /* By the caller. */
    BOUNDS_TOO_MANY_WORDS = 1,
    BOUNDS_BUDGET_OUT_OF_RANGE = 2,
    BOUNDS_OVER_BUDGET = 13,
    BOUNDS_TOO_FEW_ROWS = 14,
    BOUNDS_PAIR_COUNT_OUT_OF_RANGE = 17,
    BOUNDS_PAIR_OUT_OF_RANGE = 18,

    /* By whoever wrote the words. */
    BOUNDS_WRONG_KIND = 3,
    BOUNDS_BIT_SET = 4,
    BOUNDS_QUANTITY_OUT_OF_RANGE = 5,
    BOUNDS_FIELD_OUT_OF_RANGE = 6,
    BOUNDS_STATE_NOT_GREATER = 15,

    /* By whoever drew the model. */
    BOUNDS_SELF_TRANSITION = 7,
    BOUNDS_DUPLICATE_TRANSITION = 8,
    BOUNDS_TOO_MANY_TRANSITIONS = 9,
    BOUNDS_PROBABILITIES_NOT_ONE = 10,
    BOUNDS_START_WITHOUT_EXITS = 11,
    BOUNDS_NAMED_STATE_WITH_EXITS = 16
};

/* What bounds_ask, bounds_ask_rows and bounds_ask_or answer where the archive is not of the header's version; no number of the documents'. */
#define BOUNDS_OTHER_VERSION UINT64_MAX

/*
 * ---- Figures
 *
 * A figure is digits times ten to a power: 999500000 and -12 are 9.99500000E-4. It is zero (digits 0, power 0), or its digits are a whole number
 * from 100,000,000 to 999,999,999. The upper figure is never below the exact upper sum and the lower figure never above the exact lower sum;
 * how near they are, the accuracy rule of document 01 says. Beside each of the two stands a mark: 1 says that the figure is that sum itself, 0 says
 * nothing, and a figure beside a 0 may still equal its sum.
 */
typedef struct {
    uint64_t digits;
    int32_t power;
} bounds_figure;

/*
 * ---- Rows: one for each way to fail
 *
 * A row has the two figures for one state without exits, of the paths that end in that state alone: the accuracy rule holds for it over these.
 * The paths that were cut are in no row. A model has a row for each state without exits that is the target of a transition, reached or not, and that
 * the words do not name as the generator's; where no path ends in the state, both figures are zero. The rounded figures of the rows need not add up
 * to those of the report.
 */
typedef struct {
    uint64_t state; /* its number, from 1 */
    bounds_figure lower;
    bounds_figure upper;
} bounds_row;

/* The library writes rows of this size; a compiler that lays them out otherwise stops here. */
typedef char bounds_row_has_40_bytes[sizeof(bounds_row) == 40 ? 1 : -1];

/* What bounds_assess and bounds_assess_rows write: where each number stands in `values` and in `powers`. */
enum bounds_value {
    BOUNDS_PLACE,        /* a refusal's place; 0 in a report */
    BOUNDS_LOWER_DIGITS, /* the figures and counts of a report; all 0 in a refusal */
    BOUNDS_UPPER_DIGITS,
    BOUNDS_CUT_DIGITS, /* the cut paths' part of the upper figure: those that a limit ended, and those that end in a generator's state */
    BOUNDS_DEATHS,
    BOUNDS_CUTS,
    BOUNDS_STEPS,
    BOUNDS_LOWER_EXACT, /* 1 where no rounding that lower rests on lost anything: lower equals its exact sum. 0 claims nothing */
    BOUNDS_UPPER_EXACT, /* the same of upper */
    BOUNDS_VALUES /* how many there are */
};

enum bounds_power {
    BOUNDS_LOWER_POWER, /* all 0 in a refusal */
    BOUNDS_UPPER_POWER,
    BOUNDS_CUT_POWER,
    BOUNDS_POWERS
};

/* What bounds_or writes: where each number stands in `or_values` and in `or_powers`. */
enum bounds_or_value {
    BOUNDS_OR_PLACE,        /* a refusal's place; 0 beside combined figures */
    BOUNDS_OR_LOWER_DIGITS, /* the combined figures; all 0 in a refusal */
    BOUNDS_OR_UPPER_DIGITS,
    BOUNDS_OR_VALUES /* how many there are */
};

enum bounds_or_power {
    BOUNDS_OR_LOWER_POWER, /* all 0 in a refusal */
    BOUNDS_OR_UPPER_POWER,
    BOUNDS_OR_POWERS
};

/* ---- Exported */

/* The version of the archive, as BOUNDS_VERSION has that of the header. */
uint64_t bounds_version(void);

/*
 * The answer to `count` words under a budget of steps. Returns 0 for a report and otherwise the refusal's number. Writes every number of
 * `values` and `powers`, whatever they held, in a refusal too: there the place, and zeros for all the rest.
 */
uint64_t bounds_assess(const uint32_t *words, size_t count, uint64_t budget, uint64_t values[BOUNDS_VALUES], int32_t powers[BOUNDS_POWERS]);

/*
 * The same answer, and in `rows` the bounds on each way to fail. The first of the `row_count` rows are filled, in order of state number, one for
 * each state that has a row (see "Rows"); rows behind these are unchanged. Where there are fewer rows than such states, it refuses by 14, with
 * the number of rows needed as its place: after every other refusal but 13, which is the walk's. With BOUNDS_MOST_ROWS rows that never happens.
 * A refusal by 13 fills the rows with their state numbers and zeros; any other changes none. `rows` is not null, also where `row_count` is 0.
 *
 * How many rows were filled is not handed back. A caller who wants to know sets the states of all rows to 0 before: the filled ones have states from
 * 1 on. bounds_ask_rows does so.
 */
uint64_t bounds_assess_rows(const uint32_t *words, size_t count, uint64_t budget, bounds_row *rows, size_t row_count, uint64_t values[BOUNDS_VALUES],
                            int32_t powers[BOUNDS_POWERS]);

/*
 * The answer of bounds_assess as the report program prints it: seven lines for a report, one for a refusal, each ended by a newline, in ASCII.
 * Returns their length, at most BOUNDS_TEXT_SIZE; they are the first bytes of `text`, with no zero byte behind them: what the rest of `text` then
 * holds is free. A refusal has its line there.
 */
size_t bounds_text(const uint32_t *words, size_t count, uint64_t budget, uint8_t text[BOUNDS_TEXT_SIZE]);

/*
 * The words of a model that is held as bytes, four bytes a word, least significant first; left-over bytes are one more word, of no kind.
 * Returns how many there are, at most BOUNDS_WORDS_SIZE; they are the first of `words`, and what the rest then holds is free. Of more bytes than
 * so many words have it takes the first: these are already more words than a model may have, and bounds_assess refuses them (1). It refuses
 * nothing itself.
 */
size_t bounds_words(const uint8_t *bytes, size_t count, uint32_t words[BOUNDS_WORDS_SIZE]);

/*
 * Whether a figure is at or below a limit, as a requirement asks ("is upper at most 1E-9?"): 1 at or below, 0 above, 2 where one of the two is no
 * figure. Ask it so and not by doubles: the double that a compiler makes of 1E-6 lies below 1E-6, so that the figure 1.00000000E-6, turned into a
 * double above it, would miss a requirement that it meets (likewise at 1E-7, 1E-11 and 1E-12).
 */
uint64_t bounds_at_or_below(uint64_t digits, int32_t power, uint64_t limit_digits, int32_t limit_power);

/*
 * One figure for several subsystems, SURE's probabilistic OR: from a lower and an upper figure for each, a lower and an upper for the failure of at
 * least one. `digits` and `powers` hold lower 0, upper 0, lower 1, upper 1 and so on; there are always BOUNDS_OR_FIGURES of each, and what stands
 * behind the `pairs` pairs is of no account. Returns 0 for the combined figures, both at most 1: the lower is not above 1 minus the product of
 * (1 - p) over the lowers, the upper not below the same over the uppers, one above 1 being taken as 1, and each lies within one part in 1,000,000
 * of it.
 *
 * Returns 17 where `pairs` is 0, or 17 or more, whatever the pairs hold. Else returns 18, with the first such pair as its place, where one holds what
 * is no figure, a power outside -2,000 to 2,000, a lower above 1 or a lower above its upper. Writes every number of `or_values` and `or_powers`,
 * whatever they held, in a refusal too: there the place, and zeros for all the rest.
 *
 * It is the caller who knows that the subsystems fail independently of one another. The library cannot tell; where they do not, the probability may
 * lie outside the combined figures.
 */
uint64_t bounds_or(const uint64_t digits[BOUNDS_OR_FIGURES], const int32_t powers[BOUNDS_OR_FIGURES], size_t pairs,
                   uint64_t or_values[BOUNDS_OR_VALUES], int32_t or_powers[BOUNDS_OR_POWERS]);

#ifdef __cplusplus
}
#endif

/* ---- Inline: the version */

/* 1 if the archive is of the header's version. Else 0: no other function may be called then. */
static inline int bounds_version_agrees(void)
{
    return bounds_version() == BOUNDS_VERSION;
}

/* ---- Inline: an answer as one value */

/* 1 if the figure is at or below the limit. Else 0, also where one of the two is no figure. */
static inline int bounds_meets(bounds_figure figure, bounds_figure limit)
{
    return bounds_at_or_below(figure.digits, figure.power, limit.digits, limit.power) == 1;
}

typedef struct {
    uint64_t refusal; /* 0 in a report, else a number of enum bounds_refusal, of a later version, or BOUNDS_OTHER_VERSION */
    uint64_t place;
    bounds_figure lower;
    bounds_figure upper;
    bounds_figure cut;
    uint64_t deaths;
    uint64_t cuts;
    uint64_t steps;
    int lower_exact; /* 1: lower equals its exact sum. Else 0, which claims nothing; 0 in a refusal */
    int upper_exact;
} bounds_answer;

/* The numbers that the library wrote, by name. A mark that is not 1 claims nothing, whatever it is. */
static inline bounds_answer bounds_answer_of(uint64_t refusal, const uint64_t values[BOUNDS_VALUES], const int32_t powers[BOUNDS_POWERS])
{
    bounds_answer answer;
    answer.refusal = refusal;
    answer.place = values[BOUNDS_PLACE];
    answer.lower.digits = values[BOUNDS_LOWER_DIGITS];
    answer.lower.power = powers[BOUNDS_LOWER_POWER];
    answer.upper.digits = values[BOUNDS_UPPER_DIGITS];
    answer.upper.power = powers[BOUNDS_UPPER_POWER];
    answer.cut.digits = values[BOUNDS_CUT_DIGITS];
    answer.cut.power = powers[BOUNDS_CUT_POWER];
    answer.deaths = values[BOUNDS_DEATHS];
    answer.cuts = values[BOUNDS_CUTS];
    answer.steps = values[BOUNDS_STEPS];
    answer.lower_exact = values[BOUNDS_LOWER_EXACT] == 1;
    answer.upper_exact = values[BOUNDS_UPPER_EXACT] == 1;
    return answer;
}

/* Looks at the version first: where it is another, the answer is refusal BOUNDS_OTHER_VERSION with zeros for all the rest. */
static inline bounds_answer bounds_ask(const uint32_t *words, size_t count, uint64_t budget)
{
    uint64_t values[BOUNDS_VALUES] = { 0 };
    int32_t powers[BOUNDS_POWERS] = { 0 };
    uint64_t refusal = bounds_version_agrees() ? bounds_assess(words, count, budget, values, powers) : BOUNDS_OTHER_VERSION;
    return bounds_answer_of(refusal, values, powers);
}

/*
 * The same with rows, and in `*filled` how many of them were filled. Sets all `row_count` rows to zeros first, whatever they held: afterwards the
 * first `*filled` rows are as bounds_assess_rows fills them, and every row behind them is zeros, its state too. `*filled` is 0 in every refusal but
 * 13; there, the filled rows have their state numbers and zeros.
 */
static inline bounds_answer bounds_ask_rows(const uint32_t *words, size_t count, uint64_t budget, bounds_row *rows, size_t row_count, size_t *filled)
{
    uint64_t values[BOUNDS_VALUES] = { 0 };
    int32_t powers[BOUNDS_POWERS] = { 0 };
    uint64_t refusal = BOUNDS_OTHER_VERSION;
    size_t n = 0;
    memset(rows, 0, row_count * sizeof *rows);
    if (bounds_version_agrees())
        refusal = bounds_assess_rows(words, count, budget, rows, row_count, values, powers);
    while (n < row_count && rows[n].state != 0)
        n++;
    *filled = n;
    return bounds_answer_of(refusal, values, powers);
}

/* ---- Inline: one figure for several subsystems */

/* The bounds on one subsystem's failure, as an answer has them. */
typedef struct {
    bounds_figure lower;
    bounds_figure upper;
} bounds_pair;

typedef struct {
    uint64_t refusal; /* 0 beside combined figures, else 17, 18, a number of a later version, or BOUNDS_OTHER_VERSION */
    uint64_t place;
    bounds_figure lower; /* the combined figures; zeros in a refusal */
    bounds_figure upper;
} bounds_or_answer;

/*
 * bounds_or on `count` pairs, of which none is read where there are more than BOUNDS_MOST_PAIRS. Looks at the version first: where it is another, the
 * answer is refusal BOUNDS_OTHER_VERSION with zeros for all the rest.
 */
static inline bounds_or_answer bounds_ask_or(const bounds_pair *pairs, size_t count)
{
    uint64_t digits[BOUNDS_OR_FIGURES] = { 0 }, or_values[BOUNDS_OR_VALUES] = { 0 };
    int32_t powers[BOUNDS_OR_FIGURES] = { 0 }, or_powers[BOUNDS_OR_POWERS] = { 0 };
    bounds_or_answer answer;
    size_t i;
    for (i = 0; count <= BOUNDS_MOST_PAIRS && i < count; i++) {
        digits[2 * i] = pairs[i].lower.digits;
        powers[2 * i] = pairs[i].lower.power;
        digits[2 * i + 1] = pairs[i].upper.digits;
        powers[2 * i + 1] = pairs[i].upper.power;
    }
    answer.refusal = bounds_version_agrees() ? bounds_or(digits, powers, count, or_values, or_powers) : BOUNDS_OTHER_VERSION;
    answer.place = or_values[BOUNDS_OR_PLACE];
    answer.lower.digits = or_values[BOUNDS_OR_LOWER_DIGITS];
    answer.lower.power = or_powers[BOUNDS_OR_LOWER_POWER];
    answer.upper.digits = or_values[BOUNDS_OR_UPPER_DIGITS];
    answer.upper.power = or_powers[BOUNDS_OR_UPPER_POWER];
    return answer;
}

/* ---- Inline: sentences */

/*
 * A sentence on a refusal that a tool can show. Where it says PLACE, the place belongs; bounds_sentence_at puts it there. The sentence for 0, which
 * is no refusal, is empty.
 */
static inline const char *bounds_sentence(uint64_t refusal)
{
    switch (refusal) {
    case BOUNDS_REPORTED:
        return "";
    case BOUNDS_TOO_MANY_WORDS:
        return "The model has more than 16,105 words.";
    case BOUNDS_BUDGET_OUT_OF_RANGE:
        return "The budget must be from 1 to 1,000,000 steps.";
    case BOUNDS_OVER_BUDGET:
        return "The model has more steps than the budget allows.";
    case BOUNDS_TOO_FEW_ROWS:
        return "Fewer rows were lent than the PLACE that the model needs.";
    case BOUNDS_PAIR_COUNT_OUT_OF_RANGE:
        return "There must be from 1 to 16 pairs of figures.";
    case BOUNDS_PAIR_OUT_OF_RANGE:
        return "Pair PLACE holds what is no figure, a power of ten outside -2,000 to 2,000, or a lower above 1 or above its upper.";
    case BOUNDS_WRONG_KIND:
        return "Word PLACE is missing, or is not of the kind that belongs there.";
    case BOUNDS_BIT_SET:
        return "Word PLACE has a bit set that must be zero.";
    case BOUNDS_QUANTITY_OUT_OF_RANGE:
        return "The quantity in word PLACE is out of range.";
    case BOUNDS_FIELD_OUT_OF_RANGE:
        return "Word PLACE has an edition, state or limit out of range.";
    case BOUNDS_STATE_NOT_GREATER:
        return "The state named by word PLACE is not greater than the one named before it.";
    case BOUNDS_SELF_TRANSITION:
        return "The transition at word PLACE leads from a state to itself.";
    case BOUNDS_DUPLICATE_TRANSITION:
        return "The transition at word PLACE repeats an earlier one between the same two states.";
    case BOUNDS_TOO_MANY_TRANSITIONS:
        return "Word PLACE is the 17th exit of its state, the 4,001st transition or the 101st word that names a generator's state.";
    case BOUNDS_PROBABILITIES_NOT_ONE:
        return "The probabilities of the fast exits of state PLACE do not add up to exactly 1.";
    case BOUNDS_START_WITHOUT_EXITS:
        return "The start state PLACE has no exits.";
    case BOUNDS_NAMED_STATE_WITH_EXITS:
        return "State PLACE is named as the generator's and has exits.";
    case BOUNDS_OTHER_VERSION:
        return "The library is not of the version that this program was built for.";
    default:
        return "The model was refused by a number that this program does not know.";
    }
}

/* Writes the sentence with the place in it, and a zero byte behind it, into `text`, and hands `text` back. */
static inline const char *bounds_sentence_at(uint64_t refusal, uint64_t place, char text[BOUNDS_SENTENCE_SIZE])
{
    static const char mark[] = "PLACE";
    const char *sentence = bounds_sentence(refusal);
    const char *at = strstr(sentence, mark);
    char digits[20];
    size_t length = 0, count = 0, whole = strlen(sentence);

    if (at == NULL) {
        memcpy(text, sentence, whole + 1);
        return text;
    }
    length = (size_t)(at - sentence);
    memcpy(text, sentence, length);
    do {
        digits[count++] = (char)('0' + place % 10);
        place /= 10;
    } while (place != 0);
    while (count > 0)
        text[length++] = digits[--count];
    at += sizeof mark - 1;
    memcpy(text + length, at, strlen(at) + 1);
    return text;
}

/*
 * ---- Inline: a figure as a double
 *
 * Most figures are no double, so one that is converted by pow, strtod or a cast is rounded to the nearest, and that may lie on the wrong side:
 * an upper figure turned into a smaller number is no upper bound any more. bounds_double_above is the least double that is not below the figure
 * (for upper figures and for the cut part), bounds_double_below the greatest that is not above it (for lower figures). Both work on whole numbers,
 * round once and put the bits of the double together: they do no floating-point arithmetic, so that neither the rounding mode nor -ffast-math
 * changes them. A figure above DBL_MAX is infinity above and DBL_MAX below; one below the least positive double is that double above and 0
 * below. What a program then computes from the doubles is rounded again: keep to the figures where the side matters.
 */
#if FLT_RADIX != 2 || DBL_MANT_DIG != 53 || DBL_MAX_EXP != 1024
#error "bounds.h: a double must have the 64 bits of IEEE 754"
#endif

/* The bits of the least double not below digits * 10^power where `above` is set, else of the greatest not above it. */
static inline uint64_t bounds_double_bits(uint64_t digits, int32_t power, int above)
{
    enum { LIMBS = 48 };
    uint32_t limb[LIMBS] = { 0 }; /* the figure times 2^fraction, 32 bits each, the least first */
    int fraction, top, kept, scale, i, j;
    int lost = 0; /* whether anything was dropped */
    uint64_t whole = 0;

    if (digits == 0)
        return 0;
    /* Beyond these powers the figure is above every double, or below every one that is not 0. */
    power = power > 309 ? 309 : power < -400 ? -400 : power;
    i = power < 0 ? (64 - power * 10 / 3) / 32 + 1 : 0; /* enough for 64 bits after the divisions */
    fraction = 32 * i;
    limb[i] = (uint32_t)digits;
    limb[i + 1] = (uint32_t)(digits >> 32);
    for (i = 0; i < power; i++) {
        uint64_t carry = 0;
        for (j = 0; j < LIMBS; j++) {
            carry += (uint64_t)limb[j] * 10;
            limb[j] = (uint32_t)carry;
            carry >>= 32;
        }
    }
    for (i = 0; i > power; i--) {
        uint64_t rest = 0;
        for (j = LIMBS - 1; j >= 0; j--) {
            rest = rest << 32 | limb[j];
            limb[j] = (uint32_t)(rest / 10);
            rest %= 10;
        }
        lost |= rest != 0;
    }
    for (top = 32 * LIMBS - 1; (limb[top / 32] >> (top % 32) & 1) == 0; top--)
        ;
    /* A double has 53 bits, and none below 2^-1074. */
    kept = top - fraction + 1075;
    kept = kept > 53 ? 53 : kept;
    for (i = top; i >= 0 || i > top - kept; i--) {
        int bit = i < 0 ? 0 : (int)(limb[i / 32] >> (i % 32) & 1);
        if (i > top - kept)
            whole = 2 * whole + (uint64_t)bit;
        else
            lost |= bit;
    }
    /* The double is whole * 2^scale, and one more in its bits is the next one. The 53rd bit of `whole` adds one to the exponent that stands there. */
    scale = top - kept + 1 - fraction;
    if (scale > DBL_MAX_EXP - DBL_MANT_DIG)
        return above ? 0x7FF0000000000000u : 0x7FEFFFFFFFFFFFFFu;
    return whole + ((uint64_t)(scale + 1074) << 52) + (above && lost ? 1 : 0);
}

static inline double bounds_double(uint64_t digits, int32_t power, int above)
{
    uint64_t bits = bounds_double_bits(digits, power, above);
    double x;
    memcpy(&x, &bits, sizeof x);
    return x;
}

static inline double bounds_double_above(bounds_figure figure)
{
    return bounds_double(figure.digits, figure.power, 1);
}

static inline double bounds_double_below(bounds_figure figure)
{
    return bounds_double(figure.digits, figure.power, 0);
}

#endif
