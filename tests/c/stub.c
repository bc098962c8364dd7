/*
 * A stand-in for the library, for what the doors do with a version, a refusal, a row, a mark or combined figures that they do not know.
 * BOUNDS_STUB_VERSION is the version that it says it is of, BOUNDS_STUB_REFUSAL the number that it refuses by; BOUNDS_STUB_LOWER_EXACT and
 * BOUNDS_STUB_UPPER_EXACT are the marks; unless BOUNDS_STUB_STATE is 0, the first row is of that state, with BOUNDS_STUB_DIGITS in both figures.
 * BOUNDS_STUB_OR_REFUSAL, BOUNDS_STUB_OR_PLACE, BOUNDS_STUB_OR_LOWER and BOUNDS_STUB_OR_UPPER are what bounds_or hands back and writes, with
 * BOUNDS_STUB_OR_POWER as the power of both. Where the version is another than the header's, nothing else may be called: the program is ended.
 */
#include "../../include/bounds.h"
#include <stdio.h>
#include <stdlib.h>

static uint64_t number(const char *name)
{
    const char *value = getenv(name);
    return value == NULL ? 0 : strtoull(value, NULL, 10);
}

static void called(const char *function)
{
    if (!bounds_version_agrees()) {
        fprintf(stderr, "stub: %s was called in spite of its version\n", function);
        abort();
    }
}

uint64_t bounds_version(void)
{
    return number("BOUNDS_STUB_VERSION");
}

uint64_t bounds_assess(const uint32_t *words, size_t count, uint64_t budget, uint64_t values[BOUNDS_VALUES], int32_t powers[BOUNDS_POWERS])
{
    (void)words, (void)count, (void)budget;
    called("bounds_assess");
    memset(values, 0, BOUNDS_VALUES * sizeof *values);
    memset(powers, 0, BOUNDS_POWERS * sizeof *powers);
    values[BOUNDS_PLACE] = 5;
    values[BOUNDS_LOWER_EXACT] = number("BOUNDS_STUB_LOWER_EXACT");
    values[BOUNDS_UPPER_EXACT] = number("BOUNDS_STUB_UPPER_EXACT");
    return number("BOUNDS_STUB_REFUSAL");
}

uint64_t bounds_assess_rows(const uint32_t *words, size_t count, uint64_t budget, bounds_row *rows, size_t row_count, uint64_t values[BOUNDS_VALUES],
                            int32_t powers[BOUNDS_POWERS])
{
    uint64_t state = number("BOUNDS_STUB_STATE"), digits = number("BOUNDS_STUB_DIGITS");
    called("bounds_assess_rows");
    if (state != 0 && row_count > 0) {
        bounds_row row = { state, { digits, 0 }, { digits, 0 } };
        rows[0] = row;
    }
    return bounds_assess(words, count, budget, values, powers);
}

size_t bounds_text(const uint32_t *words, size_t count, uint64_t budget, uint8_t text[BOUNDS_TEXT_SIZE])
{
    (void)words, (void)count, (void)budget, (void)text;
    called("bounds_text");
    return 0;
}

size_t bounds_words(const uint8_t *bytes, size_t count, uint32_t words[BOUNDS_WORDS_SIZE])
{
    (void)bytes, (void)count, (void)words;
    called("bounds_words");
    return 0;
}

uint64_t bounds_at_or_below(uint64_t digits, int32_t power, uint64_t limit_digits, int32_t limit_power)
{
    (void)digits, (void)power, (void)limit_digits, (void)limit_power;
    called("bounds_at_or_below");
    return 2;
}

uint64_t bounds_or(const uint64_t digits[BOUNDS_OR_FIGURES], const int32_t powers[BOUNDS_OR_FIGURES], size_t pairs,
                   uint64_t or_values[BOUNDS_OR_VALUES], int32_t or_powers[BOUNDS_OR_POWERS])
{
    int32_t power = (int32_t)number("BOUNDS_STUB_OR_POWER");
    (void)digits, (void)powers, (void)pairs;
    called("bounds_or");
    or_values[BOUNDS_OR_PLACE] = number("BOUNDS_STUB_OR_PLACE");
    or_values[BOUNDS_OR_LOWER_DIGITS] = number("BOUNDS_STUB_OR_LOWER");
    or_values[BOUNDS_OR_UPPER_DIGITS] = number("BOUNDS_STUB_OR_UPPER");
    or_powers[BOUNDS_OR_LOWER_POWER] = power;
    or_powers[BOUNDS_OR_UPPER_POWER] = power;
    return number("BOUNDS_STUB_OR_REFUSAL");
}
