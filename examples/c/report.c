/*
 * Prints the report on model A of document 01, and whether it meets a requirement. From the root of the repository, once `tools/archive` has made
 * the archive:
 *
 *     gcc -Iinclude -o target/report-a examples/c/report.c target/lib/libbounds.a && target/report-a
 */
#include <bounds.h>
#include <stdio.h>

int main(void)
{
    static const uint32_t model_a[] = {
        0x11002001, /* head: edition 1, 2 states, start 1 */
        0x2000000A, /* mission time 10 */
        0x30000000, /* prune level 0 */
        0x41801000, /* at most 24 steps, 1 entry of a state */
        0x50001002, /* slow from 1 to 2 */
        0x60400001, /* at the rate 1 / 10^4 */
        0xF0000000, /* end */
    };
    const size_t count = sizeof model_a / sizeof model_a[0];

    /* Before anything else: is this the archive that the header speaks of? */
    if (!bounds_version_agrees()) {
        const uint64_t version = bounds_version();
        fprintf(stderr, "bounds.h is of version %d.%d.%d, the library of %d.%d.%d: build with the header that came with the library\n",
                BOUNDS_MAJOR(BOUNDS_VERSION), BOUNDS_MINOR(BOUNDS_VERSION), BOUNDS_PATCH(BOUNDS_VERSION), BOUNDS_MAJOR(version),
                BOUNDS_MINOR(version), BOUNDS_PATCH(version));
        return 2;
    }

    /* The text that the report program prints. */
    uint8_t text[BOUNDS_TEXT_SIZE];
    size_t length = bounds_text(model_a, count, BOUNDS_MOST_BUDGET, text);
    fwrite(text, 1, length, stdout);

    /* The same answer as numbers. */
    bounds_answer answer = bounds_ask(model_a, count, BOUNDS_MOST_BUDGET);
    if (answer.refusal != BOUNDS_REPORTED) {
        char sentence[BOUNDS_SENTENCE_SIZE];
        fprintf(stderr, "%s\n", bounds_sentence_at(answer.refusal, answer.place, sentence));
        return 1;
    }

    /* A requirement: at most 1E-3. The figures are compared, not the doubles that they are shown by. */
    const bounds_figure limit = { 100000000, -11 };
    printf("at most 1E-3: %s\n", bounds_meets(answer.upper, limit) ? "yes" : "no");
    printf("between %.17g and %.17g\n", bounds_double_below(answer.lower), bounds_double_above(answer.upper));

    /* Was nothing rounded? A mark of 1 says so; one of 0 says nothing. */
    printf("upper equals its exact sum: %s\n", answer.upper_exact ? "yes" : "not known");
    return 0;
}
