/*
 * Says which failure dominates in Example 1 of NASA TP 2764 (examples/papers/tp2764-ex1.txt): a row for each state in which the system has failed. From
 * the root of the repository, once `tools/archive` has made the archive:
 *
 *     gcc -Iinclude -o target/rows examples/c/rows.c target/lib/libbounds.a && target/rows
 */
#include <bounds.h>
#include <stdio.h>

int main(void)
{
    static const uint32_t model[] = {
        0x11005001, 0x20000001, 0x30000000, 0x41801000, /* 5 states, start 1, mission time 1, prune level 0, 24 steps, 1 entry */
        0x50001002, 0x60500006, /* slow from 1 to 2 at 6E-5 */
        0x50002003, 0x60500005, /* slow from 2 to 3 at 5E-5: a fault before the recovery */
        0x70002004, 0x80400001, 0x90500001, 0xA0000001, /* fast from 2 to 4: recovery, mean 1E-4, deviation 1E-5 */
        0x50004005, 0x60500002, /* slow from 4 to 5 at 2E-5: one after it */
        0xF0000000,
    };
    const size_t count = sizeof model / sizeof model[0];

    /* So many rows are enough for every model. They are static, since not every thread has the stack for them. */
    static bounds_row rows[BOUNDS_MOST_ROWS];
    size_t filled;
    bounds_answer answer = bounds_ask_rows(model, count, BOUNDS_MOST_BUDGET, rows, BOUNDS_MOST_ROWS, &filled);
    if (answer.refusal == BOUNDS_OTHER_VERSION) {
        fprintf(stderr, "the library is of version %d, not of the header's\n", (int)bounds_version());
        return 2;
    }
    if (answer.refusal != BOUNDS_REPORTED) {
        char sentence[BOUNDS_SENTENCE_SIZE];
        fprintf(stderr, "%s\n", bounds_sentence_at(answer.refusal, answer.place, sentence));
        return 1;
    }

    /* The greatest upper. The figures are compared by the library, not as doubles; nine digits of the double above a figure are the figure's own. */
    size_t greatest = 0;
    for (size_t i = 0; i < filled; i++) {
        printf("state %d: at most %.9G\n", (int)rows[i].state, bounds_double_above(rows[i].upper));
        if (!bounds_meets(rows[i].upper, rows[greatest].upper))
            greatest = i;
    }
    if (filled > 0)
        printf("state %d dominates\n", (int)rows[greatest].state);
    return 0;
}
