/*
 * One figure for three subsystems that fail independently of one another: triplicated sensors, a triad of processors and an actuator, as SURE's ORPROB
 * command gives it. From the root of the repository, once `tools/archive` has made the archive:
 *
 *     gcc -Iinclude -o target/orprob examples/c/orprob.c target/lib/libbounds.a && target/orprob
 */
#include <bounds.h>
#include <stdio.h>

/* examples/papers/rp-12.1-sensors.txt: the second of three sensors fails. */
static const uint32_t sensors[] = {
    0x11003001, 0x2000000A, 0x30000000, 0x41801000, /* 3 states, start 1, mission time 10, prune level 0, 24 steps, 1 entry */
    0x50001002, 0x60700072, /* slow from 1 to 2 at 1.14E-5 */
    0x50002003, 0x6070004C, /* slow from 2 to 3 at 7.6E-6 */
    0xF0000000,
};

/* examples/papers/rp-10.3-onetriad.txt: a second processor fails before the recovery from the first, or the last one after it. */
static const uint32_t processors[] = {
    0x11005002, 0x2000000A, 0x30000000, 0x41801000, /* 5 states, start 2, and the rest as above */
    0x50002003, 0x60400003, /* slow from 2 to 3 at 3E-4 */
    0x70003004, 0x80943D12, 0x90943D12, 0xA0000001, /* fast from 3 to 4: recovery, mean and deviation 2.77778E-4 */
    0x50003001, 0x60400002, /* slow from 3 to 1 at 2E-4 */
    0x50004005, 0x60400001, /* slow from 4 to 5 at 1E-4 */
    0xF0000000,
};

/* examples/papers/rp-12.1-actuator.txt: it fails as a whole. */
static const uint32_t actuator[] = {
    0x11002001, 0x2000000A, 0x30000000, 0x41801000, /* 2 states, start 1, and the rest as above */
    0x50001002, 0x60800001, /* slow from 1 to 2 at 1E-8 */
    0xF0000000,
};

static const struct {
    const char *name;
    const uint32_t *words;
    size_t count;
} subsystems[] = {
    { "sensors", sensors, sizeof sensors / sizeof sensors[0] },
    { "processors", processors, sizeof processors / sizeof processors[0] },
    { "actuator", actuator, sizeof actuator / sizeof actuator[0] },
};

enum { SUBSYSTEMS = sizeof subsystems / sizeof subsystems[0] };

/* The figure as a report prints it. */
static void print_figure(const char *before, bounds_figure figure)
{
    if (figure.digits == 0)
        printf("%s0", before);
    else
        printf("%s%d.%08dE%d", before, (int)(figure.digits / 100000000), (int)(figure.digits % 100000000), (int)figure.power + 8);
}

/* Says why there is no answer, and hands the exit status back. */
static int refused(const char *what, uint64_t refusal, uint64_t place)
{
    char sentence[BOUNDS_SENTENCE_SIZE];
    if (refusal == BOUNDS_OTHER_VERSION) {
        fprintf(stderr, "the library is of version %d, not of the header's\n", (int)bounds_version());
        return 2;
    }
    fprintf(stderr, "%s: %s\n", what, bounds_sentence_at(refusal, place, sentence));
    return 1;
}

int main(void)
{
    bounds_pair pairs[SUBSYSTEMS];
    for (size_t i = 0; i < SUBSYSTEMS; i++) {
        bounds_answer answer = bounds_ask(subsystems[i].words, subsystems[i].count, BOUNDS_MOST_BUDGET);
        if (answer.refusal != BOUNDS_REPORTED)
            return refused(subsystems[i].name, answer.refusal, answer.place);
        pairs[i].lower = answer.lower;
        pairs[i].upper = answer.upper;
        printf("%s", subsystems[i].name);
        print_figure(" from ", answer.lower);
        print_figure(" to ", answer.upper);
        printf("\n");
    }

    /* The bounds on the failure of at least one. That they fail independently, this program takes upon itself: the library cannot tell. */
    bounds_or_answer together = bounds_ask_or(pairs, SUBSYSTEMS);
    if (together.refusal != BOUNDS_REPORTED)
        return refused("together", together.refusal, together.place);
    print_figure("lower ", together.lower);
    print_figure("\nupper ", together.upper);
    printf("\n");
    return 0;
}
