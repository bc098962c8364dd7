/* An answer as the report program prints it, from numbers. */
#ifndef ANSWERS_H
#define ANSWERS_H

#include "../../include/bounds.h"
#include <inttypes.h>
#include <stdio.h>

static inline int put_figure(char *to, size_t room, const char *label, bounds_figure f)
{
    if (f.digits == 0)
        return snprintf(to, room, "%s 0\n", label);
    return snprintf(to, room, "%s %" PRIu64 ".%08" PRIu64 "E%" PRId64 "\n", label, f.digits / 100000000, f.digits % 100000000, (int64_t)f.power + 8);
}

/* Returns how many bytes it wrote, the zero byte at the end left out. */
static inline int put_answer(char *to, size_t room, bounds_answer a)
{
    if (a.refusal != BOUNDS_REPORTED)
        return snprintf(to, room, "refused %" PRIu64 " at %" PRIu64 "\n", a.refusal, a.place);
    int n = put_figure(to, room, "lower", a.lower);
    n += put_figure(to + n, room - (size_t)n, "upper", a.upper);
    n += put_figure(to + n, room - (size_t)n, "cut", a.cut);
    n += snprintf(to + n, room - (size_t)n, "deaths %" PRIu64 "\ncuts %" PRIu64 "\nsteps %" PRIu64 "\n", a.deaths, a.cuts, a.steps);
    return n + snprintf(to + n, room - (size_t)n, "exact %d%d\n", a.lower_exact, a.upper_exact);
}

#endif
