/* When a plan allows the next draw. */
#ifndef WAIT_H
#define WAIT_H

#include "plan.h"

#include <time.h>

struct opening {
    uint64_t minutes; /* from the plan's time on: 0 for now, LEGBARO_WEEK_MINUTES for never */
    struct tm local;  /* the time on the local clock, with its zone; not for never */
};

/* Writes the opening, and returns the library's code. */
uint64_t next_opening(const struct plan *plan, struct opening *opening);

#endif
