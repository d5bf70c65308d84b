/* A weekly plan of draws, as a text, and times. */
#ifndef PLAN_H
#define PLAN_H

#include "legbaro.h"
#include "options.h"

struct plan {
    const char *path; /* null where there is no plan, and every minute is allowed */
    uint8_t bytes[LEGBARO_PLAN_BYTES];
    uint64_t year, month, day, minute;
};

/*
 * The plan of --plan, or else the file `plan` in the folder, or else none; and the time of --at, as
 * in 2026-11-23T10:30, or else of the clock. A plan has lines such as 'Mon-Sat 21:00-06:00' or 'Sun
 * 08:00-22:00': days and the window that begins on each of them. A day that no line names has no
 * window. Lines that begin with # are passed over. Refused, with the number of the line: a second
 * line for one day, a window of a whole day, and a NUL byte; and a plan of more than
 * MOST_TEXT_BYTES.
 */
struct plan read_plan(const struct options *options);

/* A wait of so many minutes in words. */
const char *wait_words(uint64_t minutes);

#endif
