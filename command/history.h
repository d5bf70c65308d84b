/* What a journal says of a file over time, for pictures. */
#ifndef HISTORY_H
#define HISTORY_H

#include <stdint.h>
#include <time.h>

/* A line of the journal: what stood after it, and what it judged. */
struct point {
    time_t time;
    uint64_t blocks, left; /* UNTOLD where the line does not say */
    enum { NO_AUDIT, ACCEPTED, REJECTED_ONE, PROOF } audit;
};

struct history {
    struct point *points; /* in the order of the journal */
    int count;
    uint64_t damaged, future; /* lines that are left out */
    uint64_t accepted, rejected, proofs;
};

/* Reads the journal of a folder; a missing one is empty. */
struct history read_history(const char *folder, time_t now);

/* How many tokens are drawn a day, by what the journal has; 0 where that can't be told. */
double pace_of(const struct history *history, time_t now);

#endif
