/* Progress of what takes long, on standard error: on a terminal, or with --progress. One line is
 * shown at a time, and wiped when it is over; where a signal ends the program, it ends with
 * 'stopped'. */
#ifndef PROGRESS_H
#define PROGRESS_H

#include "files.h"

/* Where a record has its counter, of 8 bytes. */
enum { RECORD_COUNTER = 3 };

/* Which records count as sealed: those from a token on, up to the last, that have the counter.
 * There is no token 0, and nothing to look at. */
struct watch {
    int always; /* on any standard error, and not on a terminal alone */
    struct bytes table;
    uint64_t first, counter;
};

/* Makes a call, and returns its result. The library reports nothing while it computes. So a child
 * process makes the call in memory that both share, and the parent looks at the records of the
 * table that are sealed so far. What the call writes must be shared_room. Where no progress is
 * shown, there is no child. */
uint64_t with_progress(uint64_t (*call)(void *lent), void *lent, const struct watch *watch);

/* From now on progress is shown on any standard error. */
void always_show_progress(void);

/* Progress of bytes: begins a line, such as '12 of 1024 MiB written'; adds to it; wipes it. Nothing
 * is shown of less than a MiB. */
void progress_of(const char *what, uint64_t bytes);
void progressed(uint64_t bytes);
void progress_over(void);

#endif
