/* Weekly schedules and times for a draw or a wait. */
#ifndef DRAW_TIMES_H
#define DRAW_TIMES_H

#include "calls.h"
#include "reference/reference.h"

/* Any time within the limits; gives it to a call. */
struct when any_time(void);
void call_at(struct call *call, const struct when *when);

/* A schedule without a window; one with any windows; gives a weekday, 0 for Monday, a window. */
struct buffer schedule_blank(void);
struct buffer any_schedule(void);
void schedule_window(struct buffer *schedule, unsigned weekday, uint64_t start, uint64_t end);

/* Gives the day of a time any window that has the time in it. */
void schedule_allow(struct buffer *schedule, const struct when *when);

#endif
