/* The clock, time zones, and times in words. */
#ifndef CLOCK_H
#define CLOCK_H

#include <stdint.h>
#include <time.h>

/* No time: one that can't be read. */
#define UNKNOWN_TIME ((time_t)-1)

/* The time now: of the clock, or of the environment's LEGBARO_CLOCK, as in 2026-11-23T21:00:00Z,
 * with which tests repeat themselves. A LEGBARO_CLOCK that is no time is refused. */
time_t clock_now(void);

/* A time's date and time of the day in the local zone. A TZ that names no zone is refused: the C
 * library takes it for UTC and says nothing. */
struct tm local_time(time_t time);

/* The local zone at a time in words, as in "CET, UTC+01:00". */
const char *zone_words(const struct tm *local);

/* A time in words: in UTC, as in 2026-11-23T21:00:00Z; local, as in 2026-11-23 22:00. */
const char *utc_words(time_t time);
const char *local_words(time_t time);

/* The time of words such as utc_words writes, UNKNOWN_TIME for others. They have 20 bytes and
 * need no end. */
enum { UTC_LENGTH = 20 };
time_t read_utc(const char *words);

/* The local time of a date, as in 2026-11-23, or of one with a time of the day, as in
 * 2026-11-23T21:00. Other words are refused as the value of an option. */
time_t read_local(const char *words, const char *option);

/* How long ago a time is, in words: "3 days ago", "5 min ago"; of a later time "in the future". */
const char *ago_words(time_t time, time_t now);

#endif
