/* The reference implementation's calendar and windows. See parts.h. */
#include "parts.h"

#include <string.h>

enum { FIRST_YEAR = 2000, LAST_YEAR = 2099, MONTHS = 12, SATURDAY = 5 };

/* ---- The calendar ---- */

static int is_leap(uint64_t year)
{
    return year % 400 == 0 || (year % 4 == 0 && year % 100 != 0);
}

static uint64_t days_in(uint64_t year, uint64_t month)
{
    static const uint64_t days[MONTHS] = {31, 28, 31, 30, 31, 30, 31, 31, 30, 31, 30, 31};
    return month == 2 && is_leap(year) ? 29 : days[month - 1];
}

/* "a Gregorian date (year, month, day) from 1 January 2000 to 31 December 2099 and a minute from 0
 * to 1,439" */
int when_fits(const struct when *when)
{
    return within(FIRST_YEAR, when->year, LAST_YEAR) && within(1, when->month, MONTHS) &&
           within(1, when->day, days_in(when->year, when->month)) && when->minute < DAY;
}

/* 1 January 2000 was a Saturday; from then on the days are counted one by one. */
unsigned reference_weekday(const struct when *when)
{
    uint64_t days = SATURDAY + when->day - 1;
    for (uint64_t year = FIRST_YEAR; year < when->year; year++)
        days += is_leap(year) ? 366 : 365;
    for (uint64_t month = 1; month < when->month; month++)
        days += days_in(when->year, month);
    return (unsigned)(days % WEEKDAYS);
}

/* ---- Windows ---- */

static void read_window(const uint8_t *schedule, unsigned weekday, uint64_t *start, uint64_t *end)
{
    const uint8_t *at = schedule + weekday * PLAN_BYTES / WEEKDAYS;
    *start = take(&at, 2);
    *end = take(&at, 2);
}

/* "Plan minutes above 1,439 are code 3" */
int schedule_fits(const uint8_t *schedule)
{
    for (unsigned weekday = 0; weekday < WEEKDAYS; weekday++) {
        uint64_t start, end;
        read_window(schedule, weekday, &start, &end);
        if (start >= DAY || end >= DAY)
            return 0;
    }
    return 1;
}

/* Marks the minutes of the week, from Monday's first, that the windows allow: "start included, end
 * excluded, empty when equal, running past midnight when the end is smaller" */
static void open_windows(const uint8_t *schedule, uint8_t *allowed)
{
    memset(allowed, 0, WEEK);
    for (unsigned weekday = 0; weekday < WEEKDAYS; weekday++) {
        uint64_t start, end;
        read_window(schedule, weekday, &start, &end);
        if (end < start)
            end += DAY;
        for (uint64_t minute = start; minute < end; minute++)
            allowed[(weekday * DAY + minute) % WEEK] = 1;
    }
}

/* "the wait in minutes for the first allowed one among the 10,080 that start with the given one,
 * 10,080 for none" */
uint64_t wait_for(const uint8_t *schedule, const struct when *when)
{
    uint8_t allowed[WEEK];
    uint64_t now = reference_weekday(when) * DAY + when->minute, wait = 0;
    open_windows(schedule, allowed);
    while (wait < WEEK && !allowed[(now + wait) % WEEK])
        wait++;
    return wait;
}

/* "before everything else, a date or minute outside these (16)" */
uint64_t reference_wait(const uint8_t *plan, size_t plan_length, uint64_t year, uint64_t month,
                        uint64_t day, uint64_t minute)
{
    struct when when = {year, month, day, minute};
    if (!when_fits(&when))
        return LEGBARO_BAD_TIME;
    if (plan_length != PLAN_BYTES)
        return LEGBARO_WRONG_LENGTH;
    return schedule_fits(plan) ? LEGBARO_OK + 256 * wait_for(plan, &when) : LEGBARO_OUT_OF_LIMITS;
}
