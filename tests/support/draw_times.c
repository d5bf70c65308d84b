/* See draw_times.h. */
#include "draw_times.h"

#include "chance.h"

#include <string.h>

enum { WEEKDAYS = 7, WINDOW_BYTES = LEGBARO_PLAN_BYTES / WEEKDAYS };

struct when any_time(void)
{
    static const uint64_t days[] = {31, 28, 31, 30, 31, 30, 31, 31, 30, 31, 30, 31};
    struct when when = {2000 + chance_below(100), 1 + chance_below(12), 1,
                        chance_below(LEGBARO_DAY_MINUTES)};
    int february = when.month == 2 && when.year % 4 == 0;
    when.day += chance_below(days[when.month - 1] + (uint64_t)february);
    return when;
}

void call_at(struct call *call, const struct when *when)
{
    call->year = when->year;
    call->month = when->month;
    call->day = when->day;
    call->minute = when->minute;
}

struct buffer schedule_blank(void)
{
    struct buffer schedule = buffer_blank(LEGBARO_PLAN_BYTES);
    memset(schedule.bytes, 0, schedule.length);
    return schedule;
}

void schedule_window(struct buffer *schedule, unsigned weekday, uint64_t start, uint64_t end)
{
    buffer_put_number(schedule, weekday * WINDOW_BYTES, 2, start);
    buffer_put_number(schedule, weekday * WINDOW_BYTES + 2, 2, end);
}

struct buffer any_schedule(void)
{
    struct buffer schedule = schedule_blank();
    for (unsigned weekday = 0; weekday < WEEKDAYS; weekday++)
        if (!chance_of(3))
            schedule_window(&schedule, weekday, chance_below(LEGBARO_DAY_MINUTES),
                            chance_below(LEGBARO_DAY_MINUTES));
    return schedule;
}

/* The window shuts at a later minute of the day, or runs past midnight; on the last minute of a day
 * it always does. */
void schedule_allow(struct buffer *schedule, const struct when *when)
{
    uint64_t later = LEGBARO_DAY_MINUTES - 1 - when->minute;
    int past_midnight = later == 0 || (when->minute > 0 && chance_of(2));
    uint64_t start =
        past_midnight ? 1 + chance_below(when->minute) : chance_below(when->minute + 1);
    schedule_window(schedule, reference_weekday(when), start,
                    past_midnight ? chance_below(start) : when->minute + 1 + chance_below(later));
}
