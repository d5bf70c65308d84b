/*
 * Dates, windows and the wait. Which dates there are, and their weekdays, come from the C library's
 * calendar; the wait is compared with a look at minute after minute.
 */
#define _DEFAULT_SOURCE
#include "cases.h"

#include "support/chance.h"
#include "support/draw_times.h"
#include "support/expect.h"
#include "support/files.h"

#include <time.h>

enum {
    FIRST_YEAR = 2000,
    LAST_YEAR = 2099,
    WEEKDAYS = 7,
    DAY = LEGBARO_DAY_MINUTES,
    WEEK = LEGBARO_WEEK_MINUTES
};
enum { RANDOM_SCHEDULES = 3000, DRAWS = 2000 };
enum { MONDAY, TUESDAY, WEDNESDAY, THURSDAY, FRIDAY, SATURDAY, SUNDAY };

/* What a wait returns, compared with the reference implementation. */
static uint64_t wait_of(const struct buffer *schedule, const struct when *when)
{
    struct call call = {.kind = WAIT};
    call.args[PLAN] = buffer_copy(schedule);
    call_at(&call, when);
    uint64_t number = call_compare(&call);
    call_free(&call);
    return number;
}

static void expect_wait(const struct buffer *schedule, const struct when *when, uint64_t minutes)
{
    uint64_t number = wait_of(schedule, when);
    expect(number == LEGBARO_OK + 256 * minutes,
           "wait at %llu-%llu-%llu, minute %llu: %llu, not %llu", (unsigned long long)when->year,
           (unsigned long long)when->month, (unsigned long long)when->day,
           (unsigned long long)when->minute, (unsigned long long)minutes,
           (unsigned long long)LEGBARO_NUMBER(number));
}

/* ---- The calendar ---- */

/* The C library's weekday of a date, 0 for Monday, or -1 where there is no such date. */
static int weekday_in_c(uint64_t year, uint64_t month, uint64_t day)
{
    struct tm date = {.tm_year = (int)year - 1900, .tm_mon = (int)month - 1, .tm_mday = (int)day};
    time_t noon = timegm(&date) + 12 * 60 * 60;
    struct tm back = *gmtime(&noon);
    int same = back.tm_year == (int)year - 1900 && back.tm_mon == (int)month - 1 &&
               back.tm_mday == (int)day;
    return same ? (back.tm_wday + 6) % WEEKDAYS : -1;
}

/* A date at its first minute, with a schedule that allows the first minute of each Monday. */
static void date(const struct buffer *mondays, uint64_t year, uint64_t month, uint64_t day)
{
    struct when when = {year, month, day, 0};
    int weekday = year < FIRST_YEAR || year > LAST_YEAR ? -1 : weekday_in_c(year, month, day);
    if (weekday < 0)
        expect(wait_of(mondays, &when) == LEGBARO_BAD_TIME, "%llu-%llu-%llu to be no date",
               (unsigned long long)year, (unsigned long long)month, (unsigned long long)day);
    else
        expect_wait(mondays, &when, (uint64_t)((WEEKDAYS - weekday) % WEEKDAYS) * DAY);
}

static void every_date(void)
{
    test_begin("every date from 2000 to 2099 and around, as the C library's calendar has it");
    struct buffer mondays = schedule_blank();
    schedule_window(&mondays, MONDAY, 0, 1);
    for (uint64_t year = FIRST_YEAR - 1; year <= LAST_YEAR + 1; year++)
        for (uint64_t month = 0; month <= 13; month++)
            for (uint64_t day = 0; day <= 32; day = tried_after(day, 6))
                date(&mondays, year, month, day);
    buffer_free(&mondays);
    test_end();
}

/* Numbers of more than 32 bits are no date; minutes are those of a day. */
static void large_numbers(void)
{
    static const uint64_t large[] = {UINT64_C(1) << 32, UINT64_C(3) << 32, UINT64_C(1) << 40,
                                     UINT64_C(1) << 63};
    test_begin("dates and minutes of large numbers");
    struct buffer schedule = any_schedule();
    for (size_t i = 0; i < sizeof large / sizeof *large; i++)
        for (int field = 0; field < 4; field++) {
            struct when when = {2026, 1, 1, 0};
            uint64_t *const numbers[] = {&when.year, &when.month, &when.day, &when.minute};
            *numbers[field] += large[i];
            expect(wait_of(&schedule, &when) == LEGBARO_BAD_TIME, "a number above 32 bits");
        }
    for (uint64_t minute = 0; minute < 2 * DAY; minute++) {
        struct when when = {2026, 11, 16, minute};
        expect((wait_of(&schedule, &when) == LEGBARO_BAD_TIME) == (minute >= DAY), "minute %llu",
               (unsigned long long)minute);
    }
    buffer_free(&schedule);
    test_end();
}

/* ---- Windows ---- */

/* Whether a schedule allows a minute of a weekday, by its own window or by that of the day
 * before. */
static int allows(const struct buffer *schedule, uint64_t weekday, uint64_t minute)
{
    size_t own = weekday * 4, before = (weekday + WEEKDAYS - 1) % WEEKDAYS * 4;
    uint64_t start = buffer_number(schedule, own, 2), end = buffer_number(schedule, own + 2, 2);
    uint64_t last_start = buffer_number(schedule, before, 2),
             last_end = buffer_number(schedule, before + 2, 2);
    if (start <= end ? start <= minute && minute < end : start <= minute)
        return 1;
    return last_end < last_start && minute < last_end;
}

/* The wait, minute after minute. */
static uint64_t scanned(const struct buffer *schedule, const struct when *when)
{
    uint64_t now = (uint64_t)weekday_in_c(when->year, when->month, when->day) * DAY + when->minute;
    for (uint64_t wait = 0; wait < WEEK; wait++)
        if (allows(schedule, (now + wait) / DAY % WEEKDAYS, (now + wait) % DAY))
            return wait;
    return WEEK;
}

static void random_plans(void)
{
    test_begin("the wait on random schedules, minute after minute");
    for (uint64_t i = 0; i < RANDOM_SCHEDULES; i = tried_after(i, 5)) {
        struct when when = any_time();
        struct buffer schedule = chance_of(4) ? schedule_blank() : any_schedule();
        for (uint64_t windows = chance_below(3); windows; windows--)
            schedule_window(&schedule, (unsigned)chance_below(WEEKDAYS), chance_below(DAY),
                            chance_below(DAY));
        expect_wait(&schedule, &when, scanned(&schedule, &when));
        buffer_free(&schedule);
    }
    test_end();
}

/* A week with one window, looked at from minutes of all its days. */
static void one_window(unsigned weekday, uint64_t start, uint64_t end)
{
    struct buffer schedule = schedule_blank();
    uint64_t first = weekday * DAY + start, minutes = (end + DAY - start) % DAY;
    schedule_window(&schedule, weekday, start, end);
    for (uint64_t at = 0; at < WEEK; at = tried_after(at + (at % 97 == 0 ? 0 : 30), 150)) {
        struct when when = {2026, 11, 16 + at / DAY, at % DAY}; /* 16 November 2026 is a Monday */
        uint64_t since = (at + WEEK - first) % WEEK;
        expect_wait(&schedule, &when, minutes == 0 ? WEEK : since < minutes ? 0 : WEEK - since);
    }
    buffer_free(&schedule);
}

/* Within a day, up to midnight, past it, all but one minute, one minute, none; on a day in the week
 * and from Sunday into Monday. */
static void windows(void)
{
    static const uint64_t ends[][2] = {{600, 700},  {0, DAY - 1}, {1200, 0},    {1200, 1},
                                       {1200, 300}, {1, 0},       {DAY - 1, 0}, {DAY - 1, DAY - 2},
                                       {0, 1},      {0, 0},       {700, 700},   {DAY - 1, DAY - 1}};
    test_begin(
        "one window in the week: within a day, up to midnight and past it, Sunday into Monday");
    for (size_t i = 0; i < sizeof ends / sizeof *ends; i++) {
        one_window(MONDAY, ends[i][0], ends[i][1]);
        one_window(THURSDAY, ends[i][0], ends[i][1]);
        one_window(SUNDAY, ends[i][0], ends[i][1]);
    }
    test_end();
}

/* 29 February 2000 was a Tuesday; 31 December 2099 is a Thursday, and a wait goes on after it. */
static void ends_of_the_calendar(void)
{
    struct when leap_day = {2000, 2, 29, 1430}, first_day = {2000, 1, 1, 0},
                last_day = {2099, 12, 31, 1439};
    test_begin("29 February 2000, 1 January 2000, 31 December 2099");
    struct buffer schedule = schedule_blank();
    schedule_window(&schedule, WEDNESDAY, 5, 10);
    expect_wait(&schedule, &leap_day, 15);
    expect_wait(&schedule, &first_day, 4 * DAY + 5);
    expect_wait(&schedule, &last_day, 5 * DAY + 6);
    schedule_window(&schedule, FRIDAY, 0, 1);
    expect_wait(&schedule, &last_day, 1);
    schedule_window(&schedule, THURSDAY, 1439, 0);
    expect_wait(&schedule, &last_day, 0);
    buffer_free(&schedule);
    test_end();
}

/* ---- Draws ---- */

/* A draw is accepted exactly where the wait is 0. */
static void draws(void)
{
    test_begin("draws in windows and outside them");
    struct file file = file_set_up(LAST_VERSION, 28, 5, 5, 2, 5);
    for (int i = 0; i < DRAWS; i++) {
        struct when when = any_time();
        struct call draw = file_call(&file, DRAW);
        call_at(&draw, &when);
        int allowed = wait_of(&draw.args[PLAN], &when) == LEGBARO_OK;
        call_finish(&draw, allowed ? LEGBARO_OK : LEGBARO_OUTSIDE_WINDOWS, "at any time");
    }
    file_end(&file);
    test_end();
}

void test_schedule(void)
{
    every_date();
    large_numbers();
    random_plans();
    windows();
    ends_of_the_calendar();
    draws();
}
