/* See plan.h. */
#define _GNU_SOURCE
#include "plan.h"
#include "clock.h"
#include "files.h"
#include "report.h"

#include <ctype.h>
#include <inttypes.h>
#include <limits.h>
#include <stdio.h>
#include <string.h>
#include <time.h>
#include <unistd.h>

enum { DAYS = 7, WINDOW_BYTES = 4, HOUR = 60 };

/* No minute of a time. */
#define NO_TIME UINT_MAX

/* ---- The time ---- */

static void read_clock(struct plan *plan)
{
    struct tm clock = local_time(clock_now());
    plan->year = (uint64_t)clock.tm_year + 1900;
    plan->month = (uint64_t)clock.tm_mon + 1;
    plan->day = (uint64_t)clock.tm_mday;
    plan->minute = (uint64_t)(clock.tm_hour * HOUR + clock.tm_min);
}

static void read_time(struct plan *plan, const char *at)
{
    static const char form[] = "dddd-dd-ddTdd:dd";
    unsigned year = 0, month = 0, day = 0, hour = 0, minute = HOUR;
    size_t like = 0;
    while (form[like] &&
           (form[like] == 'd' ? isdigit((unsigned char)at[like]) : at[like] == form[like]))
        like++;
    if (!form[like] && !at[like])
        sscanf(at, "%4u-%2u-%2uT%2u:%2u", &year, &month, &day, &hour, &minute);
    if (minute >= HOUR)
        refuse(WRONG_USE, "Write it as in 2026-11-23T10:30.", "--at: '%s' is not a time", at);
    plan->year = year;
    plan->month = month;
    plan->day = day;
    plan->minute = hour * HOUR + minute;
}

/* ---- The plan ---- */

/* A plan while its lines are read: the line that gave each day its window, 0 for none. */
struct reading {
    struct plan *plan;
    unsigned line;
    unsigned line_of[DAYS];
};

static const char *const day_names[DAYS] = {"Mon", "Tue", "Wed", "Thu", "Fri", "Sat", "Sun"};
static const char *const as_in = "Lines are such as 'Mon-Sat 21:00-06:00' or 'Sun 08:00-22:00'.";

/* Refuses the line that is read, with what to do next. */
static void bad_line(const struct reading *r, const char *next, const char *what)
{
    const char *path = input_words(r->plan->path);
    about(path);
    field("line", r->line);
    refuse(TURNED_AWAY, next, "%s, line %u: %s", path, r->line, what);
}

/* The number of a weekday from 0, Monday; DAYS for another word. */
static unsigned weekday(const char *word)
{
    unsigned day = 0;
    while (day < DAYS && strcmp(word, day_names[day]))
        day++;
    return day;
}

/* The days of a line, the first and the last. */
static void read_days(const struct reading *r, const char *days, unsigned *from, unsigned *to)
{
    char first[4] = "", last[4] = "", rest = 0;
    int named = sscanf(days, "%3[A-Za-z]-%3[A-Za-z]%c", first, last, &rest);
    *from = weekday(first);
    *to = named == 1 && strlen(days) == strlen(first) ? *from : weekday(last);
    if (rest || *from == DAYS || *to == DAYS || *to < *from)
        bad_line(r, as_in, "it does not begin with days from Mon to Sun");
}

/* The minute of a time of one or two digits, a colon and two digits; moves *at past it.
 * Returns NO_TIME for another text. */
static unsigned read_minute(const char **at)
{
    unsigned hour = 0, digits = 0;
    const char *s = *at;
    for (; digits < 2 && isdigit((unsigned char)*s); digits++)
        hour = hour * 10 + (unsigned)(*s++ - '0');
    if (!digits || s[0] != ':' || !isdigit((unsigned char)s[1]) || !isdigit((unsigned char)s[2]))
        return NO_TIME;
    unsigned minute = (unsigned)(s[1] - '0') * 10 + (unsigned)(s[2] - '0');
    *at = s + 3;
    return minute < HOUR ? hour * HOUR + minute : NO_TIME;
}

/* Refuses a window that opens and shuts at the same minute: the format has a window of 0 to 1,439
 * minutes, and would take this one for none. */
static void refuse_whole_day(const struct reading *r, unsigned opens, unsigned shuts)
{
    unsigned nearest = (opens + LEGBARO_DAY_MINUTES - 1) % LEGBARO_DAY_MINUTES;
    const char *next =
        text("Write %02u:%02u-%02u:%02u, which is one minute shorter. A folder without a "
             "plan allows every minute. For a day without a window write no line.",
             opens / HOUR, opens % HOUR, nearest / HOUR, nearest % HOUR);
    const char *what =
        text("its window, %02u:%02u-%02u:%02u, is a whole day, and a window has at most "
             "1,439 minutes",
             opens / HOUR, opens % HOUR, shuts / HOUR, shuts % HOUR);
    bad_line(r, next, what);
}

/* The window of a line: the minute at which it opens and the one at which it shuts, 0 for 24:00. */
static void read_window(const struct reading *r, const char *window, unsigned *opens,
                        unsigned *shuts)
{
    const char *at = window;
    *opens = read_minute(&at);
    *shuts = *opens != NO_TIME && *at++ == '-' ? read_minute(&at) : NO_TIME;
    if (*shuts == NO_TIME || *at)
        bad_line(r, as_in, "it has no window");
    if (*opens >= LEGBARO_DAY_MINUTES || *shuts > LEGBARO_DAY_MINUTES)
        bad_line(r, as_in, "its window is not within 00:00 to 24:00");
    if (*opens == *shuts % LEGBARO_DAY_MINUTES)
        refuse_whole_day(r, *opens, *shuts);
    *shuts %= LEGBARO_DAY_MINUTES;
}

/* Puts a window in its days. A day has one window, and so one line. */
static void put_window(struct reading *r, const char *days, const char *window)
{
    unsigned from, to, opens, shuts;
    read_days(r, days, &from, &to);
    read_window(r, window, &opens, &shuts);
    for (unsigned day = from; day <= to; day++) {
        if (r->line_of[day]) {
            field("earlier-line", r->line_of[day]);
            bad_line(r, "A day has one window: remove the day from one of the two lines.",
                     text("line %u has a window for %s already", r->line_of[day], day_names[day]));
        }
        r->line_of[day] = r->line;
        put_number(r->plan->bytes + day * WINDOW_BYTES, 2, opens);
        put_number(r->plan->bytes + day * WINDOW_BYTES + 2, 2, shuts);
    }
}

/* Reads a line, which ends with a NUL byte. */
static void read_line(struct reading *r, const char *line)
{
    char days[16], window[16], rest;
    int words = sscanf(line, " %15s %15s %c", days, window, &rest);
    if (words < 1 || days[0] == '#')
        return;
    if (words != 2)
        bad_line(r, as_in, "it is not two words, days and a window");
    put_window(r, days, window);
}

static void read_lines(struct plan *plan)
{
    struct bytes file = read_small(plan->path, MOST_TEXT_BYTES, "a plan");
    struct reading r = {plan, 0, {0}};
    char *lines = (char *)room(file.length + 1).at;
    memcpy(lines, file.at, file.length);
    for (size_t at = 0, length; at < file.length; at += length + 1) {
        const char *end = memchr(lines + at, '\n', file.length - at);
        length = (end ? (size_t)(end - lines) : file.length) - at;
        lines[at + length] = 0;
        r.line++;
        if (strlen(lines + at) < length)
            bad_line(&r, "A plan is a text: write it again with an editor.", "it has a NUL byte");
        read_line(&r, lines + at);
    }
}

/* Without a plan this minute is allowed on every day. */
static void allow_now(struct plan *plan)
{
    if (plan->minute < LEGBARO_DAY_MINUTES)
        for (int day = 0; day < DAYS; day++) {
            put_number(plan->bytes + day * WINDOW_BYTES, 2, plan->minute);
            put_number(plan->bytes + day * WINDOW_BYTES + 2, 2,
                       (plan->minute + 1) % LEGBARO_DAY_MINUTES);
        }
}

struct plan read_plan(const struct options *o)
{
    const char *in_folder = path_in(o->folder, "plan");
    struct plan plan = {.path = o->plan                        ? o->plan
                                : access(in_folder, F_OK) == 0 ? in_folder
                                                               : NULL};
    if (o->at)
        read_time(&plan, o->at);
    else
        read_clock(&plan);
    if (plan.path)
        read_lines(&plan);
    else
        allow_now(&plan);
    return plan;
}

const char *wait_words(uint64_t minutes)
{
    return minutes < HOUR ? text("%" PRIu64 " min", minutes)
                          : text("%" PRIu64 " h %02" PRIu64 " min", minutes / HOUR, minutes % HOUR);
}
