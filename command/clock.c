/* See clock.h. */
#define _GNU_SOURCE
#include "clock.h"
#include "files.h"
#include "numbers.h"
#include "report.h"
#include "zone.h"

#include <ctype.h>
#include <inttypes.h>
#include <stdio.h>
#include <stdlib.h>
#include <string.h>

enum { MINUTE = 60, HOUR = 60 * MINUTE, DAY = 24 * HOUR };

/* ---- Reading ---- */

/* Whether words begin with a form, in which 'd' is a digit and anything else itself. */
static int has_form(const char *words, const char *form)
{
    for (; *form; words++, form++)
        if (*form == 'd' ? !isdigit((unsigned char)*words) : *words != *form)
            return 0;
    return 1;
}

/* Whether a date and a time of the day are ones that there are. */
static int is_time(const struct tm *read)
{
    struct tm back;
    struct tm copy = *read;
    time_t time = timegm(&copy);
    gmtime_r(&time, &back);
    return back.tm_mon == read->tm_mon && back.tm_mday == read->tm_mday &&
           back.tm_hour == read->tm_hour && back.tm_min == read->tm_min &&
           back.tm_sec == read->tm_sec;
}

/* The date and the time of the day that words begin with. */
static struct tm read_fields(const char *words, int with_time)
{
    struct tm read = {.tm_mday = 1, .tm_isdst = -1};
    sscanf(words, with_time ? "%4d-%2d-%2dT%2d:%2d" : "%4d-%2d-%2d", &read.tm_year, &read.tm_mon,
           &read.tm_mday, &read.tm_hour, &read.tm_min);
    read.tm_year -= 1900;
    read.tm_mon--;
    return read;
}

time_t read_utc(const char *words)
{
    if (!has_form(words, "dddd-dd-ddTdd:dd:ddZ"))
        return UNKNOWN_TIME;
    struct tm read = read_fields(words, 1);
    read.tm_sec = (words[17] - '0') * 10 + words[18] - '0';
    return is_time(&read) ? timegm(&read) : UNKNOWN_TIME;
}

time_t read_local(const char *words, const char *option)
{
    int with_time = has_form(words, "dddd-dd-ddTdd:dd") && !words[16];
    struct tm read = read_fields(words, with_time);
    if (!with_time && (!has_form(words, "dddd-dd-dd") || words[10]))
        read.tm_mday = 0;
    if (!is_time(&read))
        refuse(WRONG_USE, "Write it as in 2026-11-23 or 2026-11-23T10:30.",
               "%s: '%s' is not a date", option, words);
    check_zone();
    return mktime(&read);
}

time_t clock_now(void)
{
    const char *told = getenv("LEGBARO_CLOCK");
    if (!told || !*told)
        return time(NULL);
    time_t now = strlen(told) == UTC_LENGTH ? read_utc(told) : UNKNOWN_TIME;
    if (now == UNKNOWN_TIME)
        refuse(WRONG_USE, "Unset it: it is for tests. Or write it as in 2026-11-23T21:00:00Z.",
               "LEGBARO_CLOCK: '%s' is not a time", told);
    return now;
}

/* ---- Words ---- */

struct tm local_time(time_t time)
{
    struct tm local;
    check_zone();
    if (!localtime_r(&time, &local))
        refuse(WRONG_USE, "Look at the clock.", "the time %" PRId64 " has no date", (int64_t)time);
    return local;
}

const char *zone_words(const struct tm *local)
{
    long minutes = local->tm_gmtoff / MINUTE, size = labs(minutes);
    if (!minutes && !strcmp(local->tm_zone, "UTC"))
        return "UTC";
    return text("%s, UTC%c%02ld:%02ld", local->tm_zone, minutes < 0 ? '-' : '+', size / 60,
                size % 60);
}

const char *utc_words(time_t time)
{
    struct tm utc = {0};
    char words[64];
    gmtime_r(&time, &utc);
    strftime(words, sizeof words, "%Y-%m-%dT%H:%M:%SZ", &utc);
    return text("%s", words);
}

const char *local_words(time_t time)
{
    struct tm local = local_time(time);
    char words[64];
    strftime(words, sizeof words, "%Y-%m-%d %H:%M", &local);
    return text("%s", words);
}

const char *ago_words(time_t time, time_t now)
{
    int64_t seconds = (int64_t)now - (int64_t)time;
    if (seconds < 0)
        return "in the future";
    if (seconds >= 2 * DAY)
        return text("%" PRId64 " days ago", seconds / DAY);
    return seconds >= 2 * HOUR ? text("%" PRId64 " h ago", seconds / HOUR)
                               : text("%" PRId64 " min ago", seconds / MINUTE);
}
