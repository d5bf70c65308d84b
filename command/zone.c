/* See zone.h. */
#define _GNU_SOURCE
#include "zone.h"
#include "files.h"
#include "report.h"

#include <ctype.h>
#include <stdlib.h>
#include <string.h>
#include <time.h>
#include <unistd.h>

static const char database[] = "/usr/share/zoneinfo";

/* ---- A rule of POSIX: a name, its distance from UTC, and perhaps summer time ---- */

/* Each moves *at past what it reads. Returns whether it is there. */
static int skip_name(const char **at)
{
    const char *first = *at;
    if (*first == '<') {
        size_t length = strcspn(first, ">");
        *at += length + 1;
        return length > 3 && first[length] == '>';
    }
    while (isalpha((unsigned char)**at))
        ++*at;
    return *at - first >= 3;
}

/* Hours of up to `digits` digits, and minutes and seconds of two. */
static int skip_time(const char **at, int digits)
{
    int read = 0;
    if (**at == '+' || **at == '-')
        ++*at;
    for (; read < digits && isdigit((unsigned char)**at); read++)
        ++*at;
    while (read && **at == ':' && isdigit((unsigned char)(*at)[1]) &&
           isdigit((unsigned char)(*at)[2]))
        *at += 3;
    return read > 0;
}

/* A day on which summer time begins or ends: Mm.w.d, Jn or n, and perhaps the time of the day. */
static int skip_day(const char **at)
{
    size_t length;
    if (**at != ',')
        return 0;
    ++*at;
    if (**at == 'M' || **at == 'J')
        ++*at;
    length = strspn(*at, "0123456789.");
    *at += length;
    if (length && **at == '/') {
        ++*at;
        return skip_time(at, 3);
    }
    return length > 0;
}

static int is_rule(const char *zone)
{
    const char *at = zone;
    if (!skip_name(&at) || !skip_time(&at, 2))
        return 0;
    if (!*at)
        return 1;
    if (!skip_name(&at))
        return 0;
    if (*at && *at != ',' && !skip_time(&at, 2))
        return 0;
    return !*at || (skip_day(&at) && skip_day(&at) && !*at);
}

/* ---- A file of the zone database ---- */

static int is_zone_file(const char *zone)
{
    static const char magic[] = "TZif";
    const char *folder = getenv("TZDIR");
    struct bytes begin = room(sizeof magic - 1);
    uint64_t length;
    const char *path = *zone == '/' ? zone : path_in(folder && *folder ? folder : database, zone);
    struct stat status;
    return stat(path, &status) == 0 && S_ISREG(status.st_mode) && access(path, R_OK) == 0 &&
           read_part(path, 0, begin, &length) && !memcmp(begin.at, magic, begin.length);
}

void check_zone(void)
{
    static int checked;
    const char *told = getenv("TZ"), *zone = told && *told == ':' ? told + 1 : told;
    if (checked++ || !zone || !*zone || !strcmp(zone, "UTC") || !strcmp(zone, "GMT"))
        return;
    if (is_zone_file(zone) || is_rule(zone))
        return;
    about("TZ");
    refuse(WRONG_USE, "Name a zone that there is, as in TZ=Europe/Berlin, or unset TZ.",
           "the environment's TZ, '%s', names no time zone", told);
}
