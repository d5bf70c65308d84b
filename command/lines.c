/* See lines.h. */
#define _GNU_SOURCE
#include "lines.h"
#include "clock.h"
#include "json.h"
#include "options.h"
#include "report.h"

#include <errno.h>
#include <fcntl.h>
#include <inttypes.h>
#include <stddef.h>
#include <string.h>
#include <sys/mman.h>
#include <unistd.h>

/* ---- A line's fields ---- */

static const struct {
    const char *name;
    size_t at;
    int is_text;
} known[] = {
    {"command", offsetof(struct line, command), 1}, {"role", offsetof(struct line, role), 1},
    {"id", offsetof(struct line, id), 1},           {"verdict", offsetof(struct line, verdict), 1},
    {"program", offsetof(struct line, program), 1}, {"card", offsetof(struct line, card), 1},
    {"stands", offsetof(struct line, stands), 1},   {"counter", offsetof(struct line, counter), 0},
    {"blocks", offsetof(struct line, blocks), 0},   {"left", offsetof(struct line, left), 0},
    {"open", offsetof(struct line, open), 0},       {"pending", offsetof(struct line, pending), 0},
    {"token", offsetof(struct line, token), 0},     {"cause", offsetof(struct line, cause), 0},
    {"turns", offsetof(struct line, turns), 0},     {"hashes", offsetof(struct line, hashes), 0},
};
enum { KNOWN = sizeof known / sizeof *known };

/* A text of which every byte can be printed. */
static const char *printable(const char *words)
{
    char *copy = text("%s", words);
    for (char *at = copy; *at;) {
        int length = plain_length(at);
        if (!length)
            *at = '?';
        at += length ? length : 1;
    }
    return copy;
}

static void keep(const struct json_field *field, struct line *line)
{
    for (int i = 0; i < KNOWN; i++) {
        void *place = (char *)line + known[i].at;
        if (!is_named(field, known[i].name))
            continue;
        if (known[i].is_text)
            *(const char **)place = printable(json_string(field));
        else
            *(uint64_t *)place = json_number(field, UNTOLD);
        return;
    }
    if (is_named(field, "time") && field->value_length == UTC_LENGTH + 2)
        line->time = read_utc(field->value + 1);
}

static struct line no_line(void)
{
    struct line none = {.time = UNKNOWN_TIME};
    for (int i = 0; i < KNOWN; i++)
        if (known[i].is_text)
            *(const char **)((char *)&none + known[i].at) = "";
        else
            *(uint64_t *)((char *)&none + known[i].at) = UNTOLD;
    return none;
}

int read_line(const char *at, const char *end, struct line *line)
{
    size_t length = (size_t)(end - at);
    struct json_field field;
    const char *now = at;
    int found = -1;
    *line = no_line();
    while (length <= MOST_LINE_BYTES && (found = next_field(&now, end, &field)) > 0)
        keep(&field, line);
    if (found == 0 && line->time != UNKNOWN_TIME && *line->command)
        return 1;
    *line = no_line();
    return 0;
}

const char *json_of_line(const struct line *line)
{
    const char *object = text("{\"time\": \"%s\"", utc_words(line->time));
    for (int i = 0; i < KNOWN; i++) {
        const void *place = (const char *)line + known[i].at;
        const char *words = known[i].is_text ? *(const char *const *)place : "";
        uint64_t number = known[i].is_text ? UNTOLD : *(const uint64_t *)place;
        if (*words)
            object = text("%s, \"%s\": %s", object, known[i].name, json_text(words));
        if (number != UNTOLD)
            object = text("%s, \"%s\": %" PRIu64, object, known[i].name, number);
    }
    return text("%s}", object);
}

/* ---- Files ---- */

int map_journal(const char *path, struct bytes *file)
{
    static uint8_t nothing[1];
    struct stat status;
    int opened = open(path, O_RDONLY | O_NONBLOCK | O_CLOEXEC), regular = 0;
    void *at = nothing;
    if (opened < 0)
        return 0;
    if (fstat(opened, &status) == 0)
        regular = S_ISREG(status.st_mode);
    if (regular && status.st_size)
        at = mmap(NULL, (size_t)status.st_size, PROT_READ, MAP_PRIVATE, opened, 0);
    close(opened);
    if (!regular)
        errno = EINVAL;
    if (!regular || at == MAP_FAILED)
        return 0;
    file->at = at;
    file->length = (size_t)status.st_size;
    return 1;
}

int next_line(const struct bytes *file, size_t *at, const char **begin, const char **end)
{
    if (*at >= file->length)
        return 0;
    const uint8_t *found = memchr(file->at + *at, '\n', file->length - *at);
    size_t stop = found ? (size_t)(found - file->at) : file->length;
    *begin = (const char *)file->at + *at;
    *end = (const char *)file->at + stop;
    *at = stop + 1;
    return 1;
}

int previous_line(const struct bytes *file, size_t *at, const char **begin, const char **end)
{
    size_t stop = *at;
    if (!stop)
        return 0;
    if (file->at[stop - 1] == '\n')
        stop--;
    const uint8_t *found = stop ? memrchr(file->at, '\n', stop) : NULL;
    *at = found ? (size_t)(found - file->at) + 1 : 0;
    *begin = (const char *)file->at + *at;
    *end = (const char *)file->at + stop;
    return 1;
}

void read_last_line(const uint8_t *at, size_t length, struct line *line)
{
    const struct bytes lines = {(uint8_t *)at, length};
    const char *begin = NULL, *end = NULL;
    size_t from = length;
    if (previous_line(&lines, &from, &begin, &end))
        read_line(begin, end, line);
    else
        *line = no_line();
}
