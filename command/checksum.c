/* See checksum.h. */
#define _GNU_SOURCE
#include "checksum.h"
#include "report.h"

#include <inttypes.h>
#include <stdio.h>
#include <string.h>
#include <zlib.h>

/* Two checksums, a blank between them and the end of the line. */
enum { DIGITS = 8, LINE_BYTES = 2 * DIGITS + 2 };

static const char name[] = "card.sum", prepared[] = "card.sum.new";

static const char *digits_of(struct bytes card)
{
    return card.length ? text("%08" PRIx32, (uint32_t)crc32_z(0, card.at, card.length))
                       : "-       ";
}

/* The line of the file; null where there is no file. A file of another length gives a line that
 * fits no card. */
static const char *read_line(const struct folder *folder)
{
    if (!is_in(folder, name))
        return NULL;
    struct bytes file = map_file(path_in(folder->path, name));
    const char *line =
        file.length == LINE_BYTES ? text("%.*s", LINE_BYTES, (const char *)file.at) : "";
    unmap(file);
    return line;
}

static int is_first(const char *line, struct bytes card)
{
    return !strncmp(line, digits_of(card), DIGITS);
}

static int is_second(const char *line, struct bytes card)
{
    return strlen(line) == LINE_BYTES && !strncmp(line + DIGITS + 1, digits_of(card), DIGITS);
}

enum newest is_newest(const struct folder *folder, struct bytes card)
{
    const char *line = read_line(folder);
    if (!line)
        return NO_CHECKSUM;
    if (is_first(line, card))
        return NEWEST;
    if (is_second(line, card) && is_in(folder, "card.new") &&
        is_first(line, map_file(path_in(folder->path, "card.new"))))
        return NEWEST;
    return NOT_NEWEST;
}

void prepare_checksum(const struct folder *folder, struct bytes card, struct bytes before)
{
    const char *line = text("%s %s\n", digits_of(card), digits_of(before));
    const struct piece piece = {line, strlen(line)};
    prepare(folder, name, 0600, &piece, 1);
}

void place_checksum(const struct folder *folder)
{
    if (is_in(folder, prepared))
        place(folder, name);
}

void settle_checksum(const struct folder *folder, struct bytes card)
{
    const char *line = read_line(folder);
    if (is_in(folder, prepared))
        take_away(folder, prepared);
    if (!line || (is_first(line, card) && !is_second(line, room(0))))
        return;
    prepare_checksum(folder, card, card);
    place_checksum(folder);
}

int set_up_stopped(const struct folder *folder)
{
    const struct bytes none = room(0);
    const char *line = read_line(folder);
    return line && is_second(line, none) && !is_in(folder, "card") && !is_in(folder, "change");
}
