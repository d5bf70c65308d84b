/* See batch.h. */
#include "batch.h"
#include "change.h"
#include "codes.h"
#include "options.h"
#include "report.h"

#include "legbaro.h"

#include <inttypes.h>
#include <stdio.h>
#include <string.h>

/* A line, and where it stands. */
struct line {
    const char *path;
    unsigned number;
    char words[4096];
};

/* Refuses the list: the line that is read, or the whole list before its first line. */
static void bad_line(const struct line *line, const char *what)
{
    const char *path = input_words(line->path);
    const char *where = line->number ? text("%s, line %u", path, line->number) : path;
    about(path);
    if (line->number)
        field("line", line->number);
    field("code", LEGBARO_BAD_BATCH);
    refuse(TURNED_AWAY,
           "Lines are 'update NUMBER FILE' or 'delete NUMBER', at most 64, in the order of the "
           "blocks.",
           "%s: %s (code %d)", where, what, LEGBARO_BAD_BATCH);
}

/* The next line with an item of the text from *at on; returns whether there is one. */
static int next_line(struct line *line, struct bytes list, size_t *at)
{
    while (*at < list.length) {
        const uint8_t *start = list.at + *at, *end = memchr(start, '\n', list.length - *at);
        size_t length = end ? (size_t)(end - start) : list.length - *at;
        line->number++;
        *at += length + 1;
        if (length >= sizeof line->words)
            bad_line(line, "it is too long");
        if (memchr(start, 0, length))
            bad_line(line, "it has a NUL byte");
        memcpy(line->words, start, length);
        line->words[length] = 0;
        size_t blank = strspn(line->words, " \t\r");
        if (line->words[blank] && line->words[blank] != '#')
            return 1;
    }
    return 0;
}

/* Takes a line's item in. */
static void add_item(struct batch *b, const struct line *line, uint64_t version,
                     uint64_t block_bytes)
{
    char kind[8], digits[24], file[4096];
    uint64_t number,
        before = b->count ? number_at(b->places.at + (b->count - 1) * CHANGE_ITEM_BYTES, 4) : 0;
    int words = sscanf(line->words, " %7s %23s %4095[^\r]", kind, digits, file),
        update = words == 3 && !strcmp(kind, "update");
    if (!update && !(words == 2 && !strcmp(kind, "delete")))
        bad_line(line, "it is neither an update nor a deletion");
    if (!read_number(digits, &number) || number > UINT32_MAX)
        bad_line(line, "its number is not the number of a block");
    if (number <= before)
        bad_line(line, "its number is not above the number before it");
    if (b->count == LEGBARO_MOST_ITEMS)
        bad_line(line, "it is the 65th line of the batch");
    uint8_t *item = b->items.at + b->count * LEGBARO_ITEM_BYTES(version, block_bytes);
    uint8_t *place = b->places.at + b->count * CHANGE_ITEM_BYTES,
            *block = b->blocks.at + b->count * block_bytes;
    item[LEGBARO_ITEM_KIND] = update ? LEGBARO_ITEM_UPDATE : LEGBARO_ITEM_DELETE;
    put_number(item + LEGBARO_ITEM_BLOCK, 4, number);
    put_number(place, 4, number);
    place[4] = update ? LEGBARO_LIVE : LEGBARO_DELETED;
    if (update) {
        memcpy(
            block,
            small_whole(file, block_bytes, "a block of this file", "Give a file of one block.").at,
            block_bytes);
        memcpy(item + LEGBARO_ITEM_NEW(version, block_bytes), block, block_bytes);
    }
    b->count++;
}

struct batch read_batch(const char *path, uint64_t version, uint64_t block_bytes)
{
    struct bytes list = read_small(path, MOST_TEXT_BYTES, "the list of a batch");
    struct line line = {path, 0, ""};
    struct batch b = {0, room(LEGBARO_MOST_ITEMS * LEGBARO_ITEM_BYTES(version, block_bytes)),
                      room(LEGBARO_MOST_ITEMS * CHANGE_ITEM_BYTES),
                      room(LEGBARO_MOST_ITEMS * block_bytes)};
    size_t at = 0;
    while (next_line(&line, list, &at))
        add_item(&b, &line, version, block_bytes);
    if (!b.count) {
        line.number = 0;
        bad_line(&line, "it has no update and no deletion");
    }
    b.items.length = b.count * LEGBARO_ITEM_BYTES(version, block_bytes);
    b.places.length = b.count * CHANGE_ITEM_BYTES;
    b.blocks.length = b.count * block_bytes;
    return b;
}
