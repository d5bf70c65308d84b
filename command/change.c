/* See change.h. */
#include "change.h"
#include "progress.h"
#include "report.h"

#include "legbaro.h"

#include <inttypes.h>
#include <stdio.h>
#include <string.h>
#include <zlib.h>

enum { MAGIC_BYTES = 8 };
static const char magic[] = "legbaro\n";

/* Where a header has what, after the magic. */
enum {
    VERSION = 8,
    ID = 9,
    BLOCK_BYTES = 17,
    TOKENS = 19,
    BEFORE = 23,
    AFTER = 27,
    COUNTER_BEFORE = 31,
    COUNTER = 39,
    COUNT = 47,
    ASKED = 51
};

/* ---- Checksums ---- */

/* So many bytes are summed at once, so that progress can be shown between them. */
enum { MOST_AT_ONCE = 1 << 24 };

uint32_t checksum_of(uint32_t before, const uint8_t *at, size_t length)
{
    unsigned long sum = before;
    for (size_t done = 0; done < length;) {
        size_t part = length - done < MOST_AT_ONCE ? length - done : MOST_AT_ONCE;
        sum = crc32_z(sum, at + done, part);
        done += part;
        progressed(part);
    }
    return (uint32_t)sum;
}

/* ---- Writing ---- */

struct change change_from(struct bytes card)
{
    struct change change = {
        .version = number_at(card.at + LEGBARO_CARD_VERSION, 1),
        .block_bytes = number_at(card.at + LEGBARO_CARD_BLOCK_BYTES, 2),
        .tokens = number_at(card.at + LEGBARO_CARD_TOKENS, 4),
        .blocks_before = number_at(card.at + LEGBARO_CARD_BLOCKS, 4),
        .counter_before = number_at(card.at + LEGBARO_CARD_COUNTER, 8),
        .id = card.at + LEGBARO_CARD_ID,
        .items = room(0),
        .blocks = room(0),
        .table = room(0),
    };
    return change;
}

int change_adds(const struct change *change)
{
    return change->blocks_after != change->blocks_before;
}

const struct piece *header_piece(const struct change *change)
{
    static uint8_t header[CHANGE_HEADER_BYTES];
    static struct piece piece = {header, sizeof header};
    memcpy(header, magic, MAGIC_BYTES);
    memcpy(header + ID, change->id, LEGBARO_ID_BYTES);
    put_number(header + VERSION, 1, change->version);
    put_number(header + BLOCK_BYTES, 2, change->block_bytes);
    put_number(header + TOKENS, 4, change->tokens);
    put_number(header + BEFORE, 4, change->blocks_before);
    put_number(header + AFTER, 4, change->blocks_after);
    put_number(header + COUNTER_BEFORE, 8, change->counter_before);
    put_number(header + COUNTER, 8, change->counter);
    put_number(header + COUNT, 4, change->count);
    put_number(header + ASKED, 1, change->asked);
    return &piece;
}

const struct piece *change_pieces(const struct change *change)
{
    static uint8_t checksum[CHECKSUM_BYTES];
    static struct piece pieces[CHANGE_PIECES];
    const struct piece now[] = {*header_piece(change),
                                {change->items.at, change->items.length},
                                {change->blocks.at, change->blocks.length},
                                {change->table.at, change->table.length},
                                {checksum, sizeof checksum}};
    uint32_t so_far = 0;
    memcpy(pieces, now, sizeof now);
    progress_of("summed", change->blocks.length + change->table.length);
    for (int i = 0; i < CHANGE_PIECES - 1; i++)
        so_far = checksum_of(so_far, pieces[i].at, pieces[i].length);
    progress_over();
    put_number(checksum, sizeof checksum, so_far);
    return pieces;
}

/* ---- Reading ---- */

struct change change_of_header(const uint8_t *header)
{
    struct change change = {
        .version = number_at(header + VERSION, 1),
        .block_bytes = number_at(header + BLOCK_BYTES, 2),
        .tokens = number_at(header + TOKENS, 4),
        .blocks_before = number_at(header + BEFORE, 4),
        .blocks_after = number_at(header + AFTER, 4),
        .counter_before = number_at(header + COUNTER_BEFORE, 8),
        .counter = number_at(header + COUNTER, 8),
        .count = number_at(header + COUNT, 4),
        .asked = number_at(header + ASKED, 1),
        .id = header + ID,
    };
    return change;
}

/* Whether the numbers of a header go together. */
static int sound(const struct change *c)
{
    if (c->version < LEGBARO_WITHOUT_MARKS || c->version > LEGBARO_TWO_STEPS || !c->block_bytes ||
        c->block_bytes > LEGBARO_MOST_BLOCK_BYTES || !c->tokens ||
        c->tokens > LEGBARO_MOST_TOKENS || c->blocks_after < c->blocks_before ||
        c->blocks_after > LEGBARO_MOST_BLOCKS || c->asked > 1 || (c->asked && !c->blocks_before))
        return 0;
    if (change_adds(c))
        return c->count == c->blocks_after - c->blocks_before &&
               (c->blocks_before ? c->counter > c->counter_before : c->counter == 0);
    return c->count && c->count <= LEGBARO_MOST_ITEMS && c->counter > c->counter_before;
}

/* Whether every item names a block of the file, and a mark. */
static int sound_items(const struct change *c)
{
    for (size_t at = 0; at < c->items.length; at += CHANGE_ITEM_BYTES) {
        uint64_t block = number_at(c->items.at + at, 4);
        if (!block || block > c->blocks_before || c->items.at[at + 4] > LEGBARO_DELETED)
            return 0;
    }
    return 1;
}

int is_header(struct bytes header)
{
    if (header.length < CHANGE_HEADER_BYTES || memcmp(header.at, magic, MAGIC_BYTES))
        return 0;
    struct change change = change_of_header(header.at);
    return sound(&change);
}

/* Where the parts of a change lie in a file's bytes; `added` says whether added blocks are there.
 * Returns the length of all parts before the checksum. */
static uint64_t find_parts(struct change *c, uint8_t *file, int added)
{
    c->items.at = file + CHANGE_HEADER_BYTES;
    c->items.length = change_adds(c) ? 0 : c->count * CHANGE_ITEM_BYTES;
    c->blocks.at = c->items.at + c->items.length;
    c->blocks.length = change_adds(c) && !added ? 0 : c->count * c->block_bytes;
    c->table.at = c->blocks.at + c->blocks.length;
    c->table.length = c->tokens * LEGBARO_RECORD_BYTES;
    return CHANGE_HEADER_BYTES + c->items.length + c->blocks.length + c->table.length;
}

int peek_change(const char *path, struct change *change)
{
    struct bytes header = room(CHANGE_HEADER_BYTES);
    uint64_t length;
    if (!read_part(path, 0, header, &length) || !is_header(header))
        return 0;
    *change = change_of_header(header.at);
    return 1;
}

int peek_checksum(const char *path, uint32_t *checksum)
{
    struct bytes bytes = room(CHECKSUM_BYTES), none = room(0);
    struct change change;
    uint64_t length;
    if (!peek_change(path, &change))
        return 0;
    uint64_t before = find_parts(&change, none.at, 1);
    if (!read_part(path, before, bytes, &length) || length != before + CHECKSUM_BYTES)
        return 0;
    *checksum = (uint32_t)number_at(bytes.at, CHECKSUM_BYTES);
    return 1;
}

/* Whether a change's checksum is right, and its items name blocks. The length is. */
static int is_whole(struct change *c, struct bytes file)
{
    size_t before = file.length - CHECKSUM_BYTES;
    progress_of("summed", before);
    c->checksum = checksum_of(0, file.at, before);
    progress_over();
    return number_at(file.at + before, CHECKSUM_BYTES) == c->checksum && sound_items(c);
}

struct change read_change(const char *path)
{
    static const char *const again =
        "Ask the owner to send the file 'change' again. Nothing has changed.";
    struct bytes file = map_file(path);
    struct change c;
    about(path);
    if (!is_header(file))
        refuse(TURNED_AWAY, again, "%s, of %zu bytes, is no change, or is cut", path, file.length);
    c = change_of_header(file.at);
    uint64_t length = find_parts(&c, file.at, 1) + CHECKSUM_BYTES;
    if (file.length != length)
        refuse(TURNED_AWAY, again, "%s has %zu bytes, and by its header %" PRIu64, path,
               file.length, length);
    if (!is_whole(&c, file))
        refuse(TURNED_AWAY, again, "%s is damaged: its checksum does not fit", path);
    return c;
}

int read_applying(const char *path, struct change *change)
{
    struct bytes file = map_file(path);
    if (!is_header(file))
        return 0;
    *change = change_of_header(file.at);
    for (int added = 0; added <= 1; added++)
        if (file.length == find_parts(change, file.at, added) + CHECKSUM_BYTES)
            return is_whole(change, file);
    return 0;
}

const char *id_words(const uint8_t *id)
{
    char *bytes = text("%8s", ""), *words = text("%32s", ""), *to = words;
    int length = LEGBARO_ID_BYTES;
    memcpy(bytes, id, LEGBARO_ID_BYTES);
    while (length && !bytes[length - 1])
        length--;
    for (int at = 0; at < length;) {
        int plain = bytes[at] == '\\' ? 0 : plain_length(bytes + at);
        if (plain) {
            memcpy(to, bytes + at, (size_t)plain);
            to += plain;
            at += plain;
        } else
            to += sprintf(to, "\\x%02x", id[at++]);
    }
    *to = 0;
    return length ? words : "(no name)";
}
