/* The reference implementation's reading of a batch, and of marks. See parts.h. */
#include "parts.h"

enum { UPDATED = 1, DELETED = 2, MOST_ITEMS = 64 };

const uint8_t deleted_block[LEGBARO_MOST_BLOCK_BYTES], live = 0, deleted = 1;

int marks_fit(const uint8_t *marks, size_t count)
{
    for (size_t i = 0; i < count; i++)
        if (marks[i] > 1)
            return 0;
    return 1;
}

/* "each a kind byte, block number 4, old and new block"; "the old mark, a byte, in a batch after
 * the old block; version 1 lends marks empty" */
size_t reference_item_bytes(const struct card *c)
{
    return 1 + 4 + c->B + (c->version == 1 ? 0 : 1) + c->B;
}

struct item reference_item(const uint8_t *items, const struct card *c, size_t e)
{
    const uint8_t *at = items + e * reference_item_bytes(c);
    struct item item;
    item.kind = take(&at, 1);
    item.m = take(&at, 4);
    item.old_block = at;
    at += c->B;
    item.mark = mark_in(c->version, at, 0);
    item.new_block = item.mark ? at + 1 : at;
    return item;
}

size_t item_count(size_t length, const struct card *c)
{
    return length / reference_item_bytes(c);
}

/* "a batch of another size or kind, or with numbers that don't rise (14)" */
static int batch_fits(const uint8_t *items, size_t length, const struct card *c)
{
    size_t count = item_count(length, c);
    if (length % reference_item_bytes(c) != 0 || !within(1, count, MOST_ITEMS))
        return 0;
    for (size_t e = 0; e < count; e++) {
        struct item item = reference_item(items, c, e);
        if (item.kind != UPDATED && item.kind != DELETED)
            return 0;
        if (e > 0 && item.m <= reference_item(items, c, e - 1).m)
            return 0;
    }
    return 1;
}

/* "a mark above 1 (15), in a batch straight after 14" */
uint64_t items_fault(const uint8_t *items, size_t length, const struct card *c)
{
    if (!batch_fits(items, length, c))
        return LEGBARO_BAD_BATCH;
    for (size_t e = 0; e < item_count(length, c); e++) {
        struct item item = reference_item(items, c, e);
        if (item.mark && !marks_fit(item.mark, 1))
            return LEGBARO_BAD_MARK;
    }
    for (size_t e = 0; e < item_count(length, c); e++)
        if (!within(1, reference_item(items, c, e).m, c->n))
            return LEGBARO_NO_SUCH_BLOCK;
    return LEGBARO_OK;
}

/* "a delete's new unread" */
struct block_change item_change(const uint8_t *items, const struct card *c, size_t e)
{
    struct item item = reference_item(items, c, e);
    if (item.kind == DELETED)
        return (struct block_change){item.m, item.old_block, item.mark, deleted_block, &deleted};
    return (struct block_change){item.m, item.old_block, item.mark, item.new_block, &live};
}
