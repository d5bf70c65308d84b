/* The reference implementation's changes: update, delete, append, load and batch. See
 * reference.h. */
#include "parts.h"

#include <stdlib.h>

/* ---- Refusals ---- */

/* "1 for sizes that follow from fields": of what is handed over. The lengths of a load and of a
 * batch are looked at later. */
static int handed_fits(const struct change *change, const struct card *c)
{
    int has_old = change->kind == CHANGE_UPDATE || change->kind == CHANGE_DELETE;
    int has_new = change->kind == CHANGE_UPDATE || change->kind == CHANGE_APPEND;
    size_t marks = c->version == 1 ? 0 : 1;
    return (!has_old || (change->old_length == c->B && change->mark_length == marks)) &&
           (!has_new || change->new_length == c->B);
}

/* "4, 5"; of a load "just before 5, a load of no bytes or of a length that B doesn't divide (12)",
 * and "code 5 covers one passing the most n"; of a batch 14 "just before 4" */
static uint64_t blocks_fault(const struct change *change, const struct card *c)
{
    switch (change->kind) {
    case CHANGE_APPEND:
        return c->n == LEGBARO_MOST_BLOCKS ? LEGBARO_FILE_FULL : LEGBARO_OK;
    case CHANGE_LOAD:
        if (change->new_length == 0 || change->new_length % c->B != 0)
            return LEGBARO_NOT_WHOLE_BLOCKS;
        return change->new_length / c->B > LEGBARO_MOST_BLOCKS - c->n ? LEGBARO_FILE_FULL
                                                                      : LEGBARO_OK;
    case CHANGE_BATCH:
        return items_fault(change->items, change->items_length, c);
    default:
        return within(1, change->m, c->n) ? LEGBARO_OK : LEGBARO_NO_SUCH_BLOCK;
    }
}

/* "straight after 8, an ask, one-step change or draw while something is pending (18)"; "code 10
 * looks at the last counter issued" */
uint64_t change_fault(const struct change *change, const struct card *c, size_t table_length)
{
    if (table_length != c->t * LEGBARO_RECORD_BYTES || !handed_fits(change, c))
        return LEGBARO_WRONG_LENGTH;
    if (!marks_fit(change->mark, change->mark_length))
        return LEGBARO_BAD_MARK;
    if (c->open != 0)
        return LEGBARO_TOKEN_OPEN;
    if (c->pending != 0)
        return LEGBARO_CHANGE_PENDING;
    if (blocks_fault(change, c))
        return blocks_fault(change, c);
    return c->last_issued == LEGBARO_MOST_COUNTER ? LEGBARO_COUNTER_AT_MOST : LEGBARO_OK;
}

/* "It refuses, ahead of every check, an unknown role or one lacking the right (22)" */
uint64_t reference_change_fault(uint64_t role, const struct change *change, size_t master_length,
                                const uint8_t *card, size_t card_length, size_t table_length,
                                size_t totals_length)
{
    if (!may_change(role, change->kind))
        return LEGBARO_NO_RIGHT;
    if (master_length != LEGBARO_MASTER_BYTES || !card_sized(card_length) ||
        totals_length != LEGBARO_TOTALS_BYTES)
        return LEGBARO_WRONG_LENGTH;
    if (card_fault(card, card_length))
        return card_fault(card, card_length);
    struct card c = reference_read_card(card);
    return change_fault(change, &c, table_length);
}

/* "Unused records in the standing table are those sealed under the last committed counter" */
uint64_t bad_record(const uint8_t *master, const struct card *c, const uint8_t *table)
{
    uint8_t token[TOKEN_BYTES];
    use_keys(master, c->id);
    for (uint64_t i = c->next; i <= c->t; i++)
        if (!open_record(table + (i - 1) * LEGBARO_RECORD_BYTES, c, i, token))
            return i;
    return 0;
}

/* ---- The blocks that are changed ---- */

/* A change is a list of block changes. */
struct block_changes {
    struct block_change *list;
    size_t count;
};

static size_t block_change_count(const struct change *change, const struct card *c)
{
    switch (change->kind) {
    case CHANGE_LOAD:
        return change->new_length / c->B;
    case CHANGE_BATCH:
        return item_count(change->items_length, c);
    default:
        return 1;
    }
}

/* Block change e, from 0, of a change without a fault. */
static struct block_change block_change_at(const struct change *change, const struct card *c,
                                           size_t e)
{
    switch (change->kind) {
    case CHANGE_UPDATE:
        return (struct block_change){change->m, change->old_block, change->mark, change->new_blocks,
                                     &live};
    case CHANGE_DELETE:
        return (struct block_change){change->m, change->old_block, change->mark, deleted_block,
                                     &deleted};
    case CHANGE_BATCH:
        return item_change(change->items, c, e);
    default:
        return (struct block_change){c->n + 1 + e, NULL, NULL, change->new_blocks + e * c->B,
                                     &live};
    }
}

/* The block changes of a change without a fault; their list is to be freed. */
static struct block_changes block_changes_of(const struct change *change, const struct card *c)
{
    struct block_changes changes = {.count = block_change_count(change, c)};
    changes.list = malloc(changes.count * sizeof *changes.list);
    must(changes.list != NULL);
    for (size_t e = 0; e < changes.count; e++)
        changes.list[e] = block_change_at(change, c, e);
    return changes;
}

/* ---- Carrying a change out ---- */

/* Opens an unused record, xors the hashes of old and new block into its token for every block
 * change whose row it draws, and seals it: "Every ask takes the last issued plus 1". Answers the
 * totals: "a change walks back once for each of its blocks, altered or not, and each unused token,
 * hashing old and new bytes where drawn" */
static struct totals reseal(uint8_t *record, const struct card *c, uint64_t i,
                            const struct block_changes *changes)
{
    struct totals totals = {0, 0};
    uint8_t k[KEY_BYTES], hash_key[KEY_BYTES], token[TOKEN_BYTES];
    int have_hash_key = 0;
    must(open_record(record, c, i, token));
    draw_key_of(i, k);
    use_draw_key(k);
    for (const struct block_change *one = changes->list; one < changes->list + changes->count;
         one++) {
        struct walk walk = permuted_back(c->d, (one->m - 1) % c->d);
        uint64_t j = walk.end + 1, index = (one->m - 1) / c->d * c->d + j;
        totals.turns += walk.turns;
        if (j > c->r)
            continue;
        if (!have_hash_key)
            hash_key_of(i, hash_key);
        have_hash_key = 1;
        if (one->old_block) {
            mix_block(token, hash_key, index, mark_in(c->version, one->old_mark, 0), one->old_block,
                      c->B);
            totals.hashes++;
        }
        mix_block(token, hash_key, index, mark_in(c->version, one->new_mark, 0), one->new_block,
                  c->B);
        totals.hashes++;
    }
    seal(record, c->version, c->last_issued + 1, i, token);
    return totals;
}

uint64_t carry_out(const struct change *change, const struct card *c, uint8_t *table,
                   uint8_t *totals)
{
    struct block_changes changes = block_changes_of(change, c);
    struct totals all = {0, 0};
    uint64_t n = c->n;
    for (uint64_t i = c->next; i <= c->t; i++)
        reference_add_totals(&all, reseal(record_at(table, i), c, i, &changes));
    write_totals(totals, all);
    for (size_t e = 0; e < changes.count; e++)
        if (!changes.list[e].old_block)
            n++;
    free(changes.list);
    return n;
}

/* The call: its fault, 7 with the lowest unused token whose record does not open, or the change
 * carried out. "A one-step change, load or batch too, is ask and commit together" */
static uint64_t change_in_one_step(uint64_t role, const struct change *change,
                                   const uint8_t *master, size_t master_length, uint8_t *card,
                                   size_t card_length, uint8_t *table, size_t table_length,
                                   uint8_t *totals, size_t totals_length)
{
    uint64_t fault = reference_change_fault(role, change, master_length, card, card_length,
                                            table_length, totals_length);
    if (fault)
        return fault;
    struct card c = reference_read_card(card);
    uint64_t bad = bad_record(master, &c, table);
    if (bad)
        return LEGBARO_BAD_RECORD + 256 * bad;
    c.n = carry_out(change, &c, table, totals);
    c.last_issued++;
    c.ctr = c.last_issued;
    reference_write_card(card, &c);
    return LEGBARO_OK;
}

struct change update_change(uint64_t m, const uint8_t *old_block, size_t old_length,
                            const uint8_t *mark, size_t mark_length, const uint8_t *new_block,
                            size_t new_length)
{
    struct change change = delete_change(m, old_block, old_length, mark, mark_length);
    change.kind = CHANGE_UPDATE;
    change.new_blocks = new_block;
    change.new_length = new_length;
    return change;
}

struct change delete_change(uint64_t m, const uint8_t *old_block, size_t old_length,
                            const uint8_t *mark, size_t mark_length)
{
    struct change change = {.kind = CHANGE_DELETE,
                            .m = m,
                            .old_block = old_block,
                            .old_length = old_length,
                            .mark = mark,
                            .mark_length = mark_length};
    return change;
}

uint64_t reference_update(uint64_t role, const uint8_t *master, size_t master_length, uint8_t *card,
                          size_t card_length, uint8_t *table, size_t table_length, uint64_t m,
                          const uint8_t *old_block, size_t old_block_length, const uint8_t *mark,
                          size_t mark_length, const uint8_t *new_block, size_t new_block_length,
                          uint8_t *totals, size_t totals_length)
{
    struct change change = update_change(m, old_block, old_block_length, mark, mark_length,
                                         new_block, new_block_length);
    return change_in_one_step(role, &change, master, master_length, card, card_length, table,
                              table_length, totals, totals_length);
}

uint64_t reference_delete(uint64_t role, const uint8_t *master, size_t master_length, uint8_t *card,
                          size_t card_length, uint8_t *table, size_t table_length, uint64_t m,
                          const uint8_t *old_block, size_t old_block_length, const uint8_t *mark,
                          size_t mark_length, uint8_t *totals, size_t totals_length)
{
    struct change change = delete_change(m, old_block, old_block_length, mark, mark_length);
    return change_in_one_step(role, &change, master, master_length, card, card_length, table,
                              table_length, totals, totals_length);
}

uint64_t reference_append(uint64_t role, const uint8_t *master, size_t master_length, uint8_t *card,
                          size_t card_length, uint8_t *table, size_t table_length,
                          const uint8_t *new_block, size_t new_block_length, uint8_t *totals,
                          size_t totals_length)
{
    struct change change = {
        .kind = CHANGE_APPEND, .new_blocks = new_block, .new_length = new_block_length};
    return change_in_one_step(role, &change, master, master_length, card, card_length, table,
                              table_length, totals, totals_length);
}

uint64_t reference_load(uint64_t role, const uint8_t *master, size_t master_length, uint8_t *card,
                        size_t card_length, uint8_t *table, size_t table_length,
                        const uint8_t *blocks, size_t blocks_length, uint8_t *totals,
                        size_t totals_length)
{
    struct change change = {.kind = CHANGE_LOAD, .new_blocks = blocks, .new_length = blocks_length};
    return change_in_one_step(role, &change, master, master_length, card, card_length, table,
                              table_length, totals, totals_length);
}

uint64_t reference_batch(uint64_t role, const uint8_t *master, size_t master_length, uint8_t *card,
                         size_t card_length, uint8_t *table, size_t table_length,
                         const uint8_t *items, size_t items_length, uint8_t *totals,
                         size_t totals_length)
{
    struct change change = {.kind = CHANGE_BATCH, .items = items, .items_length = items_length};
    return change_in_one_step(role, &change, master, master_length, card, card_length, table,
                              table_length, totals, totals_length);
}
