/* The reference implementation's changes in two steps: asks, commit and drop. See reference.h. */
#include "parts.h"

#include <string.h>

/* ---- Asks ---- */

/* "Only version 3 takes asks (else 2)" */
uint64_t reference_ask_fault(uint64_t role, const struct change *change, size_t master_length,
                             const uint8_t *card, size_t card_length, size_t table_length,
                             size_t second_length, size_t totals_length)
{
    if (!may_change(role, change->kind))
        return LEGBARO_NO_RIGHT;
    if (master_length != LEGBARO_MASTER_BYTES || !card_sized(card_length) ||
        totals_length != LEGBARO_TOTALS_BYTES)
        return LEGBARO_WRONG_LENGTH;
    if (version_in(card) != 3)
        return LEGBARO_WRONG_HEADER;
    if (card_fault(card, card_length))
        return card_fault(card, card_length);
    struct card c = reference_read_card(card);
    if (second_length != c.t * LEGBARO_RECORD_BYTES)
        return LEGBARO_WRONG_LENGTH;
    return change_fault(change, &c, table_length);
}

/* "an ask, which writes a second table, spent records copied, and leaves the first"; "Every ask
 * takes the last issued plus 1, even after a drop" */
static uint64_t ask(uint64_t role, const struct change *change, const uint8_t *master,
                    size_t master_length, uint8_t *card, size_t card_length, const uint8_t *table,
                    size_t table_length, uint8_t *second, size_t second_length, uint8_t *totals,
                    size_t totals_length)
{
    uint64_t fault = reference_ask_fault(role, change, master_length, card, card_length,
                                         table_length, second_length, totals_length);
    if (fault)
        return fault;
    struct card c = reference_read_card(card);
    uint64_t bad = bad_record(master, &c, table);
    if (bad)
        return LEGBARO_BAD_RECORD + 256 * bad;
    memcpy(second, table, table_length);
    c.pending_n = carry_out(change, &c, second, totals);
    c.last_issued++;
    c.pending = c.last_issued;
    reference_write_card(card, &c);
    return LEGBARO_OK;
}

uint64_t reference_ask_update(uint64_t role, const uint8_t *master, size_t master_length,
                              uint8_t *card, size_t card_length, const uint8_t *table,
                              size_t table_length, uint8_t *second, size_t second_length,
                              uint64_t m, const uint8_t *old_block, size_t old_block_length,
                              const uint8_t *mark, size_t mark_length, const uint8_t *new_block,
                              size_t new_block_length, uint8_t *totals, size_t totals_length)
{
    struct change change = update_change(m, old_block, old_block_length, mark, mark_length,
                                         new_block, new_block_length);
    return ask(role, &change, master, master_length, card, card_length, table, table_length, second,
               second_length, totals, totals_length);
}

uint64_t reference_ask_delete(uint64_t role, const uint8_t *master, size_t master_length,
                              uint8_t *card, size_t card_length, const uint8_t *table,
                              size_t table_length, uint8_t *second, size_t second_length,
                              uint64_t m, const uint8_t *old_block, size_t old_block_length,
                              const uint8_t *mark, size_t mark_length, uint8_t *totals,
                              size_t totals_length)
{
    struct change change = delete_change(m, old_block, old_block_length, mark, mark_length);
    return ask(role, &change, master, master_length, card, card_length, table, table_length, second,
               second_length, totals, totals_length);
}

uint64_t reference_ask_append(uint64_t role, const uint8_t *master, size_t master_length,
                              uint8_t *card, size_t card_length, const uint8_t *table,
                              size_t table_length, uint8_t *second, size_t second_length,
                              const uint8_t *new_block, size_t new_block_length, uint8_t *totals,
                              size_t totals_length)
{
    struct change change = {
        .kind = CHANGE_APPEND, .new_blocks = new_block, .new_length = new_block_length};
    return ask(role, &change, master, master_length, card, card_length, table, table_length, second,
               second_length, totals, totals_length);
}

uint64_t reference_ask_load(uint64_t role, const uint8_t *master, size_t master_length,
                            uint8_t *card, size_t card_length, const uint8_t *table,
                            size_t table_length, uint8_t *second, size_t second_length,
                            const uint8_t *blocks, size_t blocks_length, uint8_t *totals,
                            size_t totals_length)
{
    struct change change = {.kind = CHANGE_LOAD, .new_blocks = blocks, .new_length = blocks_length};
    return ask(role, &change, master, master_length, card, card_length, table, table_length, second,
               second_length, totals, totals_length);
}

uint64_t reference_ask_batch(uint64_t role, const uint8_t *master, size_t master_length,
                             uint8_t *card, size_t card_length, const uint8_t *table,
                             size_t table_length, uint8_t *second, size_t second_length,
                             const uint8_t *items, size_t items_length, uint8_t *totals,
                             size_t totals_length)
{
    struct change change = {.kind = CHANGE_BATCH, .items = items, .items_length = items_length};
    return ask(role, &change, master, master_length, card, card_length, table, table_length, second,
               second_length, totals, totals_length);
}

/* ---- Commit and drop ---- */

/* "then a commit or drop with nothing pending (19); commit and drop know no 8 or 10" */
uint64_t reference_settle_fault(uint64_t role, const uint8_t *card, size_t card_length)
{
    if (!may_settle(role))
        return LEGBARO_NO_RIGHT;
    if (!card_sized(card_length))
        return LEGBARO_WRONG_LENGTH;
    if (card_fault(card, card_length))
        return card_fault(card, card_length);
    return reference_read_card(card).pending == 0 ? LEGBARO_NONE_PENDING : LEGBARO_OK;
}

/* "makes its ask's table, as the ask left it, and its counter and count the standing ones" */
uint64_t reference_commit(uint64_t role, uint8_t *card, size_t card_length)
{
    uint64_t fault = reference_settle_fault(role, card, card_length);
    if (fault)
        return fault;
    struct card c = reference_read_card(card);
    c.ctr = c.pending;
    c.n = c.pending_n;
    c.pending = c.pending_n = 0;
    reference_write_card(card, &c);
    return LEGBARO_OK;
}

uint64_t reference_drop(uint64_t role, uint8_t *card, size_t card_length)
{
    uint64_t fault = reference_settle_fault(role, card, card_length);
    if (fault)
        return fault;
    struct card c = reference_read_card(card);
    c.pending = c.pending_n = 0;
    reference_write_card(card, &c);
    return LEGBARO_OK;
}
