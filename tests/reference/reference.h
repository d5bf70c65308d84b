/*
 * The reference implementation of the calls, over OpenSSL's libcrypto, to compare the library with.
 * It follows the text of papers 01 and 02, shares no code with the library, and takes the papers'
 * letters: B bytes in a block, d rows, r positions, t tokens, n blocks.
 *
 *   reference_start, reference_end         the contexts of libcrypto that all else here uses
 *   reference_set_up .. _parity_rebuild    the calls, with the arguments of legbaro.h
 *   struct card, reference_read_card, _write_card, _card_bytes
 *                                          the numbers of a card, their bytes, and how many
 *   struct totals, reference_add_totals    the totals of a call, and their sums
 *   reference_fresh_records                the records of unused tokens, computed from the blocks
 *   struct change                          what a change hands over
 *   struct item, reference_item            an item of a batch
 *   reference_token                        the token in a record of a table
 *   struct when, reference_weekday         a date and minute, and the weekday of a date
 *   reference_change_fault .. _pool_fault  the code of a refused call, 0 for none
 *   reference_verdict, _pool_verdict       0 or 11
 *   struct walk, reference_half_width, _permuted, _permuted_back
 *                                          the permutation P
 */
#ifndef REFERENCE_H
#define REFERENCE_H

#include <stddef.h>
#include <stdint.h>

#include "legbaro.h"

enum { TOKEN_BYTES = 32, FIRST_VERSION = 1, LAST_VERSION = 3 };

/* Of a change that is pending, its counter and the number of blocks after it, both 0 for none. */
struct card {
    uint64_t version;
    uint8_t id[LEGBARO_ID_BYTES];
    uint64_t B, d, r, t, n, ctr, next, open, last_issued, pending, pending_n;
};

/* An update and a deletion have a block number, an old block and its mark; an update and an append
 * a new block, a load new blocks end to end; a batch has its items end to end. */
enum change_kind { CHANGE_UPDATE, CHANGE_DELETE, CHANGE_APPEND, CHANGE_LOAD, CHANGE_BATCH };

struct change {
    enum change_kind kind;
    uint64_t m;
    const uint8_t *old_block;
    size_t old_length;
    const uint8_t *mark;
    size_t mark_length;
    const uint8_t *new_blocks;
    size_t new_length;
    const uint8_t *items;
    size_t items_length;
};

struct item {
    uint64_t kind, m;
    const uint8_t *old_block, *mark, *new_block; /* no mark, null, in version 1 */
};

struct when {
    uint64_t year, month, day, minute;
};

/* "totals of turns and of block hashes" */
struct totals {
    uint64_t turns, hashes;
};

/* Where P leads, and "how many times the eight rounds were applied". */
struct walk {
    uint64_t end, turns;
};

void reference_start(void);
void reference_end(void);

/* One buffer a line. */
/* clang-format off */
uint64_t reference_set_up(const uint8_t *master, size_t master_length,
                          const uint8_t *id, size_t id_length,
                          uint64_t version,
                          uint64_t B, uint64_t d, uint64_t r, uint64_t t, uint64_t n,
                          const uint8_t *blocks, size_t blocks_length,
                          uint8_t *card, size_t card_length,
                          uint8_t *table, size_t table_length,
                          uint8_t *totals, size_t totals_length);

uint64_t reference_update(uint64_t role,
                          const uint8_t *master, size_t master_length,
                          uint8_t *card, size_t card_length,
                          uint8_t *table, size_t table_length,
                          uint64_t m,
                          const uint8_t *old_block, size_t old_block_length,
                          const uint8_t *mark, size_t mark_length,
                          const uint8_t *new_block, size_t new_block_length,
                          uint8_t *totals, size_t totals_length);

uint64_t reference_delete(uint64_t role,
                          const uint8_t *master, size_t master_length,
                          uint8_t *card, size_t card_length,
                          uint8_t *table, size_t table_length,
                          uint64_t m,
                          const uint8_t *old_block, size_t old_block_length,
                          const uint8_t *mark, size_t mark_length,
                          uint8_t *totals, size_t totals_length);

uint64_t reference_append(uint64_t role,
                          const uint8_t *master, size_t master_length,
                          uint8_t *card, size_t card_length,
                          uint8_t *table, size_t table_length,
                          const uint8_t *new_block, size_t new_block_length,
                          uint8_t *totals, size_t totals_length);

uint64_t reference_load(uint64_t role,
                        const uint8_t *master, size_t master_length,
                        uint8_t *card, size_t card_length,
                        uint8_t *table, size_t table_length,
                        const uint8_t *blocks, size_t blocks_length,
                        uint8_t *totals, size_t totals_length);

uint64_t reference_batch(uint64_t role,
                         const uint8_t *master, size_t master_length,
                         uint8_t *card, size_t card_length,
                         uint8_t *table, size_t table_length,
                         const uint8_t *items, size_t items_length,
                         uint8_t *totals, size_t totals_length);

uint64_t reference_ask_update(uint64_t role,
                              const uint8_t *master, size_t master_length,
                              uint8_t *card, size_t card_length,
                              const uint8_t *table, size_t table_length,
                              uint8_t *second, size_t second_length,
                              uint64_t m,
                              const uint8_t *old_block, size_t old_block_length,
                              const uint8_t *mark, size_t mark_length,
                              const uint8_t *new_block, size_t new_block_length,
                              uint8_t *totals, size_t totals_length);

uint64_t reference_ask_delete(uint64_t role,
                              const uint8_t *master, size_t master_length,
                              uint8_t *card, size_t card_length,
                              const uint8_t *table, size_t table_length,
                              uint8_t *second, size_t second_length,
                              uint64_t m,
                              const uint8_t *old_block, size_t old_block_length,
                              const uint8_t *mark, size_t mark_length,
                              uint8_t *totals, size_t totals_length);

uint64_t reference_ask_append(uint64_t role,
                              const uint8_t *master, size_t master_length,
                              uint8_t *card, size_t card_length,
                              const uint8_t *table, size_t table_length,
                              uint8_t *second, size_t second_length,
                              const uint8_t *new_block, size_t new_block_length,
                              uint8_t *totals, size_t totals_length);

uint64_t reference_ask_load(uint64_t role,
                            const uint8_t *master, size_t master_length,
                            uint8_t *card, size_t card_length,
                            const uint8_t *table, size_t table_length,
                            uint8_t *second, size_t second_length,
                            const uint8_t *blocks, size_t blocks_length,
                            uint8_t *totals, size_t totals_length);

uint64_t reference_ask_batch(uint64_t role,
                             const uint8_t *master, size_t master_length,
                             uint8_t *card, size_t card_length,
                             const uint8_t *table, size_t table_length,
                             uint8_t *second, size_t second_length,
                             const uint8_t *items, size_t items_length,
                             uint8_t *totals, size_t totals_length);

uint64_t reference_commit(uint64_t role, uint8_t *card, size_t card_length);
uint64_t reference_drop(uint64_t role, uint8_t *card, size_t card_length);

uint64_t reference_draw(uint64_t role,
                        const uint8_t *master, size_t master_length,
                        uint8_t *card, size_t card_length,
                        uint8_t *message, size_t message_length,
                        const uint8_t *plan, size_t plan_length,
                        uint64_t year, uint64_t month, uint64_t day, uint64_t minute);

uint64_t reference_judge(uint64_t role,
                         const uint8_t *master, size_t master_length,
                         uint8_t *card, size_t card_length,
                         const uint8_t *reply, size_t reply_length);

uint64_t reference_cause(uint64_t role,
                         const uint8_t *master, size_t master_length,
                         const uint8_t *card, size_t card_length,
                         const uint8_t *reply, size_t reply_length);

uint64_t reference_judge_pool(uint64_t role,
                              const uint8_t *master, size_t master_length,
                              uint8_t *cards, size_t cards_length,
                              const uint8_t *reply, size_t reply_length);

uint64_t reference_prove(const uint8_t *message, size_t message_length,
                         const uint8_t *blocks, size_t blocks_length,
                         const uint8_t *marks, size_t marks_length,
                         const uint8_t *table, size_t table_length,
                         uint8_t *reply, size_t reply_length,
                         uint8_t *totals, size_t totals_length);

uint64_t reference_pool(const uint8_t *replies, size_t replies_length,
                        uint8_t *pooled, size_t pooled_length);

uint64_t reference_positions(uint64_t r, uint64_t planned, uint64_t present);

uint64_t reference_wait(const uint8_t *plan, size_t plan_length,
                        uint64_t year, uint64_t month, uint64_t day, uint64_t minute);

uint64_t reference_sheet(uint64_t B, uint64_t d, uint64_t r, uint64_t t, uint64_t n, uint64_t m,
                         uint8_t *out, size_t out_length);

uint64_t reference_parity_encode(uint64_t B, uint64_t k, uint64_t p,
                                 const uint8_t *data, size_t data_length,
                                 uint8_t *parity, size_t parity_length);

uint64_t reference_parity_rebuild(uint64_t B, uint64_t k, uint64_t p,
                                  const uint8_t *blocks, size_t blocks_length,
                                  const uint8_t *lost, size_t lost_length,
                                  uint8_t *data, size_t data_length);
/* clang-format on */

/* How many bytes a card of a version has; the numbers of so many bytes, whatever they are, and the
 * bytes of numbers. */
size_t reference_card_bytes(uint64_t version);
struct card reference_read_card(const uint8_t *bytes);
void reference_write_card(uint8_t *bytes, const struct card *c);

/* Adds the totals of a part to those of the whole. */
void reference_add_totals(struct totals *whole, struct totals part);

/* Writes records `first` to `last` of a table: each token over the card's n blocks, with their
 * marks but in version 1, sealed at the card's counter. Answers the changes. */
struct totals reference_fresh_records(const uint8_t *master, const struct card *c,
                                      const uint8_t *blocks, const uint8_t *marks, uint64_t first,
                                      uint64_t last, uint8_t *table);

/* Item e, from 0, of a batch for the card's version and block bytes; how many bytes each item
 * has. */
struct item reference_item(const uint8_t *items, const struct card *c, size_t e);
size_t reference_item_bytes(const struct card *c);

/* Whether record i of a table opens at the card's counter; its token where it does. */
int reference_token(const uint8_t *master, const struct card *c, const uint8_t *table, uint64_t i,
                    uint8_t *token);

/* The code of a change in one step and of an ask, code 7 apart, of a commit or drop, of a draw, and
 * of a judging, of one card or of several end to end, before its verdict. */
uint64_t reference_change_fault(uint64_t role, const struct change *change, size_t master_length,
                                const uint8_t *card, size_t card_length, size_t table_length,
                                size_t totals_length);
uint64_t reference_ask_fault(uint64_t role, const struct change *change, size_t master_length,
                             const uint8_t *card, size_t card_length, size_t table_length,
                             size_t second_length, size_t totals_length);
uint64_t reference_settle_fault(uint64_t role, const uint8_t *card, size_t card_length);
uint64_t reference_draw_fault(uint64_t role, size_t master_length, const uint8_t *card,
                              size_t card_length, size_t message_length, const uint8_t *plan,
                              size_t plan_length, const struct when *when);
uint64_t reference_judge_fault(uint64_t role, size_t master_length, const uint8_t *card,
                               size_t card_length);
uint64_t reference_pool_fault(uint64_t role, size_t master_length, const uint8_t *cards,
                              size_t cards_length);

/* The verdict on a reply of any length; on a pooled one, for cards without a fault. */
uint64_t reference_verdict(const uint8_t *master, const struct card *c, const uint8_t *reply,
                           size_t reply_length);
uint64_t reference_pool_verdict(const uint8_t *master, const uint8_t *cards, size_t cards_length,
                                const uint8_t *reply, size_t reply_length);

/* The weekday of a date within the limits, 0 for Monday. */
unsigned reference_weekday(const struct when *when);

/* The half width h of d, and P of 0..d-1 under a key, forward and backward. */
unsigned reference_half_width(uint64_t d);
struct walk reference_permuted(const uint8_t *key, uint64_t d, uint64_t x);
struct walk reference_permuted_back(const uint8_t *key, uint64_t d, uint64_t x);

#endif
