/*
 * Set-up and changes, the owner's calls. A part of legbaro.h, which has what all calls share.
 *
 *   legbaro_set_up                  makes the card and the table of a new file
 *   legbaro_update, _delete, _append, _load, _batch
 *                                   change a file in one step
 *   legbaro_ask_update .. _batch    ask for the same five changes; version 3 only
 *   legbaro_commit, legbaro_drop    make a pending change final, or discard it
 */
#ifndef LEGBARO_CHANGES_H
#define LEGBARO_CHANGES_H

#include <stddef.h>
#include <stdint.h>

#ifdef __cplusplus
extern "C" {
#endif

/* clang-format off */

/*
 * Set-up: makes the card and the table of a new file. Blocks and table then go to the host, in
 * versions 2 and 3 with a mark LEGBARO_LIVE for each block.
 *
 *   master     LEGBARO_MASTER_BYTES
 *   id         LEGBARO_ID_BYTES: the owner's name for the file
 *   version    LEGBARO_WITHOUT_MARKS, LEGBARO_WITH_MARKS or LEGBARO_TWO_STEPS
 *   block_bytes, rows, positions, tokens   B, d, r and t. Like the version, they are fixed for the
 *                                          life of the file
 *   blocks_count   n: the number of blocks now, from 1
 *   blocks     blocks_count * block_bytes: the first blocks, end to end; all of them live
 *   card       of the file's version, written: the numbers above, counter 0, next 1, none open,
 *              none pending
 *   table      tokens * LEGBARO_RECORD_BYTES, written
 *   totals     LEGBARO_TOTALS_BYTES, written: one walk from each position of each token, and a hash
 *              of each block in the rows drawn. They stay with the owner
 *
 * rows is what the file is planned for. blocks_count may be less, equal or more: rows above it are
 * empty, and blocks above rows lie in further columns. With fewer blocks than rows take positions
 * from legbaro_positions. Never set up the same master key and id twice (legbaro.h, KEYS AND
 * CARDS).
 *
 * Codes: 1 (master, id, card, totals), 3, 1 (card, blocks, table). A card of another version's size
 * gives the later 1.
 */
uint64_t legbaro_set_up(const uint8_t *master, size_t master_length,
                        const uint8_t *id, size_t id_length,
                        uint64_t version,
                        uint64_t block_bytes, uint64_t rows, uint64_t positions,
                        uint64_t tokens, uint64_t blocks_count,
                        const uint8_t *blocks, size_t blocks_length,
                        uint8_t *card, size_t card_length,
                        uint8_t *table, size_t table_length,
                        uint8_t *totals, size_t totals_length);

/*
 * ---- Changes ----
 *
 * Every change, in one step or asked, takes these:
 *
 *   role       LEGBARO_PLANNER; for append and load, in one step or asked, LEGBARO_SURVEYOR too
 *   master     LEGBARO_MASTER_BYTES
 *   card       of the file's version, written
 *   table      t * LEGBARO_RECORD_BYTES: the standing table, which is that of the last change made
 *              in one step or committed, or of set-up. Written in one step, not by an ask
 *   totals     LEGBARO_TOTALS_BYTES, written
 *
 * The owner also sends the changed blocks and marks to the host, which puts them in their places.
 *
 * COUNTER AND TABLE. The new counter is the last counter issued plus 1, and is then the last one
 * issued. In versions 1 and 2 the last counter issued is the card's counter. Every unused record,
 * from token next to t, is sealed again at the new counter, whether its token covers what changes
 * or not. Spent records keep their bytes.
 *
 * BAD RECORDS. Code 7, LEGBARO_BAD_RECORD, comes with the lowest unused token whose record does not
 * open. Every unused record below it opens. Fetch the records from that token on again from the
 * host. Where they open, the same call is accepted.
 *
 * MARKS. A deleted block is B zero bytes. A block of zeros that belongs to the file, such as the
 * sample of a closed day, has the same bytes. In version 1 it also has the same hash, so a host may
 * drop it unnoticed. In versions 2 and 3 each block has a mark, LEGBARO_LIVE or LEGBARO_DELETED,
 * which is hashed with it. Set-up, append, load and update make a block live. A deletion makes it
 * deleted. The host keeps the marks, one byte for each block, and gives all of them to its proof.
 * The owner gives a block's old mark with the old block. In version 1 buffers for marks are empty.
 *
 * TOTALS. A change walks back once for each unused token and each block that it changes, whether
 * the token draws the block's row or not. Where it does, the old and the new block are hashed, even
 * where they are equal. Of an added block only the new one is hashed.
 * The totals of a change show how many unused tokens cover its blocks. No host may learn that
 * before these tokens are drawn. The owner keeps the totals of changes and of set-up, and sends
 * none of them.
 */

/*
 * ---- Changes in one step ----
 *
 * They do what an ask and its commit do together, but write to the standing table. Store the card
 * before the table is sent.
 */

/*
 * Update: block number `block` was old_block and becomes new_block. The two may be equal.
 *
 *   block      1 to n
 *   old_block  B bytes: the block as it is; zero bytes for a deleted one
 *   mark       one byte: the block's mark as it is; in version 1 empty
 *   new_block  B bytes. In versions 2 and 3 the block is then live
 *
 * Codes: 22, 1 (master, card, totals), 2, 3, 1 (table, old_block, mark, new_block), 15, 8, 18, 4,
 * 10, 7.
 */
uint64_t legbaro_update(uint64_t role,
                        const uint8_t *master, size_t master_length,
                        uint8_t *card, size_t card_length,
                        uint8_t *table, size_t table_length,
                        uint64_t block,
                        const uint8_t *old_block, size_t old_block_length,
                        const uint8_t *mark, size_t mark_length,
                        const uint8_t *new_block, size_t new_block_length,
                        uint8_t *totals, size_t totals_length);

/*
 * Deletion: block number `block` was old_block and becomes B zero bytes. The host puts these in its
 * place. In versions 2 and 3 its mark becomes LEGBARO_DELETED. n does not change. A deleted block
 * may be deleted or updated again.
 *
 *   block      1 to n
 *   old_block  B bytes: the block as it is; zero bytes for a deleted one
 *   mark       one byte: the block's mark as it is; in version 1 empty
 *
 * Codes: 22, 1 (master, card, totals), 2, 3, 1 (table, old_block, mark), 15, 8, 18, 4, 10, 7.
 */
uint64_t legbaro_delete(uint64_t role,
                        const uint8_t *master, size_t master_length,
                        uint8_t *card, size_t card_length,
                        uint8_t *table, size_t table_length,
                        uint64_t block,
                        const uint8_t *old_block, size_t old_block_length,
                        const uint8_t *mark, size_t mark_length,
                        uint8_t *totals, size_t totals_length);

/*
 * Append: new_block comes after the last block, and is live. n rises by 1.
 *
 *   new_block  B bytes
 *
 * Codes: 22, 1 (master, card, totals), 2, 3, 1 (table, new_block), 8, 18, 5, 10, 7.
 */
uint64_t legbaro_append(uint64_t role,
                        const uint8_t *master, size_t master_length,
                        uint8_t *card, size_t card_length,
                        uint8_t *table, size_t table_length,
                        const uint8_t *new_block, size_t new_block_length,
                        uint8_t *totals, size_t totals_length);

/*
 * Load: one or more new blocks come after the last block, with one step of the counter. n rises by
 * their number. Either all of them are taken or none.
 *
 *   blocks     the new blocks, end to end: B bytes for each, and at least one. They are live
 *
 * The table then holds the tokens that the same blocks would leave if they were appended one by
 * one. Only the counter and the sealing differ. A load of one block writes what its append writes.
 *
 * Append a block as soon as it is there, so that the next audit covers it. Load blocks that were
 * held back: the table is fetched, sealed and sent back once, not once for each block. A thousand
 * blocks take a small part of the time of a thousand appends.
 *
 * Codes: 22, 1 (master, card, totals), 2, 3, 1 (table), 8, 18, 12, 5, 10, 7. A wrong length of
 * blocks is 12, never 1.
 */
uint64_t legbaro_load(uint64_t role,
                      const uint8_t *master, size_t master_length,
                      uint8_t *card, size_t card_length,
                      uint8_t *table, size_t table_length,
                      const uint8_t *blocks, size_t blocks_length,
                      uint8_t *totals, size_t totals_length);

/*
 * Batch: 1 to LEGBARO_MOST_ITEMS updates and deletions together, with one step of the counter.
 * Either all of them are taken or none.
 *
 *   items      LEGBARO_ITEM_BYTES(version, B) for each item, end to end. Block numbers rise: each
 *              is above the one before, so that a block is in a batch once
 *
 * The table then holds the tokens that the same updates and deletions would leave if they were made
 * one by one. Only the counter and the sealing differ. A batch of one item writes what that update
 * or deletion writes.
 *
 * Update a block as soon as its correction is there. Make a batch of corrections that come
 * together: the table is fetched and sent back once, and every unused record is opened and sealed
 * once. For each unused token an item costs a walk, and two hashes where the token draws its row.
 *
 * Codes: 22, 1 (master, card, totals), 2, 3, 1 (table), 8, 18, 14, 15, 4, 10, 7. A wrong length of
 * items is 14, never 1. Codes 14, 15 and 4 do not say which item it was.
 */
uint64_t legbaro_batch(uint64_t role,
                       const uint8_t *master, size_t master_length,
                       uint8_t *card, size_t card_length,
                       uint8_t *table, size_t table_length,
                       const uint8_t *items, size_t items_length,
                       uint8_t *totals, size_t totals_length);

/*
 * ---- Changes in two steps, in version 3 only ----
 *
 * A connection may be lost while a changed table is on its way to the host. So a change may be
 * asked first, and then committed or dropped:
 *
 *   1. Ask. Store the card that the ask wrote, and the second table with it, where a crash cannot
 *      lose them. Only then may the second table be sent.
 *   2. Send the host the second table, and the blocks and marks that change. The host keeps the
 *      standing table and the old blocks beside them.
 *   3. When the host has confirmed all of it, commit and store the card. Then notify the host,
 *      which discards the old table and blocks.
 *
 * After a lost connection send the same second table again, as often as needed: its bytes do not
 * change. Or drop, store the card, and ask again. The host then discards what it has received, and
 * the standing table is used as before. Where the second table is lost, drop: no call makes it
 * again.
 *
 * Each ask takes a counter that no ask or change took before it, dropped asks included. While a
 * change is pending, no other ask, no change in one step and no draw is accepted (18).
 *
 * Every ask takes the arguments of the change in one step, and one more after the table:
 *
 *   second     t * LEGBARO_RECORD_BYTES, written: the table after the change. Spent records are
 *              copied, unused ones are sealed at the new counter
 *
 * The card is written too: the last counter issued, the pending counter and the pending number of
 * blocks. Until the commit the table, n and the counter stay as they are, byte for byte, and so do
 * the file's blocks.
 *
 * Never ask from an older card: it would take the same counter, and seal other tokens under the
 * same nonces.
 *
 * The checks are those of the change in one step, in the same order. Code 2 is also a card of
 * version 1 or 2.
 */

/*
 * Ask for an update. The arguments and their limits are those of legbaro_update.
 *
 * Codes: 22, 1 (master, card, totals), 2, 3, 1 (table, second, old_block, mark, new_block), 15, 8,
 * 18, 4, 10, 7.
 */
uint64_t legbaro_ask_update(uint64_t role,
                            const uint8_t *master, size_t master_length,
                            uint8_t *card, size_t card_length,
                            const uint8_t *table, size_t table_length,
                            uint8_t *second, size_t second_length,
                            uint64_t block,
                            const uint8_t *old_block, size_t old_block_length,
                            const uint8_t *mark, size_t mark_length,
                            const uint8_t *new_block, size_t new_block_length,
                            uint8_t *totals, size_t totals_length);

/*
 * Ask for a deletion. The arguments and their limits are those of legbaro_delete.
 *
 * Codes: 22, 1 (master, card, totals), 2, 3, 1 (table, second, old_block, mark), 15, 8, 18, 4,
 * 10, 7.
 */
uint64_t legbaro_ask_delete(uint64_t role,
                            const uint8_t *master, size_t master_length,
                            uint8_t *card, size_t card_length,
                            const uint8_t *table, size_t table_length,
                            uint8_t *second, size_t second_length,
                            uint64_t block,
                            const uint8_t *old_block, size_t old_block_length,
                            const uint8_t *mark, size_t mark_length,
                            uint8_t *totals, size_t totals_length);

/*
 * Ask for an append. The arguments and their limits are those of legbaro_append.
 *
 * Codes: 22, 1 (master, card, totals), 2, 3, 1 (table, second, new_block), 8, 18, 5, 10, 7.
 */
uint64_t legbaro_ask_append(uint64_t role,
                            const uint8_t *master, size_t master_length,
                            uint8_t *card, size_t card_length,
                            const uint8_t *table, size_t table_length,
                            uint8_t *second, size_t second_length,
                            const uint8_t *new_block, size_t new_block_length,
                            uint8_t *totals, size_t totals_length);

/*
 * Ask for a load. The arguments and their limits are those of legbaro_load.
 *
 * Codes: 22, 1 (master, card, totals), 2, 3, 1 (table, second), 8, 18, 12, 5, 10, 7.
 */
uint64_t legbaro_ask_load(uint64_t role,
                          const uint8_t *master, size_t master_length,
                          uint8_t *card, size_t card_length,
                          const uint8_t *table, size_t table_length,
                          uint8_t *second, size_t second_length,
                          const uint8_t *blocks, size_t blocks_length,
                          uint8_t *totals, size_t totals_length);

/*
 * Ask for a batch. The arguments and their limits are those of legbaro_batch.
 *
 * Codes: 22, 1 (master, card, totals), 2, 3, 1 (table, second), 8, 18, 14, 15, 4, 10, 7.
 */
uint64_t legbaro_ask_batch(uint64_t role,
                           const uint8_t *master, size_t master_length,
                           uint8_t *card, size_t card_length,
                           const uint8_t *table, size_t table_length,
                           uint8_t *second, size_t second_length,
                           const uint8_t *items, size_t items_length,
                           uint8_t *totals, size_t totals_length);

/*
 * Commit: the pending change becomes part of the file. The pending counter and number of blocks
 * become the card's, and nothing is pending any more. From then on the second table, as the ask
 * wrote it, is the standing table. Commit only when the host has confirmed that it has the second
 * table and all that changed.
 *
 *   role       LEGBARO_PLANNER
 *   card       LEGBARO_TWO_STEP_CARD_BYTES, written
 *
 * Codes: 22, 1 (card), 2, 3, 19. A card of version 1 or 2 has nothing pending: 19.
 */
uint64_t legbaro_commit(uint64_t role, uint8_t *card, size_t card_length);

/*
 * Drop: discards the pending change. Counter and number of blocks stay, and so do the table and the
 * file. The last counter issued stays too, so that the next ask takes another one. The second table
 * must not be used any more.
 *
 *   role       LEGBARO_PLANNER
 *   card       LEGBARO_TWO_STEP_CARD_BYTES, written: nothing is pending any more
 *
 * Codes: 22, 1 (card), 2, 3, 19. A card of version 1 or 2 has nothing pending: 19.
 */
uint64_t legbaro_drop(uint64_t role, uint8_t *card, size_t card_length);

/* clang-format on */

#ifdef __cplusplus
}
#endif

#endif
