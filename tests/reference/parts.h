/*
 * What the files of the reference implementation share. Tests use reference.h alone.
 *
 *   records.c       numbers and bytes, card and message, limits
 *   roles.c         who may do what
 *   permutation.c   the permutation P
 *   tokens.c        keys, tokens, token records
 *   changes.c       update, delete, append, load, batch
 *   asks.c          the same asked; commit, drop
 *   batches.c       the items of a batch
 *   audits.c        set-up, draw, judge, cause, the host's proof
 *   pools.c         pooled replies: judged, and made by the host
 *   planning.c      positions, sheet
 *   schedule.c      the calendar, windows, wait
 *   parity.c        parity: encode, rebuild
 */
#ifndef PARTS_H
#define PARTS_H

#include "reference.h"

enum { KEY_BYTES = 32, NONCE_BYTES = 12 };

struct message {
    uint64_t version;
    uint8_t id[LEGBARO_ID_BYTES];
    uint64_t i, B, d, r, n;
    uint8_t k[KEY_BYTES], c[KEY_BYTES];
};

/* libcrypto fails only where it has no memory, and then nothing can be compared. */
void must(int done);

/* ---- records.c ---- */

/* Writes a number as `width` bytes, big-endian, or bytes, and answers the address after them. */
uint8_t *put(uint8_t *at, unsigned width, uint64_t value);
uint8_t *put_bytes(uint8_t *at, const uint8_t *bytes, size_t length);

/* The number of `width` bytes, big-endian, or a copy of bytes; the address moves past them. */
uint64_t take(const uint8_t **at, unsigned width);
void take_bytes(const uint8_t **at, uint8_t *bytes, size_t length);

/* The length field and version of a record of `length` bytes in all: written, looked at, the
 * version alone, and the address after them. */
uint8_t *put_head(uint8_t *at, size_t length, uint64_t version);
int head_fits(const uint8_t *bytes, size_t length, uint64_t version);
uint64_t version_in(const uint8_t *bytes);
const uint8_t *after_head(const uint8_t *bytes);

struct message read_message(const uint8_t *bytes);
void write_message(uint8_t *bytes, const struct message *m);

/* Totals as bytes. */
void write_totals(uint8_t *bytes, struct totals totals);

/* Limits: of any number, of a version, of B, d and r together, of a message. */
int within(uint64_t least, uint64_t x, uint64_t most);
int version_fits(uint64_t version);
int shape_fits(uint64_t B, uint64_t d, uint64_t r);
int message_fits(const struct message *m);

/* Whether a card of some version has so many bytes; then the code that the card itself gives (2,
 * then 3). */
int card_sized(size_t length);
uint64_t card_fault(const uint8_t *card, size_t length);

/* ---- roles.c ---- */

/* Whether a role may make a change, in one step or asked; commit or drop; draw, judge, singly or a
 * pool, and ask the cause. */
int may_change(uint64_t role, enum change_kind kind);
int may_settle(uint64_t role);
int may_audit(uint64_t role);

/* ---- permutation.c ---- */

void permutation_start(void);
void permutation_end(void);

/* P under the key that was put in use last. */
void use_draw_key(const uint8_t *key);
struct walk permuted(uint64_t d, uint64_t x);
struct walk permuted_back(uint64_t d, uint64_t x);

/* ---- tokens.c ---- */

/* Puts W, Z and K of a file in use. Then the keys k and c of token i. */
void use_keys(const uint8_t *master, const uint8_t *id);
void draw_key_of(uint64_t i, uint8_t *k);
void hash_key_of(uint64_t i, uint8_t *c);

/* Xors SHA-256(c, index as four bytes, mark, block) into a token, or without a mark where that is
 * null. */
void mix_block(uint8_t *token, const uint8_t *c, uint64_t index, const uint8_t *mark,
               const uint8_t *block, size_t B);

/* The numbers over which a token is computed; writes the token under k and c over n blocks, and
 * answers the totals. In version 1 no marks are read. */
struct shape {
    uint64_t version, d, r, B, n;
};
struct totals digest(const uint8_t *k, const uint8_t *c, const struct shape *shape,
                     const uint8_t *blocks, const uint8_t *marks, uint8_t *token);

/* Mark number e, from 0, where a version has marks, null where it has none. */
const uint8_t *mark_in(uint64_t version, const uint8_t *marks, uint64_t e);

/* Record i of a table: its address, sealed with a token for a card's version at a counter, and
 * whether it opens by the card, with its token where it does. */
uint8_t *record_at(uint8_t *table, uint64_t i);
void seal(uint8_t *record, uint64_t version, uint64_t ctr, uint64_t i, const uint8_t *token);
int open_record(const uint8_t *record, const struct card *c, uint64_t i, uint8_t *token);

/* ---- schedule.c ---- */

/* Whether there is such a date and minute; whether the minutes of a schedule are within the limits;
 * the wait, WEEK for none. */
enum { DAY = 24 * 60, WEEK = 7 * DAY, WEEKDAYS = 7, PLAN_BYTES = WEEKDAYS * 2 * 2 };
int when_fits(const struct when *when);
int schedule_fits(const uint8_t *schedule);
uint64_t wait_for(const uint8_t *schedule, const struct when *when);

/* ---- batches.c ---- */

/* Block m was old_block, null for none, with its mark, and becomes new_block with another; in
 * version 1 no marks are read. */
struct block_change {
    uint64_t m;
    const uint8_t *old_block, *old_mark, *new_block, *new_mark;
};

/* B zero bytes, for the greatest B; "0 live, 1 deleted". */
extern const uint8_t deleted_block[LEGBARO_MOST_BLOCK_BYTES], live, deleted;

/* "a mark above 1": whether one of so many is. */
int marks_fit(const uint8_t *marks, size_t count);

/* The code that the items give (14, 15, then 4); and of items without a fault how many there are,
 * and the change that one makes. */
uint64_t items_fault(const uint8_t *items, size_t length, const struct card *c);
size_t item_count(size_t length, const struct card *c);
struct block_change item_change(const uint8_t *items, const struct card *c, size_t e);

/* ---- changes.c ---- */

/* The changes of an update and of a deletion. */
struct change update_change(uint64_t m, const uint8_t *old_block, size_t old_length,
                            const uint8_t *mark, size_t mark_length, const uint8_t *new_block,
                            size_t new_length);
struct change delete_change(uint64_t m, const uint8_t *old_block, size_t old_length,
                            const uint8_t *mark, size_t mark_length);

/* The code that a change gives where the card gives none, 7 apart; the lowest unused token whose
 * record does not open, 0 for none. */
uint64_t change_fault(const struct change *change, const struct card *c, size_t table_length);
uint64_t bad_record(const uint8_t *master, const struct card *c, const uint8_t *table);

/* Carries a change without a fault out on a table whose unused records open, at the counter after
 * the last issued. Writes the totals and answers the number of blocks after it. The file's keys are
 * in use. */
uint64_t carry_out(const struct change *change, const struct card *c, uint8_t *table,
                   uint8_t *totals);

#endif
