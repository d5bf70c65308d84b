/* The reference implementation's set-up, draw, judge, cause and proof. See reference.h. */
#include "parts.h"

#include <stdlib.h>
#include <string.h>

/* ---- Set-up ---- */

/* The wrong size of a card for its version is "at set-up the later 1". */
uint64_t reference_set_up(const uint8_t *master, size_t master_length, const uint8_t *id,
                          size_t id_length, uint64_t version, uint64_t B, uint64_t d, uint64_t r,
                          uint64_t t, uint64_t n, const uint8_t *blocks, size_t blocks_length,
                          uint8_t *card, size_t card_length, uint8_t *table, size_t table_length,
                          uint8_t *totals, size_t totals_length)
{
    if (master_length != LEGBARO_MASTER_BYTES || id_length != LEGBARO_ID_BYTES ||
        !card_sized(card_length) || totals_length != LEGBARO_TOTALS_BYTES)
        return LEGBARO_WRONG_LENGTH;
    if (!version_fits(version) || !shape_fits(B, d, r) || !within(1, t, LEGBARO_MOST_TOKENS) ||
        !within(1, n, LEGBARO_MOST_BLOCKS))
        return LEGBARO_OUT_OF_LIMITS;
    if (card_length != reference_card_bytes(version) || blocks_length != n * B ||
        table_length != t * LEGBARO_RECORD_BYTES)
        return LEGBARO_WRONG_LENGTH;
    struct card c = {
        .version = version, .B = B, .d = d, .r = r, .t = t, .n = n, .ctr = 0, .next = 1, .open = 0};
    uint8_t *marks = calloc(n, 1); /* all live */
    must(marks != NULL);
    memcpy(c.id, id, sizeof c.id);
    write_totals(totals, reference_fresh_records(master, &c, blocks, marks, 1, t, table));
    reference_write_card(card, &c);
    free(marks);
    return LEGBARO_OK;
}

/* ---- Draw ---- */

/* "It refuses, before everything else", and after 22, "a date or minute outside these (16), and
 * after 3 a draw outside every window (17)"; "straight after 8, an ask, one-step change or draw
 * while something is pending (18)" */
uint64_t reference_draw_fault(uint64_t role, size_t master_length, const uint8_t *card,
                              size_t card_length, size_t message_length, const uint8_t *plan,
                              size_t plan_length, const struct when *when)
{
    if (!may_audit(role))
        return LEGBARO_NO_RIGHT;
    if (!when_fits(when))
        return LEGBARO_BAD_TIME;
    if (master_length != LEGBARO_MASTER_BYTES || !card_sized(card_length) ||
        message_length != LEGBARO_MESSAGE_BYTES || plan_length != PLAN_BYTES)
        return LEGBARO_WRONG_LENGTH;
    if (card_fault(card, card_length))
        return card_fault(card, card_length);
    if (!schedule_fits(plan))
        return LEGBARO_OUT_OF_LIMITS;
    if (wait_for(plan, when) > 0)
        return LEGBARO_OUTSIDE_WINDOWS;
    struct card c = reference_read_card(card);
    if (c.open != 0)
        return LEGBARO_TOKEN_OPEN;
    if (c.pending != 0)
        return LEGBARO_CHANGE_PENDING;
    return c.next == c.t + 1 ? LEGBARO_NO_TOKEN_LEFT : LEGBARO_OK;
}

uint64_t reference_draw(uint64_t role, const uint8_t *master, size_t master_length, uint8_t *card,
                        size_t card_length, uint8_t *message, size_t message_length,
                        const uint8_t *plan, size_t plan_length, uint64_t year, uint64_t month,
                        uint64_t day, uint64_t minute)
{
    struct when when = {year, month, day, minute};
    uint64_t fault = reference_draw_fault(role, master_length, card, card_length, message_length,
                                          plan, plan_length, &when);
    if (fault)
        return fault;
    struct card c = reference_read_card(card);
    struct message m = {.version = c.version, .i = c.next, .B = c.B, .d = c.d, .r = c.r, .n = c.n};
    memcpy(m.id, c.id, sizeof m.id);
    use_keys(master, c.id);
    draw_key_of(c.next, m.k);
    hash_key_of(c.next, m.c);
    write_message(message, &m);
    c.open = c.next;
    c.next++;
    reference_write_card(card, &c);
    return LEGBARO_OK;
}

/* ---- Judge ---- */

uint64_t reference_judge_fault(uint64_t role, size_t master_length, const uint8_t *card,
                               size_t card_length)
{
    if (!may_audit(role))
        return LEGBARO_NO_RIGHT;
    if (master_length != LEGBARO_MASTER_BYTES || !card_sized(card_length))
        return LEGBARO_WRONG_LENGTH;
    if (card_fault(card, card_length))
        return card_fault(card, card_length);
    return reference_read_card(card).open == 0 ? LEGBARO_NONE_OPEN : LEGBARO_OK;
}

uint64_t reference_verdict(const uint8_t *master, const struct card *c, const uint8_t *reply,
                           size_t reply_length)
{
    uint8_t id[LEGBARO_ID_BYTES], sent[TOKEN_BYTES], token[TOKEN_BYTES];
    if (reply_length != LEGBARO_REPLY_BYTES || !head_fits(reply, LEGBARO_REPLY_BYTES, c->version))
        return LEGBARO_REJECTED;
    const uint8_t *at = after_head(reply);
    take_bytes(&at, id, sizeof id);
    if (memcmp(id, c->id, sizeof id) != 0 || take(&at, 4) != c->open)
        return LEGBARO_REJECTED;
    take_bytes(&at, sent, sizeof sent);
    use_keys(master, c->id);
    if (!open_record(at, c, c->open, token))
        return LEGBARO_REJECTED;
    return memcmp(token, sent, sizeof token) == 0 ? LEGBARO_OK : LEGBARO_REJECTED;
}

uint64_t reference_judge(uint64_t role, const uint8_t *master, size_t master_length, uint8_t *card,
                         size_t card_length, const uint8_t *reply, size_t reply_length)
{
    uint64_t fault = reference_judge_fault(role, master_length, card, card_length);
    if (fault)
        return fault;
    struct card c = reference_read_card(card);
    uint64_t verdict = reference_verdict(master, &c, reply, reply_length);
    c.open = 0;
    reference_write_card(card, &c);
    return verdict;
}

/* ---- Cause ---- */

/* "the place, from 1, of the first that holds: wrong size, wrong header (length or version, of
 * reply or record), another file or token (either token number), another counter, bad tag, other
 * digest" */
static uint64_t cause_of(const uint8_t *master, const struct card *c, const uint8_t *reply,
                         size_t reply_length)
{
    uint8_t id[LEGBARO_ID_BYTES], sent[TOKEN_BYTES], token[TOKEN_BYTES];
    if (reply_length != LEGBARO_REPLY_BYTES)
        return 1;
    const uint8_t *record = reply + LEGBARO_REPLY_BYTES - LEGBARO_RECORD_BYTES;
    if (!head_fits(reply, LEGBARO_REPLY_BYTES, c->version) ||
        !head_fits(record, LEGBARO_RECORD_BYTES, c->version))
        return 2;
    const uint8_t *at = after_head(reply), *in_record = after_head(record);
    take_bytes(&at, id, sizeof id);
    uint64_t i = take(&at, 4), ctr = take(&in_record, 8), record_i = take(&in_record, 4);
    take_bytes(&at, sent, sizeof sent);
    if (memcmp(id, c->id, sizeof id) != 0 || i != c->open || record_i != c->open)
        return 3;
    if (ctr != c->ctr)
        return 4;
    use_keys(master, c->id);
    if (!open_record(record, c, c->open, token))
        return 5;
    return memcmp(token, sent, sizeof token) == 0 ? 0 : 6;
}

/* "It shares judge's checks, 9 included" */
uint64_t reference_cause(uint64_t role, const uint8_t *master, size_t master_length,
                         const uint8_t *card, size_t card_length, const uint8_t *reply,
                         size_t reply_length)
{
    uint64_t fault = reference_judge_fault(role, master_length, card, card_length);
    if (fault)
        return fault;
    struct card c = reference_read_card(card);
    return LEGBARO_OK + 256 * cause_of(master, &c, reply, reply_length);
}

/* ---- The host's proof ---- */

uint64_t reference_prove(const uint8_t *message, size_t message_length, const uint8_t *blocks,
                         size_t blocks_length, const uint8_t *marks, size_t marks_length,
                         const uint8_t *table, size_t table_length, uint8_t *reply,
                         size_t reply_length, uint8_t *totals, size_t totals_length)
{
    if (message_length != LEGBARO_MESSAGE_BYTES || reply_length != LEGBARO_REPLY_BYTES ||
        totals_length != LEGBARO_TOTALS_BYTES)
        return LEGBARO_WRONG_LENGTH;
    struct message m = read_message(message);
    if (!version_fits(m.version) || !head_fits(message, LEGBARO_MESSAGE_BYTES, m.version))
        return LEGBARO_WRONG_HEADER;
    if (!message_fits(&m))
        return LEGBARO_OUT_OF_LIMITS;
    if (blocks_length != m.n * m.B || marks_length != (m.version == 1 ? 0 : m.n) ||
        table_length < m.i * LEGBARO_RECORD_BYTES)
        return LEGBARO_WRONG_LENGTH;
    if (!marks_fit(marks, marks_length))
        return LEGBARO_BAD_MARK;
    uint8_t token[TOKEN_BYTES];
    struct shape shape = {m.version, m.d, m.r, m.B, m.n};
    write_totals(totals, digest(m.k, m.c, &shape, blocks, marks, token));
    uint8_t *at = put_head(reply, LEGBARO_REPLY_BYTES, m.version);
    at = put_bytes(at, m.id, sizeof m.id);
    at = put(at, 4, m.i);
    at = put_bytes(at, token, sizeof token);
    put_bytes(at, table + (m.i - 1) * LEGBARO_RECORD_BYTES, LEGBARO_RECORD_BYTES);
    return LEGBARO_OK;
}
