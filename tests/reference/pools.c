/* The reference implementation's pools: one reply judged for several cards, and the host's making
 * of it. See reference.h. */
#include "parts.h"

#include <string.h>

/* "length 2, version 1, number of files 2, the xor of their digests 32, and for each card in turn
 * id 8, i 4, record 63"; "Two to sixteen drawn files" */
enum {
    FRONT = 2 + 1 + 2 + 32,
    ENTRY = 8 + 4 + 63,
    LEAST_FILES = 2,
    MOST_FILES = 16,
    POOL_VERSION = 1
};

static size_t pooled_bytes(size_t files)
{
    return FRONT + files * ENTRY;
}

static void xor_into(uint8_t *sum, const uint8_t *token)
{
    for (int i = 0; i < TOKEN_BYTES; i++)
        sum[i] ^= token[i];
}

/* ---- The cards ---- */

/* How many bytes a card has by its length field. */
static size_t told_bytes(const uint8_t *card)
{
    return 2 + take(&card, 2);
}

/* "Cards lie end to end, cut by length field straight after 22: one not 41 or 61 is 2, a short rest
 * 1" */
static uint64_t cut_fault(const uint8_t *cards, size_t length)
{
    for (size_t at = 0; at < length; at += told_bytes(cards + at)) {
        size_t rest = length - at;
        if (rest < 2)
            return LEGBARO_WRONG_LENGTH;
        if (!card_sized(told_bytes(cards + at)))
            return LEGBARO_WRONG_HEADER;
        if (rest < told_bytes(cards + at))
            return LEGBARO_WRONG_LENGTH;
    }
    return LEGBARO_OK;
}

/* Cards that can be cut, in turn: each one's numbers, while there is one; the address moves past
 * it. */
static int next_card(const uint8_t **at, const uint8_t *end, struct card *c)
{
    if (*at == end)
        return 0;
    *c = reference_read_card(*at);
    *at += told_bytes(*at);
    return 1;
}

static size_t card_count(const uint8_t *cards, size_t length)
{
    const uint8_t *end = cards + length;
    size_t count = 0;
    for (struct card c; next_card(&cards, end, &c);)
        count++;
    return count;
}

/* Whether some card gives this code. */
static int some_card_gives(uint64_t code, const uint8_t *cards, size_t length)
{
    for (size_t at = 0; at < length; at += told_bytes(cards + at))
        if (card_fault(cards + at, told_bytes(cards + at)) == code)
            return 1;
    return 0;
}

/* "an id that occurs twice" */
static int some_id_twice(const uint8_t *cards, size_t length)
{
    const uint8_t *end = cards + length;
    for (struct card c; next_card(&cards, end, &c);) {
        const uint8_t *at = cards;
        for (struct card later; next_card(&at, end, &later);)
            if (memcmp(c.id, later.id, sizeof c.id) == 0)
                return 1;
    }
    return 0;
}

/* "Any open of 0 is 9" */
static int some_open_is_0(const uint8_t *cards, size_t length)
{
    const uint8_t *end = cards + length;
    for (struct card c; next_card(&cards, end, &c);)
        if (c.open == 0)
            return 1;
    return 0;
}

/* "judged by roles 2 and 3"; "It refuses, after 3, any other number of cards or an id that occurs
 * twice (23)" */
uint64_t reference_pool_fault(uint64_t role, size_t master_length, const uint8_t *cards,
                              size_t cards_length)
{
    if (!may_audit(role))
        return LEGBARO_NO_RIGHT;
    if (cut_fault(cards, cards_length))
        return cut_fault(cards, cards_length);
    if (master_length != LEGBARO_MASTER_BYTES)
        return LEGBARO_WRONG_LENGTH;
    if (some_card_gives(LEGBARO_WRONG_HEADER, cards, cards_length))
        return LEGBARO_WRONG_HEADER;
    if (some_card_gives(LEGBARO_OUT_OF_LIMITS, cards, cards_length))
        return LEGBARO_OUT_OF_LIMITS;
    if (!within(LEAST_FILES, card_count(cards, cards_length), MOST_FILES) ||
        some_id_twice(cards, cards_length))
        return LEGBARO_BAD_POOL;
    return some_open_is_0(cards, cards_length) ? LEGBARO_NONE_OPEN : LEGBARO_OK;
}

/* ---- The verdict ---- */

/* "every id, i and record passes as for single judging": whether those at an address do, with the
 * token that the record holds; the address moves past them. */
static int entry_passes(const uint8_t *master, const struct card *c, const uint8_t **at,
                        uint8_t *token)
{
    uint8_t id[LEGBARO_ID_BYTES];
    take_bytes(at, id, sizeof id);
    uint64_t i = take(at, 4);
    const uint8_t *record = *at;
    *at += LEGBARO_RECORD_BYTES;
    use_keys(master, c->id);
    return memcmp(id, c->id, sizeof id) == 0 && i == c->open &&
           open_record(record, c, c->open, token);
}

/* "accepted exactly when its size, length, version and number fit, .. and the xor of the opened
 * tokens is the one sent"; "Its version is 1, a record's its card's" */
uint64_t reference_pool_verdict(const uint8_t *master, const uint8_t *cards, size_t cards_length,
                                const uint8_t *reply, size_t reply_length)
{
    uint8_t sent[TOKEN_BYTES], token[TOKEN_BYTES], sum[TOKEN_BYTES] = {0};
    const uint8_t *end = cards + cards_length;
    size_t files = card_count(cards, cards_length);
    if (reply_length != pooled_bytes(files) || !head_fits(reply, reply_length, POOL_VERSION))
        return LEGBARO_REJECTED;
    const uint8_t *at = after_head(reply);
    if (take(&at, 2) != files)
        return LEGBARO_REJECTED;
    take_bytes(&at, sent, sizeof sent);
    for (struct card c; next_card(&cards, end, &c);) {
        if (!entry_passes(master, &c, &at, token))
            return LEGBARO_REJECTED;
        xor_into(sum, token);
    }
    return memcmp(sum, sent, sizeof sum) == 0 ? LEGBARO_OK : LEGBARO_REJECTED;
}

/* "Every verdict closes all draws." */
uint64_t reference_judge_pool(uint64_t role, const uint8_t *master, size_t master_length,
                              uint8_t *cards, size_t cards_length, const uint8_t *reply,
                              size_t reply_length)
{
    uint64_t fault = reference_pool_fault(role, master_length, cards, cards_length);
    if (fault)
        return fault;
    uint64_t verdict = reference_pool_verdict(master, cards, cards_length, reply, reply_length);
    for (size_t at = 0; at < cards_length; at += told_bytes(cards + at)) {
        struct card c = reference_read_card(cards + at);
        c.open = 0;
        reference_write_card(cards + at, &c);
    }
    return verdict;
}

/* ---- The host's side, of which the paper has the record alone ---- */

/* Whether the heads of so many replies are a reply's, of some version. */
static int replies_headed(const uint8_t *replies, size_t count)
{
    for (size_t e = 0; e < count; e++) {
        const uint8_t *reply = replies + e * LEGBARO_REPLY_BYTES;
        if (!version_fits(version_in(reply)) ||
            !head_fits(reply, LEGBARO_REPLY_BYTES, version_in(reply)))
            return 0;
    }
    return 1;
}

/* "Reply, 110: length 108, version, file id 8, i 4, digest 32, token record 63" */
static void write_pooled(uint8_t *pooled, const uint8_t *replies, size_t count)
{
    uint8_t *sum = put(put_head(pooled, pooled_bytes(count), POOL_VERSION), 2, count),
            *at = sum + TOKEN_BYTES;
    memset(sum, 0, TOKEN_BYTES);
    for (size_t e = 0; e < count; e++) {
        const uint8_t *name = after_head(replies + e * LEGBARO_REPLY_BYTES),
                      *token = name + LEGBARO_ID_BYTES + 4;
        xor_into(sum, token);
        at = put_bytes(at, name, LEGBARO_ID_BYTES + 4);
        at = put_bytes(at, token + TOKEN_BYTES, LEGBARO_RECORD_BYTES);
    }
}

uint64_t reference_pool(const uint8_t *replies, size_t replies_length, uint8_t *pooled,
                        size_t pooled_length)
{
    size_t count = replies_length / LEGBARO_REPLY_BYTES;
    if (replies_length % LEGBARO_REPLY_BYTES != 0)
        return LEGBARO_WRONG_LENGTH;
    if (!replies_headed(replies, count))
        return LEGBARO_WRONG_HEADER;
    if (!within(LEAST_FILES, count, MOST_FILES))
        return LEGBARO_BAD_POOL;
    if (pooled_length != pooled_bytes(count))
        return LEGBARO_WRONG_LENGTH;
    write_pooled(pooled, replies, count);
    return LEGBARO_OK;
}
