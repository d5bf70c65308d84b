/* The reference implementation's records: numbers and bytes, card and message, and their limits.
 * See parts.h. */
#include "parts.h"

#include <string.h>

enum { LENGTH_FIELD = 2 };

/* ---- Numbers and bytes, one after the other ---- */

uint8_t *put(uint8_t *at, unsigned width, uint64_t value)
{
    for (unsigned i = 0; i < width; i++)
        at[i] = (uint8_t)(value >> (8 * (width - 1 - i)));
    return at + width;
}

uint8_t *put_bytes(uint8_t *at, const uint8_t *bytes, size_t length)
{
    memcpy(at, bytes, length);
    return at + length;
}

uint64_t take(const uint8_t **at, unsigned width)
{
    uint64_t value = 0;
    for (unsigned i = 0; i < width; i++)
        value = value << 8 | *(*at)++;
    return value;
}

void take_bytes(const uint8_t **at, uint8_t *bytes, size_t length)
{
    memcpy(bytes, *at, length);
    *at += length;
}

/* "Each begins with a two-byte length of what follows, then version 1"; "wherever 01 wants version
 * 1 it now wants the card's" */
uint8_t *put_head(uint8_t *at, size_t length, uint64_t version)
{
    return put(put(at, LENGTH_FIELD, length - LENGTH_FIELD), 1, version);
}

int head_fits(const uint8_t *bytes, size_t length, uint64_t version)
{
    return take(&bytes, LENGTH_FIELD) == length - LENGTH_FIELD && take(&bytes, 1) == version;
}

uint64_t version_in(const uint8_t *bytes)
{
    return bytes[LENGTH_FIELD];
}

const uint8_t *after_head(const uint8_t *bytes)
{
    return bytes + LENGTH_FIELD + 1;
}

/* ---- Card, message and totals ---- */

/* "Card, 43: length 41"; "Card version 3 (63 bytes, length 61)" */
size_t reference_card_bytes(uint64_t version)
{
    return version == 3 ? 63 : 43;
}

/* "adds the last counter issued 8, and the pending counter 8 and pending block count 4"; "Versions
 * 1 and 2 read as nothing pending and ctr last issued" */
struct card reference_read_card(const uint8_t *bytes)
{
    struct card c = {.version = version_in(bytes)};
    const uint8_t *at = after_head(bytes);
    take_bytes(&at, c.id, sizeof c.id);
    c.B = take(&at, 2);
    c.d = take(&at, 4);
    c.r = take(&at, 2);
    c.t = take(&at, 4);
    c.n = take(&at, 4);
    c.ctr = take(&at, 8);
    c.next = take(&at, 4);
    c.open = take(&at, 4);
    c.last_issued = c.version == 3 ? take(&at, 8) : c.ctr;
    c.pending = c.version == 3 ? take(&at, 8) : 0;
    c.pending_n = c.version == 3 ? take(&at, 4) : 0;
    return c;
}

void reference_write_card(uint8_t *bytes, const struct card *c)
{
    uint8_t *at = put_head(bytes, reference_card_bytes(c->version), c->version);
    at = put_bytes(at, c->id, sizeof c->id);
    at = put(at, 2, c->B);
    at = put(at, 4, c->d);
    at = put(at, 2, c->r);
    at = put(at, 4, c->t);
    at = put(at, 4, c->n);
    at = put(at, 8, c->ctr);
    at = put(at, 4, c->next);
    at = put(at, 4, c->open);
    if (c->version == 3)
        put(put(put(at, 8, c->last_issued), 8, c->pending), 4, c->pending_n);
}

struct message read_message(const uint8_t *bytes)
{
    struct message m = {.version = version_in(bytes)};
    const uint8_t *at = after_head(bytes);
    take_bytes(&at, m.id, sizeof m.id);
    m.i = take(&at, 4);
    m.B = take(&at, 2);
    m.d = take(&at, 4);
    m.r = take(&at, 2);
    m.n = take(&at, 4);
    take_bytes(&at, m.k, sizeof m.k);
    take_bytes(&at, m.c, sizeof m.c);
    return m;
}

void write_message(uint8_t *bytes, const struct message *m)
{
    uint8_t *at = put_head(bytes, LEGBARO_MESSAGE_BYTES, m->version);
    at = put_bytes(at, m->id, sizeof m->id);
    at = put(at, 4, m->i);
    at = put(at, 2, m->B);
    at = put(at, 4, m->d);
    at = put(at, 2, m->r);
    at = put(at, 4, m->n);
    at = put_bytes(at, m->k, sizeof m->k);
    put_bytes(at, m->c, sizeof m->c);
}

/* "8 bytes each": "totals of turns and of block hashes" */
void write_totals(uint8_t *bytes, struct totals totals)
{
    put(put(bytes, 8, totals.turns), 8, totals.hashes);
}

void reference_add_totals(struct totals *whole, struct totals part)
{
    whole->turns += part.turns;
    whole->hashes += part.hashes;
}

/* ---- Limits ---- */

int within(uint64_t least, uint64_t x, uint64_t most)
{
    return least <= x && x <= most;
}

int version_fits(uint64_t version)
{
    return within(FIRST_VERSION, version, LAST_VERSION);
}

int shape_fits(uint64_t B, uint64_t d, uint64_t r)
{
    return within(1, B, LEGBARO_MOST_BLOCK_BYTES) && within(1, d, LEGBARO_MOST_ROWS) &&
           within(1, r, LEGBARO_MOST_POSITIONS) && r <= d;
}

/* "the pending counter 8 and pending block count 4, both 0 for none"; "a pending counter equals it
 * and exceeds ctr, with a count from n to n's most and open 0" */
static int pending_fits(const struct card *c)
{
    if (c->pending == 0 && c->pending_n == 0)
        return 1;
    return c->pending == c->last_issued && c->pending > c->ctr &&
           within(c->n, c->pending_n, LEGBARO_MOST_BLOCKS) && c->open == 0;
}

/* "Last issued is from ctr to ctr's most" */
static int card_fits(const struct card *c)
{
    return shape_fits(c->B, c->d, c->r) && within(1, c->t, LEGBARO_MOST_TOKENS) &&
           within(1, c->n, LEGBARO_MOST_BLOCKS) && c->ctr <= LEGBARO_MOST_COUNTER &&
           within(1, c->next, c->t + 1) && (c->open == 0 || c->open == c->next - 1) &&
           within(c->ctr, c->last_issued, LEGBARO_MOST_COUNTER) && pending_fits(c);
}

int message_fits(const struct message *m)
{
    return shape_fits(m->B, m->d, m->r) && within(1, m->i, LEGBARO_MOST_TOKENS) &&
           within(1, m->n, LEGBARO_MOST_BLOCKS);
}

/* "Where a card comes to have several sizes, each passes the first length check; the wrong one for
 * its version is then 2" */
int card_sized(size_t length)
{
    return length == reference_card_bytes(1) || length == reference_card_bytes(3);
}

uint64_t card_fault(const uint8_t *card, size_t length)
{
    uint64_t version = version_in(card);
    if (!version_fits(version) || length != reference_card_bytes(version) ||
        !head_fits(card, length, version))
        return LEGBARO_WRONG_HEADER;
    struct card c = reference_read_card(card);
    return card_fits(&c) ? LEGBARO_OK : LEGBARO_OUT_OF_LIMITS;
}
