/* The reference implementation's parity. See reference.h. */
#include "parts.h"

#include <stdlib.h>
#include <string.h>

enum { K = LEGBARO_MOST_DATA_BLOCKS, P = LEGBARO_MOST_PARITY_BLOCKS };

/* "over the field of 256 elements with polynomial 0x11D": bit by bit. The inverse is sought. */
static unsigned times(unsigned a, unsigned b)
{
    unsigned product = 0;
    for (; a; a >>= 1) {
        if (a & 1)
            product ^= b;
        b <<= 1;
        if (b & 0x100)
            b ^= 0x11D;
    }
    return product;
}

static unsigned inverse(unsigned a)
{
    unsigned b = 1;
    while (times(a, b) != 1)
        b++;
    return b;
}

/* Adds a block, weighed, to another. */
static void add(uint8_t *to, unsigned weight, const uint8_t *block, size_t B)
{
    uint8_t products[256];
    for (unsigned x = 0; x < 256; x++)
        products[x] = (uint8_t)times(weight, x);
    for (size_t t = 0; t < B; t++)
        to[t] ^= products[block[t]];
}

static int is_named(const uint8_t *lost, size_t count, uint64_t number)
{
    return count > 0 && memchr(lost, (int)number, count) != NULL;
}

static int group_fits(uint64_t k, uint64_t p)
{
    return within(1, k, K) && within(1, p, P);
}

/* "a lost block named twice or not in the group" */
static int lost_fits(uint64_t blocks, const uint8_t *lost, size_t count)
{
    for (size_t i = 0; i < count; i++)
        if (lost[i] >= blocks || is_named(lost, i, lost[i]))
            return 0;
    return 1;
}

/* "Parity p (from 0) of k data blocks weighs data q by the inverse of (k + p) xor q" */
uint64_t reference_parity_encode(uint64_t B, uint64_t k, uint64_t p, const uint8_t *data,
                                 size_t data_length, uint8_t *parity, size_t parity_length)
{
    if (!within(1, B, LEGBARO_MOST_BLOCK_BYTES))
        return LEGBARO_OUT_OF_LIMITS;
    if (!group_fits(k, p))
        return LEGBARO_BAD_GROUP;
    if (data_length != k * B || parity_length != p * B)
        return LEGBARO_WRONG_LENGTH;
    memset(parity, 0, parity_length);
    for (unsigned x = 0; x < p; x++)
        for (unsigned q = 0; q < k; q++)
            add(parity + x * B, inverse(((unsigned)k + x) ^ q), data + q * B, B);
    return LEGBARO_OK;
}

/* As many equations as unknowns: a matrix of weights, and beside each row a block, which is the sum
 * of the unknown blocks so weighed. */
struct equations {
    unsigned count;
    unsigned weights[P][P];
    uint8_t *sums[P];
};

/* The equations of the lost data, from the parity blocks `sources`: what these hold, without the
 * kept data. */
static void set_up(struct equations *e, uint64_t B, uint64_t k, const uint8_t *blocks,
                   const unsigned *gone, const unsigned *sources)
{
    for (unsigned i = 0; i < e->count; i++) {
        unsigned unknown = 0;
        must((e->sums[i] = malloc(B)) != NULL);
        memcpy(e->sums[i], blocks + sources[i] * B, B);
        for (unsigned q = 0; q < k; q++)
            if (unknown < e->count && gone[unknown] == q)
                e->weights[i][unknown++] = inverse(sources[i] ^ q);
            else
                add(e->sums[i], inverse(sources[i] ^ q), blocks + q * B, B);
    }
}

/* Gauss and Jordan. No pivot is 0, since every square part of these weights can be inverted. */
static void solve(struct equations *e, uint64_t B)
{
    for (unsigned i = 0; i < e->count; i++) {
        unsigned scale = inverse(e->weights[i][i]) ^ 1;
        uint8_t *copy = malloc(B);
        must(copy != NULL);
        memcpy(copy, e->sums[i], B);
        add(e->sums[i], scale, copy, B);
        for (unsigned c = 0; c < e->count; c++)
            e->weights[i][c] ^= times(scale, e->weights[i][c]);
        for (unsigned r = 0; r < e->count; r++) {
            unsigned factor = e->weights[r][i];
            if (r == i || factor == 0)
                continue;
            add(e->sums[r], factor, e->sums[i], B);
            for (unsigned c = 0; c < e->count; c++)
                e->weights[r][c] ^= times(factor, e->weights[i][c]);
        }
        free(copy);
    }
}

static uint64_t rebuild_fault(uint64_t B, uint64_t k, uint64_t p, size_t blocks_length,
                              const uint8_t *lost, size_t count, size_t data_length)
{
    if (!within(1, B, LEGBARO_MOST_BLOCK_BYTES))
        return LEGBARO_OUT_OF_LIMITS;
    if (!group_fits(k, p) || !lost_fits(k + p, lost, count))
        return LEGBARO_BAD_GROUP;
    if (count > p)
        return LEGBARO_TOO_MANY_LOST;
    return blocks_length == (k + p) * B && data_length == k * B ? LEGBARO_OK : LEGBARO_WRONG_LENGTH;
}

/* "writes the data, solved from the lowest surviving parity blocks, as many as data are lost" */
uint64_t reference_parity_rebuild(uint64_t B, uint64_t k, uint64_t p, const uint8_t *blocks,
                                  size_t blocks_length, const uint8_t *lost, size_t lost_length,
                                  uint8_t *data, size_t data_length)
{
    struct equations e = {.count = 0};
    unsigned gone[P], sources[P], found = 0;
    uint64_t code = rebuild_fault(B, k, p, blocks_length, lost, lost_length, data_length);
    if (code != LEGBARO_OK)
        return code;
    for (unsigned q = 0; q < k; q++)
        if (is_named(lost, lost_length, q))
            gone[e.count++] = q;
        else
            memcpy(data + q * B, blocks + q * B, B);
    for (unsigned u = (unsigned)k; u < k + p && found < e.count; u++)
        if (!is_named(lost, lost_length, u))
            sources[found++] = u;
    set_up(&e, B, k, blocks, gone, sources);
    solve(&e, B);
    for (unsigned i = 0; i < e.count; i++) {
        memcpy(data + gone[i] * B, e.sums[i], B);
        free(e.sums[i]);
    }
    return LEGBARO_OK;
}
