/* Parity: groups beside ISA-L, whose Cauchy matrix has these weights, every set of losses of small
 * groups, random groups of every size. */
#include "cases.h"

#include "support/chance.h"
#include "support/expect.h"
#include "support/parity_calls.h"

#include <isa-l.h>
#include <stdlib.h>
#include <string.h>

enum {
    K = LEGBARO_MOST_DATA_BLOCKS,
    P = LEGBARO_MOST_PARITY_BLOCKS,
    SMALL_K = 5,
    SMALL_P = 3,
    TRIED = 4000,
    EXACTLY_TRIED = 20,
    SIZE_TRIED = 28
};

/* ---- ISA-L ---- */

/* The matrix of a group: a row of k weights for each block, of which the first k are the unit
 * matrix. */
static void matrix_of(uint64_t k, uint64_t p, uint8_t *matrix)
{
    gf_gen_cauchy1_matrix(matrix, (int)(k + p), (int)k);
}

/* Expects the blocks that rows of k weights make of k blocks, by the code that ISA-L chooses and by
 * its portable code. */
static void expect_products(uint64_t B, uint64_t k, uint64_t rows, uint8_t *weights, uint8_t **from,
                            uint8_t *const *expected, const char *what)
{
    static uint8_t tables[32 * K * K];
    uint8_t *out = malloc(rows * B), *to[K];
    for (uint64_t i = 0; i < rows; i++)
        to[i] = out + i * B;
    ec_init_tables((int)k, (int)rows, weights, tables);
    for (int portable = 0; portable < 2; portable++) {
        memset(out, 0, rows * B);
        if (portable)
            ec_encode_data_base((int)B, (int)k, (int)rows, tables, from, to);
        else
            ec_encode_data((int)B, (int)k, (int)rows, tables, from, to);
        for (uint64_t i = 0; i < rows; i++)
            expect(!memcmp(to[i], expected[i], B), "%s %llu as ISA-L%s has it", what,
                   (unsigned long long)i, portable ? "'s portable code" : "");
    }
    free(out);
}

/* Expects the parity that an accepted encoding left. */
static void expect_encoded(const struct call *call)
{
    static uint8_t matrix[(K + P) * K];
    uint8_t *from[K], *parity[P];
    matrix_of(call->n, call->r, matrix);
    for (uint64_t q = 0; q < call->n; q++)
        from[q] = call->args[BLOCKS].bytes + q * call->B;
    for (uint64_t x = 0; x < call->r; x++)
        parity[x] = call->args[OUT].bytes + x * call->B;
    expect_products(call->B, call->n, call->r, matrix + call->n * call->n, from, parity, "parity");
}

/* Expects the lost data that an accepted rebuilding left: ISA-L inverts the matrix of the kept data
 * and of the lowest parity blocks left. */
static void expect_rebuilt(const struct call *call)
{
    static uint8_t matrix[(K + P) * K], left[K * K], inverted[K * K], weights[K * K];
    const struct buffer *lost = &call->args[LOST];
    uint64_t B = call->B, k = call->n, found = 0, count = 0;
    uint8_t *from[K], *data[K];
    matrix_of(k, call->r, matrix);
    for (uint64_t number = 0; number < k + call->r && found < k; number++)
        if (!memchr(lost->bytes, (int)number, lost->length)) {
            memcpy(left + found * k, matrix + number * k, k);
            from[found++] = call->args[BLOCKS].bytes + number * B;
        }
    expect(found == k && gf_invert_matrix(left, inverted, (int)k) == 0,
           "the matrix of the blocks left can be inverted");
    for (uint64_t q = 0; q < k; q++)
        if (memchr(lost->bytes, (int)q, lost->length)) {
            memcpy(weights + count * k, inverted + q * k, k);
            data[count++] = call->args[OUT].bytes + q * B;
        }
    if (count > 0)
        expect_products(B, k, count, weights, from, data, "lost data");
}

/* ---- Groups ---- */

/* Runs an encoding, and a rebuilding after the losses, beside the reference implementation and
 * ISA-L. All data come back, unless a survivor is damaged. */
static void expect_group(struct call *encoding, const uint8_t *lost, size_t count, int damaged)
{
    struct call rebuilding = parity_rebuilding(encoding, lost, count);
    struct buffer *blocks = &rebuilding.args[BLOCKS];
    call_expect(encoding, LEGBARO_OK, "a group");
    expect_encoded(encoding);
    if (damaged)
        buffer_flip(blocks, chance_below(8 * blocks->length));
    call_expect(&rebuilding, LEGBARO_OK, "a group");
    expect_rebuilt(&rebuilding);
    expect(damaged || buffer_same(&rebuilding.args[OUT], &encoding->args[BLOCKS]),
           "all data come back");
    call_free(&rebuilding);
}

/* The numbers of a set of blocks, a bit for each, from the highest where they go down; answers how
 * many. */
static size_t numbers_of(unsigned set, int down, uint8_t *numbers)
{
    size_t count = 0;
    for (unsigned i = 0; i < SMALL_K + SMALL_P; i++) {
        unsigned number = down ? SMALL_K + SMALL_P - 1 - i : i;
        if (set >> number & 1)
            numbers[count++] = (uint8_t)number;
    }
    return count;
}

/* Every set of losses of one size of group, in a group of its own each: as many as parity blocks
 * and fewer come back, more are refused. */
static void every_loss(uint64_t k, uint64_t p)
{
    uint8_t lost[SMALL_K + SMALL_P];
    for (unsigned set = 0; set < 1u << (k + p); set++) {
        size_t count = numbers_of(set, chance_of(2), lost);
        struct call encoding = parity_encoding(1 + chance_below(40), k, p);
        if (count <= p)
            expect_group(&encoding, lost, count, 0);
        else {
            struct call call = parity_rebuilding(&encoding, lost, count);
            call_finish(&call, LEGBARO_TOO_MANY_LOST, "more lost than parity blocks");
        }
        call_free(&encoding);
    }
}

static void small_groups(void)
{
    test_begin("every set of losses of small groups");
    for (uint64_t k = 1; k <= SMALL_K; k++)
        for (uint64_t p = 1; p <= SMALL_P; p++)
            every_loss(k, p);
    test_end();
}

/* Any `count` numbers of blocks below `blocks`, all different, in any order. */
static void any_losses(uint64_t blocks, size_t count, uint8_t *lost)
{
    for (size_t i = 0; i < count;) {
        lost[i] = (uint8_t)chance_below(blocks);
        if (!memchr(lost, lost[i], i))
            i++;
    }
}

/* A number from 1 to most, the most as often as any other together. */
static uint64_t any_to(uint64_t most)
{
    return chance_of(2) ? most : 1 + chance_below(most);
}

static void random_groups(void)
{
    uint8_t lost[P];
    test_begin("random groups, with sound survivors and with damaged ones");
    for (uint64_t i = 0; i < TRIED; i = tried_after(i, EXACTLY_TRIED)) {
        uint64_t B = chance_of(50) ? any_to(LEGBARO_MOST_BLOCK_BYTES) : 1 + chance_below(150),
                 k = any_to(K), p = any_to(P);
        struct call encoding = parity_encoding(B, k, p);
        size_t count = chance_of(2) ? p : chance_below(p + 1);
        any_losses(k + p, count, lost);
        expect_group(&encoding, lost, count, chance_of(3));
        call_free(&encoding);
    }
    test_end();
}

/* Every number of data and parity blocks, with as many data lost as can be. */
static void every_size(void)
{
    test_begin("groups of every size");
    for (uint64_t i = 0; i < K * P; i = tried_after(i, EXACTLY_TRIED)) {
        uint64_t k = 1 + i / P, p = 1 + i % P;
        uint8_t lost[P];
        struct call encoding = parity_encoding(1 + chance_below(80), k, p);
        any_losses(k, k < p ? k : p, lost);
        expect_group(&encoding, lost, k < p ? k : p, 0);
        call_free(&encoding);
    }
    test_end();
}

/* What stands in the lost blocks is not read: with other bytes there the same data come back. */
static void unread(void)
{
    test_begin("lost blocks are not read");
    for (uint64_t i = 0; i < TRIED / 8; i = tried_after(i, EXACTLY_TRIED)) {
        uint8_t lost[P];
        uint64_t B = 1 + chance_below(40), k = any_to(K), p = any_to(P);
        struct call encoding = parity_encoding(B, k, p);
        any_losses(k + p, p, lost);
        struct call one = parity_rebuilding(&encoding, lost, p), other = call_copy(&one);
        for (size_t j = 0; j < p; j++)
            chance_bytes(other.args[BLOCKS].bytes + lost[j] * B, B);
        call_expect(&one, LEGBARO_OK, "some bytes at the lost blocks");
        call_expect(&other, LEGBARO_OK, "other bytes there");
        expect(buffer_same(&one.args[OUT], &other.args[OUT]), "the same data");
        call_free(&encoding);
        call_free(&one);
        call_free(&other);
    }
    test_end();
}

/* Any numbers, lengths and lists of the lost, inside the limits and outside: a refusal leaves the
 * buffers. */
static void any_calls(void)
{
    test_begin("parity of any numbers");
    for (uint64_t i = 0; i < TRIED; i = tried_after(i, EXACTLY_TRIED)) {
        uint8_t lost[P + 4];
        uint64_t B = 1 + chance_below(20), k = 1 + chance_below(6), p = 1 + chance_below(4);
        struct call encoding = parity_encoding(B, k, p);
        size_t count = chance_below(chance_of(2) ? 3 : sizeof lost);
        for (size_t j = 0; j < count; j++)
            lost[j] = (uint8_t)chance_below(k + p);
        struct call call =
            chance_of(3) ? call_copy(&encoding) : parity_rebuilding(&encoding, lost, count);
        uint64_t *const numbers[] = {&call.B, &call.n, &call.r};
        if (chance_of(3))
            *numbers[chance_below(3)] = chance_of(2) ? chance_below(60) : chance();
        if (chance_of(4))
            buffer_resize(&call.args[chance_of(2) ? BLOCKS : OUT], chance_below(2 * (k + p) * B));
        if (count > 0 && call.kind == PARITY_REBUILD && chance_of(4))
            call.args[LOST].bytes[chance_below(count)] = (uint8_t)chance();
        call_compare(&call);
        call_free(&call);
        call_free(&encoding);
    }
    test_end();
}

/* ---- Refusals ---- */

/* A rebuilding of a group of three data blocks and two parity blocks, of which so many are lost. */
static void lost_blocks(const uint8_t *lost, size_t count, uint64_t code, const char *what)
{
    struct call encoding = parity_encoding(SIZE_TRIED, 3, 2),
                call = parity_rebuilding(&encoding, (const uint8_t *)"", 0);
    buffer_free(&call.args[LOST]);
    call.args[LOST] = buffer_of(lost, count);
    call_finish(&call, code, what);
    call_free(&encoding);
}

/* Code 24's small inputs: no data block, 17 parity blocks, a lost block named twice, one not in the
 * group. Code 25's: three lost, p 2. */
static void broken_groups(void)
{
    test_begin("the small inputs of codes 24 and 25");
    struct call call = parity_encoding(SIZE_TRIED, 0, 1);
    call_finish(&call, LEGBARO_BAD_GROUP, "no data block");

    call = parity_encoding(SIZE_TRIED, 1, LEGBARO_MOST_PARITY_BLOCKS + 1);
    call_finish(&call, LEGBARO_BAD_GROUP, "17 parity blocks");

    lost_blocks((const uint8_t[]){1, 1}, 2, LEGBARO_BAD_GROUP, "a lost block named twice");
    lost_blocks((const uint8_t[]){5}, 1, LEGBARO_BAD_GROUP, "a lost block not in the group");
    lost_blocks((const uint8_t[]){0, 1, 2, 1}, 4, LEGBARO_BAD_GROUP,
                "too many lost, one of them named twice");
    lost_blocks((const uint8_t[]){0, 1, 2}, 3, LEGBARO_TOO_MANY_LOST, "three lost, p 2");
    lost_blocks((const uint8_t[]){4, 0}, 2, LEGBARO_OK, "two lost, p 2");
    lost_blocks((const uint8_t *)"", 0, LEGBARO_OK, "none lost");
    test_end();
}

void test_parity(void)
{
    broken_groups();
    small_groups();
    every_size();
    random_groups();
    unread();
    any_calls();
}
