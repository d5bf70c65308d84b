/* The reference implementation's permutation, held to what paper 01 says of it. */
#include "cases.h"

#include "reference/reference.h"
#include "support/chance.h"
#include "support/expect.h"

enum { MOST_D = 40, KEYS = 4 };

/* "h is 1, 1, 2, 2, 3, 10 for d = 1, 4, 5, 16, 17, 1,048,576" */
static void half_widths(void)
{
    static const struct {
        uint64_t d;
        unsigned h;
    } marked[] = {{1, 1}, {4, 1}, {5, 2}, {16, 2}, {17, 3}, {LEGBARO_MOST_ROWS, 10}};
    for (size_t i = 0; i < sizeof marked / sizeof *marked; i++)
        expect(reference_half_width(marked[i].d) == marked[i].h, "half width %u for d = %llu",
               marked[i].h, (unsigned long long)marked[i].d);
}

/* Each number below d comes up once, and backward P undoes it in as many turns. "never above 4^h -
 * d + 1"; "walks from different positions never cross outside the rows", so that all together take
 * no more turns than there are numbers below 4^h. */
static void one_to_one(const uint8_t *key, uint64_t d)
{
    uint64_t seen = 0, turns = 0, numbers = UINT64_C(1) << 2 * reference_half_width(d);
    for (uint64_t x = 0; x < d; x++) {
        struct walk walk = reference_permuted(key, d, x),
                    back = reference_permuted_back(key, d, walk.end);
        expect(walk.end < d && !(seen >> walk.end & 1), "P one to one for d = %llu",
               (unsigned long long)d);
        expect(back.end == x && back.turns == walk.turns, "P undone for d = %llu, in as many turns",
               (unsigned long long)d);
        expect(walk.turns >= 1 && walk.turns <= numbers - d + 1, "the turns of a walk for d = %llu",
               (unsigned long long)d);
        seen |= UINT64_C(1) << walk.end;
        turns += walk.turns;
    }
    expect(turns <= numbers, "the turns of all walks for d = %llu", (unsigned long long)d);
}

void test_permutation(void)
{
    uint8_t key[LEGBARO_MASTER_BYTES];
    test_begin("the reference implementation's permutation");
    half_widths();
    for (int keys = 0; keys < KEYS; keys++) {
        chance_bytes(key, sizeof key);
        for (uint64_t d = 1; d <= MOST_D; d++)
            one_to_one(key, d);
    }
    test_end();
}
