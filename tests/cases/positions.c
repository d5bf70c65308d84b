/* How many positions to draw of planned rows. */
#include "cases.h"

#include "support/calls.h"
#include "support/chance.h"
#include "support/expect.h"

enum { TRIED = 20000 };

static uint64_t positions(uint64_t r, uint64_t planned, uint64_t present)
{
    struct call call = {.kind = POSITIONS, .r = r, .d = planned, .n = present};
    return call_compare(&call);
}

static void expect_positions(uint64_t r, uint64_t planned, uint64_t present, uint64_t number)
{
    uint64_t returned = positions(r, planned, present);
    expect(returned == number, "positions of %llu, %llu, %llu: %llu, not %llu",
           (unsigned long long)r, (unsigned long long)planned, (unsigned long long)present,
           (unsigned long long)number, (unsigned long long)returned);
}

/* The edges of each limit, whatever the other numbers are. */
static void edges(void)
{
    enum { ROWS = LEGBARO_MOST_ROWS, MOST = LEGBARO_MOST_POSITIONS };
    expect_positions(1, 1, 1, 256);
    expect_positions(MOST, MOST, MOST, 256 * MOST);
    expect_positions(MOST, ROWS, ROWS, 256 * MOST);
    expect_positions(1, ROWS, ROWS, 256);
    expect_positions(1, ROWS, ROWS / MOST, 256 * MOST);
    expect_positions(1, ROWS, ROWS / MOST - 1, LEGBARO_TOO_MANY_POSITIONS);
    expect_positions(MOST, MOST + 1, MOST, LEGBARO_TOO_MANY_POSITIONS);
    expect_positions(MOST, ROWS, MOST, LEGBARO_TOO_MANY_POSITIONS);
    expect_positions(0, 5, 5, LEGBARO_OUT_OF_LIMITS);
    expect_positions(MOST + 1, ROWS, ROWS, LEGBARO_OUT_OF_LIMITS);
    expect_positions(4, 5, 3, LEGBARO_OUT_OF_LIMITS);
    expect_positions(1, 5, 0, LEGBARO_OUT_OF_LIMITS);
    expect_positions(0, 5, 0, LEGBARO_OUT_OF_LIMITS);
    expect_positions(1, 5, 6, LEGBARO_OUT_OF_LIMITS);
    expect_positions(1, 0, 0, LEGBARO_OUT_OF_LIMITS);
    expect_positions(1, ROWS + 1, ROWS, LEGBARO_OUT_OF_LIMITS);
    expect_positions(UINT64_MAX, UINT64_MAX, UINT64_MAX, LEGBARO_OUT_OF_LIMITS);
}

/* The number given is the least that is no less than r × planned / present. */
static void least(uint64_t r, uint64_t planned, uint64_t present)
{
    uint64_t number = positions(r, planned, present);
    if (LEGBARO_CODE(number) == LEGBARO_OK) {
        uint64_t given = LEGBARO_NUMBER(number);
        expect(given * present >= r * planned && (given - 1) * present < r * planned, "rounded up");
        expect(given >= r && given <= planned,
               "no fewer than asked for, and no more than the rows");
    }
}

/* All small numbers, those outside the limits too, and random ones inside and a little outside
 * them. */
static void many(void)
{
    for (uint64_t planned = 0; planned <= 12; planned++)
        for (uint64_t present = 0; present <= planned + 1; present++)
            for (uint64_t r = 0; r <= present + 1; r++)
                least(r, planned, present);
    for (int i = 0; i < TRIED; i++) {
        uint64_t planned = chance_below(chance_of(2) ? 2000 : LEGBARO_MOST_ROWS + 10),
                 present = chance_below(planned + 2);
        least(
            chance_below((present < LEGBARO_MOST_POSITIONS ? present : LEGBARO_MOST_POSITIONS) + 2),
            planned, present);
    }
}

void test_positions(void)
{
    test_begin("positions of planned rows");
    edges();
    many();
    test_end();
}
