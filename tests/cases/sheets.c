/* Planning sheets: the chance is held to exact fractions, by libcrypto's large numbers, and the
 * sheets of small files to all rows and draws that there are. */
#include "cases.h"

#include "support/calls.h"
#include "support/chance.h"
#include "support/expect.h"

#include <openssl/bn.h>
#include <stdlib.h>

enum { TRIED = 6000, FEW_ROWS = 9, COUNTED_ROWS = 600, COUNTED_BLOCKS = 5000 };

/* What a sheet is asked for, and what it says. */
struct numbers {
    uint64_t B, d, r, t, n, m;
};
struct sheet {
    uint64_t table, turns, least, most, escape;
};

#define LLU(x) ((unsigned long long)(x))

static uint64_t number_at(const struct call *call, size_t at)
{
    return buffer_number(&call->args[OUT], at, 8);
}

/* Runs the call and frees it; answers the code, and what was written. */
static uint64_t ask(struct call call, struct sheet *sheet)
{
    uint64_t code = call_compare(&call);
    if (call.args[OUT].length == LEGBARO_SHEET_BYTES) {
        struct sheet written = {
            number_at(&call, LEGBARO_SHEET_TABLE), number_at(&call, LEGBARO_SHEET_TURNS),
            number_at(&call, LEGBARO_SHEET_LEAST), number_at(&call, LEGBARO_SHEET_MOST),
            number_at(&call, LEGBARO_SHEET_ESCAPE)};
        *sheet = written;
    }
    call_free(&call);
    return code;
}

static struct sheet taken(const struct numbers *of)
{
    struct sheet sheet = {0, 0, 0, 0, 0};
    uint64_t code = ask(call_sheet(of->B, of->d, of->r, of->t, of->n, of->m), &sheet);
    expect(code == LEGBARO_OK, "a sheet for d %llu, r %llu, n %llu, m %llu", LLU(of->d), LLU(of->r),
           LLU(of->n), LLU(of->m));
    return sheet;
}

/* "never under the exact value and less than r units above it": with N and D the products of d-m-j
 * and of d-j for j from 0 to r-1, the figure times D is N × 2^32 at least, and less than that and r
 * × D. */
static void expect_fraction(const struct numbers *of, uint64_t figure)
{
    BIGNUM *exact = BN_new(), *unit = BN_new(), *above = BN_new(), *given = BN_new();
    int done = exact && unit && above && given && BN_one(exact) && BN_one(unit);
    for (uint64_t j = 0; done && j < of->r; j++)
        done = BN_mul_word(exact, of->d - of->m > j ? of->d - of->m - j : 0) &&
               BN_mul_word(unit, of->d - j);
    done = done && BN_lshift(exact, exact, 32) && BN_copy(given, unit) &&
           BN_mul_word(given, figure) && BN_copy(above, unit) && BN_mul_word(above, of->r) &&
           BN_add(above, above, exact);
    expect(done, "large numbers");
    expect(BN_cmp(given, exact) >= 0, "the chance for d %llu, r %llu, m %llu is not under",
           LLU(of->d), LLU(of->r), LLU(of->m));
    expect(BN_cmp(given, above) < 0, "the chance for d %llu, r %llu, m %llu is not r above",
           LLU(of->d), LLU(of->r), LLU(of->m));
    BN_free(exact);
    BN_free(unit);
    BN_free(above);
    BN_free(given);
}

/* What a chance is at its ends. */
static void expect_ends(const struct numbers *of, uint64_t figure)
{
    expect((figure == LEGBARO_ESCAPE_ONE) == (of->m == 0),
           "a chance of 1 where no row is damaged, and nowhere else");
    expect((figure == 0) == (of->r > of->d - of->m),
           "a chance of 0 where a damaged row is always drawn, and nowhere else");
}

static int by_size(const void *a, const void *b)
{
    unsigned x = *(const unsigned *)a, y = *(const unsigned *)b;
    return (x > y) - (x < y);
}

/* Counts the blocks of each row, block by block: the r rows with the fewest have the least, the r
 * with the most have the most. */
static void expect_counted(const struct numbers *of, const struct sheet *sheet)
{
    unsigned rows[COUNTED_ROWS] = {0};
    uint64_t least = 0, most = 0;
    if (of->d > COUNTED_ROWS || of->n > COUNTED_BLOCKS)
        return;
    for (uint64_t block = 1; block <= of->n; block++)
        rows[(block - 1) % of->d]++;
    qsort(rows, of->d, sizeof *rows, by_size);
    for (uint64_t i = 0; i < of->r; i++) {
        least += rows[i];
        most += rows[of->d - 1 - i];
    }
    expect(sheet->least == least && sheet->most == most,
           "%llu to %llu hashes for d %llu, r %llu, n %llu", LLU(least), LLU(most), LLU(of->d),
           LLU(of->r), LLU(of->n));
}

static unsigned bits(unsigned set)
{
    unsigned count = 0;
    for (; set; set &= set - 1)
        count++;
    return count;
}

/* Counts, of all draws of r rows, those that have none of the rows 1 to m in them. */
static void expect_all_draws(const struct numbers *of, uint64_t figure)
{
    uint64_t draws = 0, missed = 0;
    if (of->d > FEW_ROWS)
        return;
    unsigned damaged = (1u << of->m) - 1;
    for (unsigned drawn = 0; drawn < 1u << of->d; drawn++)
        if (bits(drawn) == of->r) {
            draws++;
            missed += !(drawn & damaged);
        }
    expect(figure * draws >= missed << 32 && figure * draws < (missed << 32) + of->r * draws,
           "%llu of %llu draws miss: d %llu, r %llu, m %llu", LLU(missed), LLU(draws), LLU(of->d),
           LLU(of->r), LLU(of->m));
}

static void expect_sheet(uint64_t B, uint64_t d, uint64_t r, uint64_t t, uint64_t n, uint64_t m)
{
    struct numbers of = {B, d, r, t, n, m};
    struct sheet sheet = taken(&of);
    expect(sheet.table == t * LEGBARO_RECORD_BYTES, "the table's bytes");
    expect(sheet.turns >= r, "a turn for each position");
    expect(sheet.least <= sheet.most && sheet.most <= n && sheet.most - sheet.least <= r,
           "the least hashes, then the most");
    expect((sheet.least == sheet.most) == (n % d == 0 || r == d),
           "as many hashes for any rows where n is a multiple of d, or r is d");
    expect_fraction(&of, sheet.escape);
    expect_ends(&of, sheet.escape);
    expect_counted(&of, &sheet);
    expect_all_draws(&of, sheet.escape);
}

/* All sheets of files with few rows and blocks. */
static void small_files(void)
{
    test_begin("sheets of small files, beside all rows and draws");
    for (uint64_t d = 1; d <= FEW_ROWS; d++)
        for (uint64_t r = 1; r <= d; r++)
            for (uint64_t m = 0; m <= d; m++)
                for (uint64_t n = 1; n <= 3 * d; n += m ? d : 1)
                    expect_sheet(1, d, r, 1, n, m);
    test_end();
}

/* The most of every number with the least of the others, and all at their most; m, r and d - m side
 * by side; n below, at and above d. */
static void edges(void)
{
    enum {
        B = LEGBARO_MOST_BLOCK_BYTES,
        D = LEGBARO_MOST_ROWS,
        R = LEGBARO_MOST_POSITIONS,
        T = LEGBARO_MOST_TOKENS
    };
    enum { N = LEGBARO_MOST_BLOCKS };
    static const uint64_t rows[] = {1,   2,   3,   4,    5,    16,    17, 511,
                                    512, 513, 720, 4096, 4097, D - 1, D};
    static const uint64_t blocks[] = {1, 719, 720, 721, 1440, N - 1, N};
    test_begin("sheets at the edges");
    expect_sheet(1, 1, 1, 1, 1, 0);
    expect_sheet(B, D, R, T, N, D);
    expect_sheet(B, D, R, T, N, 0);
    expect_sheet(B, D, R, T, N, D - R);
    for (size_t i = 0; i < sizeof rows / sizeof *rows; i++) {
        uint64_t d = rows[i], most = d < R ? d : R;
        for (uint64_t r = 1; r <= most; r += most > 1 ? most - 1 : 1) {
            const uint64_t damaged[] = {0, 1, d / 2, d - r, d - r + 1, d - 1, d};
            for (size_t k = 0; k < sizeof damaged / sizeof *damaged; k++)
                expect_sheet(1, d, r, T, d, damaged[k]);
            for (size_t k = 0; k < sizeof blocks / sizeof *blocks; k++)
                expect_sheet(B, d, r, 1, blocks[k], 1);
        }
    }
    test_end();
}

/* A number from 1 to most, near either end as often as between. */
static uint64_t any_to(uint64_t most)
{
    uint64_t near = chance_below(most < 4 ? most : 4);
    return chance_of(3) ? 1 + near : chance_of(2) ? most - near : 1 + chance_below(most);
}

/* Random sheets: one half of files whose rows are counted, and d - m near r in a third. */
static void random_sheets(void)
{
    test_begin("random sheets, beside exact fractions");
    for (int i = 0; i < TRIED; i++) {
        int small = chance_of(2);
        uint64_t d = any_to(small ? COUNTED_ROWS : LEGBARO_MOST_ROWS);
        uint64_t r = any_to(d < LEGBARO_MOST_POSITIONS ? d : LEGBARO_MOST_POSITIONS);
        uint64_t n = any_to(small ? COUNTED_BLOCKS : LEGBARO_MOST_BLOCKS);
        uint64_t m = chance_of(3) ? d - r + chance_below(2) : any_to(d) - chance_below(2);
        if (chance_of(4))
            n = n < d ? d : n - n % d;
        expect_sheet(any_to(LEGBARO_MOST_BLOCK_BYTES), d, r, any_to(LEGBARO_MOST_TOKENS), n, m);
    }
    test_end();
}

/* Any numbers at all, and any length, inside the limits and outside: a refusal leaves the
 * buffer. */
static void any_calls(void)
{
    static const uint64_t most[] = {LEGBARO_MOST_BLOCK_BYTES, LEGBARO_MOST_ROWS,
                                    LEGBARO_MOST_POSITIONS,   LEGBARO_MOST_TOKENS,
                                    LEGBARO_MOST_BLOCKS,      LEGBARO_MOST_ROWS};
    test_begin("sheets of any numbers");
    for (int i = 0; i < TRIED; i++) {
        uint64_t x[6];
        struct sheet sheet;
        for (int k = 0; k < 6; k++)
            x[k] = chance_of(8)    ? (chance_of(2) ? 0 : most[k] + 1)
                   : chance_of(40) ? chance()
                                   : any_to(most[k]);
        struct call call = call_sheet(x[0], x[1], x[2], x[3], x[4], x[5]);
        if (chance_of(8))
            buffer_resize(&call.args[OUT], chance_below(2 * LEGBARO_SHEET_BYTES));
        ask(call, &sheet);
    }
    test_end();
}

void test_sheets(void)
{
    small_files();
    edges();
    random_sheets();
    any_calls();
}
