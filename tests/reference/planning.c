/* The reference implementation's helpers for planning. See reference.h. */
#include "parts.h"

/* "A helper gives positions as r × planned rows / present blocks, rounded up. There r is at most
 * 512 and the present blocks, and these at most the planned rows, else 3"; "after 3, more than 512
 * positions (13)"; "One number given stands in the token's place beside code 0" */
uint64_t reference_positions(uint64_t r, uint64_t planned, uint64_t present)
{
    if (!within(1, planned, LEGBARO_MOST_ROWS) || !within(1, present, planned) ||
        !within(1, r, LEGBARO_MOST_POSITIONS) || r > present)
        return LEGBARO_OUT_OF_LIMITS;
    uint64_t positions = r * planned / present;
    if (positions * present < r * planned)
        positions++;
    return positions > LEGBARO_MOST_POSITIONS ? LEGBARO_TOO_MANY_POSITIONS
                                              : LEGBARO_OK + 256 * positions;
}

/* "the least and most hashes for a proof of any r different rows": s rows have a block more than
 * the others */
static uint64_t least_hashes(uint64_t r, uint64_t q, uint64_t s, uint64_t d)
{
    uint64_t others = d - s;
    return r * q + (r > others ? r - others : 0);
}

static uint64_t most_hashes(uint64_t r, uint64_t q, uint64_t s)
{
    return r * q + (r < s ? r : s);
}

/* "Starting at 2^32, each factor is multiplied in and the result rounded up": (d-m-j)/(d-j) "for j
 * from 0 to r-1, or 0 when r exceeds d-m" */
static uint64_t escape(uint64_t d, uint64_t r, uint64_t m)
{
    uint64_t figure = UINT64_C(1) << 32;
    if (r > d - m)
        return 0;
    for (uint64_t j = 0; j < r; j++) {
        uint64_t product = figure * (d - m - j);
        figure = product / (d - j) + (product % (d - j) != 0);
    }
    return figure;
}

/* "From B, d, r, t, n and m alone the sheet gives the table's bytes, a ceiling of r + 4^h - d on
 * the turns of one token .., and the least and most hashes .. where q = n div d and s = n mod d.
 * For m damaged rows it gives last the chance of escape"; "It refuses, after 3, m above d (21)" */
uint64_t reference_sheet(uint64_t B, uint64_t d, uint64_t r, uint64_t t, uint64_t n, uint64_t m,
                         uint8_t *out, size_t out_length)
{
    enum { NUMBERS = 5, RECORD = 63 };
    if (out_length != NUMBERS * sizeof(uint64_t))
        return LEGBARO_WRONG_LENGTH;
    if (!shape_fits(B, d, r) || !within(1, t, LEGBARO_MOST_TOKENS) ||
        !within(1, n, LEGBARO_MOST_BLOCKS))
        return LEGBARO_OUT_OF_LIMITS;
    if (m > d)
        return LEGBARO_TOO_MANY_DAMAGED;
    out = put(out, 8, t * RECORD);
    out = put(out, 8, r + (UINT64_C(1) << 2 * reference_half_width(d)) - d);
    out = put(out, 8, least_hashes(r, n / d, n % d, d));
    out = put(out, 8, most_hashes(r, n / d, n % d));
    put(out, 8, escape(d, r, m));
    return LEGBARO_OK;
}
