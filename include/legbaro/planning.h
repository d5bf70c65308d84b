/*
 * Planning: numbers to choose and to quote before a file is set up. A part of legbaro.h, which has
 * what all calls share.
 *
 *   legbaro_positions    how many positions a file with fewer blocks than rows needs
 *   legbaro_sheet        sizes, costs of a proof, and the chance that damage escapes an audit
 */
#ifndef LEGBARO_PLANNING_H
#define LEGBARO_PLANNING_H

#include <stddef.h>
#include <stdint.h>

#ifdef __cplusplus
extern "C" {
#endif

/* clang-format off */

/*
 * Positions: how many positions r to set a file up with that has fewer blocks than rows. It writes
 * nothing.
 *
 *   positions  how many of the blocks present an audit is to look at: 1 to LEGBARO_MOST_POSITIONS,
 *              and no more than present
 *   planned    the rows d: 1 to LEGBARO_MOST_ROWS
 *   present    the number of blocks that the file has at set-up: 1 to planned
 *
 * Returns code 0 and the number positions * planned / present, rounded up. At first only rows 1 to
 * present have a block. With this many positions a token draws at least `positions` of them on
 * average. An audit looks at each block with at least the chance that it would have if `positions`
 * of `present` rows were drawn. That chance is the number returned divided by planned. It stays the
 * same while loads and appends fill the rows.
 *
 * Codes: 3, 13. With 13 an audit cannot look at so many: ask for fewer positions, plan fewer rows,
 * or set up with more blocks.
 */
uint64_t legbaro_positions(uint64_t positions, uint64_t planned, uint64_t present);

/*
 * Sheet: what to quote before a survey, from the numbers of a set-up alone.
 *
 *   block_bytes, rows, positions, tokens, blocks_count   B, d, r, t and n, as for a set-up
 *   damaged    how many of the rows are lost at the host, or altered: 0 to rows
 *   out        LEGBARO_SHEET_BYTES, written: five numbers of 8 bytes, big-endian, at the offsets
 *              below
 *
 * The hashes of a proof are the blocks that the host reads for it. The least and the most are equal
 * where all rows have equally many blocks.
 *
 * The chance of escape is the chance that one audit, which draws `positions` different rows, draws
 * none of the damaged ones. The figure is never below the exact chance, and less than `positions`
 * units above it. It is 0 exactly where some damaged row is always drawn. With no row damaged it is
 * LEGBARO_ESCAPE_ONE, a chance of 1.
 *
 * Codes: 1 (out), 3, 21.
 */
uint64_t legbaro_sheet(uint64_t block_bytes, uint64_t rows, uint64_t positions,
                       uint64_t tokens, uint64_t blocks_count, uint64_t damaged,
                       uint8_t *out, size_t out_length);

#define LEGBARO_SHEET_TABLE 0   /* the bytes of the table, which the host keeps beside the blocks */
#define LEGBARO_SHEET_TURNS 8   /* a bound on the turns that one token takes, whatever its key */
#define LEGBARO_SHEET_LEAST 16  /* the least hashes of one proof, whatever rows it draws */
#define LEGBARO_SHEET_MOST 24   /* the most */
#define LEGBARO_SHEET_ESCAPE 32 /* the chance of escape, in units of 1 / LEGBARO_ESCAPE_ONE */
#define LEGBARO_ESCAPE_ONE 4294967296u

/* clang-format on */

#ifdef __cplusplus
}
#endif

#endif
