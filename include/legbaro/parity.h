/*
 * Parity: blocks from which the owner rebuilds data blocks that a host has lost. A part of
 * legbaro.h, which has what all calls share.
 *
 *   legbaro_parity_encode     makes the parity blocks of a group
 *   legbaro_parity_rebuild    makes the data blocks from those of a group that are left
 */
#ifndef LEGBARO_PARITY_H
#define LEGBARO_PARITY_H

#include <stddef.h>
#include <stdint.h>

#ifdef __cplusplus
extern "C" {
#endif

/* clang-format off */

/*
 * GROUPS. A group is k data blocks of the file and p parity blocks computed from them. From any k
 * of the k + p blocks all data blocks can be rebuilt. The blocks of a group have numbers of their
 * own, from 0: first the data blocks in their order, then the parity blocks. The caller keeps track
 * of which block of the file belongs to which group, and where its parity lies.
 *
 * Keep the parity blocks as a file of their own, with another file id, a card and a table, and if
 * possible at another host. Set it up and audit it like any file. A rejected audit says that blocks
 * are lost, and not which. The owner and the host find that out, from copies, from dates or block
 * by block.
 *
 * After a change of a data block, a deletion too, the owner encodes its group again and updates the
 * parity file with the result. No call does this by itself. Until both files have changed, the
 * group cannot be rebuilt, since old and new blocks would be mixed.
 *
 * Limits of a group. The least of both is 1.
 */
#define LEGBARO_MOST_DATA_BLOCKS 48   /* k */
#define LEGBARO_MOST_PARITY_BLOCKS 16 /* p */

/*
 * Encode, the owner's call: makes the parity blocks of a group. Parity block x (from 0) is the sum
 * of the data blocks q, each times the inverse of (k + x) xor q. It is computed byte by byte in the
 * field of 256 elements with polynomial 0x11D (SPEC 12).
 *
 *   block_bytes     B
 *   data_blocks     k, 1 to LEGBARO_MOST_DATA_BLOCKS
 *   parity_blocks   p, 1 to LEGBARO_MOST_PARITY_BLOCKS
 *   data            k * B: the data blocks
 *   parity          p * B, written: the parity blocks
 *
 * Codes: 3 (B), 24, 1 (data, parity).
 */
uint64_t legbaro_parity_encode(uint64_t block_bytes, uint64_t data_blocks, uint64_t parity_blocks,
                               const uint8_t *data, size_t data_length,
                               uint8_t *parity, size_t parity_length);

/*
 * Rebuild, the owner's call: makes the data blocks of a group from those of its blocks that are not
 * lost. Lost parity blocks come back by encoding the result.
 *
 *   block_bytes, data_blocks, parity_blocks   B, k and p, as for encoding
 *   blocks          (k + p) * B: the data blocks, then the parity blocks. There is room for the
 *                   lost ones too, and what is there is not read
 *   lost            one byte for each lost block, its number, in any order; empty where no block is
 *                   lost
 *   data            k * B, written: the data blocks. It must not overlap blocks
 *
 * The library cannot detect an altered block: the caller names it as lost. All other blocks are
 * taken as they are. Where they are as they were when the group was encoded, all data come back
 * exactly. Otherwise the data blocks that are not lost are copied. The lost ones are written so
 * that the data written have the parity blocks that were used. These are the lowest ones not lost,
 * as many as data blocks are lost.
 *
 * Codes: 3 (B), 24 (k, p), 24 (lost: a number twice, or not in the group), 25, 1 (blocks, data).
 */
uint64_t legbaro_parity_rebuild(uint64_t block_bytes, uint64_t data_blocks, uint64_t parity_blocks,
                                const uint8_t *blocks, size_t blocks_length,
                                const uint8_t *lost, size_t lost_length,
                                uint8_t *data, size_t data_length);

/* clang-format on */

#ifdef __cplusplus
}
#endif

#endif
