/*
 * A change file: what a set-up or a change hands to the host in one piece. Numbers are big-endian.
 *
 *   header     CHANGE_HEADER_BYTES: what stood before, and what stands when the change is in place
 *   items      where blocks take the place of others: number (4 bytes) and mark (1 byte) of each
 *   blocks     B bytes for each block; those that are added are live and come after the last
 *   table      the table after the change
 *   checksum   4 bytes: CRC-32 of all that comes before, which shows a change that was damaged
 *
 * The host's file `applying` is the same, but without the blocks that are added: they are in
 * `blocks` already. Its checksum is that of its own bytes.
 */
#ifndef CHANGE_H
#define CHANGE_H

#include "files.h"

enum { CHANGE_HEADER_BYTES = 52, CHANGE_ITEM_BYTES = 5, CHANGE_PIECES = 5, CHECKSUM_BYTES = 4 };

struct change {
    uint64_t version, block_bytes, tokens;
    uint64_t blocks_before, blocks_after;
    uint64_t counter_before, counter;
    uint64_t count; /* of blocks in it */
    uint64_t asked; /* whether it stands only when it is committed */
    const uint8_t *id;
    struct bytes items, blocks, table;
    uint32_t checksum; /* of a change that was read */
};

/* CRC-32 as IEEE 802.3 has it, of bytes that follow those of a checksum; 0 before the first. */
uint32_t checksum_of(uint32_t before, const uint8_t *at, size_t length);

/* What stands before a change, by the owner's card: version, id, numbers of the file; the rest is 0
 * or empty. */
struct change change_from(struct bytes card);

/* Whether blocks of the file come after its last: set-up, append and load. */
int change_adds(const struct change *change);

/* The pieces of the file, CHANGE_PIECES of them. They are good until the next are asked for. The
 * first is the header; header_piece gives it alone. */
const struct piece *change_pieces(const struct change *change);
const struct piece *header_piece(const struct change *change);

/* Reads a header's numbers. Returns whether it is the header of a change, and its numbers go
 * together. */
struct change change_of_header(const uint8_t *header);
int is_header(struct bytes header);

/* Reads a change whole and checks it; what is wrong with it is refused. */
struct change read_change(const char *path);

/* Reads the host's `applying`; returns whether it is whole. */
int read_applying(const char *path, struct change *change);

/* Reads the header of a file that may be cut or no change, and nothing else; returns whether it has
 * one. peek_checksum reads the checksum of a change; returns whether the file has the length that
 * its header says. */
int peek_change(const char *path, struct change *change);
int peek_checksum(const char *path, uint32_t *checksum);

/* An id in words: its characters in UTF-8, and \xNN for a backslash, a control character and a byte
 * that
 * is no part of a character. Different ids have different words. */
const char *id_words(const uint8_t *id);

#endif
