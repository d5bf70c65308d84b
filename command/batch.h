/* The list of a batch: a text with a line for each item, 'update NUMBER FILE' or 'delete NUMBER';
 * blank lines and lines that begin with # are passed over. */
#ifndef BATCH_H
#define BATCH_H

#include "files.h"

struct batch {
    uint64_t count;
    struct bytes items;  /* as the library takes them; old blocks and marks are not in them yet */
    struct bytes places; /* as a change file has them: number and new mark */
    struct bytes blocks; /* what the blocks become, end to end */
};

/* Reads a list for a file of a version with so many block bytes. What is wrong with a line is
 * refused
 * with its number: a NUL byte too. A list of more than MOST_TEXT_BYTES is refused. */
struct batch read_batch(const char *path, uint64_t version, uint64_t block_bytes);

#endif
