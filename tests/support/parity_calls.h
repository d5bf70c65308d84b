/* Calls on groups of data and parity blocks. */
#ifndef PARITY_CALLS_H
#define PARITY_CALLS_H

#include "calls.h"

/* An encoding of k random data blocks into p parity blocks. Its buffers are as long as the numbers
 * ask, where these are in limits. */
struct call parity_encoding(uint64_t B, uint64_t k, uint64_t p);

/* A rebuilding of the group that an encoding gives by the reference implementation, with random
 * bytes for the blocks that are lost. */
struct call parity_rebuilding(const struct call *encoding, const uint8_t *lost, size_t count);

#endif
