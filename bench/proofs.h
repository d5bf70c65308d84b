/* Proofs to be timed, and proofs of version 2 beside those of version 1 with blocks one byte
 * longer. */
#ifndef PROOFS_H
#define PROOFS_H

#include "support/calls.h"

/* A proof of n blocks, which need not be those of the file that the message is drawn from. */
struct call proof_call(uint64_t version, uint64_t B, uint64_t d, uint64_t r, uint64_t n);

void print_proofs(void);

#endif
