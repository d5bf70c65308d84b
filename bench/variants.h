/* The variants of the library that the archive holds, each by its own names, past the choice
 * between them. */
#ifndef VARIANTS_H
#define VARIANTS_H

#include "support/calls.h"

/* Each runs the call on its buffers and answers the number that it returns. */
uint64_t call_plain(struct call *call);
uint64_t call_avx2(struct call *call);
uint64_t call_avx512(struct call *call);

/* Whether the processor can run a variant: tried in a process of its own, which an instruction that
 * is not there ends. */
int variant_runs(uint64_t (*run)(struct call *), const struct call *call);

#endif
