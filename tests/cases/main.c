/*
 * Compares the library with the reference implementation and with the plain book. The last line is
 * 'N passed, M failed'.
 *
 *   --seed N    another seed than the fixed one
 *   --lists N   how many random lists
 *   --exact     for a run under a memory checker: buffers without guard bytes, a part of the cases
 *               where there are many, no large files, no look at a stack
 */
#include "cases.h"

#include "reference/reference.h"
#include "support/buffers.h"
#include "support/chance.h"
#include "support/expect.h"

#include <stdio.h>
#include <stdlib.h>
#include <string.h>

enum { SEED = 20261115, LISTS = 12000 };

static struct {
    uint64_t seed;
    unsigned lists;
    int exact;
} options = {SEED, LISTS, 0};

/* Reads the command line; answers whether it could be read. */
static int read_options(int count, char **words)
{
    for (int i = 1; i < count; i++) {
        if (!strcmp(words[i], "--exact"))
            options.exact = 1;
        else if (!strcmp(words[i], "--seed") && i + 1 < count)
            options.seed = strtoull(words[++i], NULL, 10);
        else if (!strcmp(words[i], "--lists") && i + 1 < count)
            options.lists = (unsigned)strtoul(words[++i], NULL, 10);
        else
            return 0;
    }
    return 1;
}

int main(int count, char **words)
{
    if (!read_options(count, words)) {
        fprintf(stderr, "usage: %s [--seed N] [--lists N] [--exact]\n", words[0]);
        return 2;
    }
    printf("seed %llu\n", (unsigned long long)options.seed);
    chance_start(options.seed);
    reference_start();
    if (options.exact) {
        buffers_exact();
        chance_spare();
    }
    test_permutation();
    test_refusals();
    test_faults();
    test_bad_records();
    test_bit_flips();
    test_loads();
    test_batches();
    test_versions();
    test_marks();
    test_asks();
    test_pending();
    test_totals();
    test_roles();
    test_indistinguishable();
    test_causes();
    test_pools();
    test_pool_lists();
    test_positions();
    test_sheets();
    test_parity();
    test_schedule();
    test_lists(options.lists);
    if (!options.exact) {
        test_limits();
        test_read_order();
        test_stack();
    }
    test_codes();
    reference_end();
    return tests_passed() ? 0 : 1;
}
