/* A call beside the calls that it replaces, timed in one run by each variant. */
#ifndef PAIRS_H
#define PAIRS_H

#include "support/calls.h"

/* The calls are accepted again and again on their own buffers. An update goes through the first n
 * blocks. */
struct pair {
    char one[32], beside[32]; /* what both are called in the table */
    struct call call, other;
    unsigned others; /* how many of the others the one stands for */
    uint64_t B, d, r, t, n;
    double goal; /* what its time divided by theirs is to be at most */
};

/* Prints the first lines of a table, and a row of it; the row frees the pair's calls. */
void print_pairs_heading(const char *title, const char *one);
void print_pair(struct pair *pair);

#endif
