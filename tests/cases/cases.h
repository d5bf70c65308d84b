/* The parts of the test program. Each runs one test or several. */
#ifndef CASES_H
#define CASES_H

/* The reference implementation's permutation on small d: one to one, undone backward in as many
 * turns, with paper 01's half widths. */
void test_permutation(void);

/* The small input of each refusal of papers 01 and 02, and what is taken at the edge. */
void test_refusals(void);

/* Every fault alone, and every two faults in one call, in the papers' order. */
void test_faults(void);

/* Damaged records: the token that code 7 names, and records fetched again from there on. */
void test_bad_records(void);

/* Every single-bit change of what the calls read. */
void test_bit_flips(void);

/* Loads of many sizes, and set-ups with fewer, as many and more blocks than rows. */
void test_loads(void);

/* Batches of every size, their faults, and batches beside the same changes made singly. */
void test_batches(void);

/* Versions that there are not, and the other versions where the file's is wanted. */
void test_versions(void);

/* Marks: their lengths and values, blocks of zeros beside deleted ones, and versions with marks
 * beside version 1. */
void test_marks(void);

/* Changes in two steps: ask and commit beside the change in one step, drops, what the host holds,
 * and the last counters. */
void test_asks(void);

/* Cards of version 3: their sizes, and the limits of what is pending, at, below and above their
 * ends. */
void test_pending(void);

/* Totals: what calls count beside what other calls count, and the bounds that a planner may
 * quote. */
void test_totals(void);

/* Who may do what: every call by every role, whatever else is passed. */
void test_roles(void);

/* What a host can read from a reseal: equal clear bytes whatever was changed, and sealed ones that
 * look unrelated. */
void test_indistinguishable(void);

/* Why a reply is rejected: each cause alone and all sets of them, and no cause exactly where judge
 * accepts. */
void test_causes(void);

/* Pooled replies: of every number of files, cut and broken in every way, and what the xor shows and
 * what not; and random lists of calls on several files. */
void test_pools(void);
void test_pool_lists(void);

/* How many positions to draw of planned rows. */
void test_positions(void);

/* Planning sheets: beside exact fractions, beside all draws of small files, at every edge. */
void test_sheets(void);

/* Parity: groups of every size beside ISA-L, every set of losses of small groups, damaged
 * survivors, and lost blocks that are not read. */
void test_parity(void);

/* Every date of a hundred years, the wait for a window, and draws in and outside windows. */
void test_schedule(void);

/* Random lists of calls, refused ones included, on files of every small and odd size. */
void test_lists(unsigned lists);

/* The most of every number. */
void test_limits(void);

/* The order in which set-up and proof come to their blocks. */
void test_read_order(void);

/* That each call needs no more stack than the header says. */
void test_stack(void);

/* That each call returned each of its codes, and no other, in all of these. */
void test_codes(void);

#endif
