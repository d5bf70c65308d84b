/* The ways to run a call, and how long one takes. */
#ifndef TIMING_H
#define TIMING_H

#include "support/calls.h"

/* In the order in which they take turns. Without SHA instructions it is the helper that runs. */
enum { LIBCRYPTO, PLAIN, AVX2, AVX512, CHOSEN, WITHOUT_SHA, WAYS };

extern uint64_t (*const runs[WAYS])(struct call *);

/* In each row the ways alternate so many times, and the best counts. */
enum { REPEATS = 40 };

/* Nanoseconds for one of so many calls, after a short rest: a processor may run slower for a while
 * after the widest variant. Updates go through all n blocks. */
double timed(uint64_t (*run)(struct call *), struct call *call, uint64_t n, unsigned calls);

/* How many calls of so many nanoseconds are timed together. */
unsigned calls_for(double time);

/* The best time with one more, where 0 stands for none before it. */
double lesser(double best, double time);

/* Compares what a variant writes with what the reference implementation writes. */
void compare(uint64_t (*run)(struct call *), const struct call *call);

#endif
