/* A batch of updates beside as many single updates, in one run. */
#ifndef BATCHES_H
#define BATCHES_H

void print_batches(void);

#endif
