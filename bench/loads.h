/* A load beside the calls that it replaces, in one run: a set-up of as many blocks, or an append
 * for each block. */
#ifndef LOADS_H
#define LOADS_H

void print_loads(void);

#endif
