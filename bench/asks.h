/* A change asked beside the same change in one step, in one run. */
#ifndef ASKS_H
#define ASKS_H

void print_asks(void);

#endif
