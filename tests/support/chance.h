/* Numbers that look random, the same for the same seed (splitmix64). */
#ifndef CHANCE_H
#define CHANCE_H

#include <stddef.h>
#include <stdint.h>

void chance_start(uint64_t seed);

/* Any number; a number below `bound`, which is not 0; whether an event of one in `bound` comes up;
 * any bytes. */
uint64_t chance(void);
uint64_t chance_below(uint64_t bound);
int chance_of(uint64_t bound);
void chance_bytes(uint8_t *bytes, size_t length);

/* Which of many numbered cases is tried after case i: the next one, or once `chance_spare` was
 * called one further on, `step` on the average. */
void chance_spare(void);
uint64_t tried_after(uint64_t i, uint64_t step);

#endif
