/* Which blocks of a parity group are wrong, from one byte of each. */
#ifndef LOCATE_H
#define LOCATE_H

#include <stdint.h>

#include "legbaro.h"

enum { MOST_GROUP = LEGBARO_MOST_DATA_BLOCKS + LEGBARO_MOST_PARITY_BLOCKS };

/*
 * Takes the same byte of each block of a group, data first and then parity, which do not all agree.
 * The bytes at which `gone` is not 0 are not read. Writes 1 into `wrong` at the fewest bytes
 * without which the others agree, and leaves its other bytes. Returns how many these are; 0, with
 * nothing written, where they are more than half of the parity blocks that are left over. It is a
 * proposal: the caller rebuilds without these blocks and compares.
 */
unsigned locate(unsigned data, unsigned parity, const uint8_t *bytes, const uint8_t *gone,
                uint8_t *wrong);

#endif
