/* The numbers of a planned file, the sheet that the library gives for them, and numbers in
 * words. */
#ifndef NUMBERS_H
#define NUMBERS_H

#include <stddef.h>
#include <stdint.h>

#include "legbaro.h"

/* Paper letters B, d, r, t, n and m. */
struct numbers {
    uint64_t block_bytes, rows, positions, tokens, blocks, damaged;
};

struct sheet {
    uint64_t table, turns, least, most, escape;
};

/* Asks the library; returns its code, and writes the sheet where that is LEGBARO_OK. */
uint64_t sheet_of(const struct numbers *of, struct sheet *sheet);

/* The chance of escape for other positions and damaged rows of the same file, in units of 2^-32. */
uint64_t escape_of(const struct numbers *of, uint64_t positions, uint64_t damaged);

/* The most positions that the file's rows allow. */
uint64_t most_positions(const struct numbers *of);

/* The positions that a sheet and its picture show, in `list`: the planned ones, their halves and
 * doublings, and the most that the rows allow. They rise. Returns how many there are. */
enum { MOST_SHOWN = 6 };
int positions_shown(const struct numbers *of, uint64_t list[MOST_SHOWN]);

/* Leaves of a list that rises the numbers that are not 0, not above `most` and not there before.
 * Returns how many are left. */
int sifted(uint64_t *list, int count, uint64_t most);

/* A number and its noun: "1 block", "2 blocks". */
const char *counted(uint64_t number, const char *one, const char *several);

/* A number with commas, and a chance in thousandths of a percent, rounded up, so that it is never
 * under the exact one either. */
const char *grouped(uint64_t number);
const char *percent(uint64_t escape);

#endif
