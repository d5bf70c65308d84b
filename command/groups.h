/* A file and its parity blocks in groups. The blocks of a file lie in groups, one after the other,
 * of which the last may be smaller; each group has its own parity blocks. Blocks and parity blocks
 * are numbered from 1 through the whole file, groups from 0. */
#ifndef GROUPS_H
#define GROUPS_H

#include "files.h"
#include "locate.h"
#include "options.h"

/* What is known of a block: it is here, it was named as lost, it is missing at the end of a file
 * that was cut, or it does not fit the others. */
enum state { HERE, LOST, MISSING, WRONG = 4 };

/* A file in groups. Both files may be shorter than their blocks. */
struct groups {
    const struct options *o;
    uint64_t bytes, data, parity, blocks, count;
    struct bytes file, kept;       /* the blocks, and the parity blocks */
    uint8_t *states, *kept_states; /* of each block and of each parity block */
};

/* One group in memory: its blocks, data first; which of them are not read; the data made from the
 * others, and their parity. */
struct group {
    uint64_t number, data, count, lost;
    struct bytes blocks, made, parity;
    uint8_t gone[MOST_GROUP];
};

/* The numbers and the file of encode, which has whole blocks; those of check and rebuild, where
 * what a file is short of is MISSING. Numbers and files that do not go together are refused. */
struct groups read_blocks(const struct options *options);
struct groups read_both(const struct options *options);

/* How many data blocks a group has, and its blocks in words. */
uint64_t data_of(const struct groups *groups, uint64_t number);
const char *group_words(const struct groups *groups, uint64_t number);

/* Room for any group; reads one: its blocks, and which of them are gone. */
struct group new_group(const struct groups *groups);
void read_group(const struct groups *groups, struct group *group, uint64_t number);

/* Makes the data of a group from the blocks that are not gone, and the parity of these data.
 * Returns the library's code. */
uint64_t make_data(const struct groups *groups, struct group *group);

/* Whether the parity blocks that are not gone are the parity of the data that were made. */
int agrees(const struct groups *groups, const struct group *group);

/* Looks for the blocks of a group that do not fit the others, and leaves them as gone: the fewest,
 * at most half as many as parity blocks are left over, so that no others will do. Marks them as
 * WRONG. Returns whether it found them. */
int find_wrong(const struct groups *groups, struct group *group);

/* How many blocks the file had, if it was cut within its last group and the parity shows it; 0
 * where that can't be known, or --blocks says how many. */
uint64_t blocks_before_cut(const struct groups *groups);

#endif
