/*
 * The faults that a call may have, each with the check that finds it, in the order of papers 01 and
 * 02. They are made for calls on files with the numbers below.
 */
#ifndef FAULT_LIST_H
#define FAULT_LIST_H

#include "calls.h"

/* The files have NOW_N blocks and the counter NOW_CTR where they are changed; in version 3 two asks
 * were dropped. A load has LOADED blocks, a batch has items on the blocks 2, 4 and 6. A pool has
 * POOL_FILES, each of the version after the one before's. R × D / N is 3.75. */
enum {
    B = 28,
    D = 5,
    R = 3,
    T = 3,
    N = 4,
    NOW_N = N + 3,
    NOW_CTR = 2,
    LOADED = 3,
    POOL_FILES = 3,
    POSITIONS_ANSWER = 4
};
enum { FIRST_ITEM = 2, MIDDLE_ITEM = 4, LAST_ITEM = 6 };

/* A group has N data blocks and as many parity blocks as blocks are lost, which are two: a data
 * block and the first parity block. */
enum { LOST_BLOCKS = 2, FIRST_LOST_BLOCK = 1, LAST_LOST_BLOCK = N };

/* "Order: 1 for buffers of fixed size, 2, 3, 1 for sizes that follow from fields, then 8 or 9, 6,
 * 4, 5, 10, 7", and the verdict or the cause last; a load's 12 "just before 5"; the helper's 13
 * "after 3"; a batch's 14 "just before 4"; 15 "after the lengths that follow from fields", "in a
 * batch straight after 14"; of times "before everything else" 16, "and after 3 a draw outside every
 * window (17)"; "straight after 8" 18, and "then a commit or drop with nothing pending (19)"; of a
 * sheet "after 3, m above d (21)"; "ahead of every check" 22; "straight after 22" the cut of a
 * pool's cards, which comes to 2 or to 1; of a pool "after 3" 23; of parity "straight after 3, a
 * group outside these sizes or a lost block named twice or not in the group (24), then more losses
 * than parity blocks (25)". */
enum check {
    PERMISSION,
    CUT,
    CUT_REST,
    TIME,
    FIXED_SIZE,
    HEADER,
    LIMITS,
    POSITIONS_GIVEN,
    DAMAGED_ROWS,
    POOL_FITS,
    WINDOWS,
    GROUP,
    LOSSES,
    SIZE,
    MARK,
    OPEN_OR_NOT,
    PENDING_OR_NOT,
    TOKENS_LEFT,
    ITEMS_FIT,
    ITEM_MARKS,
    BLOCK_NUMBER,
    WHOLE_BLOCKS,
    FULL,
    COUNTER,
    RECORDS,
    VERDICT,
    NO_FAULT
};

/* A fault gives a target of its own a value, in calls of some kinds, a bit for each. With the bits
 * of versions too, only files of these have it. */
struct fault {
    unsigned kinds;
    enum check check;
    unsigned target;
    uint64_t value;
};

/* A schedule whose windows are open but for the last minute of each day, and a time in them. */
enum { YEAR = 2026, MONTH = 11, DAY = 16, MINUTE = 600, OPEN_UNTIL = LEGBARO_DAY_MINUTES - 1 };

#define IN(kind) (1u << (kind))
#define IN_VERSION(version) (1u << (KINDS + (version)))

/* Two faults are made in the order of the list. */
extern const struct fault faults[];
extern const int fault_count;

/* The version of file e, from 0, of a pool that begins with one of a version. */
uint64_t fault_pool_version(uint64_t version, size_t e);

/* Whether a call of a kind on a file of a version may have a fault; and makes it. */
int fault_has(const struct fault *fault, enum kind kind, uint64_t version);
void fault_make(struct call *call, const struct fault *fault, uint64_t version);

/* What is wrong with a call of a kind on a file of a version from the start: asks and nothing
 * pending, but in version 3. */
enum check fault_at_start(enum kind kind, uint64_t version);

/* The check that finds the first of two faults. A card with a token open and a change pending is
 * outside its limits. */
enum check fault_first(const struct fault *a, const struct fault *b);

/* The number that a call of a kind returns with a fault that this check finds and none that an
 * earlier one finds. */
uint64_t fault_number(enum check check, enum kind kind);

#endif
