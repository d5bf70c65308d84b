/* What the faults of fault_list.c alter, and the values that they give it, for fault_making.c. */
#ifndef FAULT_TARGETS_H
#define FAULT_TARGETS_H

#include "fault_list.h"

/* What a fault alters: the length of a buffer, which is named as the argument is, a number, a field
 * of card, message, items or replies, what is pending, a mark, a lost block's number, record 2, or
 * the id of a pool's card. */
enum target {
    NUMBER_VERSION = ARGUMENTS,
    NUMBER_B,
    NUMBER_D,
    NUMBER_R,
    NUMBER_T,
    NUMBER_N,
    NUMBER_M,
    NUMBER_YEAR,
    NUMBER_MONTH,
    NUMBER_DAY,
    NUMBER_MINUTE,
    NUMBER_ROLE,
    CARD_LENGTH,
    CARD_VERSION,
    CARD_B,
    CARD_D,
    CARD_R,
    CARD_T,
    CARD_N,
    CARD_CTR,
    CARD_NEXT,
    CARD_OPEN,
    CARD_LAST_ISSUED,
    CARD_PENDING,
    MESSAGE_LENGTH,
    MESSAGE_VERSION,
    MESSAGE_I,
    MESSAGE_B,
    MESSAGE_D,
    MESSAGE_R,
    MESSAGE_N,
    PLAN_START,
    PLAN_END,
    FIRST_MARK,
    LAST_MARK,
    FIRST_KIND,
    LAST_KIND,
    FIRST_NUMBER,
    MIDDLE_NUMBER,
    LAST_NUMBER,
    FIRST_ITEM_MARK,
    LAST_ITEM_MARK,
    POOLED_LENGTH,
    POOLED_VERSION,
    POOLED_FILES,
    POOLED_XOR,
    POOLED_ID,
    POOLED_RECORD_VERSION,
    FIRST_REPLY_LENGTH,
    LAST_REPLY_LENGTH,
    FIRST_REPLY_VERSION,
    LAST_REPLY_VERSION,
    FIRST_LOST,
    TAG_OF_RECORD_2,
    CARD_ID,
    TARGETS
};

#define LENGTH_OF(argument) ((enum target)(argument))

/* The target of a single card, in card e, from 0, of a pool. */
#define OF_CARD(e, target) (((e) + 1) * TARGETS + (target))

/* Where a field is; of items, and of replies to pool, which are three, in which of them. */
struct field {
    enum argument argument;
    size_t item, at;
    unsigned width;
};

extern const struct field fault_fields[TARGETS];

/* Values with a meaning of their own: the token before next, whatever that is, for CARD_OPEN; for
 * what is pending nothing, the last counter issued with as many blocks as there are, one of these
 * alone, and another counter or number of blocks; for the length of a buffer none, one byte less,
 * one byte more, one item more than a batch may have, the other size of a card, and one file more
 * than a pool may have; for CARD_ID the card that has the id too. */
#define BEFORE_NEXT UINT64_MAX
enum {
    NOTHING,
    LAST_ISSUED,
    COUNTER_ALONE,
    BLOCKS_ALONE,
    BELOW_LAST,
    ABOVE_LAST,
    FEWER_BLOCKS,
    TOO_MANY_BLOCKS
};
enum { NO_BYTES, ONE_LESS, ONE_MORE, ONE_ITEM_TOO_MANY, OTHER_CARD, ONE_FILE_TOO_MANY };

#endif
