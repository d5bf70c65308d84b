/* See fault_list.h: how faults are made. */
#include "fault_targets.h"

#include <string.h>

uint64_t fault_pool_version(uint64_t version, size_t e)
{
    return FIRST_VERSION + (version - FIRST_VERSION + e) % LAST_VERSION;
}

/* Where file e of a pool has its card, or its reply. */
static size_t pool_offset(enum argument argument, uint64_t version, size_t e)
{
    size_t offset = 0;
    while (e--)
        offset += argument == REPLIES ? LEGBARO_REPLY_BYTES
                                      : reference_card_bytes(fault_pool_version(version, e));
    return offset;
}

/* Puts the first file's card or reply after the last one's until there is one file too many, each
 * with an id of its own. */
static void make_one_file_too_many(struct call *call, enum argument argument, uint64_t version)
{
    struct buffer *b = &call->args[argument];
    size_t size = pool_offset(argument, version, 1), at = b->length;
    buffer_resize(b, at + (LEGBARO_MOST_POOLED + 1 - POOL_FILES) * size);
    for (uint64_t e = 0; at < b->length; e++, at += size) {
        memcpy(b->bytes + at, b->bytes, size);
        buffer_put_number(b, at + LEGBARO_CARD_ID, 8, e);
    }
}

/* Puts a number into a field of a pool's card, or the id of another. */
static void make_pool_fault(struct call *call, const struct fault *fault, uint64_t version)
{
    struct buffer *cards = &call->args[CARDS];
    size_t card = pool_offset(CARDS, version, fault->target / TARGETS - 1);
    const struct field *field = &fault_fields[fault->target % TARGETS];
    if (fault->target % TARGETS == CARD_ID)
        memcpy(cards->bytes + card + LEGBARO_CARD_ID,
               cards->bytes + pool_offset(CARDS, version, fault->value) + LEGBARO_CARD_ID,
               LEGBARO_ID_BYTES);
    else
        buffer_put_number(cards, card + field->at, field->width, fault->value);
}

static void make_length_fault(struct buffer *b, uint64_t value, uint64_t version)
{
    size_t lengths[] = {
        [NO_BYTES] = 0,
        [ONE_LESS] = b->length - 1,
        [ONE_MORE] = b->length + 1,
        [ONE_ITEM_TOO_MANY] = (LEGBARO_MOST_ITEMS + 1) * LEGBARO_ITEM_BYTES(version, B),
        [OTHER_CARD] = LEGBARO_CARD_BYTES + LEGBARO_TWO_STEP_CARD_BYTES - b->length};
    buffer_resize(b, lengths[value]);
}

/* Puts what is pending into a card of version 3. */
static void make_pending(struct buffer *card, uint64_t value)
{
    uint64_t last = buffer_number(card, LEGBARO_CARD_LAST_ISSUED, 8),
             n = buffer_number(card, LEGBARO_CARD_BLOCKS, 4);
    const uint64_t counters[] = {
        [NOTHING] = 0,         [LAST_ISSUED] = last,    [COUNTER_ALONE] = last,
        [BLOCKS_ALONE] = 0,    [BELOW_LAST] = last - 1, [ABOVE_LAST] = last + 1,
        [FEWER_BLOCKS] = last, [TOO_MANY_BLOCKS] = last};
    const uint64_t blocks[] = {[NOTHING] = 0,          [LAST_ISSUED] = n,
                               [COUNTER_ALONE] = 0,    [BLOCKS_ALONE] = n,
                               [BELOW_LAST] = n,       [ABOVE_LAST] = n,
                               [FEWER_BLOCKS] = n - 1, [TOO_MANY_BLOCKS] = LEGBARO_MOST_BLOCKS + 1};
    buffer_put_number(card, LEGBARO_CARD_PENDING_COUNTER, 8, counters[value]);
    buffer_put_number(card, LEGBARO_CARD_PENDING_BLOCKS, 4, blocks[value]);
}

static void make_field_fault(struct call *call, const struct fault *fault, uint64_t version)
{
    const struct field *field = &fault_fields[fault->target];
    struct buffer *b = &call->args[field->argument];
    uint64_t value = fault->value;
    if (fault->target == CARD_OPEN && value == BEFORE_NEXT)
        value = buffer_number(b, LEGBARO_CARD_NEXT, 4) - 1;
    size_t each = field->argument == REPLIES ? LEGBARO_REPLY_BYTES : LEGBARO_ITEM_BYTES(version, B);
    buffer_put_number(b, field->item * each + field->at, field->width, value);
}

void fault_make(struct call *call, const struct fault *fault, uint64_t version)
{
    uint64_t *const numbers[] = {&call->version, &call->B,   &call->d,      &call->r,
                                 &call->t,       &call->n,   &call->m,      &call->year,
                                 &call->month,   &call->day, &call->minute, &call->role};
    if (fault->target > TARGETS)
        make_pool_fault(call, fault, version);
    else if (fault->target < LENGTH_OF(ARGUMENTS) && fault->value == ONE_FILE_TOO_MANY)
        make_one_file_too_many(call, (enum argument)fault->target, version);
    else if (fault->target < LENGTH_OF(ARGUMENTS))
        make_length_fault(&call->args[fault->target], fault->value, version);
    else if (fault->target <= NUMBER_ROLE)
        *numbers[fault->target - NUMBER_VERSION] = fault->value;
    else if (fault->target == TAG_OF_RECORD_2)
        buffer_flip(&call->args[TABLE], 8 * (2 * LEGBARO_RECORD_BYTES - 1));
    else if (fault->target == CARD_PENDING)
        make_pending(&call->args[CARD], fault->value);
    else
        make_field_fault(call, fault, version);
}
