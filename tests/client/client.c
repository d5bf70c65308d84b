/* A program over an installed library, in C99 and in C++ alike: every call, each accepted. The exit
 * status is 0 where all were. */
#include "legbaro.h"

#define B 4
#define D 3
#define R 2
#define T 1

/* A buffer as the calls take it; who makes a change, and the file's own three. */
#define ARG(bytes) bytes, sizeof bytes
#define FILE_ARGS LEGBARO_PLANNER, ARG(master), ARG(card), ARG(table)

static const uint8_t master[LEGBARO_MASTER_BYTES] = {1}, id[LEGBARO_ID_BYTES] = {2}, zeros[B] = {0};
static const uint8_t block[B] = {3}, two[2 * B] = {0}, live[1] = {LEGBARO_LIVE};
static const uint8_t marks[D + 2] = {LEGBARO_DELETED, LEGBARO_LIVE, LEGBARO_DELETED};
static const uint8_t items[2 * LEGBARO_ITEM_BYTES(LEGBARO_TWO_STEPS, B)] = {
    LEGBARO_ITEM_UPDATE, 0, 0, 0, 2, 0, 0, 0, 0, LEGBARO_LIVE, 0, 0, 0, 0,
    LEGBARO_ITEM_DELETE, 0, 0, 0, 3};
static const uint8_t plan[LEGBARO_PLAN_BYTES] = {0, 0, 0, 1};
static uint8_t blocks[(D + 2) * B], card[LEGBARO_TWO_STEP_CARD_BYTES],
    table[T * LEGBARO_RECORD_BYTES], second[T * LEGBARO_RECORD_BYTES];
static uint8_t message[LEGBARO_MESSAGE_BYTES], reply[LEGBARO_REPLY_BYTES],
    totals[LEGBARO_TOTALS_BYTES], sheet[LEGBARO_SHEET_BYTES];
static const uint8_t lost[1] = {1};
static uint8_t encoded[2 * B], rebuilt[D * B];

/* Each answers the numbers of its calls in one, which is 0 where all were accepted. */
static uint64_t changes(void)
{
    uint64_t numbers = legbaro_set_up(ARG(master), ARG(id), LEGBARO_TWO_STEPS, B, D, R, T, D - 1,
                                      blocks, (D - 1) * B, ARG(card), ARG(table), ARG(totals));
    numbers |= legbaro_append(FILE_ARGS, ARG(zeros), ARG(totals));
    numbers |= legbaro_load(FILE_ARGS, ARG(two), ARG(totals));
    numbers |= legbaro_update(FILE_ARGS, 1, ARG(zeros), ARG(live), ARG(block), ARG(totals));
    numbers |= legbaro_delete(FILE_ARGS, 1, ARG(block), ARG(live), ARG(totals));
    numbers |= legbaro_batch(FILE_ARGS, ARG(items), ARG(totals));
    return numbers;
}

static uint64_t asks(void)
{
    uint64_t numbers = legbaro_ask_append(FILE_ARGS, ARG(second), ARG(zeros), ARG(totals));
    numbers |= legbaro_drop(LEGBARO_PLANNER, ARG(card));
    numbers |= legbaro_ask_load(FILE_ARGS, ARG(second), ARG(two), ARG(totals));
    numbers |= legbaro_drop(LEGBARO_PLANNER, ARG(card));
    numbers |= legbaro_ask_update(FILE_ARGS, ARG(second), 2, ARG(zeros), ARG(live), ARG(block),
                                  ARG(totals));
    numbers |= legbaro_drop(LEGBARO_PLANNER, ARG(card));
    numbers |= legbaro_ask_delete(FILE_ARGS, ARG(second), 2, ARG(zeros), ARG(live), ARG(totals));
    numbers |= legbaro_drop(LEGBARO_PLANNER, ARG(card));
    numbers |= legbaro_ask_batch(FILE_ARGS, ARG(second), ARG(items), ARG(totals));
    numbers |= legbaro_drop(LEGBARO_PLANNER, ARG(card));
    numbers |= legbaro_ask_update(FILE_ARGS, ARG(second), 2, ARG(zeros), ARG(live), ARG(zeros),
                                  ARG(totals));
    numbers |= legbaro_commit(LEGBARO_PLANNER, ARG(card));
    return numbers;
}

/* The table that stands is the one that was asked last. */
static uint64_t audit(void)
{
    uint64_t numbers = legbaro_wait(ARG(plan), 2026, 11, 16, 0);
    numbers |= legbaro_draw(LEGBARO_MANAGER, ARG(master), ARG(card), ARG(message), ARG(plan), 2026,
                            11, 16, 0);
    numbers |=
        legbaro_prove(ARG(message), ARG(blocks), ARG(marks), ARG(second), ARG(reply), ARG(totals));
    numbers |= legbaro_cause(LEGBARO_MANAGER, ARG(master), ARG(card), ARG(reply));
    numbers |= legbaro_judge(LEGBARO_MANAGER, ARG(master), ARG(card), ARG(reply));
    return numbers;
}

/* Two new files of one block, drawn and proved, and one reply for both. */
static uint64_t pool(void)
{
    static const uint8_t ids[2][LEGBARO_ID_BYTES] = {{4}, {5}};
    static uint8_t cards[2][LEGBARO_CARD_BYTES], replies[2][LEGBARO_REPLY_BYTES],
        pooled[LEGBARO_POOLED_BYTES(2)];
    uint64_t numbers = 0;
    for (int e = 0; e < 2; e++) {
        numbers |= legbaro_set_up(ARG(master), ARG(ids[e]), LEGBARO_WITHOUT_MARKS, B, 1, 1, T, 1,
                                  ARG(block), ARG(cards[e]), ARG(table), ARG(totals));
        numbers |= legbaro_draw(LEGBARO_MANAGER, ARG(master), ARG(cards[e]), ARG(message),
                                ARG(plan), 2026, 11, 16, 0);
        numbers |= legbaro_prove(ARG(message), ARG(block), marks, 0, ARG(table), ARG(replies[e]),
                                 ARG(totals));
    }
    numbers |= legbaro_pool(replies[0], sizeof replies, ARG(pooled));
    numbers |=
        legbaro_judge_pool(LEGBARO_MANAGER, ARG(master), cards[0], sizeof cards, ARG(pooled));
    return numbers;
}

/* The blocks as a group of D data blocks and two parity blocks. */
static uint64_t parity(void)
{
    uint64_t numbers = legbaro_parity_encode(B, D, 2, blocks, D * B, ARG(encoded));
    numbers |= legbaro_parity_rebuild(B, D, 2, ARG(blocks), ARG(lost), ARG(rebuilt));
    return numbers;
}

int main(void)
{
    uint64_t numbers = changes();
    numbers |= asks();
    numbers |= audit();
    numbers |= pool();
    numbers |= LEGBARO_CODE(legbaro_positions(R, D, D - 1));
    numbers |= legbaro_sheet(B, D, R, T, D - 1, 1, ARG(sheet));
    numbers |= parity();
    return numbers == LEGBARO_OK ? 0 : 1;
}
