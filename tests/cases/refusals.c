/* "Turned away" of papers 01 and 02: the small input of each refusal, and what is taken at the
 * edge. */
#include "cases.h"

#include "support/draw_times.h"
#include "support/expect.h"
#include "support/files.h"
#include "support/pool_calls.h"

enum { B = 28, D = 5, R = 3, T = 3 };

/* Expects a call of a kind on the file, with nothing wrong in its arguments, to be refused with a
 * code. */
static void refused(const struct file *file, enum kind kind, uint64_t code, const char *what)
{
    struct call call = file_call(file, kind);
    call_finish(&call, code, what);
}

/* Code 3's small input: d 5, r 6. And n 0, and a version that there is not. */
static void outside_limits(uint64_t version)
{
    struct call call = file_set_up_call(version, B, 5, 6, T, 5);
    call_finish(&call, LEGBARO_OUT_OF_LIMITS, "d 5, r 6");

    call = file_set_up_call(version, B, D, R, T, 0);
    call_finish(&call, LEGBARO_OUT_OF_LIMITS, "n 0");

    call = file_set_up_call(LAST_VERSION + 1, B, D, R, T, D);
    call_finish(&call, LEGBARO_OUT_OF_LIMITS, "version 4");
}

/* Code 6's small input: t 1, one draw judged, draw. */
static void last_token_drawn(uint64_t version)
{
    struct file file = file_set_up(version, B, D, R, 1, D);
    file_audit(&file);
    refused(&file, DRAW, LEGBARO_NO_TOKEN_LEFT, "t 1, one draw judged, draw");
    file_end(&file);
}

/* Code 12's small inputs: a load of no bytes, of one byte less than a block, of one more. */
static void broken_loads(const struct file *file)
{
    static const size_t lengths[] = {0, B - 1, B + 1};
    for (size_t i = 0; i < sizeof lengths / sizeof *lengths; i++) {
        struct call call = file_load_call(file, 1);
        buffer_resize(&call.args[BLOCKS], lengths[i]);
        call_finish(&call, LEGBARO_NOT_WHOLE_BLOCKS, "no whole blocks");
    }
}

/* A batch of one item with one field altered; a batch of two items on blocks 2 and `second`. */
static void broken_item(const struct file *file, size_t offset, unsigned width, uint64_t value,
                        uint64_t code, const char *what)
{
    struct call call = file_batch_call(file, 1);
    buffer_put_number(&call.args[ITEMS], file_item_at(file, 0, offset), width, value);
    call_finish(&call, code, what);
}

static void two_items(const struct file *file, uint64_t second, uint64_t code, const char *what)
{
    uint64_t blocks[] = {2, second};
    struct call call = file_batch_of(file, blocks, 2);
    call_finish(&call, code, what);
}

/* Code 14's small inputs: no item, an item less or more a byte, another kind, numbers that do not
 * rise. */
static void broken_batches(const struct file *file)
{
    size_t size = file_item_at(file, 1, 0), lengths[] = {0, size - 1, size + 1};
    for (size_t i = 0; i < sizeof lengths / sizeof *lengths; i++) {
        struct call call = file_batch_call(file, 1);
        buffer_resize(&call.args[ITEMS], lengths[i]);
        call_finish(&call, LEGBARO_BAD_BATCH, "no whole items");
    }
    broken_item(file, LEGBARO_ITEM_KIND, 1, 0, LEGBARO_BAD_BATCH, "an item of kind 0");
    broken_item(file, LEGBARO_ITEM_KIND, 1, 3, LEGBARO_BAD_BATCH, "an item of kind 3");
    broken_item(file, LEGBARO_ITEM_BLOCK, 4, 0, LEGBARO_NO_SUCH_BLOCK, "an item on block 0");
    broken_item(file, LEGBARO_ITEM_BLOCK, 4, D + 1, LEGBARO_NO_SUCH_BLOCK,
                "an item on block n + 1");
    two_items(file, 1, LEGBARO_BAD_BATCH, "block 2, then block 1");
    two_items(file, 2, LEGBARO_BAD_BATCH, "block 2 twice");
    two_items(file, 3, LEGBARO_OK, "block 2, then block 3");
}

/* 64 items are taken, 65 are not. */
static void most_items(uint64_t version)
{
    struct file file = file_set_up(version, B, D, R, T, LEGBARO_MOST_ITEMS + 1);
    struct call call = file_batch_call(&file, LEGBARO_MOST_ITEMS);
    call_finish(&call, LEGBARO_OK, "64 items");
    call = file_batch_call(&file, LEGBARO_MOST_ITEMS + 1);
    call_finish(&call, LEGBARO_BAD_BATCH, "65 items");
    file_end(&file);
}

/* Code 15's small inputs, which files of version 1 can't have: a mark 2 in an update, in a
 * deletion, in an item and in a proof. */
static void broken_marks(const struct file *file)
{
    static const enum kind kinds[] = {UPDATE, DELETE};
    if (file->book.numbers.version == LEGBARO_WITHOUT_MARKS)
        return;
    for (size_t i = 0; i < sizeof kinds / sizeof *kinds; i++) {
        struct call call = file_call(file, kinds[i]);
        call.args[MARKS].bytes[0] = 2;
        call_finish(&call, LEGBARO_BAD_MARK, "mark 2");
    }
    broken_item(file, LEGBARO_ITEM_MARK(B), 1, 2, LEGBARO_BAD_MARK, "an item with mark 2");
}

static void broken_proof_mark(const struct file *file)
{
    struct call call = file_call(file, PROVE);
    if (call.args[MARKS].length) {
        call.args[MARKS].bytes[D - 1] = 2;
        call_expect(&call, LEGBARO_BAD_MARK, "mark 2");
    }
    call_free(&call);
}

/* Code 13's small input: one position, 513 planned rows, one block present. */
static void too_many_positions(void)
{
    struct call call = {.kind = POSITIONS, .r = 1, .d = LEGBARO_MOST_POSITIONS + 1, .n = 1};
    call_finish(&call, LEGBARO_TOO_MANY_POSITIONS, "513 positions");
}

/* Code 21's small input: d 5, m 6. */
static void too_many_damaged(void)
{
    struct call call = call_sheet(B, D, R, T, D, D + 1);
    call_finish(&call, LEGBARO_TOO_MANY_DAMAGED, "d 5, m 6");

    call = call_sheet(B, D, R, T, D, D);
    call_finish(&call, LEGBARO_OK, "d 5, m 5");
}

/* Codes 16 and 17's small inputs: 31 November, minute 1,440, a draw with no window. */
static void broken_hours(const struct file *file)
{
    struct when no_day = {2026, 11, 31, 0}, no_minute = {2026, 11, 30, LEGBARO_DAY_MINUTES};
    struct call call = file_call(file, DRAW);
    call_at(&call, &no_day);
    call_finish(&call, LEGBARO_BAD_TIME, "31 November");

    call = file_call(file, DRAW);
    call_at(&call, &no_minute);
    call_finish(&call, LEGBARO_BAD_TIME, "minute 1,440");

    call = file_call(file, DRAW);
    buffer_free(&call.args[PLAN]);
    call.args[PLAN] = schedule_blank();
    call_finish(&call, LEGBARO_OUTSIDE_WINDOWS, "a schedule without a window");

    call = file_call(file, DRAW);
    schedule_window(&call.args[PLAN], 6, LEGBARO_DAY_MINUTES, 0);
    call_finish(&call, LEGBARO_OUT_OF_LIMITS, "a schedule with minute 1,440");
}

/* Codes 18 and 19's small inputs, and code 2's of asks. */
static void two_steps(uint64_t version)
{
    struct file file = file_set_up(version, B, D, R, T, D);
    refused(&file, COMMIT, LEGBARO_NONE_PENDING, "commit after set-up");
    refused(&file, DROP, LEGBARO_NONE_PENDING, "drop after set-up");
    if (version != LEGBARO_TWO_STEPS) {
        refused(&file, ASK_APPEND, LEGBARO_WRONG_HEADER, "ask in version 1 or 2");
    } else {
        file_do(&file, ASK_APPEND);
        refused(&file, ASK_APPEND, LEGBARO_CHANGE_PENDING, "ask, ask");
        refused(&file, APPEND, LEGBARO_CHANGE_PENDING, "ask, append");
        refused(&file, DRAW, LEGBARO_CHANGE_PENDING, "ask, draw");
        file_do(&file, COMMIT);
        refused(&file, COMMIT, LEGBARO_NONE_PENDING, "ask, commit, commit");
        file_do(&file, ASK_APPEND);
        file_do(&file, DROP);
        refused(&file, COMMIT, LEGBARO_NONE_PENDING, "ask, drop, commit");
    }
    file_end(&file);
}

/* Code 10's small input: the last counter issued at its most, which in versions 1 and 2 is ctr. */
static void counter_at_most(const struct file *file)
{
    struct call call = file_call(file, UPDATE);
    int two_steps = file->book.numbers.version == LEGBARO_TWO_STEPS;
    buffer_put_number(&call.args[CARD], two_steps ? LEGBARO_CARD_LAST_ISSUED : LEGBARO_CARD_COUNTER,
                      8, LEGBARO_MOST_COUNTER);
    call_finish(&call, LEGBARO_COUNTER_AT_MOST, "ctr, or last issued, 4,294,967,295");
}

/* Code 22's small inputs: roles without permission, and a number that is no role. */
static void without_right(const struct file *file)
{
    static const struct {
        enum kind kind;
        uint64_t role;
    } calls[] = {{UPDATE, LEGBARO_MANAGER},
                 {DELETE, LEGBARO_SURVEYOR},
                 {COMMIT, LEGBARO_SURVEYOR},
                 {DRAW, LEGBARO_SURVEYOR},
                 {APPEND, 0}};
    for (size_t i = 0; i < sizeof calls / sizeof *calls; i++) {
        struct call call = file_call(file, calls[i].kind);
        call.role = calls[i].role;
        call_finish(&call, LEGBARO_NO_RIGHT, "a role without permission");
    }
}

/* Code 23's small inputs: no card, one card, a card twice. And two cards, of which the second has a
 * length field of 42, is a byte short, has a byte after it, or no token drawn. */
static void broken_pools(const struct file *const *two)
{
    const struct file *twice[] = {two[0], two[0]};
    size_t size = two[0]->card.length;
    struct call call = pool_call(two, 0);
    call_finish(&call, LEGBARO_BAD_POOL, "no card");

    call = pool_call(two, 1);
    call_finish(&call, LEGBARO_BAD_POOL, "one card");

    call = pool_call(twice, 2);
    call_finish(&call, LEGBARO_BAD_POOL, "a card twice");

    call = pool_call(two, 2);
    buffer_put_number(&call.args[CARDS], size, 2, 42);
    call_finish(&call, LEGBARO_WRONG_HEADER, "a card of length 42");

    call = pool_call(two, 2);
    buffer_resize(&call.args[CARDS], 2 * size - 1);
    call_finish(&call, LEGBARO_WRONG_LENGTH, "the last card a byte short");

    call = pool_call(two, 2);
    buffer_resize(&call.args[CARDS], 2 * size + 1);
    call_finish(&call, LEGBARO_WRONG_LENGTH, "a byte after the cards");

    call = pool_call(two, 2);
    buffer_put_number(&call.args[CARDS], size + LEGBARO_CARD_OPEN, 4, 0);
    call_finish(&call, LEGBARO_NONE_OPEN, "a card with no token drawn");

    call = pool_call(two, 2);
    call.role = LEGBARO_SURVEYOR;
    call_finish(&call, LEGBARO_NO_RIGHT, "by the surveyor");

    call = pool_call(two, 2);
    call_finish(&call, LEGBARO_OK, "two cards");
}

/* No reply to pool, one, a byte less than two, one of version 0, and a pooled reply that is a byte
 * short. */
static void broken_poolings(const struct file *const *two)
{
    struct call call = pooling_call(two, 0);
    call_finish(&call, LEGBARO_BAD_POOL, "no reply");

    call = pooling_call(two, 1);
    call_finish(&call, LEGBARO_BAD_POOL, "one reply");

    call = pooling_call(two, 2);
    buffer_resize(&call.args[REPLIES], 2 * LEGBARO_REPLY_BYTES - 1);
    call_finish(&call, LEGBARO_WRONG_LENGTH, "no whole replies");

    call = pooling_call(two, 2);
    call.args[REPLIES].bytes[LEGBARO_REPLY_BYTES + 2] = 0;
    call_finish(&call, LEGBARO_WRONG_HEADER, "a reply of version 0");

    call = pooling_call(two, 2);
    buffer_resize(&call.args[POOLED], LEGBARO_POOLED_BYTES(2) - 1);
    call_finish(&call, LEGBARO_WRONG_LENGTH, "a pooled reply a byte short");

    call = pooling_call(two, 2);
    call_finish(&call, LEGBARO_OK, "two replies");
}

static void two_files(uint64_t version)
{
    struct buffer master = buffer_blank(LEGBARO_MASTER_BYTES);
    struct file files[] = {pool_file(&master, version), pool_file(&master, version)};
    const struct file *two[] = {&files[0], &files[1]};
    broken_pools(two);
    broken_poolings(two);
    file_end(&files[0]);
    file_end(&files[1]);
    buffer_free(&master);
}

/* The small inputs on a new file. */
static void small_calls(struct file *file)
{
    struct call call = file_call(file, DRAW);
    buffer_resize(&call.args[CARD], call.args[CARD].length - 1);
    call_finish(&call, LEGBARO_WRONG_LENGTH, "card of 42 or 62 bytes");

    call = file_call(file, UPDATE);
    buffer_resize(&call.args[TOTALS], LEGBARO_TOTALS_BYTES - 1);
    call_finish(&call, LEGBARO_WRONG_LENGTH, "totals of 15 bytes");

    call = file_call(file, DRAW);
    call.args[CARD].bytes[LEGBARO_CARD_VERSION] = 0;
    call_finish(&call, LEGBARO_WRONG_HEADER, "card, version 0");

    call = file_call(file, UPDATE);
    call.m = 0;
    call_finish(&call, LEGBARO_NO_SUCH_BLOCK, "update block 0");

    call = file_call(file, APPEND);
    buffer_put_number(&call.args[CARD], LEGBARO_CARD_BLOCKS, 4, LEGBARO_MOST_BLOCKS);
    call_finish(&call, LEGBARO_FILE_FULL, "n 16,777,216");

    call = file_load_call(file, 2);
    buffer_put_number(&call.args[CARD], LEGBARO_CARD_BLOCKS, 4, LEGBARO_MOST_BLOCKS - 1);
    call_finish(&call, LEGBARO_FILE_FULL, "n 16,777,215 and two blocks");

    call = file_call(file, UPDATE);
    buffer_flip(&call.args[TABLE], 8 * (2 * LEGBARO_RECORD_BYTES - 1));
    call_finish(&call, LEGBARO_BAD_RECORD + 256 * 2, "bit flipped in record 2's tag");

    without_right(file);
    counter_at_most(file);
    broken_loads(file);
    broken_batches(file);
    broken_marks(file);
    broken_hours(file);
    refused(file, JUDGE, LEGBARO_NONE_OPEN, "judge after set-up");
    refused(file, CAUSE, LEGBARO_NONE_OPEN, "cause after set-up");
    file_do(file, DRAW);
    refused(file, APPEND, LEGBARO_TOKEN_OPEN, "draw, append");
    broken_proof_mark(file);
}

/* A file of one block in many rows: set up, changed, drawn and judged. */
static void one_block(uint64_t version)
{
    struct file file = file_set_up(version, B, D, R, T, 1);
    file_do(&file, UPDATE);
    file_do(&file, DELETE);
    file_do(&file, BATCH);
    file_audit(&file);
    file_do(&file, LOAD);
    file_expect_book(&file);
    file_end(&file);
}

/* What is taken: r 5 with d 5; t = 1 allows one draw; n from 1; for a proof, a table that is just
 * long enough or longer; 512 positions. */
static void taken(uint64_t version)
{
    struct call call = {.kind = POSITIONS, .r = 1, .d = LEGBARO_MOST_POSITIONS, .n = 1};
    call_finish(&call, LEGBARO_OK + 256 * LEGBARO_MOST_POSITIONS, "512 positions");
    one_block(version);
    struct file file = file_set_up(version, B, 5, 5, 1, 5);
    file_do(&file, DRAW);
    for (size_t longer = 0; longer <= 2; longer++) {
        call = file_call(&file, PROVE);
        buffer_resize(&call.args[TABLE], LEGBARO_RECORD_BYTES + longer);
        call_finish(&call, LEGBARO_OK, "a table of 63 bytes or more for token 1");
    }
    file_do(&file, JUDGE);
    file_end(&file);
}

static void small_inputs(uint64_t version)
{
    test_begin("each refusal's small input, version %llu", (unsigned long long)version);
    struct file file = file_set_up(version, B, D, R, T, D);
    small_calls(&file);
    file_end(&file);
    outside_limits(version);
    too_many_positions();
    too_many_damaged();
    most_items(version);
    two_files(version);
    last_token_drawn(version);
    two_steps(version);
    taken(version);
    test_end();
}

void test_refusals(void)
{
    for (uint64_t version = FIRST_VERSION; version <= LAST_VERSION; version++)
        small_inputs(version);
}
