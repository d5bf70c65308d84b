/* Files with the most of each number. */
#include "cases.h"

#include "support/expect.h"
#include "support/files.h"

#include <string.h>

/* In version 3, a change asked and dropped, and one of each kind asked and committed. */
static void in_two_steps(struct file *file)
{
    if (file->book.numbers.version != LEGBARO_TWO_STEPS)
        return;
    file_do(file, ASK_LOAD);
    file_do(file, DROP);
    for (int kind = ASK_UPDATE; kind <= ASK_BATCH; kind++) {
        file_do(file, (enum kind)kind);
        file_do(file, COMMIT);
    }
}

/* Each call once, on a file that accepts them, with the book at the end. */
static void round_of_calls(struct file *file)
{
    in_two_steps(file);
    file_do(file, APPEND);
    file_do(file, LOAD);
    file_do(file, UPDATE);
    file_do(file, DELETE);
    file_do(file, BATCH);
    file_audit(file);
    file_expect_book(file);
}

/* Expects a call on the file, with nothing wrong in its arguments, to be refused with a code. */
static void refused(const struct file *file, enum kind kind, uint64_t code)
{
    struct call call = file_call(file, kind);
    call_finish(&call, code, "at the most");
}

/* Gives the file the card and the table of its book, whose numbers or blocks were set by hand. */
static void follow_book(struct file *file)
{
    book_card(&file->book, file->card.bytes);
    book_table(&file->book, file->table.bytes);
}

static void most_rows(uint64_t version)
{
    test_begin("the most rows and positions, version %llu", (unsigned long long)version);
    struct file file =
        file_set_up(version, 1, LEGBARO_MOST_ROWS, LEGBARO_MOST_POSITIONS, 2, LEGBARO_MOST_ROWS);
    round_of_calls(&file);
    file_end(&file);
    test_end();
}

static void most_block_bytes(uint64_t version)
{
    test_begin("the most bytes in a block, version %llu", (unsigned long long)version);
    struct file file = file_set_up(version, LEGBARO_MOST_BLOCK_BYTES, LEGBARO_MOST_POSITIONS + 1,
                                   LEGBARO_MOST_POSITIONS, 2, LEGBARO_MOST_POSITIONS);
    file_batch(&file, LEGBARO_MOST_ITEMS);
    round_of_calls(&file);
    file_end(&file);
    test_end();
}

/* All but the last token are spent by hand: their records are those of the set-up. */
static void most_tokens(uint64_t version)
{
    test_begin("the most tokens, version %llu", (unsigned long long)version);
    struct file file = file_set_up(version, 1, 2, 2, LEGBARO_MOST_TOKENS, 2);
    memcpy(file.book.spent, file.table.bytes, file.table.length);
    file_do(&file, UPDATE);
    file_expect_book(&file);
    file.book.numbers.next = LEGBARO_MOST_TOKENS;
    follow_book(&file);
    round_of_calls(&file);
    refused(&file, DRAW, LEGBARO_NO_TOKEN_LEFT);
    file_end(&file);
    test_end();
}

/* Expects a load of so many blocks to be refused with a code. */
static void load_refused(const struct file *file, uint64_t blocks, uint64_t code)
{
    struct call call = file_load_call(file, blocks);
    call_finish(&call, code, "past the most");
}

/* A batch of the most items, the last of them on the last block. */
static void last_block_in_batch(struct file *file)
{
    uint64_t blocks[LEGBARO_MOST_ITEMS];
    for (uint64_t e = 0; e < LEGBARO_MOST_ITEMS; e++)
        blocks[e] = file->book.numbers.n - LEGBARO_MOST_ITEMS + 1 + e;
    struct call call = file_batch_of(file, blocks, LEGBARO_MOST_ITEMS);
    expect(file_run(file, &call) == LEGBARO_OK, "accepted");
}

/* Updates, deletions, batches and an audit go on where no block can be added. */
static void full(struct file *file)
{
    refused(file, APPEND, LEGBARO_FILE_FULL);
    load_refused(file, 1, LEGBARO_FILE_FULL);
    if (file->book.numbers.version == LEGBARO_TWO_STEPS) {
        refused(file, ASK_APPEND, LEGBARO_FILE_FULL);
        file_do(file, ASK_UPDATE);
        file_do(file, COMMIT);
    }
    file_do(file, UPDATE);
    file_do(file, DELETE);
    last_block_in_batch(file);
    file_audit(file);
    file_expect_book(file);
}

/* Set up with all but a few blocks, and filled by appends and loads; a load one past the most is
 * refused. */
static void most_blocks(uint64_t version)
{
    enum { LEFT = 50 };
    test_begin("the most blocks, filled by loads, version %llu", (unsigned long long)version);
    struct file file = file_set_up(version, 1, LEGBARO_MOST_ROWS, LEGBARO_MOST_POSITIONS, 2,
                                   LEGBARO_MOST_BLOCKS - LEFT);
    load_refused(&file, LEFT + 1, LEGBARO_FILE_FULL);
    file_do(&file, APPEND);
    file_load(&file, LEFT - 3);
    load_refused(&file, 3, LEGBARO_FILE_FULL);
    file_load(&file, 2);
    full(&file);
    file_end(&file);
    test_end();
}

/* Set up with the most blocks; with one more it is refused. */
static void most_blocks_at_once(uint64_t version)
{
    test_begin("the most blocks at set-up, version %llu", (unsigned long long)version);
    struct file file =
        file_set_up(version, 1, LEGBARO_MOST_ROWS, LEGBARO_MOST_POSITIONS, 2, LEGBARO_MOST_BLOCKS);
    full(&file);
    file_end(&file);
    struct call call = file_set_up_call(version, 1, 2, 2, 1, LEGBARO_MOST_BLOCKS + 1);
    call_finish(&call, LEGBARO_OUT_OF_LIMITS, "one block above the most");
    test_end();
}

/* A file planned for the most rows, with one block, then all other rows in one load. */
static void most_rows_loaded(uint64_t version)
{
    test_begin("the most rows, all but one filled by one load, version %llu",
               (unsigned long long)version);
    struct file file = file_set_up(version, 1, LEGBARO_MOST_ROWS, LEGBARO_MOST_POSITIONS, 2, 1);
    round_of_calls(&file);
    file_load(&file, LEGBARO_MOST_ROWS - file.book.numbers.n);
    file_audit(&file);
    file_expect_book(&file);
    file_end(&file);
    test_end();
}

static void most_counter(uint64_t version)
{
    test_begin("the most counter, version %llu", (unsigned long long)version);
    struct file file = file_set_up(version, 28, 5, 3, 3, 4);
    file.book.numbers.ctr = file.book.numbers.last_issued = LEGBARO_MOST_COUNTER - 1;
    follow_book(&file);
    file_do(&file, APPEND);
    for (int kind = UPDATE; kind <= BATCH; kind++) {
        refused(&file, (enum kind)kind, LEGBARO_COUNTER_AT_MOST);
        refused(&file, asked((enum kind)kind),
                version == LEGBARO_TWO_STEPS ? LEGBARO_COUNTER_AT_MOST : LEGBARO_WRONG_HEADER);
    }
    file_audit(&file);
    file_expect_book(&file);
    file_end(&file);
    test_end();
}

void test_limits(void)
{
    for (uint64_t version = FIRST_VERSION; version <= LAST_VERSION; version++) {
        most_rows(version);
        most_block_bytes(version);
        most_tokens(version);
        most_rows_loaded(version);
        most_blocks(version);
        most_blocks_at_once(version);
        most_counter(version);
    }
}
