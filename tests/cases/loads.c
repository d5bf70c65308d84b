/* Loads of many sizes, and set-ups with fewer, as many and more blocks than rows. */
#include "cases.h"

#include "support/chance.h"
#include "support/expect.h"
#include "support/files.h"

#include <string.h>

#define COUNT(array) (sizeof(array) / sizeof *(array))

/* Set-ups of d planned rows with every number of blocks up to a column more than twice d. */
static void planned(uint64_t B, uint64_t d)
{
    for (uint64_t n = 1; n <= 2 * d + 1; n++) {
        struct file file = file_set_up(any_version(), B, d, 1 + chance_below(d), 2, n);
        file_audit(&file);
        file_do(&file, LOAD);
        file_audit(&file);
        file_expect_book(&file);
        file_end(&file);
    }
}

static void planned_rows(void)
{
    static const uint64_t rows[] = {1, 5, 17};
    test_begin("set-ups with fewer, as many and more blocks than rows");
    for (size_t b = 0; b < BLOCK_SIZES; b = tried_after(b, 5))
        for (size_t i = 0; i < COUNT(rows); i++)
            planned(block_sizes[b], rows[i]);
    test_end();
}

/* Loads of 1 to 40 blocks, one after the other, into d rows that are all drawn. */
static void growing(uint64_t B, uint64_t d)
{
    struct file file = file_set_up(any_version(), B, d, d, 2, 1 + chance_below(2 * d));
    for (uint64_t blocks = 1; blocks <= 40; blocks++)
        file_load(&file, blocks);
    file_audit(&file);
    file_expect_book(&file);
    file_end(&file);
}

static void growing_loads(void)
{
    static const uint64_t rows[] = {5, 61};
    test_begin("loads of 1 to 40 blocks");
    for (size_t b = 0; b < BLOCK_SIZES; b = tried_after(b, 6))
        for (size_t i = 0; i < COUNT(rows); i++)
            growing(block_sizes[b], rows[i]);
    test_end();
}

/* A file that grows by loads of these sizes, one after the other, or of some of them, and an
 * audit. */
static void grown_by(uint64_t B, uint64_t d, uint64_t r, const uint64_t *sizes, size_t count)
{
    struct file file = file_set_up(any_version(), B, d, r, 2, 1 + chance_below(d));
    for (size_t i = 0; i < count; i = tried_after(i, 4))
        file_load(&file, sizes[i]);
    file_audit(&file);
    file_expect_book(&file);
    file_end(&file);
}

/* Loads of up to some hundreds of blocks, below, at and above the size from which on a table of the
 * round function pays, half of d / 2^h. */
static void hundreds(uint64_t B, uint64_t d, uint64_t r)
{
    static const uint64_t sizes[] = {19,  20,  21,  31,  32,  33,  97,  98,  99,
                                     255, 256, 257, 511, 512, 513, 600, 1201};
    grown_by(B, d, r, sizes, COUNT(sizes));
}

static void large_loads(void)
{
    test_begin("loads of up to some hundreds of blocks");
    hundreds(64, 600, LEGBARO_MOST_POSITIONS);
    hundreds(28, 512, LEGBARO_MOST_POSITIONS);
    hundreds(27, 17, 17);
    hundreds(148, 5000, LEGBARO_MOST_POSITIONS);
    hundreds(92, 4096, 64);
    hundreds(1, 100000, LEGBARO_MOST_POSITIONS);
    hundreds(LEGBARO_MOST_BLOCK_BYTES, 700, 100);
    test_end();
}

/* Loads below, at and above eight blocks for each position, from where on a load goes through the
 * positions, and with their last walks alone, two, three and four at once, within a run of 1,024
 * and after it. */
static void through_positions(uint64_t B, uint64_t d, uint64_t r)
{
    const uint64_t sizes[] = {8 * r - 1, 8 * r, 8 * r + 1, 8 * r + 2, 8 * r + 3, 1023,
                              1024,      1025,  1026,      1027,      2049};
    grown_by(B, d, r, sizes, COUNT(sizes));
}

static void loads_through_positions(void)
{
    test_begin("loads of eight blocks and more for each position");
    through_positions(64, 1, 1);
    through_positions(1, 2, 2);
    through_positions(29, 5, 3);
    through_positions(27, 17, 17);
    through_positions(148, 64, 40);
    through_positions(92, 1000, 60);
    through_positions(28, 4096, 64);
    through_positions(83, 5000, 64);
    through_positions(LEGBARO_MOST_BLOCK_BYTES, 1100, 7);
    test_end();
}

/* A load of one block and an append of it, on copies of one file. */
static void one_block(const struct file *file)
{
    struct call append = file_call(file, APPEND), load = file_load_call(file, 1);
    memcpy(load.args[BLOCKS].bytes, append.args[NEW].bytes, append.args[NEW].length);
    call_alike(&load, &append);
}

static void loads_of_one(void)
{
    test_begin("a load of one block writes what an append writes");
    file_each_size(one_block);
    test_end();
}

/* Appends the blocks of a load one by one. */
static void append_singly(struct file *file, const struct buffer *blocks)
{
    uint64_t B = file->book.numbers.B;
    for (uint64_t at = 0; at < blocks->length; at += B) {
        struct call call = file_call(file, APPEND);
        memcpy(call.args[NEW].bytes, blocks->bytes + at, B);
        expect(file_run(file, &call) == LEGBARO_OK, "accepted");
    }
}

/* Draws a token and answers the honest reply to it, which judge accepts. */
static struct buffer drawn_reply(struct file *file)
{
    file_do(file, DRAW);
    struct call judge = file_call(file, JUDGE);
    struct buffer reply = buffer_copy(&judge.args[REPLY]);
    expect(file_run(file, &judge) == LEGBARO_OK, "accepted");
    return reply;
}

/* One set-up made twice; the blocks come as one load there and one by one here, with the same turns
 * and hashes. Both are audited alike: the record's counter apart, which stands after the digest
 * with the sealed token, the replies are the same. */
static void load_and_appends(uint64_t B, uint64_t d, uint64_t r, uint64_t n, uint64_t blocks)
{
    enum { BEFORE_RECORD = LEGBARO_REPLY_BYTES - LEGBARO_RECORD_BYTES };
    struct call again = file_set_up_call(any_version(), B, d, r, 2, n);
    struct file loading = file_of(&again), appending = file_of(&again);
    struct call load = file_load_call(&loading, blocks);
    append_singly(&appending, &load.args[BLOCKS]);
    expect(file_run(&loading, &load) == LEGBARO_OK, "accepted");
    expect(loading.book.numbers.ctr == 1 && appending.book.numbers.ctr == blocks,
           "one step of the counter");
    expect(totals_same(loading.totals, appending.totals), "the totals of all appends");
    struct buffer one = drawn_reply(&loading), other = drawn_reply(&appending);
    expect(buffer_same(&loading.message, &appending.message), "the same message");
    expect(memcmp(one.bytes, other.bytes, BEFORE_RECORD) == 0, "the same digest");
    file_expect_book(&loading);
    file_expect_book(&appending);
    buffer_free(&one);
    buffer_free(&other);
    file_end(&loading);
    file_end(&appending);
    call_free(&again);
}

static void loads_and_appends(void)
{
    test_begin("a load and the same blocks appended one by one are audited alike");
    for (size_t b = 0; b < BLOCK_SIZES; b = tried_after(b, 5))
        for (uint64_t blocks = 1; blocks <= 33; blocks += 4)
            load_and_appends(block_sizes[b], 7, 1 + chance_below(7), 1 + chance_below(10), blocks);
    test_end();
}

/* Every length of a load up to three blocks, on a file of blocks of five bytes. */
static void load_lengths(void)
{
    enum { B = 5 };
    test_begin("every length of a load up to three blocks");
    struct file file = file_set_up(any_version(), B, 4, 4, 2, 3);
    for (size_t length = 0; length <= 3 * B; length++) {
        struct call call = file_load_call(&file, 3);
        buffer_resize(&call.args[BLOCKS], length);
        call_finish(&call,
                    length == B || length == 2 * B || length == 3 * B ? LEGBARO_OK
                                                                      : LEGBARO_NOT_WHOLE_BLOCKS,
                    "a load's length");
    }
    file_end(&file);
    test_end();
}

void test_loads(void)
{
    planned_rows();
    growing_loads();
    large_loads();
    loads_through_positions();
    loads_of_one();
    loads_and_appends();
    load_lengths();
}
