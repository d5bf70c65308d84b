/* Marks: their lengths and values, blocks of zeros beside deleted blocks, and versions with marks
 * beside version 1. */
#include "cases.h"

#include "support/chance.h"
#include "support/expect.h"
#include "support/files.h"

#include <string.h>

enum { B = 20, D = 6, N = 15, T = 3, TWINS = 200, MOST_B = 120 };

static const enum kind singles[] = {UPDATE, DELETE};

/* ---- Lengths and values ---- */

static void with_length(const struct file *file, enum kind kind, size_t length, uint64_t number)
{
    struct call call = file_call(file, kind);
    buffer_resize(&call.args[MARKS], length);
    memset(call.args[MARKS].bytes, LEGBARO_LIVE, length);
    call_finish(&call, number, "marks of another length");
}

/* One mark for a change and n for a proof, none in version 1. */
static void lengths(uint64_t version)
{
    struct file changing = file_set_up(version, B, D, D, T, N),
                proving = file_set_up(version, B, D, D, T, N);
    size_t one = version == LEGBARO_WITHOUT_MARKS ? 0 : 1, all = one * N;
    file_do(&proving, DRAW);
    for (size_t length = 0; length <= 2 * N; length++) {
        with_length(&changing, UPDATE, length, length == one ? LEGBARO_OK : LEGBARO_WRONG_LENGTH);
        with_length(&changing, DELETE, length, length == one ? LEGBARO_OK : LEGBARO_WRONG_LENGTH);
        with_length(&proving, PROVE, length, length == all ? LEGBARO_OK : LEGBARO_WRONG_LENGTH);
    }
    file_end(&changing);
    file_end(&proving);
}

static void with_mark(struct call call, enum argument argument, size_t at, uint64_t mark)
{
    call.args[argument].bytes[at] = (uint8_t)mark;
    call_finish(&call, mark <= LEGBARO_DELETED ? LEGBARO_OK : LEGBARO_BAD_MARK, "any mark");
}

/* Every byte as the mark of a change, of an item first, in the middle and last, and of each block
 * in a proof, drawn or not. */
static void values(uint64_t version)
{
    struct file changing = file_set_up(version, B, D, D, T, N),
                proving = file_set_up(version, B, D, 1, T, N);
    file_do(&proving, DRAW);
    for (uint64_t mark = 0; mark <= UINT8_MAX; mark++) {
        for (size_t k = 0; k < sizeof singles / sizeof *singles; k++)
            with_mark(file_call(&changing, singles[k]), MARKS, 0, mark);
        for (size_t e = 0; e < 9; e += 4)
            with_mark(file_batch_call(&changing, 9), ITEMS,
                      file_item_at(&changing, e, LEGBARO_ITEM_MARK(B)), mark);
        for (uint64_t m = 1; m <= N; m++)
            with_mark(file_call(&proving, PROVE), MARKS, m - 1, mark);
    }
    file_end(&changing);
    file_end(&proving);
}

static void lengths_and_values(void)
{
    test_begin("marks of every length up to twice the blocks, and every byte as a mark");
    for (uint64_t version = FIRST_VERSION; version <= LAST_VERSION; version++)
        lengths(version);
    for (uint64_t version = LEGBARO_WITH_MARKS; version <= LAST_VERSION; version++)
        values(version);
    test_end();
}

/* ---- Blocks of zeros ---- */

enum { CLOSED_DAY = 4, DELETED_BLOCK = 9 };

/* Updates a block to zero bytes, or deletes it. */
static void make_zeros(struct file *file, enum kind kind, uint64_t m)
{
    struct call call = file_block_call(file, kind, m);
    if (kind == UPDATE)
        memset(call.args[NEW].bytes, 0, B);
    expect(file_run(file, &call) == LEGBARO_OK, "accepted");
}

/* A file in which one block is a live one of zeros and another is deleted. An audit looks at every
 * block. */
static struct file with_closed_day(uint64_t version)
{
    struct file file = file_set_up(version, B, D, D, T, N);
    make_zeros(&file, UPDATE, CLOSED_DAY);
    make_zeros(&file, DELETE, DELETED_BLOCK);
    return file;
}

/* The host keeps nothing of block m and proves from zero bytes, with the mark that is given where
 * the version has marks. */
static void dropped(uint64_t version, uint64_t m, uint8_t mark, uint64_t verdict)
{
    struct file file = with_closed_day(version);
    file_do(&file, DRAW);
    struct call proof = file_call(&file, PROVE), judge = file_call(&file, JUDGE);
    memset(proof.args[BLOCKS].bytes + (m - 1) * B, 0, B);
    if (proof.args[MARKS].length)
        proof.args[MARKS].bytes[m - 1] = mark;
    call_expect(&proof, LEGBARO_OK, "accepted");
    memcpy(judge.args[REPLY].bytes, proof.args[REPLY].bytes, LEGBARO_REPLY_BYTES);
    uint64_t number = file_run(&file, &judge);
    expect(number == verdict, "block %llu dropped, with mark %u, in version %llu: %llu, not %llu",
           (unsigned long long)m, mark, (unsigned long long)version, (unsigned long long)verdict,
           (unsigned long long)number);
    call_free(&proof);
    file_end(&file);
}

/* Version 1 can't tell a closed day from a deleted block; versions 2 and 3 can, both ways. Other
 * blocks are missed in each. */
static void closed_days(void)
{
    test_begin("a host that drops a live block of zeros is caught in versions 2 and 3 and not in "
               "version 1");
    dropped(LEGBARO_WITHOUT_MARKS, CLOSED_DAY, LEGBARO_DELETED, LEGBARO_OK);
    dropped(LEGBARO_WITHOUT_MARKS, DELETED_BLOCK, LEGBARO_LIVE, LEGBARO_OK);
    for (uint64_t version = LEGBARO_WITH_MARKS; version <= LAST_VERSION; version++) {
        dropped(version, CLOSED_DAY, LEGBARO_DELETED, LEGBARO_REJECTED);
        dropped(version, CLOSED_DAY, LEGBARO_LIVE, LEGBARO_OK);
        dropped(version, DELETED_BLOCK, LEGBARO_LIVE, LEGBARO_REJECTED);
        dropped(version, DELETED_BLOCK, LEGBARO_DELETED, LEGBARO_OK);
    }
    for (uint64_t version = FIRST_VERSION; version <= LAST_VERSION; version++) {
        dropped(version, 1, LEGBARO_DELETED, LEGBARO_REJECTED);
        dropped(version, N, LEGBARO_LIVE, LEGBARO_REJECTED);
    }
    test_end();
}

/* The other old mark is taken as it is, and then the tokens no longer fit the file. */
static void wrong_old_mark(uint64_t version, enum kind kind, uint64_t m)
{
    struct file file = with_closed_day(version);
    struct call call = file_block_call(&file, kind, m);
    call.args[MARKS].bytes[0] =
        (uint8_t)(LEGBARO_LIVE + LEGBARO_DELETED - *book_mark(&file.book, m));
    expect(file_run(&file, &call) == LEGBARO_OK, "accepted");
    file_do(&file, DRAW);
    call = file_call(&file, JUDGE);
    call_finish(&call, LEGBARO_REJECTED, "after a wrong old mark");
    file_end(&file);
}

static void wrong_old_marks(void)
{
    test_begin("a wrong old mark is taken, and found by the next audit");
    for (uint64_t version = LEGBARO_WITH_MARKS; version <= LAST_VERSION; version++)
        for (size_t k = 0; k < sizeof singles / sizeof *singles; k++) {
            wrong_old_mark(version, singles[k], 1);
            wrong_old_mark(version, singles[k], CLOSED_DAY);
            wrong_old_mark(version, singles[k], DELETED_BLOCK);
        }
    test_end();
}

/* ---- Versions with marks beside version 1 ---- */

/* The blocks of a file that has marks, each after its mark. */
static struct buffer marked_blocks(const struct file *file)
{
    uint64_t bytes = file->book.numbers.B, n = file->book.numbers.n;
    struct buffer blocks = buffer_blank(n * (bytes + 1));
    for (uint64_t m = 1; m <= n; m++) {
        uint8_t *at = blocks.bytes + (m - 1) * (bytes + 1);
        at[0] = *book_mark(&file->book, m);
        memcpy(at + 1, book_block(&file->book, m), bytes);
    }
    return blocks;
}

/* Expects the tokens of a file that has marks in a set-up of version 1, of the same master and id,
 * over its blocks after their marks. */
static void expect_twin(const struct file *file)
{
    const struct card *numbers = &file->book.numbers;
    uint8_t token[TOKEN_BYTES], twin_token[TOKEN_BYTES];
    struct call set_up = file_set_up_call(LEGBARO_WITHOUT_MARKS, numbers->B + 1, numbers->d,
                                          numbers->r, numbers->t, numbers->n);
    memcpy(set_up.args[MASTER].bytes, file->master.bytes, LEGBARO_MASTER_BYTES);
    memcpy(set_up.args[ID].bytes, numbers->id, LEGBARO_ID_BYTES);
    buffer_free(&set_up.args[BLOCKS]);
    set_up.args[BLOCKS] = marked_blocks(file);
    struct file twin = file_of(&set_up);
    for (uint64_t i = numbers->next; i <= numbers->t; i++)
        expect(reference_token(file->master.bytes, numbers, file->table.bytes, i, token) &&
                   reference_token(file->master.bytes, &twin.book.numbers, twin.table.bytes, i,
                                   twin_token) &&
                   memcmp(token, twin_token, sizeof token) == 0,
               "the token of version 1 over marks and blocks");
    file_end(&twin);
    call_free(&set_up);
}

/* "one mark byte stands between index and block in the hash": a token of version 2 or 3 is one of
 * version 1 over blocks that begin with it. */
static void twins(void)
{
    static const enum kind changes[] = {UPDATE, DELETE, DELETE, APPEND, LOAD, BATCH};
    test_begin("tokens of versions 2 and 3 are those of version 1 over blocks after their marks");
    for (uint64_t i = 0; i < TWINS; i = tried_after(i, 5)) {
        uint64_t d = 1 + chance_below(20);
        uint64_t version = LEGBARO_WITH_MARKS + chance_below(LAST_VERSION + 1 - LEGBARO_WITH_MARKS);
        struct file file = file_set_up(version, 1 + chance_below(MOST_B), d, 1 + chance_below(d), T,
                                       1 + chance_below(2 * d));
        for (uint64_t steps = chance_below(8); steps; steps--)
            file_do(&file, changes[chance_below(sizeof changes / sizeof *changes)]);
        expect_twin(&file);
        file_end(&file);
    }
    test_end();
}

void test_marks(void)
{
    lengths_and_values();
    closed_days();
    wrong_old_marks();
    twins();
}
