/* Batches of every size, their faults, and batches beside the same changes made singly. */
#include "cases.h"

#include "support/chance.h"
#include "support/expect.h"
#include "support/files.h"

#include <string.h>

#define COUNT(array) (sizeof(array) / sizeof *(array))

/* Runs a batch on the file, expected to be accepted. */
static void run_batch(struct file *file, struct call call)
{
    expect(file_run(file, &call) == LEGBARO_OK, "accepted");
}

/* ---- Sizes and kinds ---- */

/* All items updates, all deletions, or as they come. */
enum kinds { UPDATES, DELETIONS, MIXED, KINDS_OF_BATCH };

static void put_kinds(const struct file *file, struct call *batch, enum kinds kinds)
{
    struct buffer *items = &batch->args[ITEMS];
    if (kinds != MIXED)
        for (size_t at = 0; at < items->length; at += file_item_at(file, 1, 0))
            items->bytes[at + LEGBARO_ITEM_KIND] =
                kinds == UPDATES ? LEGBARO_ITEM_UPDATE : LEGBARO_ITEM_DELETE;
}

/* Batches of 1 to 64 items, one after the other, over d rows. */
static void every_size(uint64_t B, uint64_t d, uint64_t r, enum kinds kinds)
{
    struct file file =
        file_set_up(any_version(), B, d, r, 2, LEGBARO_MOST_ITEMS + chance_below(2 * d));
    for (size_t items = 1; items <= LEGBARO_MOST_ITEMS; items++) {
        struct call batch = file_batch_call(&file, items);
        put_kinds(&file, &batch, kinds);
        run_batch(&file, batch);
    }
    file_audit(&file);
    file_expect_book(&file);
    file_end(&file);
}

/* All of five rows are drawn, or some of 61. */
static void every_size_and_kind(void)
{
    test_begin("batches of 1 to 64 items: updates, deletions, both");
    for (size_t b = 0; b < BLOCK_SIZES; b = tried_after(b, 8))
        for (size_t kinds = 0; kinds < KINDS_OF_BATCH; kinds++)
            if ((b + kinds) % 2)
                every_size(block_sizes[b], 5, 5, (enum kinds)kinds);
            else
                every_size(block_sizes[b], 61, 1 + chance_below(61), (enum kinds)kinds);
    test_end();
}

/* Batches of the most items, and of about half, over so many rows that a token draws few of the
 * blocks, some or all. */
static void many_rows(void)
{
    static const uint64_t rows[][2] = {{64, 64},    {512, 512},    {600, 512}, {4096, 64},
                                       {5000, 460}, {100000, 512}, {100000, 1}};
    test_begin("batches over many rows");
    for (size_t i = 0; i < COUNT(rows); i++) {
        struct file file = file_set_up(any_version(), 64, rows[i][0], rows[i][1], 4,
                                       rows[i][0] + chance_below(rows[i][0]));
        for (size_t items = LEGBARO_MOST_ITEMS; items >= LEGBARO_MOST_ITEMS / 2 - 1; items -= 11)
            file_batch(&file, items);
        file_audit(&file);
        file_expect_book(&file);
        file_end(&file);
    }
    test_end();
}

/* ---- Which blocks ---- */

/* Batches of blocks first, first + step, first + 2 * step and so on, as many as there are, but no
 * more than a batch takes. */
static void stepped(struct file *file, uint64_t first, uint64_t step)
{
    uint64_t blocks[LEGBARO_MOST_ITEMS];
    size_t items = 0;
    for (uint64_t m = first; m <= file->book.numbers.n && items < LEGBARO_MOST_ITEMS; m += step)
        blocks[items++] = m;
    run_batch(file, file_batch_of(file, blocks, items));
}

/* Every block of a row, neighbours, the first block and the last, on d rows with n blocks. */
static void which_blocks(uint64_t d, uint64_t n)
{
    struct file file = file_set_up(any_version(), 29, d, 1 + chance_below(d), 3, n);
    for (uint64_t row = 1; row <= d && row <= n; row++)
        stepped(&file, row, d);
    stepped(&file, 1, 1);
    stepped(&file, n, 1);
    stepped(&file, 1, n > 1 ? n - 1 : 1);
    file_audit(&file);
    file_expect_book(&file);
    file_end(&file);
}

static void rows_and_ends(void)
{
    test_begin("batches on the blocks of one row, on neighbours, on the first block and the last");
    for (uint64_t d = 1; d <= 7; d++)
        for (uint64_t n = 1; n <= 4 * d + 1; n += 1 + n / 3)
            which_blocks(d, n);
    which_blocks(1, 200);
    which_blocks(64, 64);
    which_blocks(5, 330);
    test_end();
}

/* A batch deletes blocks; then batches update and delete them again, and hand over zero bytes and
 * the mark of a deleted block. */
static void deleted_again(uint64_t version, uint64_t B)
{
    static const uint64_t blocks[] = {1, 3, 4, 8, 11};
    static const enum kinds turns[] = {DELETIONS, DELETIONS, UPDATES, DELETIONS, UPDATES, UPDATES};
    struct file file = file_set_up(version, B, 4, 4, 2, 11);
    for (size_t i = 0; i < COUNT(turns); i++) {
        struct call batch = file_batch_of(&file, blocks, COUNT(blocks));
        put_kinds(&file, &batch, turns[i]);
        run_batch(&file, batch);
        file_expect_book(&file);
    }
    file_audit(&file);
    file_end(&file);
}

static void blocks_deleted_again(void)
{
    test_begin("blocks deleted and updated again by batches");
    for (size_t b = 0; b < BLOCK_SIZES; b++)
        for (uint64_t version = FIRST_VERSION; version <= LAST_VERSION; version++)
            deleted_again(version, block_sizes[b]);
    test_end();
}

/* ---- Beside single changes ---- */

/* Item e of a batch as a single change on the file. */
static struct call single(const struct file *file, const struct buffer *items, size_t e)
{
    struct item item = reference_item(items->bytes, &file->book.numbers, e);
    struct call call = file_call(file, item.kind == LEGBARO_ITEM_UPDATE ? UPDATE : DELETE);
    call.m = item.m;
    memcpy(call.args[OLD].bytes, item.old_block, call.args[OLD].length);
    if (item.mark)
        call.args[MARKS].bytes[0] = *item.mark;
    if (call.kind == UPDATE)
        memcpy(call.args[NEW].bytes, item.new_block, call.args[NEW].length);
    return call;
}

/* Expects two files, of one master, to have the same spent records, the same tokens in the unused
 * ones, each at its own counter, and cards that differ in the counter alone. */
static void expect_alike(const struct file *one, const struct file *other)
{
    uint8_t token[TOKEN_BYTES], other_token[TOKEN_BYTES];
    struct card numbers = reference_read_card(one->card.bytes),
                others = reference_read_card(other->card.bytes);
    size_t spent = (numbers.next - 1) * LEGBARO_RECORD_BYTES;
    expect(memcmp(one->table.bytes, other->table.bytes, spent) == 0, "the same spent records");
    for (uint64_t i = numbers.next; i <= numbers.t; i++) {
        int opened =
            reference_token(one->master.bytes, &numbers, one->table.bytes, i, token) &&
            reference_token(other->master.bytes, &others, other->table.bytes, i, other_token);
        expect(opened && memcmp(token, other_token, sizeof token) == 0, "the same token %llu",
               (unsigned long long)i);
    }
    struct buffer card = buffer_copy(&one->card);
    numbers.ctr = others.ctr;
    numbers.last_issued = others.last_issued;
    reference_write_card(card.bytes, &numbers);
    expect(buffer_same(&card, &other->card), "the same card but for the counter");
    buffer_free(&card);
}

/* One set-up made twice, with tokens spent; a batch here, the same changes one by one there. */
static void batch_and_singles(uint64_t B, uint64_t d, uint64_t spent, size_t items)
{
    struct call again = file_set_up_call(any_version(), B, d, 1 + chance_below(d), 5,
                                         LEGBARO_MOST_ITEMS + chance_below(d));
    struct file together = file_of(&again), singly = file_of(&again);
    for (uint64_t i = 0; i < spent; i++) {
        file_audit(&together);
        file_audit(&singly);
    }
    struct call batch = file_batch_call(&together, items);
    for (size_t e = 0; e < items; e++) {
        struct call call = single(&singly, &batch.args[ITEMS], e);
        expect(file_run(&singly, &call) == LEGBARO_OK, "accepted");
    }
    run_batch(&together, batch);
    expect(together.book.numbers.ctr == 1 && singly.book.numbers.ctr == items,
           "one step of the counter");
    expect(totals_same(together.totals, singly.totals), "the totals of all single changes");
    expect_alike(&together, &singly);
    file_expect_book(&together);
    file_expect_book(&singly);
    file_end(&together);
    file_end(&singly);
    call_free(&again);
}

static void batches_and_singles(void)
{
    test_begin("a batch and the same changes made singly leave the same tokens");
    for (size_t items = 1; items <= LEGBARO_MOST_ITEMS; items = tried_after(items, 6))
        batch_and_singles(block_sizes[items % BLOCK_SIZES], 1 + chance_below(90), chance_below(6),
                          items);
    test_end();
}

/* A batch of one item, and that update or deletion, on copies of one file. */
static void one_item(const struct file *file)
{
    struct call batch = file_batch_call(file, 1), alone = single(file, &batch.args[ITEMS], 0);
    call_alike(&batch, &alone);
}

static void batches_of_one(void)
{
    test_begin("a batch of one item writes what that change writes");
    file_each_size(one_item);
    test_end();
}

/* ---- What is not read ---- */

/* A batch of deletions, and copies of it with other bytes where the new blocks are. */
static void new_bytes_of_deletions(void)
{
    test_begin("a deletion's new bytes are not read");
    for (size_t b = 0; b < BLOCK_SIZES; b++) {
        uint64_t B = block_sizes[b];
        struct file file = file_set_up(any_version(), B, 7, 7, 2, 40);
        struct call batch = file_batch_call(&file, 9);
        put_kinds(&file, &batch, DELETIONS);
        struct call other = call_copy(&batch);
        for (size_t e = 0; e < 9; e++)
            chance_bytes(other.args[ITEMS].bytes +
                             file_item_at(&file, e, LEGBARO_ITEM_NEW(file.book.numbers.version, B)),
                         B);
        call_expect(&batch, LEGBARO_OK, "accepted");
        call_expect(&other, LEGBARO_OK, "accepted");
        expect(buffer_same(&batch.args[CARD], &other.args[CARD]), "the same card");
        expect(buffer_same(&batch.args[TABLE], &other.args[TABLE]), "the same table");
        call_free(&batch);
        call_free(&other);
        file_end(&file);
    }
    test_end();
}

/* ---- Faults ---- */

/* What may be wrong with an item of a batch: its kind is 0 or 3; its number is that of the item
 * before or after; its mark is 2 or 255; its number is 0, or above n. In version 1 there is no
 * mark, and the number is 0 instead. */
enum wrong { KIND_0, KIND_3, AS_BEFORE, AS_BEHIND, MARK_2, MARK_255, NUMBER_0, ABOVE_N, WRONGS };

static void make_wrong(const struct file *file, struct buffer *items, size_t e, enum wrong wrong)
{
    size_t kind = file_item_at(file, e, LEGBARO_ITEM_KIND),
           block = file_item_at(file, e, LEGBARO_ITEM_BLOCK);
    size_t size = file_item_at(file, 1, 0);
    if (wrong == KIND_0 || wrong == KIND_3)
        buffer_put_number(items, kind, 1, wrong == KIND_0 ? 0 : 3);
    else if (wrong == AS_BEFORE && e > 0)
        buffer_put_number(items, block, 4, buffer_number(items, block - size, 4));
    else if (wrong == AS_BEHIND && block + size < items->length)
        buffer_put_number(items, block, 4, buffer_number(items, block + size, 4));
    else if ((wrong == MARK_2 || wrong == MARK_255) &&
             file->book.numbers.version != LEGBARO_WITHOUT_MARKS)
        buffer_put_number(items, file_item_at(file, e, LEGBARO_ITEM_MARK(file->book.numbers.B)), 1,
                          wrong == MARK_2 ? 2 : UINT8_MAX);
    else
        buffer_put_number(items, block, 4,
                          wrong == AS_BEHIND || wrong == ABOVE_N ? file->book.numbers.n + 1 : 0);
}

/* The code of items whose fields may be wrong: a kind or a number that does not rise before any
 * mark, and a mark before any number that is not there. */
static uint64_t code_of(const struct file *file, const struct buffer *items)
{
    int form = 0, mark = 0, number = 0;
    uint64_t before = 0;
    for (size_t at = 0; at < items->length; at += file_item_at(file, 1, 0)) {
        uint64_t kind = items->bytes[at + LEGBARO_ITEM_KIND],
                 m = buffer_number(items, at + LEGBARO_ITEM_BLOCK, 4);
        form |=
            (kind != LEGBARO_ITEM_UPDATE && kind != LEGBARO_ITEM_DELETE) || (at > 0 && m <= before);
        mark |= file->book.numbers.version != LEGBARO_WITHOUT_MARKS &&
                items->bytes[at + LEGBARO_ITEM_MARK(file->book.numbers.B)] > LEGBARO_DELETED;
        number |= m == 0 || m > file->book.numbers.n;
        before = m;
    }
    return form     ? LEGBARO_BAD_BATCH
           : mark   ? LEGBARO_BAD_MARK
           : number ? LEGBARO_NO_SUCH_BLOCK
                    : LEGBARO_OK;
}

/* Something wrong in one item or two, first, in the middle or last. */
static void wrong_items(const struct file *file, size_t count)
{
    size_t indices[] = {0, count / 2, count - 1};
    for (unsigned one = 0; one < WRONGS * COUNT(indices); one++)
        for (unsigned other = one; other < WRONGS * COUNT(indices); other++) {
            struct call batch = file_batch_call(file, count);
            make_wrong(file, &batch.args[ITEMS], indices[one / WRONGS], (enum wrong)(one % WRONGS));
            make_wrong(file, &batch.args[ITEMS], indices[other / WRONGS],
                       (enum wrong)(other % WRONGS));
            uint64_t code = code_of(file, &batch.args[ITEMS]);
            expect(code != LEGBARO_OK, "something is wrong");
            call_finish(&batch, code, "items that are wrong");
        }
}

static void faults_of_items(void)
{
    static const size_t counts[] = {1, 2, 3, 7, LEGBARO_MOST_ITEMS};
    test_begin("batches with one item wrong, or two");
    for (uint64_t version = FIRST_VERSION; version <= LAST_VERSION; version++) {
        struct file file = file_set_up(version, 4, 6, 4, 2, LEGBARO_MOST_ITEMS + 3);
        for (size_t i = 0; i < COUNT(counts); i++)
            wrong_items(&file, counts[i]);
        file_end(&file);
    }
    test_end();
}

/* Every length of a batch up to three items, on a file of blocks of five bytes. */
static void batch_lengths(uint64_t version)
{
    struct file file = file_set_up(version, 5, 4, 4, 2, 5);
    size_t size = file_item_at(&file, 1, 0);
    for (size_t length = 0; length <= 3 * size; length++) {
        struct call call = file_batch_call(&file, 3);
        buffer_resize(&call.args[ITEMS], length);
        call_finish(&call, length > 0 && length % size == 0 ? LEGBARO_OK : LEGBARO_BAD_BATCH,
                    "a batch's length");
    }
    file_end(&file);
}

static void every_batch_length(void)
{
    test_begin("every length of a batch up to three items");
    for (uint64_t version = FIRST_VERSION; version <= LAST_VERSION; version++)
        batch_lengths(version);
    test_end();
}

/* With every token spent the card alone changes. */
static void none_unused(void)
{
    test_begin("a batch with every token spent");
    struct file file = file_set_up(any_version(), 28, 5, 5, 2, 20);
    file_audit(&file);
    file_audit(&file);
    struct buffer table = buffer_copy(&file.table);
    file_batch(&file, 20);
    expect(buffer_same(&file.table, &table), "spent records keep their bytes");
    file_expect_book(&file);
    buffer_free(&table);
    file_end(&file);
    test_end();
}

void test_batches(void)
{
    every_size_and_kind();
    many_rows();
    rows_and_ends();
    blocks_deleted_again();
    batches_and_singles();
    batches_of_one();
    new_bytes_of_deletions();
    faults_of_items();
    every_batch_length();
    none_unused();
}
