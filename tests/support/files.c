/* See files.h. */
#include "files.h"

#include "chance.h"
#include "draw_times.h"
#include "expect.h"

#include <string.h>

/* The most blocks of a load, and the most items of a batch, without a given number. */
enum { A_FEW = 4 };

/* A buffer of random bytes. */
static struct buffer any_bytes(size_t length)
{
    struct buffer b = buffer_blank(length);
    chance_bytes(b.bytes, length);
    return b;
}

uint64_t any_version(void)
{
    return FIRST_VERSION + chance_below(LAST_VERSION + 1 - FIRST_VERSION);
}

uint64_t any_permitted(enum kind kind)
{
    static const uint64_t roles[] = {LEGBARO_SURVEYOR, LEGBARO_PLANNER, LEGBARO_MANAGER};
    uint64_t role = roles[chance_below(3)];
    return call_permits(kind, role) ? role : LEGBARO_PLANNER;
}

struct call file_set_up_call(uint64_t version, uint64_t B, uint64_t d, uint64_t r, uint64_t t,
                             uint64_t n)
{
    struct call call = {.kind = SET_UP, .version = version, .B = B, .d = d, .r = r, .t = t, .n = n};
    call.args[MASTER] = any_bytes(LEGBARO_MASTER_BYTES);
    call.args[ID] = any_bytes(LEGBARO_ID_BYTES);
    call.args[BLOCKS] = any_bytes(n * B);
    call.args[CARD] = buffer_blank(reference_card_bytes(version));
    call.args[TABLE] = buffer_blank(t * LEGBARO_RECORD_BYTES);
    call.args[TOTALS] = any_bytes(LEGBARO_TOTALS_BYTES);
    return call;
}

struct file file_of(const struct call *set_up)
{
    struct call call = call_copy(set_up);
    call_expect(&call, LEGBARO_OK, "accepted");
    struct file file = {.book = book_start(&call),
                        .master = buffer_copy(&call.args[MASTER]),
                        .card = buffer_copy(&call.args[CARD]),
                        .table = buffer_copy(&call.args[TABLE]),
                        .asked = buffer_blank(call.args[TABLE].length),
                        .message = buffer_blank(LEGBARO_MESSAGE_BYTES),
                        .totals = call_totals(&call)};
    call_free(&call);
    return file;
}

struct file file_set_up(uint64_t version, uint64_t B, uint64_t d, uint64_t r, uint64_t t,
                        uint64_t n)
{
    struct call call = file_set_up_call(version, B, d, r, t, n);
    struct file file = file_of(&call);
    call_free(&call);
    return file;
}

void file_end(struct file *file)
{
    book_end(&file->book);
    buffer_free(&file->master);
    buffer_free(&file->card);
    buffer_free(&file->table);
    buffer_free(&file->asked);
    buffer_free(&file->message);
}

/* The current blocks. */
static struct buffer current_blocks(const struct file *file)
{
    return buffer_of(file->book.blocks, file->book.numbers.n * file->book.numbers.B);
}

/* The marks from block m on, so many; none in version 1. */
static struct buffer current_marks(const struct file *file, uint64_t m, uint64_t count)
{
    return buffer_of(book_mark(&file->book, m),
                     file->book.numbers.version == LEGBARO_WITHOUT_MARKS ? 0 : count);
}

/* The host's reply to the message drawn last, which is made where a token is open, and else
 * blank. */
static struct buffer honest_reply(const struct file *file)
{
    struct call proof = file_call(file, PROVE);
    if (file->book.numbers.open)
        call_expect(&proof, LEGBARO_OK, "accepted");
    struct buffer reply = buffer_copy(&proof.args[REPLY]);
    call_free(&proof);
    return reply;
}

size_t file_item_at(const struct file *file, size_t item, size_t offset)
{
    return item * LEGBARO_ITEM_BYTES(file->book.numbers.version, file->book.numbers.B) + offset;
}

/* Items on these blocks: each an update or a deletion, as it comes. */
static struct buffer items_of(const struct file *file, const uint64_t *blocks, size_t count)
{
    uint64_t B = file->book.numbers.B;
    struct buffer items = any_bytes(file_item_at(file, count, 0));
    for (size_t e = 0; e < count; e++) {
        buffer_put_number(&items, file_item_at(file, e, LEGBARO_ITEM_KIND), 1,
                          chance_of(2) ? LEGBARO_ITEM_UPDATE : LEGBARO_ITEM_DELETE);
        buffer_put_number(&items, file_item_at(file, e, LEGBARO_ITEM_BLOCK), 4, blocks[e]);
        memcpy(items.bytes + file_item_at(file, e, LEGBARO_ITEM_OLD),
               book_block(&file->book, blocks[e]), B);
        if (file->book.numbers.version != LEGBARO_WITHOUT_MARKS)
            items.bytes[file_item_at(file, e, LEGBARO_ITEM_MARK(B))] =
                *book_mark(&file->book, blocks[e]);
    }
    return items;
}

/* Items on so many of the file's blocks, any of them as likely as any other. */
static struct buffer any_items(const struct file *file, size_t count)
{
    uint64_t n = file->book.numbers.n, blocks[LEGBARO_MOST_ITEMS + 1];
    size_t chosen = 0;
    for (uint64_t m = 1; m <= n && chosen < count; m++)
        if (chance_below(n - m + 1) < count - chosen)
            blocks[chosen++] = m;
    return items_of(file, blocks, chosen);
}

/* One of the numbers from 1 to a few, and no more than the file has blocks. */
static size_t a_few_items(const struct file *file)
{
    uint64_t n = file->book.numbers.n;
    return 1 + chance_below(n < A_FEW ? n : A_FEW);
}

/* Gives a call any schedule and any time that it allows. */
static void set_draw_time(struct call *call)
{
    struct when when = any_time();
    call->args[PLAN] = any_schedule();
    schedule_allow(&call->args[PLAN], &when);
    call_at(call, &when);
}

struct call file_call(const struct file *file, enum kind kind)
{
    const struct card *numbers = &file->book.numbers;
    struct call call = {
        .kind = kind, .role = any_permitted(kind), .m = 1 + chance_below(numbers->n)};
    if (call_takes(kind, MASTER))
        call.args[MASTER] = buffer_copy(&file->master);
    if (call_takes(kind, CARD))
        call.args[CARD] = buffer_copy(&file->card);
    if (call_takes(kind, TABLE))
        call.args[TABLE] = buffer_copy(&file->table);
    if (call_takes(kind, SECOND))
        call.args[SECOND] = any_bytes(file->table.length);
    if (call_takes(kind, BLOCKS))
        call.args[BLOCKS] = unasked(kind) == LOAD
                                ? any_bytes((1 + chance_below(A_FEW)) * numbers->B)
                                : current_blocks(file);
    if (call_takes(kind, OLD))
        call.args[OLD] = buffer_of(book_block(&file->book, call.m), numbers->B);
    if (call_takes(kind, MARKS))
        call.args[MARKS] =
            kind == PROVE ? current_marks(file, 1, numbers->n) : current_marks(file, call.m, 1);
    if (call_takes(kind, NEW))
        call.args[NEW] = any_bytes(numbers->B);
    if (call_takes(kind, ITEMS))
        call.args[ITEMS] = any_items(file, a_few_items(file));
    if (call_takes(kind, MESSAGE))
        call.args[MESSAGE] = buffer_copy(&file->message);
    if (call_takes(kind, PLAN))
        set_draw_time(&call);
    if (call_takes(kind, REPLY))
        call.args[REPLY] =
            kind == JUDGE || kind == CAUSE ? honest_reply(file) : buffer_blank(LEGBARO_REPLY_BYTES);
    if (call_takes(kind, TOTALS))
        call.args[TOTALS] = any_bytes(LEGBARO_TOTALS_BYTES);
    return call;
}

struct call file_block_call(const struct file *file, enum kind kind, uint64_t m)
{
    struct call call = file_call(file, kind);
    call.m = m;
    memcpy(call.args[OLD].bytes, book_block(&file->book, m), call.args[OLD].length);
    if (call.args[MARKS].length)
        call.args[MARKS].bytes[0] = *book_mark(&file->book, m);
    return call;
}

struct call file_load_call(const struct file *file, uint64_t blocks)
{
    struct call call = file_call(file, LOAD);
    buffer_free(&call.args[BLOCKS]);
    call.args[BLOCKS] = any_bytes(blocks * file->book.numbers.B);
    return call;
}

/* A batch with these items. */
static struct call batch_call(const struct file *file, struct buffer items)
{
    struct call call = file_call(file, BATCH);
    buffer_free(&call.args[ITEMS]);
    call.args[ITEMS] = items;
    return call;
}

struct call file_batch_call(const struct file *file, size_t items)
{
    return batch_call(file, any_items(file, items));
}

struct call file_batch_of(const struct file *file, const uint64_t *blocks, size_t items)
{
    return batch_call(file, items_of(file, blocks, items));
}

/* Gives a buffer of the file the bytes that a call left in its own, where the call has one of that
 * length. */
static void take_over(struct buffer *held, const struct buffer *left)
{
    if (!left->bytes || left->length != held->length)
        return;
    buffer_free(held);
    *held = buffer_copy(left);
}

uint64_t file_run(struct file *file, struct call *call)
{
    uint64_t answer = book_answer(&file->book, call);
    uint64_t number = call_compare(call);
    expect(number == answer, "%s: the book's number %llu, not %llu", call_name(call->kind),
           (unsigned long long)answer, (unsigned long long)number);
    take_over(&file->card, &call->args[CARD]);
    take_over(&file->table, &call->args[TABLE]);
    take_over(&file->message, &call->args[MESSAGE]);
    if (call->kind == JUDGE_POOL)
        memcpy(file->card.bytes, call->args[CARDS].bytes + call->card_offset, file->card.length);
    if (is_ask(call->kind) && number == LEGBARO_OK)
        take_over(&file->asked, &call->args[SECOND]);
    if (call_takes(call->kind, TOTALS) && number == LEGBARO_OK)
        reference_add_totals(&file->totals, call_totals(call));
    if (call->kind == COMMIT && number == LEGBARO_OK)
        take_over(&file->table, &file->asked);
    call_free(call);
    return number;
}

/* `file_run`, expected to be accepted. */
static void run_accepted(struct file *file, struct call *call)
{
    enum kind kind = call->kind;
    uint64_t number = file_run(file, call);
    expect(number == LEGBARO_OK, "%s: accepted, not %llu", call_name(kind),
           (unsigned long long)number);
}

void file_do(struct file *file, enum kind kind)
{
    struct call call = file_call(file, kind);
    run_accepted(file, &call);
}

void file_load(struct file *file, uint64_t blocks)
{
    struct call call = file_load_call(file, blocks);
    run_accepted(file, &call);
}

void file_batch(struct file *file, size_t items)
{
    struct call call = file_batch_call(file, items);
    run_accepted(file, &call);
}

void file_audit(struct file *file)
{
    file_do(file, DRAW);
    file_do(file, JUDGE);
}

const uint64_t block_sizes[BLOCK_SIZES] = {
    1,  18, 19, 20, 26, 27,  28,  29,  82,  83,
    84, 90, 91, 92, 93, 146, 147, 148, 183, LEGBARO_MOST_BLOCK_BYTES};

void file_each_size(void (*look)(const struct file *file))
{
    for (size_t b = 0; b < BLOCK_SIZES; b++)
        for (uint64_t n = 1; n <= 12; n = tried_after(n, 6)) {
            struct file file =
                file_set_up(any_version(), block_sizes[b], 5, 1 + chance_below(5), 3, n);
            look(&file);
            file_audit(&file);
            look(&file);
            file_end(&file);
        }
}

void file_expect_book(const struct file *file)
{
    struct buffer card = buffer_blank(file->card.length), table = buffer_blank(file->table.length);
    book_card(&file->book, card.bytes);
    book_table(&file->book, table.bytes);
    expect(buffer_same(&file->card, &card), "the book's card");
    expect(buffer_same(&file->table, &table), "the book's table");
    if (file->book.numbers.pending) {
        book_asked_table(&file->book, table.bytes);
        expect(buffer_same(&file->asked, &table), "the book's asked table");
    }
    buffer_free(&card);
    buffer_free(&table);
}
