/* Changes in two steps: ask and commit beside the change in one step, drops, what the host holds,
 * and the last counters. */
#include "cases.h"

#include "support/chance.h"
#include "support/expect.h"
#include "support/files.h"

#include <string.h>

#define COUNT(array) (sizeof(array) / sizeof *(array))

enum { B = 28, D = 5, T = 4, N = 8 };

static const uint64_t block_bytes[] = {1, 26, 27, 28, 64, 90, 91, 92, LEGBARO_MOST_BLOCK_BYTES};

/* ---- Ask and commit, and the change in one step ---- */

/* A commit or a drop on a card, expected to be accepted. */
static struct call settled(enum kind kind, const struct buffer *card)
{
    struct call call = {.kind = kind, .role = any_permitted(kind)};
    call.args[CARD] = buffer_copy(card);
    call_expect(&call, LEGBARO_OK, "accepted");
    return call;
}

/* Expects a card to be the file's but for one counter more issued. */
static void expect_one_more_issued(const struct file *file, const struct buffer *card)
{
    struct card numbers = file->book.numbers;
    struct buffer own = buffer_copy(&file->card);
    numbers.last_issued++;
    reference_write_card(own.bytes, &numbers);
    expect(buffer_same(card, &own), "the card as it was, but for one counter more issued");
    buffer_free(&own);
}

/* A change of the file in one step, and on copies asked and committed, and asked and dropped. */
static void both_ways(const struct file *file, struct call change)
{
    struct call ask = call_asked(&change);
    call_expect(&change, LEGBARO_OK, "in one step");
    call_expect(&ask, LEGBARO_OK, "asked");
    struct call commit = settled(COMMIT, &ask.args[CARD]), drop = settled(DROP, &ask.args[CARD]);
    expect(buffer_same(&commit.args[CARD], &change.args[CARD]),
           "the card of the change in one step");
    expect(buffer_same(&ask.args[SECOND], &change.args[TABLE]),
           "the table of the change in one step");
    expect(buffer_same(&ask.args[TOTALS], &change.args[TOTALS]),
           "the totals of the change in one step");
    expect(buffer_same(&ask.args[TABLE], &file->table), "the standing table as it was");
    expect_one_more_issued(file, &drop.args[CARD]);
    call_free(&change);
    call_free(&ask);
    call_free(&commit);
    call_free(&drop);
}

/* Every kind of change, and loads and batches of many blocks. */
static void every_kind(const struct file *file)
{
    for (enum kind kind = UPDATE; kind <= BATCH; kind++)
        both_ways(file, file_call(file, kind));
    both_ways(file, file_load_call(file, 5 + chance_below(30)));
    both_ways(file, file_batch_call(file, file->book.numbers.n));
}

/* With every number of tokens spent, after asks that were dropped and such that were committed. */
static void with_spent(uint64_t bytes, uint64_t d)
{
    struct file file =
        file_set_up(LEGBARO_TWO_STEPS, bytes, d, 1 + chance_below(d), T, 1 + chance_below(2 * d));
    for (uint64_t spent = 0; spent <= T; spent++) {
        every_kind(&file);
        file_do(&file, (enum kind)(ASK_UPDATE + chance_below(5)));
        file_do(&file, chance_of(2) ? COMMIT : DROP);
        if (spent < T)
            file_audit(&file);
    }
    file_expect_book(&file);
    file_end(&file);
}

static void one_step_and_two(void)
{
    static const uint64_t rows[] = {1, 5, 17};
    test_begin("a change asked and committed writes what the change in one step writes");
    for (size_t b = 0; b < COUNT(block_bytes); b = tried_after(b, 3))
        for (size_t i = 0; i < COUNT(rows); i++)
            with_spent(block_bytes[b], rows[i]);
    test_end();
}

/* A refused change, and the same asked: the same number. */
static void both_refused(struct call change, uint64_t number)
{
    struct call ask = call_asked(&change);
    call_finish(&change, number, "in one step");
    call_finish(&ask, number, "asked");
}

/* A bit flipped in each unused record. */
static void with_bad_records(const struct file *file, enum kind kind)
{
    for (uint64_t token = file->book.numbers.next; token <= T; token++) {
        struct call change = file_call(file, kind);
        buffer_flip(&change.args[TABLE], 8 * (token - 1) * LEGBARO_RECORD_BYTES +
                                             chance_below(8 * LEGBARO_RECORD_BYTES));
        both_refused(change, LEGBARO_BAD_RECORD + 256 * token);
    }
}

/* Of an update or a deletion, a block that there is not, and a mark that is none. */
static void with_bad_arguments(const struct file *file, enum kind kind)
{
    struct call change = file_call(file, kind);
    change.m = N + 1;
    both_refused(change, LEGBARO_NO_SUCH_BLOCK);
    change = file_call(file, kind);
    change.args[MARKS].bytes[0] = 2;
    both_refused(change, LEGBARO_BAD_MARK);
}

/* Every change of a file that takes none. */
static void all_refused(const struct file *file, uint64_t code)
{
    for (enum kind kind = UPDATE; kind <= BATCH; kind++)
        both_refused(file_call(file, kind), code);
}

static void same_refusals(void)
{
    test_begin("an ask is refused as the change in one step is");
    struct file file = file_set_up(LEGBARO_TWO_STEPS, B, D, D, T, N);
    file_audit(&file);
    for (enum kind kind = UPDATE; kind <= BATCH; kind++)
        with_bad_records(&file, kind);
    with_bad_arguments(&file, UPDATE);
    with_bad_arguments(&file, DELETE);
    file_do(&file, DRAW);
    all_refused(&file, LEGBARO_TOKEN_OPEN);
    file_do(&file, JUDGE);
    file_do(&file, ASK_APPEND);
    all_refused(&file, LEGBARO_CHANGE_PENDING);
    file_end(&file);
    test_end();
}

/* ---- What the host holds ---- */

/* The cause of a reply that the host proves from a table; 0 where judge would accept it. */
static void expect_cause(const struct file *file, const struct buffer *table,
                         const struct buffer *blocks, uint64_t cause)
{
    struct call proof = file_call(file, PROVE), why = file_call(file, CAUSE);
    memcpy(proof.args[TABLE].bytes, table->bytes, table->length);
    if (blocks)
        memcpy(proof.args[BLOCKS].bytes, blocks->bytes, blocks->length);
    call_expect(&proof, LEGBARO_OK, "accepted");
    memcpy(why.args[REPLY].bytes, proof.args[REPLY].bytes, LEGBARO_REPLY_BYTES);
    call_finish(&why, LEGBARO_OK + 256 * cause, "the cause");
    call_free(&proof);
}

/* A change, asked or in one step, on a table that does not stand: no unused record opens. */
static void expect_bad_table(const struct file *file, const struct buffer *table)
{
    struct call change = file_call(file, UPDATE);
    memcpy(change.args[TABLE].bytes, table->bytes, table->length);
    both_refused(change, LEGBARO_BAD_RECORD + 256 * file->book.numbers.next);
}

/* After a drop the standing table is the one to prove from and to change; after a commit the asked
 * one, and blocks that took the change in. */
static void host_holds(enum kind ask)
{
    struct file file = file_set_up(LEGBARO_TWO_STEPS, B, D, D, T, N);
    file_do(&file, ask);
    struct buffer dropped = buffer_copy(&file.asked);
    file_do(&file, DROP);
    expect_bad_table(&file, &dropped);
    file_do(&file, DRAW);
    expect_cause(&file, &file.table, NULL, 0);
    expect_cause(&file, &dropped, NULL, LEGBARO_CAUSE_COUNTER);
    file_do(&file, JUDGE);
    struct buffer before = buffer_copy(&file.table), blocks = buffer_of(file.book.blocks, B * N);
    file_do(&file, ask);
    expect(!buffer_same(&file.asked, &dropped), "another table than the dropped one");
    file_do(&file, COMMIT);
    expect_bad_table(&file, &before);
    file_do(&file, DRAW);
    expect_cause(&file, &file.table, NULL, 0);
    expect_cause(&file, &before, NULL, LEGBARO_CAUSE_COUNTER);
    expect_cause(&file, &dropped, NULL, LEGBARO_CAUSE_COUNTER);
    if (unasked(ask) == UPDATE)
        expect_cause(&file, &file.table, &blocks, LEGBARO_CAUSE_DIGEST);
    file_do(&file, JUDGE);
    file_expect_book(&file);
    buffer_free(&dropped);
    buffer_free(&before);
    buffer_free(&blocks);
    file_end(&file);
}

static void hosts(void)
{
    test_begin("the host proves from the table that stands, after a drop and after a commit");
    for (enum kind ask = ASK_UPDATE; ask <= ASK_BATCH; ask++)
        host_holds(ask);
    test_end();
}

/* Asks made again and again after drops: each takes a counter of its own. With every token spent
 * the table is copied whole. */
static void asked_again(void)
{
    test_begin("the same change asked again after drops, with tokens unused and with none");
    for (uint64_t spent = 0; spent <= T; spent += T) {
        struct file file = file_set_up(LEGBARO_TWO_STEPS, B, D, D, T, N);
        for (uint64_t i = 0; i < spent; i++)
            file_audit(&file);
        for (uint64_t asks = 1; asks <= 9; asks++) {
            file_do(&file, ASK_BATCH);
            expect(file.book.numbers.pending == asks && file.book.numbers.ctr == 0,
                   "a counter of its own for each ask");
            expect(buffer_same(&file.table, &file.asked) == (spent == T),
                   "spent records alone are copied");
            file_expect_book(&file);
            file_do(&file, DROP);
        }
        file_do(&file, UPDATE);
        expect(file.book.numbers.ctr == 10, "the counter after the last one issued");
        file_expect_book(&file);
        file_end(&file);
    }
    test_end();
}

/* ---- The last counters ---- */

static void refused(const struct file *file, enum kind kind, uint64_t code)
{
    struct call call = file_call(file, kind);
    call_finish(&call, code, "at the last counter");
}

/* A file with a standing counter, and a last one issued that may be above it. */
static struct file with_issued(uint64_t ctr, uint64_t last_issued)
{
    struct file file = file_set_up(LEGBARO_TWO_STEPS, B, D, D, T, N);
    file.book.numbers.ctr = ctr;
    file.book.numbers.last_issued = last_issued;
    book_card(&file.book, file.card.bytes);
    book_table(&file.book, file.table.bytes);
    return file;
}

/* The last ask is committed or dropped, whatever the counter; then no further one is taken, nor a
 * change in one step. An audit is. */
static void last_ask(uint64_t ctr, enum kind settle)
{
    struct file file = with_issued(ctr, LEGBARO_MOST_COUNTER - 1);
    file_do(&file, ASK_LOAD);
    refused(&file, APPEND, LEGBARO_CHANGE_PENDING);
    file_do(&file, settle);
    for (enum kind kind = UPDATE; kind <= ASK_BATCH; kind++)
        refused(&file, kind, LEGBARO_COUNTER_AT_MOST);
    file_audit(&file);
    file_expect_book(&file);
    file_end(&file);
}

static void last_counters(void)
{
    static const uint64_t counters[] = {0, 1, LEGBARO_MOST_COUNTER - 1};
    test_begin("the last counter issued is looked at, and not by commit and drop");
    for (size_t i = 0; i < COUNT(counters); i++) {
        last_ask(counters[i], COMMIT);
        last_ask(counters[i], DROP);
    }
    test_end();
}

void test_asks(void)
{
    one_step_and_two();
    same_refusals();
    hosts();
    asked_again();
    last_counters();
}
