/* What a host can read from a reseal: the table that is sent to it, whatever blocks were changed
 * and whatever tokens cover them. */
#include "cases.h"

#include "support/chance.h"
#include "support/expect.h"
#include "support/files.h"

#include <string.h>

enum { B = 28, T = 6, CLEAR_BYTES = 15, SEALED_BITS = 8 * (LEGBARO_RECORD_BYTES - CLEAR_BYTES) };

/* ---- Two changes on one card ---- */

/* The table that goes to the host after a change, in one step or asked; record i of a table. */
static const struct buffer *sent(const struct call *change)
{
    return &change->args[is_ask(change->kind) ? SECOND : TABLE];
}

static const uint8_t *record(const struct buffer *table, uint64_t i)
{
    return table->bytes + (i - 1) * LEGBARO_RECORD_BYTES;
}

static int same_bytes(const struct call *a, const struct call *b, uint64_t i, size_t bytes)
{
    return !memcmp(record(sent(a), i), record(sent(b), i), bytes);
}

/* Writes the token that an accepted change left in record i, which opens at the counter that the
 * change took. */
static void token_left(const struct call *change, uint64_t i, uint8_t *token)
{
    struct card after = reference_read_card(change->args[CARD].bytes);
    after.ctr = after.last_issued;
    expect(reference_token(change->args[MASTER].bytes, &after, sent(change)->bytes, i, token),
           "record %llu opens", (unsigned long long)i);
}

/* "returned number, card and the first 15 bytes of every unused record come out equal": of two
 * changes, on a card with these numbers, that were both accepted and leave equally many blocks. */
static void expect_silent(const struct card *c, const struct call *a, const struct call *b)
{
    expect(buffer_same(&a->args[CARD], &b->args[CARD]), "equal cards");
    expect(sent(a)->length == sent(b)->length, "tables of one length");
    for (uint64_t i = c->next; i <= c->t; i++)
        expect(same_bytes(a, b, i, CLEAR_BYTES), "equal clear bytes of record %llu",
               (unsigned long long)i);
}

/* "under one master an unused record left with an equal token in both is equal whole"; with another
 * token it is not. */
static void expect_records(const struct card *c, const struct call *a, const struct call *b)
{
    uint8_t left_by_a[TOKEN_BYTES], left_by_b[TOKEN_BYTES];
    for (uint64_t i = c->next; i <= c->t; i++) {
        token_left(a, i, left_by_a);
        token_left(b, i, left_by_b);
        expect(same_bytes(a, b, i, LEGBARO_RECORD_BYTES) ==
                   !memcmp(left_by_a, left_by_b, TOKEN_BYTES),
               "record %llu equal exactly where its token is", (unsigned long long)i);
    }
}

/* "spent records keep their bytes" */
static void expect_spent(const struct file *file, const struct call *change)
{
    size_t spent = (file->book.numbers.next - 1) * LEGBARO_RECORD_BYTES;
    expect(!memcmp(sent(change)->bytes, file->table.bytes, spent), "spent records as they were");
}

/* ---- Changes of every block ---- */

/* An update that puts what is there. */
static struct call unaltered(const struct file *file, uint64_t m)
{
    struct call call = file_block_call(file, UPDATE, m);
    memcpy(call.args[NEW].bytes, call.args[OLD].bytes, B);
    return call;
}

/* How many changes altered no unused token, how many altered some, and how many all. */
static struct {
    unsigned none, some, all;
} altered;

/* Counts the records in which a change differs from one that altered nothing. */
static void count_altered(const struct card *c, const struct call *nothing,
                          const struct call *change)
{
    uint64_t different = 0;
    for (uint64_t i = c->next; i <= c->t; i++)
        different += !same_bytes(nothing, change, i, LEGBARO_RECORD_BYTES);
    *(different == 0                    ? &altered.none
      : different == c->t + 1 - c->next ? &altered.all
                                        : &altered.some) += 1;
}

/* A change on a copy, beside one that altered nothing. */
static void beside(const struct file *file, const struct call *nothing, struct call change)
{
    const struct card *c = &file->book.numbers;
    call_expect(&change, LEGBARO_OK, "accepted");
    expect_silent(c, nothing, &change);
    expect_records(c, nothing, &change);
    expect_spent(file, &change);
    count_altered(c, nothing, &change);
    call_free(&change);
}

/* Makes a change in one step and, where the version has asks, asked: each beside a change of its
 * way that altered nothing. */
static void both_ways(const struct file *file, const struct call *nothing,
                      const struct call *nothing_asked, struct call change)
{
    if (file->book.numbers.version == LEGBARO_TWO_STEPS)
        beside(file, nothing_asked, call_asked(&change));
    beside(file, nothing, change);
}

/* Updates and deletions of every block, and batches, on one card. */
static void every_block(const struct file *file)
{
    uint64_t n = file->book.numbers.n, most = n < LEGBARO_MOST_ITEMS ? n : LEGBARO_MOST_ITEMS;
    struct call nothing = unaltered(file, 1 + chance_below(n)),
                nothing_asked = call_asked(&nothing);
    call_expect(&nothing, LEGBARO_OK, "accepted");
    if (file->book.numbers.version == LEGBARO_TWO_STEPS)
        call_expect(&nothing_asked, LEGBARO_OK, "asked");
    for (uint64_t m = 1; m <= n; m = tried_after(m, 5)) {
        both_ways(file, &nothing, &nothing_asked, unaltered(file, m));
        both_ways(file, &nothing, &nothing_asked, file_block_call(file, UPDATE, m));
        both_ways(file, &nothing, &nothing_asked, file_block_call(file, DELETE, m));
        both_ways(file, &nothing, &nothing_asked, file_batch_call(file, 1 + chance_below(most)));
    }
    call_free(&nothing);
    call_free(&nothing_asked);
}

/* With every number of tokens spent. */
static void with_spent(uint64_t version, uint64_t d, uint64_t r)
{
    struct file file = file_set_up(version, B, d, r, T, d + chance_below(d));
    for (uint64_t spent = 0; spent <= T; spent++) {
        every_block(&file);
        file_do(&file, UPDATE);
        if (spent < T)
            file_audit(&file);
    }
    file_end(&file);
}

static void covering_or_not(void)
{
    test_begin("updates, deletions and batches on one card show a host the same, covering or not");
    for (uint64_t version = FIRST_VERSION; version <= LAST_VERSION; version++)
        for (uint64_t d = 1; d <= 12; d = tried_after(d, 5)) {
            with_spent(version, d, 1 + chance_below(d));
            with_spent(version, d, d);
        }
    expect(altered.none && altered.some && altered.all,
           "changes that alter no token, some and all: %u, %u and %u", altered.none, altered.some,
           altered.all);
    test_end();
}

/* ---- Other tables ---- */

/* The file of a set-up with another master and other blocks, and the same id. */
static struct file other_file(const struct call *set_up)
{
    struct call other = call_copy(set_up);
    chance_bytes(other.args[MASTER].bytes, other.args[MASTER].length);
    chance_bytes(other.args[BLOCKS].bytes, other.args[BLOCKS].length);
    struct file file = file_of(&other);
    call_free(&other);
    return file;
}

/* Two files whose cards are equal all along: "whatever sound tables". */
static void of_two_files(uint64_t version, uint64_t d)
{
    struct call set_up =
        file_set_up_call(version, B, d, 1 + chance_below(d), T, d + chance_below(d));
    struct file one = file_of(&set_up), other = other_file(&set_up);
    for (uint64_t spent = 0; spent <= T; spent++) {
        struct call a = file_call(&one, UPDATE), b = file_call(&other, UPDATE);
        expect(buffer_same(&one.card, &other.card) && !buffer_same(&one.table, &other.table),
               "equal cards, other tables");
        call_expect(&a, LEGBARO_OK, "accepted");
        call_expect(&b, LEGBARO_OK, "accepted");
        expect_silent(&one.book.numbers, &a, &b);
        expect_spent(&one, &a);
        expect_spent(&other, &b);
        call_free(&a);
        call_free(&b);
        for (enum kind kind = DRAW; spent < T && kind <= JUDGE; kind++) {
            file_do(&one, kind);
            file_do(&other, kind);
        }
    }
    file_end(&one);
    file_end(&other);
    call_free(&set_up);
}

static void other_tables(void)
{
    test_begin("updates on equal cards show a host the same, whatever the master and the table");
    for (uint64_t d = 1; d <= 12; d = tried_after(d, 5))
        of_two_files(any_version(), d);
    test_end();
}

/* ---- The sealed bytes ---- */

/* In how many reseals a bit of a record's sealed bytes was set, and in how many it was another than
 * in the reseal before. */
enum { RESEALS = 1000, LEAST = RESEALS * 2 / 5, MOST = RESEALS * 3 / 5 };

struct tally {
    unsigned set[SEALED_BITS], turned[SEALED_BITS];
};

static unsigned sealed_bit(const struct buffer *table, uint64_t i, unsigned bit)
{
    return record(table, i)[CLEAR_BYTES + bit / 8] >> bit % 8 & 1;
}

static void count_bits(struct tally *tally, const struct buffer *before, const struct buffer *after,
                       uint64_t i)
{
    for (unsigned bit = 0; bit < SEALED_BITS; bit++) {
        unsigned now = sealed_bit(after, i, bit);
        tally->set[bit] += now;
        tally->turned[bit] += now ^ sealed_bit(before, i, bit);
    }
}

static int between(unsigned least, unsigned x, unsigned most)
{
    return least <= x && x <= most;
}

/* No bit is constant, nor near it, and none follows from the one that it takes the place of. */
static void expect_unrelated(const struct tally *tally, uint64_t i)
{
    for (unsigned bit = 0; bit < SEALED_BITS; bit++)
        expect(between(LEAST, tally->set[bit], MOST) && between(LEAST, tally->turned[bit], MOST),
               "record %llu, sealed bit %u: set in %u reseals and turned in %u",
               (unsigned long long)i, bit, tally->set[bit], tally->turned[bit]);
}

/* Whether token i covers block m: an update of m that alters the block leaves another record than
 * one that does not. */
static int covers(const struct file *file, uint64_t m, uint64_t i)
{
    struct call same = unaltered(file, m), other = file_block_call(file, UPDATE, m);
    call_expect(&same, LEGBARO_OK, "accepted");
    call_expect(&other, LEGBARO_OK, "accepted");
    int answer = !same_bytes(&same, &other, i, LEGBARO_RECORD_BYTES);
    call_free(&same);
    call_free(&other);
    return answer;
}

/* One block is updated over and over, every other time to what it is. Some tokens cover it and some
 * do not. */
static void sealed_bytes(uint64_t version)
{
    enum { D = 2, M = 1, TOKENS = 12 };
    static struct tally tallies[TOKENS];
    memset(tallies, 0, sizeof tallies);
    struct file file = file_set_up(version, B, D, 1, TOKENS, D);
    unsigned covering = 0;
    for (uint64_t i = 1; i <= TOKENS; i++)
        covering += (unsigned)covers(&file, M, i);
    expect(0 < covering && covering < TOKENS,
           "tokens that cover a block and tokens that do not, %u of %d", covering, TOKENS);
    for (unsigned reseal = 0; reseal < RESEALS; reseal++) {
        struct buffer before = buffer_copy(&file.table);
        struct call update = reseal % 2 ? unaltered(&file, M) : file_block_call(&file, UPDATE, M);
        expect(file_run(&file, &update) == LEGBARO_OK, "accepted");
        for (uint64_t i = 1; i <= TOKENS; i++)
            count_bits(&tallies[i - 1], &before, &file.table, i);
        buffer_free(&before);
    }
    for (uint64_t i = 1; i <= TOKENS; i++)
        expect_unrelated(&tallies[i - 1], i);
    file_end(&file);
}

static void unrelated(void)
{
    test_begin("no sealed bit is constant over %d reseals, covering or not", RESEALS);
    sealed_bytes(any_version());
    test_end();
}

void test_indistinguishable(void)
{
    covering_or_not();
    other_tables();
    unrelated();
}
