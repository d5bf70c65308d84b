/* Every single-bit change of what the calls read. */
#include "cases.h"

#include "support/chance.h"
#include "support/expect.h"
#include "support/files.h"
#include "support/pool_calls.h"

/* Under a memory checker one bit in so many is flipped. */
enum { B = 28, D = 5, R = 5, T = 3, BITS = 7 };

/* A call of a kind on the file with one bit of a buffer flipped. Answers its number. */
static uint64_t with_bit(const struct file *file, enum kind kind, enum argument argument,
                         size_t bit)
{
    struct call call = file_call(file, kind);
    buffer_flip(&call.args[argument], bit);
    uint64_t number = call_compare(&call);
    call_free(&call);
    return number;
}

/* Every bit of a file's card, in the calls of some kinds. */
static void card_bits(const struct file *file, enum kind first, enum kind last)
{
    for (enum kind kind = first; kind <= last; kind++)
        for (size_t bit = 0; bit < 8 * file->card.length; bit = tried_after(bit, BITS))
            with_bit(file, kind, CARD, bit);
}

/* In every call that reads a card. `judging` has a token drawn, `settling` in version 3 a change
 * pending, `changing` neither. */
static void all_card_bits(const struct file *changing, const struct file *judging,
                          const struct file *settling)
{
    test_begin("every bit of a card, in every call that reads it");
    card_bits(changing, UPDATE, ASK_BATCH);
    card_bits(settling, COMMIT, DROP);
    card_bits(settling, DRAW, DRAW);
    card_bits(changing, DRAW, DRAW);
    card_bits(judging, JUDGE, CAUSE);
    test_end();
}

/* Every bit of the table: of a spent record none matters, of an unused one each gives code 7 and
 * its number. */
static void record_bits(const struct file *changing, enum kind kind)
{
    test_begin("every bit of every token record, in an %s", call_name(kind));
    for (size_t bit = 0; bit < 8 * T * LEGBARO_RECORD_BYTES; bit = tried_after(bit, BITS)) {
        uint64_t i = bit / (8 * LEGBARO_RECORD_BYTES) + 1;
        uint64_t number = with_bit(changing, kind, TABLE, bit);
        expect(number ==
                   (i < changing->book.numbers.next ? LEGBARO_OK : LEGBARO_BAD_RECORD + 256 * i),
               "record %llu, bit %lu", (unsigned long long)i, (unsigned long)bit);
    }
    test_end();
}

/* What a batch with one bit flipped may return, where that is certain: a kind with any bit flipped
 * is none of the two, a mark may be 0 or 1, and any old and new bytes are taken. */
static int item_number_fits(const struct file *file, size_t bit, uint64_t number)
{
    size_t at = bit / 8 % file_item_at(file, 1, 0);
    int mark = file->book.numbers.version != LEGBARO_WITHOUT_MARKS && at == LEGBARO_ITEM_MARK(B);
    if (at == LEGBARO_ITEM_KIND)
        return number == LEGBARO_BAD_BATCH;
    if (mark && bit % 8 != 0)
        return number == LEGBARO_BAD_MARK;
    return at < LEGBARO_ITEM_OLD || number == LEGBARO_OK;
}

static void item_bits(const struct file *changing)
{
    static const uint64_t blocks[] = {1, 4, 5};
    test_begin("every bit of a batch");
    struct call batch = file_batch_of(changing, blocks, sizeof blocks / sizeof *blocks);
    for (size_t bit = 0; bit < 8 * batch.args[ITEMS].length; bit = tried_after(bit, BITS)) {
        struct call call = call_copy(&batch);
        buffer_flip(&call.args[ITEMS], bit);
        expect(item_number_fits(changing, bit, call_compare(&call)), "bit %lu of the items",
               (unsigned long)bit);
        call_free(&call);
    }
    call_free(&batch);
    test_end();
}

/* Every bit of a reply that is accepted as it is: rejected. */
static void reply_bits(const struct file *judging)
{
    test_begin("every bit of a reply");
    for (size_t bit = 0; bit < 8 * LEGBARO_REPLY_BYTES; bit = tried_after(bit, BITS))
        expect(with_bit(judging, JUDGE, REPLY, bit) == LEGBARO_REJECTED,
               "a reply with bit %lu flipped is rejected", (unsigned long)bit);
    test_end();
}

/* Every bit of a message, of the blocks, of the marks and of the table, in a proof. A mark may be 0
 * or 1. The table is copied unread. */
static void proof_bits(const struct file *judging)
{
    size_t marks =
        judging->book.numbers.version == LEGBARO_WITHOUT_MARKS ? 0 : judging->book.numbers.n;
    test_begin("every bit of a message, of the blocks, of the marks and of the table in a proof");
    for (size_t bit = 0; bit < 8 * marks; bit = tried_after(bit, BITS))
        expect(with_bit(judging, PROVE, MARKS, bit) ==
                   (bit % 8 == 0 ? LEGBARO_OK : LEGBARO_BAD_MARK),
               "bit %lu of the marks", (unsigned long)bit);
    for (size_t bit = 0; bit < 8 * LEGBARO_MESSAGE_BYTES; bit = tried_after(bit, BITS))
        with_bit(judging, PROVE, MESSAGE, bit);
    for (size_t bit = 0; bit < 8 * B * judging->book.numbers.n; bit = tried_after(bit, BITS))
        with_bit(judging, PROVE, BLOCKS, bit);
    for (size_t bit = 0; bit < 8 * T * LEGBARO_RECORD_BYTES; bit = tried_after(bit, BITS))
        with_bit(judging, PROVE, TABLE, bit);
    test_end();
}

/* Every bit of a schedule, in a draw and in a wait. */
static void plan_bits(const struct file *changing)
{
    test_begin("every bit of a schedule");
    for (size_t bit = 0; bit < 8 * LEGBARO_PLAN_BYTES; bit = tried_after(bit, BITS)) {
        struct call wait = file_call(changing, DRAW);
        with_bit(changing, DRAW, PLAN, bit);
        wait.kind = WAIT;
        buffer_flip(&wait.args[PLAN], bit);
        call_compare(&wait);
        call_free(&wait);
    }
    test_end();
}

/* Every bit of the master: no unused record opens, and no reply is accepted. */
static void master_bits(const struct file *changing, const struct file *judging)
{
    test_begin("every bit of the master");
    for (size_t bit = 0; bit < 8 * LEGBARO_MASTER_BYTES; bit = tried_after(bit, BITS)) {
        expect(with_bit(changing, APPEND, MASTER, bit) ==
                   LEGBARO_BAD_RECORD + 256 * changing->book.numbers.next,
               "the first unused record does not open");
        expect(with_bit(judging, JUDGE, MASTER, bit) == LEGBARO_REJECTED, "the reply is rejected");
        expect(with_bit(judging, CAUSE, MASTER, bit) == LEGBARO_OK + 256 * LEGBARO_CAUSE_TAG,
               "the record does not open");
    }
    test_end();
}

/* A call with each bit of one of its buffers flipped: each is rejected, where that is certain. */
static void call_bits(const struct call *sound, enum argument argument, int rejected)
{
    for (size_t bit = 0; bit < 8 * sound->args[argument].length; bit = tried_after(bit, BITS)) {
        struct call call = call_copy(sound);
        buffer_flip(&call.args[argument], bit);
        uint64_t number = call_compare(&call);
        expect(!rejected || number == LEGBARO_REJECTED,
               "a pooled reply rejected with bit %lu flipped", (unsigned long)bit);
        call_free(&call);
    }
}

/* Every bit of a pooled reply that is accepted as it is, of the master, of its cards, one of each
 * version, and of the replies to pool. */
static void pool_bits(void)
{
    test_begin(
        "every bit of a pooled reply, of the master, of its cards, and of the replies to pool");
    struct buffer master = buffer_blank(LEGBARO_MASTER_BYTES);
    struct file files[] = {pool_file(&master, 1), pool_file(&master, 2), pool_file(&master, 3)};
    const struct file *pool[] = {&files[0], &files[1], &files[2]};
    struct call call = pool_call(pool, 3), pooling = pooling_call(pool, 3);
    call_bits(&call, REPLY, 1);
    call_bits(&call, MASTER, 1);
    call_bits(&call, CARDS, 0);
    call_bits(&pooling, REPLIES, 0);
    call_free(&call);
    call_free(&pooling);
    for (int e = 0; e < 3; e++)
        file_end(&files[e]);
    buffer_free(&master);
    test_end();
}

static void version_bits(uint64_t version)
{
    test_begin("files of version %llu for the bits", (unsigned long long)version);
    struct file changing = file_set_up(version, B, D, R, T, D),
                judging = file_set_up(version, B, D, R, T, D);
    struct file settling = file_set_up(version, B, D, R, T, D);
    file_do(&settling, UPDATE);
    if (version == LEGBARO_TWO_STEPS)
        file_do(&settling, ASK_APPEND);
    file_audit(&changing);
    file_do(&changing, APPEND);
    file_do(&judging, APPEND);
    file_do(&judging, DELETE);
    file_do(&judging, DRAW);
    test_end();
    all_card_bits(&changing, &judging, &settling);
    record_bits(&changing, UPDATE);
    if (version == LEGBARO_TWO_STEPS)
        record_bits(&changing, ASK_UPDATE);
    item_bits(&changing);
    plan_bits(&changing);
    reply_bits(&judging);
    proof_bits(&judging);
    master_bits(&changing, &judging);
    file_end(&changing);
    file_end(&judging);
    file_end(&settling);
}

void test_bit_flips(void)
{
    for (uint64_t version = FIRST_VERSION; version <= LAST_VERSION; version++)
        version_bits(version);
    pool_bits();
}
