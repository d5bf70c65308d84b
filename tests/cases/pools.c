/* Pooled replies: of every number of files, cut and broken in every way, and what the xor shows and
 * what not. */
#include "cases.h"

#include "support/chance.h"
#include "support/expect.h"
#include "support/pool_calls.h"

#include <string.h>

#define COUNT(array) (sizeof(array) / sizeof *(array))

/* Where a pooled reply has the xor, and its entries; an entry its record; and a single reply its
 * digest. */
enum {
    POOLED_XOR = 5,
    ENTRIES = 37,
    ENTRY = 75,
    ENTRY_RECORD = 12,
    REPLY_ID = 3,
    REPLY_DIGEST = 15
};

/* A pool of THREE has a card of each version. Under a memory checker one length in so many is
 * tried. */
enum { THREE = 3, LENGTHS = 7 };

/* Files of one master, each with a token drawn, the versions in turn; and of the first so many of
 * them the pooled judging and the pooling. */
static struct file files[POOL_ROOM];
static struct call judgings[POOL_ROOM + 1], poolings[POOL_ROOM + 1];

static void begin(void)
{
    const struct file *held[POOL_ROOM];
    struct buffer master = buffer_blank(LEGBARO_MASTER_BYTES);
    chance_bytes(master.bytes, master.length);
    test_begin("files of all versions for the pools");
    for (size_t e = 0; e < POOL_ROOM; e++) {
        files[e] = pool_file(&master, FIRST_VERSION + e % LAST_VERSION);
        held[e] = &files[e];
    }
    for (size_t count = 0; count <= POOL_ROOM; count++) {
        judgings[count] = pool_call(held, count);
        poolings[count] = pooling_call(held, count);
    }
    test_end();
    buffer_free(&master);
}

static void end(void)
{
    for (size_t e = 0; e < POOL_ROOM; e++)
        file_end(&files[e]);
    for (size_t count = 0; count <= POOL_ROOM; count++) {
        call_free(&judgings[count]);
        call_free(&poolings[count]);
    }
}

static struct call judging(size_t count)
{
    return call_copy(&judgings[count]);
}

static struct call pooling_of(size_t count)
{
    return call_copy(&poolings[count]);
}

/* Where card e of these lies. */
static size_t card_at(size_t e)
{
    size_t at = 0;
    while (e)
        at += files[--e].card.length;
    return at;
}

/* Expects cards to be as before but for the open tokens, which are 0: "Every verdict closes all
 * draws." */
static void expect_closed(const struct buffer *before, const struct buffer *after)
{
    struct buffer closed = buffer_copy(before);
    size_t offsets[POOL_ROOM], count = pool_cut(before, offsets);
    for (size_t e = 0; e < count; e++)
        buffer_put_number(&closed, offsets[e] + LEGBARO_CARD_OPEN, 4, 0);
    expect(buffer_same(&closed, after), "every draw closed, and nothing else changed");
    buffer_free(&closed);
}

/* Runs a pooled judging, and expects this number, and what it leaves of the cards. Frees the
 * call. */
static void judged(struct call *call, uint64_t number, const char *what)
{
    struct buffer before = buffer_copy(&call->args[CARDS]);
    call_expect(call, number, what);
    if (number == LEGBARO_OK || number == LEGBARO_REJECTED)
        expect_closed(&before, &call->args[CARDS]);
    else
        expect(buffer_same(&before, &call->args[CARDS]), "a refusal leaves every card");
    buffer_free(&before);
    call_free(call);
}

/* The judging of the first so many files with the reply that a pooling makes, which is expected to
 * be accepted. Frees the pooling. */
static struct call judging_with(struct call *pooling, size_t count)
{
    struct call call = judging(count);
    call_expect(pooling, LEGBARO_OK, "accepted");
    buffer_free(&call.args[REPLY]);
    call.args[REPLY] = buffer_copy(&pooling->args[POOLED]);
    call_free(pooling);
    return call;
}

/* ---- Sizes and cuts ---- */

/* "Two to sixteen drawn files" */
static void every_number(void)
{
    test_begin("pools of no file to %d, of all versions", POOL_ROOM);
    for (size_t count = 0; count <= POOL_ROOM; count++) {
        uint64_t number = count >= 2 && count <= 16 ? LEGBARO_OK : LEGBARO_BAD_POOL;
        struct call pooling = pooling_of(count), call = judging(count);
        call_finish(&pooling, number, "so many replies");
        judged(&call, number, "so many cards");
    }
    test_end();
}

/* A length field that is no card's, in any card: 2. In the last one a card's other length: 1 where
 * it is longer; where it is shorter what is left has a length field of 0, the high bytes of the
 * last counter issued: 2. */
static void length_fields(void)
{
    static const uint64_t none[] = {0, 1, 40, 42, 43, 60, 62, 63, 256 + 41, 256 + 61, UINT16_MAX};
    test_begin("length fields of every card in a pool");
    for (size_t count = 2; count <= THREE; count++) {
        for (size_t e = 0; e < count; e++)
            for (size_t i = 0; i < COUNT(none); i++) {
                struct call call = judging(count);
                buffer_put_number(&call.args[CARDS], card_at(e), 2, none[i]);
                judged(&call, LEGBARO_WRONG_HEADER, "a length field that is no card's");
            }
        int longer = files[count - 1].card.length == LEGBARO_CARD_BYTES;
        struct call call = judging(count);
        buffer_put_number(&call.args[CARDS], card_at(count - 1), 2, longer ? 61 : 41);
        judged(&call, longer ? LEGBARO_WRONG_LENGTH : LEGBARO_WRONG_HEADER,
               "the other length in the last card");
    }
    test_end();
}

/* What the first so many bytes of three cards come to: whole cards, a rest of them, or what is no
 * card after them. */
static uint64_t cut_number(size_t length)
{
    static const uint64_t whole[] = {LEGBARO_BAD_POOL, LEGBARO_BAD_POOL, LEGBARO_REJECTED,
                                     LEGBARO_OK};
    for (size_t e = 0; e <= THREE; e++)
        if (length == card_at(e))
            return whole[e];
    return length > card_at(THREE) + 1 ? LEGBARO_WRONG_HEADER : LEGBARO_WRONG_LENGTH;
}

static void every_length(void)
{
    test_begin("cards and pooled replies of every length");
    for (size_t length = 0; length <= card_at(THREE) + LEGBARO_CARD_BYTES;
         length = tried_after(length, LENGTHS)) {
        struct call call = judging(THREE);
        buffer_resize(&call.args[CARDS], length);
        judged(&call, cut_number(length), "cards of any length");
    }
    for (size_t length = 0; length <= 2 * LEGBARO_POOLED_BYTES(THREE);
         length = tried_after(length, LENGTHS)) {
        struct call call = judging(THREE), pooling = pooling_of(THREE);
        int fits = length == LEGBARO_POOLED_BYTES(THREE);
        buffer_resize(&call.args[REPLY], length);
        judged(&call, fits ? LEGBARO_OK : LEGBARO_REJECTED, "a pooled reply of any length");
        buffer_resize(&pooling.args[POOLED], length);
        call_finish(&pooling, fits ? LEGBARO_OK : LEGBARO_WRONG_LENGTH,
                    "room of any length for it");
    }
    test_end();
}

/* The first so many bytes of three replies, with room for a pooled reply of three. */
static void every_length_of_replies(void)
{
    static const uint64_t whole[] = {LEGBARO_BAD_POOL, LEGBARO_BAD_POOL, LEGBARO_WRONG_LENGTH,
                                     LEGBARO_OK};
    test_begin("replies to pool of every length");
    for (size_t length = 0; length <= THREE * LEGBARO_REPLY_BYTES;
         length = tried_after(length, LENGTHS)) {
        struct call pooling = pooling_of(THREE);
        buffer_resize(&pooling.args[REPLIES], length);
        uint64_t number = length % LEGBARO_REPLY_BYTES ? LEGBARO_WRONG_LENGTH
                                                       : whole[length / LEGBARO_REPLY_BYTES];
        call_finish(&pooling, number, "replies of any length");
    }
    test_end();
}

/* ---- What is wrong with a card ---- */

/* "an id that occurs twice (23)" */
static void ids(void)
{
    static const size_t counts[] = {2, 3, 16};
    test_begin("an id twice, at every two positions of a pool");
    for (size_t i = 0; i < COUNT(counts); i++)
        for (size_t b = 0; b < counts[i]; b++)
            for (size_t a = 0; a < b; a++) {
                struct call call = judging(counts[i]);
                memcpy(call.args[CARDS].bytes + card_at(b) + LEGBARO_CARD_ID,
                       files[a].book.numbers.id, LEGBARO_ID_BYTES);
                judged(&call, LEGBARO_BAD_POOL, "an id twice");
            }
    test_end();
}

/* "Any open of 0 is 9": with each card's alone */
static void not_drawn(void)
{
    test_begin("a card with no token drawn, at every position of a pool");
    for (size_t count = 2; count <= LEGBARO_MOST_POOLED; count++)
        for (size_t e = 0; e < count; e++) {
            struct call call = judging(count);
            buffer_put_number(&call.args[CARDS], card_at(e) + LEGBARO_CARD_OPEN, 4, 0);
            judged(&call, LEGBARO_NONE_OPEN, "one card not drawn");
        }
    test_end();
}

/* Xors bytes into others. */
static void mix(uint8_t *bytes, const uint8_t *others)
{
    for (int i = 0; i < TOKEN_BYTES; i++)
        bytes[i] ^= others[i];
}

/* The token drawn of a file, sealed again for a card that differs in its version alone: the record,
 * and its token for the one before's in the xor, are put into a pooled reply. */
static void reseal(struct buffer *reply, size_t e, uint64_t version)
{
    const struct book *book = &files[e].book;
    struct card other = book->numbers;
    uint8_t token[TOKEN_BYTES] = {0};
    struct buffer table = buffer_blank(files[e].table.length);
    other.version = version;
    reference_token(book->key, &book->numbers, files[e].table.bytes, other.open, token);
    mix(reply->bytes + POOLED_XOR, token);
    reference_fresh_records(book->key, &other, book->blocks, book->marks, other.open, other.open,
                            table.bytes);
    reference_token(book->key, &other, table.bytes, other.open, token);
    mix(reply->bytes + POOLED_XOR, token);
    memcpy(reply->bytes + ENTRIES + e * ENTRY + ENTRY_RECORD,
           table.bytes + (other.open - 1) * LEGBARO_RECORD_BYTES, LEGBARO_RECORD_BYTES);
    buffer_free(&table);
}

/* "Its version is 1, a record's its card's" */
static void versions(void)
{
    test_begin("records of another version than their card's, sound but for that");
    for (size_t e = 0; e < THREE; e++)
        for (uint64_t version = FIRST_VERSION; version <= LAST_VERSION; version++) {
            struct call call = judging(THREE);
            reseal(&call.args[REPLY], e, version);
            judged(&call, version == files[e].book.numbers.version ? LEGBARO_OK : LEGBARO_REJECTED,
                   "a record of a version");
        }
    test_end();
}

/* ---- What a pooled reply shows ---- */

/* The cause of a single reply of a pooling. */
static uint64_t cause_of(const struct call *pooling, size_t e)
{
    struct call cause = file_call(&files[e], CAUSE);
    memcpy(cause.args[REPLY].bytes, pooling->args[REPLIES].bytes + e * LEGBARO_REPLY_BYTES,
           LEGBARO_REPLY_BYTES);
    uint64_t number = call_compare(&cause);
    call_free(&cause);
    return LEGBARO_NUMBER(number);
}

/* Every byte of a single reply after its header, altered in one of the files: the pool is accepted
 * exactly where the single reply is. */
static void as_single(void)
{
    test_begin("pools of replies of which one is altered, beside single judging");
    for (size_t e = 0; e < THREE; e++)
        for (size_t at = REPLY_ID; at <= LEGBARO_REPLY_BYTES; at = tried_after(at, LENGTHS)) {
            struct call pooling = pooling_of(THREE);
            if (at < LEGBARO_REPLY_BYTES)
                pooling.args[REPLIES].bytes[e * LEGBARO_REPLY_BYTES + at] ^=
                    (uint8_t)(1 + chance_below(UINT8_MAX));
            int sound = cause_of(&pooling, e) == 0;
            struct call call = judging_with(&pooling, THREE);
            expect(sound == (at == LEGBARO_REPLY_BYTES), "the altered reply rejected");
            judged(&call, sound ? LEGBARO_OK : LEGBARO_REJECTED, "as the single reply");
        }
    test_end();
}

/* Alters the digest of every reply by any bits, the last one's so that all the differences cancel,
 * or do so but for one bit. */
static void alter_digests(struct buffer *replies, size_t count, int cancel)
{
    uint8_t difference[TOKEN_BYTES], sum[TOKEN_BYTES] = {0};
    for (size_t e = 0; e + 1 < count; e++) {
        chance_bytes(difference, sizeof difference);
        mix(replies->bytes + e * LEGBARO_REPLY_BYTES + REPLY_DIGEST, difference);
        mix(sum, difference);
    }
    sum[chance_below(TOKEN_BYTES)] ^= (uint8_t)(cancel ? 0 : 1u << chance_below(8));
    mix(replies->bytes + (count - 1) * LEGBARO_REPLY_BYTES + REPLY_DIGEST, sum);
}

/* What the xor gives up: no single reply would be accepted, and the pool is where their differences
 * cancel. */
static void cancelling(void)
{
    test_begin("wrong digests whose differences cancel, or all but one bit of them");
    for (size_t count = 2; count <= LEGBARO_MOST_POOLED; count++)
        for (int cancel = 0; cancel <= 1; cancel++) {
            struct call pooling = pooling_of(count);
            alter_digests(&pooling.args[REPLIES], count, cancel);
            for (size_t e = 0; e < count; e++)
                expect(cause_of(&pooling, e) == LEGBARO_CAUSE_DIGEST, "every single digest wrong");
            struct call call = judging_with(&pooling, count);
            judged(&call, cancel ? LEGBARO_OK : LEGBARO_REJECTED, "wrong digests");
        }
    test_end();
}

/* "for each card in turn": cards in another order than the replies', and both in the same order */
static void orders(void)
{
    static const size_t others[][THREE] = {{0, 2, 1}, {1, 0, 2}, {1, 2, 0}, {2, 0, 1}, {2, 1, 0}};
    test_begin("cards and replies in every order");
    for (size_t i = 0; i < COUNT(others); i++) {
        const struct file *turned[THREE];
        for (size_t e = 0; e < THREE; e++)
            turned[e] = &files[others[i][e]];
        struct call same = pool_call(turned, THREE), call = judging(THREE);
        memcpy(call.args[REPLY].bytes, same.args[REPLY].bytes, same.args[REPLY].length);
        judged(&same, LEGBARO_OK, "both in one order");
        judged(&call, LEGBARO_REJECTED, "each in an order of its own");
    }
    test_end();
}

void test_pools(void)
{
    begin();
    every_number();
    length_fields();
    every_length();
    every_length_of_replies();
    ids();
    not_drawn();
    versions();
    as_single();
    cancelling();
    orders();
    end();
}
