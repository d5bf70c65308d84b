/* Why a reply is rejected: each cause alone and all sets of them, and no cause exactly where judge
 * accepts. */
#include "cases.h"

#include "support/chance.h"
#include "support/expect.h"
#include "support/files.h"

#include <string.h>

enum { B = 28, D = 5, R = 5, T = 4, N = 8, RANDOM_REPLIES = 3000 };

/* Where the parts of a reply begin. */
enum {
    REPLY_ID = 3,
    REPLY_TOKEN = 11,
    REPLY_DIGEST = 15,
    RECORD = 47,
    RECORD_COUNTER = RECORD + 3,
    RECORD_TOKEN = RECORD + 11,
    RECORD_SEALED = RECORD + 15,
    RECORD_TAG = RECORD + 47
};

/* A part, and the cause that a change of its bytes is. */
static const struct part {
    size_t at, length;
    uint64_t cause;
} parts[] = {
    {0, REPLY_ID, LEGBARO_CAUSE_HEADER},
    {REPLY_ID, LEGBARO_ID_BYTES, LEGBARO_CAUSE_NAME},
    {REPLY_TOKEN, 4, LEGBARO_CAUSE_NAME},
    {REPLY_DIGEST, TOKEN_BYTES, LEGBARO_CAUSE_DIGEST},
    {RECORD, RECORD_COUNTER - RECORD, LEGBARO_CAUSE_HEADER},
    {RECORD_COUNTER, 8, LEGBARO_CAUSE_COUNTER},
    {RECORD_TOKEN, 4, LEGBARO_CAUSE_NAME},
    {RECORD_SEALED, TOKEN_BYTES, LEGBARO_CAUSE_TAG},
    {RECORD_TAG, 16, LEGBARO_CAUSE_TAG},
};

enum { PARTS = sizeof parts / sizeof *parts };

/* A file with a token drawn, after changes and spent tokens. */
static struct file drawn(uint64_t version)
{
    struct file file = file_set_up(version, B, D, R, T, N);
    file_do(&file, APPEND);
    file_audit(&file);
    file_do(&file, DELETE);
    file_do(&file, DRAW);
    return file;
}

/* The cause of a reply, which is compared; and judge accepts exactly where there is none. */
static uint64_t cause_of(const struct file *file, const struct buffer *reply)
{
    struct call cause = {.kind = CAUSE, .role = any_permitted(CAUSE)};
    cause.args[MASTER] = buffer_copy(&file->master);
    cause.args[CARD] = buffer_copy(&file->card);
    cause.args[REPLY] = buffer_copy(reply);
    struct call judge = call_copy(&cause);
    judge.kind = JUDGE;
    uint64_t number = call_compare(&cause), verdict = call_compare(&judge);
    expect(LEGBARO_CODE(number) == LEGBARO_OK && LEGBARO_NUMBER(number) <= LEGBARO_CAUSE_DIGEST,
           "a cause");
    expect(verdict == (LEGBARO_NUMBER(number) == 0 ? LEGBARO_OK : LEGBARO_REJECTED),
           "no cause exactly where judge accepts");
    call_free(&cause);
    call_free(&judge);
    return LEGBARO_NUMBER(number);
}

static void expect_cause(const struct file *file, const struct buffer *reply, uint64_t cause,
                         const char *what)
{
    uint64_t found = cause_of(file, reply);
    expect(found == cause, "%s: cause %llu, not %llu", what, (unsigned long long)cause,
           (unsigned long long)found);
}

/* The reply of an honest host. */
static struct buffer honest(const struct file *file)
{
    struct call judge = file_call(file, JUDGE);
    struct buffer reply = buffer_copy(&judge.args[REPLY]);
    call_free(&judge);
    return reply;
}

/* ---- One cause and several ---- */

static void every_bit(const struct file *file)
{
    struct buffer reply = honest(file);
    expect_cause(file, &reply, 0, "an honest reply");
    for (int p = 0; p < PARTS; p++)
        for (size_t bit = 8 * parts[p].at; bit < 8 * (parts[p].at + parts[p].length);
             bit = tried_after(bit, 5)) {
            buffer_flip(&reply, bit);
            expect_cause(file, &reply, parts[p].cause, "one bit flipped");
            buffer_flip(&reply, bit);
        }
    buffer_free(&reply);
}

/* Every length up to twice a reply's; the bytes are those of an honest reply, as far as it goes. */
static void every_length(const struct file *file)
{
    struct buffer sound = honest(file);
    for (size_t length = 0; length <= 2 * LEGBARO_REPLY_BYTES; length = tried_after(length, 5)) {
        struct buffer reply = buffer_copy(&sound);
        buffer_resize(&reply, length);
        expect_cause(file, &reply, length == LEGBARO_REPLY_BYTES ? 0 : LEGBARO_CAUSE_SIZE,
                     "another length");
        buffer_free(&reply);
    }
    buffer_free(&sound);
}

/* Alters a byte in each part of a set, and answers the first cause of these. */
static uint64_t alter(struct buffer *reply, uint64_t set)
{
    uint64_t first = 0;
    for (int p = 0; p < PARTS; p++)
        if (set >> p & 1) {
            reply->bytes[parts[p].at + chance_below(parts[p].length)] ^=
                (uint8_t)(1 + chance_below(255));
            first = first == 0 || parts[p].cause < first ? parts[p].cause : first;
        }
    return first;
}

/* Every set of parts altered, each in any of its bytes, and with it a length that is right, shorter
 * or longer. */
static void every_set(const struct file *file)
{
    static const size_t lengths[] = {LEGBARO_REPLY_BYTES, LEGBARO_REPLY_BYTES - 1,
                                     LEGBARO_REPLY_BYTES + 1};
    struct buffer sound = honest(file);
    for (uint64_t set = 0; set < 1u << PARTS; set = tried_after(set, 5))
        for (size_t l = 0; l < sizeof lengths / sizeof *lengths; l++) {
            struct buffer reply = buffer_copy(&sound);
            uint64_t first = alter(&reply, set);
            buffer_resize(&reply, lengths[l]);
            expect_cause(file, &reply,
                         lengths[l] == LEGBARO_REPLY_BYTES ? first : LEGBARO_CAUSE_SIZE,
                         "the first of some causes");
            buffer_free(&reply);
        }
    buffer_free(&sound);
}

/* ---- What hosts do ---- */

/* The host's proof from the message drawn last, with one byte of a buffer altered. */
static struct buffer proved_with(const struct file *file, enum argument argument, size_t at)
{
    struct call proof = file_call(file, PROVE);
    proof.args[argument].bytes[at] ^= 1;
    call_expect(&proof, LEGBARO_OK, "accepted");
    struct buffer reply = buffer_copy(&proof.args[REPLY]);
    call_free(&proof);
    return reply;
}

/* A lost block, a lost mark, a damaged record. */
static void damaged_host(const struct file *file)
{
    struct buffer reply = proved_with(file, BLOCKS, 3);
    expect_cause(file, &reply, LEGBARO_CAUSE_DIGEST, "a block altered");
    buffer_free(&reply);
    if (file->book.numbers.version != LEGBARO_WITHOUT_MARKS) {
        reply = proved_with(file, MARKS, 1);
        expect_cause(file, &reply, LEGBARO_CAUSE_DIGEST, "a mark altered");
        buffer_free(&reply);
    }
    reply = proved_with(file, TABLE, (file->book.numbers.open - 1) * LEGBARO_RECORD_BYTES + 20);
    expect_cause(file, &reply, LEGBARO_CAUSE_TAG, "a record altered");
    buffer_free(&reply);
}

/* The reply to the message before, the reply of another file, and that of a host with the table
 * from before the last change. */
static void wrong_answers(uint64_t version)
{
    struct file file = file_set_up(version, B, D, R, T, N), other = drawn(version);
    struct buffer older = buffer_copy(&file.table);
    file_do(&file, UPDATE);
    file_do(&file, DRAW);
    struct buffer before = honest(&file), another = honest(&other);
    file_do(&file, JUDGE);
    file_do(&file, DRAW);
    expect_cause(&file, &before, LEGBARO_CAUSE_NAME, "the reply to the message before");
    expect_cause(&file, &another, LEGBARO_CAUSE_NAME, "another file's reply");
    struct call proof = file_call(&file, PROVE);
    memcpy(proof.args[TABLE].bytes, older.bytes, older.length);
    call_expect(&proof, LEGBARO_OK, "accepted");
    expect_cause(&file, &proof.args[REPLY], LEGBARO_CAUSE_COUNTER,
                 "a table from before the last change");
    call_free(&proof);
    buffer_free(&before);
    buffer_free(&another);
    buffer_free(&older);
    file_end(&file);
    file_end(&other);
}

/* Replies of any bytes and any length, and honest ones with some bytes altered. */
static void random_replies(const struct file *file)
{
    struct buffer sound = honest(file);
    for (uint64_t i = 0; i < RANDOM_REPLIES; i = tried_after(i, 5)) {
        struct buffer reply = buffer_copy(&sound);
        if (chance_of(3))
            buffer_resize(&reply, chance_below(2 * LEGBARO_REPLY_BYTES));
        for (uint64_t altered = chance_below(4); altered && reply.length; altered--)
            reply.bytes[chance_below(reply.length)] = (uint8_t)chance();
        cause_of(file, &reply);
        buffer_free(&reply);
    }
    buffer_free(&sound);
}

static void causes(uint64_t version)
{
    test_begin("why a reply is rejected, version %llu", (unsigned long long)version);
    struct file file = drawn(version);
    every_bit(&file);
    every_length(&file);
    every_set(&file);
    damaged_host(&file);
    wrong_answers(version);
    random_replies(&file);
    file_end(&file);
    test_end();
}

void test_causes(void)
{
    for (uint64_t version = FIRST_VERSION; version <= LAST_VERSION; version++)
        causes(version);
}
