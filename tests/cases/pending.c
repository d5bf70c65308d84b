/* Cards of version 3: their sizes, and the limits of what is pending, at, below and above their
 * ends. */
#include "cases.h"

#include "support/chance.h"
#include "support/expect.h"
#include "support/files.h"

#define COUNT(array) (sizeof(array) / sizeof *(array))

enum { B = 28, D = 5, R = 3, T = 3, N = 6, NEXT = 2, CTR = 3, LONGEST_CARD = 70 };

/* ---- Sizes ---- */

static int is_size(size_t length)
{
    return length == LEGBARO_CARD_BYTES || length == LEGBARO_TWO_STEP_CARD_BYTES;
}

/* Calls of a kind with a card of every length, with the length field as it is or as the length
 * would have it: 1 for lengths that no card has, 2 for the other version's. */
static void every_size(const struct file *file, enum kind kind)
{
    struct call own = file_call(file, kind), again = call_copy(&own);
    size_t size = own.args[CARD].length;
    uint64_t number = call_compare(&again);
    for (size_t length = 0; length <= LONGEST_CARD; length++)
        for (int field = 0; field < (length < 2 ? 1 : 2); field++) {
            struct call call = call_copy(&own);
            buffer_resize(&call.args[CARD], length);
            if (field)
                buffer_put_number(&call.args[CARD], 0, 2, length - 2);
            call_finish(&call,
                        length == size    ? number
                        : is_size(length) ? LEGBARO_WRONG_HEADER
                                          : LEGBARO_WRONG_LENGTH,
                        "a card's size");
        }
    call_free(&own);
    call_free(&again);
}

/* A set-up with a card of some length. */
static void size_at_set_up(uint64_t version, uint64_t r, size_t length, uint64_t code)
{
    struct call call = file_set_up_call(version, B, D, r, T, N);
    buffer_resize(&call.args[CARD], length);
    call_finish(&call, code, "a card's size at set-up");
}

/* At set-up the other version's size is the later 1: a number outside its limits, r above d, comes
 * before. */
static void sizes_at_set_up(uint64_t version)
{
    size_t own = version == LEGBARO_TWO_STEPS ? LEGBARO_TWO_STEP_CARD_BYTES : LEGBARO_CARD_BYTES;
    for (size_t length = 0; length <= LONGEST_CARD; length++) {
        size_at_set_up(version, R, length, length == own ? LEGBARO_OK : LEGBARO_WRONG_LENGTH);
        size_at_set_up(version, D + 1, length,
                       is_size(length) ? LEGBARO_OUT_OF_LIMITS : LEGBARO_WRONG_LENGTH);
    }
}

static void sizes(uint64_t version)
{
    test_begin("every size of a card up to %d bytes, version %llu", LONGEST_CARD,
               (unsigned long long)version);
    struct file changing = file_set_up(version, B, D, R, T, N),
                judging = file_set_up(version, B, D, R, T, N);
    struct file settling = file_set_up(version, B, D, R, T, N);
    file_do(&judging, DRAW);
    if (version == LEGBARO_TWO_STEPS)
        file_do(&settling, ASK_LOAD);
    sizes_at_set_up(version);
    for (enum kind kind = UPDATE; kind <= CAUSE; kind++)
        every_size(kind == JUDGE || kind == CAUSE   ? &judging
                   : kind == COMMIT || kind == DROP ? &settling
                                                    : &changing,
                   kind);
    file_end(&changing);
    file_end(&judging);
    file_end(&settling);
    test_end();
}

/* ---- Limits ---- */

/* Values of the fields at, below and above their ends, and the numbers beside them that they are
 * measured by. */
struct fields {
    uint64_t ctr, n, open, last_issued, pending, pending_n;
};

enum {
    CTRS = 4,
    NS = 2,
    OPENS = 2,
    LASTS = 9,
    PENDINGS = 10,
    COUNTS = 9,
    CASES = CTRS * NS * OPENS * LASTS * PENDINGS * COUNTS
};

static struct fields fields_of(uint64_t number)
{
    const uint64_t most = LEGBARO_MOST_COUNTER, most_n = LEGBARO_MOST_BLOCKS;
    const uint64_t ctrs[CTRS] = {0, CTR, most - 1, most}, ns[NS] = {N, most_n},
                   opens[OPENS] = {0, NEXT - 1};
    struct fields f = {.ctr = ctrs[number % CTRS],
                       .n = ns[number / CTRS % NS],
                       .open = opens[number / CTRS / NS % OPENS]};
    number /= CTRS * NS * OPENS;
    const uint64_t lasts[LASTS] = {0,        f.ctr - 1, f.ctr,    f.ctr + 1, f.ctr + 2,
                                   most - 1, most,      most + 1, UINT64_MAX};
    f.last_issued = lasts[number % LASTS];
    number /= LASTS;
    const uint64_t pendings[PENDINGS] = {
        0,    1,        f.ctr,     f.ctr + 1, f.last_issued - 1, f.last_issued, f.last_issued + 1,
        most, most + 1, UINT64_MAX};
    f.pending = pendings[number % PENDINGS];
    const uint64_t counts[COUNTS] = {0,          1,      f.n - 1,    f.n,       f.n + 1,
                                     most_n - 1, most_n, most_n + 1, UINT32_MAX};
    f.pending_n = counts[number / PENDINGS];
    return f;
}

/* "Last issued is from ctr to ctr's most; a pending counter equals it and exceeds ctr, with a count
 * from n to n's most and open 0"; "both 0 for none" */
static int fit(const struct fields *f)
{
    int none = f->pending == 0 && f->pending_n == 0;
    int sound = f->pending == f->last_issued && f->pending > f->ctr && f->pending_n >= f->n &&
                f->pending_n <= LEGBARO_MOST_BLOCKS && f->open == 0;
    return f->ctr <= f->last_issued && f->last_issued <= LEGBARO_MOST_COUNTER && (none || sound);
}

/* What a call returns on a card with these fields, the file's counter being CTR. */
static uint64_t number_of(enum kind kind, const struct fields *f)
{
    if (!fit(f))
        return LEGBARO_OUT_OF_LIMITS;
    if (kind == COMMIT || kind == DROP)
        return f->pending ? LEGBARO_OK : LEGBARO_NONE_PENDING;
    if (kind == JUDGE)
        return f->open ? LEGBARO_REJECTED : LEGBARO_NONE_OPEN;
    if (f->open)
        return LEGBARO_TOKEN_OPEN;
    if (f->pending)
        return LEGBARO_CHANGE_PENDING;
    if (kind == DRAW)
        return LEGBARO_OK;
    if (f->last_issued == LEGBARO_MOST_COUNTER)
        return LEGBARO_COUNTER_AT_MOST;
    return f->ctr == CTR ? LEGBARO_OK : LEGBARO_BAD_RECORD + 256 * NEXT;
}

static void with_fields(const struct file *file, enum kind kind, const struct fields *f)
{
    struct call call = file_call(file, kind);
    struct buffer *card = &call.args[CARD];
    buffer_put_number(card, LEGBARO_CARD_COUNTER, 8, f->ctr);
    buffer_put_number(card, LEGBARO_CARD_BLOCKS, 4, f->n);
    buffer_put_number(card, LEGBARO_CARD_OPEN, 4, f->open);
    buffer_put_number(card, LEGBARO_CARD_LAST_ISSUED, 8, f->last_issued);
    buffer_put_number(card, LEGBARO_CARD_PENDING_COUNTER, 8, f->pending);
    buffer_put_number(card, LEGBARO_CARD_PENDING_BLOCKS, 4, f->pending_n);
    call_finish(&call, number_of(kind, f), "what is pending");
}

/* A file with one token spent and the counter CTR. */
static void limits(void)
{
    static const enum kind kinds[] = {COMMIT, DROP, DRAW, JUDGE, UPDATE, ASK_UPDATE};
    test_begin(
        "last counter issued, pending counter and pending blocks at, below and above their ends");
    struct file file = file_set_up(LEGBARO_TWO_STEPS, B, D, R, T, N);
    file_audit(&file);
    for (int changes = 0; changes < CTR; changes++)
        file_do(&file, UPDATE);
    for (uint64_t number = 0; number < CASES; number = tried_after(number, 7)) {
        struct fields f = fields_of(number);
        for (size_t k = 0; k < COUNT(kinds); k++)
            with_fields(&file, kinds[k], &f);
    }
    file_end(&file);
    test_end();
}

void test_pending(void)
{
    for (uint64_t version = FIRST_VERSION; version <= LAST_VERSION; version++)
        sizes(version);
    limits();
}
