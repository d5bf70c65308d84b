/*
 * The library against the reference implementation: any bytes as any calls.
 *
 * The bytes name up to CALLS calls, one after the other on the same file. Each call has a kind, its
 * numbers, and where each of its buffers comes from: the file's own, that with another length or
 * with a byte changed, or bytes of the input. Both implementations make the call; where a number or
 * a byte differs, or a byte around a buffer is written, the program aborts.
 */
#include "support/calls.h"
#include "support/expect.h"

#include <stdarg.h>
#include <stdio.h>
#include <stdlib.h>
#include <string.h>

/* The file: B, d, r, t and n, and the group of its parity: data and parity blocks. */
enum { BYTES = 4, ROWS = 5, DRAWN = 3, TOKENS = 3, COUNT = 7, DATA = 3, PARITY = 2 };
enum { CALLS = 12, MOST_LENGTH = 512, FILES = 2 };

void expect(int holds, const char *what, ...)
{
    va_list values;
    if (holds)
        return;
    va_start(values, what);
    fputs("expected ", stderr);
    vfprintf(stderr, what, values);
    fputc('\n', stderr);
    va_end(values);
    abort();
}

/* ---- The input ---- */

static struct {
    const uint8_t *at;
    size_t left;
} input;

static unsigned next_byte(void)
{
    if (!input.left)
        return 0;
    input.left--;
    return *input.at++;
}

static uint64_t next_number(unsigned width)
{
    uint64_t number = 0;
    while (width-- > 0)
        number = number << 8 | next_byte();
    return number;
}

/* A number: mostly the usual one, else one near it, or any. */
static uint64_t number_like(uint64_t usual)
{
    unsigned how = next_byte();
    if (how < 0xC0)
        return usual;
    return how < 0xE0 ? usual + how - 0xD0 : next_number(how < 0xF0 ? 2 : how < 0xF8 ? 4 : 8);
}

/* ---- The buffers that are right ---- */

/* What one file has, in each version: before a draw, and after it. */
struct base {
    struct buffer args[ARGUMENTS], drawn_card;
};
static struct base bases[LAST_VERSION + 1];

static struct call usual_call(enum kind kind, uint64_t version)
{
    struct call call = {.kind = kind,
                        .role = LEGBARO_PLANNER,
                        .version = version,
                        .B = BYTES,
                        .d = ROWS,
                        .r = DRAWN,
                        .t = TOKENS,
                        .n = COUNT,
                        .m = 1,
                        .year = 2026,
                        .month = 11,
                        .day = 23,
                        .minute = 630};
    if (kind == PARITY_ENCODE || kind == PARITY_REBUILD) {
        call.n = DATA;
        call.r = PARITY;
    }
    return call;
}

/* The length that a call of a kind takes of a buffer; of the others the file's own. */
static size_t usual_length(enum kind kind, enum argument argument, const struct base *base)
{
    if (argument == OUT)
        return kind == SHEET ? LEGBARO_SHEET_BYTES
                             : (kind == PARITY_ENCODE ? PARITY : DATA) * BYTES;
    if (argument == BLOCKS && (kind == LOAD || kind == ASK_LOAD))
        return 2 * BYTES;
    if (argument == BLOCKS && (kind == PARITY_ENCODE || kind == PARITY_REBUILD))
        return (kind == PARITY_ENCODE ? DATA : DATA + PARITY) * BYTES;
    if (argument == MARKS && kind != PROVE)
        return base->args[MARKS].length ? 1 : 0;
    if (argument == REPLY && kind == JUDGE_POOL)
        return LEGBARO_POOLED_BYTES(FILES);
    return base->args[argument].length;
}

/* Runs a call of a base on copies of its buffers, and keeps what it wrote. */
static void base_call(struct base *base, enum kind kind, uint64_t version)
{
    struct call call = usual_call(kind, version);
    for (int argument = 0; argument < ARGUMENTS; argument++)
        if (call_takes(kind, argument))
            call.args[argument] = buffer_copy(&base->args[argument]);
    expect(call_compare(&call) == LEGBARO_OK, "%s of the file", call_name(kind));
    for (int argument = 0; argument < ARGUMENTS; argument++)
        if (call_takes(kind, argument)) {
            buffer_free(&base->args[argument]);
            base->args[argument] = call.args[argument];
        }
}

/* Puts a file's part behind those of the files before it. */
static void gather(struct buffer *all, const struct buffer *part, int file)
{
    buffer_resize(all, (size_t)(file + 1) * part->length);
    memcpy(all->bytes + (size_t)file * part->length, part->bytes, part->length);
}

static void make_base(struct base *base, uint64_t version)
{
    const size_t lengths[ARGUMENTS] = {
        [MASTER] = LEGBARO_MASTER_BYTES,
        [ID] = LEGBARO_ID_BYTES,
        [BLOCKS] = COUNT * BYTES,
        [OLD] = BYTES,
        [NEW] = BYTES,
        [CARD] = version == LEGBARO_TWO_STEPS ? LEGBARO_TWO_STEP_CARD_BYTES : LEGBARO_CARD_BYTES,
        [TABLE] = TOKENS * LEGBARO_RECORD_BYTES,
        [SECOND] = TOKENS * LEGBARO_RECORD_BYTES,
        [MARKS] = version == LEGBARO_WITHOUT_MARKS ? 0 : COUNT,
        [ITEMS] = LEGBARO_ITEM_BYTES(version, BYTES),
        [MESSAGE] = LEGBARO_MESSAGE_BYTES,
        [PLAN] = LEGBARO_PLAN_BYTES,
        [REPLY] = LEGBARO_REPLY_BYTES,
        [TOTALS] = LEGBARO_TOTALS_BYTES,
        [LOST] = 1,
        [POOLED] = LEGBARO_POOLED_BYTES(FILES)};
    static const uint8_t item[] = {LEGBARO_ITEM_UPDATE, 0, 0, 0, 2};
    for (int argument = 0; argument < ARGUMENTS; argument++)
        base->args[argument] = buffer_blank(lengths[argument]);
    memset(base->args[MARKS].bytes, LEGBARO_LIVE, base->args[MARKS].length);
    memset(base->args[ITEMS].bytes, 0, base->args[ITEMS].length);
    memcpy(base->args[ITEMS].bytes, item, sizeof item);
    memset(base->args[PLAN].bytes, 0, LEGBARO_PLAN_BYTES);
    base->args[PLAN].bytes[2] = 4; /* Mondays from 0:00 to 17:04 */
    base->args[LOST].bytes[0] = 1;
    for (int file = FILES - 1; file >= 0; file--) {
        base->args[ID].bytes[0] = (uint8_t)('a' + file);
        base_call(base, SET_UP, version);
        struct buffer before = buffer_copy(&base->args[CARD]);
        base_call(base, DRAW, version);
        base_call(base, PROVE, version);
        base->drawn_card = buffer_copy(&base->args[CARD]);
        gather(&base->args[CARDS], &base->drawn_card, FILES - 1 - file);
        gather(&base->args[REPLIES], &base->args[REPLY], FILES - 1 - file);
        buffer_free(&base->args[CARD]);
        base->args[CARD] = before;
    }
    base_call(base, POOL, version);
}

/* ---- The calls ---- */

/* The buffer of a call, by what the input says of it. */
static struct buffer next_buffer(const struct call *call, enum argument argument,
                                 const struct buffer *held, const struct base *base)
{
    unsigned how = next_byte();
    const struct buffer *from =
        &held[call->kind == JUDGE_POOL && argument == REPLY ? POOLED : argument];
    struct buffer b = buffer_copy(from);
    if (how < 0xF0)
        buffer_resize(&b, usual_length(call->kind, argument, base));
    if (how >= 0xC0 && how < 0xE0 && b.length)
        b.bytes[next_number(2) % b.length] ^= (uint8_t)(1 + next_byte() % 255);
    else if (how >= 0xE0 && how < 0xF0)
        buffer_resize(&b, next_number(2) % MOST_LENGTH);
    else if (how >= 0xF0)
        for (size_t i = 0; i < b.length; i++)
            b.bytes[i] = (uint8_t)next_byte();
    return b;
}

static struct call next_call(uint64_t version, const struct buffer *held, const struct base *base)
{
    struct call call = usual_call((enum kind)(next_byte() % KINDS), version);
    uint64_t *const numbers[] = {&call.role, &call.version, &call.B,   &call.d,
                                 &call.r,    &call.t,       &call.n,   &call.m,
                                 &call.year, &call.month,   &call.day, &call.minute};
    if (next_byte() & 1)
        for (size_t i = 0; i < sizeof numbers / sizeof *numbers; i++)
            *numbers[i] = number_like(*numbers[i]);
    for (int argument = 0; argument < ARGUMENTS; argument++)
        if (call_takes(call.kind, argument))
            call.args[argument] = next_buffer(&call, argument, held, base);
    return call;
}

/* What an accepted call wrote is the file's from then on: card, tables, message and reply. */
static void keep(struct call *call, uint64_t result, struct buffer *held)
{
    static const enum argument kept[] = {CARD, TABLE, SECOND, MESSAGE, REPLY};
    if (LEGBARO_CODE(result) == LEGBARO_OK || LEGBARO_CODE(result) == LEGBARO_REJECTED)
        for (size_t i = 0; i < sizeof kept / sizeof *kept; i++)
            if (call_takes(call->kind, kept[i]) && call->kind != JUDGE_POOL) {
                buffer_free(&held[kept[i]]);
                held[kept[i]] = buffer_copy(&call->args[kept[i]]);
            }
    if (call->kind == COMMIT && result == LEGBARO_OK) {
        buffer_free(&held[TABLE]);
        held[TABLE] = buffer_copy(&held[SECOND]);
    }
}

int LLVMFuzzerInitialize(int *count, char ***given)
{
    (void)count;
    (void)given;
    reference_start();
    for (uint64_t version = FIRST_VERSION; version <= LAST_VERSION; version++)
        make_base(&bases[version], version);
    return 0;
}

int LLVMFuzzerTestOneInput(const uint8_t *bytes, size_t length)
{
    struct buffer held[ARGUMENTS];
    input.at = bytes;
    input.left = length;
    unsigned first = next_byte();
    uint64_t version = FIRST_VERSION + first % LAST_VERSION;
    const struct base *base = &bases[version];
    for (int argument = 0; argument < ARGUMENTS; argument++)
        held[argument] = buffer_copy(argument == CARD && first & 0x80 ? &base->drawn_card
                                                                      : &base->args[argument]);
    for (int i = 0; i < CALLS && input.left; i++) {
        struct call call = next_call(version, held, base);
        keep(&call, call_compare(&call), held);
        call_free(&call);
    }
    for (int argument = 0; argument < ARGUMENTS; argument++)
        buffer_free(&held[argument]);
    return 0;
}
