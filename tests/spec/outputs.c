/*
 * What the library gives, for tests/spec/judge.py to compare with docs/SPEC.md: lines of text on
 * standard output, numbers in decimal and bytes in hexadecimal, '-' for none.
 *
 *   vector NAME BYTES       section 15 of the page
 *   case ROLE MASTER CARD REPLY JUDGE CARD-AFTER CAUSE
 *                           a judgement: arguments, result, the card afterwards, and cause's result
 */
#include <stdio.h>
#include <string.h>

#include "legbaro.h"

enum { B = 4, D = 5, R = 3, T = 3, N = 7, TABLE = T * LEGBARO_RECORD_BYTES };

static uint8_t master[LEGBARO_MASTER_BYTES], id[LEGBARO_ID_BYTES], blocks[N * B], marks[N];
static uint8_t plan[LEGBARO_PLAN_BYTES], table[TABLE], totals[LEGBARO_TOTALS_BYTES];
static uint8_t card[LEGBARO_TWO_STEP_CARD_BYTES], message[LEGBARO_MESSAGE_BYTES];
static uint8_t reply[LEGBARO_REPLY_BYTES + 1];
static size_t card_bytes;

static void print_bytes(const uint8_t *bytes, size_t length)
{
    printf(length == 0 ? " -" : " ");
    for (size_t i = 0; i < length; i++)
        printf("%02x", bytes[i]);
}

static void vector(const char *name, const uint8_t *bytes, size_t length)
{
    printf("vector %s", name);
    print_bytes(bytes, length);
    putchar('\n');
}

static void judged(uint64_t role, size_t master_length, size_t card_length, size_t reply_length)
{
    uint8_t after[LEGBARO_TWO_STEP_CARD_BYTES];
    memcpy(after, card, sizeof after);
    uint64_t cause =
        legbaro_cause(role, master, master_length, card, card_length, reply, reply_length);
    uint64_t code =
        legbaro_judge(role, master, master_length, after, card_length, reply, reply_length);
    printf("case %d", (int)role);
    print_bytes(master, master_length);
    print_bytes(card, card_length);
    print_bytes(reply, reply_length);
    printf(" %d", (int)code);
    print_bytes(after, card_length);
    printf(" %d\n", (int)cause);
}

static void each_bit_altered(uint8_t *bytes, size_t length)
{
    for (size_t bit = 0; bit < 8 * length; bit++) {
        bytes[bit / 8] ^= (uint8_t)(1u << bit % 8);
        judged(LEGBARO_PLANNER, sizeof master, card_bytes, LEGBARO_REPLY_BYTES);
        bytes[bit / 8] ^= (uint8_t)(1u << bit % 8);
    }
}

/* A field of the card, set to each of some numbers. */
static void field(size_t offset, size_t width, const uint64_t *values, size_t count)
{
    uint8_t kept[8];
    memcpy(kept, card + offset, width);
    for (size_t v = 0; v < count; v++) {
        for (size_t i = 0; i < width; i++)
            card[offset + i] = (uint8_t)(values[v] >> 8 * (width - 1 - i));
        judged(LEGBARO_MANAGER, sizeof master, card_bytes, LEGBARO_REPLY_BYTES);
    }
    memcpy(card + offset, kept, width);
}

static void fields(int version)
{
    static const uint64_t of_B[] = {0, 1, 4096, 4097}, of_d[] = {0, 2, 3, 1048576, 1048577};
    static const uint64_t of_r[] = {0, 1, 5, 6, 512, 513}, of_t[] = {0, 1, 65536, 65537};
    static const uint64_t of_n[] = {0, 1, 16777216, 16777217}, of_open[] = {0, 1, 2, 3};
    static const uint64_t of_ctr[] = {0, 1, 2, 4294967295, 4294967296}, of_next[] = {0, 1, 2, 4, 5};
    field(LEGBARO_CARD_BLOCK_BYTES, 2, of_B, 4);
    field(LEGBARO_CARD_ROWS, 4, of_d, 5);
    field(LEGBARO_CARD_POSITIONS, 2, of_r, 6);
    field(LEGBARO_CARD_TOKENS, 4, of_t, 4);
    field(LEGBARO_CARD_BLOCKS, 4, of_n, 4);
    field(LEGBARO_CARD_COUNTER, 8, of_ctr, 5);
    field(LEGBARO_CARD_NEXT, 4, of_next, 5);
    field(LEGBARO_CARD_OPEN, 4, of_open, 4);
    if (version != LEGBARO_TWO_STEPS)
        return;
    field(LEGBARO_CARD_LAST_ISSUED, 8, of_ctr, 5);
    for (int open = 0; open <= 1; open++) /* something pending, with a token open and with none */
        for (int last = 1; last <= 2; last++)
            for (int count = 0; count <= 2 * N; count += N) {
                card[LEGBARO_CARD_OPEN + 3] = (uint8_t)open;
                card[LEGBARO_CARD_LAST_ISSUED + 7] = (uint8_t)last;
                card[LEGBARO_CARD_PENDING_BLOCKS + 3] = (uint8_t)count;
                field(LEGBARO_CARD_PENDING_COUNTER, 8, of_ctr, 5);
            }
    card[LEGBARO_CARD_OPEN + 3] = card[LEGBARO_CARD_LAST_ISSUED + 7] = 1;
    card[LEGBARO_CARD_PENDING_BLOCKS + 3] = 0;
}

static void audit(int version, void (*show)(const char *, const uint8_t *, size_t))
{
    static const uint8_t changed[B] = {0xde, 0xad, 0xbe, 0xef};
    size_t has_marks = version == LEGBARO_WITHOUT_MARKS ? 0 : 1;
    card_bytes = version == LEGBARO_TWO_STEPS ? LEGBARO_TWO_STEP_CARD_BYTES : LEGBARO_CARD_BYTES;
    for (int i = 0; i < N * B; i++)
        blocks[i] = (uint8_t)(i + 1);
    legbaro_set_up(master, sizeof master, id, sizeof id, (uint64_t)version, B, D, R, T, N, blocks,
                   sizeof blocks, card, card_bytes, table, TABLE, totals, sizeof totals);
    show("card-1", card, card_bytes);
    show("table-1", table, TABLE);
    show("totals-1", totals, sizeof totals);
    legbaro_update(LEGBARO_PLANNER, master, sizeof master, card, card_bytes, table, TABLE, 2,
                   blocks + B, B, marks, has_marks, changed, B, totals, sizeof totals);
    memcpy(blocks + B, changed, B);
    show("card-2", card, card_bytes);
    show("table-2", table, TABLE);
    show("totals-2", totals, sizeof totals);
    legbaro_draw(LEGBARO_PLANNER, master, sizeof master, card, card_bytes, message, sizeof message,
                 plan, sizeof plan, 2026, 11, 17, 600);
    show("card-3", card, card_bytes);
    show("message", message, sizeof message);
    legbaro_prove(message, sizeof message, blocks, sizeof blocks, marks, N * has_marks, table,
                  TABLE, reply, LEGBARO_REPLY_BYTES, totals, sizeof totals);
    show("reply", reply, LEGBARO_REPLY_BYTES);
    show("totals-4", totals, sizeof totals);
}

static void silent(const char *name, const uint8_t *bytes, size_t length)
{
    (void)name, (void)bytes, (void)length;
}

static void judgements(int version)
{
    audit(version, silent);
    for (uint64_t role = 0; role <= 4; role++)
        judged(role, sizeof master, card_bytes, LEGBARO_REPLY_BYTES);
    for (size_t length = 0; length <= sizeof reply; length++)
        judged(LEGBARO_PLANNER, sizeof master, card_bytes, length);
    for (size_t length = 0; length < sizeof card; length++)
        judged(LEGBARO_PLANNER, sizeof master, length, LEGBARO_REPLY_BYTES);
    judged(LEGBARO_PLANNER, sizeof master - 1, card_bytes, LEGBARO_REPLY_BYTES);
    judged(LEGBARO_SURVEYOR, sizeof master - 1, card_bytes - 1, 0);
    each_bit_altered(reply, LEGBARO_REPLY_BYTES);
    each_bit_altered(card, card_bytes);
    each_bit_altered(master, 1);
    fields(version);
}

static void small_examples(void)
{
    uint8_t sheet[LEGBARO_SHEET_BYTES], data[2] = {0x01, 0x02}, parity[2];
    legbaro_sheet(B, D, R, T, N, 1, sheet, sizeof sheet);
    vector("sheet", sheet, sizeof sheet);
    legbaro_parity_encode(1, 2, 2, data, sizeof data, parity, sizeof parity);
    vector("parity", parity, sizeof parity);
}

int main(void)
{
    for (int i = 0; i < LEGBARO_MASTER_BYTES; i++)
        master[i] = (uint8_t)i;
    for (int i = 0; i < LEGBARO_ID_BYTES; i++)
        id[i] = (uint8_t)(0xa0 + i);
    for (int day = 0; day < 7; day++) /* from 0 to 1439 on each day */
        plan[4 * day + 2] = 0x05, plan[4 * day + 3] = 0x9f;
    audit(LEGBARO_WITH_MARKS, vector);
    small_examples();
    for (int version = LEGBARO_WITHOUT_MARKS; version <= LEGBARO_TWO_STEPS; version++)
        judgements(version);
    return 0;
}
