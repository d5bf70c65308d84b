/* Damaged records: the number that code 7 gives, and records fetched again from that number on. */
#include "cases.h"

#include "support/chance.h"
#include "support/expect.h"
#include "support/files.h"

#include <string.h>

enum {
    B = 20,
    D = 5,
    R = 3,
    N = 4,
    SMALL_T = 5,
    MOST_T = 200,
    LARGER_FILES = 40,
    SETS_OF_EACH = 5
};

/* How a record is damaged: in a bit of its clear bytes, of its sealed token or of its tag; its
 * bytes are those from before the last change; or any of these, each record in its own way. */
enum damage { CLEAR_BYTES, SEALED_BYTES, TAG, OLDER, ANY };

static const struct {
    size_t at, length;
} parts[] = {[CLEAR_BYTES] = {0, 15}, [SEALED_BYTES] = {15, 32}, [TAG] = {47, 16}};

/* A file, and its table from before the last change. */
struct held {
    struct file file;
    struct buffer older;
};

/* A set of records: whether record i is in it. */
struct set {
    int has[MOST_T + 1];
};

static struct held begun(uint64_t version, uint64_t t)
{
    struct held held = {.file = file_set_up(version, B, D, R, t, N)};
    held.older = buffer_copy(&held.file.table);
    return held;
}

static void change(struct held *held)
{
    buffer_free(&held->older);
    held->older = buffer_copy(&held->file.table);
    file_do(&held->file, APPEND);
}

/* Spends the next token. */
static void spend(struct held *held)
{
    file_do(&held->file, DRAW);
    file_do(&held->file, JUDGE);
}

static void end(struct held *held)
{
    file_end(&held->file);
    buffer_free(&held->older);
}

static void damage_record(const struct held *held, struct buffer *table, uint64_t i,
                          enum damage how)
{
    size_t at = (i - 1) * LEGBARO_RECORD_BYTES;
    if (how == ANY)
        how = (enum damage)chance_below(ANY);
    if (how == OLDER)
        memcpy(table->bytes + at, held->older.bytes + at, LEGBARO_RECORD_BYTES);
    else
        buffer_flip(table, 8 * (at + parts[how].at) + chance_below(8 * parts[how].length));
}

/* The lowest unused record of a set, 0 for none. */
static uint64_t lowest_unused(const struct card *numbers, const struct set *set)
{
    for (uint64_t i = numbers->next; i <= numbers->t; i++)
        if (set->has[i])
            return i;
    return 0;
}

/* Puts the sound records from number i on into a table. */
static void fetch_again(struct buffer *table, const struct buffer *sound, uint64_t i)
{
    size_t at = (i - 1) * LEGBARO_RECORD_BYTES;
    memcpy(table->bytes + at, sound->bytes + at, sound->length - at);
}

/* Expects of an accepted change, asked or not, what the same change makes of the sound table, and
 * spent records, damaged or not, as they were before. */
static void expect_mended(const struct call *call, const struct call *sound,
                          const struct buffer *before, uint64_t next)
{
    size_t spent = (next - 1) * LEGBARO_RECORD_BYTES;
    enum argument written = is_ask(call->kind) ? SECOND : TABLE;
    expect(buffer_same(&call->args[CARD], &sound->args[CARD]),
           "the card of the change on the sound table");
    expect(memcmp(call->args[written].bytes + spent, sound->args[written].bytes + spent,
                  before->length - spent) == 0,
           "the unused records of the change on the sound table");
    expect(memcmp(call->args[written].bytes, before->bytes, spent) == 0,
           "spent records keep their bytes");
}

/* A change with the records of a set damaged: refused with the lowest unused one, if any, and
 * accepted once the records from that number on are fetched again. */
static void damaged_set(const struct held *held, enum kind kind, const struct set *set,
                        enum damage how)
{
    const struct card *numbers = &held->file.book.numbers;
    uint64_t lowest = lowest_unused(numbers, set);
    struct call sound = file_call(&held->file, kind), call = call_copy(&sound);
    for (uint64_t i = 1; i <= numbers->t; i++)
        if (set->has[i])
            damage_record(held, &call.args[TABLE], i, how);
    struct buffer before = buffer_copy(&call.args[TABLE]);
    call_expect(&sound, LEGBARO_OK, "the sound table");
    call_expect(&call, lowest ? LEGBARO_BAD_RECORD + 256 * lowest : LEGBARO_OK,
                "the lowest unused damaged record");
    if (lowest) {
        fetch_again(&call.args[TABLE], &held->file.table, lowest);
        call_expect(&call, LEGBARO_OK, "the records from that number on fetched again");
    }
    expect_mended(&call, &sound, &before, numbers->next);
    buffer_free(&before);
    call_free(&call);
    call_free(&sound);
}

/* The last kind of change that a file takes: in version 3 any may be asked. */
static enum kind last_change(const struct held *held)
{
    return held->file.book.numbers.version == LEGBARO_TWO_STEPS ? ASK_BATCH : BATCH;
}

static enum kind any_change(const struct held *held)
{
    return (enum kind)(UPDATE + chance_below((uint64_t)last_change(held) + 1 - UPDATE));
}

/* Every set of records of a small file: all of it damaged in each way, and in any way in each
 * change. */
static void every_set(const struct held *held)
{
    uint64_t t = held->file.book.numbers.t, step = t < 3 ? 1 : 1 << (t - 2);
    for (uint64_t bits = 0; bits < 1u << t; bits = tried_after(bits, step)) {
        struct set set = {{0}};
        for (uint64_t i = 1; i <= t; i++)
            set.has[i] = bits >> (i - 1) & 1;
        for (int how = 0; how < ANY; how++)
            damaged_set(held, any_change(held), &set, (enum damage)how);
        for (enum kind kind = UPDATE; kind <= last_change(held); kind++)
            damaged_set(held, kind, &set, ANY);
    }
}

/* With each number of tokens spent, from none to all. */
static void small_table(uint64_t version, uint64_t t)
{
    struct held held = begun(version, t);
    for (uint64_t next = 1; next <= t + 1; next++) {
        change(&held);
        every_set(&held);
        if (next <= t)
            spend(&held);
    }
    end(&held);
}

static void small_tables(void)
{
    for (uint64_t t = 1; t <= SMALL_T; t++) {
        test_begin("every set of damaged records in a table of %llu, fetched again from the "
                   "reported number",
                   (unsigned long long)t);
        for (uint64_t version = FIRST_VERSION; version <= LAST_VERSION; version++)
            small_table(version, t);
        test_end();
    }
}

/* Each record in the set with a chance of one in `bound`. */
static struct set any_set(uint64_t t, uint64_t bound)
{
    struct set set = {{0}};
    for (uint64_t i = 1; i <= t; i++)
        set.has[i] = chance_of(bound);
    return set;
}

static void larger_table(uint64_t t, uint64_t spent)
{
    struct held held = begun(any_version(), t);
    for (uint64_t i = 0; i < spent; i++)
        spend(&held);
    change(&held);
    for (int i = 0; i < SETS_OF_EACH; i++) {
        struct set set = any_set(t, 1 + chance_below(t));
        damaged_set(&held, any_change(&held), &set, ANY);
    }
    end(&held);
}

static void larger_tables(void)
{
    test_begin(
        "any set of damaged records in larger tables, fetched again from the reported number");
    for (uint64_t i = 0; i < LARGER_FILES; i = tried_after(i, 8)) {
        uint64_t t = SMALL_T + 1 + chance_below(MOST_T - SMALL_T);
        larger_table(t, chance_below(t / 4 + 1));
    }
    test_end();
}

void test_bad_records(void)
{
    small_tables();
    larger_tables();
}
