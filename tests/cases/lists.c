/* Random lists of calls. Each list is run on the library, on the reference implementation and on
 * the plain book; and no record of a list is sealed under a nonce that sealed another. */
#include "cases.h"

#include "support/chance.h"
#include "support/draw_times.h"
#include "support/expect.h"
#include "support/files.h"
#include "support/pool_calls.h"

#include <string.h>

enum {
    LONGEST = 40,
    LONGEST_CARD = 80,
    MOST_TOKENS = 6,
    MOST_LOADED = 40,
    MOST_NONCES = MOST_TOKENS * (1 + LONGEST)
};

/* Where a token record has its counter and its token number. */
enum { RECORD_COUNTER = 3, RECORD_TOKEN = 11 };

static const uint64_t rows[] = {1, 2, 4, 5, 16, 17};
static const uint64_t block_bytes[] = {1, 26, 27, 28, 90, 91, 92, 4096};

#define COUNT(array) (sizeof(array) / sizeof *(array))

/* Another length for a buffer: one less, one more, none, or anything up to twice as long. */
static void wrong_length(struct buffer *b)
{
    size_t other[] = {b->length ? b->length - 1 : 2, b->length + 1, 0,
                      chance_below(2 * b->length + 2)};
    buffer_resize(b, other[chance_below(COUNT(other))]);
}

static void flip_any_bit(struct buffer *b)
{
    if (b->length)
        buffer_flip(b, chance_below(8 * b->length));
}

/* A block number that the file does not have. */
static uint64_t no_such_block(const struct file *file)
{
    uint64_t n = file->book.numbers.n;
    uint64_t numbers[] = {0, n + 1, n + (UINT64_C(1) << 32), UINT64_MAX,
                          n + 1 + chance_below(1000)};
    return numbers[chance_below(COUNT(numbers))];
}

/* A byte that is no mark. */
static uint64_t no_mark(void)
{
    return LEGBARO_DELETED + 1 + chance_below(UINT8_MAX - LEGBARO_DELETED);
}

/* An item that no batch may have: of another kind, with a mark that is none, or with a block number
 * that the file does not have or the item before has. */
static void disturb_item(const struct file *file, struct buffer *items)
{
    size_t count = items->length / file_item_at(file, 1, 0), e = chance_below(count);
    size_t kind = file_item_at(file, e, LEGBARO_ITEM_KIND),
           block = file_item_at(file, e, LEGBARO_ITEM_BLOCK);
    uint64_t none[] = {0, file->book.numbers.n + 1, UINT32_MAX,
                       file->book.numbers.n + 1 + chance_below(1000)};
    if (file->book.numbers.version != LEGBARO_WITHOUT_MARKS && chance_of(4))
        buffer_put_number(items, file_item_at(file, e, LEGBARO_ITEM_MARK(file->book.numbers.B)), 1,
                          no_mark());
    else if (chance_of(3))
        buffer_put_number(items, kind, 1,
                          LEGBARO_ITEM_DELETE + 1 + chance_below(254 - LEGBARO_ITEM_DELETE));
    else if (e > 0 && chance_of(2))
        buffer_put_number(items, block, 4,
                          buffer_number(items, file_item_at(file, e - 1, LEGBARO_ITEM_BLOCK), 4));
    else
        buffer_put_number(items, block, 4, none[chance_below(COUNT(none))]);
}

/* Any schedule and any time: it may or may not allow it. At times there is no such date or minute,
 * or no such minute in the schedule. */
static void disturb_hours(struct call *call)
{
    struct when when = any_time();
    uint64_t *const numbers[] = {&when.year, &when.month, &when.day, &when.minute};
    if (chance_of(3))
        *numbers[chance_below(COUNT(numbers))] = chance_of(2) ? 0 : 29 + chance_below(5000);
    if (chance_of(4))
        schedule_window(&call->args[PLAN], (unsigned)chance_below(7), chance_below(1 << 16),
                        chance_below(1 << 16));
    call_at(call, &when);
}

/* Any bytes after a length field that says how many: as many as a card has, or any number. */
static struct buffer no_card(void)
{
    struct buffer b = buffer_blank(chance_of(2) ? reference_card_bytes(any_version())
                                                : 2 + chance_below(LONGEST_CARD));
    chance_bytes(b.bytes, b.length);
    buffer_put_number(&b, 0, 2, b.length - 2);
    return b;
}

/* A card with some of these: another version, no token drawn, the file's own id, a bit flipped
 * after the length field. */
static struct buffer another_card(const struct file *file, const uint8_t *card)
{
    struct card numbers = reference_read_card(card);
    if (chance_of(3))
        numbers.version = any_version();
    if (chance_of(3))
        numbers.open = 0;
    if (chance_of(3))
        memcpy(numbers.id, file->book.numbers.id, sizeof numbers.id);
    struct buffer other = buffer_blank(reference_card_bytes(numbers.version));
    reference_write_card(other.bytes, &numbers);
    if (chance_of(3))
        buffer_flip(&other, 8 * 2 + chance_below(8 * (other.length - 2)));
    return other;
}

/* Replaces one of the other cards of a pooled judging: "whatever else they hold" */
static void disturb_pool(const struct file *file, struct call *call)
{
    size_t offsets[POOL_ROOM], count = pool_cut(&call->args[CARDS], offsets);
    size_t at = offsets[chance_below(count)];
    if (at == call->card_offset)
        return;
    struct buffer other =
        chance_of(3) ? no_card() : another_card(file, call->args[CARDS].bytes + at);
    pool_put_card(call, at, &other);
    buffer_free(&other);
}

/* Any role, with permission or without, or a number that is none. */
static uint64_t any_role(void)
{
    static const uint64_t roles[] = {
        0, LEGBARO_SURVEYOR, LEGBARO_PLANNER, LEGBARO_MANAGER, LEGBARO_MANAGER + 1, UINT64_MAX};
    return chance_of(8) ? chance() : roles[chance_below(COUNT(roles))];
}

/* Something wrong in what a list may hold: any buffer but card and table, the master's bytes and a
 * block's present bytes and mark. */
static void disturb(const struct file *file, struct call *call)
{
    static const enum argument args[] = {MASTER, SECOND,  OLD,  MARKS, NEW,   BLOCKS,
                                         ITEMS,  MESSAGE, PLAN, REPLY, TOTALS};
    enum argument argument = args[chance_below(COUNT(args))];
    if (unasked(call->kind) == BATCH && chance_of(2))
        disturb_item(file, &call->args[ITEMS]);
    else if (call->kind == DRAW && chance_of(2))
        disturb_hours(call);
    else if (call->args[MARKS].length == 1 && chance_of(4))
        call->args[MARKS].bytes[0] = (uint8_t)no_mark();
    else if (chance_of(4))
        call->m = no_such_block(file);
    else if (call->kind == JUDGE_POOL && chance_of(2))
        disturb_pool(file, call);
    else if ((call->kind == JUDGE || call->kind == JUDGE_POOL) && chance_of(2))
        flip_any_bit(&call->args[REPLY]);
    else if (call_takes(call->kind, argument))
        wrong_length(&call->args[argument]);
}

/* Which call comes next, of a change whether or not it is asked: a drawn token is mostly judged, at
 * times in a pool, what is pending is mostly committed or dropped, and drawing is rarer than
 * changing. */
static enum kind next_kind(const struct file *file)
{
    static const enum kind changes[] = {UPDATE, DELETE, APPEND, LOAD, BATCH};
    if (file->book.numbers.open ? chance_of(2) : chance_of(20))
        return chance_of(4) ? JUDGE_POOL : JUDGE;
    if (file->book.numbers.pending ? !chance_of(4) : chance_of(20))
        return chance_of(2) ? COMMIT : DROP;
    return chance_of(5) ? DRAW : changes[chance_below(COUNT(changes))];
}

/* The most items of a batch on the file as it is. */
static uint64_t most_items(const struct file *file)
{
    uint64_t n = file->book.numbers.n;
    return n < LEGBARO_MOST_ITEMS ? n : LEGBARO_MOST_ITEMS;
}

/* A call on the file, in a pool with others where it is a pooled judging. */
static struct call call_on(const struct file *file, enum kind kind)
{
    return kind == JUDGE_POOL ? pool_among_others(file) : file_call(file, kind);
}

/* A call of the list with nothing wrong in it. A load or a batch has a few blocks or, at times,
 * many. An update may leave its block. */
static struct call next_in_one_step(const struct file *file)
{
    enum kind kind = next_kind(file);
    if (kind == LOAD && chance_of(4))
        return file_load_call(file, 1 + chance_below(MOST_LOADED));
    if (kind == BATCH && chance_of(4))
        return file_batch_call(file, 1 + chance_below(most_items(file)));
    struct call call = call_on(file, kind);
    if (kind == UPDATE && chance_of(5))
        for (size_t i = 0; i < call.args[NEW].length; i++)
            call.args[NEW].bytes[i] = call.args[OLD].bytes[i];
    return call;
}

/* Every second change of a file that takes changes in two steps is asked, and at times one of
 * another file, which is refused. */
static struct call next_call(const struct file *file)
{
    struct call call = next_in_one_step(file);
    if (!is_change(call.kind) ||
        !chance_of(file->book.numbers.version == LEGBARO_TWO_STEPS ? 2 : 20))
        return call;
    struct call ask = call_asked(&call);
    call_free(&call);
    return ask;
}

/* The nonces under which records of a list were sealed: a counter and a token number each. */
struct nonces {
    size_t count;
    uint64_t counters[MOST_NONCES], tokens[MOST_NONCES];
};

static int has_sealed(const struct nonces *nonces, uint64_t counter, uint64_t token)
{
    for (size_t e = 0; e < nonces->count; e++)
        if (nonces->counters[e] == counter && nonces->tokens[e] == token)
            return 1;
    return 0;
}

/* Adds those of a table's unused records, and expects them to be new. */
static void seal_once(struct nonces *nonces, const struct buffer *table, const struct card *numbers)
{
    for (uint64_t i = numbers->next; i <= numbers->t; i++) {
        size_t record = (i - 1) * LEGBARO_RECORD_BYTES;
        uint64_t counter = buffer_number(table, record + RECORD_COUNTER, 8),
                 token = buffer_number(table, record + RECORD_TOKEN, 4);
        expect(!has_sealed(nonces, counter, token), "counter %llu and token %llu to seal once",
               (unsigned long long)counter, (unsigned long long)token);
        nonces->counters[nonces->count] = counter;
        nonces->tokens[nonces->count++] = token;
    }
}

/* A call of the list. */
static void step(struct file *file, struct nonces *nonces)
{
    struct call call = next_call(file);
    enum kind kind = call.kind;
    if (chance_of(4))
        disturb(file, &call);
    if (chance_of(8))
        call.role = any_role();
    if (file_run(file, &call) == LEGBARO_OK && (is_change(kind) || is_ask(kind)))
        seal_once(nonces, is_ask(kind) ? &file->asked : &file->table, &file->book.numbers);
}

/* A call beside the list, on copies: any kind, with some bytes or lengths of any buffer altered, at
 * times by any role. The book knows nothing of it. */
static void aside(const struct file *file)
{
    struct call call = call_on(file, (enum kind)(UPDATE + chance_below(PROVE + 1 - UPDATE)));
    if (chance_of(8))
        call.role = any_role();
    for (uint64_t faults = 1 + chance_below(2); faults; faults--) {
        enum argument argument = (enum argument)chance_below(ARGUMENTS);
        if (!call_takes(call.kind, argument))
            continue;
        if (chance_of(3))
            wrong_length(&call.args[argument]);
        else
            flip_any_bit(&call.args[argument]);
    }
    call_compare(&call);
    call_free(&call);
}

/* A number of blocks at set-up for d rows: below d where there is one, d, or above. */
static uint64_t first_blocks(uint64_t d)
{
    uint64_t numbers[] = {1 + chance_below(d), d, d + 1 + chance_below(2 * d)};
    return numbers[chance_below(COUNT(numbers))];
}

/* One list on a new file. */
static void list(uint64_t version, uint64_t B, uint64_t d, uint64_t t)
{
    uint64_t r = chance_of(3) ? d : 1 + chance_below(d);
    struct file file = file_set_up(version, B, d, r, t, first_blocks(d));
    struct nonces nonces = {.count = 0};
    seal_once(&nonces, &file.table, &file.book.numbers);
    for (uint64_t calls = chance_below(LONGEST + 1); calls; calls--) {
        if (chance_of(6))
            aside(&file);
        step(&file, &nonces);
    }
    file_expect_book(&file);
    file_end(&file);
}

void test_lists(unsigned lists)
{
    for (size_t i = 0; i < COUNT(rows); i++) {
        unsigned share = lists / COUNT(rows);
        test_begin("%u random lists of up to %d calls with d = %llu, on all versions", share,
                   LONGEST, (unsigned long long)rows[i]);
        for (unsigned j = 0; j < share; j++) {
            uint64_t round = j / COUNT(block_bytes), t = 1 + round % MOST_TOKENS;
            uint64_t version = FIRST_VERSION + (j + round + round / MOST_TOKENS) % LAST_VERSION;
            list(version, block_bytes[j % COUNT(block_bytes)], rows[i], t);
        }
        test_end();
    }
}
