/* Totals: what calls count beside what other calls count, and the bounds that a planner may quote.
 * That they are the reference implementation's in every call, and that refusals leave them, is
 * looked at wherever calls are compared. */
#include "cases.h"

#include "support/chance.h"
#include "support/expect.h"
#include "support/files.h"

#include <string.h>

#define COUNT(array) (sizeof(array) / sizeof *(array))

enum { B = 28, T = 3, MOST_D = 40 };

/* How many numbers the eight rounds permute, 4^h: the least power of 4 that is d or more, and at
 * least 4. */
static uint64_t numbers_of(uint64_t d)
{
    uint64_t numbers = 4;
    while (numbers < d)
        numbers *= 4;
    return numbers;
}

static int between(uint64_t least, uint64_t x, uint64_t most)
{
    return least <= x && x <= most;
}

static void expect_totals(struct totals found, struct totals expected, const char *what)
{
    expect(totals_same(found, expected), "%s: %llu turns and %llu hashes, not %llu and %llu", what,
           (unsigned long long)expected.turns, (unsigned long long)expected.hashes,
           (unsigned long long)found.turns, (unsigned long long)found.hashes);
}

/* ---- A proof, and all proofs beside set-up ---- */

/* The least and the most of a number that was found. */
struct range {
    uint64_t least, most;
};

static void widen(struct range *range, uint64_t x)
{
    range->least = x < range->least ? x : range->least;
    range->most = x > range->most ? x : range->most;
}

/* "a ceiling of r + 4^h - d on the turns of one token" */
static struct range turns_of(const struct card *c)
{
    return (struct range){c->r, c->r + numbers_of(c->d) - c->d};
}

/* "the least and most hashes for a proof of any r different rows: r × q + the greater of 0 and r -
 * (d - s), and r × q + the lesser of r and s, where q = n div d and s = n mod d" */
static struct range hashes_of(const struct card *c)
{
    uint64_t q = c->n / c->d, s = c->n % c->d;
    return (struct range){c->r * q + (c->r > c->d - s ? c->r - (c->d - s) : 0),
                          c->r * q + (c->r < s ? c->r : s)};
}

/* What was found in proofs. */
struct found {
    struct range turns, hashes;
};

/* Draws every token of a file and proves each: together the proofs take what set-up took. */
static void all_proofs(struct file *file, struct found *found)
{
    const struct card *numbers = &file->book.numbers;
    struct range turns = turns_of(numbers), hashes = hashes_of(numbers);
    struct totals sum = {0, 0};
    while (numbers->next <= numbers->t) {
        file_do(file, DRAW);
        struct call proof = file_call(file, PROVE);
        call_expect(&proof, LEGBARO_OK, "accepted");
        struct totals one = call_totals(&proof);
        expect(between(turns.least, one.turns, turns.most), "from %llu to %llu turns, not %llu",
               (unsigned long long)turns.least, (unsigned long long)turns.most,
               (unsigned long long)one.turns);
        expect(between(hashes.least, one.hashes, hashes.most), "from %llu to %llu hashes, not %llu",
               (unsigned long long)hashes.least, (unsigned long long)hashes.most,
               (unsigned long long)one.hashes);
        reference_add_totals(&sum, one);
        widen(&found->turns, one.turns);
        widen(&found->hashes, one.hashes);
        call_free(&proof);
        file_do(file, JUDGE);
    }
    expect_totals(sum, file->totals, "all proofs");
}

static struct found proofs_of(uint64_t version, uint64_t d, uint64_t r, uint64_t t, uint64_t n)
{
    struct found found = {{UINT64_MAX, 0}, {UINT64_MAX, 0}};
    struct file file = file_set_up(version, B, d, r, t, n);
    all_proofs(&file, &found);
    file_end(&file);
    return found;
}

static void set_up_and_proofs(void)
{
    test_begin("the proofs of all tokens take the turns and hashes that set-up took, each within "
               "its bounds");
    for (uint64_t d = 1; d <= MOST_D; d = tried_after(d, 5))
        for (uint64_t n = 1; n <= 3 * d; n += 1 + chance_below(d))
            proofs_of(any_version(), d, 1 + chance_below(d), T, n);
    for (uint64_t d = 1; d <= MOST_D; d = tried_after(d, 5))
        proofs_of(any_version(), d, d, T, 1 + chance_below(2 * d));
    proofs_of(any_version(), 300, 300, T, 500);
    proofs_of(any_version(), 1000, LEGBARO_MOST_POSITIONS, T, 1500);
    test_end();
}

/* Bounds that could be lower are none. With few rows some of so many tokens take the most turns,
 * and with one position, or all but one, the least and the most hashes. */
static void bounds_met(void)
{
    enum { TOKENS = 150 };
    static const uint64_t shapes[][3] = {{1, 1, 1}, {2, 1, 3}, {2, 2, 2}, {3, 1, 4},
                                         {3, 2, 5}, {3, 3, 1}, {5, 1, 7}, {5, 4, 9}};
    test_begin("some tokens of many take the most turns, the least hashes and the most");
    for (size_t i = 0; i < COUNT(shapes); i++) {
        struct card c = {.d = shapes[i][0], .r = shapes[i][1], .n = shapes[i][2]};
        struct range turns = turns_of(&c), hashes = hashes_of(&c);
        struct found found = proofs_of(any_version(), c.d, c.r, TOKENS, c.n);
        expect(c.d > 3 || found.turns.most == turns.most,
               "%llu turns for d = %llu and r = %llu, not %llu", (unsigned long long)turns.most,
               (unsigned long long)c.d, (unsigned long long)c.r,
               (unsigned long long)found.turns.most);
        expect(found.hashes.least == hashes.least && found.hashes.most == hashes.most,
               "the least and the most hashes for d = %llu", (unsigned long long)c.d);
    }
    test_end();
}

/* ---- Changes beside set-up ---- */

/* The totals of a set-up with all rows drawn, under the same keys. */
static struct totals with_all_rows(const struct call *set_up)
{
    struct call all = call_copy(set_up);
    all.r = all.d;
    call_expect(&all, LEGBARO_OK, "accepted");
    struct totals totals = call_totals(&all);
    call_free(&all);
    return totals;
}

/* A single change of block m. */
static void change_block(struct file *file, enum kind kind, uint64_t m)
{
    struct call call = file_block_call(file, kind, m);
    expect(file_run(file, &call) == LEGBARO_OK, "accepted");
}

/* Updates or deletes each block of the first column singly. */
static void singly(struct file *file, enum kind kind)
{
    for (uint64_t m = 1; m <= file->book.numbers.d; m++)
        change_block(file, kind, m);
}

/* The same in batches. */
static void in_batches(struct file *file)
{
    uint64_t d = file->book.numbers.d, blocks[LEGBARO_MOST_ITEMS];
    for (uint64_t m = 1; m <= d;) {
        size_t items = 0;
        for (uint64_t most = 1 + chance_below(LEGBARO_MOST_ITEMS); items < most && m <= d; m++)
            blocks[items++] = m;
        struct call batch = file_batch_of(file, blocks, items);
        expect(file_run(file, &batch) == LEGBARO_OK, "accepted");
    }
}

static void appends(struct file *file)
{
    for (uint64_t blocks = file->book.numbers.d; blocks; blocks--)
        file_do(file, APPEND);
}

/* How every row of a file may be changed once. */
enum way { UPDATES, DELETIONS, BATCHES, APPENDS, ONE_LOAD, WAYS };

static void every_row(struct file *file, enum way way)
{
    switch (way) {
    case UPDATES:
        singly(file, UPDATE);
        break;
    case DELETIONS:
        singly(file, DELETE);
        break;
    case BATCHES:
        in_batches(file);
        break;
    case APPENDS:
        appends(file);
        break;
    default:
        file_load(file, file->book.numbers.d);
    }
}

/* Changes of every row once, each way: the walks back are those of a set-up that draws all rows,
 * the other way round and in as many turns; and each token draws r of the rows. */
static void rows_changed(uint64_t version, uint64_t d, uint64_t r)
{
    struct call set_up = file_set_up_call(version, B, d, r, T, d + chance_below(d));
    struct totals all = with_all_rows(&set_up);
    for (enum way way = UPDATES; way < WAYS; way++) {
        uint64_t hashes = way == APPENDS || way == ONE_LOAD ? 1 : 2;
        struct file file = file_of(&set_up);
        file.totals = (struct totals){0, 0};
        every_row(&file, way);
        expect_totals(file.totals, (struct totals){all.turns, hashes * r * T},
                      "every row changed once");
        file_end(&file);
    }
    call_free(&set_up);
}

static void changes_and_set_up(void)
{
    test_begin("changes of every row take the turns of a set-up over all rows, and hashes for r "
               "rows of each token");
    for (uint64_t d = 1; d <= MOST_D; d = tried_after(d, 8)) {
        rows_changed(any_version(), d, 1 + chance_below(d));
        rows_changed(any_version(), d, d);
    }
    rows_changed(any_version(), 150, 70);
    test_end();
}

/* ---- Single changes ---- */

/* Expects the turns of a change of so many blocks to be one for each block and unused token at
 * least, and 4^h - d + 1 at most; and its hashes to be none at least, and at most some for each of
 * these. */
static void expect_change(const struct file *file, struct call call, uint64_t blocks,
                          uint64_t hashes)
{
    const struct card *c = &file->book.numbers;
    uint64_t walks = blocks * (c->t + 1 - c->next);
    call_expect(&call, LEGBARO_OK, "accepted");
    struct totals totals = call_totals(&call);
    expect(between(walks, totals.turns, walks * (numbers_of(c->d) - c->d + 1)),
           "%s: the turns of %llu walks", call_name(call.kind), (unsigned long long)walks);
    expect(totals.hashes <= hashes * walks && totals.hashes % hashes == 0,
           "%s: the hashes of %llu walks", call_name(call.kind), (unsigned long long)walks);
    if (c->d == numbers_of(c->d))
        expect(totals.turns == walks, "%s: one turn for each walk", call_name(call.kind));
    if (c->r == c->d)
        expect(totals.hashes == hashes * walks, "%s: a hash for every block", call_name(call.kind));
    call_free(&call);
}

/* Each kind, with each number of tokens spent. With none unused nothing is walked and nothing
 * hashed. */
static void every_change(uint64_t version, uint64_t d, uint64_t r)
{
    enum { ITEMS_HERE = 5, LOADED = 9 };
    struct file file = file_set_up(version, B, d, r, T, ITEMS_HERE + chance_below(2 * d));
    for (uint64_t spent = 0; spent <= T; spent++) {
        expect_change(&file, file_call(&file, UPDATE), 1, 2);
        expect_change(&file, file_call(&file, DELETE), 1, 2);
        expect_change(&file, file_call(&file, APPEND), 1, 1);
        expect_change(&file, file_load_call(&file, LOADED), LOADED, 1);
        expect_change(&file, file_batch_call(&file, ITEMS_HERE), ITEMS_HERE, 2);
        if (spent < T)
            file_audit(&file);
    }
    file_end(&file);
}

static void changes_in_bounds(void)
{
    static const uint64_t powers[] = {4, 16, 64, 256, 1024};
    test_begin(
        "the turns and hashes of changes within their bounds, with every number of tokens spent");
    for (uint64_t d = 1; d <= MOST_D; d = tried_after(d, 5)) {
        every_change(any_version(), d, 1 + chance_below(d));
        every_change(any_version(), d, d);
    }
    for (size_t i = 0; i < COUNT(powers); i++)
        every_change(any_version(), powers[i],
                     1 + chance_below(powers[i] < LEGBARO_MOST_POSITIONS ? powers[i]
                                                                         : LEGBARO_MOST_POSITIONS));
    test_end();
}

/* "altered or not": an update to the bytes that are there, a deletion of a deleted block. */
static void unaltered(uint64_t d, uint64_t r)
{
    struct file file = file_set_up(any_version(), B, d, r, T, d);
    struct call update = file_call(&file, UPDATE), same = call_copy(&update);
    memcpy(same.args[NEW].bytes, same.args[OLD].bytes, B);
    call_expect(&update, LEGBARO_OK, "accepted");
    call_expect(&same, LEGBARO_OK, "accepted");
    expect_totals(call_totals(&same), call_totals(&update), "an update that alters nothing");
    file.totals = (struct totals){0, 0};
    change_block(&file, DELETE, update.m);
    expect_totals(file.totals, call_totals(&update), "a deletion");
    file.totals = (struct totals){0, 0};
    change_block(&file, DELETE, update.m);
    expect_totals(file.totals, call_totals(&update), "a deletion of a deleted block");
    call_free(&update);
    call_free(&same);
    file_end(&file);
}

static void altered_or_not(void)
{
    test_begin("changes that alter nothing take the turns and hashes of those that do");
    for (uint64_t d = 1; d <= MOST_D; d = tried_after(d, 5))
        unaltered(d, 1 + chance_below(d));
    test_end();
}

void test_totals(void)
{
    set_up_and_proofs();
    bounds_met();
    changes_and_set_up();
    changes_in_bounds();
    altered_or_not();
}
