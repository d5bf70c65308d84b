/* Random lists of calls on two and three files of one master, with pooled judgings of them. */
#include "cases.h"

#include "support/chance.h"
#include "support/expect.h"
#include "support/pool_calls.h"

#define COUNT(array) (sizeof(array) / sizeof *(array))

enum { MOST_FILES = 3, LISTS = 200, LONGEST = 20 };

/* A pooled judging of all these files, from any of them on, after draws of some; at times with a
 * bit of the reply flipped. */
static void pool_step(struct file *const *held, size_t count)
{
    struct file *turned[MOST_FILES];
    const struct file *shown[MOST_FILES];
    size_t first = chance_below(count);
    for (size_t e = 0; e < count; e++) {
        struct call draw = file_call(held[e], chance_of(8) ? JUDGE : DRAW);
        file_run(held[e], &draw);
        shown[e] = turned[e] = held[(first + e) % count];
    }
    struct call call = pool_call(shown, count);
    if (chance_of(4))
        buffer_flip(&call.args[REPLY], chance_below(8 * call.args[REPLY].length));
    pool_run(turned, count, &call);
}

/* Any call on one of these files; the state may refuse it. */
static void single_step(struct file *const *held, size_t count)
{
    static const enum kind kinds[] = {UPDATE,     DELETE, APPEND, LOAD, BATCH,
                                      ASK_UPDATE, COMMIT, DROP,   DRAW, JUDGE};
    struct file *file = held[chance_below(count)];
    struct call call = file_call(file, kinds[chance_below(COUNT(kinds))]);
    file_run(file, &call);
}

/* "a pooled judgement is a step on each card" */
static void list(const struct buffer *master, size_t count)
{
    struct file own[MOST_FILES], *held[MOST_FILES];
    for (size_t e = 0; e < count; e++) {
        own[e] = pool_file(master, any_version());
        held[e] = &own[e];
    }
    for (uint64_t steps = chance_below(LONGEST + 1); steps; steps--)
        if (chance_of(4))
            pool_step(held, count);
        else
            single_step(held, count);
    for (size_t e = 0; e < count; e++) {
        file_expect_book(held[e]);
        file_end(held[e]);
    }
}

void test_pool_lists(void)
{
    struct buffer master = buffer_blank(LEGBARO_MASTER_BYTES);
    chance_bytes(master.bytes, master.length);
    test_begin("%d random lists on two and three files with pooled judgings of them", LISTS);
    for (uint64_t i = 0; i < LISTS; i = tried_after(i, 5))
        list(&master, 2 + i % 2);
    test_end();
    buffer_free(&master);
}
