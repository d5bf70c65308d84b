/* See cases.h. A stack is painted, a call runs on it in a thread of its own, and where the paint is
 * left the call has not been. */
#define _XOPEN_SOURCE 700
#include "cases.h"

#include "support/expect.h"
#include "support/files.h"
#include "support/parity_calls.h"
#include "support/pool_calls.h"

#include <pthread.h>
#include <stdlib.h>
#include <string.h>

enum { STACK = 1 << 20, ALIGNED = 4096, PAINT = 0xA5, MOST = 64 * 1024 };

static void *run(void *call)
{
    if (call)
        call_library(call);
    return NULL;
}

/* The bytes of stack that a thread with this call needs; none is a thread that does nothing. */
static size_t stack_of(struct call *call)
{
    pthread_attr_t how;
    pthread_t thread;
    void *room = NULL;
    size_t left = 0;
    int made = posix_memalign(&room, ALIGNED, STACK) == 0 && memset(room, PAINT, STACK) &&
               pthread_attr_init(&how) == 0 && pthread_attr_setstack(&how, room, STACK) == 0 &&
               pthread_create(&thread, &how, run, call) == 0;
    expect(made && pthread_join(thread, NULL) == 0, "a thread with a stack of its own");
    while (left < STACK && ((uint8_t *)room)[left] == PAINT)
        left++;
    free(room);
    return STACK - left;
}

/* Expects the call to need less stack than the header says, beside what a bare thread needs; frees
 * it. */
static void expect_small(struct call call)
{
    size_t needs = stack_of(&call) - stack_of(NULL);
    expect(needs < MOST, "%s: less than %d bytes of stack, not %zu", call_name(call.kind), MOST,
           needs);
    call_free(&call);
}

static void stack_of_calls(uint64_t version)
{
    struct file file = file_set_up(version, 512, 64, 64, 2, 64);
    expect_small(file_set_up_call(version, 512, 64, 64, 2, 64));
    expect_small(file_call(&file, UPDATE));
    expect_small(file_call(&file, DELETE));
    expect_small(file_call(&file, APPEND));
    expect_small(file_load_call(&file, 1));
    expect_small(file_load_call(&file, 60));
    expect_small(file_load_call(&file, 600));
    expect_small(file_batch_call(&file, 1));
    expect_small(file_batch_call(&file, LEGBARO_MOST_ITEMS));
    for (int kind = ASK_UPDATE; version == LEGBARO_TWO_STEPS && kind <= ASK_BATCH; kind++)
        expect_small(file_call(&file, (enum kind)kind));
    expect_small(file_call(&file, COMMIT));
    expect_small(file_call(&file, DROP));
    expect_small(file_call(&file, DRAW));
    expect_small(file_call(&file, WAIT));
    expect_small(call_sheet(512, 64, 64, 2, 64, 1));
    file_do(&file, DRAW);
    expect_small(file_call(&file, PROVE));
    expect_small(file_call(&file, JUDGE));
    expect_small(file_call(&file, CAUSE));
    file_end(&file);
}

/* Of as many files as a pool may have. */
static void stack_of_pools(void)
{
    struct file files[LEGBARO_MOST_POOLED];
    const struct file *pooled[LEGBARO_MOST_POOLED];
    struct buffer master = buffer_blank(LEGBARO_MASTER_BYTES);
    for (size_t e = 0; e < LEGBARO_MOST_POOLED; e++) {
        files[e] = pool_file(&master, LAST_VERSION);
        pooled[e] = &files[e];
    }
    expect_small(pooling_call(pooled, LEGBARO_MOST_POOLED));
    expect_small(pool_call(pooled, LEGBARO_MOST_POOLED));
    for (size_t e = 0; e < LEGBARO_MOST_POOLED; e++)
        file_end(&files[e]);
    buffer_free(&master);
}

static void stack_of_parity(void)
{
    static const uint8_t lost[] = {0, 1, 2, 3, 4, 5, 6, 7, 40, 41, 42, 43, 44, 45, 46, 47};
    struct call encoding = parity_encoding(LEGBARO_MOST_BLOCK_BYTES, LEGBARO_MOST_DATA_BLOCKS,
                                           LEGBARO_MOST_PARITY_BLOCKS);
    expect_small(parity_rebuilding(&encoding, lost, sizeof lost));
    expect_small(encoding);
}

void test_stack(void)
{
    test_begin("each call needs less than 64 KB of stack");
    for (uint64_t version = FIRST_VERSION; version <= LAST_VERSION; version++)
        stack_of_calls(version);
    stack_of_pools();
    stack_of_parity();
    test_end();
}
