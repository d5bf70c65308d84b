/* See timing.h. */
#define _XOPEN_SOURCE 700
#include "timing.h"

#include "support/expect.h"
#include "variants.h"

#include <stdio.h>
#include <stdlib.h>
#include <string.h>
#include <time.h>

enum { SHORTEST_NS = 4000000, REST_NS = 2000000 };

uint64_t (*const runs[WAYS])(struct call *) = {call_reference, call_plain,   call_avx2,
                                               call_avx512,    call_library, NULL};

static double now(void)
{
    struct timespec t;
    clock_gettime(CLOCK_MONOTONIC, &t);
    return 1e9 * (double)t.tv_sec + (double)t.tv_nsec;
}

static void rest(void)
{
    for (double start = now(); now() - start < REST_NS;)
        ;
    /* libcrypto's AEAD may leave the upper halves of the vector registers in use, and code without
     * AVX then takes up to twice its time. */
    if (__builtin_cpu_supports("avx"))
        __asm__ volatile("vzeroupper");
}

/* Makes the same call acceptable again: the file of a load begins with one block where it is half
 * full, and what an ask left pending is dropped. */
static void make_ready(struct call *call)
{
    struct buffer *card = &call->args[CARD];
    if (call->kind == LOAD && buffer_number(card, LEGBARO_CARD_BLOCKS, 4) > LEGBARO_MOST_BLOCKS / 2)
        buffer_put_number(card, LEGBARO_CARD_BLOCKS, 4, 1);
    if (is_ask(call->kind))
        memset(card->bytes + LEGBARO_CARD_PENDING_COUNTER, 0,
               LEGBARO_TWO_STEP_CARD_BYTES - LEGBARO_CARD_PENDING_COUNTER);
}

double timed(uint64_t (*run)(struct call *), struct call *call, uint64_t n, unsigned calls)
{
    rest();
    double start = now();
    for (unsigned i = 0; i < calls; i++) {
        call->m = 1 + i * UINT64_C(997) % n;
        make_ready(call);
        if (run(call) != LEGBARO_OK) {
            fprintf(stderr, "bench: %s was not accepted\n", call_name(call->kind));
            exit(1);
        }
    }
    return (now() - start) / calls;
}

unsigned calls_for(double time)
{
    return 1 + (unsigned)(SHORTEST_NS / time);
}

double lesser(double best, double time)
{
    return best > 0 && best < time ? best : time;
}

void compare(uint64_t (*run)(struct call *), const struct call *call)
{
    struct call copy = call_copy(call);
    copy.m = 1;
    make_ready(&copy);
    expect(call_compare_by(run, &copy) == LEGBARO_OK, "%s: accepted", call_name(call->kind));
    call_free(&copy);
}
