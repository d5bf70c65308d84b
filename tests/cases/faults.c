/* Every fault alone, and every two faults in one call, in the order of papers 01 and 02. */
#include "cases.h"

#include "support/draw_times.h"
#include "support/expect.h"
#include "support/fault_list.h"
#include "support/files.h"
#include "support/parity_calls.h"
#include "support/pool_calls.h"

/* Three files of one version, on which only a fault makes the library refuse a call, as far as the
 * version goes. On `changing`, for changes, asks and draws, token 1 is spent; on `judging`, for
 * judgings, causes and proofs, token 2 is drawn; on `settling`, for commits and drops, a load is
 * pending in version 3. And a pooled judging and a pooling that would be accepted, of files of all
 * versions, this one first. */
static struct file changing, judging, settling;
static struct call judging_pool, pooling;
static uint64_t version;

static struct file prepared(void)
{
    struct file file = file_set_up(version, B, D, R, T, N);
    file_do(&file, APPEND);
    file_load(&file, 2);
    file_audit(&file);
    for (int asks = 0; version == LEGBARO_TWO_STEPS && asks < 2; asks++) {
        file_do(&file, ASK_UPDATE);
        file_do(&file, DROP);
    }
    return file;
}

/* Gives a call the schedule and the time of fault_list.h. */
static void at_an_open_hour(struct call *call)
{
    struct when when = {YEAR, MONTH, DAY, MINUTE};
    buffer_free(&call->args[PLAN]);
    call->args[PLAN] = schedule_blank();
    for (unsigned weekday = 0; weekday < 7; weekday++)
        schedule_window(&call->args[PLAN], weekday, 0, OPEN_UNTIL);
    call_at(call, &when);
}

static struct call open_wait(void)
{
    struct call call = {.kind = WAIT};
    at_an_open_hour(&call);
    return call;
}

static struct call rebuilding(void)
{
    static const uint8_t lost[LOST_BLOCKS] = {FIRST_LOST_BLOCK, LAST_LOST_BLOCK};
    struct call encoding = parity_encoding(B, N, LOST_BLOCKS),
                call = parity_rebuilding(&encoding, lost, LOST_BLOCKS);
    call_free(&encoding);
    return call;
}

static struct call faultless(enum kind kind);

static struct call faultless_ask(enum kind kind)
{
    struct call change = faultless(unasked(kind)), ask = call_asked(&change);
    call_free(&change);
    return ask;
}

/* A call that would be accepted, as far as the version goes. The table of a proof is just long
 * enough. */
static struct call faultless(enum kind kind)
{
    static const uint64_t items[] = {FIRST_ITEM, MIDDLE_ITEM, LAST_ITEM};
    if (kind == SET_UP)
        return file_set_up_call(version, B, D, R, T, N);
    if (kind == POSITIONS)
        return (struct call){.kind = POSITIONS, .r = R, .d = D, .n = N};
    if (kind == WAIT)
        return open_wait();
    if (kind == SHEET)
        return call_sheet(B, D, R, T, N, D);
    if (kind == JUDGE_POOL)
        return call_copy(&judging_pool);
    if (kind == POOL)
        return call_copy(&pooling);
    if (kind == PARITY_ENCODE)
        return parity_encoding(B, N, LOST_BLOCKS);
    if (kind == PARITY_REBUILD)
        return rebuilding();
    if (kind == LOAD)
        return file_load_call(&changing, LOADED);
    if (kind == BATCH)
        return file_batch_of(&changing, items, sizeof items / sizeof *items);
    if (is_ask(kind))
        return faultless_ask(kind);
    if (kind == COMMIT || kind == DROP)
        return file_call(&settling, kind);
    struct call call =
        file_call(kind == JUDGE || kind == CAUSE || kind == PROVE ? &judging : &changing, kind);
    if (kind == DRAW)
        at_an_open_hour(&call);
    if (kind == PROVE)
        buffer_resize(&call.args[TABLE], 2 * LEGBARO_RECORD_BYTES);
    return call;
}

/* Runs a call with faults of which this check finds the first; the version's may come before. */
static void finish(struct call *call, enum check check, const char *what)
{
    enum check start = fault_at_start(call->kind, version);
    call_finish(call, fault_number(check < start ? check : start, call->kind), what);
}

static void one_fault(enum kind kind, const struct fault *fault)
{
    struct call call = faultless(kind);
    fault_make(&call, fault, version);
    finish(&call, fault->check, "its only fault");
}

static void two_faults(enum kind kind, const struct fault *a, const struct fault *b)
{
    struct call call = faultless(kind);
    fault_make(&call, a, version);
    fault_make(&call, b, version);
    finish(&call, fault_first(a, b), "the first of two faults");
}

static void every_fault(enum kind kind)
{
    test_begin("every fault of %s alone, version %llu", call_name(kind),
               (unsigned long long)version);
    struct call call = faultless(kind);
    finish(&call, NO_FAULT, "no fault");
    for (int a = 0; a < fault_count; a++)
        if (fault_has(&faults[a], kind, version))
            one_fault(kind, &faults[a]);
    test_end();
}

static void every_two_faults(enum kind kind)
{
    test_begin("every two faults of %s in their order, version %llu", call_name(kind),
               (unsigned long long)version);
    for (int a = 0; a < fault_count; a++)
        for (int b = a + 1; b < fault_count; b++)
            if (fault_has(&faults[a], kind, version) && fault_has(&faults[b], kind, version) &&
                faults[a].target != faults[b].target)
                two_faults(kind, &faults[a], &faults[b]);
    test_end();
}

static void make_pool(void)
{
    struct file files[POOL_FILES];
    const struct file *pool[POOL_FILES];
    for (size_t e = 0; e < POOL_FILES; e++) {
        files[e] = pool_file(&judging.master, fault_pool_version(version, e));
        pool[e] = &files[e];
    }
    judging_pool = pool_call(pool, POOL_FILES);
    pooling = pooling_call(pool, POOL_FILES);
    for (size_t e = 0; e < POOL_FILES; e++)
        file_end(&files[e]);
}

static void version_faults(void)
{
    test_begin("files of version %llu for the faults", (unsigned long long)version);
    changing = prepared();
    judging = prepared();
    settling = prepared();
    file_do(&judging, DRAW);
    if (version == LEGBARO_TWO_STEPS)
        file_do(&settling, ASK_LOAD);
    make_pool();
    test_end();
    for (int kind = 0; kind < KINDS; kind++) {
        every_fault(kind);
        every_two_faults(kind);
    }
    file_end(&changing);
    file_end(&judging);
    file_end(&settling);
    call_free(&judging_pool);
    call_free(&pooling);
}

void test_faults(void)
{
    for (version = FIRST_VERSION; version <= LAST_VERSION; version++)
        version_faults();
}
