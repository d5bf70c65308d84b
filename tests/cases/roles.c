/* Who may do what: every call by every role, whatever else is passed. */
#include "cases.h"

#include "support/chance.h"
#include "support/expect.h"
#include "support/files.h"
#include "support/pool_calls.h"

#define COUNT(array) (sizeof(array) / sizeof *(array))

enum { B = 28, D = 5, R = 3, T = 3, N = 7, ROUNDS = 400, LONGEST = 130 };

/* The three, their neighbours, numbers that are like them in their lowest byte or their lowest
 * four, and the greatest. */
static const uint64_t roles[] = {0,
                                 LEGBARO_SURVEYOR,
                                 LEGBARO_PLANNER,
                                 LEGBARO_MANAGER,
                                 4,
                                 UINT64_MAX,
                                 255,
                                 256 + LEGBARO_SURVEYOR,
                                 256 + LEGBARO_PLANNER,
                                 256 + LEGBARO_MANAGER,
                                 (UINT64_C(1) << 32) + LEGBARO_PLANNER,
                                 (UINT64_C(1) << 63) + LEGBARO_PLANNER};

/* Files for changes and draws, for judgings and causes, and for commits and drops. */
static struct file changing, judging, settling;

static void begin(uint64_t version)
{
    changing = file_set_up(version, B, D, R, T, N);
    judging = file_set_up(version, B, D, R, T, N);
    settling = file_set_up(version, B, D, R, T, N);
    file_do(&changing, UPDATE);
    file_do(&judging, DRAW);
    if (version == LEGBARO_TWO_STEPS)
        file_do(&settling, ASK_APPEND);
}

static void end(void)
{
    file_end(&changing);
    file_end(&judging);
    file_end(&settling);
}

/* A call with nothing wrong in it, but for asks, commits and drops of versions that have none. */
static struct call faultless(enum kind kind)
{
    const struct file *file = kind == JUDGE || kind == CAUSE   ? &judging
                              : kind == COMMIT || kind == DROP ? &settling
                                                               : &changing;
    return kind == JUDGE_POOL ? pool_among_others(&judging) : file_call(file, kind);
}

/* ---- Every role ---- */

/* Expects every buffer of a call to be as in another. */
static void expect_buffers(const struct call *call, const struct call *other, const char *what)
{
    for (int argument = 0; argument < ARGUMENTS; argument++)
        if (call_takes(call->kind, argument))
            expect(buffer_same(&call->args[argument], &other->args[argument]),
                   "%s, role %llu: buffers %s", call_name(call->kind),
                   (unsigned long long)call->role, what);
}

/* The same call by every role: "Permitted calls answer as without roles", so all as the planner's
 * does; to others 22, and every buffer stays. Frees the call. */
static void by_every_role(struct call *passed)
{
    struct call planners = call_copy(passed);
    planners.role = LEGBARO_PLANNER;
    uint64_t number = call_compare(&planners);
    for (size_t i = 0; i < COUNT(roles); i++) {
        struct call call = call_copy(passed);
        call.role = roles[i];
        if (call_permits(call.kind, call.role)) {
            call_expect(&call, number, "permitted");
            expect_buffers(&call, &planners, "as the planner's");
        } else {
            call_expect(&call, LEGBARO_NO_RIGHT, "without permission");
            expect_buffers(&call, passed, "as they were");
        }
        call_free(&call);
    }
    call_free(&planners);
    call_free(passed);
}

/* "Role 1, surveyor, may append and load, or ask these; role 2, planner, everything; role 3,
 * manager, draw, judge and ask the cause"; a pooled reply is "judged by roles 2 and 3" */
static void permissions(void)
{
    test_begin("the permissions of each role");
    for (enum kind kind = UPDATE; kind <= JUDGE_POOL; kind++) {
        int adding = unasked(kind) == APPEND || unasked(kind) == LOAD;
        int auditing = kind == DRAW || kind == JUDGE || kind == CAUSE || kind == JUDGE_POOL;
        for (size_t i = 0; i < COUNT(roles); i++) {
            int may = roles[i] == 2 || (roles[i] == 1 && adding) || (roles[i] == 3 && auditing);
            expect(call_permits(kind, roles[i]) == may, "%s by role %llu", call_name(kind),
                   (unsigned long long)roles[i]);
        }
    }
    test_end();
}

static void every_call(uint64_t version)
{
    test_begin("every call by every role, version %llu", (unsigned long long)version);
    begin(version);
    for (enum kind kind = UPDATE; kind <= JUDGE_POOL; kind++) {
        struct call call = faultless(kind);
        by_every_role(&call);
    }
    end();
    test_end();
}

/* ---- Whatever else is passed ---- */

/* Alters a length or some bits of any buffer that a call takes. */
static void disturb(struct call *call)
{
    enum argument argument = (enum argument)chance_below(ARGUMENTS);
    struct buffer *b = &call->args[argument];
    if (!call_takes(call->kind, argument))
        return;
    if (chance_of(2))
        buffer_resize(b, chance_below(2 * b->length + 2));
    else if (b->length)
        buffer_flip(b, chance_below(8 * b->length));
}

static void disturbed_calls(uint64_t version)
{
    test_begin("calls with something wrong in them by every role, version %llu",
               (unsigned long long)version);
    begin(version);
    for (uint64_t i = 0; i < ROUNDS; i = tried_after(i, 5)) {
        struct call call = faultless((enum kind)(UPDATE + chance_below(JUDGE_POOL + 1 - UPDATE)));
        for (uint64_t times = 1 + chance_below(3); times; times--)
            disturb(&call);
        by_every_role(&call);
    }
    end();
    test_end();
}

/* A call of any numbers, and buffers of any bytes and any length. */
static struct call any_call(enum kind kind)
{
    struct call call = {.kind = kind,
                        .m = chance(),
                        .year = chance(),
                        .month = chance(),
                        .day = chance(),
                        .minute = chance_below(LEGBARO_DAY_MINUTES)};
    for (int argument = 0; argument < ARGUMENTS; argument++)
        if (call_takes(kind, argument)) {
            call.args[argument] = buffer_blank(chance_below(LONGEST));
            chance_bytes(call.args[argument].bytes, call.args[argument].length);
        }
    return call;
}

/* "A caller without the right gets an answer that depends on role and call only." */
static void any_calls(void)
{
    test_begin("calls of any bytes and numbers by every role");
    for (uint64_t i = 0; i < ROUNDS; i = tried_after(i, 5)) {
        struct call call = any_call((enum kind)(UPDATE + chance_below(JUDGE_POOL + 1 - UPDATE)));
        by_every_role(&call);
    }
    test_end();
}

void test_roles(void)
{
    permissions();
    for (uint64_t version = FIRST_VERSION; version <= LAST_VERSION; version++) {
        every_call(version);
        disturbed_calls(version);
    }
    any_calls();
}
