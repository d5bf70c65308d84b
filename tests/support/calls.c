/* See calls.h. */
#include "calls.h"

#include "dispatch.h"
#include "expect.h"

/* The buffers that each kind of call takes, a bit for each, those among them that it writes, and
 * the roles that may make it. */
#define BIT(argument) (1u << (argument))
#define CHANGE (BIT(MASTER) | BIT(CARD) | BIT(TABLE) | BIT(TOTALS))
#define ASK (CHANGE | BIT(SECOND))
#define CHANGED (BIT(CARD) | BIT(TABLE) | BIT(TOTALS))
#define ASKED (BIT(CARD) | BIT(SECOND) | BIT(TOTALS))
#define PLANNER BIT(LEGBARO_PLANNER)
#define SURVEYOR_TOO (PLANNER | BIT(LEGBARO_SURVEYOR))
#define MANAGER_TOO (PLANNER | BIT(LEGBARO_MANAGER))

static const struct {
    const char *name;
    unsigned takes, writes, roles;
} kinds[KINDS] = {
    [SET_UP] = {"set-up", CHANGE | BIT(ID) | BIT(BLOCKS), CHANGED, 0},
    [UPDATE] = {"update", CHANGE | BIT(OLD) | BIT(MARKS) | BIT(NEW), CHANGED, PLANNER},
    [DELETE] = {"delete", CHANGE | BIT(OLD) | BIT(MARKS), CHANGED, PLANNER},
    [APPEND] = {"append", CHANGE | BIT(NEW), CHANGED, SURVEYOR_TOO},
    [LOAD] = {"load", CHANGE | BIT(BLOCKS), CHANGED, SURVEYOR_TOO},
    [BATCH] = {"batch", CHANGE | BIT(ITEMS), CHANGED, PLANNER},
    [ASK_UPDATE] = {"ask update", ASK | BIT(OLD) | BIT(MARKS) | BIT(NEW), ASKED, PLANNER},
    [ASK_DELETE] = {"ask delete", ASK | BIT(OLD) | BIT(MARKS), ASKED, PLANNER},
    [ASK_APPEND] = {"ask append", ASK | BIT(NEW), ASKED, SURVEYOR_TOO},
    [ASK_LOAD] = {"ask load", ASK | BIT(BLOCKS), ASKED, SURVEYOR_TOO},
    [ASK_BATCH] = {"ask batch", ASK | BIT(ITEMS), ASKED, PLANNER},
    [COMMIT] = {"commit", BIT(CARD), BIT(CARD), PLANNER},
    [DROP] = {"drop", BIT(CARD), BIT(CARD), PLANNER},
    [DRAW] = {"draw", BIT(MASTER) | BIT(CARD) | BIT(MESSAGE) | BIT(PLAN), BIT(CARD) | BIT(MESSAGE),
              MANAGER_TOO},
    [JUDGE] = {"judge", BIT(MASTER) | BIT(CARD) | BIT(REPLY), BIT(CARD), MANAGER_TOO},
    [CAUSE] = {"cause", BIT(MASTER) | BIT(CARD) | BIT(REPLY), 0, MANAGER_TOO},
    [JUDGE_POOL] = {"judge pool", BIT(MASTER) | BIT(CARDS) | BIT(REPLY), BIT(CARDS), MANAGER_TOO},
    [PROVE] = {"prove",
               BIT(MESSAGE) | BIT(BLOCKS) | BIT(MARKS) | BIT(TABLE) | BIT(REPLY) | BIT(TOTALS),
               BIT(REPLY) | BIT(TOTALS), 0},
    [POOL] = {"pool", BIT(REPLIES) | BIT(POOLED), BIT(POOLED), 0},
    [POSITIONS] = {"positions", 0, 0, 0},
    [WAIT] = {"wait", BIT(PLAN), 0, 0},
    [SHEET] = {"sheet", BIT(OUT), BIT(OUT), 0},
    [PARITY_ENCODE] = {"parity encode", BIT(BLOCKS) | BIT(OUT), BIT(OUT), 0},
    [PARITY_REBUILD] = {"parity rebuild", BIT(BLOCKS) | BIT(LOST) | BIT(OUT), BIT(OUT), 0},
};

static const char *const arguments[ARGUMENTS] = {
    "master", "id",        "blocks",  "card",         "table", "second table", "old block",
    "marks",  "new block", "items",   "message",      "plan",  "reply",        "totals",
    "out",    "cards",     "replies", "pooled reply", "lost"};

static unsigned long counts[KINDS][LAST_CODE + 1];

const char *call_name(enum kind kind)
{
    return kinds[kind].name;
}

int call_takes(enum kind kind, enum argument argument)
{
    return (kinds[kind].takes & BIT(argument)) != 0;
}

int call_permits(enum kind kind, uint64_t role)
{
    return role <= LEGBARO_MANAGER && (kinds[kind].roles & BIT(role)) != 0;
}

int is_change(enum kind kind)
{
    return kind >= UPDATE && kind <= BATCH;
}

int is_ask(enum kind kind)
{
    return kind >= ASK_UPDATE && kind <= ASK_BATCH;
}

enum kind asked(enum kind change)
{
    return is_change(change) ? (enum kind)(change - UPDATE + ASK_UPDATE) : change;
}

enum kind unasked(enum kind ask)
{
    return is_ask(ask) ? (enum kind)(ask - ASK_UPDATE + UPDATE) : ask;
}

struct call call_sheet(uint64_t B, uint64_t d, uint64_t r, uint64_t t, uint64_t n, uint64_t m)
{
    struct call call = {.kind = SHEET, .B = B, .d = d, .r = r, .t = t, .n = n, .m = m};
    call.args[OUT] = buffer_blank(LEGBARO_SHEET_BYTES);
    return call;
}

struct call call_copy(const struct call *call)
{
    struct call other = *call;
    for (int argument = 0; argument < ARGUMENTS; argument++)
        other.args[argument] = buffer_copy(&call->args[argument]);
    return other;
}

struct call call_asked(const struct call *change)
{
    struct call ask = call_copy(change);
    ask.kind = asked(change->kind);
    ask.args[SECOND] = buffer_blank(change->args[TABLE].length);
    return ask;
}

void call_free(struct call *call)
{
    for (int argument = 0; argument < ARGUMENTS; argument++)
        buffer_free(&call->args[argument]);
}

uint64_t call_library(struct call *call)
{
    DISPATCH(legbaro, );
}

uint64_t call_reference(struct call *call)
{
    DISPATCH(reference, );
}

/* What is expected of one buffer after a call: `ours` after the library, `theirs` after the
 * reference implementation, `before`. */
static void compare_buffer(enum kind kind, enum argument argument, int written,
                           const struct buffer *ours, const struct buffer *theirs,
                           const struct buffer *before)
{
    expect(buffer_same(ours, theirs), "%s: the reference implementation's %s", kinds[kind].name,
           arguments[argument]);
    expect(written || buffer_same(ours, before), "%s: the %s as it was", kinds[kind].name,
           arguments[argument]);
    expect(buffer_guarded(ours), "%s: nothing written around the %s", kinds[kind].name,
           arguments[argument]);
}

uint64_t call_compare_by(uint64_t (*run)(struct call *), struct call *call)
{
    struct call before = call_copy(call), other = call_copy(call);
    uint64_t number = run(call);
    uint64_t expected = call_reference(&other);
    int refused = LEGBARO_CODE(number) != LEGBARO_OK && LEGBARO_CODE(number) != LEGBARO_REJECTED;
    if (LEGBARO_CODE(number) <= LAST_CODE)
        counts[call->kind][LEGBARO_CODE(number)]++;
    expect(number == expected, "%s: number %llu, not %llu", kinds[call->kind].name,
           (unsigned long long)expected, (unsigned long long)number);
    for (int argument = 0; argument < ARGUMENTS; argument++)
        if (call_takes(call->kind, argument)) {
            int written = !refused && (kinds[call->kind].writes & BIT(argument));
            compare_buffer(call->kind, argument, written, &call->args[argument],
                           &other.args[argument], &before.args[argument]);
        }
    call_free(&before);
    call_free(&other);
    return number;
}

uint64_t call_compare(struct call *call)
{
    return call_compare_by(call_library, call);
}

struct totals call_totals(const struct call *call)
{
    const struct buffer *totals = &call->args[TOTALS];
    return (struct totals){buffer_number(totals, LEGBARO_TOTALS_TURNS, 8),
                           buffer_number(totals, LEGBARO_TOTALS_HASHES, 8)};
}

int totals_same(struct totals a, struct totals b)
{
    return a.turns == b.turns && a.hashes == b.hashes;
}

unsigned long call_count(enum kind kind, uint64_t code)
{
    return counts[kind][code];
}

void call_expect(struct call *call, uint64_t number, const char *what)
{
    uint64_t returned = call_compare(call);
    expect(returned == number, "%s, %s: %llu, not %llu", kinds[call->kind].name, what,
           (unsigned long long)number, (unsigned long long)returned);
}

void call_finish(struct call *call, uint64_t number, const char *what)
{
    call_expect(call, number, what);
    call_free(call);
}

void call_alike(struct call *call, struct call *other)
{
    static const enum argument written[] = {CARD, TABLE, TOTALS};
    call_expect(call, LEGBARO_OK, "accepted");
    call_expect(other, LEGBARO_OK, "accepted");
    for (size_t i = 0; i < sizeof written / sizeof *written; i++)
        expect(buffer_same(&call->args[written[i]], &other->args[written[i]]),
               "%s: buffer %d as by %s", call_name(call->kind), (int)written[i],
               call_name(other->kind));
    call_free(call);
    call_free(other);
}
