/* One call as a value: which it is, its numbers and its buffers. The library and the reference
 * implementation can run it. */
#ifndef CALLS_H
#define CALLS_H

#include "buffers.h"
#include "legbaro.h"
#include "reference/reference.h"

/* The five changes, then the same five asked. */
enum kind {
    SET_UP,
    UPDATE,
    DELETE,
    APPEND,
    LOAD,
    BATCH,
    ASK_UPDATE,
    ASK_DELETE,
    ASK_APPEND,
    ASK_LOAD,
    ASK_BATCH,
    COMMIT,
    DROP,
    DRAW,
    JUDGE,
    CAUSE,
    JUDGE_POOL,
    PROVE,
    POOL,
    POSITIONS,
    WAIT,
    SHEET,
    PARITY_ENCODE,
    PARITY_REBUILD,
    KINDS
};

/* The highest code of any call. */
enum { LAST_CODE = LEGBARO_TOO_MANY_LOST };

/* The buffers that calls take. A pooled judging takes its reply as a judging does. */
enum argument {
    MASTER,
    ID,
    BLOCKS,
    CARD,
    TABLE,
    SECOND,
    OLD,
    MARKS,
    NEW,
    ITEMS,
    MESSAGE,
    PLAN,
    REPLY,
    TOTALS,
    OUT,
    CARDS,
    REPLIES,
    POOLED,
    LOST,
    ARGUMENTS
};

struct call {
    enum kind kind;
    uint64_t role; /* of who makes a call on a card, set-up apart */
    /* Of a set-up and of a sheet; positions takes r, d and n; of parity B, the data blocks n and
     * the parity blocks r. */
    uint64_t version, B, d, r, t, n;
    uint64_t m; /* the block of an update or a deletion, asked too; the damaged rows of a sheet */
    uint64_t year, month, day, minute; /* of a draw and of a wait */
    size_t card_offset; /* of the file's own card among the cards of a pooled judging, in a list */
    struct buffer args[ARGUMENTS];
};

/* The call's name, for what is printed. */
const char *call_name(enum kind kind);

/* Whether calls of a kind take a buffer. */
int call_takes(enum kind kind, enum argument argument);

/* Whether a role may make calls of a kind; no role may where they take none. */
int call_permits(enum kind kind, uint64_t role);

/* Whether a kind is a change in one step, or an ask; a change asked, and the change that is asked.
 * Kinds of other calls stay. */
int is_change(enum kind kind);
int is_ask(enum kind kind);
enum kind asked(enum kind change);
enum kind unasked(enum kind ask);

/* A sheet with a buffer of its length. */
struct call call_sheet(uint64_t B, uint64_t d, uint64_t r, uint64_t t, uint64_t n, uint64_t m);

/* A copy of a call; and of a change, asked, with a second table of the first one's length. */
struct call call_copy(const struct call *call);
struct call call_asked(const struct call *change);
void call_free(struct call *call);

/* Runs the call on its buffers and answers the number that it returns. */
uint64_t call_library(struct call *call);
uint64_t call_reference(struct call *call);

/* Runs the call on the library, and a copy of it on the reference implementation. Expects the same
 * number and the same bytes in every buffer; buffers that the call does not write, and in a refusal
 * all of them, to be as they were; guard bytes too. Answers the number. `call_compare_by` runs the
 * call by `run` instead of the library. */
uint64_t call_compare(struct call *call);
uint64_t call_compare_by(uint64_t (*run)(struct call *), struct call *call);

/* The totals that an accepted call left; whether two are the same. */
struct totals call_totals(const struct call *call);
int totals_same(struct totals a, struct totals b);

/* How many compared calls of a kind returned a code. */
unsigned long call_count(enum kind kind, uint64_t code);

/* `call_compare`, and expects that number; and the same, and frees the call. */
void call_expect(struct call *call, uint64_t number, const char *what);
void call_finish(struct call *call, uint64_t number, const char *what);

/* Expects two changes to be accepted, and to leave equal cards, tables and totals; frees both. */
void call_alike(struct call *call, struct call *other);

#endif
