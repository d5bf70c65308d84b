/* How a call goes to the functions of an implementation: one dispatch, which differs only in prefix
 * and suffix of their names. */
#ifndef DISPATCH_H
#define DISPATCH_H

/* A buffer and a time as C passes them. */
#define ARG(argument) call->args[argument].bytes, call->args[argument].length
#define ARG_TIME call->year, call->month, call->day, call->minute

#define DISPATCH(prefix, suffix)                                                                   \
    switch (call->kind) {                                                                          \
    case SET_UP:                                                                                   \
        return prefix##_set_up##suffix(ARG(MASTER), ARG(ID), call->version, call->B, call->d,      \
                                       call->r, call->t, call->n, ARG(BLOCKS), ARG(CARD),          \
                                       ARG(TABLE), ARG(TOTALS));                                   \
    case UPDATE:                                                                                   \
        return prefix##_update##suffix(call->role, ARG(MASTER), ARG(CARD), ARG(TABLE), call->m,    \
                                       ARG(OLD), ARG(MARKS), ARG(NEW), ARG(TOTALS));               \
    case DELETE:                                                                                   \
        return prefix##_delete##suffix(call->role, ARG(MASTER), ARG(CARD), ARG(TABLE), call->m,    \
                                       ARG(OLD), ARG(MARKS), ARG(TOTALS));                         \
    case APPEND:                                                                                   \
        return prefix##_append##suffix(call->role, ARG(MASTER), ARG(CARD), ARG(TABLE), ARG(NEW),   \
                                       ARG(TOTALS));                                               \
    case LOAD:                                                                                     \
        return prefix##_load##suffix(call->role, ARG(MASTER), ARG(CARD), ARG(TABLE), ARG(BLOCKS),  \
                                     ARG(TOTALS));                                                 \
    case BATCH:                                                                                    \
        return prefix##_batch##suffix(call->role, ARG(MASTER), ARG(CARD), ARG(TABLE), ARG(ITEMS),  \
                                      ARG(TOTALS));                                                \
    case ASK_UPDATE:                                                                               \
        return prefix##_ask_update##suffix(call->role, ARG(MASTER), ARG(CARD), ARG(TABLE),         \
                                           ARG(SECOND), call->m, ARG(OLD), ARG(MARKS), ARG(NEW),   \
                                           ARG(TOTALS));                                           \
    case ASK_DELETE:                                                                               \
        return prefix##_ask_delete##suffix(call->role, ARG(MASTER), ARG(CARD), ARG(TABLE),         \
                                           ARG(SECOND), call->m, ARG(OLD), ARG(MARKS),             \
                                           ARG(TOTALS));                                           \
    case ASK_APPEND:                                                                               \
        return prefix##_ask_append##suffix(call->role, ARG(MASTER), ARG(CARD), ARG(TABLE),         \
                                           ARG(SECOND), ARG(NEW), ARG(TOTALS));                    \
    case ASK_LOAD:                                                                                 \
        return prefix##_ask_load##suffix(call->role, ARG(MASTER), ARG(CARD), ARG(TABLE),           \
                                         ARG(SECOND), ARG(BLOCKS), ARG(TOTALS));                   \
    case ASK_BATCH:                                                                                \
        return prefix##_ask_batch##suffix(call->role, ARG(MASTER), ARG(CARD), ARG(TABLE),          \
                                          ARG(SECOND), ARG(ITEMS), ARG(TOTALS));                   \
    case COMMIT:                                                                                   \
        return prefix##_commit##suffix(call->role, ARG(CARD));                                     \
    case DROP:                                                                                     \
        return prefix##_drop##suffix(call->role, ARG(CARD));                                       \
    case DRAW:                                                                                     \
        return prefix##_draw##suffix(call->role, ARG(MASTER), ARG(CARD), ARG(MESSAGE), ARG(PLAN),  \
                                     ARG_TIME);                                                    \
    case JUDGE:                                                                                    \
        return prefix##_judge##suffix(call->role, ARG(MASTER), ARG(CARD), ARG(REPLY));             \
    case CAUSE:                                                                                    \
        return prefix##_cause##suffix(call->role, ARG(MASTER), ARG(CARD), ARG(REPLY));             \
    case JUDGE_POOL:                                                                               \
        return prefix##_judge_pool##suffix(call->role, ARG(MASTER), ARG(CARDS), ARG(REPLY));       \
    case PROVE:                                                                                    \
        return prefix##_prove##suffix(ARG(MESSAGE), ARG(BLOCKS), ARG(MARKS), ARG(TABLE),           \
                                      ARG(REPLY), ARG(TOTALS));                                    \
    case POOL:                                                                                     \
        return prefix##_pool##suffix(ARG(REPLIES), ARG(POOLED));                                   \
    case WAIT:                                                                                     \
        return prefix##_wait##suffix(ARG(PLAN), ARG_TIME);                                         \
    case SHEET:                                                                                    \
        return prefix##_sheet##suffix(call->B, call->d, call->r, call->t, call->n, call->m,        \
                                      ARG(OUT));                                                   \
    case PARITY_ENCODE:                                                                            \
        return prefix##_parity_encode##suffix(call->B, call->n, call->r, ARG(BLOCKS), ARG(OUT));   \
    case PARITY_REBUILD:                                                                           \
        return prefix##_parity_rebuild##suffix(call->B, call->n, call->r, ARG(BLOCKS), ARG(LOST),  \
                                               ARG(OUT));                                          \
    default:                                                                                       \
        return prefix##_positions##suffix(call->r, call->d, call->n);                              \
    }

#endif
