/* Whether the tests reached every code of every call. */
#include "cases.h"

#include "support/calls.h"
#include "support/expect.h"

#define CODE(code) (1u << (code))
#define READS                                                                                      \
    (CODE(LEGBARO_OK) | CODE(LEGBARO_WRONG_LENGTH) | CODE(LEGBARO_WRONG_HEADER) |                  \
     CODE(LEGBARO_OUT_OF_LIMITS))
#define READS_CARD (READS | CODE(LEGBARO_NO_RIGHT))
#define CHANGES                                                                                    \
    (READS_CARD | CODE(LEGBARO_TOKEN_OPEN) | CODE(LEGBARO_CHANGE_PENDING) |                        \
     CODE(LEGBARO_COUNTER_AT_MOST) | CODE(LEGBARO_BAD_RECORD))
#define CODED                                                                                      \
    (CODE(LEGBARO_OK) | CODE(LEGBARO_WRONG_LENGTH) | CODE(LEGBARO_OUT_OF_LIMITS) |                 \
     CODE(LEGBARO_BAD_GROUP))

/* The codes of each kind of call, a bit for each; an ask has those of its change. */
static const unsigned codes[KINDS] = {
    [SET_UP] = CODE(LEGBARO_OK) | CODE(LEGBARO_WRONG_LENGTH) | CODE(LEGBARO_OUT_OF_LIMITS),
    [UPDATE] = CHANGES | CODE(LEGBARO_BAD_MARK) | CODE(LEGBARO_NO_SUCH_BLOCK),
    [DELETE] = CHANGES | CODE(LEGBARO_BAD_MARK) | CODE(LEGBARO_NO_SUCH_BLOCK),
    [APPEND] = CHANGES | CODE(LEGBARO_FILE_FULL),
    [LOAD] = CHANGES | CODE(LEGBARO_NOT_WHOLE_BLOCKS) | CODE(LEGBARO_FILE_FULL),
    [BATCH] =
        CHANGES | CODE(LEGBARO_BAD_BATCH) | CODE(LEGBARO_BAD_MARK) | CODE(LEGBARO_NO_SUCH_BLOCK),
    [COMMIT] = READS_CARD | CODE(LEGBARO_NONE_PENDING),
    [DROP] = READS_CARD | CODE(LEGBARO_NONE_PENDING),
    [DRAW] = READS_CARD | CODE(LEGBARO_BAD_TIME) | CODE(LEGBARO_OUTSIDE_WINDOWS) |
             CODE(LEGBARO_TOKEN_OPEN) | CODE(LEGBARO_CHANGE_PENDING) | CODE(LEGBARO_NO_TOKEN_LEFT),
    [JUDGE] = READS_CARD | CODE(LEGBARO_NONE_OPEN) | CODE(LEGBARO_REJECTED),
    [CAUSE] = READS_CARD | CODE(LEGBARO_NONE_OPEN),
    [JUDGE_POOL] =
        READS_CARD | CODE(LEGBARO_BAD_POOL) | CODE(LEGBARO_NONE_OPEN) | CODE(LEGBARO_REJECTED),
    [PROVE] = READS | CODE(LEGBARO_BAD_MARK),
    [POOL] = CODE(LEGBARO_OK) | CODE(LEGBARO_WRONG_LENGTH) | CODE(LEGBARO_WRONG_HEADER) |
             CODE(LEGBARO_BAD_POOL),
    [WAIT] = CODE(LEGBARO_OK) | CODE(LEGBARO_WRONG_LENGTH) | CODE(LEGBARO_OUT_OF_LIMITS) |
             CODE(LEGBARO_BAD_TIME),
    [SHEET] = CODE(LEGBARO_OK) | CODE(LEGBARO_WRONG_LENGTH) | CODE(LEGBARO_OUT_OF_LIMITS) |
              CODE(LEGBARO_TOO_MANY_DAMAGED),
    [PARITY_ENCODE] = CODED,
    [PARITY_REBUILD] = CODED | CODE(LEGBARO_TOO_MANY_LOST),
    [POSITIONS] = CODE(LEGBARO_OK) | CODE(LEGBARO_OUT_OF_LIMITS) | CODE(LEGBARO_TOO_MANY_POSITIONS),
};

void test_codes(void)
{
    test_begin("each call has returned each of its codes, and no other");
    for (int kind = 0; kind < KINDS; kind++)
        for (unsigned code = LEGBARO_OK; code <= LAST_CODE; code++)
            expect((call_count(kind, code) > 0) == ((codes[unasked(kind)] & CODE(code)) != 0),
                   "%s, code %u", call_name(kind), code);
    test_end();
}
