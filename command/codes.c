/* See codes.h. */
#include "codes.h"

#include "legbaro.h"

struct words {
    const char *what, *next;
};

static const struct words codes[] = {
    [LEGBARO_OK] = {"accepted", ""},
    [LEGBARO_WRONG_LENGTH] = {"another length than the call asks",
                              "Look at the file's size, and fetch it again."},
    [LEGBARO_WRONG_HEADER] = {"no version that is known, or another size than its version has",
                              "Put the right file in its place."},
    [LEGBARO_OUT_OF_LIMITS] = {"a number is outside its limits",
                               "The limits stand in legbaro(1), under LIMITS."},
    [LEGBARO_NO_SUCH_BLOCK] =
        {"there is no block of that number",
         "'legbaro show' tells how many blocks there are; they are numbered from 1."},
    [LEGBARO_FILE_FULL] = {"the file would have more than 16777216 blocks",
                           "Set up another file for the blocks that come."},
    [LEGBARO_NO_TOKEN_LEFT] = {"every token is spent",
                               "Set up a new file, under another id, for further audits."},
    [LEGBARO_BAD_RECORD] = {"a record does not open",
                            "Fetch the table again from that record on. Where that does not help, "
                            "it is the table of another file or of another "
                            "change, or the key is another one."},
    [LEGBARO_TOKEN_OPEN] = {"a token is drawn and not judged",
                            "Send 'message' to the host, and judge the reply first: 'legbaro judge "
                            "REPLY'. 'legbaro draw --again' "
                            "writes 'message' again."},
    [LEGBARO_NONE_OPEN] =
        {"no token is drawn",
         "Draw one first: 'legbaro draw'. A reply that was judged is not judged again."},
    [LEGBARO_COUNTER_AT_MOST] =
        {"the counter is at its most",
         "Set up a new file, under another id: this one takes no further change."},
    [LEGBARO_REJECTED] = {"the reply does not prove possession",
                          "'legbaro cause REPLY' before judging tells why."},
    [LEGBARO_NOT_WHOLE_BLOCKS] =
        {"these are no whole blocks",
         "The file must have one block or more, of the block bytes that 'legbaro show' tells."},
    [LEGBARO_TOO_MANY_POSITIONS] =
        {"more than 512 positions",
         "Look at fewer positions, plan fewer rows, or set up with more blocks."},
    [LEGBARO_BAD_BATCH] = {"these items are no batch",
                           "A batch has 1 to 64 items, and the numbers of their blocks rise."},
    [LEGBARO_BAD_MARK] = {"a mark is neither 0 (live) nor 1 (deleted)", "Fetch the marks again."},
    [LEGBARO_BAD_TIME] =
        {"there is no such time",
         "Dates go from 2000-01-01 to 2099-12-31, and times of the day from 00:00 to 23:59."},
    [LEGBARO_OUTSIDE_WINDOWS] = {"the plan allows no draw at this time",
                                 "'legbaro wait' tells how long to wait."},
    [LEGBARO_CHANGE_PENDING] = {"a change is pending",
                                "Send 'change' to the host and commit when the host has it: "
                                "'legbaro commit'. Or give it up: 'legbaro drop'."},
    [LEGBARO_NONE_PENDING] = {"no change is pending",
                              "Nothing is left to do: 'legbaro show' tells what stands."},
    [LEGBARO_TOO_MANY_DAMAGED] = {"more damaged rows than there are rows",
                                  "Tell fewer damaged rows."},
    [LEGBARO_NO_RIGHT] = {"this role may not do that",
                          "Let someone do it who may: legbaro(1), under ROLES."},
    [LEGBARO_BAD_POOL] = {"a pool is of 2 to 16 different files",
                          "Name each file once, and not more than sixteen."},
    [LEGBARO_BAD_GROUP] =
        {"a group has 1 to 48 data and 1 to 16 parity blocks, and a lost block is named once",
         "Name other numbers."},
    [LEGBARO_TOO_MANY_LOST] = {"more blocks are lost than there are parity blocks",
                               "Find another copy of some of them: these can't be rebuilt."},
};

static const struct words causes[] = {
    [0] = {"none: judge would accept the reply", "Judge it: 'legbaro judge REPLY'."},
    [LEGBARO_CAUSE_SIZE] = {"wrong size: the reply was cut or lengthened on the way, or is none",
                            "Ask the host to send it again."},
    [LEGBARO_CAUSE_HEADER] =
        {"wrong header: reply or record are not of this file's version",
         "Ask the host to use the program and the table that belong to the file."},
    [LEGBARO_CAUSE_NAME] =
        {"another name: the reply is for another message or another file",
         "Ask the host to answer the message drawn last, from this file's table."},
    [LEGBARO_CAUSE_COUNTER] = {"another counter: the table is from before the last change, or from "
                               "one that does not stand",
                               "Ask the host to apply the change that stands, and to prove again."},
    [LEGBARO_CAUSE_TAG] = {"bad tag: the token's record was altered",
                           "Ask the host to use a copy of the table that stands. Where every file "
                           "has this cause, the key "
                           "is another one."},
    [LEGBARO_CAUSE_DIGEST] = {"other digest: a block or a mark in the rows drawn is not the file's",
                              "The host has lost what it was to keep."},
};

static const struct words *of(const struct words *all, uint64_t count, uint64_t number)
{
    static const struct words unknown = {"turned away for a reason that this program does not know",
                                         "Use the program that belongs to the library."};
    return number < count && all[number].what ? &all[number] : &unknown;
}

const char *code_words(uint64_t code)
{
    return of(codes, sizeof codes / sizeof *codes, code)->what;
}

const char *code_next(uint64_t code)
{
    return of(codes, sizeof codes / sizeof *codes, code)->next;
}

const char *cause_words(uint64_t cause)
{
    return of(causes, sizeof causes / sizeof *causes, cause)->what;
}

const char *cause_next(uint64_t cause)
{
    return of(causes, sizeof causes / sizeof *causes, cause)->next;
}
