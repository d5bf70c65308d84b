/* See scenes.h. */
#include "scenes.h"

#include <stdio.h>

static int others;

struct bytes samples(unsigned bays, unsigned first_hour, unsigned hours)
{
    struct bytes blocks = room((size_t)hours * bays);
    uint8_t *at = blocks.at;
    for (unsigned hour = first_hour; hour < first_hour + hours; hour++)
        for (unsigned bay = 0; bay < bays; bay++)
            *at++ = (hour % TICKS_A_DAY) * 4 > (bay * 37 + hour * 11) % bays;
    return blocks;
}

void tell(const char *step, uint64_t result, uint64_t expected)
{
    static const char *const results[] = {
        [LEGBARO_OK] = "accepted",
        [LEGBARO_WRONG_LENGTH] = "turned away: a buffer has another length",
        [LEGBARO_WRONG_HEADER] = "turned away: no card or message of this version",
        [LEGBARO_OUT_OF_LIMITS] = "turned away: a number is outside its limits",
        [LEGBARO_NO_SUCH_BLOCK] = "turned away: there is no such block",
        [LEGBARO_FILE_FULL] = "turned away: the file is full",
        [LEGBARO_NO_TOKEN_LEFT] = "turned away: every token is spent",
        [LEGBARO_BAD_RECORD] = "turned away: a record of the table does not open",
        [LEGBARO_TOKEN_OPEN] = "turned away: a drawn token is not judged yet",
        [LEGBARO_NONE_OPEN] = "turned away: no token is drawn",
        [LEGBARO_COUNTER_AT_MOST] = "turned away: the counter is at its most",
        [LEGBARO_REJECTED] = "REJECTED",
        [LEGBARO_NOT_WHOLE_BLOCKS] = "turned away: these are not whole blocks",
        [LEGBARO_TOO_MANY_POSITIONS] = "turned away: more than 512 positions",
        [LEGBARO_BAD_MARK] = "turned away: no mark of a block",
        [LEGBARO_BAD_TIME] = "turned away: there is no such time",
        [LEGBARO_OUTSIDE_WINDOWS] = "turned away: the plan allows no draw now",
        [LEGBARO_CHANGE_PENDING] = "turned away: a change is pending",
        [LEGBARO_NONE_PENDING] = "turned away: no change is pending",
        [LEGBARO_NO_RIGHT] = "turned away: this role may not",
        [LEGBARO_BAD_BATCH] = "turned away: these items are no batch",
        [LEGBARO_BAD_POOL] = "turned away: these files are no pool",
        [LEGBARO_BAD_GROUP] = "turned away: no group, or no lost blocks of it",
        [LEGBARO_TOO_MANY_LOST] = "turned away: more are lost than can come back",
    };
    printf("  %-56s %s\n", step, results[LEGBARO_CODE(result)]);
    if (LEGBARO_CODE(result) != expected) {
        printf("    expected: %s\n", results[expected]);
        others++;
    }
}

int surprises(void)
{
    return others;
}

void tell_files(const char *party)
{
    static const char *const names[] = {"master", "card",  "plan",        "blocks",
                                        "marks",  "table", "asked-table", "asked-block"};
    char name[32];
    printf("  the %s holds:", party);
    for (size_t i = 0; i < sizeof names / sizeof *names; i++) {
        snprintf(name, sizeof name, "%s/%s", party, names[i]);
        if (is_there(name))
            printf(" %s (%lu bytes)", names[i], (unsigned long)size_of(name));
    }
    putchar('\n');
}

void tell_card(void)
{
    unsigned long changes = (unsigned long)in_card(LEGBARO_CARD_COUNTER, 8);
    printf("  the card says: %lu blocks, %lu change%s so far, token %lu of %lu is drawn next\n",
           (unsigned long)in_card(LEGBARO_CARD_BLOCKS, 4), changes, changes == 1 ? "" : "s",
           (unsigned long)in_card(LEGBARO_CARD_NEXT, 4),
           (unsigned long)in_card(LEGBARO_CARD_TOKENS, 4));
}

void tell_work(const char *party)
{
    printf("  the %s's totals say: %lu turns of the permutation, %lu hashes of blocks\n", party,
           (unsigned long)in_totals(party, LEGBARO_TOTALS_TURNS),
           (unsigned long)in_totals(party, LEGBARO_TOTALS_HASHES));
}

void draw_at(struct moment now, uint64_t code)
{
    tell("the manager draws a token and sends the message:", owner_draws(LEGBARO_MANAGER, &now),
         code);
}

/* A Monday at 22:15. */
void draw(void)
{
    struct moment evening = {2026, 11, 23, 22 * 60 + 15};
    draw_at(evening, LEGBARO_OK);
}

void tell_cause(uint64_t expected)
{
    static const char *const causes[] = {
        [0] = "none: judge would accept the reply",
        [LEGBARO_CAUSE_SIZE] = "wrong size: it was cut on the way, send it again",
        [LEGBARO_CAUSE_HEADER] = "wrong header: use this file's version",
        [LEGBARO_CAUSE_NAME] = "another file or token: answer the last message",
        [LEGBARO_CAUSE_COUNTER] = "another counter: use the table sent last",
        [LEGBARO_CAUSE_TAG] = "bad tag: the table is damaged, use a copy",
        [LEGBARO_CAUSE_DIGEST] = "other digest: a block or a mark is not the file's",
    };
    uint64_t result = owner_asks_cause(LEGBARO_MANAGER), cause = LEGBARO_NUMBER(result);
    printf("  %-56s %s\n", "the manager asks for the cause, and tells the host:", causes[cause]);
    if (result != LEGBARO_OK + 256 * expected) {
        printf("    expected: %s\n", causes[expected]);
        others++;
    }
}

void prove(void)
{
    tell("the host proves from message, blocks and table:", host_proves(), LEGBARO_OK);
}

void judge(uint64_t verdict)
{
    tell("the manager judges the reply:", owner_judges(LEGBARO_MANAGER), verdict);
}

void prove_and_judge(uint64_t verdict)
{
    prove();
    judge(verdict);
}

void prove_and_reject(uint64_t cause)
{
    prove();
    tell_cause(cause);
    judge(LEGBARO_REJECTED);
}
