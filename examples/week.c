/*
 * One file's week: a car park's occupancy samples go to a storage host, one block a tick, a
 * morning's corrections go there together, and the host is audited. Then a new centre, which sends
 * a month together, one with closed days, one that changes its file in two steps, one where not
 * everybody may do everything, a chain of three that is audited with one reply, and one with parity
 * beside its file.
 *
 * Owner and host are two folders of real files in a temporary folder: parties.h. The program ends
 * with status 0 where every step came out as a planner expects it.
 */
#define _XOPEN_SOURCE 700
#include "scenes.h"

#include <stdio.h>
#include <stdlib.h>
#include <unistd.h>

/* Every audit draws all rows here, so it looks at every block. In a large file a few hundred of the
 * rows are enough. */
enum { BAYS = 96, ROWS = A_WEEK, POSITIONS = ROWS, TOKENS = 6 };

/* ---- The week ---- */

static void set_up(void)
{
    static const struct plan plan = {"carpark1", LEGBARO_WITH_MARKS, BAYS, ROWS, POSITIONS, TOKENS};
    struct bytes blocks = samples(BAYS, 0, ROWS);
    owner_begins(blocks);
    free(blocks.at);
    puts("SET-UP");
    printf("  A car park has %d bays and sends a sample an hour: one block of %d bytes.\n", BAYS,
           BAYS);
    printf("  Last week's %d samples are the first blocks, one for each of %d rows.\n", ROWS, ROWS);
    puts("  The file is of version 2: each block has a mark beside it, which says whether the "
         "block is live or deleted.");
    printf(
        "  %d tokens are made, each over all rows, and sealed in a table: enough for %d audits.\n",
        TOKENS, TOKENS);
    puts("  Three people work the owner's screen: a surveyor sends samples, a manager audits the "
         "host, a planner may do everything.");
    tell_files("owner");
    tell("the owner sets up the file, and sends all to the host:", owner_sets_up(&plan),
         LEGBARO_OK);
    wipe("owner/blocks");
    puts("  The owner's copy of the blocks is wiped.");
    tell_files("owner");
    tell_files("host");
}

/* A day's samples, one append each. Before each the host keeps a copy of its table, which it should
 * not use again. */
static void day(const char *name, unsigned number)
{
    char step[64];
    uint64_t result = LEGBARO_OK;
    for (unsigned tick = 0; tick < TICKS_A_DAY && result == LEGBARO_OK; tick++) {
        struct bytes block = samples(BAYS, ROWS + number * TICKS_A_DAY + tick, 1);
        copy_file("host/table", "host/table-before");
        result = owner_appends(LEGBARO_SURVEYOR, block);
        free(block.at);
    }
    snprintf(step, sizeof step, "%s, %d samples appended:", name, TICKS_A_DAY);
    tell(step, result, LEGBARO_OK);
}

static void changes(void)
{
    enum { STUCK = 180, EXPIRED = 5 };
    struct bytes corrected = samples(BAYS, STUCK, 1);
    puts("\nTHE WEEK");
    puts("  At each change the owner fetches the table, seals it again for the changed file and "
         "sends it back.");
    day("Monday", 0);
    day("Tuesday", 1);
    day("Wednesday", 2);
    printf("  A detector was stuck: the owner fetches block %d from the host and corrects it.\n",
           STUCK);
    tell("update:", owner_updates(LEGBARO_PLANNER, STUCK, corrected), LEGBARO_OK);
    free(corrected.at);
    day("Thursday", 3);
    printf("  Block %d may no longer be kept: zero bytes take its place, and its mark says so.\n",
           EXPIRED);
    tell("deletion:", owner_deletes(LEGBARO_PLANNER, EXPIRED), LEGBARO_OK);
    day("Friday", 4);
    day("Saturday", 5);
    day("Sunday", 6);
    tell_card();
    tell_files("owner");
    tell_files("host");
}

/* ---- The audits ---- */

/* The first draw comes while shops trade; the second one when the window has opened. */
static void audit_sound_host(void)
{
    struct moment morning = {2026, 11, 23, 10 * 60 + 30}, evening = morning;
    puts("\nAUDIT OF THE HOST AS IT IS, IN CLOSING HOURS");
    puts("  The host reads slowly while shops trade. The plan allows draws from 21:00 to 6:00, and "
         "on Sundays from 8:00 to 22:00.");
    puts("  It is Monday, 23 November 2026, 10:30.");
    draw_at(morning, LEGBARO_OUTSIDE_WINDOWS);
    uint64_t wait = owner_waits(&morning);
    tell("the wait for a window:", wait, LEGBARO_OK);
    evening.minute += LEGBARO_NUMBER(wait);
    printf("  It is %lu minutes: the owner draws at %lu:%02lu.\n",
           (unsigned long)LEGBARO_NUMBER(wait), (unsigned long)evening.minute / 60,
           (unsigned long)evening.minute % 60);
    draw_at(evening, LEGBARO_OK);
    prove_and_judge(LEGBARO_OK);
    puts("  The host holds every block, the newest too: the signs may be calibrated.");
}

/* The owner's copy of the table ends within a record; the rest is zero bytes. */
static void line_drops_in(uint64_t token)
{
    size_t whole = size_of("owner/table");
    resize_file("owner/table", token * LEGBARO_RECORD_BYTES - LEGBARO_RECORD_BYTES / 2);
    resize_file("owner/table", whole);
}

/* What the number with code 7 is for. */
static void fetch_from(uint64_t token)
{
    printf("  Record %lu is named, the lowest unused one that does not open. The owner fetches the "
           "records from %lu on again: %lu bytes.\n",
           (unsigned long)token, (unsigned long)token,
           (unsigned long)((TOKENS + 1 - token) * LEGBARO_RECORD_BYTES));
    owner_fetches(token);
}

static void bad_record(void)
{
    enum { STUCK = 200, DROPPED_IN = 3 };
    struct bytes corrected = samples(BAYS, STUCK, 1);
    puts("\nA RECORD DAMAGED ON THE WAY");
    printf("  Block %d is to be corrected too. The owner fetches the table, but the line drops in "
           "record %d: the rest is zero bytes.\n",
           STUCK, DROPPED_IN);
    owner_fetches(1);
    line_drops_in(DROPPED_IN);
    uint64_t result = owner_updates(LEGBARO_PLANNER, STUCK, corrected);
    tell("update:", result, LEGBARO_BAD_RECORD);
    if (LEGBARO_CODE(result) == LEGBARO_BAD_RECORD)
        fetch_from(LEGBARO_TOKEN(result));
    tell("update:", owner_updates(LEGBARO_PLANNER, STUCK, corrected), LEGBARO_OK);
    free(corrected.at);
    tell_card();
}

static void audit_lost_block(void)
{
    size_t whole = size_of("host/blocks");
    puts("\nAUDIT OF A HOST THAT LOST ITS NEWEST BLOCK");
    copy_file("host/blocks", "host/blocks-before");
    resize_file("host/blocks", whole - BAYS);
    draw();
    tell("the host proves from the blocks it has left:", host_proves(), LEGBARO_WRONG_LENGTH);
    resize_file("host/blocks", whole);
    puts("  The host says nothing and puts zero bytes where the block was.");
    prove_and_reject(LEGBARO_CAUSE_DIGEST);
    copy_file("host/blocks-before", "host/blocks");
}

static void audit_stale_table(void)
{
    puts("\nAUDIT OF A HOST WITH A STALE TABLE");
    puts("  The host has every block again, but the table from before Sunday's last sample.");
    copy_file("host/table-before", "host/table");
    draw();
    prove_and_reject(LEGBARO_CAUSE_COUNTER);
    tell_card();
}

static void first_centre(void)
{
    make_folders("first");
    set_up();
    changes();
    audit_sound_host();
    bad_record();
    morning();
    cut_reply();
    audit_lost_block();
    audit_stale_table();
    remove_folders("first");
}

int main(void)
{
    const char *place = getenv("TMPDIR");
    char folder[512];
    /* The six X are what mkdtemp puts other letters for. */
    snprintf(folder, sizeof folder, "%s/legbaro-week-XXXXXX", place ? place : P_tmpdir);
    if (!mkdtemp(folder) || chdir(folder) != 0)
        stop("make", folder);
    first_centre();
    new_centre();
    closed_days();
    dropped_line();
    who_may();
    chain();
    parity_beside();
    if (chdir("/") != 0 || rmdir(folder) != 0)
        stop("remove", folder);
    printf("\n%s\n", surprises() ? "Some steps did not come out as expected."
                                 : "Every step came out as expected.");
    return surprises() != 0;
}
