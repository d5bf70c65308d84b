/* A new centre: set up with fewer blocks than rows, then the rest of the month in one load. */
#include "scenes.h"

#include <stdio.h>
#include <stdlib.h>

/* A month of samples, one row for each hour. */
enum { BAYS = 40, ROWS = 30 * TICKS_A_DAY, HELD_BACK = ROWS - A_WEEK, TOKENS = 2 };

/* How many of the blocks present an audit is to look at. */
enum { OF_A_DAY = 20, OF_A_WEEK = 80 };

/* How many of the planned rows an audit draws for that. */
static uint64_t planned(void)
{
    puts("\nA NEW CENTRE PLANS");
    printf("  A second car park plans a month: %d rows, one for each hour. It sets up with the "
           "blocks it has so far.\n",
           ROWS);
    puts("  Rows without a block add nothing to a token, so that more rows are drawn than blocks "
         "are looked at.");
    tell("positions to look at 20 of the first day's 24 blocks:",
         legbaro_positions(OF_A_DAY, ROWS, TICKS_A_DAY), LEGBARO_TOO_MANY_POSITIONS);
    uint64_t result = legbaro_positions(OF_A_WEEK, ROWS, A_WEEK);
    tell("positions to look at 80 of the first week's 168 blocks:", result, LEGBARO_OK);
    printf(
        "  %lu of the %d rows are drawn: on the average %d of those with a block are among them.\n",
        (unsigned long)LEGBARO_NUMBER(result), ROWS, OF_A_WEEK);
    return LEGBARO_NUMBER(result);
}

static void set_up(uint64_t positions)
{
    struct plan plan = {"carpark2", LEGBARO_WITH_MARKS, BAYS, ROWS, positions, TOKENS};
    struct bytes week = samples(BAYS, 0, A_WEEK);
    owner_begins(week);
    free(week.at);
    tell("the owner sets up with a week's blocks:", owner_sets_up(&plan), LEGBARO_OK);
    wipe("owner/blocks");
    tell_card();
    tell_files("host");
}

/* The load is cut short at first. */
static void rest_of_the_month(void)
{
    struct bytes held_back = samples(BAYS, A_WEEK, HELD_BACK), cut = held_back;
    cut.length -= BAYS / 2;
    puts("\nTHE REST OF THE MONTH IN ONE LOAD");
    printf("  The centre holds %d samples back and sends them together.\n", HELD_BACK);
    tell("the surveyor loads them, half of the last is missing:",
         owner_loads(LEGBARO_SURVEYOR, cut), LEGBARO_NOT_WHOLE_BLOCKS);
    tell_card();
    tell("the surveyor loads them all, whole:", owner_loads(LEGBARO_SURVEYOR, held_back),
         LEGBARO_OK);
    tell_card();
    tell_files("host");
    puts("  The table was fetched, sealed again and sent back once.");
    tell_work("owner");
    printf("  That is a walk back for each of %d blocks and each of %d tokens, and a hash where "
           "the token draws the block's row.\n",
           HELD_BACK, TOKENS);
    puts("  The owner keeps these numbers, since they tell how many tokens cover the load.");
    free(held_back.at);
}

/* The first week has fewer rows than are drawn, so that an audit always looks at rows of the
 * load. */
static void audits(void)
{
    puts("\nAUDITS OF THE NEW CENTRE'S HOST");
    draw();
    prove();
    tell_work("host");
    puts("  By these the host may charge: a walk for each row drawn, and a hash for each block in "
         "these rows.");
    judge(LEGBARO_OK);
    puts("  The host loses what the load brought and puts zero bytes there.");
    resize_file("host/blocks", (size_t)A_WEEK * BAYS);
    resize_file("host/blocks", (size_t)ROWS * BAYS);
    draw();
    prove_and_reject(LEGBARO_CAUSE_DIGEST);
}

void new_centre(void)
{
    make_folders("new");
    set_up(planned());
    rest_of_the_month();
    audits();
    remove_folders("new");
}
