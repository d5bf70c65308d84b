/* Who may do what: a manager, a surveyor and a planner at the screen of one car park. */
#include "scenes.h"

#include <stdio.h>
#include <stdlib.h>

enum { BAYS = 40, TOKENS = 2, STUCK = 30, EXPIRED = 5, NO_ROLE = 0 };

static void set_up(void)
{
    static const struct plan plan = {"carpark6", LEGBARO_WITH_MARKS, BAYS, A_WEEK, A_WEEK, TOKENS};
    struct bytes week = samples(BAYS, 0, A_WEEK);
    owner_begins(week);
    free(week.at);
    tell("the owner sets up with a week's blocks:", owner_sets_up(&plan), LEGBARO_OK);
    wipe("owner/blocks");
}

static void correction(void)
{
    struct bytes corrected = samples(BAYS, STUCK, 1), half = {corrected.at, BAYS / 2};
    printf("  A detector was stuck, and the manager is the first to see it: block %d is wrong.\n",
           STUCK);
    tell("the manager updates it:", owner_updates(LEGBARO_MANAGER, STUCK, corrected),
         LEGBARO_NO_RIGHT);
    tell("the manager updates it with half a sample:", owner_updates(LEGBARO_MANAGER, STUCK, half),
         LEGBARO_NO_RIGHT);
    puts("  The answer is the same whatever else is lent, and nothing has changed.");
    tell_card();
    tell("the planner updates it:", owner_updates(LEGBARO_PLANNER, STUCK, corrected), LEGBARO_OK);
    free(corrected.at);
}

static void samples_of_a_day(void)
{
    struct bytes day = samples(BAYS, A_WEEK, TICKS_A_DAY);
    tell("someone whose role nobody knows loads a day's samples:", owner_loads(NO_ROLE, day),
         LEGBARO_NO_RIGHT);
    tell("the surveyor loads them:", owner_loads(LEGBARO_SURVEYOR, day), LEGBARO_OK);
    tell("the surveyor deletes a block:", owner_deletes(LEGBARO_SURVEYOR, EXPIRED),
         LEGBARO_NO_RIGHT);
    tell_card();
    free(day.at);
}

static void audit(void)
{
    struct moment evening = {2026, 11, 23, 22 * 60 + 15};
    tell("the surveyor draws a token:", owner_draws(LEGBARO_SURVEYOR, &evening), LEGBARO_NO_RIGHT);
    draw();
    prove_and_judge(LEGBARO_OK);
}

void who_may(void)
{
    puts("\nWHO MAY DO WHAT");
    puts("  At a fifth car park all three come to the screen.");
    make_folders("roles");
    set_up();
    correction();
    samples_of_a_day();
    audit();
    remove_folders("roles");
}
