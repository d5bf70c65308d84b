/* Changes in two steps: an ask whose table does not reach the host is dropped; asked again, it is
 * committed. */
#include "scenes.h"

#include <stdio.h>
#include <stdlib.h>

enum { BAYS = 40, TOKENS = 2, ARRIVED = 75 };

static void set_up(void)
{
    struct plan plan = {"carpark5", LEGBARO_TWO_STEPS, BAYS, A_WEEK, A_WEEK, TOKENS};
    struct bytes week = samples(BAYS, 0, A_WEEK);
    owner_begins(week);
    free(week.at);
    tell("the owner sets up with a week's blocks:", owner_sets_up(&plan), LEGBARO_OK);
    wipe("owner/blocks");
    tell_files("owner");
    tell_files("host");
}

/* What stands, and what is pending. */
static void tell_steps(void)
{
    unsigned long pending = (unsigned long)in_card(LEGBARO_CARD_PENDING_COUNTER, 8);
    printf("  the card says: %lu blocks at counter %lu; ",
           (unsigned long)in_card(LEGBARO_CARD_BLOCKS, 4),
           (unsigned long)in_card(LEGBARO_CARD_COUNTER, 8));
    if (pending)
        printf("pending: %lu blocks at counter %lu\n",
               (unsigned long)in_card(LEGBARO_CARD_PENDING_BLOCKS, 4), pending);
    else
        printf("nothing is pending, and the last counter issued is %lu\n",
               (unsigned long)in_card(LEGBARO_CARD_LAST_ISSUED, 8));
}

static void ask(struct bytes sample)
{
    tell("the surveyor asks for an append, the card is stored:",
         owner_asks_append(LEGBARO_SURVEYOR, sample), LEGBARO_OK);
    tell_steps();
}

/* A part of the second table arrives, and nothing of what is sent behind it. */
static void line_drops(void)
{
    owner_sends_asked();
    printf("  The line drops while the second table is on its way: %d of its %lu bytes arrive.\n",
           ARRIVED, (unsigned long)size_of("host/asked-table"));
    resize_file("host/asked-table", ARRIVED);
    wipe("host/asked-block");
    tell_files("host");
}

static void dropped(struct bytes sample)
{
    ask(sample);
    line_drops();
    puts("  The owner gives this ask up. The host throws away what it got, and the table that "
         "stood stands.");
    tell("the planner drops what is pending:", owner_drops(LEGBARO_PLANNER), LEGBARO_OK);
    tell_steps();
    draw();
    prove_and_judge(LEGBARO_OK);
}

static void committed(struct bytes sample)
{
    struct moment evening = {2026, 11, 23, 22 * 60};
    puts("\nASKED AGAIN, AND COMMITTED");
    ask(sample);
    puts("  Counter 1 has sealed a table that is somewhere on the line, and seals no other.");
    draw_at(evening, LEGBARO_CHANGE_PENDING);
    owner_sends_asked();
    puts("  This time all arrives, and the host says so.");
    tell_files("host");
    tell("the planner commits:", owner_commits(LEGBARO_PLANNER), LEGBARO_OK);
    tell_steps();
    tell_files("host");
    draw();
    prove_and_judge(LEGBARO_OK);
}

void dropped_line(void)
{
    struct bytes sample = samples(BAYS, A_WEEK, 1);
    puts("\nA LINE DROPS, IN A FILE OF VERSION 3");
    puts("  A fourth car park has a bad line. Its changes go in two steps: each is asked, and then "
         "committed or dropped.");
    make_folders("steps");
    set_up();
    dropped(sample);
    committed(sample);
    remove_folders("steps");
    free(sample.at);
}
