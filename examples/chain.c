/* One reply for a chain: three car parks of one owner at one host, audited together, and singly
 * where the host has lost a block. */
#include "scenes.h"

#include <stdio.h>
#include <stdlib.h>

enum { BAYS = 40, TOKENS = 3, CENTRES = 3, LOST_IN = 1, LOST = 100 };

/* The folders of the centres, and their plans: a file of each version. */
static const char *const folders[CENTRES] = {"north", "harbour", "station"};
static const struct plan plans[CENTRES] = {
    {"carpark7", LEGBARO_WITHOUT_MARKS, BAYS, A_WEEK, A_WEEK, TOKENS},
    {"carpark8", LEGBARO_WITH_MARKS, BAYS, A_WEEK, A_WEEK, TOKENS},
    {"carpark9", LEGBARO_TWO_STEPS, BAYS, A_WEEK, A_WEEK, TOKENS},
};

static void tell_of(int centre, const char *what, uint64_t result)
{
    char step[64];
    snprintf(step, sizeof step, "%s: %s", folders[centre], what);
    tell(step, result, LEGBARO_OK);
}

static void set_up(int centre)
{
    struct bytes week = samples(BAYS, 0, A_WEEK);
    make_folders(folders[centre]);
    owner_begins(week);
    tell_of(centre, "the owner sets up:", owner_sets_up(&plans[centre]));
    wipe("owner/blocks");
    leave_folders();
    free(week.at);
}

/* A draw and a proof of each file, one reply of the three, and its verdict. */
static void audit_together(uint64_t verdict)
{
    struct moment evening = {2026, 11, 23, 22 * 60 + 15};
    for (int centre = 0; centre < CENTRES; centre++) {
        enter_folders(folders[centre]);
        tell_of(centre, "the manager draws a token:", owner_draws(LEGBARO_MANAGER, &evening));
        tell_of(centre, "the host proves:", host_proves());
        leave_folders();
    }
    tell("the host makes one reply of the three:", host_pools(folders, CENTRES), LEGBARO_OK);
    tell("the manager judges it, lent all three cards:",
         owner_judges_pool(LEGBARO_MANAGER, folders, CENTRES), verdict);
}

/* The host puts zero bytes where the block was. */
static void lose_block(void)
{
    struct bytes zeros = room(BAYS);
    enter_folders(folders[LOST_IN]);
    write_part("host/blocks", (size_t)(LOST - 1) * BAYS, zeros);
    leave_folders();
    free(zeros.at);
}

/* Which file it was. The draws of the pool are closed, so each file is drawn again. */
static void audit_singly(void)
{
    for (int centre = 0; centre < CENTRES; centre++) {
        printf("  %s:\n", folders[centre]);
        enter_folders(folders[centre]);
        draw();
        if (centre == LOST_IN)
            prove_and_reject(LEGBARO_CAUSE_DIGEST);
        else
            prove_and_judge(LEGBARO_OK);
        leave_folders();
    }
}

void chain(void)
{
    puts("\nONE REPLY FOR A CHAIN");
    puts("  An owner has three more car parks at one host, in files of versions 1, 2 and 3 under "
         "one key.");
    for (int centre = 0; centre < CENTRES; centre++)
        set_up(centre);
    audit_together(LEGBARO_OK);
    printf("  One reply of %lu bytes, and one verdict, which closes all three draws.\n",
           (unsigned long)size_of("pooled"));
    puts("\nA CHAIN WHOSE HOST LOST A BLOCK");
    printf("  The host loses block %d of one file, says nothing and puts zero bytes where the "
           "block was.\n",
           LOST);
    lose_block();
    audit_together(LEGBARO_REJECTED);
    puts("  The verdict does not tell which file it was, and no draw is open to ask the cause. "
         "Each file is drawn again, and judged singly.");
    audit_singly();
    for (int centre = 0; centre < CENTRES; centre++) {
        enter_folders(folders[centre]);
        remove_folders(folders[centre]);
    }
    wipe("pooled");
}
