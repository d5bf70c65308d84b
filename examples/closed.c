/* A closed day is not a deleted block: the same file in version 1 and in version 2, and a host that
 * drops what it takes for deleted. */
#include "scenes.h"

#include <stdio.h>
#include <stdlib.h>
#include <string.h>

/* The last day of the week has samples of zeros: no bay was taken. */
enum { BAYS = 40, TOKENS = 2, CLOSED = 6 * TICKS_A_DAY, EXPIRED = 5 };

static void set_up(uint64_t version)
{
    struct plan plan = {version == LEGBARO_WITH_MARKS ? "carpark4" : "carpark3",
                        version,
                        BAYS,
                        A_WEEK,
                        A_WEEK,
                        TOKENS};
    struct bytes week = samples(BAYS, 0, A_WEEK);
    memset(week.at + (size_t)CLOSED * BAYS, 0, (size_t)TICKS_A_DAY * BAYS);
    owner_begins(week);
    free(week.at);
    tell("the owner sets up with a week's blocks:", owner_sets_up(&plan), LEGBARO_OK);
    wipe("owner/blocks");
    tell("deletion of a block that may no longer be kept:", owner_deletes(LEGBARO_PLANNER, EXPIRED),
         LEGBARO_OK);
    tell_files("host");
}

/* The host loses the closed day's blocks, and answers as if they were deleted ones: zero bytes,
 * with that mark where there are marks. */
static void drop_closed_day(uint64_t version)
{
    struct bytes zeros = room((size_t)TICKS_A_DAY * BAYS), marks = room(TICKS_A_DAY);
    memset(marks.at, LEGBARO_DELETED, marks.length);
    write_part("host/blocks", (size_t)CLOSED * BAYS, zeros);
    if (version == LEGBARO_WITH_MARKS)
        write_part("host/marks", CLOSED, marks);
    free(zeros.at);
    free(marks.at);
}

static void closed_day(uint64_t version)
{
    make_folders("closed");
    set_up(version);
    draw();
    prove_and_judge(LEGBARO_OK);
    puts("  The host drops the closed day, as if its blocks were deleted.");
    drop_closed_day(version);
    draw();
    if (version == LEGBARO_WITH_MARKS)
        prove_and_reject(LEGBARO_CAUSE_DIGEST);
    else
        prove_and_judge(LEGBARO_OK);
    remove_folders("closed");
}

void closed_days(void)
{
    puts("\nA CLOSED DAY, IN A FILE OF VERSION 1");
    puts("  A third car park is closed on Sunday: its samples are blocks of zeros, and belong to "
         "the file.");
    closed_day(LEGBARO_WITHOUT_MARKS);
    puts("  Blocks of zeros hash like deleted ones, and the owner can't see that the day is gone.");
    puts("\nTHE SAME IN A FILE OF VERSION 2");
    closed_day(LEGBARO_WITH_MARKS);
    puts("  The mark is hashed with the block: a live block of zeros is not a deleted one.");
}
