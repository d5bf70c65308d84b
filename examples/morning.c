/* A morning's corrections: a dozen blocks updated and deleted in one batch. */
#include "scenes.h"

#include <stdio.h>
#include <stdlib.h>

/* The blocks as they are found to be wrong, and those among them that may no longer be kept. */
enum { CORRECTIONS = 12, EXPIRED = 2 };

static const uint64_t found[CORRECTIONS] = {241, 244, 246, 240, 243, 245, 73, 81, 89, 97, 7, 6};

static int is_expired(uint64_t number)
{
    return number == found[CORRECTIONS - 1] || number == found[CORRECTIONS - EXPIRED];
}

static int by_number(const void *a, const void *b)
{
    const struct correction *one = a, *other = b;
    return (one->number > other->number) - (one->number < other->number);
}

void morning(void)
{
    unsigned bays = (unsigned)in_card(LEGBARO_CARD_BLOCK_BYTES, 2);
    struct correction corrections[CORRECTIONS];
    puts("\nA MORNING'S CORRECTIONS TOGETHER");
    printf("  %d samples were wrong, and %d may no longer be kept. The owner fetches these %d "
           "blocks and sends one batch.\n",
           CORRECTIONS - EXPIRED, EXPIRED, CORRECTIONS);
    for (int i = 0; i < CORRECTIONS; i++) {
        struct bytes none = {NULL, 0};
        corrections[i].number = found[i];
        corrections[i].block =
            is_expired(found[i]) ? none : samples(bays, (unsigned)found[i] + 1, 1);
    }
    tell("ten updates and two deletions as they were found:",
         owner_corrects(LEGBARO_PLANNER, corrections, CORRECTIONS), LEGBARO_BAD_BATCH);
    puts("  The block numbers of a batch rise. Nothing has changed.");
    qsort(corrections, CORRECTIONS, sizeof *corrections, by_number);
    tell("the same in the order of their blocks:",
         owner_corrects(LEGBARO_PLANNER, corrections, CORRECTIONS), LEGBARO_OK);
    tell_card();
    puts("  Twelve corrections are one change: the table was fetched, sealed again and sent back "
         "once.");
    draw();
    prove_and_judge(LEGBARO_OK);
    for (int i = 0; i < CORRECTIONS; i++)
        free(corrections[i].block.at);
}
