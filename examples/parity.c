/* Parity beside a file: a day's samples and their parity blocks are two files at two hosts. Blocks
 * are lost, found out by audits, and rebuilt; after a correction the group is encoded again and the
 * file of parity follows. */
#include "scenes.h"

#include <stdio.h>
#include <stdlib.h>
#include <string.h>

/* One group: a day's samples, and four parity blocks. */
enum { BAYS = 40, DATA = TICKS_A_DAY, PARITY = 4, TOKENS = 4, STUCK = 12 };

/* The folders of the file of parity stand inside those of the data, so that each is one step from
 * the other. */
#define DATA_FOLDER "group"
#define PARITY_FOLDER "parity"

static void set_up(const char *id, uint64_t blocks_count, struct bytes blocks, const char *step)
{
    struct plan plan = {id, LEGBARO_WITH_MARKS, BAYS, blocks_count, blocks_count, TOKENS};
    owner_begins(blocks);
    tell(step, owner_sets_up(&plan), LEGBARO_OK);
    wipe("owner/blocks");
    tell_files("host");
}

/* The parity blocks of the data. */
static struct bytes encoded(struct bytes data)
{
    struct bytes parity = room((size_t)PARITY * BAYS);
    tell("the owner encodes the day's 24 blocks into 4:",
         legbaro_parity_encode(BAYS, DATA, PARITY, ARG(data), ARG(parity)), LEGBARO_OK);
    return parity;
}

static void begin(void)
{
    struct bytes day = samples(BAYS, 0, DATA), parity = encoded(day);
    make_folders(DATA_FOLDER);
    set_up("car7data", DATA, day, "the owner sets up the data, one host gets them:");
    make_folders(PARITY_FOLDER);
    set_up("car7pari", PARITY, parity, "the owner sets up the parity, another host gets it:");
    go_to("..");
    free(day.at);
    free(parity.at);
}

/* Audits both hosts. */
static void audit_both(uint64_t verdict)
{
    static const char *const hosts[] = {"  The host of the data:", "  The host of the parity:"};
    for (int i = 0; i < 2; i++) {
        puts(hosts[i]);
        draw();
        if (verdict == LEGBARO_OK)
            prove_and_judge(verdict);
        else
            prove_and_reject(LEGBARO_CAUSE_DIGEST);
        go_to(i == 0 ? PARITY_FOLDER : "..");
    }
}

/* Zero bytes in the place of the blocks that are lost: numbers of the group, data first. */
static void lose(const uint8_t *lost, size_t count)
{
    struct bytes zeros = room(BAYS);
    for (size_t i = 0; i < count; i++)
        if (lost[i] < DATA)
            write_part("host/blocks", (size_t)lost[i] * BAYS, zeros);
        else
            write_part(PARITY_FOLDER "/host/blocks", (size_t)(lost[i] - DATA) * BAYS, zeros);
    free(zeros.at);
}

/* Fetches what both hosts have and rebuilds the data. Lost data blocks go back to their host, and
 * the parity of all to the other. */
static void rebuild(const uint8_t *lost, size_t count)
{
    struct bytes data = read_file("host/blocks"), parity = read_file(PARITY_FOLDER "/host/blocks");
    struct bytes blocks = room(data.length + parity.length);
    memcpy(blocks.at, data.at, data.length);
    memcpy(blocks.at + data.length, parity.at, parity.length);
    free(parity.at);
    tell("the owner rebuilds, one lost block more is named:",
         legbaro_parity_rebuild(BAYS, DATA, PARITY, ARG(blocks), lost, count + 1, ARG(data)),
         LEGBARO_TOO_MANY_LOST);
    tell("the owner rebuilds, the lost blocks are named:",
         legbaro_parity_rebuild(BAYS, DATA, PARITY, ARG(blocks), lost, count, ARG(data)),
         LEGBARO_OK);
    parity = encoded(data);
    write_file("host/blocks", ARG(data));
    write_file(PARITY_FOLDER "/host/blocks", ARG(parity));
    free(blocks.at);
    free(data.at);
    free(parity.at);
}

static void blocks_are_lost(void)
{
    /* Three data blocks and the first of the parity blocks, and one that is not lost. */
    static const uint8_t lost[] = {8, 14, 19, DATA, 20};
    puts("\nBLOCKS ARE LOST, AND COME BACK");
    puts("  One host loses blocks 9, 15 and 20, the other its block 1. Both say nothing and put "
         "zero bytes there.");
    lose(lost, PARITY);
    audit_both(LEGBARO_REJECTED);
    puts("  Now they look, and tell which blocks are gone. The owner fetches the others.");
    rebuild(lost, PARITY);
    puts("  What was rebuilt goes back to the hosts. Cards and tables stand as they are: these are "
         "the blocks that they cover.");
    audit_both(LEGBARO_OK);
}

/* The parity blocks that come out take the places of those that were there, in one batch. */
static void update_parity(struct bytes parity)
{
    struct correction corrections[PARITY];
    for (unsigned x = 0; x < PARITY; x++)
        corrections[x] = (struct correction){x + 1, {parity.at + x * BAYS, BAYS}};
    go_to(PARITY_FOLDER);
    tell("the planner updates the parity, 4 blocks in one batch:",
         owner_corrects(LEGBARO_PLANNER, corrections, PARITY), LEGBARO_OK);
    tell_card();
    go_to("..");
}

static void data_change(void)
{
    struct bytes corrected = samples(BAYS, 2 * STUCK, 1);
    puts("\nA SAMPLE IS CORRECTED, AND ITS PARITY FOLLOWS");
    printf("  A detector was stuck: block %d is wrong. No call changes the parity by itself.\n",
           STUCK);
    tell("the planner updates the block:", owner_updates(LEGBARO_PLANNER, STUCK, corrected),
         LEGBARO_OK);
    struct bytes data = read_file("host/blocks"), parity = encoded(data);
    update_parity(parity);
    audit_both(LEGBARO_OK);
    free(corrected.at);
    free(data.at);
    free(parity.at);
}

void parity_beside(void)
{
    puts("\nPARITY BESIDE THE FILE");
    puts("  A sixth car park keeps a day's 24 samples at one host, and 4 parity blocks, a file of "
         "their own, at another.");
    puts("  Of these 28 blocks any 24 are enough.");
    begin();
    blocks_are_lost();
    data_change();
    go_to(PARITY_FOLDER);
    remove_folders(PARITY_FOLDER);
    remove_folders(DATA_FOLDER);
}
