/*
 * Owner and host of one file, as two folders of real files. Functions named owner_ read the owner's
 * files, and fetch from the host what an owner would fetch; where a role is named first, it is that
 * of who works the owner's screen. Functions named host_ read the host's files alone. Each answers
 * the number of the library's call that it makes.
 */
#ifndef PARTIES_H
#define PARTIES_H

#include "files.h"
#include "legbaro.h"

/* What a file is planned for. */
struct plan {
    const char *id; /* LEGBARO_ID_BYTES letters */
    uint64_t version, block_bytes, rows, positions, tokens;
};

/* A time on the owner's clock. */
struct moment {
    uint64_t year, month, day, minute;
};

/* Gives the owner its key, the week's plan of draws and the first blocks. */
void owner_begins(struct bytes blocks);

/* Makes card and table from these blocks, and sends table and blocks to the host, and but in
 * version 1 a mark for each block. */
uint64_t owner_sets_up(const struct plan *plan);

/* Puts the owner's card on the disk. It is there before what was sealed with it leaves the house:
 * an older one would seal under the same nonces again. */
void store_card(struct bytes card);

/* Fetches the table's records from a token's on into the owner's copy of the table; the whole table
 * with 1. A change fetches it all where the owner has no copy. The copy goes back to the host where
 * the change was accepted, and stays for another try where it was not. */
void owner_fetches(uint64_t token);

/* Appends a block; loads one or more blocks, end to end. They go to the host where the call was
 * accepted. */
uint64_t owner_appends(uint64_t role, struct bytes block);
uint64_t owner_loads(uint64_t role, struct bytes blocks);

/* Fetches a block and its mark, and puts another or zero bytes in its place; the host does the
 * same, and keeps the mark. */
uint64_t owner_updates(uint64_t role, uint64_t number, struct bytes block);
uint64_t owner_deletes(uint64_t role, uint64_t number);

/* A block and what takes its place; zero bytes do where no block is named. */
struct correction {
    uint64_t number;
    struct bytes block;
};

/* Corrects blocks together, in one batch: fetches them, and puts the others in their places; the
 * host does the same. */
uint64_t owner_corrects(uint64_t role, const struct correction *corrections, size_t count);

/* Changes in two steps, of a file of version 3. Asks for an append: the card is stored, and the
 * second table is kept with the block and goes nowhere yet. Sends both to the host, which keeps
 * them beside what stands. Then commits, and the host is told that they stand; or drops, and both
 * throw them away. */
uint64_t owner_asks_append(uint64_t role, struct bytes block);
void owner_sends_asked(void);
uint64_t owner_commits(uint64_t role);
uint64_t owner_drops(uint64_t role);

/* Draws a message and sends it to the host, where the plan allows a draw now; how long to wait for
 * that. */
uint64_t owner_draws(uint64_t role, const struct moment *now);
uint64_t owner_waits(const struct moment *now);

/* Asks why the reply that the host sent would be rejected; judges it. */
uint64_t owner_asks_cause(uint64_t role);
uint64_t owner_judges(uint64_t role);

/* Answers the message. The host has nothing but the message, its blocks, their marks and its
 * table. */
uint64_t host_proves(void);

/* Several files of one owner at one host, each in a folder of its own beside the others. Makes one
 * reply, the file `pooled`, of the replies for all of them; judges it, and stores every card. */
uint64_t host_pools(const char *const *folders, size_t count);
uint64_t owner_judges_pool(uint64_t role, const char *const *folders, size_t count);

/* A number of the owner's card, at its offset of LEGBARO_CARD_.., with so many bytes. */
uint64_t in_card(size_t at, unsigned width);

/* A number of the totals, at its offset of LEGBARO_TOTALS_..: the owner's of the set-up or change
 * accepted last, the host's of its last proof. The owner's are sent nowhere. */
uint64_t in_totals(const char *party, size_t at);

#endif
