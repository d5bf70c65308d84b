/* See parties.h: set-up and changes. */
#include "parties.h"

#include <stdlib.h>
#include <string.h>

/* A window of a weekly plan: the minutes of the day at which it opens and shuts, 2 bytes each. */
#define WINDOW(start, end) (start) / 256, (start) % 256, (end) / 256, (end) % 256

/* An example key, for this program only. A real one is random, secret, and set up once for each
 * file id. */
static const char example_master[] = "Example key: for this demo only!";

/* A big-endian number in a file. */
static uint64_t number_in(const char *name, size_t at, unsigned width)
{
    struct bytes file = read_file(name);
    uint64_t number = 0;
    for (unsigned i = 0; i < width; i++)
        number = number << 8 | file.at[at + i];
    free(file.at);
    return number;
}

uint64_t in_card(size_t at, unsigned width)
{
    return number_in("owner/card", at, width);
}

uint64_t in_totals(const char *party, size_t at)
{
    return number_in(strcmp(party, "owner") ? "host/totals" : "owner/totals", at, 8);
}

/* ---- The host ---- */

/* Gives out a block, and its mark where the file has marks. */
static void host_sends(uint64_t number, struct bytes block, struct bytes mark)
{
    read_part("host/blocks", (number - 1) * block.length, block);
    if (mark.length)
        read_part("host/marks", number - 1, mark);
}

/* Puts a block in the place of another, with its mark. */
static void host_replaces(uint64_t number, struct bytes block, uint8_t mark)
{
    struct bytes marks = {&mark, 1};
    write_part("host/blocks", (number - 1) * block.length, block);
    if (is_there("host/marks"))
        write_part("host/marks", number - 1, marks);
}

/* Puts live blocks behind the last. */
static void host_adds(struct bytes blocks, size_t block_bytes)
{
    struct bytes live = room(blocks.length / block_bytes);
    add_to_file("host/blocks", ARG(blocks));
    if (is_there("host/marks"))
        add_to_file("host/marks", ARG(live));
    free(live.at);
}

/* ---- The owner: set-up ---- */

void store_card(struct bytes card)
{
    store_file("owner", "card", ARG(card));
}

/* Draws are allowed from 21:00 to 6:00 in the morning, and on Sundays from 8:00 to 22:00. */
static const uint8_t closing_hours[LEGBARO_PLAN_BYTES] = {
    WINDOW(21 * 60, 6 * 60), WINDOW(21 * 60, 6 * 60), WINDOW(21 * 60, 6 * 60),
    WINDOW(21 * 60, 6 * 60), WINDOW(21 * 60, 6 * 60), WINDOW(21 * 60, 6 * 60),
    WINDOW(8 * 60, 22 * 60),
};

void owner_begins(struct bytes blocks)
{
    write_file("owner/master", example_master, LEGBARO_MASTER_BYTES);
    write_file("owner/plan", closing_hours, sizeof closing_hours);
    write_file("owner/blocks", ARG(blocks));
}

uint64_t owner_sets_up(const struct plan *plan)
{
    struct bytes master = read_file("owner/master"), blocks = read_file("owner/blocks");
    struct bytes card =
        room(plan->version == LEGBARO_TWO_STEPS ? LEGBARO_TWO_STEP_CARD_BYTES : LEGBARO_CARD_BYTES);
    struct bytes table = room(plan->tokens * LEGBARO_RECORD_BYTES),
                 totals = room(LEGBARO_TOTALS_BYTES);
    struct bytes live = room(blocks.length / plan->block_bytes);
    uint64_t result =
        legbaro_set_up(ARG(master), (const uint8_t *)plan->id, LEGBARO_ID_BYTES, plan->version,
                       plan->block_bytes, plan->rows, plan->positions, plan->tokens, live.length,
                       ARG(blocks), ARG(card), ARG(table), ARG(totals));
    if (result == LEGBARO_OK) {
        store_card(card);
        write_file("owner/totals", ARG(totals));
        write_file("host/table", ARG(table));
        write_file("host/blocks", ARG(blocks));
        if (plan->version != LEGBARO_WITHOUT_MARKS)
            write_file("host/marks", ARG(live));
    }
    free(live.at);
    free(master.at);
    free(blocks.at);
    free(card.at);
    free(table.at);
    free(totals.at);
    return result;
}

/* ---- The owner: changes ---- */

void owner_fetches(uint64_t token)
{
    size_t offset = (token - 1) * LEGBARO_RECORD_BYTES;
    struct bytes records = room(size_of("host/table") - offset);
    read_part("host/table", offset, records);
    if (token == 1)
        write_file("owner/table", ARG(records));
    else
        write_part("owner/table", offset, records);
    free(records.at);
}

/* What the owner needs for a change: its master, its card, its copy of the table, and room for
 * totals. */
struct hand {
    struct bytes master, card, table, totals;
};

static struct hand owner_takes(void)
{
    if (!is_there("owner/table"))
        owner_fetches(1);
    struct hand hand = {read_file("owner/master"), read_file("owner/card"),
                        read_file("owner/table"), room(LEGBARO_TOTALS_BYTES)};
    return hand;
}

/* What the owner keeps of an accepted change: the card, and the totals, which tell how many tokens
 * cover what changed. */
static void owner_keeps(const struct hand *hand)
{
    store_card(hand->card);
    write_file("owner/totals", ARG(hand->totals));
}

static void free_hand(struct hand *hand)
{
    free(hand->master.at);
    free(hand->card.at);
    free(hand->table.at);
    free(hand->totals.at);
}

/* Sends the table back, where the change was accepted. */
static void owner_puts_back(struct hand *hand, uint64_t result)
{
    if (result == LEGBARO_OK) {
        owner_keeps(hand);
        write_file("host/table", ARG(hand->table));
        wipe("owner/table");
    }
    free_hand(hand);
}

/* Append or load: the same arguments, and the blocks come behind the last one either way. */
typedef uint64_t adding(uint64_t, const uint8_t *, size_t, uint8_t *, size_t, uint8_t *, size_t,
                        const uint8_t *, size_t, uint8_t *, size_t);

static uint64_t owner_adds(adding *call, uint64_t role, struct bytes blocks)
{
    struct hand hand = owner_takes();
    uint64_t result = call(role, ARG(hand.master), ARG(hand.card), ARG(hand.table), ARG(blocks),
                           ARG(hand.totals));
    if (result == LEGBARO_OK)
        host_adds(blocks, in_card(LEGBARO_CARD_BLOCK_BYTES, 2));
    owner_puts_back(&hand, result);
    return result;
}

uint64_t owner_appends(uint64_t role, struct bytes block)
{
    return owner_adds(legbaro_append, role, block);
}

uint64_t owner_loads(uint64_t role, struct bytes blocks)
{
    return owner_adds(legbaro_load, role, blocks);
}

/* Room for a mark of the file; none in version 1. */
static struct bytes room_for_mark(void)
{
    return room(in_card(LEGBARO_CARD_VERSION, 1) == LEGBARO_WITHOUT_MARKS ? 0 : 1);
}

uint64_t owner_updates(uint64_t role, uint64_t number, struct bytes block)
{
    struct hand hand = owner_takes();
    struct bytes old = room(block.length), mark = room_for_mark();
    host_sends(number, old, mark);
    uint64_t result = legbaro_update(role, ARG(hand.master), ARG(hand.card), ARG(hand.table),
                                     number, ARG(old), ARG(mark), ARG(block), ARG(hand.totals));
    if (result == LEGBARO_OK)
        host_replaces(number, block, LEGBARO_LIVE);
    owner_puts_back(&hand, result);
    free(old.at);
    free(mark.at);
    return result;
}

uint64_t owner_deletes(uint64_t role, uint64_t number)
{
    struct hand hand = owner_takes();
    size_t block_bytes = in_card(LEGBARO_CARD_BLOCK_BYTES, 2);
    struct bytes old = room(block_bytes), zeros = room(block_bytes), mark = room_for_mark();
    host_sends(number, old, mark);
    uint64_t result = legbaro_delete(role, ARG(hand.master), ARG(hand.card), ARG(hand.table),
                                     number, ARG(old), ARG(mark), ARG(hand.totals));
    if (result == LEGBARO_OK)
        host_replaces(number, zeros, LEGBARO_DELETED);
    owner_puts_back(&hand, result);
    free(old.at);
    free(zeros.at);
    free(mark.at);
    return result;
}

/* Writes one item of a batch, for a version and so many block bytes; the old block and its mark
 * come from the host. */
static void write_item(uint8_t *item, const struct correction *correction, uint64_t version,
                       size_t block_bytes)
{
    struct bytes old = {item + LEGBARO_ITEM_OLD, block_bytes};
    struct bytes mark = {item + LEGBARO_ITEM_MARK(block_bytes),
                         version == LEGBARO_WITHOUT_MARKS ? 0 : 1};
    item[LEGBARO_ITEM_KIND] = correction->block.at ? LEGBARO_ITEM_UPDATE : LEGBARO_ITEM_DELETE;
    for (int i = 0; i < 4; i++)
        item[LEGBARO_ITEM_BLOCK + i] = (uint8_t)(correction->number >> (24 - 8 * i));
    host_sends(correction->number, old, mark);
    if (correction->block.at)
        memcpy(item + LEGBARO_ITEM_NEW(version, block_bytes), correction->block.at, block_bytes);
}

/* Puts zero bytes in the place of the blocks that are deleted, and the new blocks in the place of
 * the others. */
static void host_corrects(const struct correction *corrections, size_t count, size_t block_bytes)
{
    struct bytes zeros = room(block_bytes);
    for (size_t i = 0; i < count; i++)
        if (corrections[i].block.at)
            host_replaces(corrections[i].number, corrections[i].block, LEGBARO_LIVE);
        else
            host_replaces(corrections[i].number, zeros, LEGBARO_DELETED);
    free(zeros.at);
}

uint64_t owner_corrects(uint64_t role, const struct correction *corrections, size_t count)
{
    struct hand hand = owner_takes();
    uint64_t version = in_card(LEGBARO_CARD_VERSION, 1);
    size_t block_bytes = in_card(LEGBARO_CARD_BLOCK_BYTES, 2),
           item_bytes = LEGBARO_ITEM_BYTES(version, block_bytes);
    struct bytes items = room(count * item_bytes);
    for (size_t i = 0; i < count; i++)
        write_item(items.at + i * item_bytes, &corrections[i], version, block_bytes);
    uint64_t result = legbaro_batch(role, ARG(hand.master), ARG(hand.card), ARG(hand.table),
                                    ARG(items), ARG(hand.totals));
    if (result == LEGBARO_OK)
        host_corrects(corrections, count, block_bytes);
    owner_puts_back(&hand, result);
    free(items.at);
    return result;
}

/* ---- The owner: changes in two steps ---- */

/* The card is stored first. The standing table has served, and what was asked is kept until it is
 * committed or dropped. */
uint64_t owner_asks_append(uint64_t role, struct bytes block)
{
    struct hand hand = owner_takes();
    struct bytes second = room(hand.table.length);
    uint64_t result = legbaro_ask_append(role, ARG(hand.master), ARG(hand.card), ARG(hand.table),
                                         ARG(second), ARG(block), ARG(hand.totals));
    if (result == LEGBARO_OK) {
        owner_keeps(&hand);
        write_file("owner/asked-table", ARG(second));
        write_file("owner/asked-block", ARG(block));
        wipe("owner/table");
    }
    free_hand(&hand);
    free(second.at);
    return result;
}

void owner_sends_asked(void)
{
    copy_file("owner/asked-table", "host/asked-table");
    copy_file("owner/asked-block", "host/asked-block");
}

/* Throws away what was asked, at the owner and as far as it came at the host. */
static void forget_asked(void)
{
    static const char *const names[] = {"owner/asked-table", "owner/asked-block",
                                        "host/asked-table", "host/asked-block"};
    for (size_t i = 0; i < sizeof names / sizeof *names; i++)
        if (is_there(names[i]))
            wipe(names[i]);
}

/* Puts the asked table in the place of the standing one, and the block behind the last. */
static void host_takes_asked(void)
{
    struct bytes block = read_file("host/asked-block");
    copy_file("host/asked-table", "host/table");
    host_adds(block, block.length);
    free(block.at);
}

uint64_t owner_commits(uint64_t role)
{
    struct bytes card = read_file("owner/card");
    uint64_t result = legbaro_commit(role, ARG(card));
    if (result == LEGBARO_OK) {
        store_card(card);
        host_takes_asked();
        forget_asked();
    }
    free(card.at);
    return result;
}

uint64_t owner_drops(uint64_t role)
{
    struct bytes card = read_file("owner/card");
    uint64_t result = legbaro_drop(role, ARG(card));
    if (result == LEGBARO_OK) {
        store_card(card);
        forget_asked();
    }
    free(card.at);
    return result;
}
