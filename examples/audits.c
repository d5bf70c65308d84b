/* See parties.h: audits. */
#include "parties.h"

#include <stdio.h>
#include <stdlib.h>
#include <string.h>

/* ---- The host ---- */

/* The marks of all blocks; none in a file of version 1. */
static struct bytes host_marks(void)
{
    return is_there("host/marks") ? read_file("host/marks") : room(0);
}

uint64_t host_proves(void)
{
    struct bytes message = read_file("host/message"), blocks = read_file("host/blocks"),
                 table = read_file("host/table");
    struct bytes marks = host_marks(), reply = room(LEGBARO_REPLY_BYTES),
                 totals = room(LEGBARO_TOTALS_BYTES);
    uint64_t result =
        legbaro_prove(ARG(message), ARG(blocks), ARG(marks), ARG(table), ARG(reply), ARG(totals));
    write_file("host/reply", ARG(reply));
    write_file("host/totals", ARG(totals));
    free(message.at);
    free(blocks.at);
    free(marks.at);
    free(table.at);
    free(reply.at);
    free(totals.at);
    return result;
}

/* ---- The owner ---- */

uint64_t owner_draws(uint64_t role, const struct moment *now)
{
    struct bytes master = read_file("owner/master"), card = read_file("owner/card"),
                 plan = read_file("owner/plan");
    struct bytes message = room(LEGBARO_MESSAGE_BYTES);
    uint64_t result = legbaro_draw(role, ARG(master), ARG(card), ARG(message), ARG(plan), now->year,
                                   now->month, now->day, now->minute);
    if (result == LEGBARO_OK) {
        store_card(card);
        write_file("host/message", ARG(message));
    }
    free(master.at);
    free(card.at);
    free(plan.at);
    free(message.at);
    return result;
}

uint64_t owner_waits(const struct moment *now)
{
    struct bytes plan = read_file("owner/plan");
    uint64_t result = legbaro_wait(ARG(plan), now->year, now->month, now->day, now->minute);
    free(plan.at);
    return result;
}

uint64_t owner_asks_cause(uint64_t role)
{
    struct bytes master = read_file("owner/master"), card = read_file("owner/card"),
                 reply = read_file("host/reply");
    uint64_t result = legbaro_cause(role, ARG(master), ARG(card), ARG(reply));
    free(master.at);
    free(card.at);
    free(reply.at);
    return result;
}

uint64_t owner_judges(uint64_t role)
{
    struct bytes master = read_file("owner/master"), card = read_file("owner/card"),
                 reply = read_file("host/reply");
    uint64_t result = legbaro_judge(role, ARG(master), ARG(card), ARG(reply));
    store_card(card);
    free(master.at);
    free(card.at);
    free(reply.at);
    return result;
}

/* ---- Several files at once ---- */

/* The bytes of a file in each of some folders, end to end. */
static struct bytes gathered(const char *const *folders, size_t count, const char *name)
{
    struct bytes all = room(0);
    char path[64];
    for (size_t e = 0; e < count; e++) {
        snprintf(path, sizeof path, "%s/%s", folders[e], name);
        struct bytes one = read_file(path), more = room(all.length + one.length);
        memcpy(more.at, all.at, all.length);
        memcpy(more.at + all.length, one.at, one.length);
        free(all.at);
        free(one.at);
        all = more;
    }
    return all;
}

uint64_t host_pools(const char *const *folders, size_t count)
{
    struct bytes replies = gathered(folders, count, "host/reply"),
                 pooled = room(LEGBARO_POOLED_BYTES(count));
    uint64_t result = legbaro_pool(ARG(replies), ARG(pooled));
    write_file("pooled", ARG(pooled));
    free(replies.at);
    free(pooled.at);
    return result;
}

/* Stores cards that lie end to end, each in its folder; their sizes stay. */
static void store_cards(const char *const *folders, size_t count, const uint8_t *cards)
{
    char path[64];
    for (size_t e = 0; e < count; e++) {
        snprintf(path, sizeof path, "%s/owner/card", folders[e]);
        size_t size = size_of(path);
        snprintf(path, sizeof path, "%s/owner", folders[e]);
        store_file(path, "card", cards, size);
        cards += size;
    }
}

uint64_t owner_judges_pool(uint64_t role, const char *const *folders, size_t count)
{
    struct bytes master = gathered(folders, 1, "owner/master"),
                 cards = gathered(folders, count, "owner/card");
    struct bytes reply = read_file("pooled");
    uint64_t result = legbaro_judge_pool(role, ARG(master), ARG(cards), ARG(reply));
    store_cards(folders, count, cards.at);
    free(master.at);
    free(cards.at);
    free(reply.at);
    return result;
}
