/* The commands parity encode, parity check and parity rebuild. */
#define _GNU_SOURCE
#include "commands.h"
#include "groups.h"
#include "numbers.h"
#include "output.h"
#include "report.h"

#include "legbaro.h"

#include <inttypes.h>
#include <stdio.h>
#include <stdlib.h>
#include <string.h>

/* ---- Words ---- */

/* The numbers, from 1, of what is in one of some states, as in 3,7-9, among `count` from `from` on;
 * an empty text for none. */
static const char *list_of(const uint8_t *states, uint64_t from, uint64_t count, unsigned any_of)
{
    char *bytes = NULL;
    size_t length = 0;
    FILE *f = open_memstream(&bytes, &length);
    if (!f)
        file_fault("write", "a list of blocks");
    for (uint64_t i = from, first; i < from + count; i++) {
        if (!(states[i] & any_of))
            continue;
        for (first = i++; i < from + count && states[i] & any_of;)
            i++;
        fprintf(f, i - first > 1 ? "%s%" PRIu64 "-%" PRIu64 : "%s%" PRIu64, ftell(f) ? "," : "",
                first + 1, i);
    }
    fclose(f);
    const char *list = text("%s", bytes);
    free(bytes);
    return list;
}

/* A list with its noun: "block 3", "blocks 3,7-9". */
static const char *listed(const char *noun, const char *list)
{
    return text("%s%s %s", noun, strpbrk(list, ",-") ? "s" : "", list);
}

/* Two lists of blocks and of parity blocks, either of which may be empty, and a verb. */
static const char *both_listed(const char *blocks, const char *parity, const char *is,
                               const char *are)
{
    const char *and = *blocks && *parity ? " and " : "";
    const char *words = text("%s%s%s", *blocks ? listed("block", blocks) : "", and,
                             *parity ? listed("parity block", parity) : "");
    return text("%s %s", words, *and || strpbrk(words, ",-") ? are : is);
}

/* Says which blocks are missing where a file is cut. */
static void tell_missing(const struct groups *g)
{
    const char *blocks = list_of(g->states, 0, g->blocks, MISSING);
    const char *parity = list_of(g->kept_states, 0, g->count * g->parity, MISSING);
    if (!*blocks && !*parity)
        return;
    field_text("missing", blocks);
    field_text("missing-parity", parity);
    if (*blocks)
        say("%s is cut: %s, and counted as lost", g->o->words[0],
            both_listed(blocks, "", "is missing", "are missing"));
    if (*parity)
        say("%s is cut: %s, and counted as lost", g->o->words[1],
            both_listed("", parity, "is missing", "are missing"));
}

/* Refuses a group with the library's code. */
static void refuse_group(const struct groups *g, uint64_t number, uint64_t result)
{
    turn_away(result, group_words(g, number));
}

/* ---- Encoding ---- */

int run_parity_encode(const struct options *o)
{
    struct groups g = read_blocks(o);
    needs_text(o->out, "--out, the file for the parity blocks,");
    struct output out = check_output(o, o->out, NULL, NULL);
    struct bytes all = shared_room(g.count * g.parity * g.bytes);
    for (uint64_t i = 0; i < g.count; i++) {
        struct bytes data = {g.file.at + i * g.data * g.bytes, data_of(&g, i) * g.bytes};
        struct bytes parity = {all.at + i * g.parity * g.bytes, g.parity * g.bytes};
        uint64_t result =
            legbaro_parity_encode(g.bytes, data_of(&g, i), g.parity, LENT(data), LENT(parity));
        if (result != LEGBARO_OK)
            refuse_group(&g, i, result);
    }
    const struct piece piece = {all.at, all.length};
    write_output(&out, &piece, 1);
    field("blocks", g.blocks);
    field("parity", g.count * g.parity);
    field_text("file", o->out);
    say("%s in %s, with %s for each: a group can lose any %" PRIu64
        " of its blocks and parity blocks",
        counted(g.blocks, "block", "blocks"), counted(g.count, "group", "groups"),
        counted(g.parity, "parity block", "parity blocks"), g.parity);
    return ended(DONE);
}

/* ---- Checking ---- */

/* What a check has found so far: how many groups do not agree, can't be rebuilt, could not be
 * checked, and of how many it was said; which do not agree although no block can be named. */
struct found {
    uint64_t differ, beyond, unchecked, told;
    uint8_t *unknown;
};

enum { MOST_TOLD = 20 };

/* The blocks of one group that do not fit the others, in words. */
static const char *wrong_words(const struct groups *g, uint64_t number)
{
    const char *blocks = list_of(g->states, number * g->data, data_of(g, number), WRONG);
    const char *parity = list_of(g->kept_states, number * g->parity, g->parity, WRONG);
    return both_listed(blocks, parity, "does not fit the others", "do not fit the others");
}

/* Says why a group fails, of the first ones alone. */
static void tell_group(const struct groups *g, struct found *found, uint64_t number, int beyond)
{
    if (found->told++ >= MOST_TOLD)
        return;
    const char *why = beyond ? "more blocks are missing than it has parity blocks"
                      : found->unknown[number]
                          ? "the blocks do not agree, and which are wrong can't be known"
                          : wrong_words(g, number);
    say("group %" PRIu64 " (%s): %s", number + 1, group_words(g, number), why);
}

static void check_group(const struct groups *g, struct group *group, struct found *found)
{
    uint64_t result = make_data(g, group);
    if (result != LEGBARO_OK && result != LEGBARO_TOO_MANY_LOST)
        refuse_group(g, group->number, result);
    if (result == LEGBARO_OK && agrees(g, group)) {
        found->unchecked += group->lost == g->parity;
        return;
    }
    found->beyond += result != LEGBARO_OK;
    found->differ += result == LEGBARO_OK;
    if (result == LEGBARO_OK && !find_wrong(g, group))
        found->unknown[group->number] = WRONG;
    tell_group(g, found, group->number, result != LEGBARO_OK);
}

static const char *const if_changed = "If a block was changed after encoding, encode again.";

/* What to do where a group, perhaps the last, does not agree and no block can be named. */
static const char *unknown_next(const struct groups *g, int last)
{
    uint64_t before = last ? blocks_before_cut(g) : 0;
    if (before)
        return text("The last group agrees if %s is cut and had %" PRIu64
                    " blocks: give --blocks %" PRIu64 ".",
                    g->o->words[0], before, before);
    return text("%s Otherwise find out which blocks are wrong, from copies or dates, and give them "
                "with --lost.%s",
                if_changed,
                !last ? ""
                : g->o->blocks == UNTOLD
                    ? " If the file is cut, give --blocks, the number of blocks that it had."
                    : " Look whether --blocks is the number of blocks that the file had.");
}

/* What to do where the blocks that do not agree are named: to rebuild without them, and without
 * those that were given as lost. Parity comes back by encoding. */
static const char *named_next(const struct groups *g)
{
    const char *blocks = list_of(g->states, 0, g->blocks, WRONG | LOST);
    const char *parity = list_of(g->kept_states, 0, g->count * g->parity, WRONG | LOST);
    if (!*blocks)
        return "The blocks agree without these parity blocks: encode again.";
    return text("%s Otherwise rebuild without these blocks: --lost %s%s%s.", if_changed, blocks,
                *parity ? " --lost-parity " : "", parity);
}

/* The fields that name what does not fit. */
static void tell_wrong(const struct groups *g)
{
    field_text("wrong", list_of(g->states, 0, g->blocks, WRONG));
    field_text("wrong-parity", list_of(g->kept_states, 0, g->count * g->parity, WRONG));
}

/* What to do after a check that fails. */
static const char *check_next(const struct groups *g, const struct found *found)
{
    if (memchr(found->unknown, WRONG, g->count))
        return unknown_next(g, found->unknown[g->count - 1]);
    if (found->differ)
        return named_next(g);
    if (found->beyond)
        return "Find a copy of the missing blocks: they can't be rebuilt.";
    if (g->file.length < g->blocks * g->bytes)
        return "Make the missing blocks from the others: 'legbaro parity rebuild'.";
    return "No block is missing, only parity: encode again.";
}

/* Says what a check has found. Returns whether all blocks are here and agree. */
static int tell_found(const struct groups *g, const struct found *found)
{
    uint64_t bad = found->differ + found->beyond, parity = g->count * g->parity;
    int whole = g->file.length == g->blocks * g->bytes && g->kept.length == parity * g->bytes;
    field("blocks", g->blocks);
    field("parity", parity);
    field("groups", g->count);
    field("groups-differ", found->differ);
    field("groups-beyond", found->beyond);
    field("groups-unchecked", found->unchecked);
    field_text("groups-unknown", list_of(found->unknown, 0, g->count, WRONG));
    tell_wrong(g);
    if (whole && !bad) {
        say("%s and %s agree", counted(g->blocks, "block", "blocks"),
            counted(parity, "parity block", "parity blocks"));
        return 1;
    }
    if (found->told > MOST_TOLD)
        say("and %s more", counted(found->told - MOST_TOLD, "group", "groups"));
    say("%" PRIu64 " of %s agree", g->count - bad - found->unchecked,
        counted(g->count, "group", "groups"));
    if (found->unchecked)
        say("%s can't be checked: no parity block is left over",
            counted(found->unchecked, "group", "groups"));
    field_text("next", check_next(g, found));
    say("next: %s", check_next(g, found));
    return 0;
}

int run_parity_check(const struct options *o)
{
    struct groups g = read_both(o);
    struct group group = new_group(&g);
    struct found found = {.unknown = room(g.count).at};
    tell_missing(&g);
    for (uint64_t i = 0; i < g.count; i++) {
        read_group(&g, &group, i);
        check_group(&g, &group, &found);
    }
    return ended(tell_found(&g, &found) ? DONE : REJECTED);
}

/* ---- Rebuilding ---- */

/* Reads a number or a range, as in 17 or 30-34. */
static void read_range(const char *option, const char *item, uint64_t *from, uint64_t *to)
{
    char *first = text("%s", item), *last = strchr(first, '-');
    if (last)
        *last++ = 0;
    if (!read_number(first, from) || !read_number(last ? last : first, to) || *to < *from)
        refuse(WRONG_USE, "Write it as in 17,30-34.",
               "%s: '%s' is neither a number nor a range that rises", option, item);
}

static void refuse_lost(const char *option, const char *what)
{
    about(option);
    field("code", LEGBARO_BAD_GROUP);
    refuse(TURNED_AWAY, "Give the number of each lost block once.", "%s: %s (code %d)", option,
           what, LEGBARO_BAD_GROUP);
}

/* Takes blocks as lost: numbers and ranges with commas between them. */
static void read_lost(const char *option, const char *list, uint8_t *states, uint64_t most)
{
    uint64_t from, to;
    for (char *at = list ? text("%s,", list) : "", *end; *at; at = end + 1) {
        end = strchr(at, ',');
        *end = 0;
        read_range(option, at, &from, &to);
        if (!from || to > most)
            refuse_lost(option, text("there is no block %" PRIu64 ", but 1 to %" PRIu64,
                                     from ? to : from, most));
        for (uint64_t i = from - 1; i < to; i++) {
            if (states[i] & LOST)
                refuse_lost(option, text("block %" PRIu64 " is given twice", i + 1));
            states[i] |= LOST;
        }
    }
}

/* Ends the program where the blocks that are left of a group do not agree. */
static void refuse_wrong(const struct groups *g, struct group *group)
{
    int found = find_wrong(g, group);
    const char *next = found ? named_next(g) : unknown_next(g, group->number == g->count - 1);
    field("group", group->number + 1);
    tell_wrong(g);
    refuse(REJECTED, next, "group %" PRIu64 " (%s): %s; nothing is written", group->number + 1,
           group_words(g, group->number),
           found ? wrong_words(g, group->number)
                 : "the blocks that are left do not agree, and which are wrong can't be known");
}

/* Ends the program where blocks of the last group are missing, and no parity block is left over:
 * with a wrong --blocks these would be made wrong. Who gives them as lost too stands for the
 * number. */
static void refuse_unsure(const struct groups *g, const struct group *group)
{
    uint8_t *first = g->states + group->number * g->data;
    if (group->number != g->count - 1 || group->lost < g->parity ||
        !memchr(first, MISSING, group->data))
        return;
    const char *missing = list_of(g->states, 0, g->blocks, MISSING | LOST);
    about(g->o->words[0]);
    refuse(TURNED_AWAY,
           text("If it had %s for certain, give --lost %s too.",
                counted(g->blocks, "block", "blocks"), missing),
           "no parity block is left over to check the last group, and so the number of blocks that "
           "%s had; nothing is written",
           g->o->words[0]);
}

/* The data of a group as they are written: from the file, or a copy of those that were made. */
static struct piece data_piece(const struct groups *g, const struct group *group)
{
    struct piece piece = {g->file.at + group->number * g->data * g->bytes, group->made.length};
    if (memchr(group->gone, 1, group->data)) {
        uint8_t *copy = room(group->made.length).at;
        memcpy(copy, group->made.at, group->made.length);
        piece.at = copy;
    }
    return piece;
}

static void tell_rebuilt(const struct groups *g, uint64_t rebuilt, uint64_t unchecked)
{
    field("groups", rebuilt);
    field("groups-unchecked", unchecked);
    field_text("file", g->o->out);
    say("%s has all %s; %" PRIu64 " of %s %s rebuilt", g->o->out,
        counted(g->blocks, "block", "blocks"), rebuilt, counted(g->count, "group", "groups"),
        rebuilt == 1 ? "was" : "were");
    if (unchecked)
        say("%s could not be checked, since no parity block is left over: compare or audit the "
            "file before you rely on it",
            counted(unchecked, "group", "groups"));
}

int run_parity_rebuild(const struct options *o)
{
    struct groups g = read_both(o);
    needs_text(o->out, "--out, the file for the rebuilt blocks,");
    read_lost("--lost", o->lost, g.states, g.blocks);
    read_lost("--lost-parity", o->lost_parity, g.kept_states, g.count * g.parity);
    struct group group = new_group(&g);
    struct piece *pieces = (struct piece *)room(g.count * sizeof *pieces).at;
    uint64_t rebuilt = 0, unchecked = 0;
    struct output out = check_output(o, o->out, NULL, NULL);
    tell_missing(&g);
    for (uint64_t i = 0; i < g.count; i++) {
        read_group(&g, &group, i);
        uint64_t result = make_data(&g, &group);
        if (result != LEGBARO_OK)
            refuse_group(&g, i, result);
        if (!agrees(&g, &group))
            refuse_wrong(&g, &group);
        refuse_unsure(&g, &group);
        pieces[i] = data_piece(&g, &group);
        rebuilt += group.lost != 0;
        unchecked += group.lost == g.parity;
    }
    write_output(&out, pieces, (int)g.count);
    tell_rebuilt(&g, rebuilt, unchecked);
    return ended(DONE);
}
