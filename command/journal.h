/*
 * The journal of a folder, the owner's or the host's: `journal`, one line of JSON for each finished
 * command that changed or judged something. There is no key material in it.
 *
 *   time                      UTC, as in 2026-11-23T21:00:00Z
 *   command                   as it is called; "begun" and "mended" are made from what stands
 *   role                      surveyor, planner or manager; with the owner alone
 *   id                        of the file, as in other JSON output
 *   counter, blocks           what stands afterwards
 *   left, open, pending       audits left, the open token, the pending counter; owner's alone
 *   token                     of a draw, a proof or a verdict
 *   verdict, cause, pool      of a verdict; pool is the number of files judged together
 *   turns, hashes             the totals, where the command has some
 *   program                   the version of the program
 *   card, stands              CRC-32 of the one that the folder has, as in card.sum
 *
 * A line is written as journal.new before the card (or `stands`) takes its place, and appended
 * after. So the last line always has the checksum of what stands, or the next command appends the
 * one that is missing: from journal.new, or where that is gone from what stands. Nothing in a
 * journal is ever removed; a torn line is completed or ended. A journal that can't be read or
 * written stops no command: it is only said.
 */
#ifndef JOURNAL_H
#define JOURNAL_H

#include "change.h"
#include "files.h"

/* What a command adds to its line. What it has nothing of is null or 0. */
struct entry {
    const char *command, *verdict;
    uint64_t role, token, cause, pool;
    const uint8_t *totals;
};

/* What stands in a folder: by the card, or by the host's `stands`. */
struct standing {
    const char *kind; /* "card" or "stands" */
    uint32_t checksum;
    const uint8_t *id;
    uint64_t counter, blocks, left, open, pending;
};
struct standing standing_of_card(struct bytes card);
struct standing standing_of_host(const struct change *stands);

/* Writes the line of a command as journal.new, before what stands after it is in place. Returns
 * the line. */
const char *prepare_line(const struct folder *folder, const struct entry *entry,
                         const struct standing *after);

/* Appends the line of what stands, unless it is the last one: `line`, which may be null, or that of
 * journal.new, or one that is made from what stands. Removes journal.new. */
void settle_journal(const struct folder *folder, const struct standing *now, const char *line);

/* Whether a command was stopped before its line was whole. */
int is_journal_unsettled(const struct folder *folder);

/* Appends the line of a command that leaves what stands, such as a proof. */
void add_line(const struct folder *folder, const struct entry *entry, const struct standing *now);

#endif
