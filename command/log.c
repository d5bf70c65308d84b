/* The command log: what happened in a folder, by its journal or by journals that are named. */
#define _GNU_SOURCE
#include "clock.h"
#include "codes.h"
#include "commands.h"
#include "files.h"
#include "lines.h"
#include "numbers.h"
#include "report.h"

#include <errno.h>
#include <inttypes.h>
#include <stdio.h>
#include <stdlib.h>
#include <string.h>

/* The most bytes of a journal from a pipe. */
enum { MOST_PIPED_BYTES = 1 << 26 };

/* A journal: its bytes, how far it is read, and the line that comes next, unless it is over. */
struct journal {
    struct bytes file;
    size_t at;
    struct line next;
    int over;
};

struct logged {
    const struct options *o;
    time_t since, now;
    uint64_t shown, damaged, future;
    FILE *list; /* with JSON: the lines in a list */
};

/* ---- Reading ---- */

/* Reads on to the next line that is whole, and counts those that are not. */
static void read_next(struct logged *log, struct journal *journal)
{
    const char *begin, *end;
    while (next_line(&journal->file, &journal->at, &begin, &end)) {
        if (read_line(begin, end, &journal->next))
            return;
        log->damaged += end > begin;
    }
    journal->over = 1;
}

static struct journal open_journal(struct logged *log, const char *path)
{
    struct journal journal = {.at = 0};
    if (!strcmp(path, "-"))
        journal.file = read_small(path, MOST_PIPED_BYTES, "a journal");
    else if (!map_journal(path, &journal.file)) {
        if (errno == EINVAL)
            refuse(BAD_FILE, "Write it to a file first, or give it on standard input, as '-'.",
                   "can't read %s: it is no file", path);
        file_fault("read", path);
    }
    read_next(log, &journal);
    return journal;
}

/* The journal whose next line is the oldest; null where all are over. So the lines of one
 * journal stay in their order, whatever their times are. */
static struct journal *oldest(struct journal *journals, int count)
{
    struct journal *found = NULL;
    for (int i = 0; i < count; i++)
        if (!journals[i].over && (!found || journals[i].next.time < found->next.time))
            found = &journals[i];
    return found;
}

/* ---- A line for people ---- */

static const char *told(uint64_t number)
{
    return number == UNTOLD ? "-" : text("%" PRIu64, number);
}

/* What a line says beside its numbers. */
static const char *remark(const struct line *line)
{
    if (*line->verdict && line->cause != UNTOLD && line->cause)
        return text("%s: %s", line->verdict, cause_words(line->cause));
    if (*line->verdict)
        return line->verdict;
    if (!strcmp(line->command, "mended") || !strcmp(line->command, "begun"))
        return "made from what stands";
    return line->pending && line->pending != UNTOLD
               ? text("pending at counter %" PRIu64, line->pending)
               : "";
}

static void say_line(const struct line *line, time_t now)
{
    struct tm local = local_time(line->time);
    char when[64];
    strftime(when, sizeof when, "%Y-%m-%d %H:%M:%S %Z", &local);
    const char *totals =
        spoken() == VERBOSE ? text(" %9s %9s", told(line->turns), told(line->hashes)) : "";
    const char *words = text("%s%s", remark(line), line->time > now ? " (in the future)" : "");
    say("%s  %-10s %-8s %-8s %7s %9s %6s %6s%s%s%s", when, line->command,
        *line->role ? line->role : "-", *line->id ? line->id : "-", told(line->counter),
        told(line->blocks), told(line->token), told(line->left), totals, *words ? "  " : "",
        words + (*words == ' '));
}

static void say_head(time_t now)
{
    struct tm local = local_time(now);
    int width = (int)strlen("2026-11-23 22:00:00 ") + (int)strlen(local.tm_zone);
    say("%-*s  %-10s %-8s %-8s %7s %9s %6s %6s%s  VERDICT", width, "TIME", "COMMAND", "ROLE", "ID",
        "COUNTER", "BLOCKS", "TOKEN", "LEFT",
        spoken() == VERBOSE ? text(" %9s %9s", "TURNS", "HASHES") : "");
}

/* ---- All lines ---- */

static void show_line(struct logged *log, const struct line *line)
{
    if ((log->o->since && line->time < log->since) || (log->o->audits && !*line->verdict))
        return;
    log->future += line->time > log->now;
    if (!log->shown++)
        say_head(log->now);
    say_line(line, log->now);
    fprintf(log->list, "%s%s", log->shown > 1 ? ", " : "", json_of_line(line));
}

static void tell_rest(const struct logged *log)
{
    field("lines", log->shown);
    field("damaged", log->damaged);
    field("future", log->future);
    if (!log->shown)
        say("no line%s%s", log->o->audits ? " with a verdict" : "",
            log->o->since ? " since then" : "");
    if (log->damaged)
        note("%s not read, since %s torn or no line of a journal",
             counted(log->damaged, "line was", "lines were"),
             log->damaged == 1 ? "it is" : "they are");
    if (log->future)
        note("%s in the future: look at the clock",
             counted(log->future, "line has a time", "lines have times"));
}

int run_log(const struct options *o)
{
    char *here = path_in(o->folder, "journal"), **paths = o->count ? o->words : &here,
         *bytes = NULL;
    int count = o->count ? o->count : 1;
    size_t length = 0;
    struct journal *journals = (struct journal *)room((size_t)count * sizeof *journals).at;
    struct logged log = {.o = o, .now = clock_now(), .list = open_memstream(&bytes, &length)};
    if (!log.list)
        file_fault("write", "a list of lines");
    if (o->since)
        log.since = read_local(o->since, "--since");
    for (int i = 0; i < count; i++)
        journals[i] = open_journal(&log, paths[i]);
    for (struct journal *next; (next = oldest(journals, count)); read_next(&log, next))
        show_line(&log, &next->next);
    tell_rest(&log);
    fclose(log.list);
    field_list("journal", text("[%s]", bytes));
    free(bytes);
    return ended(DONE);
}
