/* The command status: a line for each file, those that need someone first. */
#define _GNU_SOURCE
#include "clock.h"
#include "commands.h"
#include "json.h"
#include "look.h"
#include "numbers.h"
#include "report.h"
#include "table.h"

#include <inttypes.h>
#include <stdio.h>
#include <stdlib.h>

/* ---- For people ---- */

static const char *path_words(const char *path)
{
    char *copy = text("%s", path);
    for (char *at = copy; *at;) {
        int length = plain_length(at);
        if (!length)
            *at = '?';
        at += length ? length : 1;
    }
    return copy;
}

static void put_row(struct table *table, const struct look *look)
{
    put_cell(table, look->need <= ATTENTION ? "!" : look->need == TO_DO ? "*" : " ");
    put_cell(table, look->id);
    put_cell(table, look->is_known ? text("%" PRIu64, look->blocks) : "-");
    put_cell(table, look->is_known && look->is_owners ? text("%" PRIu64, look->left) : "-");
    put_cell(table, last_words(look));
    put_cell(table, open_words(look));
    put_cell(table, opening_words(look));
    put_cell(table, path_words(look->path));
    put_cell(table, *look->what ? look->what : "-");
}

static void say_table(const struct look *looks, int count)
{
    static const char *const heads[] = {" ",         "FILE",       "BLOCKS",
                                        "LEFT",      "LAST AUDIT", "OPEN SINCE",
                                        "NEXT DRAW", "FOLDER",     "WHAT TO DO"};
    struct table table = new_table(sizeof heads / sizeof *heads);
    table.right = 1u << 2 | 1u << 3;
    for (int i = 0; i < table.columns; i++)
        put_cell(&table, heads[i]);
    for (int i = 0; i < count; i++)
        if (spoken() != QUIET || looks[i].need <= ATTENTION)
            put_row(&table, &looks[i]);
    if (table.count > table.columns)
        print_table(&table);
}

/* ---- For programs ---- */

static const char *time_field(const char *name, time_t time)
{
    return time == UNKNOWN_TIME ? "" : text(", \"%s\": \"%s\"", name, utc_words(time));
}

static const char *object_of(const struct look *look)
{
    static const char *const needs[] = {"unreadable", "attention", "to do", "nothing"};
    const char *party = look->is_owners ? "owner" : look->is_hosts ? "host" : "none";
    const char *numbers = "", *owners = "", *draw = "";
    if (look->is_known)
        numbers = text(", \"id\": %s, \"blocks\": %" PRIu64 ", \"counter\": %" PRIu64,
                       json_text(look->id), look->blocks, look->counter);
    if (look->is_known && look->is_owners)
        owners =
            text(", \"tokens\": %" PRIu64 ", \"left\": %" PRIu64 ", \"open\": %" PRIu64
                 ", \"pending\": %" PRIu64 ", \"verdict\": %s",
                 look->tokens, look->left, look->open, look->pending, json_text(look->verdict));
    if (look->is_owners && look->opening.minutes != UNTOLD)
        draw = text(", \"wait\": %" PRIu64, look->opening.minutes);
    return text("{\"folder\": %s, \"party\": \"%s\", \"need\": \"%s\", \"what\": %s%s%s%s%s%s%s}",
                json_text(look->path), party, needs[look->need], json_text(look->what), numbers,
                owners, time_field("judged", look->judged), time_field("accepted", look->accepted),
                time_field("since", look->since), draw);
}

static void tell_files(const struct look *looks, int count)
{
    char *bytes = NULL;
    size_t length = 0;
    FILE *f = open_memstream(&bytes, &length);
    if (!f)
        file_fault("write", "a list of files");
    for (int i = 0; i < count; i++)
        fprintf(f, "%s%s", i ? ", " : "[", object_of(&looks[i]));
    fputs("]", f);
    fclose(f);
    field_list("files", text("%s", bytes));
    free(bytes);
}

int run_status(const struct options *o)
{
    time_t now = time_told(o);
    struct tm local = local_time(now);
    struct look *looks = look_at_all(o, now);
    if (o->json)
        tell_files(looks, o->count);
    else
        say_table(looks, o->count);
    field_text("at", utc_words(now));
    say("times are local: %s", zone_words(&local));
    return ended(status_of(looks, o->count));
}
