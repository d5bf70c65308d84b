/* See options.h. */
#include "options.h"
#include "files.h"
#include "numbers.h"
#include "report.h"

#include "legbaro.h"

#include <ctype.h>
#include <stdlib.h>
#include <string.h>

enum kind { TEXT, NUMBER, ROLE, MARK, FLAG };

static const struct option {
    const char *name;
    enum kind kind;
    size_t at;
} all[] = {
    {"key", TEXT, offsetof(struct options, key)},
    {"host", TEXT, offsetof(struct options, host)},
    {"old", TEXT, offsetof(struct options, old)},
    {"plan", TEXT, offsetof(struct options, plan)},
    {"at", TEXT, offsetof(struct options, at)},
    {"id", TEXT, offsetof(struct options, id)},
    {"out", TEXT, offsetof(struct options, out)},
    {"svg", TEXT, offsetof(struct options, svg)},
    {"lost", TEXT, offsetof(struct options, lost)},
    {"lost-parity", TEXT, offsetof(struct options, lost_parity)},
    {"committed", TEXT, offsetof(struct options, committed)},
    {"role", ROLE, offsetof(struct options, role)},
    {"mark", MARK, offsetof(struct options, mark)},
    {"version", NUMBER, offsetof(struct options, version)},
    {"block-bytes", NUMBER, offsetof(struct options, block_bytes)},
    {"rows", NUMBER, offsetof(struct options, rows)},
    {"positions", NUMBER, offsetof(struct options, positions)},
    {"tokens", NUMBER, offsetof(struct options, tokens)},
    {"blocks", NUMBER, offsetof(struct options, blocks)},
    {"damaged", NUMBER, offsetof(struct options, damaged)},
    {"data", NUMBER, offsetof(struct options, data)},
    {"parity", NUMBER, offsetof(struct options, parity)},
    {"json", FLAG, offsetof(struct options, json)},
    {"progress", FLAG, offsetof(struct options, progress)},
    {"check", FLAG, offsetof(struct options, check)},
    {"force", FLAG, offsetof(struct options, force)},
    {"again", FLAG, offsetof(struct options, again)},
    {"close", FLAG, offsetof(struct options, close)},
    {"since", TEXT, offsetof(struct options, since)},
    {"html", TEXT, offsetof(struct options, html)},
    {"every", NUMBER, offsetof(struct options, every)},
    {"audits", FLAG, offsetof(struct options, audits)},
    {"complete", FLAG, offsetof(struct options, complete)},
    {"quiet", FLAG, offsetof(struct options, quiet)},
    {"verbose", FLAG, offsetof(struct options, verbose)},
};

static const char *const see = "'legbaro help' and legbaro(1) tell the commands and their options.";

int read_number(const char *digits, uint64_t *number)
{
    for (const char *at = digits; *at; at++)
        if (!isdigit((unsigned char)*at))
            return 0;
    if (!*digits || strlen(digits) > 18)
        return 0;
    *number = strtoull(digits, NULL, 10);
    return 1;
}

/* One of some words, which stand for numbers from first on, or a number. */
static int read_word(const char *word, const char *const *words, uint64_t first, uint64_t *number)
{
    for (int i = 0; words[i]; i++)
        if (!strcmp(word, words[i])) {
            *number = first + (uint64_t)i;
            return 1;
        }
    return read_number(word, number);
}

static void read_value(const struct option *option, const char *value, struct options *o)
{
    static const char *const roles[] = {"surveyor", "planner", "manager", NULL}, *const marks[] = {
                                                                                     "live",
                                                                                     "deleted",
                                                                                     NULL};
    static const char *const wanted[] = {"a text", "a number of up to 18 digits",
                                         "surveyor, planner or manager", "live or deleted"};
    void *place = (char *)o + option->at;
    int right = *value != 0;
    switch (option->kind) {
    case TEXT:
        *(const char **)place = value;
        break;
    case ROLE:
        right = read_word(value, roles, LEGBARO_SURVEYOR, place);
        break;
    case MARK:
        right = read_word(value, marks, LEGBARO_LIVE, place);
        break;
    default:
        right = read_number(value, place);
    }
    if (!right)
        refuse(WRONG_USE, see, "--%s: '%s' is not %s", option->name, value, wanted[option->kind]);
}

/* The option of a name that ends at '=' or at its last letter; it is one of the command's. */
static const struct option *option_of(const struct command *command, const char *name)
{
    size_t length = strcspn(name, "=");
    for (size_t i = 0; i < sizeof all / sizeof *all; i++)
        if (strlen(all[i].name) == length && !strncmp(all[i].name, name, length) &&
            (strstr(" json quiet verbose ", text(" %s ", all[i].name)) ||
             strstr(command->options, text(" %s ", all[i].name))))
            return &all[i];
    refuse(WRONG_USE, see, "'legbaro %s' has no option --%.*s", command->name, (int)length, name);
    return NULL;
}

/* A short option in full: -q and -v; another word as it is. */
static const char *in_full(const char *word)
{
    return !strcmp(word, "-q") ? "--quiet" : !strcmp(word, "-v") ? "--verbose" : word;
}

int takes_next(const char *word)
{
    if (!strcmp(word, "-C"))
        return 1;
    for (size_t i = 0; i < sizeof all / sizeof *all; i++)
        if (!strncmp(word, "--", 2) && !strcmp(word + 2, all[i].name))
            return all[i].kind != FLAG;
    return 0;
}

/* Reads the option at given[i]; answers the place of its last word. */
static int read_option(const struct command *command, struct options *o, int i, int count,
                       char **given)
{
    const char *word = in_full(given[i]);
    int folder = !strcmp(word, "-C");
    if (!folder && strncmp(word, "--", 2))
        refuse(WRONG_USE, see, "'legbaro %s' has no option %s", command->name, word);
    const struct option *option = folder ? NULL : option_of(command, word + 2);
    const char *value = folder ? NULL : strchr(word, '=');
    if (option && option->kind == FLAG) {
        if (value)
            refuse(WRONG_USE, see, "--%s takes no value", option->name);
        *(uint64_t *)((char *)o + option->at) = 1;
        return i;
    }
    if (!value && ++i == count)
        refuse(WRONG_USE, see, "%s wants a value", given[count - 1]);
    value = value ? value + 1 : given[i];
    if (folder)
        o->folder = value;
    else
        read_value(option, value, o);
    return i;
}

struct options read_options(const struct command *command, int count, char **given)
{
    struct options o = {.folder = ".",
                        .role = LEGBARO_PLANNER,
                        .version = LEGBARO_TWO_STEPS,
                        .mark = UNTOLD,
                        .words = given};
    int only_words = 0;
    o.block_bytes = o.rows = o.positions = o.tokens = o.blocks = o.damaged = o.data = o.parity =
        UNTOLD;
    o.every = UNTOLD;
    o.asked = !strncmp(command->name, "ask ", 4);
    for (int i = 0; i < count; i++)
        if (!only_words && !strcmp(given[i], "--"))
            only_words = 1;
        else if (only_words || given[i][0] != '-' || !given[i][1])
            given[o.count++] = given[i];
        else
            i = read_option(command, &o, i, count, given);
    if (o.count < command->least || o.count > command->most)
        refuse(WRONG_USE, see, "'legbaro %s' takes %s, and was given %s", command->name,
               *command->words ? command->words : "no words beside its options",
               counted((uint64_t)o.count, "word", "words"));
    return o;
}

void needs_text(const char *told, const char *option)
{
    if (!told)
        refuse(WRONG_USE, see, "%s is missing", option);
}

void needs_number(uint64_t told, const char *option)
{
    if (told == UNTOLD)
        refuse(WRONG_USE, see, "%s is missing", option);
}
