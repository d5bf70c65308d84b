/* See help.h. */
#include "help.h"
#include "files.h"

#include <stdio.h>
#include <stdlib.h>
#include <string.h>

/* ---- What each option means ---- */

static const struct meaning meanings[] = {
    {"C", "FOLDER", "the owner's or the host's folder; default: the current one"},
    {"json", "", "print one JSON object for programs"},
    {"quiet", "", "print nothing but refusals; -q is the same"},
    {"verbose", "", "print the totals too; -v is the same"},
    {"help", "", "print this"},
    {"role", "ROLE", "who is at the screen: surveyor, planner or manager; default: planner"},
    {"host", "FOLDER", "the folder with the host's files, fetched or mounted"},
    {"key", "FILE", "the key; default: 'key' in the folder"},
    {"progress", "", "show progress, on any standard error"},
    {"old", "FILE", "the block as it is, where the host's blocks are not fetched"},
    {"mark", "MARK", "its mark: live or deleted"},
    {"plan", "FILE", "the plan; default: 'plan' in the folder, or none"},
    {"at", "TIME", "the local time, as in 2026-11-23T21:00; default: the clock's"},
    {"again", "", "write the message of the open token again"},
    {"close", "", "reject a reply that is none, and close the draw"},
    {"id", "ID", "the file's name, 1 to 8 letters; once under a key"},
    {"version", "NUMBER", "1 without marks, 2 with marks, 3 with asks too; default: 3"},
    {"block-bytes", "NUMBER", "bytes in a block, 1 to 4,096"},
    {"rows", "NUMBER", "rows, in which the blocks lie, 1 to 1,048,576"},
    {"positions", "NUMBER", "rows that an audit draws, 1 to 512"},
    {"tokens", "NUMBER", "audits in all, 1 to 65,536"},
    {"blocks", "NUMBER", "blocks that the file has"},
    {"damaged", "NUMBER", "rows that the host has lost"},
    {"check", "", "say whether the change is whole and fits, and write nothing"},
    {"committed", "RECEIPT", "the owner's receipt, for a change that was asked"},
    {"out", "FILE", "the file to write, '-' for standard output"},
    {"svg", "FILE", "a picture to write"},
    {"html", "FILE", "the page to write, '-' for standard output"},
    {"force", "", "replace a file of another kind"},
    {"data", "NUMBER", "blocks in a group, 1 to 48"},
    {"parity", "NUMBER", "parity blocks for a group, 1 to 16"},
    {"lost", "NUMBERS", "blocks that are lost, as in 3,7-9"},
    {"lost-parity", "NUMBERS", "parity blocks that are lost, as in 3,7-9"},
    {"since", "DATE", "from a date on, as in 2026-11-01 or 2026-11-01T08:00"},
    {"audits", "", "verdicts alone"},
    {"every", "DAYS", "an audit is overdue when the last accepted one is older"},
    {"complete", "", "print what may come in the place of the last word, for shells"},
};
enum { MEANINGS = sizeof meanings / sizeof *meanings };

static const char *const common[] = {"C", "json", "quiet", "verbose", "help", NULL};

const struct meaning *meaning_of(const char *option, size_t length)
{
    static const struct meaning none = {"", "", ""};
    for (int i = 0; i < MEANINGS; i++)
        if (strlen(meanings[i].option) == length && !strncmp(meanings[i].option, option, length))
            return &meanings[i];
    return &none;
}

void each_option(const struct command *command, void (*call)(const char *, const struct meaning *))
{
    for (const char *at = command->options; at[1]; at = strchr(at + 1, ' ')) {
        size_t length = strcspn(at + 1, " ");
        call(text("--%.*s", (int)length, at + 1), meaning_of(at + 1, length));
    }
    for (int i = 0; common[i]; i++)
        call(text("%s%s", common[i][1] ? "--" : "-", common[i]),
             meaning_of(common[i], strlen(common[i])));
}

/* ---- For people ---- */

/* The command that a group of commands begins with, and the group's name. */
static const char *group_at(const char *name)
{
    static const char *const groups[][2] = {
        {"key", "The owner's file"},
        {"draw", "Audits, the owner's side"},
        {"show", "What stands, what happened, what needs attention"},
        {"apply", "The host"},
        {"positions", "Planning, and parity"},
        {"help", "Help"},
    };
    for (size_t i = 0; i < sizeof groups / sizeof *groups; i++)
        if (!strcmp(groups[i][0], name))
            return groups[i][1];
    return NULL;
}

static void print_command(const struct command *command)
{
    printf("  %-15s %-15s %s\n", command->name, command->words, command->purpose);
}

void help_all(const struct commands *commands)
{
    puts("usage: legbaro [OPTION..] COMMAND [WORD..]");
    for (int i = 0; i < commands->count; i++) {
        const struct command *command = &commands->all[i];
        const char *group = group_at(command->name);
        if (group)
            printf("\n%s\n", group);
        print_command(command);
    }
    puts("\n'legbaro help COMMAND' prints a command's options. Every command takes -C FOLDER, the "
         "owner's or\n"
         "the host's folder; other words are relative to the current folder. The manual is "
         "legbaro(1).\n\n"
         "Which of three centres needs attention: 'legbaro status north south east', where these "
         "are the\n"
         "owner's folders of the three. With '--every 7' a centre without an audit for a week does "
         "too.\n\n"
         "Exit status: 0 done or accepted, 1 rejected, in need of attention, or parity that does "
         "not agree,\n"
         "2 refused, 3 wrong use, 4 a file can't be read or written.");
}

int help_family(const struct commands *commands, const char *first)
{
    int found = 0;
    for (int i = 0; i < commands->count; i++)
        if (!strncmp(commands->all[i].name, text("%s ", first), strlen(first) + 1)) {
            print_command(&commands->all[i]);
            found++;
        }
    return found;
}

static void print_option(const char *option, const struct meaning *meaning)
{
    printf("  %-24s %s\n", text("%s %s", option, meaning->value), meaning->meaning);
}

void help_one(const struct command *command)
{
    printf("usage: legbaro %s [OPTION..]%s%s\n%s\n\n", command->name, *command->words ? " " : "",
           command->words, command->purpose);
    each_option(command, print_option);
    puts("\nOptions may come before or after the command. -C names the folder of the files that a "
         "command\n"
         "keeps; other words are relative to the current folder. '-' is standard input where a "
         "small file\n"
         "is read. The manual is legbaro(1).");
}

/* ---- Names ---- */

const struct command *command_of(const struct commands *commands, const char *name)
{
    for (int i = 0; i < commands->count; i++)
        if (!strcmp(commands->all[i].name, name))
            return &commands->all[i];
    return NULL;
}

/* How many letters are added, left out, changed or swapped with their neighbour between two
 * short words. */
enum { MOST_LETTERS = 24, FAR = 100 };
static int distance(const char *a, const char *b)
{
    int table[MOST_LETTERS + 1][MOST_LETTERS + 1];
    int rows = (int)strlen(a), columns = (int)strlen(b);
    if (rows > MOST_LETTERS || columns > MOST_LETTERS)
        return FAR;
    for (int i = 0; i <= rows; i++)
        for (int k = 0; k <= columns; k++) {
            if (!i || !k) {
                table[i][k] = i + k;
                continue;
            }
            int change = table[i - 1][k - 1] + (a[i - 1] != b[k - 1]);
            int add = table[i][k - 1] + 1, leave = table[i - 1][k] + 1;
            int least = add < leave ? add : leave;
            table[i][k] = change < least ? change : least;
            int swapped = i > 1 && k > 1 && a[i - 1] == b[k - 2] && a[i - 2] == b[k - 1];
            if (swapped && table[i - 2][k - 2] + 1 < table[i][k])
                table[i][k] = table[i - 2][k - 2] + 1;
        }
    return table[rows][columns];
}

const char *nearest(const struct commands *commands, const char *given)
{
    int most = strlen(given) < 4 ? 1 : 2, least = most + 1;
    const char *found = NULL;
    for (int i = 0; i < commands->count; i++) {
        int far = distance(given, commands->all[i].name);
        if (far < least) {
            least = far;
            found = commands->all[i].name;
        }
    }
    return found;
}
