/* legbaro: provable data possession of a car park's tick file, for owners and hosts. The manual is
 * legbaro(1). */
#define _GNU_SOURCE
#include "commands.h"
#include "files.h"
#include "help.h"
#include "progress.h"
#include "report.h"

#include "legbaro.h"

#include <signal.h>
#include <stdio.h>
#include <stdlib.h>
#include <string.h>
#include <unistd.h>

#define CHANGES " role host key progress "
enum { MOST_WORDS = 1 << 20 };

#define CORRECTIONS " role host key progress old mark "

static const struct command commands[] = {
    {"key", " ", 0, 0, "", "make the owner's key", run_key},
    {"set-up", " key id version block-bytes rows positions tokens progress ", 1, 1, "BLOCKS",
     "make card and table of a new file", run_set_up},
    {"append", CHANGES, 1, 1, "BLOCK", "add a block", run_append},
    {"load", CHANGES, 1, 1, "BLOCKS", "add several blocks together", run_load},
    {"update", CORRECTIONS, 2, 2, "NUMBER BLOCK", "put a block in the place of another",
     run_update},
    {"delete", CORRECTIONS, 1, 1, "NUMBER", "put zero bytes in the place of a block", run_delete},
    {"batch", CHANGES, 1, 1, "LIST", "several updates and deletions together", run_batch},
    {"ask append", CHANGES, 1, 1, "BLOCK", "ask for an append, then commit or drop it", run_append},
    {"ask load", CHANGES, 1, 1, "BLOCKS", "ask for a load", run_load},
    {"ask update", CORRECTIONS, 2, 2, "NUMBER BLOCK", "ask for an update", run_update},
    {"ask delete", CORRECTIONS, 1, 1, "NUMBER", "ask for a deletion", run_delete},
    {"ask batch", CHANGES, 1, 1, "LIST", "ask for a batch", run_batch},
    {"commit", " role again ", 0, 0, "", "let the change that is pending stand", run_commit},
    {"drop", " role ", 0, 0, "", "give the change that is pending up", run_drop},
    {"draw", " role key plan at again ", 0, 0, "", "draw a token: the message for the host",
     run_draw},
    {"wait", " plan at ", 0, 0, "", "how long until the plan allows a draw", run_wait},
    {"cause", " role key ", 1, 1, "REPLY", "why judge would reject a reply", run_cause},
    {"judge", " role key close ", 1, 1, "REPLY", "judge the host's reply", run_judge},
    {"judge-pool", " role key close ", 3, 17, "REPLY FOLDER..", "judge one reply for several files",
     run_judge_pool},
    {"show", " ", 0, 0, "", "a card, or what stands at the host, in words", run_show},
    {"status", " every plan at ", 1, MOST_WORDS, "FOLDER..",
     "which files need attention, and what to do", run_status},
    {"log", " since audits ", 0, MOST_WORDS, "[JOURNAL..]",
     "what happened in a folder, newest last", run_log},
    {"report", " html every plan at force ", 1, MOST_WORDS, "FOLDER..",
     "a page with the status and history of files", run_report},
    {"apply", " check committed progress ", 0, 1, "[CHANGE]", "host: put a change in place",
     run_apply},
    {"prove", " out force ", 1, 1, "MESSAGE", "host: answer a message", run_prove},
    {"pool", " out force ", 2, 16, "REPLY..", "host: make one reply of several", run_pool},
    {"positions", " positions rows blocks ", 0, 0, "",
     "how many positions a file with few blocks needs", run_positions},
    {"sheet", " block-bytes rows positions tokens blocks damaged svg force ", 0, 0, "",
     "room, reading, work and risk of a planned file", run_sheet},
    {"parity encode", " block-bytes data parity out force ", 1, 1, "BLOCKS",
     "parity blocks for the blocks of a file", run_parity_encode},
    {"parity check", " block-bytes data parity blocks ", 2, 2, "BLOCKS PARITY",
     "whether blocks and parity agree", run_parity_check},
    {"parity rebuild", " block-bytes data parity blocks lost lost-parity out force ", 2, 2,
     "BLOCKS PARITY", "lost blocks from the others", run_parity_rebuild},
    {"help", " complete ", 0, MOST_WORDS, "[COMMAND]", "all commands, or the options of one",
     run_help},
};

static const struct commands all = {commands, sizeof commands / sizeof *commands};

static const char *const see = "Run 'legbaro help' for the list of commands.";

/* A file that another program cuts while it is mapped. */
static void cut(int signal)
{
    static const char words[] = "legbaro: a file was cut while it was read.\n  Put it back whole, "
                                "and run the command again.\n";
    ssize_t written = write(STDERR_FILENO, words, sizeof words - 1);
    (void)signal;
    (void)written;
    _exit(BAD_FILE);
}

/* Whether the command's name is what the words begin with; its number of words then. */
static int named(const struct command *command, int count, char **given)
{
    const char *second = strchr(command->name, ' ');
    size_t length = second ? (size_t)(second - command->name) : strlen(command->name);
    if (strlen(given[0]) != length || strncmp(given[0], command->name, length))
        return 0;
    if (!second)
        return 1;
    return count > 1 && !strcmp(given[1], second + 1) ? 2 : 0;
}

static int asks_for(const char *option, int count, char **given)
{
    for (int i = 0; i < count; i++)
        if (!strcmp(given[i], option))
            return 1;
    return 0;
}

/* Ends the program where the words begin with no command. */
static void refuse_command(const char *first, const char *second)
{
    const char *both = second ? text("%s %s", first, second) : first, *meant = nearest(&all, both);
    if (!meant)
        meant = nearest(&all, first);
    refuse(WRONG_USE, meant ? text("Is 'legbaro %s' meant? %s", meant, see) : see,
           "there is no command '%s'", both);
}

int run_help(const struct options *o)
{
    const char *name = o->count > 1 ? text("%s %s", o->words[0], o->words[1]) : o->words[0];
    if (o->complete)
        complete_words(&all, o->count, o->words);
    else if (!o->count)
        help_all(&all);
    else if (o->count <= 2 && command_of(&all, name))
        help_one(command_of(&all, name));
    else if (o->count != 1 || !help_family(&all, name))
        refuse_command(name, NULL);
    return ended(DONE);
}

/* Runs the command that the words begin with; options that came before it come after it now. */
static int run(int before, int count, char **given)
{
    char **from = given + before;
    int json = asks_for("--json", count, given), left = count - before;
    report_as(from[0], json);
    for (int i = 0; i < all.count; i++) {
        int words = named(&commands[i], left, from);
        if (!words)
            continue;
        if (asks_for("--help", count, given) || asks_for("-h", count, given)) {
            help_one(&commands[i]);
            return ended(DONE);
        }
        report_as(commands[i].name, json);
        memmove(given + words, given, (size_t)before * sizeof *given);
        struct options options = read_options(&commands[i], count - words, given + words);
        speak(options.quiet ? QUIET : options.verbose ? VERBOSE : NORMAL);
        if (options.progress)
            always_show_progress();
        return commands[i].run(&options);
    }
    refuse_command(from[0], left > 1 && from[1][0] != '-' ? from[1] : NULL);
    return WRONG_USE;
}

/* How many words come before the command: options and their values. */
static int options_before(int count, char **given)
{
    int at = 0;
    while (at < count && given[at][0] == '-' && given[at][1])
        at += takes_next(given[at]) ? 2 : 1;
    return at;
}

int main(int count, char **given)
{
    struct sigaction action = {.sa_handler = cut};
    sigaction(SIGBUS, &action, NULL);
    signal(SIGXFSZ, SIG_IGN); /* a write past the limit of a file's size fails with EFBIG then */
    given++;
    count--;
    if (count && (!strcmp(given[0], "-V") || (!strcmp(given[0], "--version") && count == 1))) {
        puts("legbaro " LEGBARO_VERSION);
        return ended(DONE);
    }
    int before = options_before(count, given);
    if (before < count)
        return run(before, count, given);
    if (asks_for("--help", count, given) || asks_for("-h", count, given)) {
        help_all(&all);
        return ended(DONE);
    }
    report_as("", asks_for("--json", count, given));
    refuse(WRONG_USE, see, "no command is named");
    return WRONG_USE;
}
