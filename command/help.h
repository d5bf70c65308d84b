/* Help: all commands, one command with its options, and suggestions for words that are none. */
#ifndef HELP_H
#define HELP_H

#include "options.h"

#include <stddef.h>

/* The commands of main.c. */
struct commands {
    const struct command *all;
    int count;
};

/* What an option takes, "" for nothing, and what it means. */
struct meaning {
    const char *option, *value, *meaning;
};

/* The meaning of an option whose name has so many letters; empty texts for a name that is none. */
const struct meaning *meaning_of(const char *option, size_t length);

/* Calls something with each option of a command as it is written, those that every command has
 * last. */
void each_option(const struct command *command, void (*call)(const char *, const struct meaning *));

/* Prints all commands; the options of one. */
void help_all(const struct commands *commands);
void help_one(const struct command *command);

/* Prints the commands whose first word is this one, of two; returns how many there are. */
int help_family(const struct commands *commands, const char *first);

/* Prints what may come in the place of the last of some words, for the completion of a shell: on
 * a line each, with a tab and what it means; or ":files" or ":folders", which the shell
 * completes itself. */
void complete_words(const struct commands *commands, int count, char **words);

/* The command of a name, which may be two words; null where there is none. */
const struct command *command_of(const struct commands *commands, const char *name);

/* The name of a command that is nearly the one given; null where none is. */
const char *nearest(const struct commands *commands, const char *given);

#endif
