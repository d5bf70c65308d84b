/* The words of a command line, read and checked. What is wrong with them ends the program with
 * status WRONG_USE. */
#ifndef OPTIONS_H
#define OPTIONS_H

#include <stdint.h>

/* A number that was not told. No number that is read is so great. */
#define UNTOLD UINT64_MAX

/* An option that was not told is null, UNTOLD or 0, but for role, version and folder, which have a
 * default. */
struct options {
    const char *folder, *key, *host, *old, *plan, *at, *id, *out, *svg, *lost, *lost_parity,
        *committed;
    uint64_t role, version, mark, block_bytes, rows, positions, tokens, blocks, damaged, data,
        parity;
    uint64_t json, progress, check, force, again, close;
    const char *since, *html;
    uint64_t every, audits, complete, quiet, verbose;
    int asked; /* the command begins with 'ask' */
    char **words;
    int count;
};

/* A command: its name, the options that it has beside those that every command has, each between
 * blanks, how many words it takes and what they are, what it is for, and what it does, which
 * answers the exit status. */
struct command {
    const char *name, *options;
    int least, most;
    const char *words, *purpose;
    int (*run)(const struct options *options);
};

/* Reads the arguments behind a command's name. They lie in place of the others then: words
 * first. */
struct options read_options(const struct command *command, int count, char **given);

/* Whether a word is an option whose value is the next word. */
int takes_next(const char *word);

/* A number of decimal digits alone; answers whether it is one. */
int read_number(const char *digits, uint64_t *number);

/* Ends the program where a text or number that a command can't do without was not told. */
void needs_text(const char *told, const char *option);
void needs_number(uint64_t told, const char *option);

#endif
