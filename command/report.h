/* What a command says, in words for people or as one JSON object for programs, and how it ends. */
#ifndef REPORT_H
#define REPORT_H

#include <stdint.h>

/* The exit status. */
enum status { DONE, REJECTED, TURNED_AWAY, WRONG_USE, BAD_FILE };

/* Names the command, once its words are known, and whether it prints JSON. */
void report_as(const char *command, int json);

/* The command's name, as it was named. */
const char *command_name(void);

/* How much is said to people: nothing, what a command is asked for, or the totals too. */
enum loudness { QUIET, NORMAL, VERBOSE };
void speak(enum loudness loudness);
enum loudness spoken(void);

/* A line for people, on standard output; nothing with JSON. */
void say(const char *format, ...) __attribute__((format(printf, 1, 2)));

/* A field of the JSON object; nothing without JSON. The texts are kept until the end. */
void field(const char *name, uint64_t number);
void field_text(const char *name, const char *words);

/* How many bytes the first character of a text has, in UTF-8. Returns 0 where it begins with a
 * control
 * character, or with no character at all. */
int plain_length(const char *words);

/* A field that is JSON already: a list of objects. */
void field_list(const char *name, const char *list);

/* A sentence beside the command's own business, on standard error; with JSON too. */
void note(const char *format, ...);

/* The word of a verdict. */
const char *verdict_word(enum status status);

/* A refusal that was caught: what was wrong, and what to do next. */
struct refusal {
    enum status status;
    const char *what, *next;
};

/* Makes a call that may be refused. Returns whether it was not; writes the refusal where it was.
 * For
 * calls that only read: what they have open or locked when they are refused stays so. */
int attempt(void (*call)(void *lent), void *lent, struct refusal *refusal);

/* Prints the object where JSON is asked for, and answers the status. */
int ended(enum status status);

/* What can no longer be undone is told in the place of 'Nothing has changed.' when a file can't be
 * written from now on. */
void decided(const char *what_stands);
int is_decided(void);

/* What a refusal is about, a file or an option: the field `about` of the object. */
void about(const char *file);

/* Each ends the program. A refusal in words: what was wrong, and what to do next. */
void refuse(enum status status, const char *next, const char *format, ...)
    __attribute__((noreturn, format(printf, 3, 4)));

/* The same for a result of the library that is not 0: its code in words, and what it is about. */
void turn_away(uint64_t result, const char *file) __attribute__((noreturn));

/* A file can't be read or written: what was tried, and why not by errno. */
void file_fault(const char *tried, const char *path) __attribute__((noreturn));

#endif
