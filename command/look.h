/* What a folder says at a glance, for an overview of many: its card or `stands`, its plan and
 * its journal. What is wrong with a folder is noted, and ends nothing. */
#ifndef LOOK_H
#define LOOK_H

#include "files.h"
#include "options.h"
#include "wait.h"

#include <time.h>

/* How much a folder needs someone, most first. */
enum need { UNREADABLE, ATTENTION, TO_DO, NOTHING };

struct look {
    const char *path, *id;
    int is_owners, is_hosts; /* neither where the folder is none of them */
    int is_known; /* whether its card or `stands` can be read: the numbers are told then */
    uint64_t blocks, counter, tokens, left, open, pending;
    time_t begun; /* the first line of the journal */
    time_t since; /* when the token was drawn that is open, or the change asked that is pending */
    time_t judged, accepted; /* the last verdict, and the last that was an acceptance */
    const char *verdict;     /* the word of the last one, "" for none */
    uint64_t cause;
    int has_plan;
    struct opening
        opening; /* when the plan allows a draw; minutes are UNTOLD where it can't be read */
    enum need need;
    const char *what; /* what is the matter, and what to do; "" where nothing is */
};

/* Looks at a folder, at a time, with --every and --plan of the options. */
struct look look_at(const char *folder, const struct options *options, time_t now);

/* Looks at all folders that are named, those that need someone most first, else in their order. */
struct look *look_at_all(const struct options *options, time_t now);

/* The time now, or that of --at. */
time_t time_told(const struct options *options);

/* The last verdict with its date, what is open or pending since when, and when a draw is
 * allowed. */
const char *last_words(const struct look *look);
const char *open_words(const struct look *look);
const char *opening_words(const struct look *look);

/* The exit status for some folders: BAD_FILE where one can't be read, REJECTED where one needs
 * attention. */
int status_of(const struct look *looks, int count);

#endif
