/* The lines of journals, read: journal.h says what they have. Nothing here ends the program. */
#ifndef LINES_H
#define LINES_H

#include "files.h"

#include <time.h>

/* A longer line is damaged. */
enum { MOST_LINE_BYTES = 1 << 16 };

/* A line. What it does not have is "" or UNTOLD; what can't be printed in its texts is '?'. */
struct line {
    time_t time;
    const char *command, *role, *id, *verdict, *program;
    const char *card, *stands; /* the checksum of one of them */
    uint64_t counter, blocks, left, open, pending, token, cause, turns, hashes;
};

/* Reads a line. Returns 0, and leaves the texts empty, where it is damaged: no object, or
 * without a time or a command. Fields that this program does not know are passed over. */
int read_line(const char *at, const char *end, struct line *line);

/* The line as a JSON object again, with what this program knows of it. */
const char *json_of_line(const struct line *line);

/* Reads the last of some whole lines; a damaged one, or none, leaves the texts empty. */
void read_last_line(const uint8_t *at, size_t length, struct line *line);

/* Maps a regular file. Returns 0 where it can't be read or is no file; errno says why. */
int map_journal(const char *path, struct bytes *file);

/* Lines one after the other: the first call has *at at the begin. Each call writes the next
 * line's begin and end, and returns 0 after the last. A torn last line counts as one.
 * previous_line goes backwards from the end, where *at is at first. */
int next_line(const struct bytes *file, size_t *at, const char **begin, const char **end);
int previous_line(const struct bytes *file, size_t *at, const char **begin, const char **end);

#endif
