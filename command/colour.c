/* See colour.h. */
#define _GNU_SOURCE
#include "colour.h"
#include "files.h"

#include <stdlib.h>
#include <string.h>
#include <unistd.h>

enum { WORD = 8, RED = 31, GREEN = 32 };

static int has_colours(void)
{
    const char *none = getenv("NO_COLOR"), *terminal = getenv("TERM");
    return !(none && *none) && terminal && strcmp(terminal, "dumb") && isatty(STDOUT_FILENO);
}

const char *colour_of(const char *line)
{
    int accepted = !strncmp(line, "ACCEPTED", WORD), rejected = !strncmp(line, "REJECTED", WORD);
    if ((!accepted && !rejected) || !has_colours())
        return line;
    return text("\033[1;%dm%.*s\033[0m%s", accepted ? GREEN : RED, WORD, line, line + WORD);
}
