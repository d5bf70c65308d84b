/*
 * A file that a command makes by --out or --svg. It never takes the place of
 *   - a file that the command has read;
 *   - a file that the owner or the host keeps, in the folder of -C or in the folder of the output.
 * Files are compared by device and inode, so that links are seen. Another file that is there is
 * replaced where it is empty or of the kind that the command makes; else --force is needed.
 */
#ifndef OUTPUT_H
#define OUTPUT_H

#include "files.h"
#include "options.h"

struct output {
    const char *path,
        *target;        /* as named, and the regular file that it is; null for a pipe or device */
    const char *folder; /* of -C */
    int (*is_kind)(
        struct bytes); /* whether bytes are of the kind that the command makes, or null */
    int force, named;  /* named by an option: a NAME.new beside it is someone else's */
    int standard;      /* standard output, or -1 */
};

/* Checks an output, and ends the program where it may not be written. `told` is the option's path,
 * or null where the command's own NAME in the folder of -C is meant. "-" is standard output: what
 * the command says goes to standard error then. */
struct output check_output(const struct options *options, const char *told, const char *name,
                           int (*is_kind)(struct bytes));

/* Checks it again, and writes it: a regular file is replaced in one step; a pipe or a device is
 * written directly. */
void write_output(const struct output *output, const struct piece *pieces, int count);

#endif
