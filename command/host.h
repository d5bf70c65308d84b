/*
 * The host's folder: `blocks`, `marks` (but in version 1) and `table`, and `stands`, the header of
 * the change that is in place: of which file, with how many blocks, at which counter.
 *
 * A further change is put in place in steps, and a crash between two of them leaves the old state
 * or one that the next command completes:
 *   1. Blocks that are added are written after the last. The header of the change is kept as
 * `adding` meanwhile; where a command stops, the next one cuts `blocks` back to what stands.
 *   2. The rest of the change is kept as `applying`. From here on the next command goes on with it.
 *   3. The blocks that take the place of others, the marks, the table, and last `stands`.
 */
#ifndef HOST_H
#define HOST_H

#include "change.h"
#include "options.h"

struct host {
    struct folder folder;
    int begun;            /* whether there is a file: the change that stands is known then */
    int half;             /* whether a change is half in place, by a command that stopped */
    int damaged;          /* whether `applying` is there and can't be gone on with */
    struct change stands; /* what stands, or will once `applying` is in place */
    struct change applying;
};

/* Opens the folder and locks it; writes nothing. An `applying` that is damaged, or does not follow
 * what
 * stands, is refused, or with `mends` only noted. */
struct host open_host(const char *path, int make, int mends);

/* Puts in place what was being put there when a command stopped, or cuts back what it added. To be
 * called
 * when nothing can refuse the command that is not about these files. */
void complete(struct host *host);

/* Moves a damaged `applying` aside, where what it was to make is in place. */
void set_aside_damaged(struct host *host);

/* Ends the program where `applying` is damaged. */
void refuse_damaged(const struct host *host);

/* Ends the program where the folder holds another file than the one with an id, that of a change or
 * a message. */
void refuse_other_file(const struct host *host, const uint8_t *id, const char *path);

/* Whether a change follows what stands; whether it has the numbers of the one that stands. */
int follows(const struct host *host, const struct change *change);
int has_its_numbers(const struct host *host, const struct change *change);

/* Whether a change is the one that is half in place, by its table. */
int is_being_put(const struct host *host, const struct change *change);

/* Compares a change with the numbers of the one that stands with what is in place. Returns the name
 * of
 * the first file that has something else: "table", "blocks" or "marks"; null where none has. */
const char *differs(const struct host *host, const struct change *change);

/* Puts the first change of a file in place. */
void begin_file(struct host *host, const struct change *change);

/* Puts a further change in place. A damaged `applying` is moved aside first. */
void put_in_place(struct host *host, const struct change *change);

#endif
