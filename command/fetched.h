/* The host's folder as the owner sees it, fetched or mounted: `table`, and where a change needs
 * them `blocks`, `marks` and `stands`. */
#ifndef FETCHED_H
#define FETCHED_H

#include "change.h"
#include "owner.h"

/* Ends the program where the folder says, by `stands`, that it is of another file than the card's,
 * or of another counter than the one that stands. Without `stands` the call finds it out by the
 * records that are unused; where none is left, `stands` must be there. */
void check_fetched(const char *folder, const struct owner *owner);

/* The table, a copy; of the size that the card tells. */
struct bytes fetch_table(const char *folder, const struct change *now);

/* The block of a number and, but in version 1, its mark. A number that is none of a block is left
 * to the call. Blocks are taken from a folder with `stands` alone, since nothing else tells that
 * they are the newest. */
void fetch_block(const char *folder, const struct change *now, uint64_t number, uint8_t *block,
                 uint8_t *mark);

/* Ends the program where a record that does not open is from before the last change, which is not
 * in place at the host. */
void refuse_older_record(const char *folder, const struct owner *owner, const uint8_t *record);

#endif
