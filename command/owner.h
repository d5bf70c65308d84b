/*
 * The owner's folder: `key` with `key.ids`, `card` with `card.sum`, and what goes to the host:
 * `change`, `committed` and `message`.
 *
 * The card decides. What a call writes beside it is prepared first, as change.new or message.new,
 * which nobody is told to send; then the card takes its place, and with that the call is done; then
 * the other file follows. Wherever a command stops, settling makes the folder what the card says: a
 * prepared file that fits the card takes its place, one that does not is removed. So no table is
 * seen under a counter that the card has not issued, and no counter seals two.
 *
 * A refused command leaves every byte of the folder. So opening only looks: at the card, its
 * checksum, and whether the files beside it belong to it. A command settles what an earlier one
 * left when nothing can refuse it any more. A file is removed only while the checksum says that the
 * card is the newest; else it is moved aside.
 */
#ifndef OWNER_H
#define OWNER_H

#include "files.h"
#include "journal.h"
#include "options.h"

struct owner {
    struct folder folder;
    struct bytes master, card; /* card: a copy, which calls write */
    struct bytes before;       /* the card as it is in the folder */
    int newest;                /* whether its checksum says that it is the newest */
    struct entry entry;        /* what the command adds to its line of the journal */
    const char *line;          /* that line, once the card is prepared */
};

/* Opens the folder and locks it, reads the card and, where a call takes it, the key; writes
 * nothing. What is wrong with the card or with a file beside it is refused. open_card takes the
 * folder alone. */
struct owner open_owner(const struct options *options, int with_key);
struct owner open_card(const char *folder);

/* The path of the key: that of the folder, or of --key. The key itself; refused where others can
 * read it. */
const char *key_path(const struct options *options);
struct bytes read_master(const struct options *options);

/* The card of a folder, a copy, of a size that its version has and with numbers within their
 * limits. */
struct bytes read_card(const char *folder);

/* A number of the card, at its offset of LEGBARO_CARD_.., with so many bytes; the last counter
 * issued, and the pending one or 0, in every version. */
uint64_t in_card(struct bytes card, size_t at, unsigned width);
uint64_t last_issued(struct bytes card);
uint64_t pending(struct bytes card);

/* Makes the folder what the card in it says. To be called once nothing can refuse the command, and
 * before it writes. */
void settle(const struct owner *owner);

/* Whether settling has something to do. */
int is_unsettled(const struct owner *owner);

/* Prepares the card and its checksum; puts them in the places of those before, and settles.
 * store_card does both. */
void prepare_card(struct owner *owner);
void place_card(struct owner *owner);
void store_card(struct owner *owner);

#endif
