/*
 * The checksum of the newest card. `card.sum` lies beside the card and has one line: the CRC-32 of
 * the card that the last command left and that of the card before it, each in eight hexadecimal
 * digits; '-' where there was none.
 *
 * It is written after card.new and before the card takes its place. So the card is the newest if it
 * has the first checksum, or if it has the second one while card.new has the first: then a command
 * was stopped between the two.
 */
#ifndef CHECKSUM_H
#define CHECKSUM_H

#include "files.h"

/* Whether a card is the newest. A folder of an earlier program has no checksum. */
enum newest { NEWEST, NOT_NEWEST, NO_CHECKSUM };
enum newest is_newest(const struct folder *folder, struct bytes card);

/* Prepares the checksums of a card that is about to take its place, and of the one before it, which
 * is empty at set-up; puts them in their place, where they are prepared. */
void prepare_checksum(const struct folder *folder, struct bytes card, struct bytes before);
void place_checksum(const struct folder *folder);

/* Removes what was prepared, and writes the checksum of the card that is in its place, where the
 * file still speaks of one that was to come or of a set-up. */
void settle_checksum(const struct folder *folder, struct bytes card);

/* Whether a set-up was stopped before its card took its place: there is a first checksum and no
 * card. */
int set_up_stopped(const struct folder *folder);

#endif
