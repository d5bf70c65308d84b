/*
 * A receipt: the owner's file `committed`, which a commit makes, and which the host needs to put a
 * change in place that was asked. Numbers are big-endian.
 *
 *    0   8   "receipt\n"
 *    8   1   version, 1
 *    9   8   id of the file
 *   17   8   counter of the change
 *   25   1   1 where the change was there at the commit, else 0
 *   26   4   the change's checksum, which is its last four bytes; 0 where it was not there
 *   30   4   CRC-32 of the bytes before
 *
 * As with `change`, a receipt is prepared before the card takes its place, and placed after it:
 * owner.h.
 */
#ifndef RECEIPT_H
#define RECEIPT_H

#include "change.h"
#include "files.h"

enum { RECEIPT_BYTES = 34 };

/* Prepares the receipt of a card's change at a counter: the pending one, before it is committed, or
 * the
 * one that stands. Returns whether the change is in the folder. */
int prepare_receipt(const struct folder *folder, struct bytes card, uint64_t counter);

/* Puts a prepared receipt in its place where the card says that its change stands; another is
 * removed. */
void settle_receipt(const struct folder *folder, struct bytes card);

/* Ends the program where the file at a path is not the receipt of a change. Returns whether it has
 * the change's checksum. */
int check_receipt(const char *path, const struct change *change, const char *change_path);

#endif
