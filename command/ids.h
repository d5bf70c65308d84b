/*
 * The ids that were set up under a key: KEY.ids beside the key, a line for each id, its eight bytes
 * in hexadecimal digits.
 *
 * A second set-up of an id under one key would seal other tokens under nonces that were used. An id
 * is listed before its card takes its place, so a set-up that was stopped may find its own id
 * there: checksum.h tells that apart.
 */
#ifndef IDS_H
#define IDS_H

#include "files.h"

/* Whether an id is listed beside the key at a path. */
int id_is_listed(const char *key, const uint8_t *id);

/* Waits until no other command lists an id, and keeps others waiting until the program ends. */
void lock_ids(const char *key);

/* Lists an id, unless it is listed, and waits until that is on the disk. */
void list_id(const char *key, const uint8_t *id);

#endif
