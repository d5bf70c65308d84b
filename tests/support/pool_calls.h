/* Pooled judgings, and the pooling before them, on several files of one master. */
#ifndef POOL_CALLS_H
#define POOL_CALLS_H

#include "files.h"

/* The files of a pool, and one more. */
enum { POOL_ROOM = LEGBARO_MOST_POOLED + 1 };

/* A file of a version under a master, with a token drawn, after a few changes and spent tokens. */
struct file pool_file(const struct buffer *master, uint64_t version);

/* The pooling of the replies that honest hosts of these files give, in this order, with room for
 * what it writes. The reply of a file with no token open is blank. */
struct call pooling_call(const struct file *const *files, size_t count);

/* A pooled judging of these files by any role that may, their cards in this order, with a reply:
 * the one that such a pooling makes, and blank where it makes none. */
struct call pool_call(const struct file *const *files, size_t count);

/* A pooled judging of a file among a few others, new ones of any version with tokens drawn; its
 * card is anywhere among theirs, at card_offset. */
struct call pool_among_others(const struct file *file);

/* The offsets of cards that lie end to end, each as long as its length field says, at most
 * POOL_ROOM; answers how many they are. */
size_t pool_cut(const struct buffer *cards, size_t *offsets);

/* Replaces the card of another file, which lies at `at`, by bytes of any length. */
void pool_put_card(struct call *call, size_t at, const struct buffer *card);

/* `file_run` of a pooled judging on each of these files, whose cards it has in this order. Answers
 * the number, which is the same on all. The call is freed. */
uint64_t pool_run(struct file *const *files, size_t count, struct call *call);

#endif
