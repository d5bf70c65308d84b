/* One file as owner and host hold it, beside its plain book, and calls on it. */
#ifndef FILES_H
#define FILES_H

#include "book.h"
#include "calls.h"

struct file {
    struct book book;
    struct buffer master, card, table;
    struct buffer asked;   /* the table of the ask accepted last; blank before the first */
    struct buffer message; /* the one drawn last; blank before the first draw */
    struct totals totals;  /* of set-up and every accepted change and ask */
};

/* Any of the versions; any role that may make calls of a kind, where they take one. */
uint64_t any_version(void);
uint64_t any_permitted(enum kind kind);

/* A set-up with random master, id and blocks. */
struct call file_set_up_call(uint64_t version, uint64_t B, uint64_t d, uint64_t r, uint64_t t,
                             uint64_t n);

/* The file of a set-up, which is compared and expected to be accepted; that of such a set-up; and
 * its end. */
struct file file_of(const struct call *set_up);
struct file file_set_up(uint64_t version, uint64_t B, uint64_t d, uint64_t r, uint64_t t,
                        uint64_t n);
void file_end(struct file *file);

/* A call on the file, those of pools apart, with nothing wrong in its arguments: any role that may
 * make it; a change, asked or not, has a block number that exists, present bytes and mark, and a
 * random new block, a load a few random blocks, a batch a few items, an ask any bytes where the
 * second table is to be, a draw any schedule and any time that it allows, a proof the message drawn
 * last and the current blocks and marks, a judging, or the question for a cause, the reply of such
 * a proof; and any bytes where totals are to be. The state may still refuse it. */
struct call file_call(const struct file *file, enum kind kind);

/* An update or a deletion of block m: present bytes and mark, of an update a random new block. */
struct call file_block_call(const struct file *file, enum kind kind, uint64_t m);

/* A load of so many random blocks. */
struct call file_load_call(const struct file *file, uint64_t blocks);

/* A batch of updates and deletions, present bytes and marks and random new blocks: of so many
 * blocks, at most one more than a batch may have and no more than the file has, or of these blocks.
 * An offset in an item, counted from 0, where LEGBARO_ITEM_.. is the offset. */
struct call file_batch_call(const struct file *file, size_t items);
struct call file_batch_of(const struct file *file, const uint64_t *blocks, size_t items);
size_t file_item_at(const struct file *file, size_t item, size_t offset);

/* Runs a change, ask, commit, drop, draw or judging: compared with the reference implementation and
 * with the book. The file takes the buffers that it left, of a pool its own card, and with a commit
 * the asked table for its own; the call is freed. Answers the number. */
uint64_t file_run(struct file *file, struct call *call);

/* `file_run` of `file_call`, of `file_load_call` and of `file_batch_call`, expected to be
 * accepted. */
void file_do(struct file *file, enum kind kind);
void file_load(struct file *file, uint64_t blocks);
void file_batch(struct file *file, size_t items);

/* An audit of the file as it is, accepted. */
void file_audit(struct file *file);

/* Blocks whose hashed bytes, 36 more or with a mark 37, end around a SHA-256 block of 64 or around
 * the last 8 of one; and the least and the most. */
enum { BLOCK_SIZES = 20 };
extern const uint64_t block_sizes[BLOCK_SIZES];

/* Looks at small files with blocks of each of these sizes, before an audit and after it. */
void file_each_size(void (*look)(const struct file *file));

/* Expects card and table to be the book's, byte for byte, and so the asked table where something is
 * pending. */
void file_expect_book(const struct file *file);

#endif
