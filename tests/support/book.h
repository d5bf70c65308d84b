/*
 * The plain book of paper 01: what a list of calls answers and leaves, kept as values. It is fed
 * the set-up's arguments, then each call's arguments without card and table, and nothing else. Of a
 * pooled judging it is also fed the other cards, in their order, whatever they hold: each as long
 * as its length field says.
 */
#ifndef BOOK_H
#define BOOK_H

#include "calls.h"
#include "reference/reference.h"

struct book {
    uint8_t key[LEGBARO_MASTER_BYTES];
    struct card numbers;                 /* of the card; n is the number of its blocks */
    uint8_t *blocks;                     /* end to end */
    uint8_t *marks;                      /* one for each block; of no use in version 1 */
    uint8_t *spent;                      /* the records 1 to next - 1; room for t */
    uint8_t *asked_blocks, *asked_marks; /* after a commit; null where nothing is pending */
};

/* The book of an accepted set-up, and its end. */
struct book book_start(const struct call *set_up);
void book_end(struct book *book);

/* What the book answers to a change, an ask, a commit, a drop, a draw or a judging, singly or of a
 * pool; it takes the call in. */
uint64_t book_answer(struct book *book, const struct call *call);

/* Block m, and its mark. */
const uint8_t *book_block(const struct book *book, uint64_t m);
const uint8_t *book_mark(const struct book *book, uint64_t m);

/* Writes the book's card, reference_card_bytes of its version; its table, t * LEGBARO_RECORD_BYTES;
 * and where something is pending the table that stands after a commit. */
void book_card(const struct book *book, uint8_t *card);
void book_table(const struct book *book, uint8_t *table);
void book_asked_table(const struct book *book, uint8_t *table);

#endif
