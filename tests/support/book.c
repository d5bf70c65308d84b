/* See book.h. */
#include "book.h"

#include <stdio.h>
#include <stdlib.h>
#include <string.h>

/* Room for so many bytes, with the bytes that `room` has; `room` may be null. */
static uint8_t *resized(uint8_t *room, size_t length)
{
    room = realloc(room, length);
    if (!room) {
        fputs("tests: no memory\n", stderr);
        exit(2);
    }
    return room;
}

static size_t table_bytes(const struct book *book)
{
    return book->numbers.t * LEGBARO_RECORD_BYTES;
}

/* "An accepted set-up starts it with the blocks taken, ctr 0, next 1, open 0 and no spent
 * record." */
struct book book_start(const struct call *set_up)
{
    struct book book = {.numbers = {.version = set_up->version,
                                    .B = set_up->B,
                                    .d = set_up->d,
                                    .r = set_up->r,
                                    .t = set_up->t,
                                    .n = set_up->n,
                                    .next = 1}};
    memcpy(book.key, set_up->args[MASTER].bytes, sizeof book.key);
    memcpy(book.numbers.id, set_up->args[ID].bytes, sizeof book.numbers.id);
    book.blocks = resized(NULL, set_up->args[BLOCKS].length);
    memcpy(book.blocks, set_up->args[BLOCKS].bytes, set_up->args[BLOCKS].length);
    book.marks = resized(NULL, set_up->n);
    memset(book.marks, LEGBARO_LIVE, set_up->n);
    book.spent = resized(NULL, table_bytes(&book));
    return book;
}

void book_end(struct book *book)
{
    free(book->blocks);
    free(book->marks);
    free(book->spent);
    free(book->asked_blocks);
    free(book->asked_marks);
}

/* Where block m lies. */
static uint8_t *block_at(const struct book *book, uint64_t m)
{
    return book->blocks + (m - 1) * book->numbers.B;
}

const uint8_t *book_block(const struct book *book, uint64_t m)
{
    return block_at(book, m);
}

const uint8_t *book_mark(const struct book *book, uint64_t m)
{
    return book->marks + (m - 1);
}

void book_card(const struct book *book, uint8_t *card)
{
    reference_write_card(card, &book->numbers);
}

/* "Its table is the spent records 1 to next - 1, then the fresh records next to t." */
void book_table(const struct book *book, uint8_t *table)
{
    memcpy(table, book->spent, (book->numbers.next - 1) * LEGBARO_RECORD_BYTES);
    reference_fresh_records(book->key, &book->numbers, book->blocks, book->marks,
                            book->numbers.next, book->numbers.t, table);
}

/* The book as a commit would leave it, on the same room: "makes its ask's table, and its counter
 * and count the standing ones" */
static struct book committed(const struct book *book)
{
    struct book after = *book;
    after.blocks = book->asked_blocks;
    after.marks = book->asked_marks;
    after.asked_blocks = after.asked_marks = NULL;
    after.numbers.ctr = book->numbers.pending;
    after.numbers.n = book->numbers.pending_n;
    after.numbers.pending = after.numbers.pending_n = 0;
    return after;
}

void book_asked_table(const struct book *book, uint8_t *table)
{
    struct book after = committed(book);
    book_table(&after, table);
}

/* The edit that a change makes, asked or in one step. */
static struct change change_of(const struct call *call)
{
    enum kind kind = unasked(call->kind);
    static const enum change_kind kinds[] = {[UPDATE] = CHANGE_UPDATE,
                                             [DELETE] = CHANGE_DELETE,
                                             [APPEND] = CHANGE_APPEND,
                                             [LOAD] = CHANGE_LOAD,
                                             [BATCH] = CHANGE_BATCH};
    const struct buffer *old = &call->args[OLD], *mark = &call->args[MARKS],
                        *items = &call->args[ITEMS];
    const struct buffer *added = &call->args[kind == LOAD ? BLOCKS : NEW];
    struct change change = {.kind = kinds[kind],
                            .m = call->m,
                            .old_block = old->bytes,
                            .old_length = old->length,
                            .mark = mark->bytes,
                            .mark_length = mark->length,
                            .new_blocks = added->bytes,
                            .new_length = added->length,
                            .items = items->bytes,
                            .items_length = items->length};
    return change;
}

/* The cards of a pooled judging: "the other cards in their places, as lent", and the book's own in
 * its place, where nothing is read. */
static struct buffer pooled_cards(const struct book *book, const struct call *call)
{
    struct buffer cards = buffer_copy(&call->args[CARDS]);
    book_card(book, cards.bytes + call->card_offset);
    return cards;
}

static uint64_t pool_refusal(const struct book *book, const struct call *call)
{
    struct buffer cards = pooled_cards(book, call);
    uint64_t fault =
        reference_pool_fault(call->role, call->args[MASTER].length, cards.bytes, cards.length);
    buffer_free(&cards);
    return fault;
}

static uint64_t pool_verdict(const struct book *book, const struct call *call)
{
    struct buffer cards = pooled_cards(book, call);
    uint64_t verdict = reference_pool_verdict(book->key, cards.bytes, cards.length,
                                              call->args[REPLY].bytes, call->args[REPLY].length);
    buffer_free(&cards);
    return verdict;
}

/* "Turned away", read with the book's card and table and the call's other arguments; "7 never comes
 * up". */
static uint64_t refusal(const struct book *book, const struct call *call)
{
    struct change change;
    struct when when = {call->year, call->month, call->day, call->minute};
    uint8_t card[LEGBARO_TWO_STEP_CARD_BYTES];
    size_t master_length = call->args[MASTER].length, totals_length = call->args[TOTALS].length;
    size_t size = reference_card_bytes(book->numbers.version);
    book_card(book, card);
    switch (call->kind) {
    case DRAW:
        return reference_draw_fault(call->role, master_length, card, size,
                                    call->args[MESSAGE].length, call->args[PLAN].bytes,
                                    call->args[PLAN].length, &when);
    case JUDGE:
        return reference_judge_fault(call->role, master_length, card, size);
    case JUDGE_POOL:
        return pool_refusal(book, call);
    case COMMIT:
    case DROP:
        return reference_settle_fault(call->role, card, size);
    default:
        change = change_of(call);
        if (is_ask(call->kind))
            return reference_ask_fault(call->role, &change, master_length, card, size,
                                       table_bytes(book), call->args[SECOND].length, totals_length);
        return reference_change_fault(call->role, &change, master_length, card, size,
                                      table_bytes(book), totals_length);
    }
}

/* Puts blocks at the end; "set-up, append, load and update make blocks live" */
static void add_blocks(struct book *book, const struct buffer *added)
{
    size_t before = book->numbers.n * book->numbers.B;
    size_t blocks = added->length / book->numbers.B;
    book->blocks = resized(book->blocks, before + added->length);
    memcpy(book->blocks + before, added->bytes, added->length);
    book->marks = resized(book->marks, book->numbers.n + blocks);
    memset(book->marks + book->numbers.n, LEGBARO_LIVE, blocks);
    book->numbers.n += blocks;
}

/* "Update puts the new block under its number, delete puts B zero bytes there" */
static void put_block(struct book *book, uint64_t m, const uint8_t *block)
{
    memcpy(block_at(book, m), block, book->numbers.B);
    book->marks[m - 1] = LEGBARO_LIVE;
}

static void put_zeros(struct book *book, uint64_t m)
{
    memset(block_at(book, m), 0, book->numbers.B);
    book->marks[m - 1] = LEGBARO_DELETED;
}

/* A batch, "each a kind byte (1 update, 2 delete)" */
static void take_items(struct book *book, const struct buffer *items)
{
    for (size_t e = 0; e < items->length / reference_item_bytes(&book->numbers); e++) {
        struct item item = reference_item(items->bytes, &book->numbers, e);
        if (item.kind == 1)
            put_block(book, item.m, item.new_block);
        else
            put_zeros(book, item.m);
    }
}

/* "append puts the new block at the end"; "Load appends one or more blocks" */
static void change_blocks(struct book *book, const struct call *call)
{
    enum kind kind = unasked(call->kind);
    if (kind == UPDATE)
        put_block(book, call->m, call->args[NEW].bytes);
    else if (kind == DELETE)
        put_zeros(book, call->m);
    else if (kind == BATCH)
        take_items(book, &call->args[ITEMS]);
    else
        add_blocks(book, &call->args[kind == LOAD ? BLOCKS : NEW]);
}

/* "Every ask takes the last issued plus 1, even after a drop"; "an asked change joins the current
 * blocks at its commit" */
static void take_ask(struct book *book, const struct call *call)
{
    struct card *numbers = &book->numbers;
    struct book after = *book;
    after.blocks = resized(NULL, numbers->n * numbers->B);
    memcpy(after.blocks, book->blocks, numbers->n * numbers->B);
    after.marks = resized(NULL, numbers->n);
    memcpy(after.marks, book->marks, numbers->n);
    change_blocks(&after, call);
    book->asked_blocks = after.blocks;
    book->asked_marks = after.marks;
    numbers->last_issued++;
    numbers->pending = numbers->last_issued;
    numbers->pending_n = after.numbers.n;
}

static void take_commit(struct book *book)
{
    free(book->blocks);
    free(book->marks);
    *book = committed(book);
}

/* "a dropped one never" */
static void take_drop(struct book *book)
{
    free(book->asked_blocks);
    free(book->asked_marks);
    book->asked_blocks = book->asked_marks = NULL;
    book->numbers.pending = book->numbers.pending_n = 0;
}

/* "Each adds 1 to ctr", where nothing was dropped since the last change: "A one-step change, load
 * or batch too, is ask and commit together" */
static void take_change(struct book *book, const struct call *call)
{
    change_blocks(book, call);
    book->numbers.last_issued++;
    book->numbers.ctr = book->numbers.last_issued;
}

/* "Draw keeps fresh record next as spent, sets open to next, then adds 1 to next" */
static void take_draw(struct book *book)
{
    struct card *numbers = &book->numbers;
    reference_fresh_records(book->key, numbers, book->blocks, book->marks, numbers->next,
                            numbers->next, book->spent);
    numbers->open = numbers->next;
    numbers->next++;
}

uint64_t book_answer(struct book *book, const struct call *call)
{
    uint64_t answer = refusal(book, call);
    if (answer != LEGBARO_OK)
        return answer;
    switch (call->kind) {
    case DRAW:
        take_draw(book);
        break;
    case JUDGE:
        answer = reference_verdict(book->key, &book->numbers, call->args[REPLY].bytes,
                                   call->args[REPLY].length);
        book->numbers.open = 0;
        break;
    case JUDGE_POOL:
        answer = pool_verdict(book, call);
        book->numbers.open = 0;
        break;
    case COMMIT:
        take_commit(book);
        break;
    case DROP:
        take_drop(book);
        break;
    default:
        if (is_ask(call->kind))
            take_ask(book, call);
        else
            take_change(book, call);
    }
    return answer;
}
