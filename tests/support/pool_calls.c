/* See pool_calls.h. */
#include "pool_calls.h"

#include "chance.h"
#include "expect.h"

#include <string.h>

enum { B = 5, D = 3, R = 2, T = 6, N = 4, A_FEW = 3 };

struct file pool_file(const struct buffer *master, uint64_t version)
{
    struct call set_up = file_set_up_call(version, B, D, R, T, N);
    memcpy(set_up.args[MASTER].bytes, master->bytes, master->length);
    struct file file = file_of(&set_up);
    call_free(&set_up);
    for (uint64_t changes = chance_below(A_FEW); changes; changes--)
        file_do(&file, UPDATE);
    for (uint64_t spent = chance_below(A_FEW); spent; spent--)
        file_audit(&file);
    file_do(&file, DRAW);
    return file;
}

struct call pooling_call(const struct file *const *files, size_t count)
{
    struct call call = {.kind = POOL};
    call.args[REPLIES] = buffer_blank(count * LEGBARO_REPLY_BYTES);
    call.args[POOLED] = buffer_blank(LEGBARO_POOLED_BYTES(count));
    for (size_t e = 0; e < count; e++) {
        struct call judge = file_call(files[e], JUDGE);
        memcpy(call.args[REPLIES].bytes + e * LEGBARO_REPLY_BYTES, judge.args[REPLY].bytes,
               LEGBARO_REPLY_BYTES);
        call_free(&judge);
    }
    return call;
}

/* Where card e of these files lies; after the last, where it would be. */
static size_t card_offset(const struct file *const *files, size_t e)
{
    size_t offset = 0;
    while (e)
        offset += files[--e]->card.length;
    return offset;
}

struct call pool_call(const struct file *const *files, size_t count)
{
    struct call call = {.kind = JUDGE_POOL, .role = any_permitted(JUDGE_POOL)},
                pooling = pooling_call(files, count);
    call_compare(&pooling);
    call.args[MASTER] = count ? buffer_copy(&files[0]->master) : buffer_blank(LEGBARO_MASTER_BYTES);
    call.args[CARDS] = buffer_blank(card_offset(files, count));
    for (size_t e = 0; e < count; e++)
        memcpy(call.args[CARDS].bytes + card_offset(files, e), files[e]->card.bytes,
               files[e]->card.length);
    call.args[REPLY] = buffer_copy(&pooling.args[POOLED]);
    call_free(&pooling);
    return call;
}

struct call pool_among_others(const struct file *file)
{
    struct file others[A_FEW];
    const struct file *files[A_FEW + 1] = {file};
    size_t made = 0, count = LEGBARO_LEAST_POOLED + chance_below(A_FEW), own = chance_below(count);
    for (size_t e = 0; e < count; e++) {
        files[e] = e == own ? file : &others[made];
        if (e != own)
            others[made++] = pool_file(&file->master, any_version());
    }
    struct call call = pool_call(files, count);
    call.card_offset = card_offset(files, own);
    while (made)
        file_end(&others[--made]);
    return call;
}

size_t pool_cut(const struct buffer *cards, size_t *offsets)
{
    size_t count = 0;
    for (size_t at = 0; at + 2 <= cards->length && count < POOL_ROOM;
         at += 2 + buffer_number(cards, at, 2))
        offsets[count++] = at;
    return count;
}

void pool_put_card(struct call *call, size_t at, const struct buffer *card)
{
    struct buffer *cards = &call->args[CARDS];
    size_t after = at + 2 + buffer_number(cards, at, 2);
    struct buffer other = buffer_blank(at + card->length + (cards->length - after));
    memcpy(other.bytes, cards->bytes, at);
    memcpy(other.bytes + at, card->bytes, card->length);
    memcpy(other.bytes + at + card->length, cards->bytes + after, cards->length - after);
    if (at < call->card_offset)
        call->card_offset = call->card_offset - after + at + card->length;
    buffer_free(cards);
    *cards = other;
}

uint64_t pool_run(struct file *const *files, size_t count, struct call *call)
{
    uint64_t first = LEGBARO_OK;
    for (size_t e = 0, offset = 0; e < count; e++) {
        struct call step = call_copy(call);
        step.card_offset = offset;
        offset += files[e]->card.length;
        uint64_t number = file_run(files[e], &step);
        if (e == 0)
            first = number;
        expect(number == first, "the same number on every card");
    }
    call_free(call);
    return first;
}
