/* See batches.h. */
#include "batches.h"

#include "pairs.h"
#include "support/files.h"

#include <stdio.h>

/* A batch of so many updates, and as many updates one by one; and the goal. */
static const struct row {
    uint64_t B, d, r, t;
    size_t items;
    double goal;
} rows[] = {
    {64, 5000, 460, 8, LEGBARO_MOST_ITEMS, 0.35},
    {64, 5000, 460, 64, LEGBARO_MOST_ITEMS, 0.35},
    {1024, 5000, 460, 8, LEGBARO_MOST_ITEMS, 0.35},
    {1024, 5000, 460, 64, LEGBARO_MOST_ITEMS, 0.35},
};

static void make_updates(const struct file *file, struct buffer *items)
{
    for (size_t at = 0; at < items->length; at += file_item_at(file, 1, 0))
        items->bytes[at + LEGBARO_ITEM_KIND] = LEGBARO_ITEM_UPDATE;
}

static struct pair pair_of(const struct row *row)
{
    struct pair pair = {.B = row->B,
                        .d = row->d,
                        .r = row->r,
                        .t = row->t,
                        .n = row->d,
                        .goal = row->goal,
                        .others = (unsigned)row->items};
    struct file file = file_set_up(LEGBARO_WITHOUT_MARKS, row->B, row->d, row->r, row->t, row->d);
    pair.call = file_batch_call(&file, row->items);
    make_updates(&file, &pair.call.args[ITEMS]);
    pair.other = file_call(&file, UPDATE);
    snprintf(pair.one, sizeof pair.one, "%u updates", (unsigned)row->items);
    snprintf(pair.beside, sizeof pair.beside, "%u single updates", (unsigned)row->items);
    file_end(&file);
    return pair;
}

void print_batches(void)
{
    print_pairs_heading("A batch beside single updates", "batch");
    for (size_t i = 0; i < sizeof rows / sizeof *rows; i++) {
        struct pair pair = pair_of(&rows[i]);
        print_pair(&pair);
    }
}
