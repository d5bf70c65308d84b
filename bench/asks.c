/* See asks.h. */
#include "asks.h"

#include "pairs.h"
#include "support/files.h"

#include <stdio.h>

/* An ask beside the change: what it adds is a copy of the table. */
static const struct row {
    enum kind change;
    uint64_t B, d, r, t;
    double goal;
} rows[] = {
    {UPDATE, 64, 4096, 64, 1024, 1.05},
    {LOAD, 1024, 5000, 460, 8, 1.05},
};

static struct pair pair_of(const struct row *row)
{
    struct pair pair = {.B = row->B,
                        .d = row->d,
                        .r = row->r,
                        .t = row->t,
                        .n = row->d,
                        .goal = row->goal,
                        .others = 1};
    struct file file = file_set_up(LEGBARO_TWO_STEPS, row->B, row->d, row->r, row->t, row->d);
    pair.other =
        row->change == LOAD ? file_load_call(&file, row->r) : file_call(&file, row->change);
    pair.call = call_asked(&pair.other);
    snprintf(pair.one, sizeof pair.one, "%s", call_name(row->change));
    snprintf(pair.beside, sizeof pair.beside, "%s in one step", call_name(row->change));
    file_end(&file);
    return pair;
}

void print_asks(void)
{
    print_pairs_heading("A change asked beside the same change in one step", "ask");
    for (size_t i = 0; i < sizeof rows / sizeof *rows; i++) {
        struct pair pair = pair_of(&rows[i]);
        print_pair(&pair);
    }
}
