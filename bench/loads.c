/* See loads.h. */
#include "loads.h"

#include "pairs.h"
#include "support/files.h"

#include <stdio.h>

/* A load of `blocks` blocks beside one set-up of them, or beside as many appends; and the goal. */
static const struct row {
    enum kind beside;
    uint64_t B, d, r, t, blocks;
    double goal;
} rows[] = {
    /* clang-format off */
    {SET_UP, 1024, 5000, 460, 8, 5000, 1.5},
    {SET_UP, 64, 5000, 64, 8, 5000, 3},
    {SET_UP, 64, 4096, 64, 8, 4096, 3},
    {APPEND, 1024, 5000, 460, 8, 1000, 0.2},
    {APPEND, 64, 5000, 64, 8, 1000, 0.2},
    /* clang-format on */
};

/* A set-up is of as many blocks as the load, and one call; appends are one for each block. */
static struct pair pair_of(const struct row *row)
{
    struct pair pair = {
        .B = row->B, .d = row->d, .r = row->r, .t = row->t, .n = row->d, .goal = row->goal};
    struct file file = file_set_up(LEGBARO_WITHOUT_MARKS, row->B, row->d, row->r, row->t, row->d);
    int set_up = row->beside == SET_UP;
    pair.call = file_load_call(&file, row->blocks);
    pair.other = set_up ? file_set_up_call(LEGBARO_WITHOUT_MARKS, row->B, row->d, row->r, row->t,
                                           row->blocks)
                        : file_call(&file, APPEND);
    pair.others = set_up ? 1 : (unsigned)row->blocks;
    snprintf(pair.one, sizeof pair.one, "%u blocks", (unsigned)row->blocks);
    snprintf(pair.beside, sizeof pair.beside, set_up ? "a set-up" : "%u appends",
             (unsigned)row->blocks);
    file_end(&file);
    return pair;
}

void print_loads(void)
{
    print_pairs_heading("A load beside what it replaces", "load");
    for (size_t i = 0; i < sizeof rows / sizeof *rows; i++) {
        struct pair pair = pair_of(&rows[i]);
        print_pair(&pair);
    }
}
