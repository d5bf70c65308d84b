/* Small pictures of a file's history, as SVG inside a page. Colours are classes that the page's
 * style has: axis, line, ahead, good, bad, proof. */
#ifndef CHART_H
#define CHART_H

#include "history.h"

#include <stdio.h>

/* The times that a picture shows. */
struct span {
    time_t from, to;
};

/* Audits along the time: accepted ones above, rejected ones below; of a host its proofs. */
void draw_audits(FILE *page, const struct history *history, struct span span);

/* Blocks over the time, in steps. */
void draw_blocks(FILE *page, const struct history *history, struct span span, uint64_t now);

/* Audits left over the time, in steps; `left` of them now, and none at `out`, where that is
 * known. */
void draw_left(FILE *page, const struct history *history, struct span span, time_t now,
               uint64_t left, time_t out);

#endif
