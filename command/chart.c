/* See chart.h. */
#define _GNU_SOURCE
#include "chart.h"
#include "clock.h"
#include "files.h"
#include "numbers.h"
#include "options.h"

#include <inttypes.h>

/* A picture's size, and the part of it between the axes. */
enum { WIDTH = 340, HEIGHT = 120, LEFT = 8, RIGHT = WIDTH - 8, TOP = 22, BOTTOM = HEIGHT - 22 };

/* ---- Places ---- */

static double across(struct span span, time_t time)
{
    double part =
        span.to > span.from ? (double)(time - span.from) / (double)(span.to - span.from) : 1;
    part = part < 0 ? 0 : part > 1 ? 1 : part;
    return LEFT + part * (RIGHT - LEFT);
}

static double up(uint64_t value, uint64_t most)
{
    return BOTTOM - (most ? (double)value / (double)most : 0) * (BOTTOM - TOP);
}

static const char *date_words(time_t time)
{
    return text("%.10s", local_words(time));
}

/* ---- Frame ---- */

static void begin(FILE *page, const char *what, struct span span)
{
    fprintf(page, "<svg viewBox=\"0 0 %d %d\" role=\"img\" aria-label=\"%s\">\n", WIDTH, HEIGHT,
            what);
    fprintf(page, "<path class=\"axis\" d=\"M%d %dH%d\"/>\n", LEFT, BOTTOM, RIGHT);
    fprintf(page, "<text x=\"%d\" y=\"%d\">%s</text>\n", LEFT, HEIGHT - 6, date_words(span.from));
    fprintf(page, "<text x=\"%d\" y=\"%d\" text-anchor=\"end\">%s</text>\n", RIGHT, HEIGHT - 6,
            date_words(span.to));
}

static void most_of(FILE *page, uint64_t most)
{
    fprintf(page, "<path class=\"grid\" d=\"M%d %dH%d\"/>\n", LEFT, TOP, RIGHT);
    fprintf(page, "<text x=\"%d\" y=\"%d\">%s</text>\n", LEFT, TOP - 6, grouped(most));
}

static void end(FILE *page)
{
    fputs("</svg>\n", page);
}

/* ---- Audits ---- */

/* A mark for each pixel across that has an audit of a kind: a dot, a cross or a bar. */
static void draw_marks(FILE *page, const struct history *history, struct span span, int kind,
                       double y)
{
    static const char *const marks[] = {"", "m-4 0a4 4 0 1 0 8 0a4 4 0 1 0-8 0",
                                        "m-4-4l8 8m0-8l-8 8", "m0-5v10"};
    static const char *const classes[] = {"", "good", "bad", "proof"};
    int last = -1;
    fprintf(page, "<path class=\"%s\" d=\"", classes[kind]);
    for (int i = 0; i < history->count; i++) {
        int x = (int)(across(span, history->points[i].time) + 0.5);
        if ((int)history->points[i].audit != kind || x == last)
            continue;
        fprintf(page, "M%d %.0f%s", x, y, marks[kind]);
        last = x;
    }
    fputs("\"/>\n", page);
}

void draw_audits(FILE *page, const struct history *history, struct span span)
{
    const double upper = TOP + 16, lower = BOTTOM - 16;
    begin(page,
          text("%" PRIu64 " accepted, %" PRIu64 " rejected", history->accepted, history->rejected),
          span);
    if (history->accepted)
        draw_marks(page, history, span, ACCEPTED, upper);
    if (history->rejected)
        draw_marks(page, history, span, REJECTED_ONE, lower);
    if (history->proofs)
        draw_marks(page, history, span, PROOF, (upper + lower) / 2);
    end(page);
}

/* ---- Steps ---- */

static uint64_t value_of(const struct point *point, int of_left)
{
    return of_left ? point->left : point->blocks;
}

static uint64_t most_value(const struct history *history, int of_left, uint64_t most)
{
    for (int i = 0; i < history->count; i++) {
        uint64_t value = value_of(&history->points[i], of_left);
        if (value != UNTOLD && value > most)
            most = value;
    }
    return most;
}

/* A line in steps, of which each pixel across has the last one, up to a time and the value then. */
static void draw_steps(FILE *page, const struct history *history, struct span span, int of_left,
                       uint64_t most, time_t until, uint64_t now)
{
    int begun = 0;
    double last = -1;
    fputs("<path class=\"line\" d=\"", page);
    for (int i = 0; i < history->count; i++) {
        const struct point *point = &history->points[i];
        uint64_t value = value_of(point, of_left);
        double x = across(span, point->time);
        int same = i + 1 < history->count && across(span, history->points[i + 1].time) < x + 0.5 &&
                   value_of(&history->points[i + 1], of_left) != UNTOLD;
        if (value == UNTOLD || (begun && same) || x < last)
            continue;
        fprintf(page, begun++ ? "H%.1fV%.1f" : "M%.1f %.1f", x, up(value, most));
        last = x;
    }
    if (begun)
        fprintf(page, "H%.1fV%.1f", across(span, until), up(now, most));
    else
        fprintf(page, "M%d %.1fH%.1f", LEFT, up(now, most), across(span, until));
    fputs("\"/>\n", page);
}

void draw_blocks(FILE *page, const struct history *history, struct span span, uint64_t now)
{
    uint64_t most = most_value(history, 0, now);
    begin(page, text("%" PRIu64 " blocks now", now), span);
    most_of(page, most);
    draw_steps(page, history, span, 0, most, span.to, now);
    end(page);
}

void draw_left(FILE *page, const struct history *history, struct span span, time_t now,
               uint64_t left, time_t out)
{
    uint64_t most = most_value(history, 1, left);
    struct span longer = {span.from, out != UNKNOWN_TIME && out > span.to ? out : span.to};
    begin(page, text("%" PRIu64 " audits left", left), longer);
    most_of(page, most);
    draw_steps(page, history, longer, 1, most, now, left);
    if (longer.to > span.to)
        fprintf(page, "<path class=\"ahead\" d=\"M%.1f %.1fL%.1f %.1f\"/>\n", across(longer, now),
                up(left, most), across(longer, out), up(0, most));
    end(page);
}
