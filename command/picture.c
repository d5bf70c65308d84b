/* See picture.h. The chance has a logarithmic scale from 1 to one in a million; a curve that goes
 * below leaves its plot. */
#define _GNU_SOURCE
#include "picture.h"
#include "output.h"
#include "report.h"

#include <math.h>
#include <stdio.h>
#include <stdlib.h>
#include <string.h>

/* Two plots above, and one below that is as wide as both. */
enum { WIDTH = 1560, HEIGHT = 1020, LEFT = 150, RIGHT = 930, PLOT_WIDTH = 400 };
enum { ABOVE = 150, ABOVE_HEIGHT = 380, BELOW = 640, BELOW_HEIGHT = 300 };
enum {
    DECADES = 6,
    IN_A_MILLION = 1000000,
    FEW_ROWS = 10,
    MOST_CURVES = 6,
    POINTS = 60,
    MOST_TICKS = 6
};

/* Colours that most people can tell apart. The planned curve of a chance has one of its own;
 * planned curves are thicker. */
static const char *const colours[MOST_CURVES] = {"#56b4e9", "#0072b2", "#009e73",
                                                 "#cc79a7", "#e69f00", "#999999"};
static const char *const planned_colour = "#d55e00";

static const char *const positions_axis = "r, positions that an audit draws (number of rows)";

/* What the file has within its first bytes. */
enum { NEAR = 512 };
static const char title[] = "<title>Risk and reading of an audit</title>\n";

/* One curve: the number that it is for, and the last x that it has a value for. Behind that the
 * value is 0. */
struct curve {
    uint64_t number, last;
    const char *name, *colour;
    int planned;
};

/* One plot: values against x, which goes up to most, with a curve for each of some numbers. Upwards
 * the plot is linear up to highest, or has the scale of a chance where that is 0. */
struct plot {
    const struct numbers *of;
    int left, top, width, height;
    const char *title, *axis, *upwards, *legend;
    uint64_t (*value)(const struct numbers *of, uint64_t x, uint64_t number);
    uint64_t first, most, highest, planned_x;
    const char *planned, *planned_to; /* what is planned, and where it is a range its end */
    int count;
    struct curve curves[MOST_CURVES];
};

/* ---- Where things stand ---- */

static double across(const struct plot *p, uint64_t x)
{
    return p->left + (double)p->width * (double)x / (double)p->most;
}

static int bottom(const struct plot *p)
{
    return p->top + p->height;
}

/* A chance of 0 is infinitely far down. */
static double down(const struct plot *p, uint64_t value)
{
    if (p->highest)
        return bottom(p) - (double)p->height * (double)value / (double)p->highest;
    return p->top + p->height * log10(LEGBARO_ESCAPE_ONE / (double)value) / DECADES;
}

/* 1, 2 or 5 times a power of ten. */
static uint64_t tick_step(uint64_t most)
{
    static const uint64_t of_ten[] = {1, 2, 5};
    for (uint64_t power = 1;; power *= 10)
        for (int i = 0; i < 3; i++)
            if (most / (of_ten[i] * power) < MOST_TICKS)
                return of_ten[i] * power;
}

/* ---- What a plot has ---- */

static void words(FILE *f, double x, double y, const char *more, const char *what)
{
    fprintf(f, "<text x=\"%.1f\" y=\"%.1f\"%s>%s</text>\n", x, y, more, what);
}

static void line(FILE *f, double x1, double y1, double x2, double y2, const char *more)
{
    fprintf(f, "<line x1=\"%.1f\" y1=\"%.1f\" x2=\"%.1f\" y2=\"%.1f\" %s/>\n", x1, y1, x2, y2,
            more);
}

static void dot(FILE *f, double x, double y)
{
    fprintf(f, "<circle cx=\"%.1f\" cy=\"%.1f\" r=\"6\" class=\"dot\"/>\n", x, y);
}

/* A line across the plot at a height, with what it stands for. */
static void height(FILE *f, const struct plot *p, double y, const char *what)
{
    line(f, p->left, y, p->left + p->width, y, "class=\"grid\"");
    words(f, p->left - 8, y + 5, " text-anchor=\"end\"", what);
}

static void heights(FILE *f, const struct plot *p)
{
    uint64_t in = 1, step = tick_step(p->highest);
    if (p->highest)
        for (uint64_t number = 0; number <= p->highest; number += step)
            height(f, p, down(p, number), grouped(number));
    else
        for (int decade = 0; decade <= DECADES; decade++, in *= 10)
            height(f, p, p->top + (double)p->height * decade / DECADES,
                   decade ? text("1 in %s", grouped(in)) : "1");
}

/* The frame with its title, and the axes with their names. */
static void frame(FILE *f, const struct plot *p)
{
    uint64_t step = tick_step(p->most);
    heights(f, p);
    for (uint64_t x = 0; x <= p->most; x += step) {
        line(f, across(p, x), p->top, across(p, x), bottom(p) + 5, "class=\"grid\"");
        words(f, across(p, x), bottom(p) + 22, " text-anchor=\"middle\"", grouped(x));
    }
    fprintf(f, "<rect x=\"%d\" y=\"%d\" width=\"%d\" height=\"%d\" class=\"frame\"/>\n", p->left,
            p->top, p->width, p->height);
    fprintf(f,
            "<clipPath id=\"plot%d-%d\"><rect x=\"%d\" y=\"%d\" width=\"%d\" "
            "height=\"%d\"/></clipPath>\n",
            p->left, p->top, p->left, p->top - 2, p->width, p->height + 2);
    words(f, p->left, p->top - 16, " class=\"title\"", p->title);
    words(f, p->left + p->width / 2.0, bottom(p) + 48, " text-anchor=\"middle\"", p->axis);
    fprintf(f,
            "<text transform=\"translate(%d %d) rotate(-90)\" text-anchor=\"middle\">%s</text>\n",
            p->left - 128, p->top + p->height / 2, p->upwards);
}

/* How a curve is drawn, in the plot and in the legend. */
static const char *stroke(const struct curve *c)
{
    return text("fill=\"none\" stroke=\"%s\" stroke-width=\"%s\"", c->colour,
                c->planned ? "3.5" : "1.8");
}

static void curve(FILE *f, const struct plot *p, const struct curve *c)
{
    uint64_t last = c->last < p->most ? c->last : p->most, step = p->most / POINTS + 1;
    if (last < p->first)
        return;
    fprintf(f, "<polyline clip-path=\"url(#plot%d-%d)\" %s points=\"", p->left, p->top, stroke(c));
    for (uint64_t x = p->first; x < last; x += step)
        fprintf(f, "%.1f,%.1f ", across(p, x), down(p, p->value(p->of, x, c->number)));
    fprintf(f, "%.1f,%.1f", across(p, last), down(p, p->value(p->of, last, c->number)));
    if (last < p->most)
        fprintf(f, " %.1f,%d", across(p, last), bottom(p));
    fputs("\"/>\n", f);
}

/* A dot on each planned curve, where it is in the plot; answers how many there are. */
static int dots(FILE *f, const struct plot *p)
{
    int count = 0;
    for (const struct curve *c = p->curves; c < p->curves + p->count; c++) {
        double y = c->planned ? down(p, p->value(p->of, p->planned_x, c->number)) : INFINITY;
        if (p->planned_x > p->most || y > bottom(p))
            continue;
        dot(f, across(p, p->planned_x), y);
        count++;
    }
    return count;
}

/* A line for each curve, then what is planned. */
static void legend(FILE *f, const struct plot *p, int dotted)
{
    int x = p->left + p->width + 18, y = p->top + 14;
    words(f, x, y, " class=\"title\"", p->legend);
    for (int i = 0; i < p->count; i++) {
        y += 26;
        line(f, x, y - 5, x + 26, y - 5, stroke(&p->curves[i]));
        words(f, x + 34, y, "", p->curves[i].name);
    }
    y += 36;
    if (dotted)
        dot(f, x + 13, y - 5);
    x += 34;
    words(f, x, y, "", "planned:");
    words(f, x, y + 20, "", p->planned);
    if (p->planned_to)
        words(f, x, y + 40, "", text("to %s", p->planned_to));
    else if (!dotted)
        words(f, x, y + 40, "", "(off the scale)");
}

static void plot(FILE *f, const struct plot *p)
{
    frame(f, p);
    for (int i = 0; i < p->count; i++)
        curve(f, p, &p->curves[i]);
    legend(f, p, dots(f, p));
}

/* ---- The chance of escape ---- */

static uint64_t by_positions(const struct numbers *of, uint64_t x, uint64_t number)
{
    return escape_of(of, x, number);
}

static uint64_t by_damaged(const struct numbers *of, uint64_t x, uint64_t number)
{
    return escape_of(of, number, x);
}

/* A curve of an r or an m, named with its share of the rows where that is not very small. It ends
 * where r and m are as many as the rows. */
static void add_curve(struct plot *p, uint64_t number, int planned)
{
    double share = 100.0 * (double)number / (double)p->of->rows;
    struct curve *c = &p->curves[p->count];
    c->number = number;
    c->last = p->of->rows - number;
    c->name = share < 0.01
                  ? grouped(number)
                  : text(share < 10 ? "%s (%.2g %%)" : "%s (%.0f %%)", grouped(number), share);
    c->colour = planned ? planned_colour : colours[p->count];
    c->planned = planned;
    p->count++;
}

/* The planned curve, and of others, which rise, those that are not near it or the one before. */
static void choose(struct plot *p, uint64_t planned, const uint64_t *others, int count)
{
    uint64_t last = 0;
    int placed = 0;
    for (int i = 0; i < count; i++) {
        if (!placed && others[i] >= planned) {
            add_curve(p, planned, 1);
            placed = 1;
        }
        if (others[i] > last && (others[i] * 4 < planned * 3 || others[i] * 3 > planned * 4))
            add_curve(p, last = others[i], 0);
    }
    if (!placed)
        add_curve(p, planned, 1);
}

/* How many damaged rows make the chance one in a million with the planned positions; a few, or all,
 * where that is fewer. */
static uint64_t damaged_shown(const struct numbers *of)
{
    uint64_t low = 0, high = of->rows, few = of->rows < FEW_ROWS ? of->rows : FEW_ROWS;
    while (high - low > 1) {
        uint64_t middle = low + (high - low) / 2;
        if (escape_of(of, of->positions, middle) > LEGBARO_ESCAPE_ONE / IN_A_MILLION)
            low = middle;
        else
            high = middle;
    }
    return high < few ? few : high;
}

/* Both plots of the chance: against r with curves for some m, and against m with curves for some
 * r. */
static void chance(FILE *f, const struct numbers *of)
{
    const uint64_t rows = of->rows,
                   losses[] = {rows / 1000, rows / 200, rows / 100, rows / 20, rows / 10};
    uint64_t positions[MOST_SHOWN];
    int shown = positions_shown(of, positions);
    const struct plot either = {
        .of = of,
        .top = ABOVE,
        .width = PLOT_WIDTH,
        .height = ABOVE_HEIGHT,
        .upwards = "chance of escape in one audit (logarithmic)",
        .planned = percent(escape_of(of, of->positions, of->damaged)),
    };
    struct plot left = either, right = either;
    left.left = LEFT;
    left.title = "Risk against the positions drawn";
    left.axis = positions_axis;
    left.legend = "m, damaged rows";
    left.value = by_positions;
    left.first = 1;
    left.most = most_positions(of);
    left.planned_x = of->positions;
    choose(&left, of->damaged, losses, sizeof losses / sizeof *losses);
    right.left = RIGHT;
    right.title = "Risk against the damaged rows";
    right.axis = "m, damaged rows at the host (number of rows)";
    right.legend = "r, positions drawn";
    right.value = by_damaged;
    right.most = damaged_shown(of);
    right.planned_x = of->damaged;
    choose(&right, of->positions, positions, shown);
    plot(f, &left);
    plot(f, &right);
}

/* ---- The hashes of a proof ---- */

enum { LEAST, MOST };

static uint64_t hashes_of(const struct numbers *of, uint64_t positions, uint64_t which)
{
    struct numbers other = *of;
    struct sheet sheet;
    other.positions = positions;
    sheet_of(&other, &sheet);
    return which == MOST ? sheet.most : sheet.least;
}

/* Where every row has as many blocks, the least is the most, and there is one curve. */
static void hashes(FILE *f, const struct numbers *of)
{
    uint64_t most = most_positions(of), highest = hashes_of(of, most, MOST);
    uint64_t least_now = hashes_of(of, of->positions, LEAST),
             most_now = hashes_of(of, of->positions, MOST);
    int same = of->blocks % of->rows == 0;
    const struct plot p = {
        .of = of,
        .left = LEFT,
        .top = BELOW,
        .width = RIGHT + PLOT_WIDTH - LEFT,
        .height = BELOW_HEIGHT,
        .title = "Reading against the positions drawn",
        .axis = positions_axis,
        .upwards = text("blocks of %s bytes, read and hashed", grouped(of->block_bytes)),
        .legend = "hashes of a proof",
        .value = hashes_of,
        .first = 1,
        .most = most,
        .highest = highest ? highest : 1,
        .planned_x = of->positions,
        .planned = grouped(least_now),
        .planned_to = least_now == most_now ? NULL : grouped(most_now),
        .count = same ? 1 : 2,
        .curves = {{MOST, most, same ? "most and least" : "the most", colours[1], 1},
                   {LEAST, most, "the least", colours[4], 1}},
    };
    plot(f, &p);
}

static void draw(FILE *f, const struct numbers *of)
{
    fprintf(f,
            "<svg xmlns=\"http://www.w3.org/2000/svg\" width=\"%d\" height=\"%d\" viewBox=\"0 0 %d "
            "%d\" font-family=\"sans-serif\" "
            "font-size=\"15\" style=\"max-width:100%%;height:auto\">\n",
            WIDTH, HEIGHT, WIDTH, HEIGHT);
    fputs(title, f);
    fputs("<style>.grid{stroke:#ddd}.frame{fill:none;stroke:#444}.title{font-weight:bold}.head{"
          "font-size:24px;font-weight:bold}"
          ".dot{fill:#000;stroke:#fff;stroke-width:1.5}</style>\n"
          "<rect width=\"100%\" height=\"100%\" fill=\"#fff\"/>\n",
          f);
    words(f, 40, 44, " class=\"head\"", "Risk and reading of an audit");
    words(f, 40, 72, "",
          text("d = %s %s with n = %s %s. An audit draws r different rows. A loss escapes it if "
               "none of the m damaged rows is drawn.",
               grouped(of->rows), of->rows == 1 ? "row" : "rows", grouped(of->blocks),
               of->blocks == 1 ? "block" : "blocks"));
    words(f, 40, 96, "",
          text("Planned: r = %s, m = %s.", grouped(of->positions), grouped(of->damaged)));
    chance(f, of);
    hashes(f, of);
    fputs("</svg>\n", f);
}

/* Whether bytes are a picture that this program made: the title stands near their start. */
static int is_picture(struct bytes bytes)
{
    static const char first[] = "<svg xmlns=";
    size_t start = bytes.length < NEAR ? bytes.length : NEAR;
    return start >= sizeof first - 1 && !memcmp(bytes.at, first, sizeof first - 1) &&
           memmem(bytes.at, start, title, sizeof title - 1);
}

void write_picture(const struct options *o, const struct numbers *of)
{
    const char *path = o->svg;
    struct output out = check_output(o, path, NULL, is_picture);
    char *bytes = NULL;
    size_t length = 0;
    FILE *f = open_memstream(&bytes, &length);
    if (!f)
        file_fault("draw", path);
    draw(f, of);
    if (fclose(f) != 0)
        file_fault("draw", path);
    const struct piece piece = {bytes, length};
    write_output(&out, &piece, 1);
    free(bytes);
}
