/* The command report: one page of HTML with the status and the history of files. It has no
 * script, needs nothing from elsewhere, and is XML too. */
#define _GNU_SOURCE
#include "chart.h"
#include "clock.h"
#include "commands.h"
#include "files.h"
#include "html.h"
#include "look.h"
#include "numbers.h"
#include "output.h"
#include "report.h"
#include "style.h"

#include <inttypes.h>
#include <stdio.h>
#include <stdlib.h>
#include <string.h>

/* By which a page of this command is known: it is replaced without --force. */
static const char generator[] = "<meta name=\"generator\" content=\"legbaro\"/>";

enum { DAY = 24 * 60 * 60, FAR_YEARS = 50 };

static int is_page(struct bytes bytes)
{
    size_t length = bytes.length < 1024 ? bytes.length : 1024;
    return memmem(bytes.at, length, generator, strlen(generator)) != NULL;
}

/* ---- Words ---- */

static const char *badge(const struct look *look)
{
    static const char *const classes[] = {"unreadable", "attention", "todo", "fine"};
    static const char *const words[] = {"can&#39;t be read", "needs attention", "to do",
                                        "in order"};
    return text("<span class=\"badge %s\">%s</span>", classes[look->need], words[look->need]);
}

static const char *last_html(const struct look *look)
{
    const char *known = !strcmp(look->verdict, "accepted") || !strcmp(look->verdict, "rejected")
                            ? look->verdict
                            : "faint";
    return look->judged == UNKNOWN_TIME
               ? last_words(look)
               : text("<span class=\"%s\">%s</span> <span class=\"day\">%s</span>", known,
                      html_text(look->verdict), local_words(look->judged));
}

/* ---- The table ---- */

static void put_cell(FILE *page, const char *label, const char *class, const char *html)
{
    int none = !strcmp(html, "-");
    fprintf(page, "<td class=\"%s%s\" data-label=\"%s\"><span>%s</span></td>", class,
            none ? " none" : "", label, html);
}

static void put_row(FILE *page, const struct look *look, int number)
{
    int known = look->is_known;
    fputs("<tr>", page);
    put_cell(page, "Status", "badges", badge(look));
    put_cell(
        page, "File", "file",
        text(
            "<a href=\"#file-%d\"><bdi>%s</bdi></a><br/><span class=\"faint\"><bdi>%s</bdi></span>",
            number, html_text(known ? look->id : "no file"), html_text(look->path)));
    put_cell(page, "Blocks", "number", known ? grouped(look->blocks) : "-");
    put_cell(page, "Audits left", "number", known && look->is_owners ? grouped(look->left) : "-");
    put_cell(page, "Last audit", "date", last_html(look));
    put_cell(page, "Open", "open", html_text(open_words(look)));
    put_cell(page, "Next draw", "date day", opening_words(look));
    put_cell(page, "What to do", "what", *look->what ? html_text(look->what) : "-");
    fputs("</tr>\n", page);
}

static void put_table(FILE *page, const struct look *looks, int count)
{
    fputs("<table>\n<thead><tr><th>Status</th><th>File</th><th class=\"number\">Blocks</th>"
          "<th class=\"number\">Audits left</th><th>Last audit</th><th>Open</th><th>Next draw</th>"
          "<th>What to do</th></tr></thead>\n<tbody>\n",
          page);
    for (int i = 0; i < count; i++)
        put_row(page, &looks[i], i + 1);
    fputs("</tbody>\n</table>\n", page);
}

/* ---- A file ---- */

/* When the audits run out at the present pace; unknown where there is none, or in a far future. */
static time_t runs_out(const struct look *look, double pace, time_t now)
{
    double days = pace > 0 ? (double)look->left / pace : 0;
    return pace > 0 && days < 366.0 * FAR_YEARS ? now + (time_t)(days * DAY) : UNKNOWN_TIME;
}

static const char *pace_words(const struct look *look, double pace, time_t out)
{
    if (!look->left)
        return "every token is spent";
    if (out == UNKNOWN_TIME)
        return pace > 0 ? "they last for more than 50 years at the present pace"
                        : "no pace is known: no draw is in the journal";
    return text("they run out about %.10s, at %.2g a day", local_words(out), pace);
}

static void begin_figure(FILE *page, const char *title)
{
    fprintf(page, "<figure><h3>%s</h3>\n", title);
}

static void end_figure(FILE *page, const char *caption)
{
    fprintf(page, "<figcaption>%s</figcaption></figure>\n", caption);
}

static void put_audits(FILE *page, const struct look *look, const struct history *h,
                       struct span span)
{
    begin_figure(page, look->is_owners ? "Audits" : "Proofs");
    draw_audits(page, h, span);
    end_figure(page, look->is_owners ? text("%" PRIu64 " accepted (dots above), %" PRIu64
                                            " rejected (crosses below)",
                                            h->accepted, h->rejected)
                                     : counted(h->proofs, "message answered", "messages answered"));
}

static void put_charts(FILE *page, const struct look *look, const struct history *h, time_t now)
{
    struct span span = {h->points[0].time, now};
    double pace = pace_of(h, now);
    time_t out = runs_out(look, pace, now);
    for (int i = 0; i < h->count; i++)
        span.from = h->points[i].time < span.from ? h->points[i].time : span.from;
    fputs("<div class=\"charts\">\n", page);
    put_audits(page, look, h, span);
    begin_figure(page, "Blocks");
    draw_blocks(page, h, span, look->blocks);
    end_figure(page, text("%s now", grouped(look->blocks)));
    if (look->is_owners) {
        begin_figure(page, "Audits left");
        draw_left(page, h, span, now, look->left, out);
        end_figure(page, text("%s now; %s", grouped(look->left), pace_words(look, pace, out)));
    }
    fputs("</div>\n", page);
}

static void put_file(FILE *page, const struct look *look, int number, time_t now)
{
    int known = look->is_known;
    const char *party = look->is_owners  ? "owner&#39;s folder"
                        : look->is_hosts ? "host&#39;s folder"
                                         : "folder";
    fprintf(page,
            "<section id=\"file-%d\">\n<header><h2><bdi>%s</bdi></h2> %s <span class=\"faint\">%s "
            "<bdi>%s</bdi></span></header>\n",
            number, html_text(known ? look->id : "no file"), badge(look), party,
            html_text(look->path));
    if (*look->what)
        fprintf(page, "<p>%s</p>\n", html_text(look->what));
    struct history history = known ? read_history(look->path, now) : (struct history){0};
    if (history.count)
        put_charts(page, look, &history, now);
    else if (known)
        fputs("<p class=\"faint\">Its journal is missing or has no line, so there is no "
              "history.</p>\n",
              page);
    if (history.damaged || history.future)
        fprintf(page, "<p class=\"faint\">Left out: %s, %s.</p>\n",
                counted(history.damaged, "damaged line", "damaged lines"),
                counted(history.future, "line with a time in the future",
                        "lines with times in the future"));
    fputs("</section>\n", page);
}

/* ---- The page ---- */

static int count_of(const struct look *looks, int count, enum need least, enum need most)
{
    int found = 0;
    for (int i = 0; i < count; i++)
        found += looks[i].need >= least && looks[i].need <= most;
    return found;
}

static const char *summary(const struct look *looks, int count)
{
    int urgent = count_of(looks, count, UNREADABLE, ATTENTION),
        todo = count_of(looks, count, TO_DO, TO_DO);
    return text("%s. %s. %s something to do.", counted((uint64_t)count, "folder", "folders"),
                urgent ? counted((uint64_t)urgent, "needs attention", "need attention")
                       : "None needs attention",
                todo ? counted((uint64_t)todo, "has", "have") : "None has");
}

static void put_page(FILE *page, const struct look *looks, int count, time_t now)
{
    struct tm local = local_time(now);
    fprintf(page,
            "<!DOCTYPE html>\n<html lang=\"en\" xmlns=\"http://www.w3.org/1999/xhtml\">\n<head>\n"
            "<meta charset=\"utf-8\"/>\n%s\n"
            "<meta name=\"viewport\" content=\"width=device-width, initial-scale=1\"/>\n"
            "<title>Files and their audits</title>\n<style>\n%s</style>\n</head>\n<body>\n",
            generator, page_style);
    fprintf(page,
            "<h1>Files and their audits</h1>\n<p>%s</p>\n<p class=\"faint\">As of %s (%s), by "
            "legbaro %s.</p>\n",
            summary(looks, count), local_words(now), html_text(zone_words(&local)),
            LEGBARO_VERSION);
    put_table(page, looks, count);
    for (int i = 0; i < count; i++)
        put_file(page, &looks[i], i + 1, now);
    fputs("</body>\n</html>\n", page);
}

int run_report(const struct options *o)
{
    needs_text(o->html, "--html, the page to write,");
    time_t now = time_told(o);
    struct output output = check_output(o, o->html, NULL, is_page);
    struct look *looks = look_at_all(o, now);
    char *bytes = NULL;
    size_t length = 0;
    FILE *page = open_memstream(&bytes, &length);
    if (!page)
        file_fault("write", o->html);
    put_page(page, looks, o->count, now);
    if (fclose(page) != 0)
        file_fault("write", o->html);
    const struct piece piece = {bytes, length};
    write_output(&output, &piece, 1);
    free(bytes);
    field("files", (uint64_t)o->count);
    field("attention", (uint64_t)count_of(looks, o->count, UNREADABLE, ATTENTION));
    field_text("file", o->html);
    say("%s: a page of %zu bytes. %s", output.path, length, summary(looks, o->count));
    return ended(DONE);
}
