/* See history.h. */
#include "history.h"
#include "files.h"
#include "lines.h"
#include "options.h"

#include <string.h>

enum { DAY = 24 * 60 * 60 };

static int audit_of(const struct line *line)
{
    if (!strcmp(line->verdict, "accepted"))
        return ACCEPTED;
    if (!strcmp(line->verdict, "rejected"))
        return REJECTED_ONE;
    return strcmp(line->command, "prove") ? NO_AUDIT : PROOF;
}

static void put_point(struct history *history, const struct line *line)
{
    struct point point = {line->time, line->blocks, line->left, audit_of(line)};
    history->accepted += point.audit == ACCEPTED;
    history->rejected += point.audit == REJECTED_ONE;
    history->proofs += point.audit == PROOF;
    history->points[history->count++] = point;
}

static int count_lines(const struct bytes *file)
{
    const char *begin, *end;
    int count = 0;
    for (size_t at = 0; next_line(file, &at, &begin, &end);)
        count++;
    return count;
}

struct history read_history(const char *folder, time_t now)
{
    struct history history = {0};
    struct bytes file;
    const char *begin, *end;
    struct line line;
    if (!map_journal(path_in(folder, "journal"), &file))
        return history;
    history.points = (struct point *)room((size_t)count_lines(&file) * sizeof *history.points).at;
    for (size_t at = 0; next_line(&file, &at, &begin, &end);) {
        if (!read_line(begin, end, &line))
            history.damaged += end > begin;
        else if (line.time > now)
            history.future++;
        else
            put_point(&history, &line);
    }
    unmap(file);
    return history;
}

double pace_of(const struct history *history, time_t now)
{
    const struct point *first = NULL, *last = NULL;
    for (int i = 0; i < history->count; i++)
        if (history->points[i].left != UNTOLD) {
            first = first ? first : &history->points[i];
            last = &history->points[i];
        }
    if (!first || first->left <= last->left)
        return 0;
    double days = (double)(now - first->time) / DAY;
    return (double)(first->left - last->left) / (days < 1 ? 1 : days);
}
