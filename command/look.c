/* See look.h. */
#define _GNU_SOURCE
#include "look.h"
#include "change.h"
#include "checksum.h"
#include "clock.h"
#include "codes.h"
#include "lines.h"
#include "numbers.h"
#include "owner.h"
#include "report.h"

#include <errno.h>
#include <fcntl.h>
#include <inttypes.h>
#include <stdlib.h>
#include <string.h>
#include <unistd.h>

enum { DAY = 24 * 60 * 60, NEWEST_BYTES = 1 << 18 };

/* A look while it is taken: what may be refused is attempted with it. */
struct taking {
    struct look *look;
    const struct options *o;
    struct folder folder;
};

static void needs(struct look *look, enum need need, const char *what)
{
    if (need >= look->need)
        return;
    look->need = need;
    look->what = what;
}

static void needs_for(struct look *look, const struct refusal *refusal)
{
    enum need need = refusal->status == BAD_FILE ? UNREADABLE : ATTENTION;
    needs(look, need, text("%s. %s", refusal->what, refusal->next));
}

/* ---- The journal ---- */

/* Whether a line is where the open token was drawn, or the pending change asked. */
static int is_begin(const struct look *look, const struct line *line)
{
    if (look->pending)
        return !strncmp(line->command, "ask ", 4) && line->pending == look->pending;
    return !strcmp(line->command, "draw") && line->token == look->open;
}

static void note_line(struct look *look, const struct line *line)
{
    if (*line->verdict && look->judged == UNKNOWN_TIME) {
        look->judged = line->time;
        look->verdict = line->verdict;
        look->cause = line->cause == UNTOLD ? 0 : line->cause;
    }
    if (!strcmp(line->verdict, "accepted") && look->accepted == UNKNOWN_TIME)
        look->accepted = line->time;
    if ((look->open || look->pending) && look->since == UNKNOWN_TIME && is_begin(look, line))
        look->since = line->time;
}

/* Whether a token was drawn and judged, by the card. */
static int is_judged(const struct look *look)
{
    return look->left + (look->open ? 1 : 0) < look->tokens;
}

static int is_found(const struct look *look)
{
    int begun = look->since != UNKNOWN_TIME || (!look->open && !look->pending);
    return begun && (!is_judged(look) || look->accepted != UNKNOWN_TIME);
}

/* Whether a line may have what is looked for, before it is read whole: draws and verdicts have a
 * token. */
static int is_candidate(const struct look *look, const char *begin, const char *end)
{
    size_t length = (size_t)(end - begin);
    return memmem(begin, length, "\"token\"", 7) ||
           (look->pending && memmem(begin, length, "\"ask ", 5));
}

/* Goes through the journal backwards, until all is found. After a rejection the last acceptance
 * is looked for in the newest part of the journal alone. */
static void read_journal(struct look *look)
{
    struct bytes file;
    const char *begin, *end;
    struct line line;
    if (!map_journal(path_in(look->path, "journal"), &file))
        return;
    for (size_t at = 0; look->begun == UNKNOWN_TIME && next_line(&file, &at, &begin, &end);)
        if (read_line(begin, end, &line))
            look->begun = line.time;
    for (size_t at = file.length; !is_found(look) && previous_line(&file, &at, &begin, &end);) {
        if (is_candidate(look, begin, end) && read_line(begin, end, &line))
            note_line(look, &line);
        if (look->judged != UNKNOWN_TIME && file.length - at > NEWEST_BYTES)
            break;
    }
    unmap(file);
}

/* ---- The owner's folder ---- */

/* The card, read again where its checksum does not fit: a command may have replaced it
 * meanwhile. */
static struct bytes card_in(struct taking *t)
{
    struct bytes card = read_card(t->look->path);
    for (int tries = 3; is_newest(&t->folder, card) == NOT_NEWEST;
         card = read_card(t->look->path)) {
        if (!--tries) {
            needs(t->look, ATTENTION, "the card is not the newest. Put back the newest card");
            break;
        }
        unmap(card);
    }
    return card;
}

static void take_card(void *lent)
{
    struct taking *t = lent;
    struct look *look = t->look;
    struct bytes card = card_in(t);
    struct standing now = standing_of_card(card);
    look->is_known = 1;
    look->id = id_words(now.id);
    look->blocks = now.blocks;
    look->counter = now.counter;
    look->tokens = in_card(card, LEGBARO_CARD_TOKENS, 4);
    look->left = now.left;
    look->open = now.open;
    look->pending = now.pending;
    unmap(card);
}

/* A plan that is no file would hold the program. */
static void take_plan(void *lent)
{
    struct taking *t = lent;
    struct options o = {.folder = t->look->path, .plan = t->o->plan, .at = t->o->at};
    struct stat status;
    const char *path = o.plan ? o.plan : path_in(o.folder, "plan");
    if (stat(path, &status) == 0 && !S_ISREG(status.st_mode))
        refuse(BAD_FILE, "Put a plan in its place, or remove it.", "%s is no file", path);
    struct plan plan = read_plan(&o);
    t->look->has_plan = plan.path != NULL;
    if (next_opening(&plan, &t->look->opening) != LEGBARO_OK)
        t->look->opening.minutes = UNTOLD;
}

/* What is to be done for an audit that is overdue. */
static const char *overdue_next(const struct look *look)
{
    if (look->pending)
        return "commit or drop the change that is pending, then draw";
    return look->open ? "send 'message' to the host, and judge the reply" : "draw";
}

static void judge_overdue(struct look *look, uint64_t days, time_t now)
{
    time_t last = look->accepted != UNKNOWN_TIME ? look->accepted : look->begun;
    int late = (int64_t)now - (int64_t)last > (int64_t)days * DAY;
    if (days > INT32_MAX || (last != UNKNOWN_TIME && !late))
        return;
    if (look->accepted != UNKNOWN_TIME)
        needs(look, ATTENTION,
              text("overdue: the last audit passed %s. Next: %s", ago_words(last, now),
                   overdue_next(look)));
    else
        needs(look, ATTENTION, text("overdue: no audit has passed. Next: %s", overdue_next(look)));
}

/* What is to be done after a rejection: the host has lost blocks, or its reply was none. */
static const char *rejected_words(uint64_t cause)
{
    if (cause == LEGBARO_CAUSE_DIGEST)
        return "the last audit was rejected: the host has lost what it was to keep. Next: ask it "
               "to put "
               "the blocks back from a copy, and draw again";
    return text("the last audit was rejected: %s. Next: draw again", cause_words(cause));
}

/* What is the matter with a card that can be read; what comes first counts, of the same need. */
static void judge_card(struct look *look, const struct options *o, time_t now)
{
    if (!strcmp(look->verdict, "rejected"))
        needs(look, ATTENTION, rejected_words(look->cause));
    if (!look->left && !look->open)
        needs(look, ATTENTION,
              "every token is spent: set up a new file, by legbaro(1), under RENEWING A FILE");
    if (look->judged != UNKNOWN_TIME && look->judged > now)
        needs(look, ATTENTION, "the last verdict is in the future: look at the clock");
    if (o->every != UNTOLD)
        judge_overdue(look, o->every, now);
    if (look->pending)
        needs(look, TO_DO, "commit when the host has 'change' whole, or drop");
    if (look->open)
        needs(look, TO_DO, "send 'message' to the host, and judge the reply");
    if (look->left && look->left * 10 <= look->tokens)
        needs(
            look, TO_DO,
            text("%s left: plan to renew the file", counted(look->left, "audit is", "audits are")));
    if (look->opening.minutes == LEGBARO_WEEK_MINUTES)
        needs(look, TO_DO, "the plan allows no draw at all");
}

static void look_at_card(struct taking *t, time_t now)
{
    struct look *look = t->look;
    struct refusal refusal;
    look->is_owners = 1;
    if (!attempt(take_card, t, &refusal)) {
        needs_for(look, &refusal);
        return;
    }
    read_journal(look);
    if (!attempt(take_plan, t, &refusal))
        needs(look, ATTENTION, text("%s. %s", refusal.what, refusal.next));
    judge_card(look, t->o, now);
}

/* ---- The host's folder ---- */

static void needs_size(struct taking *t, const char *name, uint64_t length)
{
    struct stat status;
    if (fstatat(t->folder.at, name, &status, 0) != 0)
        needs(t->look, ATTENTION, text("'%s' is gone: put it back from a copy", name));
    else if ((uint64_t)status.st_size != length)
        needs(t->look, ATTENTION,
              text("'%s' has another size than what stands: put it back from a copy", name));
}

static void take_stands(void *lent)
{
    struct taking *t = lent;
    const char *path = path_in(t->look->path, "stands");
    struct bytes header =
        map_whole(path, CHANGE_HEADER_BYTES, "the header of a change", "Put it back from a copy.");
    if (!is_header(header))
        refuse(TURNED_AWAY, "Put it back from a copy.",
               "%s is damaged: it is no header of a change", path);
    struct change stands = change_of_header(header.at);
    t->look->is_known = 1;
    t->look->id = id_words(stands.id);
    t->look->blocks = stands.blocks_after;
    t->look->counter = stands.counter;
    if (is_in(&t->folder, "applying")) {
        needs(t->look, ATTENTION, "a change is half in place: 'legbaro apply' goes on with it");
    } else {
        needs_size(t, "blocks", stands.blocks_after * stands.block_bytes);
        if (stands.version != LEGBARO_WITHOUT_MARKS)
            needs_size(t, "marks", stands.blocks_after);
        needs_size(t, "table", stands.tokens * LEGBARO_RECORD_BYTES);
    }
    unmap(header);
}

/* ---- Any folder ---- */

static void look_inside(struct taking *t, time_t now)
{
    struct refusal refusal;
    if (is_in(&t->folder, "card")) {
        look_at_card(t, now);
    } else if (is_in(&t->folder, "stands")) {
        t->look->is_hosts = 1;
        if (!attempt(take_stands, t, &refusal))
            needs_for(t->look, &refusal);
        read_journal(t->look);
    } else {
        needs(t->look, UNREADABLE,
              "no folder of an owner or a host: it has neither 'card' nor 'stands'");
    }
}

struct look look_at(const char *path, const struct options *o, time_t now)
{
    struct look look = {.path = path, .id = "-", .need = NOTHING, .what = "", .verdict = ""};
    struct taking t = {&look, o, {path, open(path, O_RDONLY | O_DIRECTORY | O_CLOEXEC)}};
    look.opening.minutes = UNTOLD;
    look.begun = look.since = look.judged = look.accepted = UNKNOWN_TIME;
    if (t.folder.at < 0) {
        needs(&look, UNREADABLE, text("can't open the folder: %s", strerror(errno)));
        return look;
    }
    look_inside(&t, now);
    close(t.folder.at);
    return look;
}

struct look *look_at_all(const struct options *o, time_t now)
{
    struct look *looks = (struct look *)room((size_t)o->count * sizeof *looks).at;
    struct look *sorted = (struct look *)room((size_t)o->count * sizeof *looks).at, *to = sorted;
    for (int i = 0; i < o->count; i++)
        looks[i] = look_at(o->words[i], o, now);
    for (enum need need = UNREADABLE; need <= NOTHING; need++)
        for (int i = 0; i < o->count; i++)
            if (looks[i].need == need)
                *to++ = looks[i];
    return sorted;
}

time_t time_told(const struct options *o)
{
    return o->at ? read_local(o->at, "--at") : clock_now();
}

int status_of(const struct look *looks, int count)
{
    enum need most = NOTHING;
    for (int i = 0; i < count; i++)
        most = looks[i].need < most ? looks[i].need : most;
    return most == UNREADABLE ? BAD_FILE : most == ATTENTION ? REJECTED : DONE;
}

/* ---- Words ---- */

const char *last_words(const struct look *look)
{
    if (look->judged == UNKNOWN_TIME)
        return !look->is_owners || !look->is_known ? "-"
               : is_judged(look)                   ? "not in the journal"
                                                   : "none";
    return text("%s %s", look->verdict, local_words(look->judged));
}

const char *open_words(const struct look *look)
{
    const char *since =
        look->since == UNKNOWN_TIME ? "" : text(" since %s", local_words(look->since));
    if (look->pending)
        return text("pending %" PRIu64 "%s", look->pending, since);
    return look->open ? text("token %" PRIu64 "%s", look->open, since) : "-";
}

const char *opening_words(const struct look *look)
{
    char words[64];
    if (!look->is_owners || look->opening.minutes == UNTOLD)
        return "-";
    if (!look->opening.minutes)
        return "now";
    if (look->opening.minutes == LEGBARO_WEEK_MINUTES)
        return "never";
    strftime(words, sizeof words, "%a %Y-%m-%d %H:%M", &look->opening.local);
    return text("%s", words);
}
