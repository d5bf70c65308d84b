/* The command apply, the host's. */
#include "commands.h"
#include "host.h"
#include "receipt.h"
#include "report.h"

#include "legbaro.h"

#include <inttypes.h>
#include <string.h>

/* Refuses a file of the host that is not as long as what stands. Where a damaged `applying` was
 * being put in place, it may be longer. */
static void refuse_size(const struct host *host, const char *name, uint64_t length)
{
    static const char *const lost =
        "The host has lost what it was to keep: put the file back from a copy first.";
    const char *path = path_in(host->folder.path, name);
    if (!host->damaged || map_file(path).length < length)
        map_whole(path, length, "what stands", lost);
}

/* Refuses a change that does not follow what stands. */
static void refuse_unfit(const struct host *host, const struct change *c, const char *path)
{
    const struct change *s = &host->stands;
    about(path);
    if (!host->begun) {
        if (c->blocks_before)
            refuse(TURNED_AWAY, "Apply the change of the set-up first.",
                   "%s follows counter %" PRIu64 ", and this folder holds no file", path,
                   c->counter_before);
        return;
    }
    if (!follows(host, c))
        refuse(TURNED_AWAY, "Ask the owner for the change that follows what stands.",
               "%s follows counter %" PRIu64 " with %" PRIu64 " blocks, and counter %" PRIu64
               " with %" PRIu64 " blocks stands",
               path, c->counter_before, c->blocks_before, s->counter, s->blocks_after);
}

/* Refuses files that are not as long as what stands. */
static void refuse_sizes(const struct host *host)
{
    const struct change *s = &host->stands;
    if (!host->begun)
        return;
    refuse_size(host, "blocks", s->blocks_after * s->block_bytes);
    if (s->version != LEGBARO_WITHOUT_MARKS)
        refuse_size(host, "marks", s->blocks_after);
}

static void tell_stands(const struct change *c)
{
    field_text("id", id_words(c->id));
    field("counter", c->counter);
    field("blocks", c->blocks_after);
}

/* Without a change, what a command that stopped left half in place is put there. */
static int go_on(const struct options *o)
{
    if (o->committed || o->check)
        refuse(
            WRONG_USE,
            "Write 'legbaro apply --check CHANGE' or 'legbaro apply --committed RECEIPT CHANGE'.",
            "the change that %s is about is missing", o->check ? "--check" : "--committed");
    struct host host = open_host(o->folder, 0, 0);
    int half = host.half;
    complete(&host);
    if (host.begun)
        tell_stands(&host.stands);
    if (half)
        say("what was half in place is in place now: file %s has %" PRIu64
            " blocks at counter %" PRIu64,
            id_words(host.stands.id), host.stands.blocks_after, host.stands.counter);
    else
        say("nothing is half in place");
    return ended(DONE);
}

/* A change with the numbers of the one that stands: it is that one, or another. */
static int tell_in_place(const struct options *o, struct host *host, const struct change *c,
                         const char *path)
{
    if (host->damaged && differs(host, c))
        refuse_damaged(host);
    if (is_being_put(host, c)) {
        if (o->check) {
            say("%s is half in place: 'legbaro apply' goes on with it", path);
            return ended(DONE);
        }
        complete(host);
    }
    const char *other = differs(host, c);
    about(path);
    if (other && !strcmp(other, "table"))
        refuse(TURNED_AWAY,
               "Ask the owner which of the two stands, and under which key. If it is this one, the "
               "host's table was altered: put it back from a copy. Nothing has changed.",
               "%s is not the change in place: it has the same counter, %" PRIu64
               ", and another table",
               path, c->counter);
    if (other)
        refuse(
            TURNED_AWAY,
            "The host has lost what it was to keep: put the file back from a copy first. Nothing "
            "has changed.",
            "%s is the change in place by its table, and %s has other %s than it brought", path,
            path_in(host->folder.path, other), other);
    if (host->damaged && !o->check)
        set_aside_damaged(host);
    if (!o->check)
        complete(host);
    say("the change is in place already: file %s has %" PRIu64 " blocks at counter %" PRIu64,
        id_words(c->id), c->blocks_after, c->counter);
    return ended(DONE);
}

static int tell_fits(const struct change *c, const char *path)
{
    say("%s is whole and fits: with it file %s has %" PRIu64 " blocks at counter %" PRIu64, path,
        id_words(c->id), c->blocks_after, c->counter);
    say(c->asked ? "next: tell the owner, who commits and sends 'committed'; then 'legbaro apply "
                   "--committed committed %s'"
                 : "next: 'legbaro apply %s'",
        path);
    return ended(DONE);
}

/* A change that was asked stands only when the owner has committed it, which the receipt shows. */
static void needs_receipt(const struct options *o, const struct change *c, const char *path)
{
    if (!c->asked)
        return;
    if (!o->committed)
        refuse(
            TURNED_AWAY,
            text(
                "Tell the owner that it is here whole. The commit makes the file 'committed': with "
                "it run 'legbaro apply --committed committed %s'.",
                path),
            "%s is asked, and stands only when the owner has committed it", path);
    int known = check_receipt(o->committed, c, path);
    field("checksum_known", (uint64_t)known);
    if (!known)
        say("warning: %s has no checksum, since the owner no longer had the change: look whether "
            "%s is "
            "the one that was sent last",
            input_words(o->committed), path);
}

int run_apply(const struct options *o)
{
    if (!o->count)
        return go_on(o);
    const char *path = o->words[0];
    struct change c = read_change(path);
    struct host host = open_host(o->folder, !o->check && !c.blocks_before, 1);
    refuse_other_file(&host, c.id, path);
    tell_stands(&c);
    if (has_its_numbers(&host, &c))
        return tell_in_place(o, &host, &c, path);
    refuse_unfit(&host, &c, path);
    if (!host.half && !is_in(&host.folder, "adding"))
        refuse_sizes(&host);
    if (o->check)
        return tell_fits(&c, path);
    needs_receipt(o, &c, path);
    complete(&host);
    refuse_sizes(&host);
    if (host.begun)
        put_in_place(&host, &c);
    else
        begin_file(&host, &c);
    say("file %s has %" PRIu64 " blocks at counter %" PRIu64, id_words(c.id), c.blocks_after,
        c.counter);
    return ended(DONE);
}
