/* The command show: the owner's card, or what stands at the host, in words. */
#define _GNU_SOURCE
#include "change.h"
#include "commands.h"
#include "owner.h"
#include "report.h"
#include "tell.h"

#include "legbaro.h"

#include <fcntl.h>
#include <inttypes.h>
#include <sys/file.h>
#include <sys/stat.h>
#include <unistd.h>

static void number(const char *name, uint64_t value, const char *words)
{
    field(name, value);
    say("  %-12s %12" PRIu64 "   %s", name, value, words);
}

static void show_name(const uint8_t *id, uint64_t version)
{
    static const char *const words[] = {"", "no marks", "a mark beside each block",
                                        "a mark beside each block; changes in two steps too"};
    field_text("id", id_words(id));
    say("  %-12s %12s", "id", id_words(id));
    number("version", version, version <= LEGBARO_TWO_STEPS ? words[version] : "");
}

static int is_there(const struct options *o, const char *name)
{
    return access(path_in(o->folder, name), F_OK) == 0;
}

/* ---- The owner's folder ---- */

/* What a planner looks for first: whether something is open, and what to do next. */
static void show_next(const struct options *o, struct bytes card, uint64_t open)
{
    uint64_t counter = pending(card), next = in_card(card, LEGBARO_CARD_NEXT, 4),
             tokens = in_card(card, LEGBARO_CARD_TOKENS, 4);
    if (counter)
        say("a change is pending at counter %" PRIu64 ", to %" PRIu64
            " blocks%s. Next: 'legbaro commit' when the host has it whole, or 'legbaro drop'",
            counter, in_card(card, LEGBARO_CARD_PENDING_BLOCKS, 4),
            is_there(o, "change") || is_there(o, "change.new") ? ""
                                                               : ", and its file 'change' is gone");
    else if (open)
        say("token %" PRIu64
            " is drawn. Next: send 'message' to the host, and 'legbaro judge' the reply%s",
            open,
            is_there(o, "message") || is_there(o, "message.new")
                ? ""
                : "; its file 'message' is gone, and 'legbaro draw --again' writes it again");
    else if (next > tokens)
        say("every token is spent: no further audit");
    else
        say("nothing is open");
}

/* The change that the card has issued last, where its file is here. Whether the host has it nobody
 * here can know. */
static void show_change(const struct options *o, struct bytes card)
{
    const char *path = path_in(o->folder, "change");
    struct change change;
    uint64_t counter = in_card(card, LEGBARO_CARD_COUNTER, 8);
    int stands = is_there(o, "change") && peek_change(path, &change) && change.counter == counter &&
                 !pending(card);
    field("change", (uint64_t)stands);
    if (stands)
        say("%s has the change at counter %" PRIu64 ". Send it to the host, unless that is done",
            path, counter);
}

static void show_numbers(const struct options *o, struct bytes card)
{
    uint64_t tokens = in_card(card, LEGBARO_CARD_TOKENS, 4),
             next = in_card(card, LEGBARO_CARD_NEXT, 4);
    say("%s", path_in(o->folder, "card"));
    show_name(card.at + LEGBARO_CARD_ID, in_card(card, LEGBARO_CARD_VERSION, 1));
    number("block-bytes", in_card(card, LEGBARO_CARD_BLOCK_BYTES, 2), "bytes in a block");
    number("blocks", in_card(card, LEGBARO_CARD_BLOCKS, 4), "blocks of the file");
    number("rows", in_card(card, LEGBARO_CARD_ROWS, 4), "rows, in which the blocks lie");
    number("positions", in_card(card, LEGBARO_CARD_POSITIONS, 2), "rows that an audit draws");
    number("tokens", tokens, "audits in all");
    number("left", tokens + 1 > next ? tokens + 1 - next : 0, "audits left");
    number("open", in_card(card, LEGBARO_CARD_OPEN, 4),
           "the token that is drawn and not judged, 0 for none");
    number("counter", in_card(card, LEGBARO_CARD_COUNTER, 8),
           "the counter of the change that stands");
    number("last-issued", last_issued(card), "the last counter that a change took");
    number("pending", pending(card), "the counter of the change that is pending, 0 for none");
}

/* What a stopped command left is put in order, unless another command is at work here. */
static void show_stopped(const struct options *o, int busy)
{
    field("stopped", 0);
    if (busy) {
        say("another command is at work here");
        return;
    }
    struct owner owner = open_card(o->folder);
    if (!is_unsettled(&owner))
        return;
    field("stopped", 1);
    settle(&owner);
    say("a command was stopped here: the files beside the card are in order now");
}

/* Whether another command has locked the folder. */
static int is_busy(const char *path)
{
    int folder = open(path, O_RDONLY | O_DIRECTORY | O_CLOEXEC);
    int busy = folder >= 0 && flock(folder, LOCK_EX | LOCK_NB) != 0;
    if (folder >= 0)
        close(folder);
    return busy;
}

static int show_card(const struct options *o)
{
    struct bytes card = read_card(o->folder);
    show_numbers(o, card);
    show_stopped(o, is_busy(o->folder));
    tell_audit(card);
    show_change(o, card);
    show_next(o, card, in_card(card, LEGBARO_CARD_OPEN, 4));
    return ended(DONE);
}

/* ---- The host's folder ---- */

/* Says whether a file has the size that stands; its size is told for programs too. */
static int show_size(const struct options *o, const char *name, uint64_t wanted)
{
    struct stat status;
    const char *path = path_in(o->folder, name);
    if (stat(path, &status) == 0 && (uint64_t)status.st_size == wanted)
        return 1;
    if (stat(path, &status) == 0)
        say("%s has %" PRIu64 " bytes, and must have %" PRIu64 ": put it back from a copy", path,
            (uint64_t)status.st_size, wanted);
    else
        say("%s is gone: put it back from a copy", path);
    return 0;
}

static int show_stands(const struct options *o, const char *path)
{
    struct change s = change_of_header(
        map_whole(path, CHANGE_HEADER_BYTES, "the header of a change", "Put it back from a copy.")
            .at);
    int stopped = is_there(o, "applying") || is_there(o, "adding"), whole = 1;
    say("%s", path);
    show_name(s.id, s.version);
    number("block-bytes", s.block_bytes, "bytes in a block");
    number("blocks", s.blocks_after, "blocks that the host holds");
    number("tokens", s.tokens, "records in the table");
    number("counter", s.counter, "the counter of the change that stands");
    field("stopped", (uint64_t)stopped);
    if (is_there(o, "applying")) {
        say("a command is at work here or was stopped: a change is half in place, and 'legbaro "
            "apply' goes on with it");
    } else if (stopped) {
        say("a command is at work here or was stopped while it added blocks: what stands is whole, "
            "and the next one cuts them back");
    } else {
        whole &= show_size(o, "blocks", s.blocks_after * s.block_bytes);
        whole &= s.version == LEGBARO_WITHOUT_MARKS || show_size(o, "marks", s.blocks_after);
        whole &= show_size(o, "table", s.tokens * LEGBARO_RECORD_BYTES);
    }
    field("whole", (uint64_t)whole);
    return ended(DONE);
}

/* ---- A folder without a file ---- */

static int show_nothing(const struct options *o)
{
    about(o->folder);
    if (is_there(o, "change"))
        refuse(BAD_FILE,
               "Put back the newest card. Without it the file takes no change and no audit.",
               "%s has a change and no card", o->folder);
    if (is_there(o, "key"))
        refuse(BAD_FILE, "Set one up: 'legbaro set-up'.",
               "%s has a key, and no file is set up in it", o->folder);
    int folder = open(o->folder, O_RDONLY | O_DIRECTORY | O_CLOEXEC);
    if (folder < 0)
        file_fault("open the folder", o->folder);
    close(folder);
    refuse(BAD_FILE,
           "An owner begins with 'legbaro key' and 'legbaro set-up', a host with 'legbaro apply "
           "CHANGE'; -C names the folder.",
           "%s holds no file of an owner or a host", o->folder);
    return BAD_FILE;
}

int run_show(const struct options *o)
{
    if (is_there(o, "card"))
        return show_card(o);
    return is_there(o, "stands") ? show_stands(o, path_in(o->folder, "stands")) : show_nothing(o);
}
