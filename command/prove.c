/* The command prove, the host's. */
#include "commands.h"
#include "host.h"
#include "journal.h"
#include "output.h"
#include "report.h"
#include "tell.h"

#include "legbaro.h"

#include <inttypes.h>

/* Where a message has its version, file id, token, block bytes and number of blocks. */
enum { VERSION = 2, ID = 3, TOKEN = 11, BLOCK_BYTES = 15, BLOCKS = 23 };

/* The host's files, in the sizes that the message asks. */
struct held {
    struct bytes blocks, marks, table;
};

static struct held map_held(const char *folder, struct bytes message)
{
    static const char *const lost =
        "Where a change was sent, apply it; else the host has lost what it was to keep.";
    uint64_t n = number_at(message.at + BLOCKS, 4), bytes = number_at(message.at + BLOCK_BYTES, 2);
    const char *by_message = "by the message the file";
    struct held held = {map_whole(path_in(folder, "blocks"), n * bytes, by_message, lost), room(0),
                        map_file(path_in(folder, "table"))};
    if (message.at[VERSION] != LEGBARO_WITHOUT_MARKS)
        held.marks = map_whole(path_in(folder, "marks"), n, by_message, lost);
    return held;
}

/* Refuses a message for another number of blocks than stand, or will stand when a change that is
 * half in
 * place is there. Where no command has stopped, the files themselves are looked at. */
static void refuse_other_size(const struct host *host, struct bytes message, const char *path)
{
    uint64_t n = number_at(message.at + BLOCKS, 4), bytes = number_at(message.at + BLOCK_BYTES, 2);
    int stopped = host->half || (host->begun && is_in(&host->folder, "adding"));
    about(path);
    if (stopped && (n != host->stands.blocks_after || bytes != host->stands.block_bytes))
        refuse(
            TURNED_AWAY,
            "A command was stopped here: run 'legbaro apply' first, with the change that was sent.",
            "by %s the file has %" PRIu64 " blocks of %" PRIu64 " bytes, and here it has %" PRIu64
            " of %" PRIu64,
            input_words(path), n, bytes, host->stands.blocks_after, host->stands.block_bytes);
}

/* Whether bytes are a reply: its own length is its first field. */
static int is_reply(struct bytes bytes)
{
    return bytes.length == LEGBARO_REPLY_BYTES &&
           number_at(bytes.at, 2) == LEGBARO_REPLY_BYTES - 2 && bytes.at[VERSION] >= 1 &&
           bytes.at[VERSION] <= LEGBARO_TWO_STEPS;
}

/* The file that a refusal of the library is about. */
static const char *subject(const struct options *o, uint64_t code)
{
    return code == LEGBARO_BAD_MARK       ? path_in(o->folder, "marks")
           : code == LEGBARO_WRONG_LENGTH ? path_in(o->folder, "table")
                                          : input_words(o->words[0]);
}

/* Writes a line into the journal of a host that has one: where it is known what stands. */
static void note_proof(const struct host *host, uint64_t token, const uint8_t *totals)
{
    const struct entry entry = {.command = command_name(), .token = token, .totals = totals};
    if (!host->begun)
        return;
    struct standing now = standing_of_host(&host->stands);
    add_line(&host->folder, &entry, &now);
}

int run_prove(const struct options *o)
{
    struct bytes message = small_whole(o->words[0], LEGBARO_MESSAGE_BYTES, "a message",
                                       "Ask the owner to send it again.");
    struct bytes reply = room(LEGBARO_REPLY_BYTES), totals = room(LEGBARO_TOTALS_BYTES);
    const struct piece piece = {reply.at, reply.length};
    struct output out = check_output(o, o->out, "reply", is_reply);
    struct host host = open_host(o->folder, 0, 0);
    refuse_other_file(&host, message.at + ID, o->words[0]);
    refuse_other_size(&host, message, o->words[0]);
    complete(&host);
    struct held held = map_held(o->folder, message);
    uint64_t result = legbaro_prove(LENT(message), LENT(held.blocks), LENT(held.marks),
                                    LENT(held.table), LENT(reply), LENT(totals));
    if (result != LEGBARO_OK)
        turn_away(result, subject(o, LEGBARO_CODE(result)));
    write_output(&out, &piece, 1);
    note_proof(&host, number_at(message.at + TOKEN, 4), totals.at);
    field("token", number_at(message.at + TOKEN, 4));
    field_text("file", out.path);
    say("token %" PRIu64 " is answered", number_at(message.at + TOKEN, 4));
    tell_totals(totals);
    if (out.standard < 0)
        say("next: send %s to the owner", out.path);
    return ended(DONE);
}
