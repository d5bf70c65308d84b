/* See fetched.h. */
#include "fetched.h"
#include "progress.h"
#include "report.h"

#include "legbaro.h"

#include <inttypes.h>
#include <string.h>
#include <unistd.h>

static const char *const again = "Fetch the host's files again.";

static int is_there(const char *path)
{
    return access(path, F_OK) == 0;
}

/* Where the owner's last change stands and follows that counter, it is made and not in place: a
 * command that stopped made it, or it was not sent. */
static void refuse_unapplied(const struct owner *owner, const char *path, uint64_t counter)
{
    const char *change = path_in(owner->folder.path, "change"),
               *prepared = path_in(owner->folder.path, "change.new");
    struct change last;
    int stopped = !is_there(change) && is_there(prepared);
    if ((!stopped && !is_there(change)) || !peek_change(stopped ? prepared : change, &last) ||
        last.counter != in_card(owner->card, LEGBARO_CARD_COUNTER, 8) || last.counter == counter ||
        last.counter_before != counter)
        return;
    about(path);
    refuse(TURNED_AWAY,
           text("%s %s%s to the host, who runs 'legbaro apply%s change', unless that is done; then "
                "fetch the host's files again.",
                stopped ? "Run 'legbaro show': it finishes the command that was stopped. Then send"
                        : "Send",
                change, last.asked ? " and 'committed' beside it" : "",
                last.asked ? " --committed committed" : ""),
           "%s is of counter %" PRIu64 ", and the change at counter %" PRIu64
           " is made and not in place there",
           path, counter, last.counter);
}

void check_fetched(const char *folder, const struct owner *owner)
{
    const char *path = path_in(folder, "stands");
    uint64_t counter = in_card(owner->card, LEGBARO_CARD_COUNTER, 8);
    int tokens_left =
        in_card(owner->card, LEGBARO_CARD_NEXT, 4) <= in_card(owner->card, LEGBARO_CARD_TOKENS, 4);
    if (tokens_left && !is_there(path))
        return;
    struct change stands =
        change_of_header(map_whole(path, CHANGE_HEADER_BYTES, "the header of a change", again).at);
    about(path);
    if (memcmp(stands.id, owner->card.at + LEGBARO_CARD_ID, LEGBARO_ID_BYTES))
        refuse(TURNED_AWAY, "Name the folder of the card's file with --host.",
               "%s is of file %s, and the card of file %s", path, id_words(stands.id),
               id_words(owner->card.at + LEGBARO_CARD_ID));
    if (stands.counter == counter)
        return;
    refuse_unapplied(owner, path, stands.counter);
    refuse(TURNED_AWAY, again,
           "%s is of counter %" PRIu64 ", and by the card counter %" PRIu64 " stands", path,
           stands.counter, counter);
}

struct bytes fetch_table(const char *folder, const struct change *now)
{
    return copy_of(map_whole(path_in(folder, "table"), now->tokens * LEGBARO_RECORD_BYTES,
                             "the table of this card", again));
}

void fetch_block(const char *folder, const struct change *now, uint64_t number, uint8_t *block,
                 uint8_t *mark)
{
    uint64_t n = now->blocks_before, bytes = now->block_bytes;
    map_whole(path_in(folder, "stands"), CHANGE_HEADER_BYTES, "the header of a change", again);
    struct bytes blocks =
                     map_whole(path_in(folder, "blocks"), n * bytes, "by the card the file", again),
                 marks = room(0);
    if (now->version != LEGBARO_WITHOUT_MARKS)
        marks = map_whole(path_in(folder, "marks"), n, "a mark for each block", again);
    if (!number || number > n)
        return;
    memcpy(block, blocks.at + (number - 1) * bytes, bytes);
    if (marks.length)
        *mark = marks.at[number - 1];
}

void refuse_older_record(const char *folder, const struct owner *owner, const uint8_t *record)
{
    refuse_unapplied(owner, path_in(folder, "table"), number_at(record + RECORD_COUNTER, 8));
}
