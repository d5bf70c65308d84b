/* See owner.h. */
#define _GNU_SOURCE
#include "owner.h"
#include "change.h"
#include "checksum.h"
#include "codes.h"
#include "receipt.h"
#include "report.h"

#include "legbaro.h"

#include <inttypes.h>
#include <string.h>
#include <sys/stat.h>

/* Where a message has its file id and its token. */
enum { MESSAGE_ID = 3, MESSAGE_TOKEN = 11 };

/* ---- The card's numbers ---- */

uint64_t in_card(struct bytes card, size_t at, unsigned width)
{
    return number_at(card.at + at, width);
}

static int has_two_steps(struct bytes card)
{
    return in_card(card, LEGBARO_CARD_VERSION, 1) == LEGBARO_TWO_STEPS;
}

uint64_t last_issued(struct bytes card)
{
    return in_card(card, has_two_steps(card) ? LEGBARO_CARD_LAST_ISSUED : LEGBARO_CARD_COUNTER, 8);
}

uint64_t pending(struct bytes card)
{
    return has_two_steps(card) ? in_card(card, LEGBARO_CARD_PENDING_COUNTER, 8) : 0;
}

/* ---- What lies beside the card ---- */

static int same_id(struct bytes card, const uint8_t *id)
{
    return !memcmp(card.at + LEGBARO_CARD_ID, id, LEGBARO_ID_BYTES);
}

static void refuse_other_id(const char *path, const uint8_t *id, struct bytes card)
{
    about(path);
    refuse(TURNED_AWAY, "One of the two was put here by mistake: put it back where it belongs.",
           "%s is of file %s, and the card beside it of file %s", path, id_words(id),
           id_words(card.at + LEGBARO_CARD_ID));
}

/* Whether a file is a change of the card's last counter. */
static int is_last_change(const char *path, struct bytes card)
{
    struct change change;
    return peek_change(path, &change) && same_id(card, change.id) &&
           change.counter == last_issued(card);
}

/* Refuses a change of another file, and one that the card has not issued: then the card is an older
 * one. */
static void check_change(const struct folder *folder, struct bytes card)
{
    const char *path = path_in(folder->path, "change");
    struct change change;
    if (!is_in(folder, "change") || !peek_change(path, &change))
        return;
    if (!same_id(card, change.id))
        refuse_other_id(path, change.id, card);
    about(path);
    if (change.counter > last_issued(card) ||
        (change.counter > in_card(card, LEGBARO_CARD_COUNTER, 8) && !change.asked))
        refuse(TURNED_AWAY,
               "Put back the newest card. An older one would seal other tokens under counters that "
               "were used.",
               "the card is older than %s: it has issued counter %" PRIu64
               " and has counter %" PRIu64 ", and the change has %" PRIu64,
               path, last_issued(card), in_card(card, LEGBARO_CARD_COUNTER, 8), change.counter);
}

/* Whether `change` is of an ask that was dropped. */
static int is_dropped_change(const struct folder *folder, struct bytes card)
{
    struct change change;
    return is_in(folder, "change") && peek_change(path_in(folder->path, "change"), &change) &&
           change.counter > in_card(card, LEGBARO_CARD_COUNTER, 8) && !pending(card);
}

/* The token of a message, 0 where the file is none. A message of another file is refused. */
static uint64_t token_in(const char *path, struct bytes card)
{
    struct bytes message = map_file(path);
    if (message.length != LEGBARO_MESSAGE_BYTES)
        return 0;
    if (!same_id(card, message.at + MESSAGE_ID))
        refuse_other_id(path, message.at + MESSAGE_ID, card);
    return number_at(message.at + MESSAGE_TOKEN, 4);
}

static int is_open_message(const struct folder *folder, const char *name, struct bytes card)
{
    uint64_t open = in_card(card, LEGBARO_CARD_OPEN, 4);
    return open && token_in(path_in(folder->path, name), card) == open;
}

/* ---- Settling ---- */

/* Removes a file that the newest card has no use for. Where the card may be an older one, the file
 * is moved aside. */
static void let_go(const struct owner *owner, const char *name)
{
    if (owner->newest)
        take_away(&owner->folder, name);
    else
        move_aside(&owner->folder, name);
}

/* A prepared file that the card knows takes its place, another one goes. */
static void settle_prepared(const struct owner *owner, const char *name, int known)
{
    if (known)
        place(&owner->folder, name);
    else
        let_go(owner, text("%s.new", name));
}

int is_unsettled(const struct owner *owner)
{
    const struct folder *folder = &owner->folder;
    return is_in(folder, "card.new") || is_in(folder, "card.sum.new") ||
           is_in(folder, "change.new") || is_in(folder, "message.new") ||
           is_in(folder, "committed.new") || is_journal_unsettled(folder) ||
           is_dropped_change(folder, owner->before) ||
           (is_in(folder, "message") && !is_open_message(folder, "message", owner->before));
}

void settle(const struct owner *owner)
{
    const struct folder *folder = &owner->folder;
    struct bytes card = owner->before;
    struct standing now = standing_of_card(card);
    settle_checksum(folder, card);
    if (is_in(folder, "card.new"))
        take_away(folder, "card.new");
    if (is_in(folder, "change.new"))
        settle_prepared(owner, "change", is_last_change(path_in(folder->path, "change.new"), card));
    if (is_dropped_change(folder, card))
        let_go(owner, "change");
    if (is_in(folder, "message.new"))
        settle_prepared(owner, "message", is_open_message(folder, "message.new", card));
    if (is_in(folder, "message") && !is_open_message(folder, "message", card))
        let_go(owner, "message");
    settle_receipt(folder, card);
    settle_journal(folder, &now, owner->line);
}

void prepare_card(struct owner *owner)
{
    const struct piece piece = {owner->card.at, owner->card.length};
    struct standing after = standing_of_card(owner->card);
    owner->line = prepare_line(&owner->folder, &owner->entry, &after);
    prepare(&owner->folder, "card", 0600, &piece, 1);
    prepare_checksum(&owner->folder, owner->card, owner->before);
}

void place_card(struct owner *owner)
{
    decided("Look with 'legbaro show' at what stands; it puts the files beside the card in order.");
    place_checksum(&owner->folder);
    place(&owner->folder, "card");
    owner->before = owner->card;
    owner->newest = 1;
    settle(owner);
}

void store_card(struct owner *owner)
{
    prepare_card(owner);
    place_card(owner);
}

/* ---- Key and card ---- */

const char *key_path(const struct options *options)
{
    return options->key ? options->key : path_in(options->folder, "key");
}

struct bytes read_master(const struct options *options)
{
    const char *path = key_path(options);
    struct bytes key = map_whole(path, LEGBARO_MASTER_BYTES, "a key",
                                 "Put back the key that the file was set up with.");
    struct stat status;
    if (stat(path, &status) != 0)
        file_fault("read", path);
    if (status.st_mode & (S_IRWXG | S_IRWXO)) {
        about(path);
        refuse(
            TURNED_AWAY,
            text("If nobody has read it, run 'chmod 600 %s'. Else set up anew under another key.",
                 path),
            "others can read the key %s: its mode is %03o, and must be 600", path,
            (unsigned)status.st_mode & 0777);
    }
    return key;
}

/* Refuses a card with a number outside its limits. A call that only looks at the card says so ahead
 * of what it looks for. */
static void check_limits(const char *path, struct bytes card)
{
    struct bytes none = room(0), master = room(LEGBARO_MASTER_BYTES);
    uint64_t code =
        LEGBARO_CODE(legbaro_cause(LEGBARO_PLANNER, LENT(master), LENT(card), LENT(none)));
    if (code != LEGBARO_WRONG_HEADER && code != LEGBARO_OUT_OF_LIMITS)
        return;
    field("code", code);
    refuse(TURNED_AWAY, "Put back the newest card.", "%s: %s (code %" PRIu64 ")", path,
           code_words(code), code);
}

struct bytes read_card(const char *folder)
{
    const char *path = path_in(folder, "card");
    struct bytes card = map_file(path);
    about(path);
    if (card.length != LEGBARO_CARD_BYTES && card.length != LEGBARO_TWO_STEP_CARD_BYTES) {
        field("code", LEGBARO_WRONG_LENGTH);
        refuse(TURNED_AWAY, "Put back the newest card.",
               "%s has %zu bytes, and a card has %d or %d (code %d)", path, card.length,
               LEGBARO_CARD_BYTES, LEGBARO_TWO_STEP_CARD_BYTES, LEGBARO_WRONG_LENGTH);
    }
    uint64_t version = in_card(card, LEGBARO_CARD_VERSION, 1);
    if (version < LEGBARO_WITHOUT_MARKS || version > LEGBARO_TWO_STEPS ||
        (version == LEGBARO_TWO_STEPS) != (card.length == LEGBARO_TWO_STEP_CARD_BYTES)) {
        field("code", LEGBARO_WRONG_HEADER);
        refuse(TURNED_AWAY, "Put back the newest card.",
               "%s is no card: it has %zu bytes and version %" PRIu64 " (code %d)", path,
               card.length, version, LEGBARO_WRONG_HEADER);
    }
    check_limits(path, card);
    struct bytes copy = copy_of(card);
    unmap(card);
    return copy;
}

struct owner open_card(const char *path)
{
    struct owner owner = {.folder = lock_folder(path, 0), .entry = {.command = command_name()}};
    owner.card = read_card(path);
    owner.before = copy_of(owner.card);
    enum newest newest = is_newest(&owner.folder, owner.card);
    about(path_in(path, "card"));
    if (newest == NOT_NEWEST)
        refuse(
            TURNED_AWAY,
            "Put back the newest card. Another one would seal other tokens under counters that "
            "were used.",
            "%s is not the card that the last command left here: its checksum is not the one in %s",
            path_in(path, "card"), path_in(path, "card.sum"));
    owner.newest = newest == NEWEST;
    check_change(&owner.folder, owner.card);
    if (is_in(&owner.folder, "message"))
        token_in(path_in(path, "message"), owner.card);
    if (is_in(&owner.folder, "message.new"))
        token_in(path_in(path, "message.new"), owner.card);
    return owner;
}

struct owner open_owner(const struct options *options, int with_key)
{
    struct owner owner = open_card(options->folder);
    owner.entry.role = options->role;
    if (with_key)
        owner.master = read_master(options);
    return owner;
}
