/* One reply for several files of one key: pool, the host's, and judge-pool, the owner's. */
#include "change.h"
#include "codes.h"
#include "commands.h"
#include "output.h"
#include "owner.h"
#include "report.h"
#include "tell.h"

#include "legbaro.h"

#include <inttypes.h>
#include <string.h>

/* A pooled reply has a front, and for each file its id, the token and the record. */
enum { FRONT_BYTES = LEGBARO_POOLED_BYTES(0), FILE_BYTES = LEGBARO_POOLED_BYTES(1) - FRONT_BYTES };

/* Whether bytes are a pooled reply: its own length is its first field. */
static int is_pooled(struct bytes bytes)
{
    return bytes.length >= LEGBARO_POOLED_BYTES(LEGBARO_LEAST_POOLED) &&
           bytes.length <= LEGBARO_POOLED_BYTES(LEGBARO_MOST_POOLED) &&
           (bytes.length - FRONT_BYTES) % FILE_BYTES == 0 &&
           number_at(bytes.at, 2) == bytes.length - 2;
}

int run_pool(const struct options *o)
{
    size_t count = (size_t)o->count;
    struct bytes replies = room(count * LEGBARO_REPLY_BYTES),
                 pooled = room(LEGBARO_POOLED_BYTES(count));
    const struct piece piece = {pooled.at, pooled.length};
    for (size_t i = 0; i < count; i++) {
        struct bytes reply =
            small_whole(o->words[i], LEGBARO_REPLY_BYTES, "a reply", "Prove again.");
        memcpy(replies.at + i * LEGBARO_REPLY_BYTES, reply.at, reply.length);
    }
    struct output out = check_output(o, o->out, "pooled", is_pooled);
    uint64_t result = legbaro_pool(LENT(replies), LENT(pooled));
    if (result != LEGBARO_OK)
        turn_away(result, text("the %d replies", o->count));
    write_output(&out, &piece, 1);
    field("files", (uint64_t)o->count);
    field_text("file", out.path);
    say("%d replies are one of %zu bytes", o->count, pooled.length);
    if (out.standard < 0)
        say("next: send %s to the owner", out.path);
    return ended(DONE);
}

/* ---- Judging a pool ---- */

struct pool {
    int count;
    struct owner owners[LEGBARO_MOST_POOLED];
};

/* The cards in the order of the reply, as far as it names their files. */
static void order(struct pool *pool, struct bytes reply)
{
    for (int i = 0; i < pool->count; i++)
        for (int k = i; k < pool->count; k++)
            if (!memcmp(reply.at + FRONT_BYTES + i * FILE_BYTES,
                        pool->owners[k].card.at + LEGBARO_CARD_ID, LEGBARO_ID_BYTES)) {
                struct owner owner = pool->owners[i];
                pool->owners[i] = pool->owners[k];
                pool->owners[k] = owner;
                break;
            }
}

static struct pool open_pool(int count, char **paths)
{
    struct pool pool = {.count = count};
    for (int i = 0; i < count; i++) {
        for (int k = 0; k < i; k++)
            if (!strcmp(paths[i], paths[k]))
                refuse(TURNED_AWAY, code_next(LEGBARO_BAD_POOL), "%s is named twice (code %d)",
                       paths[i], LEGBARO_BAD_POOL);
        pool.owners[i] = open_card(paths[i]);
        if (!in_card(pool.owners[i].card, LEGBARO_CARD_OPEN, 4)) {
            about(path_in(paths[i], "card"));
            field("code", LEGBARO_NONE_OPEN);
            refuse(TURNED_AWAY,
                   "Draw for each file first. Where a command stopped while a pool was judged, "
                   "judge the open ones by their single replies.",
                   "%s: no token is drawn (code %d)", path_in(paths[i], "card"), LEGBARO_NONE_OPEN);
        }
    }
    return pool;
}

/* The cards end to end, and back. */
static struct bytes joined(const struct pool *pool)
{
    struct bytes cards = room((size_t)pool->count * LEGBARO_TWO_STEP_CARD_BYTES);
    cards.length = 0;
    for (int i = 0; i < pool->count; i++) {
        memcpy(cards.at + cards.length, pool->owners[i].card.at, pool->owners[i].card.length);
        cards.length += pool->owners[i].card.length;
    }
    return cards;
}

static void prepare_cards(struct pool *pool, struct bytes cards, struct entry entry)
{
    for (int i = 0; i < pool->count; i++) {
        struct bytes card = pool->owners[i].card;
        entry.token = in_card(card, LEGBARO_CARD_OPEN, 4);
        pool->owners[i].entry = entry;
        memcpy(card.at, cards.at, card.length);
        cards.at += card.length;
        settle(&pool->owners[i]);
        prepare_card(&pool->owners[i]);
    }
}

/* Where a single reply has its version, id with token, and record. */
enum { REPLY_VERSION = 2, REPLY_ID = 3, NAME_BYTES = 12, REPLY_RECORD = 47 };

/* The cause for one file of a pooled reply: that of a single reply with its name and record, whose
 * digest nobody can tell. */
static uint64_t cause_of(const struct options *o, struct bytes master, struct bytes card,
                         const uint8_t *part)
{
    uint8_t reply[LEGBARO_REPLY_BYTES] = {0};
    put_number(reply, 2, LEGBARO_REPLY_BYTES - 2);
    put_number(reply + REPLY_VERSION, 1, in_card(card, LEGBARO_CARD_VERSION, 1));
    memcpy(reply + REPLY_ID, part, NAME_BYTES);
    memcpy(reply + REPLY_RECORD, part + NAME_BYTES, LEGBARO_RECORD_BYTES);
    return LEGBARO_NUMBER(legbaro_cause(o->role, LENT(master), LENT(card), reply, sizeof reply));
}

/* As with a single reply: one that was mixed up or made from an older table closes no draw, unless
 * --close is given. */
static void refuse_unjudged(const struct options *o, struct bytes master, const struct pool *pool,
                            struct bytes reply)
{
    const char
        *path = o->words[0],
        *open =
            "The draws stay open; 'legbaro judge-pool --close' rejects the reply and closes them.";
    about(path);
    if (number_at(reply.at, 2) != reply.length - 2 || reply.at[2] != 1 ||
        number_at(reply.at + 3, 2) != (uint64_t)pool->count)
        refuse(TURNED_AWAY, text("Ask the host to send it again. %s", open),
               "%s is not judged: it is no pooled reply", input_words(path));
    for (int i = 0; i < pool->count; i++) {
        struct bytes card = pool->owners[i].card;
        uint64_t cause = cause_of(o, master, card, reply.at + FRONT_BYTES + i * FILE_BYTES);
        if (!cause || cause == LEGBARO_CAUSE_DIGEST)
            continue;
        field("cause", cause);
        field_text("id", id_words(card.at + LEGBARO_CARD_ID));
        refuse(TURNED_AWAY, text("%s %s", cause_next(cause), open),
               "%s is not judged: for file %s cause %" PRIu64 ", %s", input_words(path),
               id_words(card.at + LEGBARO_CARD_ID), cause, cause_words(cause));
    }
}

/* As with a single reply, the verdict is told before the cards close the draws. */
int run_judge_pool(const struct options *o)
{
    struct bytes none = room(0);
    refuse_without_right(legbaro_judge_pool(o->role, LENT(none), LENT(none), LENT(none)), o);
    struct bytes master = read_master(o);
    struct bytes reply = small_whole(
        o->words[0], LEGBARO_POOLED_BYTES((uint64_t)o->count - 1), "a reply for so many files",
        "Ask the host to send it again, and name each of its files. No draw is closed.");
    struct pool pool = open_pool(o->count - 1, o->words + 1);
    order(&pool, reply);
    if (!o->close)
        refuse_unjudged(o, master, &pool, reply);
    struct bytes cards = joined(&pool);
    uint64_t result = legbaro_judge_pool(o->role, LENT(master), LENT(cards), LENT(reply));
    enum status status = result == LEGBARO_OK ? DONE : REJECTED;
    if (result != LEGBARO_OK && LEGBARO_CODE(result) != LEGBARO_REJECTED)
        turn_away(result, "the cards");
    const struct entry entry = {.command = command_name(),
                                .verdict = verdict_word(status),
                                .role = o->role,
                                .cause = status == DONE ? 0 : LEGBARO_CAUSE_DIGEST,
                                .pool = (uint64_t)pool.count};
    prepare_cards(&pool, cards, entry);
    field("files", (uint64_t)pool.count);
    field_text("verdict", verdict_word(status));
    if (status == DONE)
        say("ACCEPTED: the reply fits the tokens drawn for %d files, taken together", pool.count);
    else
        say("REJECTED: the reply does not fit the tokens drawn for %d files\nnext: draw for each "
            "file, and judge single replies to learn "
            "which it is",
            pool.count);
    ended(status);
    for (int i = 0; i < pool.count; i++)
        place_card(&pool.owners[i]);
    return (int)status;
}
