/* The changes, in one step or asked: append, load, update, delete, batch; commit and drop. */
#include "batch.h"
#include "change.h"
#include "commands.h"
#include "fetched.h"
#include "owner.h"
#include "progress.h"
#include "receipt.h"
#include "report.h"
#include "tell.h"

#include "legbaro.h"

#include <inttypes.h>
#include <string.h>

enum kind { APPEND, LOAD, UPDATE, DELETE, BATCH };

/* What a change is made of. The table is the host's, and the second one is written by an ask. */
struct making {
    enum kind kind;
    const struct options *o;
    struct owner owner;
    struct bytes table, second, totals;
    uint64_t block;                 /* of an update or a deletion */
    struct bytes old, mark, blocks; /* the block as it is with its mark, and what comes */
    struct bytes items;             /* of a batch */
    struct change change;           /* what goes to the host */
};

#define FILE_LENT(m) (m)->o->role, LENT((m)->owner.master), LENT((m)->owner.card), LENT((m)->table)

static uint64_t in_one_step(struct making *m)
{
    switch (m->kind) {
    case APPEND:
        return legbaro_append(FILE_LENT(m), LENT(m->blocks), LENT(m->totals));
    case LOAD:
        return legbaro_load(FILE_LENT(m), LENT(m->blocks), LENT(m->totals));
    case UPDATE:
        return legbaro_update(FILE_LENT(m), m->block, LENT(m->old), LENT(m->mark), LENT(m->blocks),
                              LENT(m->totals));
    case DELETE:
        return legbaro_delete(FILE_LENT(m), m->block, LENT(m->old), LENT(m->mark), LENT(m->totals));
    default:
        return legbaro_batch(FILE_LENT(m), LENT(m->items), LENT(m->totals));
    }
}

static uint64_t asked(struct making *m)
{
    switch (m->kind) {
    case APPEND:
        return legbaro_ask_append(FILE_LENT(m), LENT(m->second), LENT(m->blocks), LENT(m->totals));
    case LOAD:
        return legbaro_ask_load(FILE_LENT(m), LENT(m->second), LENT(m->blocks), LENT(m->totals));
    case UPDATE:
        return legbaro_ask_update(FILE_LENT(m), LENT(m->second), m->block, LENT(m->old),
                                  LENT(m->mark), LENT(m->blocks), LENT(m->totals));
    case DELETE:
        return legbaro_ask_delete(FILE_LENT(m), LENT(m->second), m->block, LENT(m->old),
                                  LENT(m->mark), LENT(m->totals));
    default:
        return legbaro_ask_batch(FILE_LENT(m), LENT(m->second), LENT(m->items), LENT(m->totals));
    }
}

static uint64_t call(void *lent)
{
    struct making *m = lent;
    return m->o->asked ? asked(m) : in_one_step(m);
}

/* ---- What a change is lent ---- */

/* Who has no right to a change is told so whatever the files are: the call says it first, here with
 * empty buffers. */
static struct making with_right(const struct options *o, enum kind kind)
{
    struct bytes none = room(0);
    struct making m = {
        kind, o, {.master = none, .card = none}, none, none, none, 0, none, none, none, none, {0}};
    refuse_without_right(call(&m), o);
    return m;
}

static struct making begin(const struct options *o, enum kind kind)
{
    struct making m = with_right(o, kind);
    needs_text(o->host, "--host, the folder with the host's table,");
    m.owner = open_owner(o, 1);
    m.change = change_from(m.owner.card);
    if (o->asked && m.change.version != LEGBARO_TWO_STEPS) {
        field("code", LEGBARO_WRONG_HEADER);
        refuse(TURNED_AWAY, "Make the change in one step: the same command without 'ask'.",
               "%s is of version %" PRIu64 ", which knows no asks (code %d)",
               path_in(o->folder, "card"), m.change.version, LEGBARO_WRONG_HEADER);
    }
    check_fetched(o->host, &m.owner);
    m.table = fetch_table(o->host, &m.change);
    m.second = o->asked ? shared_room(m.table.length) : m.table;
    m.totals = shared_room(LEGBARO_TOTALS_BYTES);
    m.change.table = m.second;
    m.change.blocks_after = m.change.blocks_before;
    m.change.count = 1;
    m.change.asked = (uint64_t)o->asked;
    return m;
}

/* The old block and its mark: of --old and --mark, or out of the host's files. */
static void take_old(struct making *m)
{
    m->old = room(m->change.block_bytes);
    m->mark = room(m->change.version == LEGBARO_WITHOUT_MARKS ? 0 : 1);
    if (!m->o->old) {
        uint8_t mark = 0;
        fetch_block(m->o->host, &m->change, m->block, m->old.at, &mark);
        if (m->mark.length)
            *m->mark.at = mark;
        return;
    }
    m->old = small_whole(m->o->old, m->change.block_bytes, "a block of this file",
                         "Fetch it from the host again.");
    if (m->mark.length) {
        needs_number(m->o->mark, "--mark, live or deleted, beside --old");
        *m->mark.at = m->o->mark > LEGBARO_DELETED ? 255 : (uint8_t)m->o->mark;
    }
}

static struct making begin_with_block(const struct options *o, enum kind kind)
{
    uint64_t block;
    if (!read_number(o->words[0], &block))
        refuse(WRONG_USE, "Blocks are numbered from 1.", "'%s' is not the number of a block",
               o->words[0]);
    struct making m = begin(o, kind);
    m.block = block;
    take_old(&m);
    m.change.items = room(CHANGE_ITEM_BYTES);
    put_number(m.change.items.at, 4, block);
    return m;
}

/* ---- What becomes of it ---- */

static const char *const names[] = {"append", "load", "update", "deletion", "batch"};

static void tell(const struct making *m)
{
    field("counter", m->change.counter);
    field("blocks", m->change.blocks_after);
    field_text("file", path_in(m->o->folder, "change"));
    field("pending", (uint64_t)m->o->asked);
    say("%s %s: counter %" PRIu64 ", %" PRIu64 " blocks", names[m->kind],
        m->o->asked ? "asked" : "made", m->change.counter, m->change.blocks_after);
    tell_totals(m->totals);
    if (m->o->asked)
        say("next: send %s to the host, who runs 'legbaro apply --check change'; then 'legbaro "
            "commit', or 'legbaro drop'",
            path_in(m->o->folder, "change"));
    else
        say("next: send %s to the host, who runs 'legbaro apply change'",
            path_in(m->o->folder, "change"));
}

/* What a refusal is about. */
static const char *subject(const struct making *m, uint64_t code)
{
    switch (code) {
    case LEGBARO_BAD_RECORD:
        return path_in(m->o->host, "table");
    case LEGBARO_NO_SUCH_BLOCK:
        return m->kind == BATCH ? m->o->words[0] : text("block %" PRIu64, m->block);
    case LEGBARO_NOT_WHOLE_BLOCKS:
    case LEGBARO_BAD_BATCH:
        return m->o->words[0];
    case LEGBARO_BAD_MARK:
        return m->o->old ? "--mark" : path_in(m->o->host, "marks");
    default:
        return path_in(m->o->folder, "card");
    }
}

static int finish(struct making *m)
{
    uint64_t next = in_card(m->owner.card, LEGBARO_CARD_NEXT, 4);
    struct watch watch = {(int)m->o->progress, m->second, next, last_issued(m->owner.card) + 1};
    uint64_t result = with_progress(call, m, &watch);
    if (LEGBARO_CODE(result) == LEGBARO_BAD_RECORD)
        refuse_older_record(m->o->host, &m->owner,
                            m->table.at + (LEGBARO_TOKEN(result) - 1) * LEGBARO_RECORD_BYTES);
    if (result != LEGBARO_OK)
        turn_away(result, subject(m, LEGBARO_CODE(result)));
    m->change.counter = last_issued(m->owner.card);
    m->change.blocks = m->blocks;
    settle(&m->owner);
    m->owner.entry.totals = m->totals.at;
    prepare(&m->owner.folder, "change", 0600, change_pieces(&m->change), CHANGE_PIECES);
    store_card(&m->owner);
    tell(m);
    return ended(DONE);
}

int run_append(const struct options *o)
{
    struct making m = begin(o, APPEND);
    m.blocks = small_whole(o->words[0], m.change.block_bytes, "a block of this file",
                           "Give a file of one block; 'legbaro load' takes several.");
    m.change.blocks_after++;
    return finish(&m);
}

int run_load(const struct options *o)
{
    struct making m = begin(o, LOAD);
    m.blocks = map_file(o->words[0]);
    m.change.count = m.change.block_bytes ? m.blocks.length / m.change.block_bytes : 0;
    m.change.blocks_after += m.change.count;
    return finish(&m);
}

int run_update(const struct options *o)
{
    struct making m = begin_with_block(o, UPDATE);
    m.blocks = small_whole(o->words[1], m.change.block_bytes, "a block of this file",
                           "Give a file of one block.");
    m.change.items.at[4] = LEGBARO_LIVE;
    return finish(&m);
}

int run_delete(const struct options *o)
{
    struct making m = begin_with_block(o, DELETE);
    m.blocks = room(m.change.block_bytes);
    m.change.items.at[4] = LEGBARO_DELETED;
    return finish(&m);
}

int run_batch(const struct options *o)
{
    struct making m = begin(o, BATCH);
    uint64_t bytes = m.change.block_bytes, version = m.change.version;
    struct batch batch = read_batch(o->words[0], version, bytes);
    for (uint64_t i = 0; i < batch.count; i++) {
        uint8_t *item = batch.items.at + i * LEGBARO_ITEM_BYTES(version, bytes), none;
        fetch_block(o->host, &m.change, number_at(item + LEGBARO_ITEM_BLOCK, 4),
                    item + LEGBARO_ITEM_OLD,
                    version == LEGBARO_WITHOUT_MARKS ? &none : item + LEGBARO_ITEM_MARK(bytes));
    }
    m.items = batch.items;
    m.blocks = batch.blocks;
    m.change.items = batch.places;
    m.change.count = batch.count;
    return finish(&m);
}

/* ---- Commit and drop ---- */

typedef uint64_t ending(uint64_t role, uint8_t *card, size_t length);

/* Ends what is pending by a call on the card. A commit leaves a receipt; a drop leaves none. */
static int end_pending(const struct options *o, ending *end, const char *done, const char *next)
{
    struct bytes none = room(0);
    refuse_without_right(end(o->role, LENT(none)), o);
    struct owner owner = open_owner(o, 0);
    struct bytes card = copy_of(owner.card);
    uint64_t was = pending(card), result = end(o->role, LENT(owner.card));
    int commits = end == legbaro_commit, known = 1;
    if (result != LEGBARO_OK)
        turn_away(result, path_in(o->folder, "card"));
    settle(&owner);
    if (commits)
        known = prepare_receipt(&owner.folder, card, was);
    store_card(&owner);
    field("counter", in_card(owner.card, LEGBARO_CARD_COUNTER, 8));
    field("blocks", in_card(owner.card, LEGBARO_CARD_BLOCKS, 4));
    if (commits)
        field("checksum_known", (uint64_t)known);
    say("the change at counter %" PRIu64 " %s: %" PRIu64 " blocks at counter %" PRIu64, was, done,
        in_card(owner.card, LEGBARO_CARD_BLOCKS, 4), in_card(owner.card, LEGBARO_CARD_COUNTER, 8));
    if (!known)
        say("warning: %s is not there or is damaged. Unless the host has it whole, this file can't "
            "be "
            "changed or audited any more",
            path_in(o->folder, "change"));
    if (known)
        say("next: %s", next);
    else
        say("next: send %s to the host; if the host has the change, it runs 'legbaro apply "
            "--committed "
            "committed change'",
            path_in(o->folder, "committed"));
    return ended(DONE);
}

/* Writes a lost receipt again: that of the change that stands, where its file says that it was
 * asked. */
static int commit_again(const struct options *o, const char *next)
{
    struct bytes none = room(0);
    refuse_without_right(legbaro_commit(o->role, LENT(none)), o);
    struct owner owner = open_owner(o, 0);
    const char *path = path_in(o->folder, "change");
    uint64_t counter = in_card(owner.card, LEGBARO_CARD_COUNTER, 8);
    struct change change;
    if (pending(owner.card))
        turn_away(LEGBARO_CHANGE_PENDING, path_in(o->folder, "card"));
    about(path);
    if (!is_in(&owner.folder, "change") || !peek_change(path, &change) ||
        change.counter != counter || !change.asked)
        refuse(
            TURNED_AWAY,
            "A receipt is made of the change that was committed last. Put that change back first.",
            "%s is not there, or was not asked and committed", path);
    settle(&owner);
    prepare_receipt(&owner.folder, owner.card, counter);
    place(&owner.folder, "committed");
    field("counter", counter);
    say("the receipt of the change at counter %" PRIu64 " is written again", counter);
    say("next: %s", next);
    return ended(DONE);
}

int run_commit(const struct options *o)
{
    const char *next =
        text("send %s and %s to the host, who runs 'legbaro apply --committed committed change'",
             path_in(o->folder, "change"), path_in(o->folder, "committed"));
    return o->again ? commit_again(o, next) : end_pending(o, legbaro_commit, "stands", next);
}

int run_drop(const struct options *o)
{
    return end_pending(o, legbaro_drop, "is dropped", "tell the host to throw its 'change' away");
}
