/* The commands key and set-up. */
#define _GNU_SOURCE
#include "change.h"
#include "checksum.h"
#include "commands.h"
#include "ids.h"
#include "owner.h"
#include "progress.h"
#include "report.h"
#include "tell.h"

#include "legbaro.h"

#include <errno.h>
#include <inttypes.h>
#include <string.h>
#include <sys/random.h>

int run_key(const struct options *o)
{
    struct folder folder = lock_folder(o->folder, 1);
    const char *path = path_in(o->folder, "key");
    struct bytes key = room(LEGBARO_MASTER_BYTES);
    const struct piece piece = {key.at, key.length};
    about(path);
    if (!is_in(&folder, "key") && is_in(&folder, "key.ids"))
        refuse(TURNED_AWAY, "Put that key back, or take another folder.",
               "%s.ids lists files of a key that is gone", path);
    if (is_in(&folder, "key"))
        refuse(
            TURNED_AWAY,
            "A key is never replaced: the files that it seals would be lost. Take another folder.",
            "there is a key in %s", path);
    for (size_t done = 0; done < key.length;) {
        ssize_t got = getrandom(key.at + done, key.length - done, 0);
        if (got < 0 && errno != EINTR)
            file_fault("find random bytes for", path);
        done += got > 0 ? (size_t)got : 0;
    }
    store(&folder, "key", 0600, &piece, 1);
    field_text("file", path);
    say("%s: a new key of %d random bytes", path, LEGBARO_MASTER_BYTES);
    say("next: keep a copy of it where nobody else can read it, then 'legbaro set-up'");
    return ended(DONE);
}

/* ---- Set-up ---- */

struct set_up {
    const struct options *o;
    uint8_t id[LEGBARO_ID_BYTES];
    struct bytes master, blocks, card, table, totals;
    uint64_t count;
};

static uint64_t call(void *lent)
{
    struct set_up *s = lent;
    return legbaro_set_up(LENT(s->master), s->id, sizeof s->id, s->o->version, s->o->block_bytes,
                          s->o->rows, s->o->positions, s->o->tokens, s->count, LENT(s->blocks),
                          LENT(s->card), LENT(s->table), LENT(s->totals));
}

static void read_told(struct set_up *s, const struct options *o)
{
    needs_text(o->id, "--id");
    needs_number(o->block_bytes, "--block-bytes");
    needs_number(o->rows, "--rows");
    needs_number(o->positions, "--positions");
    needs_number(o->tokens, "--tokens");
    if (strlen(o->id) > LEGBARO_ID_BYTES)
        refuse(WRONG_USE, "Choose an id of 1 to 8 bytes; a letter outside ASCII has 2 to 4.",
               "--id: '%s' has %zu bytes", o->id, strlen(o->id));
    memcpy(s->id, o->id, strlen(o->id));
}

/* The blocks are whole ones; how many there are is told by the file's size. */
static void count_blocks(struct set_up *s, const char *path)
{
    s->blocks = map_file(path);
    s->count = s->o->block_bytes ? s->blocks.length / s->o->block_bytes : 0;
    about(path);
    if (s->o->block_bytes && (!s->count || s->blocks.length % s->o->block_bytes)) {
        field("code", LEGBARO_NOT_WHOLE_BLOCKS);
        refuse(TURNED_AWAY, "Look whether it is cut, and whether --block-bytes is right.",
               "%s has %zu bytes, which are no whole blocks of %" PRIu64 " bytes (code %d)", path,
               s->blocks.length, s->o->block_bytes, LEGBARO_NOT_WHOLE_BLOCKS);
    }
}

/* An id is set up once under a key, but where its set-up was stopped before the card took its
 * place. */
static void refuse_second(const struct folder *folder, const struct set_up *s)
{
    const char *key = key_path(s->o);
    about(key);
    if (id_is_listed(key, s->id) && !set_up_stopped(folder))
        refuse(TURNED_AWAY,
               "Take another id. A second set-up would seal other tokens under nonces that were "
               "used, and who sees both tables can read "
               "tokens.",
               "file %s was set up under the key %s before, by %s.ids", id_words(s->id), key, key);
}

/* Change and card are stored together, as owner.h says, and the id is listed before the card takes
 * its place. */
static void store_all(const struct folder *folder, const struct set_up *s)
{
    struct owner owner = {.folder = *folder, .card = s->card, .before = room(0), .newest = 1};
    owner.entry = (struct entry){.command = command_name(), .totals = s->totals.at};
    struct change change = change_from(s->card);
    change.blocks_before = 0;
    change.blocks_after = change.count = s->count;
    change.blocks = s->blocks;
    change.table = s->table;
    lock_ids(key_path(s->o));
    refuse_second(folder, s);
    prepare(folder, "change", 0600, change_pieces(&change), CHANGE_PIECES);
    prepare_card(&owner);
    decided("No file is set up: mend what is wrong, and run the command again.");
    place_checksum(folder);
    list_id(key_path(s->o), s->id);
    place_card(&owner);
}

int run_set_up(const struct options *o)
{
    struct set_up s = {.o = o};
    read_told(&s, o);
    struct folder folder = lock_folder(o->folder, 0);
    if (is_in(&folder, "card") || is_in(&folder, "change"))
        refuse(TURNED_AWAY,
               "Its 'change' goes to the host. A key and an id are set up once only: for another "
               "file take another folder and id.",
               "a file is set up in %s", o->folder);
    s.master = read_master(o);
    refuse_second(&folder, &s);
    count_blocks(&s, o->words[0]);
    s.card = shared_room(o->version == LEGBARO_TWO_STEPS ? LEGBARO_TWO_STEP_CARD_BYTES
                                                         : LEGBARO_CARD_BYTES);
    s.table =
        shared_room((o->tokens <= LEGBARO_MOST_TOKENS ? o->tokens : 0) * LEGBARO_RECORD_BYTES);
    s.totals = shared_room(LEGBARO_TOTALS_BYTES);
    struct watch watch = {(int)o->progress, s.table, 1, 0};
    uint64_t result = with_progress(call, &s, &watch);
    if (LEGBARO_CODE(result) == LEGBARO_OUT_OF_LIMITS)
        refuse_limits(o, s.count);
    if (result != LEGBARO_OK)
        turn_away(result, o->words[0]);
    store_all(&folder, &s);
    field_text("id", id_words(s.id));
    field("blocks", s.count);
    field_text("file", path_in(o->folder, "change"));
    say("%s is set up: %" PRIu64 " block%s of %" PRIu64 " bytes in %" PRIu64 " rows, %" PRIu64
        " tokens of %" PRIu64 " positions, version %" PRIu64,
        id_words(s.id), s.count, s.count == 1 ? "" : "s", o->block_bytes, o->rows, o->tokens,
        o->positions, o->version);
    tell_audit(s.card);
    tell_totals(s.totals);
    say("next: send %s to the host, who runs 'legbaro apply change'", path_in(o->folder, "change"));
    return ended(DONE);
}
