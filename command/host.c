/* See host.h. */
#define _GNU_SOURCE
#include "host.h"
#include "journal.h"
#include "progress.h"
#include "report.h"

#include "legbaro.h"

#include <errno.h>
#include <fcntl.h>
#include <inttypes.h>
#include <string.h>
#include <unistd.h>

static int has_marks(const struct change *change)
{
    return change->version != LEGBARO_WITHOUT_MARKS;
}

/* The marks of a change's blocks. */
static struct bytes marks_of(const struct change *c)
{
    struct bytes marks = room(has_marks(c) ? c->count : 0);
    for (uint64_t i = 0; i < marks.length && !change_adds(c); i++)
        marks.at[i] = c->items.at[i * CHANGE_ITEM_BYTES + 4];
    return marks;
}

/* Ends the program where a step on a file failed. */
static void must(int done, const struct host *host, const char *name)
{
    if (!done)
        file_fault("write", path_in(host->folder.path, name));
}

static int open_in(const struct host *host, const char *name)
{
    int file = openat(host->folder.at, name, O_WRONLY | O_CLOEXEC);
    must(file >= 0, host, name);
    return file;
}

/* Writes the line of the journal for a change that is about to stand. Returns the line. */
static const char *prepare_apply(const struct host *host, const struct change *change)
{
    const struct entry entry = {.command = "apply"};
    struct standing after = standing_of_host(change);
    return prepare_line(&host->folder, &entry, &after);
}

/* A change stands, and has its line in the journal. */
static void now_stands(struct host *host, const struct change *change, const char *line)
{
    struct standing now = standing_of_host(change);
    host->begun = 1;
    host->stands = *change;
    settle_journal(&host->folder, &now, line);
}

/* ---- Comparing ---- */

static int same_numbers(const struct change *a, const struct change *b)
{
    return !memcmp(a->id, b->id, LEGBARO_ID_BYTES) && a->version == b->version &&
           a->block_bytes == b->block_bytes && a->tokens == b->tokens;
}

int follows(const struct host *host, const struct change *c)
{
    const struct change *s = &host->stands;
    return host->begun && same_numbers(s, c) && c->counter_before == s->counter &&
           c->blocks_before == s->blocks_after;
}

int has_its_numbers(const struct host *host, const struct change *c)
{
    const struct change *s = &host->stands;
    return host->begun && same_numbers(s, c) && c->counter == s->counter &&
           c->blocks_after == s->blocks_after && c->blocks_before == s->blocks_before &&
           c->count == s->count;
}

static int same_bytes(struct bytes a, struct bytes b)
{
    return a.length == b.length && !memcmp(a.at, b.at, a.length);
}

/* Whether a file has the bytes of each block of a change, so many for each, where they belong. */
static int has_each(const struct host *host, const char *name, const struct change *c,
                    struct bytes bytes, uint64_t width)
{
    struct bytes file = map_file(path_in(host->folder.path, name));
    if (file.length != c->blocks_after * width)
        return 0;
    if (change_adds(c))
        return !memcmp(file.at + c->blocks_before * width, bytes.at, bytes.length);
    for (uint64_t i = 0; i < c->count; i++) {
        uint64_t block = number_at(c->items.at + i * CHANGE_ITEM_BYTES, 4);
        if (memcmp(file.at + (block - 1) * width, bytes.at + i * width, width))
            return 0;
    }
    return 1;
}

int is_being_put(const struct host *host, const struct change *c)
{
    return host->half && same_bytes(host->applying.table, c->table);
}

const char *differs(const struct host *host, const struct change *c)
{
    if (host->half || !same_bytes(map_file(path_in(host->folder.path, "table")), c->table))
        return "table";
    if (!has_each(host, "blocks", c, c->blocks, c->block_bytes))
        return "blocks";
    return has_marks(c) && !has_each(host, "marks", c, marks_of(c), 1) ? "marks" : NULL;
}

/* ---- The first change ---- */

/* What was here before is the change's own, left by a command that stopped, or someone else's.
 * Returns whether it was here. */
static int refuse_others(const struct host *host, const char *name, struct bytes bytes)
{
    const char *path = path_in(host->folder.path, name);
    refuse_link(&host->folder, name);
    if (!is_in(&host->folder, name))
        return 0;
    if (!same_bytes(map_file(path), bytes)) {
        about(path);
        refuse(TURNED_AWAY, "Take an empty folder for a new file. Nothing has changed.",
               "%s has other %s than the change, and was not put there by it", path,
               strcmp(name, "table") ? name : "records");
    }
    return 1;
}

void begin_file(struct host *host, const struct change *c)
{
    static const char *const names[] = {"blocks", "marks", "table"};
    const struct bytes files[] = {c->blocks, marks_of(c), c->table};
    int there[] = {0, !has_marks(c), 0};
    for (int i = 0; i < 3; i++)
        there[i] |= (i != 1 || has_marks(c)) && refuse_others(host, names[i], files[i]);
    for (int i = 0; i < 3; i++) {
        const struct piece piece = {files[i].at, files[i].length};
        if (!there[i])
            prepare(&host->folder, names[i], 0666, &piece, 1);
    }
    const char *line = prepare_apply(host, c);
    prepare(&host->folder, "stands", 0666, header_piece(c), 1);
    decided("The change may be half in place. Mend what is wrong, and run the same command again: "
            "it goes on from there.");
    for (int i = 0; i < 3; i++)
        if (!there[i])
            place(&host->folder, names[i]);
    place(&host->folder, "stands");
    now_stands(host, c, line);
}

/* ---- Blocks that are added ---- */

/* Cuts a file back to what stands, where it is longer. Returns whether it could. */
static int cut_back(const struct host *host, const char *name, uint64_t width)
{
    struct stat status;
    uint64_t length = host->stands.blocks_after * width;
    if (fstatat(host->folder.at, name, &status, 0) != 0)
        return 0;
    if ((uint64_t)status.st_size <= length)
        return 1;
    int file = open_in(host, name);
    return resize_file(file, length) && sync_file(file) && close(file) == 0;
}

/* Where a command stopped while it added blocks, what stands is whole, and says how long `blocks`
 * is.
 * A damaged `adding` is undone in the same way: else the blocks after the last would stay for
 * good. */
static void undo_adding(const struct host *host)
{
    if (!is_in(&host->folder, "adding"))
        return;
    must(cut_back(host, "blocks", host->stands.block_bytes), host, "blocks");
    take_away(&host->folder, "adding");
}

/* Writes blocks after the last; a fault leaves what stands. */
static void add_blocks(const struct host *host, const struct change *c)
{
    int file = open_in(host, "blocks");
    store(&host->folder, "adding", 0666, header_piece(c), 1);
    progress_of("written", c->blocks.length);
    int whole = write_at(file, c->blocks_before * c->block_bytes, LENT(c->blocks)) &&
                sync_file(file) && close(file) == 0;
    int fault = errno;
    progress_over();
    if (whole)
        return;
    if (resize_file(file, c->blocks_before * c->block_bytes) && sync_file(file))
        unlinkat(host->folder.at, "adding", 0);
    errno = fault;
    must(0, host, "blocks");
}

/* ---- Further changes ---- */

/* Writes bytes of each block of a change into a file that has so many for each: the blocks
 * themselves, or their marks. */
static void write_each(const struct host *host, const char *name, const struct change *c,
                       struct bytes bytes, uint64_t width)
{
    int file = open_in(host, name), done = 1;
    if (change_adds(c))
        done = write_at(file, c->blocks_before * width, LENT(bytes));
    for (uint64_t i = 0; !change_adds(c) && i < c->count && done; i++) {
        uint64_t block = number_at(c->items.at + i * CHANGE_ITEM_BYTES, 4);
        done = write_at(file, (block - 1) * width, bytes.at + i * width, width);
    }
    done =
        done && resize_file(file, c->blocks_after * width) && sync_file(file) && close(file) == 0;
    must(done, host, name);
}

/* Completes what `applying` holds. Can be done again from its beginning, wherever it stopped. */
static void put_applying(struct host *host, const struct change *c)
{
    const struct piece table = {c->table.at, c->table.length};
    if (c->blocks.length)
        write_each(host, "blocks", c, c->blocks, c->block_bytes);
    if (has_marks(c))
        write_each(host, "marks", c, marks_of(c), 1);
    store(&host->folder, "table", 0666, &table, 1);
    const char *line = prepare_apply(host, c);
    store(&host->folder, "stands", 0666, header_piece(c), 1);
    now_stands(host, c, line);
    take_away(&host->folder, "applying");
    if (is_in(&host->folder, "adding"))
        take_away(&host->folder, "adding");
}

void set_aside_damaged(struct host *host)
{
    move_aside(&host->folder, "applying");
    host->damaged = 0;
}

void put_in_place(struct host *host, const struct change *change)
{
    struct change rest = *change;
    decided("What stands has not changed. Mend what is wrong, and run the command again.");
    if (host->damaged) {
        must(cut_back(host, "blocks", change->block_bytes), host, "blocks");
        if (has_marks(change))
            must(cut_back(host, "marks", 1), host, "marks");
        set_aside_damaged(host);
    }
    if (change_adds(change)) {
        add_blocks(host, change);
        rest.blocks = room(0);
    }
    prepare(&host->folder, "applying", 0666, change_pieces(&rest), CHANGE_PIECES);
    decided(
        "The change is kept as 'applying'. Mend what is wrong, and run 'legbaro apply' again: it "
        "goes on from there.");
    place(&host->folder, "applying");
    put_applying(host, &rest);
}

/* ---- Opening ---- */

/* Whether `applying` is whole, and is what follows what stands or stands already. Blocks that it
 * leaves out are in `blocks`. */
static int can_go_on(const struct host *host, struct change *c)
{
    struct stat status;
    if (!read_applying(path_in(host->folder.path, "applying"), c) ||
        !(follows(host, c) || has_its_numbers(host, c)))
        return 0;
    return c->blocks.length || (fstatat(host->folder.at, "blocks", &status, 0) == 0 &&
                                (uint64_t)status.st_size == c->blocks_after * c->block_bytes);
}

/* Looks at `applying`: what it is to make is what stands, for every check. */
static void look_at_applying(struct host *host, int mends)
{
    struct change c;
    host->damaged = !can_go_on(host, &c);
    host->half = !host->damaged;
    if (host->damaged && (!mends || !host->begun))
        refuse_damaged(host);
    if (host->half)
        host->stands = host->applying = c;
}

void complete(struct host *host)
{
    if (host->half) {
        decided(
            "A change is half in place, and kept as 'applying'. Mend what is wrong, and run the "
            "command again: it goes on from there.");
        put_applying(host, &host->applying);
        decided(NULL);
        host->half = 0;
    } else if (host->begun && !host->damaged) {
        undo_adding(host);
    }
    if (host->begun && is_journal_unsettled(&host->folder)) {
        struct standing now = standing_of_host(&host->stands);
        settle_journal(&host->folder, &now, NULL);
    }
}

struct host open_host(const char *path, int make, int mends)
{
    static const char *const from_copy = "Put it back from a copy. Nothing has changed.";
    struct host host = {.folder = lock_folder(path, make)};
    const char *stands = path_in(path, "stands");
    if (is_in(&host.folder, "stands")) {
        struct bytes header =
            map_whole(stands, CHANGE_HEADER_BYTES, "the header of a change", from_copy);
        about(stands);
        if (!is_header(header))
            refuse(TURNED_AWAY, from_copy, "%s is damaged: it is no header of a change", stands);
        host.begun = 1;
        host.stands = change_of_header(header.at);
    }
    if (is_in(&host.folder, "applying"))
        look_at_applying(&host, mends);
    return host;
}

void refuse_damaged(const struct host *host)
{
    const char *path = path_in(host->folder.path, "applying");
    about(path);
    if (!host->begun)
        refuse(TURNED_AWAY, "Put 'stands' back from a copy. Nothing has changed.",
               "%s, a change that is half in place, is there, and 'stands' is missing", path);
    refuse(TURNED_AWAY,
           "Ask the owner for the change that follows what stands, and run 'legbaro apply' with "
           "it: the damaged one is moved aside then. Nothing has changed.",
           "%s, a change that is half in place, is damaged or does not follow what stands", path);
}

void refuse_other_file(const struct host *host, const uint8_t *id, const char *path)
{
    about(path);
    if (host->begun && memcmp(host->stands.id, id, LEGBARO_ID_BYTES))
        refuse(TURNED_AWAY, "Take the folder of that file, with -C.",
               "%s is for file %s, and this folder holds file %s", input_words(path), id_words(id),
               id_words(host->stands.id));
}
