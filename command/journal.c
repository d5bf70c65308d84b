/* See journal.h. */
#define _GNU_SOURCE
#include "journal.h"
#include "clock.h"
#include "json.h"
#include "lines.h"
#include "owner.h"
#include "report.h"

#include "legbaro.h"

#include <errno.h>
#include <fcntl.h>
#include <inttypes.h>
#include <string.h>
#include <unistd.h>
#include <zlib.h>

static const char name[] = "journal", beside[] = "journal.new";

/* ---- What stands ---- */

struct standing standing_of_card(struct bytes card)
{
    uint64_t tokens = in_card(card, LEGBARO_CARD_TOKENS, 4),
             next = in_card(card, LEGBARO_CARD_NEXT, 4);
    struct standing now = {
        .kind = "card",
        .checksum = (uint32_t)crc32_z(0, card.at, card.length),
        .id = card.at + LEGBARO_CARD_ID,
        .counter = in_card(card, LEGBARO_CARD_COUNTER, 8),
        .blocks = in_card(card, LEGBARO_CARD_BLOCKS, 4),
        .left = tokens + 1 > next ? tokens + 1 - next : 0,
        .open = in_card(card, LEGBARO_CARD_OPEN, 4),
        .pending = pending(card),
    };
    return now;
}

struct standing standing_of_host(const struct change *stands)
{
    const struct piece *header = header_piece(stands);
    struct standing now = {
        .kind = "stands",
        .checksum = (uint32_t)crc32_z(0, header->at, header->length),
        .id = stands->id,
        .counter = stands->counter,
        .blocks = stands->blocks_after,
    };
    return now;
}

static int is_owners(const struct standing *now)
{
    return !strcmp(now->kind, "card");
}

/* ---- A line ---- */

static const char *number(const char *field, uint64_t value)
{
    return text(", \"%s\": %" PRIu64, field, value);
}

static const char *words(const char *field, const char *value)
{
    return text(", \"%s\": %s", field, json_text(value));
}

static const char *totals_of(const struct entry *entry)
{
    if (!entry->totals)
        return "";
    return text("%s%s", number("turns", number_at(entry->totals + LEGBARO_TOTALS_TURNS, 8)),
                number("hashes", number_at(entry->totals + LEGBARO_TOTALS_HASHES, 8)));
}

/* What the owner's card has beside what both parties know. */
static const char *owners(const struct standing *now)
{
    if (!is_owners(now))
        return "";
    return text("%s%s%s", number("left", now->left), number("open", now->open),
                number("pending", now->pending));
}

static const char *line_of(const struct entry *entry, const struct standing *now)
{
    static const char *const roles[] = {"", "surveyor", "planner", "manager"};
    const char *role = entry->role && entry->role <= LEGBARO_MANAGER && is_owners(now)
                           ? words("role", roles[entry->role])
                           : "";
    const char *audit = text("%s%s%s%s", entry->token ? number("token", entry->token) : "",
                             entry->verdict ? words("verdict", entry->verdict) : "",
                             entry->verdict ? number("cause", entry->cause) : "",
                             entry->pool ? number("pool", entry->pool) : "");
    return text("{\"time\": \"%s\"%s%s%s%s%s%s%s%s%s, \"%s\": \"%08" PRIx32 "\"}\n",
                utc_words(clock_now()), words("command", entry->command), role,
                words("id", id_words(now->id)), number("counter", now->counter),
                number("blocks", now->blocks), owners(now), audit, totals_of(entry),
                words("program", LEGBARO_VERSION), now->kind, now->checksum);
}

/* ---- The end of the journal ---- */

/* The last whole line, and what comes after it, which is empty unless a line is torn. */
struct tail {
    int there;
    struct line last;
    struct bytes torn;
};

static struct tail read_tail(const struct folder *folder)
{
    struct tail tail = {.there = is_in(folder, name), .torn = room(0)};
    struct bytes file = {NULL, 0};
    read_last_line(tail.torn.at, 0, &tail.last);
    if (!tail.there || !map_journal(path_in(folder->path, name), &file))
        return tail;
    const uint8_t *end = memrchr(file.at, '\n', file.length);
    size_t whole = end ? (size_t)(end + 1 - file.at) : 0;
    if (file.length > whole) {
        tail.torn = room(file.length - whole);
        memcpy(tail.torn.at, file.at + whole, file.length - whole);
    }
    read_last_line(file.at, whole, &tail.last);
    unmap(file);
    return tail;
}

static int is_of(const struct line *line, const struct standing *now)
{
    return !strcmp(is_owners(now) ? line->card : line->stands, text("%08" PRIx32, now->checksum));
}

/* ---- Appending ---- */

/* Says once in a run that a journal can't be written, and why by errno. */
static void say_fault(const struct folder *folder, const char *file)
{
    static int said;
    if (!said++)
        note("can't write %s: %s. The command goes on, and a line may be missing there",
             path_in(folder->path, file), strerror(errno));
}

/* Opens the journal; makes it where it is missing. Returns -1 where it can't, or where it is no
 * file. */
static int open_journal(const struct folder *folder, const struct standing *now)
{
    const int how = O_WRONLY | O_APPEND | O_CREAT | O_NOFOLLOW | O_NONBLOCK | O_CLOEXEC;
    struct stat status;
    int file;
    do
        file = openat(folder->at, name, how, is_owners(now) ? 0600 : 0666);
    while (file < 0 && errno == EINTR);
    if (file < 0 || (fstat(file, &status) == 0 && S_ISREG(status.st_mode)))
        return file;
    close(file);
    errno = EINVAL;
    return -1;
}

/* Appends a line, or the rest of it where the journal ends with its begin. Returns whether it is
 * stored. */
static int append(const struct folder *folder, const struct standing *now, const struct tail *tail,
                  const char *line)
{
    size_t torn = tail->torn.length, length = strlen(line);
    int begun = torn < length && !memcmp(tail->torn.at, line, torn);
    const char *rest = begun ? line + torn : text("\n%s", line);
    int file = open_journal(folder, now);
    int whole = file >= 0 && write_out(file, rest, strlen(rest)) && sync_file(file);
    if (!whole)
        say_fault(folder, name);
    if (file >= 0)
        close(file);
    if (whole && !tail->there && !sync_file(folder->at))
        say_fault(folder, name);
    return whole;
}

/* ---- Settling ---- */

const char *prepare_line(const struct folder *folder, const struct entry *entry,
                         const struct standing *after)
{
    const char *line = line_of(entry, after);
    const struct piece piece = {line, strlen(line)};
    if (!try_prepare(folder, name, is_owners(after) ? 0600 : 0666, &piece, 1))
        say_fault(folder, beside);
    return line;
}

int is_journal_unsettled(const struct folder *folder)
{
    return is_in(folder, beside);
}

/* Removes journal.new. One that stays is of a line that is stored, and the next command removes
 * it. */
static void remove_prepared(const struct folder *folder)
{
    int result;
    do
        result = unlinkat(folder->at, beside, 0);
    while (result != 0 && errno == EINTR);
    if (result != 0 && errno != ENOENT)
        say_fault(folder, beside);
}

/* The line of journal.new, where that is of what stands; else null. */
static const char *prepared_line(const struct folder *folder, const struct standing *now)
{
    struct bytes file = {NULL, 0};
    struct line line;
    if (!is_in(folder, beside) || !map_journal(path_in(folder->path, beside), &file))
        return NULL;
    const char *found = text("%.*s", (int)file.length, (const char *)file.at);
    int whole = file.length && file.at[file.length - 1] == '\n' &&
                read_line((const char *)file.at, (const char *)file.at + file.length - 1, &line);
    unmap(file);
    return whole && is_of(&line, now) ? found : NULL;
}

/* Appends a line that is made from what stands, where the one of the last command is gone. */
static int append_made(const struct folder *folder, const struct standing *now,
                       const struct tail *tail)
{
    const struct entry entry = {.command = tail->there ? "mended" : "begun"};
    if (!append(folder, now, tail, line_of(&entry, now)))
        return 0;
    note(tail->there ? "the last line of %s was missing or damaged: one is made from what stands"
                     : "%s was missing: a new one begins",
         path_in(folder->path, name));
    return 1;
}

void settle_journal(const struct folder *folder, const struct standing *now, const char *line)
{
    struct tail tail = read_tail(folder);
    int stored = is_of(&tail.last, now);
    if (!stored && !line)
        line = prepared_line(folder, now);
    if (!stored)
        stored = line ? append(folder, now, &tail, line) : append_made(folder, now, &tail);
    if (stored && is_in(folder, beside))
        remove_prepared(folder);
}

void add_line(const struct folder *folder, const struct entry *entry, const struct standing *now)
{
    settle_journal(folder, now, NULL);
    struct tail tail = read_tail(folder);
    append(folder, now, &tail, line_of(entry, now));
}
