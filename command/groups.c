/* See groups.h. */
#include "groups.h"
#include "numbers.h"
#include "report.h"

#include "legbaro.h"

#include <inttypes.h>
#include <string.h>

/* ---- Numbers and files ---- */

static struct groups read_numbers(const struct options *o)
{
    needs_number(o->block_bytes, "--block-bytes");
    needs_number(o->data, "--data, the blocks in a group,");
    needs_number(o->parity, "--parity, the parity blocks of a group,");
    struct groups g = {.o = o, .bytes = o->block_bytes, .data = o->data, .parity = o->parity};
    if (!g.bytes || g.bytes > LEGBARO_MOST_BLOCK_BYTES)
        turn_away(LEGBARO_OUT_OF_LIMITS, text("--block-bytes %" PRIu64, g.bytes));
    if (!g.data || g.data > LEGBARO_MOST_DATA_BLOCKS || !g.parity ||
        g.parity > LEGBARO_MOST_PARITY_BLOCKS) {
        field("code", LEGBARO_BAD_GROUP);
        refuse(TURNED_AWAY, "Give other numbers.",
               "--data %" PRIu64 " may be 1 to %d, and --parity %" PRIu64 " 1 to %d (code %d)",
               g.data, LEGBARO_MOST_DATA_BLOCKS, g.parity, LEGBARO_MOST_PARITY_BLOCKS,
               LEGBARO_BAD_GROUP);
    }
    g.file = map_file(o->words[0]);
    return g;
}

static void set_blocks(struct groups *g, uint64_t blocks)
{
    g->blocks = blocks;
    g->count = (blocks + g->data - 1) / g->data;
}

/* The number of blocks by the file's size, which must be whole ones. */
static void count_blocks(struct groups *g, const char *next)
{
    uint64_t rest = g->file.length % g->bytes;
    about(g->o->words[0]);
    if (!g->file.length || rest) {
        field("code", LEGBARO_NOT_WHOLE_BLOCKS);
        refuse(TURNED_AWAY, next,
               "%s has %zu bytes, which is not a whole number of blocks of %s (code %d)",
               g->o->words[0], g->file.length, counted(g->bytes, "byte", "bytes"),
               LEGBARO_NOT_WHOLE_BLOCKS);
    }
    set_blocks(g, g->file.length / g->bytes);
}

/* The number of blocks that was told, which the file may not have in full. */
static void take_blocks(struct groups *g, uint64_t blocks)
{
    if (!blocks || blocks > LEGBARO_MOST_BLOCKS)
        turn_away(LEGBARO_OUT_OF_LIMITS, text("--blocks %" PRIu64, blocks));
    set_blocks(g, blocks);
    if (g->file.length <= blocks * g->bytes)
        return;
    about(g->o->words[0]);
    field("code", LEGBARO_WRONG_LENGTH);
    refuse(TURNED_AWAY, "Give the number of blocks that the file had when it was encoded.",
           "%s has %zu bytes, and %s have %" PRIu64 " (code %d)", g->o->words[0], g->file.length,
           counted(blocks, "block", "blocks"), blocks * g->bytes, LEGBARO_WRONG_LENGTH);
}

/* Refuses a parity file that is too long for the blocks: the blocks may be cut. */
static void refuse_parity(const struct groups *g)
{
    const char *path = g->o->words[1];
    uint64_t in_group = g->parity * g->bytes, groups = g->kept.length / in_group;
    const char *next = "Look whether the numbers are those of encoding.";
    if (g->kept.length % in_group == 0)
        next = text("Look whether the numbers are those of encoding. If %s is cut, give --blocks, "
                    "the number that it had, from "
                    "%" PRIu64 " to %" PRIu64 ": the missing ones then count as lost.",
                    g->o->words[0], (groups - 1) * g->data + 1, groups * g->data);
    about(path);
    field("code", LEGBARO_WRONG_LENGTH);
    refuse(TURNED_AWAY, next, "%s has %zu bytes, and the parity of %s has %" PRIu64 " (code %d)",
           path, g->kept.length, counted(g->blocks, "block", "blocks"), g->count * in_group,
           LEGBARO_WRONG_LENGTH);
}

struct groups read_blocks(const struct options *o)
{
    struct groups g = read_numbers(o);
    count_blocks(&g, "Look whether --block-bytes is right, and whether the file is cut.");
    return g;
}

struct groups read_both(const struct options *o)
{
    struct groups g = read_numbers(o);
    if (o->blocks == UNTOLD)
        count_blocks(&g, "Look whether --block-bytes is right. If the file is cut, give --blocks, "
                         "the number of blocks that it had: "
                         "the missing ones then count as lost.");
    else
        take_blocks(&g, o->blocks);
    g.kept = map_file(o->words[1]);
    if (g.kept.length > g.count * g.parity * g.bytes)
        refuse_parity(&g);
    g.states = room(g.count * g.data).at;
    g.kept_states = room(g.count * g.parity).at;
    for (uint64_t i = g.file.length / g.bytes; i < g.blocks; i++)
        g.states[i] = MISSING;
    for (uint64_t i = g.kept.length / g.bytes; i < g.count * g.parity; i++)
        g.kept_states[i] = MISSING;
    return g;
}

/* ---- One group ---- */

uint64_t data_of(const struct groups *g, uint64_t group)
{
    uint64_t left = g->blocks - group * g->data;
    return left < g->data ? left : g->data;
}

const char *group_words(const struct groups *g, uint64_t group)
{
    uint64_t first = group * g->data + 1, last = first + data_of(g, group) - 1;
    return first == last ? text("block %" PRIu64, first)
                         : text("blocks %" PRIu64 " to %" PRIu64, first, last);
}

struct group new_group(const struct groups *g)
{
    struct group group = {.blocks = room((g->data + g->parity) * g->bytes),
                          .made = room(g->data * g->bytes),
                          .parity = room(g->parity * g->bytes)};
    return group;
}

/* Copies so many bytes of a file from an offset on, as far as it has them. */
static void copy_part(uint8_t *to, struct bytes from, uint64_t offset, uint64_t length)
{
    uint64_t left = offset < from.length ? from.length - offset : 0;
    memcpy(to, from.at + (left ? offset : 0), left < length ? left : length);
}

/* The state of a block of a group, by its number there. */
static uint8_t *state_of(const struct groups *g, const struct group *group, uint64_t i)
{
    return i < group->data ? &g->states[group->number * g->data + i]
                           : &g->kept_states[group->number * g->parity + i - group->data];
}

void read_group(const struct groups *g, struct group *group, uint64_t number)
{
    group->number = number;
    group->data = data_of(g, number);
    group->count = group->data + g->parity;
    group->blocks.length = group->count * g->bytes;
    group->made.length = group->data * g->bytes;
    copy_part(group->blocks.at, g->file, number * g->data * g->bytes, group->made.length);
    copy_part(group->blocks.at + group->made.length, g->kept, number * g->parity * g->bytes,
              g->parity * g->bytes);
    group->lost = 0;
    for (uint64_t i = 0; i < group->count; i++) {
        group->gone[i] = *state_of(g, group, i) != HERE;
        group->lost += group->gone[i];
    }
}

uint64_t make_data(const struct groups *g, struct group *group)
{
    uint8_t lost[MOST_GROUP];
    size_t count = 0;
    for (uint64_t i = 0; i < group->count; i++)
        if (group->gone[i])
            lost[count++] = (uint8_t)i;
    uint64_t result = legbaro_parity_rebuild(g->bytes, group->data, g->parity, LENT(group->blocks),
                                             lost, count, LENT(group->made));
    if (result == LEGBARO_OK)
        result = legbaro_parity_encode(g->bytes, group->data, g->parity, LENT(group->made),
                                       LENT(group->parity));
    return result;
}

/* The first byte of a block at which a parity block that is not gone differs from the parity of the
 * data that were made; the block bytes where none does. */
static uint64_t first_difference(const struct groups *g, const struct group *group)
{
    for (uint64_t i = 0; i < g->parity; i++) {
        const uint8_t *is = group->blocks.at + (group->data + i) * g->bytes,
                      *made = group->parity.at + i * g->bytes;
        if (group->gone[group->data + i] || !memcmp(is, made, g->bytes))
            continue;
        for (uint64_t at = 0;; at++)
            if (is[at] != made[at])
                return at;
    }
    return g->bytes;
}

int agrees(const struct groups *g, const struct group *group)
{
    return first_difference(g, group) == g->bytes;
}

/* Leaves the wrong blocks of one byte as gone. Returns how many are new among them. */
static uint64_t leave_out(const struct groups *g, struct group *group, const uint8_t *lost,
                          uint64_t at)
{
    uint8_t bytes[MOST_GROUP], wrong[MOST_GROUP] = {0};
    uint64_t found = 0;
    for (uint64_t i = 0; i < group->count; i++)
        bytes[i] = group->blocks.at[i * g->bytes + at];
    locate((unsigned)group->data, (unsigned)g->parity, bytes, lost, wrong);
    for (uint64_t i = 0; i < group->count; i++) {
        found += wrong[i] && !group->gone[i];
        group->gone[i] |= wrong[i];
    }
    return found;
}

int find_wrong(const struct groups *g, struct group *group)
{
    uint64_t at, most = (g->parity - group->lost) / 2, found = 0, more;
    uint8_t lost[MOST_GROUP];
    memcpy(lost, group->gone, sizeof lost);
    while ((at = first_difference(g, group)) < g->bytes) {
        found += more = leave_out(g, group, lost, at);
        if (!more || found > most || make_data(g, group) != LEGBARO_OK)
            return 0;
    }
    for (uint64_t i = 0; i < group->count; i++)
        if (group->gone[i] && *state_of(g, group, i) == HERE)
            *state_of(g, group, i) = WRONG;
    return 1;
}

uint64_t blocks_before_cut(const struct groups *g)
{
    struct groups other = *g;
    struct group group = new_group(g);
    if (g->o->blocks != UNTOLD)
        return 0;
    other.states = room(g->count * g->data).at;
    for (uint64_t n = g->blocks + 1; n <= g->count * g->data; n++) {
        other.states[n - 1] = MISSING;
        other.blocks = n;
        read_group(&other, &group, g->count - 1);
        if (group.lost < g->parity && make_data(&other, &group) == LEGBARO_OK &&
            agrees(&other, &group))
            return n;
    }
    return 0;
}
