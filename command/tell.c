/* See tell.h. */
#include "tell.h"
#include "codes.h"
#include "numbers.h"
#include "owner.h"
#include "report.h"

#include "legbaro.h"

#include <inttypes.h>

static void within(const char *name, uint64_t number, uint64_t most)
{
    if (number != UNTOLD && (number < 1 || number > most))
        refuse(TURNED_AWAY, code_next(LEGBARO_OUT_OF_LIMITS),
               "%s is %" PRIu64 ", and may be 1 to %" PRIu64 " (code %d)", name, number, most,
               LEGBARO_OUT_OF_LIMITS);
}

void refuse_limits(const struct options *o, uint64_t blocks)
{
    field("code", LEGBARO_OUT_OF_LIMITS);
    within("--version", o->version, LEGBARO_TWO_STEPS);
    within("--block-bytes", o->block_bytes, LEGBARO_MOST_BLOCK_BYTES);
    within("--rows", o->rows, LEGBARO_MOST_ROWS);
    within("--tokens", o->tokens, LEGBARO_MOST_TOKENS);
    within("the number of blocks", blocks, LEGBARO_MOST_BLOCKS);
    within("--positions", o->positions,
           o->rows < LEGBARO_MOST_POSITIONS ? o->rows : LEGBARO_MOST_POSITIONS);
    turn_away(LEGBARO_OUT_OF_LIMITS, "the numbers told");
}

void refuse_without_right(uint64_t result, const struct options *o)
{
    if (LEGBARO_CODE(result) == LEGBARO_NO_RIGHT)
        turn_away(result, text("--role %" PRIu64, o->role));
}

void tell_totals(struct bytes totals)
{
    uint64_t turns = number_at(totals.at + LEGBARO_TOTALS_TURNS, 8),
             hashes = number_at(totals.at + LEGBARO_TOTALS_HASHES, 8);
    field("turns", turns);
    field("hashes", hashes);
    if (spoken() == VERBOSE)
        say("work: %" PRIu64 " turns of the permutation, %" PRIu64 " hashes of blocks", turns,
            hashes);
}

/* The least and the most blocks that an audit looks at: the hashes of a proof, by the planning
 * sheet. */
static struct sheet audit_of(struct bytes card)
{
    const struct numbers of = {
        .block_bytes = in_card(card, LEGBARO_CARD_BLOCK_BYTES, 2),
        .rows = in_card(card, LEGBARO_CARD_ROWS, 4),
        .positions = in_card(card, LEGBARO_CARD_POSITIONS, 2),
        .tokens = in_card(card, LEGBARO_CARD_TOKENS, 4),
        .blocks = in_card(card, LEGBARO_CARD_BLOCKS, 4),
        .damaged = 1,
    };
    struct sheet sheet;
    sheet_of(&of, &sheet);
    return sheet;
}

void tell_audit(struct bytes card)
{
    struct sheet sheet = audit_of(card);
    uint64_t blocks = in_card(card, LEGBARO_CARD_BLOCKS, 4);
    field("least-blocks", sheet.least);
    field("most-blocks", sheet.most);
    if (sheet.least == blocks)
        say("an audit looks at every block");
    else if (sheet.least == sheet.most)
        say("an audit looks at %" PRIu64 " of %" PRIu64 " block%s", sheet.least, blocks,
            blocks == 1 ? "" : "s");
    else
        say("an audit looks at %" PRIu64 " to %" PRIu64 " of %" PRIu64 " block%s", sheet.least,
            sheet.most, blocks, blocks == 1 ? "" : "s");
    if (sheet.least)
        return;
    const char *fix =
        text("legbaro positions --positions %" PRIu64 " --rows %" PRIu64 " --blocks %" PRIu64,
             in_card(card, LEGBARO_CARD_POSITIONS, 2), in_card(card, LEGBARO_CARD_ROWS, 4), blocks);
    field_text(
        "warning",
        text("an audit may look at no block at all; '%s' says how many positions to set up with",
             fix));
    say("warning: an audit may look at no block at all, and is accepted then");
    say("  '%s' says how many positions to set up with", fix);
}
