/* The commands sheet and positions. What is not told of a sheet is that of a car park with 96 bays
 * which plans a year of hours and an audit a day. */
#include "codes.h"
#include "commands.h"
#include "files.h"
#include "numbers.h"
#include "picture.h"
#include "report.h"
#include "tell.h"

#include <inttypes.h>
#include <stdio.h>
#include <string.h>

static const struct numbers example = {.block_bytes = 96,
                                       .rows = 8760,
                                       .positions = 460,
                                       .tokens = 365,
                                       .blocks = 10000,
                                       .damaged = 88};

static uint64_t told(uint64_t number, uint64_t otherwise)
{
    return number == UNTOLD ? otherwise : number;
}

static struct numbers planned(const struct options *o)
{
    struct numbers of = {
        told(o->block_bytes, example.block_bytes), told(o->rows, example.rows),
        told(o->positions, example.positions),     told(o->tokens, example.tokens),
        told(o->blocks, example.blocks),           told(o->damaged, example.damaged)};
    return of;
}

/* ---- What is printed ---- */

static void number(const char *name, uint64_t value, const char *what)
{
    field(name, value);
    say("  %-12s %12s   %s", name, grouped(value), what);
}

static void print_numbers(const struct numbers *of)
{
    say("A PLANNING SHEET\n");
    number("block-bytes", of->block_bytes, "bytes in a block");
    number("rows", of->rows, "rows, fixed when the file is set up");
    number("positions", of->positions, "rows that an audit draws");
    number("tokens", of->tokens, "audits that the table has tokens for");
    number("blocks", of->blocks, "blocks that the file has");
    number("damaged", of->damaged, "rows that the host has lost");
}

static void line(const char *what, const char *value)
{
    say("    %-38s %32s", what, value);
}

static void line_range(const char *what, uint64_t least, uint64_t most)
{
    line(what, least == most ? grouped(least) : text("%s to %s", grouped(least), grouped(most)));
}

static void print_sheet(const struct numbers *of, const struct sheet *sheet)
{
    field("table-bytes", sheet->table);
    field("turns-at-most", sheet->turns);
    field("hashes-at-least", sheet->least);
    field("hashes-at-most", sheet->most);
    field("escape", sheet->escape);
    say("\n  ROOM at the host, in bytes");
    line("the blocks", grouped(of->blocks * of->block_bytes));
    line("their marks, in a file with marks", grouped(of->blocks));
    line("the table of tokens", grouped(sheet->table));
    say("\n  READING for one proof, whatever rows it draws");
    line_range("blocks read and hashed", sheet->least, sheet->most);
    line_range("bytes in them", sheet->least * of->block_bytes, sheet->most * of->block_bytes);
    say("\n  WORK for one token, whatever its key");
    line("turns of the permutation, at most", grouped(sheet->turns));
    say("\n  RISK in one audit");
    line("chance that the loss escapes, at most", percent(sheet->escape));
    line("the same in units of 2^-32", grouped(sheet->escape));
}

/* Other positions across and other losses down, the planned ones among them. Six columns fit a
 * terminal of 80. */
static void print_risks(const struct numbers *of)
{
    uint64_t m = of->damaged      ? of->damaged
                 : of->rows < 100 ? 1
                                  : of->rows / 100,
             across[MOST_SHOWN];
    uint64_t down[] = {1, m / 8, m / 4, m / 2, m, 2 * m, 4 * m, 8 * m};
    int columns = positions_shown(of, across);
    int lines = sifted(down, sizeof down / sizeof *down, of->rows);
    say("\n  Chance of escape in one audit, at most: damaged rows down, positions across\n");
    for (int i = -1; i < lines; i++) {
        const char *words = text("    %9s", i < 0 ? "" : grouped(down[i]));
        for (int k = 0; k < columns; k++)
            words = text("%s %10s", words,
                         i < 0 ? grouped(across[k]) : percent(escape_of(of, across[k], down[i])));
        say("%s", words);
    }
}

int run_sheet(const struct options *o)
{
    struct numbers of = planned(o);
    struct sheet sheet;
    uint64_t code = sheet_of(&of, &sheet);
    struct options whole = *o;
    whole.rows = of.rows;
    whole.positions = of.positions;
    if (code == LEGBARO_OUT_OF_LIMITS)
        refuse_limits(&whole, of.blocks);
    if (code != LEGBARO_OK)
        turn_away(code, text("--damaged %" PRIu64 " of --rows %" PRIu64, of.damaged, of.rows));
    if (o->svg) {
        write_picture(o, &of);
        field_text("file", o->svg);
    }
    print_numbers(&of);
    print_sheet(&of, &sheet);
    print_risks(&of);
    if (o->svg)
        say("\n  The picture is in %s.", o->svg);
    return ended(DONE);
}

/* Refuses a number that is not 1 to a most. */
static void limit(const char *option, uint64_t number, uint64_t most, const char *why)
{
    if (number < 1 || number > most)
        refuse(TURNED_AWAY, code_next(LEGBARO_OUT_OF_LIMITS),
               "%s is %" PRIu64 ", and may be 1 to %" PRIu64 "%s (code %d)", option, number, most,
               why, LEGBARO_OUT_OF_LIMITS);
}

static void refuse_positions(const struct options *o)
{
    field("code", LEGBARO_OUT_OF_LIMITS);
    limit("--rows", o->rows, LEGBARO_MOST_ROWS, "");
    limit("--blocks", o->blocks, o->rows, ", the rows");
    if (o->blocks < LEGBARO_MOST_POSITIONS)
        limit("--positions", o->positions, o->blocks, ", the blocks");
    limit("--positions", o->positions, LEGBARO_MOST_POSITIONS, "");
}

int run_positions(const struct options *o)
{
    needs_number(o->positions, "--positions, how many of the blocks an audit is to look at,");
    needs_number(o->rows, "--rows, the rows that are planned,");
    needs_number(o->blocks, "--blocks, the blocks that there are,");
    uint64_t result = legbaro_positions(o->positions, o->rows, o->blocks),
             number = LEGBARO_NUMBER(result);
    if (LEGBARO_CODE(result) == LEGBARO_OUT_OF_LIMITS)
        refuse_positions(o);
    if (LEGBARO_CODE(result) != LEGBARO_OK)
        turn_away(result, text("--positions %" PRIu64 " of --blocks %" PRIu64 ", --rows %" PRIu64,
                               o->positions, o->blocks, o->rows));
    field("positions", number);
    say("set up with %s: with %s and %s an audit then looks at %s or more on average",
        counted(number, "position", "positions"), counted(o->rows, "row", "rows"),
        counted(o->blocks, "block", "blocks"), counted(o->positions, "block", "blocks"));
    say("next: 'legbaro set-up --positions %" PRIu64 " --rows %" PRIu64 " ..'", number, o->rows);
    return ended(DONE);
}
