/* See proofs.h. */
#include "proofs.h"

#include "pairs.h"
#include "support/chance.h"
#include "support/files.h"

#include <stdio.h>
#include <string.h>

/* A proof of version 2; beside it one of version 1 with blocks of B + 1 bytes, which hashes as many
 * bytes; and the goal. */
static const struct row {
    uint64_t B, d, r, n;
    double goal;
} rows[] = {
    {64, 4096, 64, 4096, 1},
    {64, 4096, 460, 4096, 1},
    {1024, 5000, 460, 5000, 1},
    {1024, 4096, 64, 40960, 1},
};

struct call proof_call(uint64_t version, uint64_t B, uint64_t d, uint64_t r, uint64_t n)
{
    struct file file = file_set_up(version, B, d, r, 1, d);
    buffer_put_number(&file.card, LEGBARO_CARD_BLOCKS, 4, n);
    struct call draw = file_call(&file, DRAW), proof = {.kind = PROVE};
    call_expect(&draw, LEGBARO_OK, "accepted");
    proof.args[MESSAGE] = buffer_copy(&draw.args[MESSAGE]);
    proof.args[BLOCKS] = buffer_blank(n * B);
    chance_bytes(proof.args[BLOCKS].bytes, proof.args[BLOCKS].length);
    proof.args[MARKS] = buffer_blank(version == LEGBARO_WITHOUT_MARKS ? 0 : n);
    memset(proof.args[MARKS].bytes, LEGBARO_LIVE, proof.args[MARKS].length);
    proof.args[TABLE] = buffer_copy(&file.table);
    proof.args[REPLY] = buffer_blank(LEGBARO_REPLY_BYTES);
    proof.args[TOTALS] = buffer_blank(LEGBARO_TOTALS_BYTES);
    call_free(&draw);
    file_end(&file);
    return proof;
}

static struct pair pair_of(const struct row *row)
{
    struct pair pair = {
        .B = row->B, .d = row->d, .r = row->r, .t = 1, .n = row->n, .goal = row->goal, .others = 1};
    pair.call = proof_call(LEGBARO_WITH_MARKS, row->B, row->d, row->r, row->n);
    pair.other = proof_call(LEGBARO_WITHOUT_MARKS, row->B + 1, row->d, row->r, row->n);
    snprintf(pair.one, sizeof pair.one, "version 2, %u blocks", (unsigned)row->n);
    snprintf(pair.beside, sizeof pair.beside, "version 1, B = %u", (unsigned)row->B + 1);
    return pair;
}

void print_proofs(void)
{
    print_pairs_heading("A proof of version 2 beside one of version 1 with blocks one byte longer",
                        "proof");
    for (size_t i = 0; i < sizeof rows / sizeof *rows; i++) {
        struct pair pair = pair_of(&rows[i]);
        print_pair(&pair);
    }
}
