/* See parity.h. ISA-L's Cauchy matrix has the weights of the parity calls, so that both write the
 * same. */
#include "parity.h"

#include "support/expect.h"
#include "support/parity_calls.h"
#include "timing.h"
#include "variants.h"

#include <isa-l.h>
#include <stdio.h>
#include <string.h>

enum {
    K = LEGBARO_MOST_DATA_BLOCKS,
    P = LEGBARO_MOST_PARITY_BLOCKS,
    B_MOST = LEGBARO_MOST_BLOCK_BYTES
};

static const struct row {
    uint64_t B, k, p;
} rows[] = {{4096, 10, 4}, {4096, 48, 16}, {64, 10, 4}, {64, 48, 16}};

/* What the time of the chosen variant, divided by ISA-L's, is to be at most for an encoding of
 * blocks of 4,096 bytes. */
static const double vector_goal = 4, portable_goal = 0.15;

/* ---- ISA-L, on the same blocks ---- */

static uint8_t matrix[(K + P) * K], tables[32 * K * P], written[P * B_MOST];
static uint8_t *from[K], *to[P];

/* Encoding: the tables are made before, and are not timed. */
static void prepare_encode(const struct call *call)
{
    gf_gen_cauchy1_matrix(matrix, (int)(call->n + call->r), (int)call->n);
    ec_init_tables((int)call->n, (int)call->r, matrix + call->n * call->n, tables);
    for (uint64_t q = 0; q < call->n; q++)
        from[q] = call->args[BLOCKS].bytes + q * call->B;
    for (uint64_t x = 0; x < call->r; x++)
        to[x] = written + x * call->B;
}

static uint64_t encode_vector(struct call *call)
{
    ec_encode_data((int)call->B, (int)call->n, (int)call->r, tables, from, to);
    return LEGBARO_OK;
}

static uint64_t encode_portable(struct call *call)
{
    ec_encode_data_base((int)call->B, (int)call->n, (int)call->r, tables, from, to);
    return LEGBARO_OK;
}

/* Rebuilding of the first data blocks, as many as there are parity blocks: the matrix of the blocks
 * left is inverted, its tables made, and the blocks multiplied, as a caller must for each set of
 * losses. */
static int prepare_rebuild(const struct call *call)
{
    static uint8_t left[K * K], inverted[K * K];
    int k = (int)call->n, p = (int)call->r;
    for (int i = 0; i < k; i++) {
        int source = p + i;
        memcpy(left + i * k, matrix + source * k, (size_t)k);
        from[i] = call->args[BLOCKS].bytes + (size_t)source * call->B;
    }
    int singular = gf_invert_matrix(left, inverted, k);
    ec_init_tables(k, p, inverted, tables);
    return singular;
}

static uint64_t rebuild_vector(struct call *call)
{
    return prepare_rebuild(call) ? LEGBARO_TOO_MANY_LOST : encode_vector(call);
}

static uint64_t rebuild_portable(struct call *call)
{
    return prepare_rebuild(call) ? LEGBARO_TOO_MANY_LOST : encode_portable(call);
}

/* ---- The table ---- */

enum { VECTOR, PORTABLE, OURS, ALL = OURS + CHOSEN - PLAIN + 1 };

/* The best of many times by each way, all alternating; 0 for a variant that the processor can't
 * run. ISA-L's vector code leaves the upper halves of registers in use, which slows down plain code
 * after it; a call of the library clears them. */
static void measure(struct call *call, uint64_t (*const ways[ALL])(struct call *), double best[ALL])
{
    unsigned calls[ALL];
    for (int way = 0; way < ALL; way++) {
        best[way] = 0;
        if (way >= OURS && !variant_runs(ways[way], call))
            continue;
        if (way >= OURS)
            compare(ways[way], call);
        best[way] = timed(ways[way], call, 1, 1);
        calls[way] = calls_for(best[way]);
    }
    for (int i = 0; i < REPEATS; i++)
        for (int way = 0; way < ALL; way++)
            if (best[way] > 0) {
                call_library(call);
                best[way] = lesser(best[way], timed(ways[way], call, 1, calls[way]));
            }
}

static void print_ratios(const double best[ALL], int beside)
{
    for (int way = OURS; way < ALL; way++)
        if (best[way] > 0)
            printf(" %.2f |", best[way] / best[beside]);
        else
            printf(" none |");
}

static void print_row(const struct row *row, struct call *call, const double best[ALL])
{
    int goal = call->kind == PARITY_ENCODE && row->B == B_MOST;
    printf("| %s | %u | %u | %u | %.1f | %.1f | %.1f |", call_name(call->kind), (unsigned)row->B,
           (unsigned)row->k, (unsigned)row->p, best[VECTOR] / 1e3, best[PORTABLE] / 1e3,
           best[ALL - 1] / 1e3);
    print_ratios(best, VECTOR);
    if (goal)
        printf(" %.2f |", vector_goal);
    else
        printf(" |");
    printf(" %.2f |", best[ALL - 1] / best[PORTABLE]);
    if (goal)
        printf(" %.2f |\n", portable_goal);
    else
        printf(" |\n");
    fflush(stdout);
}

static void measure_row(const struct row *row)
{
    uint64_t (*ways[ALL])(struct call *) = {encode_vector, encode_portable};
    double best[ALL];
    uint8_t lost[P];
    struct call encoding = parity_encoding(row->B, row->k, row->p), rebuilding;
    for (int way = PLAIN; way <= CHOSEN; way++)
        ways[OURS + way - PLAIN] = runs[way];
    for (uint8_t i = 0; i < row->p; i++)
        lost[i] = i;
    rebuilding = parity_rebuilding(&encoding, lost, row->p);
    prepare_encode(&encoding);
    measure(&encoding, ways, best);
    expect(!memcmp(written, encoding.args[OUT].bytes, row->p * row->B),
           "the parity that ISA-L writes");
    print_row(row, &encoding, best);
    ways[VECTOR] = rebuild_vector;
    ways[PORTABLE] = rebuild_portable;
    measure(&rebuilding, ways, best);
    expect(!memcmp(written, rebuilding.args[OUT].bytes, row->p * row->B),
           "the data that ISA-L rebuilds");
    print_row(row, &rebuilding, best);
    call_free(&encoding);
    call_free(&rebuilding);
}

void print_parity(void)
{
    puts("\nParity beside ISA-L\n");
    puts("| Call | B | k | p | ISA-L, µs | ISA-L's portable code, µs | chosen, µs | plain | AVX2 | "
         "AVX-512 | chosen | goal | chosen, beside "
         "portable | goal |");
    puts("|---|---|---|---|---|---|---|---|---|---|---|---|---|---|");
    for (size_t i = 0; i < sizeof rows / sizeof *rows; i++)
        measure_row(&rows[i]);
}
