/*
 * Times set-up, proof, update, load and batch by each variant of the archive and by the reference
 * implementation over libcrypto, and a load, a batch or an ask beside the calls that it replaces,
 * and parity beside ISA-L; prints tables that can be pasted into docs/PERFORMANCE.md. What each
 * variant writes is compared with the reference implementation first. A variant that the processor
 * can't run is left out.
 *
 * libcrypto uses the processor's SHA instructions where it has them; a helper shows what it does
 * without them. In each row all alternate, and the best of each counts.
 *
 *   --beside     the tables of calls beside those that they replace, alone
 *   --parity     the table of parity alone
 *   --headline   one great set-up instead of the tables, whole: as the archive chooses, by the
 *                plain one, and by the reference implementation
 */
#define _XOPEN_SOURCE 700
#include "asks.h"
#include "batches.h"
#include "helper.h"
#include "loads.h"
#include "parity.h"
#include "proofs.h"
#include "reference/reference.h"
#include "support/chance.h"
#include "support/expect.h"
#include "support/files.h"
#include "timing.h"
#include "variants.h"

#include <openssl/crypto.h>
#include <stdio.h>
#include <string.h>

enum { SEED = 20261115 };

/* ---- What is timed ---- */

/* t tokens for a set-up or a change; n blocks for a proof, n new blocks for a load, and n items for
 * a batch. */
struct measure {
    const char *title; /* begins a table */
    enum kind kind;
    uint64_t version, B, d, r, t, n;
};

enum { T_SET_UP = 4, T_UPDATE = 64, T_LOAD = 4, T_BATCH = 8 };

/* Set-up and proof at one size. */
/* clang-format off */
#define BOTH(title, version, B, d, r)                                                              \
    {title, SET_UP, version, B, d, r, T_SET_UP, d},                                                \
    {NULL, PROVE, version, B, d, r, 1, d}
/* clang-format on */

static const struct measure measures[] = {
    BOTH("Set-up and proof", 1, 64, 4096, 64),
    BOTH(NULL, 1, 64, 4096, 460),
    BOTH(NULL, 1, 1024, 4096, 64),
    BOTH(NULL, 1, 1024, 4096, 460),
    BOTH(NULL, 1, 4096, 4096, 64),
    BOTH(NULL, 1, 4096, 4096, 460),
    BOTH(NULL, 1, 1024, 5000, 460),
    BOTH(NULL, 1, 64, 262144, 460),
    {"Update", UPDATE, 1, 64, 4096, 64, T_UPDATE, 4096},
    {NULL, UPDATE, 1, 64, 5000, 64, T_UPDATE, 5000},
    {NULL, UPDATE, 1, 1024, 4096, 64, T_UPDATE, 4096},
    {NULL, UPDATE, 1, 4096, 4096, 64, T_UPDATE, 4096},
    {NULL, UPDATE, 1, 4096, 4096, 460, T_UPDATE, 4096},
    {"Load of n blocks", LOAD, 1, 64, 4096, 64, T_LOAD, 16},
    {NULL, LOAD, 1, 64, 4096, 64, T_LOAD, 31},
    {NULL, LOAD, 1, 64, 4096, 64, T_LOAD, 32},
    {NULL, LOAD, 1, 64, 4096, 64, T_LOAD, 256},
    {NULL, LOAD, 1, 1024, 5000, 460, T_LOAD, 459},
    {NULL, LOAD, 1, 1024, 5000, 460, T_LOAD, 460},
    {"Batch of n items", BATCH, 1, 64, 4096, 64, T_BATCH, 1},
    {NULL, BATCH, 1, 64, 4096, 64, T_BATCH, 12},
    {NULL, BATCH, 1, 64, 4096, 64, T_BATCH, 64},
    {NULL, BATCH, 1, 1024, 5000, 460, T_BATCH, 12},
    {NULL, BATCH, 1, 1024, 5000, 460, T_BATCH, 64},
    {"Growth with t, the tokens", SET_UP, 1, 64, 4096, 64, 4, 4096},
    {NULL, SET_UP, 1, 64, 4096, 64, 64, 4096},
    {NULL, UPDATE, 1, 64, 4096, 64, 16, 4096},
    {NULL, UPDATE, 1, 64, 4096, 64, 256, 4096},
    {"Growth with r, the positions", PROVE, 1, 64, 4096, 16, 1, 4096},
    {NULL, PROVE, 1, 64, 4096, 64, 1, 4096},
    {NULL, PROVE, 1, 64, 4096, 256, 1, 4096},
    {"Growth with B, the bytes in a block", PROVE, 1, 16, 4096, 64, 1, 4096},
    {NULL, PROVE, 1, 256, 4096, 64, 1, 4096},
    {NULL, PROVE, 1, 4096, 4096, 64, 1, 4096},
    {"Growth with n/d, the columns", PROVE, 1, 1024, 4096, 64, 1, 4096},
    {NULL, PROVE, 1, 1024, 4096, 64, 1, 6144},
    {NULL, PROVE, 1, 1024, 4096, 64, 1, 40960},
    BOTH("Version 2", 2, 64, 4096, 64),
    BOTH(NULL, 2, 1024, 5000, 460),
    {NULL, UPDATE, 2, 64, 4096, 64, T_UPDATE, 4096},
    {NULL, UPDATE, 2, 1024, 4096, 64, T_UPDATE, 4096},
    {NULL, LOAD, 2, 1024, 5000, 460, T_LOAD, 460},
    {NULL, BATCH, 2, 1024, 5000, 460, T_BATCH, 64},
};

enum { MEASURES = sizeof measures / sizeof *measures };

/* An update, a load of n blocks, or a batch of n items. */
static struct call change_call(const struct measure *m)
{
    struct file file = file_set_up(m->version, m->B, m->d, m->r, m->t, m->d);
    struct call change = m->kind == LOAD    ? file_load_call(&file, m->n)
                         : m->kind == BATCH ? file_batch_call(&file, m->n)
                                            : file_call(&file, UPDATE);
    file_end(&file);
    return change;
}

/* The call that is timed. It is accepted again and again on its own buffers, by any way: an update
 * or a batch takes the bytes handed over, and a load adds its blocks once more. */
static struct call measured_call(const struct measure *m)
{
    if (m->kind == SET_UP)
        return file_set_up_call(m->version, m->B, m->d, m->r, m->t, m->d);
    return m->kind == PROVE ? proof_call(m->version, m->B, m->d, m->r, m->n) : change_call(m);
}

/* ---- Time ---- */

/* What the helper answers. */
static double helped(int row, unsigned calls)
{
    static struct call call;
    static int last = -1;
    if (row != last) {
        call_free(&call);
        last = row;
        call = measured_call(&measures[row]);
    }
    return timed(call_reference, &call, measures[row].n, calls);
}

static double timed_by(int way, struct call *call, int row, unsigned calls)
{
    return way == WITHOUT_SHA ? helper_timed(row, calls)
                              : timed(runs[way], call, measures[row].n, calls);
}

/* Nanoseconds for one call by each way, and 0 for a variant that the processor can't run. */
struct times {
    double best[WAYS];
};

/* A call alone tells how many are timed together. What an update takes hangs on how many tokens
 * draw its block, so all ways go through blocks of the same numbers. */
static struct times measure(int row)
{
    struct call call = measured_call(&measures[row]);
    struct times t = {{0}};
    unsigned calls[WAYS] = {0}, most = 0;
    call.m = 1;
    for (int way = 0; way < WAYS; way++) {
        int ours = way >= PLAIN && way <= CHOSEN;
        if (ours && !variant_runs(runs[way], &call))
            continue;
        if (ours)
            compare(runs[way], &call);
        calls[way] = calls_for(timed_by(way, &call, row, 1));
        most = calls[way] > most ? calls[way] : most;
    }
    for (int i = 0; i < REPEATS; i++)
        for (int way = 0; way < WAYS; way++)
            if (calls[way])
                t.best[way] =
                    lesser(t.best[way], timed_by(way, &call, row,
                                                 measures[row].kind == UPDATE ? most : calls[way]));
    call_free(&call);
    return t;
}

/* ---- The tables ---- */

/* The processor's name, from the system. */
static void print_processor(void)
{
    char line[256];
    FILE *about = fopen("/proc/cpuinfo", "r");
    while (about && fgets(line, sizeof line, about))
        if (!strncmp(line, "model name", strlen("model name"))) {
            printf("Processor%s", strchr(line, ':'));
            break;
        }
    if (about)
        fclose(about);
}

static void print_heading(const struct measure *m)
{
    if (!m->title)
        return;
    printf("\n%s\n\n", m->title);
    puts("| Call | B | d | r | t | n | libcrypto, µs | chosen, µs | plain | AVX2 | AVX-512 | "
         "chosen | libcrypto without SHA instructions |");
    puts("|---|---|---|---|---|---|---|---|---|---|---|---|---|");
}

static void print_row(const struct measure *m, struct times t)
{
    print_heading(m);
    printf("| %s | %llu | %llu | %llu | %llu | %llu | %.1f | %.1f |", call_name(m->kind),
           (unsigned long long)m->B, (unsigned long long)m->d, (unsigned long long)m->r,
           (unsigned long long)m->t, (unsigned long long)m->n, t.best[LIBCRYPTO] / 1e3,
           t.best[CHOSEN] / 1e3);
    for (int way = PLAIN; way < WAYS; way++)
        if (t.best[way] > 0)
            printf(" %.2f |", t.best[way] / t.best[LIBCRYPTO]);
        else
            printf(" none |");
    putchar('\n');
    fflush(stdout);
}

static void print_measures(const char *program)
{
    helper_start(program);
    for (int row = 0; row < MEASURES; row++)
        print_row(&measures[row], measure(row));
    helper_end();
}

/* All tables, or only those of calls beside others. */
static void print_tables(const char *program, int only_beside)
{
    test_begin("the library and the reference implementation write the same");
    print_processor();
    puts(OpenSSL_version(OPENSSL_VERSION));
    if (!only_beside)
        print_measures(program);
    print_loads();
    print_batches();
    print_asks();
    print_proofs();
    print_parity();
    putchar('\n');
    test_end();
}

/* Times the great set-up by one way, and expects card, table and totals of the way before. */
static void print_whole(const char *way, uint64_t (*run)(struct call *), const struct call *call,
                        struct call *before)
{
    struct call own = call_copy(call);
    printf("%s: %.1f s\n", way, timed(run, &own, 1, 1) / 1e9);
    fflush(stdout);
    for (int argument = 0; before->args[CARD].bytes && argument < ARGUMENTS; argument++)
        expect(!call_takes(SET_UP, argument) ||
                   buffer_same(&own.args[argument], &before->args[argument]),
               "%s: the same bytes", way);
    call_free(before);
    *before = own;
}

static void print_headline(void)
{
    struct call call = file_set_up_call(LEGBARO_WITHOUT_MARKS, 4096, 4096, 512, 11680, 4096),
                before = {.kind = SET_UP};
    test_begin("the great set-up writes the same each way");
    print_processor();
    puts("set-up of 11680 tokens, r = 512, B = 4096, d = 4096");
    print_whole("as chosen", call_library, &call, &before);
    print_whole("plain x86-64, no AVX", call_plain, &call, &before);
    print_whole("libcrypto", call_reference, &call, &before);
    call_free(&before);
    call_free(&call);
    test_end();
}

static void print_parity_alone(void)
{
    test_begin("the library, the reference implementation and ISA-L write the same");
    print_processor();
    print_parity();
    putchar('\n');
    test_end();
}

int main(int count, char **words)
{
    const char *word = count == 2 ? words[1] : "";
    int helper = !strcmp(word, HELPER);
    chance_start(SEED);
    reference_start();
    if (helper)
        help(helped);
    else if (!strcmp(word, "--headline"))
        print_headline();
    else if (!strcmp(word, "--parity"))
        print_parity_alone();
    else
        print_tables(words[0], !strcmp(word, "--beside"));
    reference_end();
    return helper || tests_passed() ? 0 : 1;
}
