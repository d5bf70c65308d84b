/* See pairs.h. */
#include "pairs.h"

#include "timing.h"
#include "variants.h"

#include <stdio.h>

/* Nanoseconds for a call and for those that it stands beside. */
struct both {
    double one, others;
};

/* How many of the others are timed together: no fewer than the one stands for. */
static unsigned others_for(const struct pair *pair, double time)
{
    unsigned calls = calls_for(time);
    return calls > pair->others ? calls : pair->others;
}

static double timed_others(struct pair *pair, uint64_t (*run)(struct call *), unsigned calls)
{
    return timed(run, &pair->other, pair->n, calls) * pair->others;
}

/* One variant's times, the one and the others alternating, the best of each. */
static struct both measure(struct pair *pair, uint64_t (*run)(struct call *))
{
    struct both best = {0, 0};
    if (!variant_runs(run, &pair->call))
        return best;
    compare(run, &pair->call);
    compare(run, &pair->other);
    unsigned ones = calls_for(timed(run, &pair->call, 1, 1)),
             others = others_for(pair, timed(run, &pair->other, pair->n, 1));
    for (int i = 0; i < REPEATS; i++) {
        best.one = lesser(best.one, timed(run, &pair->call, 1, ones));
        best.others = lesser(best.others, timed_others(pair, run, others));
    }
    return best;
}

void print_pairs_heading(const char *title, const char *one)
{
    printf("\n%s\n\n", title);
    printf("| %s of | beside | B | d | r | t | %s, chosen, µs | beside, chosen, µs | plain | AVX2 "
           "| AVX-512 | chosen | goal |\n",
           one, one);
    puts("|---|---|---|---|---|---|---|---|---|---|---|---|---|");
}

void print_pair(struct pair *pair)
{
    struct both by[WAYS];
    for (int way = PLAIN; way <= CHOSEN; way++)
        by[way] = measure(pair, runs[way]);
    printf("| %s | %s | %u | %u | %u | %u | %.1f | %.1f |", pair->one, pair->beside,
           (unsigned)pair->B, (unsigned)pair->d, (unsigned)pair->r, (unsigned)pair->t,
           by[CHOSEN].one / 1e3, by[CHOSEN].others / 1e3);
    for (int way = PLAIN; way <= CHOSEN; way++)
        if (by[way].one > 0)
            printf(" %.2f |", by[way].one / by[way].others);
        else
            printf(" none |");
    printf(" %.2f |\n", pair->goal);
    fflush(stdout);
    call_free(&pair->call);
    call_free(&pair->other);
}
