/* The command wait, and wait.h. */
#define _GNU_SOURCE
#include "wait.h"
#include "clock.h"
#include "commands.h"
#include "files.h"
#include "report.h"
#include "zone.h"

#include <inttypes.h>

uint64_t next_opening(const struct plan *plan, struct opening *opening)
{
    uint64_t result = legbaro_wait(plan->bytes, sizeof plan->bytes, plan->year, plan->month,
                                   plan->day, plan->minute);
    opening->minutes = LEGBARO_NUMBER(result);
    if (LEGBARO_CODE(result) != LEGBARO_OK)
        return LEGBARO_CODE(result);
    struct tm local = {
        .tm_year = (int)plan->year - 1900,
        .tm_mon = (int)plan->month - 1,
        .tm_mday = (int)plan->day,
        .tm_min = (int)(plan->minute + opening->minutes),
        .tm_isdst = -1,
    };
    check_zone();
    mktime(&local);
    opening->local = local;
    return LEGBARO_OK;
}

static const char *moment_words(const struct tm *local)
{
    char words[64];
    strftime(words, sizeof words, "%a %Y-%m-%d at %H:%M", local);
    return text("%s (%s)", words, zone_words(local));
}

int run_wait(const struct options *o)
{
    struct plan plan = read_plan(o);
    struct opening opening;
    uint64_t code = next_opening(&plan, &opening);
    char at[64];
    if (code != LEGBARO_OK)
        turn_away(code, "--at");
    field("minutes", opening.minutes);
    if (opening.minutes == LEGBARO_WEEK_MINUTES) {
        say("%s allows no draw at all", plan.path);
        return ended(REJECTED);
    }
    strftime(at, sizeof at, "%Y-%m-%dT%H:%M", &opening.local);
    field_text("allowed", at);
    field_text("zone", zone_words(&opening.local));
    if (opening.minutes)
        say("a draw is allowed on %s, in %s (%" PRIu64 " minutes)", moment_words(&opening.local),
            wait_words(opening.minutes), opening.minutes);
    else
        say("a draw is allowed now, %s", moment_words(&opening.local));
    return ended(opening.minutes ? REJECTED : DONE);
}
