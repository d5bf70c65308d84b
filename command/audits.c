/* Audits, the owner's side: draw, judge, cause. */
#include "codes.h"
#include "commands.h"
#include "owner.h"
#include "plan.h"
#include "report.h"
#include "tell.h"

#include <inttypes.h>

/* ---- Draw ---- */

/* Where the plan allows no draw, the wait is told with the refusal. */
static void refuse_draw(const struct options *o, const struct plan *plan, uint64_t result)
{
    uint64_t code = LEGBARO_CODE(result), minutes;
    if (code != LEGBARO_OUTSIDE_WINDOWS)
        turn_away(result, code == LEGBARO_BAD_TIME ? "--at" : path_in(o->folder, "card"));
    minutes = LEGBARO_NUMBER(legbaro_wait(plan->bytes, sizeof plan->bytes, plan->year, plan->month,
                                          plan->day, plan->minute));
    field("code", code);
    field("wait", minutes);
    if (minutes == LEGBARO_WEEK_MINUTES)
        refuse(TURNED_AWAY, "Write the windows of the week into it: legbaro(1), under PLAN.",
               "%s allows no draw at all (code %" PRIu64 ")", plan->path, code);
    refuse(TURNED_AWAY, text("Draw in %s.", wait_words(minutes)),
           "%s allows no draw now (code %" PRIu64 ")", plan->path, code);
}

/* As in changes.c: the call with empty buffers says who has no right, whatever the files are. */
static void needs_right(const struct options *o)
{
    struct bytes none = room(0);
    refuse_without_right(legbaro_cause(o->role, LENT(none), LENT(none), LENT(none)), o);
}

static void tell_drawn(const struct options *o, const struct owner *owner)
{
    uint64_t token = in_card(owner->card, LEGBARO_CARD_OPEN, 4),
             left = in_card(owner->card, LEGBARO_CARD_TOKENS, 4) - token;
    field("token", token);
    field("left", left);
    field_text("file", path_in(o->folder, "message"));
    say(o->again ? "the message of token %" PRIu64 " is written again, %" PRIu64 " %s left"
                 : "token %" PRIu64 " is drawn, %" PRIu64 " %s left",
        token, left, left == 1 ? "is" : "are");
    tell_audit(owner->card);
    say("next: send %s to the host, who runs 'legbaro prove message', and judge the reply",
        path_in(o->folder, "message"));
}

/* A plan that allows every draw at the first minute of a day. */
static struct plan any_time(void)
{
    struct plan plan = {.year = 2000, .month = 1, .day = 1};
    for (size_t at = 0; at < sizeof plan.bytes; at += 4)
        put_number(plan.bytes + at + 2, 2, LEGBARO_DAY_MINUTES - 1);
    return plan;
}

/* Writes the message of the open token once more. It depends on the key and on numbers of the card
 * that no draw changes, so the draw is made on a copy of the card as it was before. The card in the
 * folder stays as it is. */
static int draw_again(const struct options *o, const struct owner *owner)
{
    struct plan plan = any_time();
    struct bytes card = copy_of(owner->card), message = room(LEGBARO_MESSAGE_BYTES);
    const struct piece piece = {message.at, message.length};
    uint64_t open = in_card(card, LEGBARO_CARD_OPEN, 4);
    if (!open)
        turn_away(LEGBARO_NONE_OPEN, path_in(o->folder, "card"));
    put_number(card.at + LEGBARO_CARD_NEXT, 4, open);
    put_number(card.at + LEGBARO_CARD_OPEN, 4, 0);
    uint64_t result =
        legbaro_draw(o->role, LENT(owner->master), LENT(card), LENT(message), plan.bytes,
                     sizeof plan.bytes, plan.year, plan.month, plan.day, plan.minute);
    if (result != LEGBARO_OK)
        turn_away(result, path_in(o->folder, "card"));
    settle(owner);
    store(&owner->folder, "message", 0600, &piece, 1);
    tell_drawn(o, owner);
    return ended(DONE);
}

int run_draw(const struct options *o)
{
    needs_right(o);
    struct plan plan = o->again ? any_time() : read_plan(o);
    struct owner owner = open_owner(o, 1);
    struct bytes message = room(LEGBARO_MESSAGE_BYTES);
    const struct piece piece = {message.at, message.length};
    if (o->again)
        return draw_again(o, &owner);
    uint64_t result =
        legbaro_draw(o->role, LENT(owner.master), LENT(owner.card), LENT(message), plan.bytes,
                     sizeof plan.bytes, plan.year, plan.month, plan.day, plan.minute);
    if (result != LEGBARO_OK)
        refuse_draw(o, &plan, result);
    settle(&owner);
    owner.entry.token = in_card(owner.card, LEGBARO_CARD_OPEN, 4);
    prepare(&owner.folder, "message", 0600, &piece, 1);
    store_card(&owner);
    tell_drawn(o, &owner);
    return ended(DONE);
}

/* ---- Judge and cause ---- */

static uint64_t cause_of(const struct options *o, const struct owner *owner, struct bytes reply)
{
    uint64_t result = legbaro_cause(o->role, LENT(owner->master), LENT(owner->card), LENT(reply));
    if (LEGBARO_CODE(result) != LEGBARO_OK)
        turn_away(result, path_in(o->folder, "card"));
    return LEGBARO_NUMBER(result);
}

static void tell_cause(const char *before, uint64_t cause, const char *next)
{
    field("cause", cause);
    field_text("message", cause_words(cause));
    field_text("next", next);
    say("%scause %" PRIu64 ", %s", before, cause, cause_words(cause));
    say("next: %s", next);
}

int run_cause(const struct options *o)
{
    needs_right(o);
    struct bytes reply = read_small(o->words[0], MOST_TEXT_BYTES, "a reply");
    struct owner owner = open_owner(o, 1);
    uint64_t cause = cause_of(o, &owner, reply);
    tell_cause("", cause, cause_next(cause));
    return ended(cause ? REJECTED : DONE);
}

/* A reply that was cut, mixed up or made from an older table says nothing of the blocks. The draw
 * stays open for another one. */
static void refuse_unjudged(const struct options *o, uint64_t cause)
{
    about(o->words[0]);
    field("cause", cause);
    refuse(TURNED_AWAY,
           text("%s The draw stays open; 'legbaro judge --close' rejects the reply and closes it.",
                cause_next(cause)),
           "%s is not judged: cause %" PRIu64 ", %s", input_words(o->words[0]), cause,
           cause_words(cause));
}

static void tell_verdict(const struct owner *owner, enum status status, uint64_t token,
                         uint64_t cause)
{
    field("token", token);
    field_text("verdict", verdict_word(status));
    if (status == DONE)
        say("ACCEPTED: the host holds every block in the rows that token %" PRIu64 " draws", token);
    else
        tell_cause("REJECTED: ", cause,
                   cause == LEGBARO_CAUSE_DIGEST
                       ? cause_next(cause)
                       : "The draw is closed: draw again, and judge without --close.");
    tell_audit(owner->card);
}

/* The card that closes the draw is written before the verdict is told, and takes its place after: a
 * full disk shows before the verdict, and wherever the command stops the verdict was told or can be
 * had again. */
int run_judge(const struct options *o)
{
    needs_right(o);
    struct bytes reply = read_small(o->words[0], MOST_TEXT_BYTES, "a reply");
    struct owner owner = open_owner(o, 1);
    uint64_t token = in_card(owner.card, LEGBARO_CARD_OPEN, 4), cause = cause_of(o, &owner, reply);
    if (cause && cause != LEGBARO_CAUSE_DIGEST && !o->close)
        refuse_unjudged(o, cause);
    uint64_t result = legbaro_judge(o->role, LENT(owner.master), LENT(owner.card), LENT(reply));
    enum status status = result == LEGBARO_OK ? DONE : REJECTED;
    settle(&owner);
    owner.entry.token = token;
    owner.entry.verdict = verdict_word(status);
    owner.entry.cause = cause;
    prepare_card(&owner);
    tell_verdict(&owner, status, token, cause);
    ended(status);
    place_card(&owner);
    return (int)status;
}
