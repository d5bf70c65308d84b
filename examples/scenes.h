/* What the scenes share: the car parks' samples, what is told, and the steps of an audit. */
#ifndef SCENES_H
#define SCENES_H

#include "parties.h"

enum { TICKS_A_DAY = 24, A_WEEK = 7 * TICKS_A_DAY };

/* The first car park's corrections in one batch: morning.c. */
void morning(void);

/* A reply of the first car park's host that is cut on the way: cut.c. */
void cut_reply(void);

/* A second car park, with a month in one load: month.c. */
void new_centre(void);

/* A third car park, which is closed for a day, in a file of each version: closed.c. */
void closed_days(void);

/* A fourth car park, whose line drops in the middle of a change: steps.c. */
void dropped_line(void);

/* A fifth car park, where surveyor, planner and manager try what is not theirs: roles.c. */
void who_may(void);

/* Three more car parks at one host, audited with one reply: chain.c. */
void chain(void);

/* One more car park, with parity blocks as a file of their own: parity.c. */
void parity_beside(void);

/* The samples of so many hours, end to end, counted from a car park's first: which of its bays are
 * taken, a byte for each. */
struct bytes samples(unsigned bays, unsigned first_hour, unsigned hours);

/* Says how a step came out, and notes whether that is what a planner expects; answers how many
 * steps came out otherwise. */
void tell(const char *step, uint64_t result, uint64_t expected);
int surprises(void);

/* Says which files a party has and how large they are; what the card says. */
void tell_files(const char *party);
void tell_card(void);

/* Says what the owner's last accepted change, or the host's last proof, took. */
void tell_work(const char *party);

/* The first step of an audit, in closing hours or at a time with the code that is expected; and the
 * other two with the verdict that is expected, together or each alone, or for a reply that is
 * rejected with its cause. The manager draws and judges. */
void draw(void);
void draw_at(struct moment now, uint64_t code);
void prove(void);
void judge(uint64_t verdict);
void prove_and_judge(uint64_t verdict);
void prove_and_reject(uint64_t cause);

/* Asks for the cause of a rejection, and says what the planner tells the host; notes whether it is
 * the one expected. */
void tell_cause(uint64_t expected);

#endif
