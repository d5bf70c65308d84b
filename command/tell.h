/* What several commands tell: a number outside its limits, a role without a right, and totals. */
#ifndef TELL_H
#define TELL_H

#include "files.h"
#include "options.h"

/* Says which of the numbers told is outside its limits, and ends the program with status
 * TURNED_AWAY. */
void refuse_limits(const struct options *options, uint64_t blocks);

/* Ends the program where a result says that the role has no right. */
void refuse_without_right(uint64_t result, const struct options *options);

/* Says how many blocks an audit of a card's file looks at, and warns where it may be none. */
void tell_audit(struct bytes card);

/* Tells turns and hashes. */
void tell_totals(struct bytes totals);

#endif
