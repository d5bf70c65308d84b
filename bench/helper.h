/* This program once more, as a helper whose libcrypto uses no SHA instructions: it answers how long
 * the reference implementation takes. */
#ifndef HELPER_H
#define HELPER_H

/* Starts the helper and ends it. What can't be done ends the program. */
void helper_start(const char *program);
void helper_end(void);

/* The helper's nanoseconds for one of so many calls of a row. */
double helper_timed(int row, unsigned calls);

/* What the helper itself does: it answers every question, a row and how many calls, by what it is
 * given. */
void help(double (*timed)(int row, unsigned calls));

/* The word that makes the program the helper. */
#define HELPER "--helper"

#endif
