/* Colour for a verdict, on a terminal alone. */
#ifndef COLOUR_H
#define COLOUR_H

/* A line for people. Where it begins with ACCEPTED or REJECTED, that word is green or red if
 * standard output is a terminal that knows colours, and the environment's NO_COLOR is unset or
 * empty. */
const char *colour_of(const char *line);

#endif
