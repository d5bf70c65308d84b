/* Risk and reading of a planned file as a picture. */
#ifndef PICTURE_H
#define PICTURE_H

#include "numbers.h"
#include "options.h"

/* Writes an SVG file with three plots, the planned numbers marked in each: the chance of escape
 * against the positions for several losses, the chance against the damaged rows for several
 * positions, and the hashes of a proof against the positions. The numbers are ones that the library
 * takes. */
void write_picture(const struct options *options, const struct numbers *of);

#endif
