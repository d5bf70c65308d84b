/* The time zone that the environment's TZ names. */
#ifndef ZONE_H
#define ZONE_H

/* Ends the program where TZ names no zone: neither a file of the zone database nor a rule of
 * POSIX, as in CET-1CEST,M3.5.0,M10.5.0/3. The C library takes such a TZ for UTC and says
 * nothing. */
void check_zone(void);

#endif
