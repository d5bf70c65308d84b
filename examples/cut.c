/* A reply that is cut on the way: its cause is asked for before it is judged, and the token is not
 * lost. */
#include "scenes.h"

#include <stdio.h>

void cut_reply(void)
{
    puts("\nA REPLY CUT ON THE WAY");
    draw();
    prove();
    puts("  The line drops, and half of the reply arrives. The owner asks why it would be "
         "rejected.");
    copy_file("host/reply", "host/reply-whole");
    resize_file("host/reply", LEGBARO_REPLY_BYTES / 2);
    tell_cause(LEGBARO_CAUSE_SIZE);
    puts("  Nothing is written, and the token stays open. The host sends its reply again.");
    copy_file("host/reply-whole", "host/reply");
    tell_cause(0);
    judge(LEGBARO_OK);
}
