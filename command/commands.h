/* The commands. Each reads what it is told, makes one call of the library, and answers the exit
 * status: legbaro(1). */
#ifndef COMMANDS_H
#define COMMANDS_H

#include "options.h"

/* The owner's: set_up.c, changes.c, audits.c, wait.c, show.c. */
int run_key(const struct options *options);
int run_set_up(const struct options *options);
int run_append(const struct options *options);
int run_load(const struct options *options);
int run_update(const struct options *options);
int run_delete(const struct options *options);
int run_batch(const struct options *options);
int run_commit(const struct options *options);
int run_drop(const struct options *options);
int run_draw(const struct options *options);
int run_wait(const struct options *options);
int run_judge(const struct options *options);
int run_cause(const struct options *options);
int run_show(const struct options *options);

/* Of several folders, and of what happened: status.c, log.c, page.c. The list of commands:
 * main.c. */
int run_status(const struct options *options);
int run_log(const struct options *options);
int run_report(const struct options *options);
int run_help(const struct options *options);

/* The host's: apply.c, prove.c. */
int run_apply(const struct options *options);
int run_prove(const struct options *options);

/* Of several files under one key: pools.c. */
int run_pool(const struct options *options);
int run_judge_pool(const struct options *options);

/* For who plans, and beside the file: sheet.c, parity.c. */
int run_positions(const struct options *options);
int run_sheet(const struct options *options);
int run_parity_encode(const struct options *options);
int run_parity_check(const struct options *options);
int run_parity_rebuild(const struct options *options);

#endif
