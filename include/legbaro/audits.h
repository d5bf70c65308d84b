/*
 * Audits. A part of legbaro.h, which has what all calls share.
 *
 *   legbaro_draw     the owner's: opens the next token and writes the message for it
 *   legbaro_wait     the owner's: the minutes until a draw is allowed
 *   legbaro_judge    the owner's: the verdict on a reply
 *   legbaro_cause    the owner's: why judge would reject a reply
 *   legbaro_prove    the host's: the reply to a message
 */
#ifndef LEGBARO_AUDITS_H
#define LEGBARO_AUDITS_H

#include <stddef.h>
#include <stdint.h>

#ifdef __cplusplus
extern "C" {
#endif

/* clang-format off */

/*
 * Draw: opens the next token and writes the message that challenges the host for it.
 *
 *   role       LEGBARO_PLANNER or LEGBARO_MANAGER
 *   master     LEGBARO_MASTER_BYTES
 *   card       of the file's version, written: next becomes open, and next rises by 1
 *   message    LEGBARO_MESSAGE_BYTES, written
 *   plan       LEGBARO_PLAN_BYTES: the weekly schedule
 *   year, month, day, minute   the time now
 *
 * The message holds the keys of this token and of no other. Until the reply is judged, no change,
 * no ask and no further draw is accepted (8). While a change is pending nothing is drawn (18):
 * commit or drop the change first.
 *
 * PLAN. A host reads slowly while shops trade, so draws have weekly windows. For each weekday,
 * Monday first, the plan holds the minute at which its window opens and the minute at which it
 * closes. Each has 2 bytes, big-endian, and is from 0 to 1,439.
 *   - Draws are allowed from the first minute on, and no longer at the second one.
 *   - Where the two are equal, the day has no window.
 *   - Where the second is the smaller one, the window runs past midnight into the next day,
 *     Sunday's into Monday. A second minute of 0 is midnight.
 *   - A minute is allowed by the window of its own day or by that of the day before.
 *
 * TIME. A Gregorian date from 1 January 2000 to 31 December 2099, and a minute of the day from 0 to
 * 1,439, in the time that the plan is meant in. The library has no clock: the caller gives the time
 * of the owner's clock, and nothing checks it.
 *
 * Codes: 22, 16, 1 (master, card, message, plan), 2, 3 (card, plan), 17, 8, 18, 6. With 17
 * legbaro_wait gives the minutes to wait.
 */
uint64_t legbaro_draw(uint64_t role,
                      const uint8_t *master, size_t master_length,
                      uint8_t *card, size_t card_length,
                      uint8_t *message, size_t message_length,
                      const uint8_t *plan, size_t plan_length,
                      uint64_t year, uint64_t month, uint64_t day, uint64_t minute);

/*
 * Wait: how many minutes there are until the plan allows a draw. It writes nothing.
 *
 *   plan       LEGBARO_PLAN_BYTES: the weekly schedule, as for legbaro_draw
 *   year, month, day, minute   the time now, as for legbaro_draw
 *
 * Returns code 0 and the number of minutes. It is 0 where a draw is allowed now, and
 * LEGBARO_WEEK_MINUTES where it never is. A wait may lead past 31 December 2099.
 *
 * Codes: 16, 1 (plan), 3 (plan).
 */
uint64_t legbaro_wait(const uint8_t *plan, size_t plan_length,
                      uint64_t year, uint64_t month, uint64_t day, uint64_t minute);

/*
 * Judge: 0 where the reply proves that the host holds the rows drawn as they are now, otherwise
 * LEGBARO_REJECTED.
 *
 *   role       LEGBARO_PLANNER or LEGBARO_MANAGER
 *   master     LEGBARO_MASTER_BYTES
 *   card       of the file's version, with a token open. Written by either verdict: no token is
 *              open any more
 *   reply      what the host sent, of any length
 *
 * To learn why a reply is rejected, call legbaro_cause before legbaro_judge. SPEC 10.7 lists what
 * an accepted reply fulfils.
 *
 * Codes: 22, 1 (master, card), 2, 3, 9, then the verdict 0 or 11.
 */
uint64_t legbaro_judge(uint64_t role,
                       const uint8_t *master, size_t master_length,
                       uint8_t *card, size_t card_length,
                       const uint8_t *reply, size_t reply_length);

/*
 * Cause: why judge would reject a reply. It writes nothing, and the token stays open.
 *
 *   role       LEGBARO_PLANNER or LEGBARO_MANAGER
 *   master     LEGBARO_MASTER_BYTES
 *   card       of the file's version, with the token open: call this before judge, which closes it
 *   reply      what the host sent, of any length
 *
 * Returns code 0 and a number. It is 0 exactly where judge would accept the reply, otherwise the
 * first of these causes that holds. What it means, and what to ask of the host:
 *
 *   LEGBARO_CAUSE_SIZE      The reply was cut or lengthened on the way, or is not a reply. Send it
 *                           again.
 *   LEGBARO_CAUSE_HEADER    The reply or its record has another version than the file, or is not
 *                           such a record. Use the program and the table that belong to the file.
 *   LEGBARO_CAUSE_NAME      This answers another message or is for another file, or it has another
 *                           token's record. Answer the message drawn last, from this file's table.
 *   LEGBARO_CAUSE_COUNTER   The table is older than the last change, or is that of a change that
 *                           was not kept or was dropped. Use the standing table: the one sent last
 *                           or, with changes in two steps, the one committed last.
 *   LEGBARO_CAUSE_TAG       The token's record was altered. Use a copy of the standing table. If
 *                           the replies for all files have this cause, the master key is wrong.
 *   LEGBARO_CAUSE_DIGEST    The record is sound. A block or a mark in the rows drawn is not the
 *                           file's, or the digest was altered. The host has lost or altered data.
 *
 * A reply that was damaged on its way may be sent again and then judged, since the token stays
 * open.
 *
 * Codes: 22, 1 (master, card), 2, 3, 9, as judge's.
 */
uint64_t legbaro_cause(uint64_t role,
                       const uint8_t *master, size_t master_length,
                       const uint8_t *card, size_t card_length,
                       const uint8_t *reply, size_t reply_length);

/*
 * Prove, the host's call: writes the reply to a message. Version and numbers are the message's.
 *
 *   message    LEGBARO_MESSAGE_BYTES, from the owner
 *   blocks     n * B bytes: all blocks end to end
 *   marks      n bytes: the mark of each block; in version 1 empty
 *   table      the standing table, whole. At least i * LEGBARO_RECORD_BYTES are needed, where i is
 *              the message's token
 *   reply      LEGBARO_REPLY_BYTES, written
 *   totals     LEGBARO_TOTALS_BYTES, written: the turns of the r walks, one from each position, and
 *              the hashes of all blocks in the rows drawn. They are the host's own
 *
 * BOUNDS on the totals, which may be quoted beforehand; legbaro_sheet computes them. With R as in
 * legbaro.h, the r walks take at most R - d + r turns together. With q = n div d and s = n mod d
 * there are r * q hashes and some more: at least r - (d - s), or 0 where that is below 0, and at
 * most the lesser of r and s.
 *
 * ORDER. Only blocks of the rows drawn are read: position by position, and in a row from the newest
 * column back to the oldest. That is the order in which each block is first touched. A host that
 * maps its blocks from a file may rely on it, and keep newer columns on faster disks. From the
 * first touch of a block on, at most fifteen further blocks are touched before it has been read to
 * its end. After that it is not read again.
 *
 * Codes: 1 (message, reply, totals), 2, 3, 1 (blocks, marks, table), 15.
 */
uint64_t legbaro_prove(const uint8_t *message, size_t message_length,
                       const uint8_t *blocks, size_t blocks_length,
                       const uint8_t *marks, size_t marks_length,
                       const uint8_t *table, size_t table_length,
                       uint8_t *reply, size_t reply_length,
                       uint8_t *totals, size_t totals_length);

/* clang-format on */

#ifdef __cplusplus
}
#endif

#endif
