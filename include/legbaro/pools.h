/*
 * Pooled replies: one reply and one verdict for several files at one host. A part of legbaro.h,
 * which has what all calls share.
 *
 *   legbaro_judge_pool    the owner's: the verdict on a pooled reply
 *   legbaro_pool          the host's: makes one of several replies
 */
#ifndef LEGBARO_POOLS_H
#define LEGBARO_POOLS_H

#include <stddef.h>
#include <stdint.h>

#ifdef __cplusplus
extern "C" {
#endif

/* clang-format off */

/*
 * Judge a pooled reply: 0 where it fits the drawn files, otherwise LEGBARO_REJECTED.
 *
 *   role       LEGBARO_PLANNER or LEGBARO_MANAGER
 *   master     LEGBARO_MASTER_BYTES: all files are under this one
 *   cards      LEGBARO_LEAST_POOLED to LEGBARO_MOST_POOLED cards end to end, of any versions, each
 *              of its version's size, in the order in which the host pooled. Written by either
 *              verdict: no token is open in any of them, and nothing else changes
 *   reply      what the host sent, of any length
 *
 * The steps of a pooled audit:
 *   1. The owner draws each file and sends the messages.
 *   2. The host proves each of them, and makes one pooled reply of the replies.
 *   3. The owner judges it, and stores all cards that were written in place of those before.
 *
 * A reply is accepted exactly where all of these hold (SPEC 6.7, 10.10):
 *   - It has LEGBARO_POOLED_BYTES of as many files as there are cards, its own length field,
 *     version 1 and that number of files.
 *   - For each card in turn it has the card's file id, its open token, and a record that passes as
 *     for legbaro_judge, in the card's version.
 *   - Its xor is the xor of the tokens that these records hold.
 *
 * WHAT IT SHOWS. A pooled reply holds the record of each file, and in place of the digests their
 * xor. That is less than the single replies show. Where two digests differ from the correct ones in
 * the same bits, the differences cancel and the reply is accepted. The same holds of three or more
 * digests whose differences together cancel. A lost or altered block does not cause that by chance,
 * but the host makes the digests and could choose them so. For that it needs the xor of the correct
 * digests, and not each of them. So an accepted pooled reply shows that the host could compute the
 * xor of all tokens drawn. It does not show that the host could compute each. Where that matters,
 * judge singly.
 *
 * A rejection does not say which file it was, and every draw is closed. Draw those files again, and
 * judge their replies singly.
 *
 * Codes: 22; for each card in turn 1 (less is left than a length field), 2 (the length field is not
 * a card's), 1 (less is left than that card); then 1 (master), 2 (any card), 3 (any card), 23
 * (number of cards, or a file id twice), 9 (any card has no token open), and the verdict 0 or 11.
 */
uint64_t legbaro_judge_pool(uint64_t role,
                            const uint8_t *master, size_t master_length,
                            uint8_t *cards, size_t cards_length,
                            const uint8_t *reply, size_t reply_length);

/*
 * Pool, the host's call: makes one pooled reply of several replies. It is a convenience for hosts.
 * The scheme's papers fix the layout of a pooled reply (SPEC 6.7), and no call that makes one. This
 * call and its codes are our choice. A host may build the same bytes itself.
 *
 *   replies    LEGBARO_LEAST_POOLED to LEGBARO_MOST_POOLED replies end to end, of
 *              LEGBARO_REPLY_BYTES each, as legbaro_prove wrote them, in the order of the owner's
 *              cards
 *   pooled     LEGBARO_POOLED_BYTES of as many files, written
 *
 * It needs no key, and checks lengths and versions alone: replies that legbaro_judge would reject
 * are pooled too, and so are two for one file.
 *
 * If legbaro_judge would accept each of these replies on its card, and no two cards have one file
 * id, then legbaro_judge_pool accepts the pooled reply on these cards in this order. Two cards with
 * one file id are refused there with 23.
 *
 * Codes: 1 (replies: not a multiple of LEGBARO_REPLY_BYTES), 2 (any reply's length field or
 * version), 23 (too few or too many replies), 1 (pooled).
 */
uint64_t legbaro_pool(const uint8_t *replies, size_t replies_length,
                      uint8_t *pooled, size_t pooled_length);

/* clang-format on */

#ifdef __cplusplus
}
#endif

#endif
