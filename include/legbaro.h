/*
 * Legbaro: provable data possession of a car park's tick file.
 *
 * The owner keeps a 32-byte master key, and for each file a card of 43 or 63 bytes. The host keeps
 * the file's blocks, their marks in versions 2 and 3, and a table of sealed tokens.
 *
 *   set up    The owner cuts the file into n blocks and gets a card and a table. Blocks and table
 *             go to the host.
 *   change    The owner fetches the table, and the blocks to be changed with their marks. It
 *             updates, deletes, appends or loads, or makes several updates and deletions in one
 *             batch. Then it sends the table back.
 *   audit     The owner draws a message and sends it. The host answers with a reply, its proof.
 *             The owner judges the reply.
 *   rebuild   The owner rebuilds lost blocks from the others and their parity, a file of its own.
 *
 * This file has what all calls share: files, roles, buffers, results, keys and cards, totals. It
 * includes five parts. Each call's manual is there, beside its declaration:
 *
 *   legbaro/changes.h    set-up; update, delete, append, load, batch, in one step or asked;
 *                        commit, drop
 *   legbaro/audits.h     draw, wait, judge, cause; the host's proof
 *   legbaro/pools.h      one reply for several files: the owner judges it, the host makes it
 *   legbaro/planning.h   positions, sheet
 *   legbaro/parity.h     parity blocks of a file: encode, rebuild
 *
 * "SPEC 5.4" is section 5.4 of docs/SPEC.md in the sources, which defines every record and call.
 */
#ifndef LEGBARO_H
#define LEGBARO_H

/* The version of the library and of the command. */
#define LEGBARO_VERSION_MAJOR 1
#define LEGBARO_VERSION_MINOR 0
#define LEGBARO_VERSION_PATCH 0
#define LEGBARO_VERSION "1.0.0"

/*
 * FILES. A file is n blocks of B bytes, numbered from 1. They lie in d rows: block m is in row
 * ((m-1) mod d) + 1 and column (m-1) div d. A token draws r of the d rows and covers every block
 * in them. Each audit spends one of the t tokens.
 *
 * The rows are planned: d is fixed at set-up, and n may be less than d, equal or more. Rows above
 * n are empty and add nothing to a token, which then covers those of its r rows that have a block.
 * Later blocks fill the rows, and then begin a new column. legbaro_positions computes the r that a
 * file with fewer blocks than rows needs.
 *
 * The version of a file is fixed at set-up. Its card, token records, messages and replies have it.
 * In versions 2 and 3 each block has a mark, which is hashed with it (changes.h, MARKS). Version 3
 * also takes changes in two steps, and its card is longer, to keep what is pending. All else is as
 * in version 2. Use version 2 or 3 for a new file.
 */
#define LEGBARO_WITHOUT_MARKS 1
#define LEGBARO_WITH_MARKS 2
#define LEGBARO_TWO_STEPS 3 /* with marks too */
#define LEGBARO_LIVE 0
#define LEGBARO_DELETED 1

/*
 * ROLES. Each call that takes a card takes the caller's role, as its first argument. Set-up and the
 * calls without a card take none. Who has permission:
 *
 *                                             surveyor   planner   manager
 *   append, load; the same asked              yes        yes       no
 *   update, delete, batch; the same asked     no         yes       no
 *   commit, drop                              no         yes       no
 *   draw, judge, cause, judge a pool          no         yes       yes
 *
 * A role without permission, and a number that is no role, is refused with LEGBARO_NO_RIGHT before
 * any other check. That answer depends on the role and the call alone, and shows nothing of the
 * other arguments. A permitted call returns and writes the same in every role. The library takes
 * the role as given: the calling program must know who is at the screen, and in which role.
 */
#define LEGBARO_SURVEYOR 1
#define LEGBARO_PLANNER 2
#define LEGBARO_MANAGER 3

/*
 * BUFFERS. A buffer is a pointer and its length in bytes. The caller's duties, which nothing
 * checks:
 *   - The pointer has as many readable bytes as the length says, and they are writable where the
 *     call writes the buffer.
 *   - The pointer is not null, for an empty buffer too.
 *   - No two buffers of one call overlap, and no other thread writes them during the call.
 * The library checks lengths. Any length may be passed, and a wrong one is refused.
 *
 * The library keeps nothing between calls, allocates nothing, and needs less than 64 KB of stack.
 * Calls on separate buffers may run at the same time. It runs on every x86-64 processor. It uses
 * AVX2 or AVX-512 where the processor has them when the program is loaded; what it writes is the
 * same. Time and other side channels are not covered.
 *
 * Sizes in bytes. A table has LEGBARO_RECORD_BYTES for each token.
 */
#define LEGBARO_MASTER_BYTES 32
#define LEGBARO_ID_BYTES 8
#define LEGBARO_CARD_BYTES 43          /* in versions 1 and 2 */
#define LEGBARO_TWO_STEP_CARD_BYTES 63 /* in version 3 */
#define LEGBARO_RECORD_BYTES 63
#define LEGBARO_MESSAGE_BYTES 91
#define LEGBARO_REPLY_BYTES 110
#define LEGBARO_PLAN_BYTES 28
#define LEGBARO_TOTALS_BYTES 16
#define LEGBARO_SHEET_BYTES 40
#define LEGBARO_POOLED_BYTES(files) (37 + 75 * (files)) /* a pooled reply of so many files */

/* Limits. The least of each number is 1, but that of a counter is 0, and that of a pool 2 files. */
#define LEGBARO_MOST_BLOCK_BYTES 4096 /* B */
#define LEGBARO_MOST_ROWS 1048576     /* d */
#define LEGBARO_MOST_POSITIONS 512    /* r, which is never above d */
#define LEGBARO_MOST_TOKENS 65536     /* t */
#define LEGBARO_MOST_BLOCKS 16777216  /* n, which may be below d, equal or above */
#define LEGBARO_MOST_ITEMS 64         /* the items of a batch */
#define LEGBARO_LEAST_POOLED 2        /* the files of a pooled reply */
#define LEGBARO_MOST_POOLED 16
#define LEGBARO_MOST_COUNTER 4294967295u

/* The minutes of a day, which are numbered from 0, and those of a week. */
#define LEGBARO_DAY_MINUTES 1440
#define LEGBARO_WEEK_MINUTES 10080

/*
 * RESULT. Each call returns code + 256 * number.
 *
 * Code 0 means that the call is done, or that a reply is accepted. Code 11, LEGBARO_REJECTED, is
 * the other verdict on a reply. Any other code is a refusal: the call leaves every buffer as it
 * was.
 *
 * The number is 0 except in two cases. With LEGBARO_BAD_RECORD it is a token. From
 * legbaro_positions, legbaro_wait and legbaro_cause, with code 0, it is the answer.
 *
 * Each manual lists the call's codes in the order of its checks. The first check that fails decides
 * the code. The buffers that a 1 is about are in parentheses. There is no code 20.
 */
#define LEGBARO_OK 0
#define LEGBARO_WRONG_LENGTH 1        /* a buffer has the wrong length */
#define LEGBARO_WRONG_HEADER 2        /* wrong length field or version; an ask below version 3 */
#define LEGBARO_OUT_OF_LIMITS 3       /* a number or a field is outside its limits */
#define LEGBARO_NO_SUCH_BLOCK 4       /* a block number is 0 or above n */
#define LEGBARO_FILE_FULL 5           /* n would be above LEGBARO_MOST_BLOCKS */
#define LEGBARO_NO_TOKEN_LEFT 6       /* draw after the last token */
#define LEGBARO_BAD_RECORD 7          /* unused records do not open; the number is the lowest one */
#define LEGBARO_TOKEN_OPEN 8          /* change, ask or draw while a drawn token is not judged */
#define LEGBARO_NONE_OPEN 9           /* judge, cause or judge a pool while no token is open */
#define LEGBARO_COUNTER_AT_MOST 10    /* change or ask after LEGBARO_MOST_COUNTER was issued */
#define LEGBARO_REJECTED 11           /* verdict: the reply does not prove possession */
#define LEGBARO_NOT_WHOLE_BLOCKS 12   /* load of no bytes, or of a length that B does not divide */
#define LEGBARO_TOO_MANY_POSITIONS 13 /* the positions are above LEGBARO_MOST_POSITIONS */
#define LEGBARO_BAD_BATCH 14          /* items: none, too many, cut, no such kind, not rising */
#define LEGBARO_BAD_MARK 15           /* a mark is neither LEGBARO_LIVE nor LEGBARO_DELETED */
#define LEGBARO_BAD_TIME 16           /* no such date or minute, or outside the limits */
#define LEGBARO_OUTSIDE_WINDOWS 17    /* draw at a time that the plan does not allow */
#define LEGBARO_CHANGE_PENDING 18     /* change, ask or draw while a change is pending */
#define LEGBARO_NONE_PENDING 19       /* commit or drop while no change is pending */
#define LEGBARO_TOO_MANY_DAMAGED 21   /* a sheet for more damaged rows than there are rows */
#define LEGBARO_NO_RIGHT 22           /* no such role, or one without permission for the call */
#define LEGBARO_BAD_POOL 23           /* too few or too many files, or an id that occurs twice */
#define LEGBARO_BAD_GROUP 24          /* sizes of a group; a lost block twice, or not in it */
#define LEGBARO_TOO_MANY_LOST 25      /* more blocks are lost than the group has parity blocks */

/* The two parts of a result: the code, and the number. With LEGBARO_BAD_RECORD it is a token. */
#define LEGBARO_CODE(result) ((result) % 256)
#define LEGBARO_NUMBER(result) ((result) / 256)
#define LEGBARO_TOKEN(result) LEGBARO_NUMBER(result)

/* Why judge rejects a reply: the number that legbaro_cause gives. It is 0 where judge accepts. */
#define LEGBARO_CAUSE_SIZE 1    /* the reply is not LEGBARO_REPLY_BYTES long */
#define LEGBARO_CAUSE_HEADER 2  /* length field or version of the reply, or of its record */
#define LEGBARO_CAUSE_NAME 3    /* file id or token number, in reply or record, is another */
#define LEGBARO_CAUSE_COUNTER 4 /* the record was sealed at another counter than the card's */
#define LEGBARO_CAUSE_TAG 5     /* the record's tag does not hold */
#define LEGBARO_CAUSE_DIGEST 6  /* the digest is not the token that the record holds */

/*
 * KEYS AND CARDS. The owner's duties, which the library cannot check:
 *   - The master key is 32 random bytes, and the host never sees it.
 *   - A master key and a file id are set up once only. A second set-up seals other tokens under the
 *     same nonces, and whoever sees both tables can read tokens.
 *   - A card that a call has written replaces the one before. Store it before the table that the
 *     same call wrote is sent. An older copy must not be used again, for the same reason.
 *   - The old block that an update or a deletion takes, alone or in a batch, is the one that the
 *     file holds. In versions 2 and 3 the old mark is its mark. Others are taken as they are, and
 *     then the tokens that cover the block no longer fit the file.
 *   - The totals of set-up and of changes stay with the owner (changes.h, TOTALS).
 *
 * "Of the file's version" means LEGBARO_CARD_BYTES in versions 1 and 2, and
 * LEGBARO_TWO_STEP_CARD_BYTES in version 3. Code 1 is a card of neither length. Code 2 is a card
 * whose length, length field and version do not belong together. Code 3 is one with a field outside
 * its limits (SPEC 6.2, 6.3).
 *
 * Only the library writes cards. For callers that inspect one: big-endian numbers, each at its
 * offset, after a two-byte length of what follows, 41 or 61. The last three are in version 3 only.
 */
#define LEGBARO_CARD_VERSION 2          /* 1 byte */
#define LEGBARO_CARD_ID 3               /* 8 bytes: the file id */
#define LEGBARO_CARD_BLOCK_BYTES 11     /* 2 bytes: B */
#define LEGBARO_CARD_ROWS 13            /* 4 bytes: d */
#define LEGBARO_CARD_POSITIONS 17       /* 2 bytes: r */
#define LEGBARO_CARD_TOKENS 19          /* 4 bytes: t */
#define LEGBARO_CARD_BLOCKS 23          /* 4 bytes: n, the number of blocks */
#define LEGBARO_CARD_COUNTER 27         /* 8 bytes: that of the standing table; 0 after set-up */
#define LEGBARO_CARD_NEXT 35            /* 4 bytes: the token to draw next; t + 1 after the last */
#define LEGBARO_CARD_OPEN 39            /* 4 bytes: the token drawn and not judged; 0 for none */
#define LEGBARO_CARD_LAST_ISSUED 43     /* 8 bytes: the last counter that a change or ask took */
#define LEGBARO_CARD_PENDING_COUNTER 51 /* 8 bytes: that of the pending change; 0 for none */
#define LEGBARO_CARD_PENDING_BLOCKS 59  /* 4 bytes: the number of blocks after it; 0 for none */

/*
 * TOTALS. Hosts charge by what they compute. Set-up, the proof and each change, asked or in one
 * step, write two big-endian numbers, each at its offset:
 *   turns     how often the eight rounds of the permutation were applied. A walk takes one turn or
 *             more. It leads from a position to the row that it draws, or from a row back to its
 *             position
 *   hashes    how many blocks of B bytes were hashed
 * Not counted: hashes that make keys (HMAC), sealing, and what the library computes ahead to be
 * faster, such as a table of the round function. So totals depend on the arguments alone, and not
 * on the processor or on the way in which the library computes a token (SPEC 5.4).
 *
 * A walk takes at most R - d + 1 turns. R is the least power of 4 that is d or more, and at least
 * 4. changes.h says what a change counts, and which totals the host must not see. audits.h has the
 * bounds for a proof.
 */
#define LEGBARO_TOTALS_TURNS 0  /* 8 bytes */
#define LEGBARO_TOTALS_HASHES 8 /* 8 bytes: of blocks */

/*
 * An item of a batch, in a file of the version given and with blocks of B bytes: the offset of each
 * field, and the size of the item.
 *
 *   KIND   1 byte: LEGBARO_ITEM_UPDATE or LEGBARO_ITEM_DELETE
 *   BLOCK  4 bytes, big-endian: the block number
 *   OLD    B bytes: the block as it is; zero bytes for a deleted one
 *   MARK   1 byte, not in version 1: the mark as it is
 *   NEW    B bytes: the block as it becomes; not read for a deletion
 *   BYTES  the size: the next item begins here
 */
#define LEGBARO_ITEM_KIND 0
#define LEGBARO_ITEM_BLOCK 1
#define LEGBARO_ITEM_OLD 5
#define LEGBARO_ITEM_MARK(B) (5 + (B))
#define LEGBARO_ITEM_NEW(version, B) (5 + (B) + ((version) == 1 ? 0 : 1))
#define LEGBARO_ITEM_BYTES(version, B) (LEGBARO_ITEM_NEW(version, B) + (B))

/* The kinds of an item. */
#define LEGBARO_ITEM_UPDATE 1
#define LEGBARO_ITEM_DELETE 2

/* The calls. */
#include "legbaro/audits.h"
#include "legbaro/changes.h"
#include "legbaro/parity.h"
#include "legbaro/planning.h"
#include "legbaro/pools.h"

#endif
