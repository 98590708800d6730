/* The message core of a gateway for Weave messages (format 1.3): reading, writing and framing of messages, the table that
 * tells a message heard before from a new one, its saving and restoring, and the acknowledgement. The archive is for x86-64.
 *
 * Answers.   Every function gives the number of the first refusal that applies, 0 for none. A refused call leaves all that it
 *            was lent as it was, but for `offset`. Any bytes, numbers and table contents get an answer; what they hold need not
 *            be checked.
 * Offset.    A call that reads a message and refuses puts the byte at fault into `offset`, counted from 0; a call that refuses
 *            nothing leaves `offset` as it was. For refusal 1 it is KABIZARLE_LONGEST, for 2 the length of the message, for 3 to 6
 *            the header's first byte, 0. For others it is the first byte of the field: 7 key id, 8 source, 9 destination, 10 and
 *            11 exchange header, 12 tunnel version, 13 and 27 packet. For 15 to 20 it is 0: those are about no byte of the message.
 * Memory.    The caller owns all of it. The library has no heap and no global state, and keeps no pointer after a call.
 *            An array is lent at its full size, and no two things that are lent to one call may overlap. A pointer whose
 *            length is 0 may be NULL; no other may, `offset` and `written` neither.
 * Lengths.   Any number is a length. What is longer than a message can be, or than all saved rows can be, is refused and not read,
 *            but for the first byte of a payload and the first six of a packet; of a stream the first two bytes are read. No more of a
 *            room is written than is needed. Past PTRDIFF_MAX, which no object has, this is tested and not proved.
 * Threads.   One caller at a time for one table; calls with different tables may run at once.
 * The table. KABIZARLE_TABLE_WORDS words; all zero is the empty table. Its rows are KABIZARLE_ROW_WORDS words each. Save it before
 *            the power goes off, and restore it at the next start: a table that starts empty takes old messages as new.
 * Nodes.     A node is a number, EUI[0] its most significant byte: 02 00 00 00 00 00 00 01 is 0x0200000000000001.
 * Parts.     A start counts from the first byte that the call was given. */
#ifndef KABIZARLE_H
#define KABIZARLE_H

#include <stdbool.h>
#include <stddef.h>
#include <stdint.h>

#ifdef __cplusplus
extern "C" {
#endif

/* Sizes. */
#define KABIZARLE_ROWS 32                  /* rows of a table */
#define KABIZARLE_ROW_WORDS 3              /* words of a row as the table holds it */
#define KABIZARLE_TABLE_WORDS 96           /* words of a table */
#define KABIZARLE_LONGEST 1232             /* bytes of the longest message */
#define KABIZARLE_FRAME_BYTES 2            /* bytes of the length that stands before a message in a stream */
#define KABIZARLE_CHECK_BYTES 20           /* bytes of the check of an encrypted message */
#define KABIZARLE_ACKNOWLEDGEMENT_BYTES 56 /* bytes of the longest acknowledgement */
#define KABIZARLE_RECORD_BYTES 18          /* bytes of the record of a saved row */
#define KABIZARLE_SAVED_BYTES 576          /* bytes of the records of all rows: room for every table */
#define KABIZARLE_FIELDS 16                /* places of a message as numbers */
#define KABIZARLE_PART_PLACES 2            /* places of an outer reading */
#define KABIZARLE_FRAME_PLACES 5           /* places of an unframing */
#define KABIZARLE_ROW_PLACES 5             /* places of a row as numbers */

/* Places of a message; a field that the message does not have is 0. */
#define KABIZARLE_HEADER 0          /* the header: VERSION times the version, and the bits below */
#define KABIZARLE_FLAGS 1           /* sum of the flags below */
#define KABIZARLE_ID 2              /* message id */
#define KABIZARLE_SOURCE 3          /* source node */
#define KABIZARLE_DESTINATION 4     /* destination node; all ones is Any */
#define KABIZARLE_KEY 5             /* key id, its type in bits 15 to 12 */
#define KABIZARLE_KIND 6            /* message type */
#define KABIZARLE_EXCHANGE 7        /* exchange id */
#define KABIZARLE_PROFILE 8         /* profile id */
#define KABIZARLE_ACKNOWLEDGED 9    /* acknowledged id */
#define KABIZARLE_PAYLOAD_START 10  /* where the payload or the packet starts */
#define KABIZARLE_PAYLOAD_LENGTH 11 /* how long it is */
#define KABIZARLE_CHECK_START 12    /* where the check starts; the end of the message if there is none */
#define KABIZARLE_CHECK_LENGTH 13   /* how long it is: 20 or 0 */
#define KABIZARLE_VERDICT 14        /* one of the verdicts; 0 after kabizarle_read */
#define KABIZARLE_REPLY_LENGTH 15   /* bytes of the acknowledgement, 0 for none; 0 after kabizarle_read */

/* The header, as the wire has it: fields[KABIZARLE_HEADER] / KABIZARLE_VERSION is the version, 1 or 2. */
#define KABIZARLE_VERSION 4096   /* what the version is multiplied by */
#define KABIZARLE_TUNNELLED 1024 /* bit T: the message carries an IP packet */
#define KABIZARLE_SOURCED 512    /* bit S: it names its source */
#define KABIZARLE_DESTINED 256   /* bit D: it names its destination */
#define KABIZARLE_ENCRYPTED 16   /* encrypt type 1: it has a key id and a check */

/* Flags of the exchange header. */
#define KABIZARLE_INITIATOR 1    /* I: its sender opened the exchange */
#define KABIZARLE_ACKNOWLEDGES 2 /* A: it acknowledges a message */
#define KABIZARLE_WANTS 4        /* R: it wants to be acknowledged */

/* Verdicts. */
#define KABIZARLE_NONE 0      /* none was asked for */
#define KABIZARLE_NEW 1       /* not heard before, as far as its row can tell: act on it */
#define KABIZARLE_DUPLICATE 2 /* heard before, or too far behind to tell: acknowledge it again, and no more */

/* Places of an outer reading. */
#define KABIZARLE_PART_START 0  /* where the protected part starts; the end of a plain message */
#define KABIZARLE_PART_LENGTH 1 /* how long it is, check included; 0 for a plain message */

/* Places of an unframing; the last four are 0 while the message is not whole. */
#define KABIZARLE_FRAME_WANTED 0 /* bytes still wanted, 0 if the message is whole */
#define KABIZARLE_FRAME_START 1  /* where the message starts */
#define KABIZARLE_FRAME_LENGTH 2 /* how long it is */
#define KABIZARLE_REST_START 3   /* where the rest of the stream starts */
#define KABIZARLE_REST_LENGTH 4  /* how long it is */

/* Places of a row as numbers. */
#define KABIZARLE_ROW_USED 0    /* 1 in use, 0 free */
#define KABIZARLE_ROW_NODE 1    /* node of the sender */
#define KABIZARLE_ROW_KEY 2     /* key id, 0 for plain messages */
#define KABIZARLE_ROW_HIGHEST 3 /* highest id accepted */
#define KABIZARLE_ROW_MARKS 4   /* bit k - 1 is mark k, from 1 to 15: the id k below the highest was accepted */

/* Words of a row as the table holds it; other bits are not looked at, and are clear once the row changes. */
#define KABIZARLE_NODE_WORD 0  /* the node */
#define KABIZARLE_STATE_WORD 1 /* bit 48: in use; bits 47 to 32: key id; bits 31 to 0: highest id */
#define KABIZARLE_MARKS_WORD 2 /* bits 14 to 0: the marks */

/* Refusals. */
#define KABIZARLE_NO_REFUSAL 0             /* the answer of a call that refuses nothing */
#define KABIZARLE_REFUSED_TOO_LONG 1       /* longer than 1,232 bytes */
#define KABIZARLE_REFUSED_TOO_SHORT 2      /* fewer bytes than the fields need */
#define KABIZARLE_REFUSED_VERSION 3        /* a version other than 1 and 2 */
#define KABIZARLE_REFUSED_RESERVED 4       /* a reserved bit of the header is set */
#define KABIZARLE_REFUSED_OLD_TUNNEL 5     /* a tunnelled message of version 1 */
#define KABIZARLE_REFUSED_ENCRYPT 6        /* an encrypt type other than 0 and 1 */
#define KABIZARLE_REFUSED_KEY 7            /* encrypted, with a key type other than 1 and 2 */
#define KABIZARLE_REFUSED_SOURCE 8         /* a source that is all zero or all ones */
#define KABIZARLE_REFUSED_DESTINATION 9    /* a destination that is all zero */
#define KABIZARLE_REFUSED_EXCHANGE 10      /* F is zero, or a reserved bit of the exchange header is set */
#define KABIZARLE_REFUSED_OLD_ASKS 11      /* A or R in version 1 */
#define KABIZARLE_REFUSED_TUNNEL 12        /* a tunnel version other than 1 */
#define KABIZARLE_REFUSED_PACKET 13        /* a packet that is neither IPv4 nor IPv6 */
#define KABIZARLE_REFUSED_STRAY 14         /* writing: a place that its field cannot hold, an absent field not 0, or a wrong check length */
#define KABIZARLE_REFUSED_OWN_NODE 15      /* the own node is all zero or all ones */
#define KABIZARLE_REFUSED_NOT_OURS 16      /* the destination is neither the own node nor Any */
#define KABIZARLE_REFUSED_SENDER 17        /* no source in the message, and the link's node is all zero or all ones */
#define KABIZARLE_REFUSED_CHECK 18         /* encrypted, and the check did not pass */
#define KABIZARLE_REFUSED_NO_ROOM 19       /* the output buffer is too small; saving: for all rows in use */
#define KABIZARLE_REFUSED_FULL 20          /* the name has no row, and all rows are in use */
#define KABIZARLE_REFUSED_NO_ROW 21        /* the name to be removed has no row */
#define KABIZARLE_REFUSED_UNWRITABLE 22    /* the acknowledgement cannot be written, for a reason other than its room */
#define KABIZARLE_REFUSED_SAVED_MARK 23    /* saved rows: a record does not begin with 52 57 */
#define KABIZARLE_REFUSED_SAVED_LENGTH 24  /* saved rows: a length that is no multiple of 18, or more than 32 records */
#define KABIZARLE_REFUSED_SAVED_ROW 25     /* saved rows: a node all zero or all ones, a key id neither 0 nor of type 1 or 2, or bit 15 of the marks set */
#define KABIZARLE_REFUSED_SAVED_TWICE 26   /* saved rows: a name twice */
#define KABIZARLE_REFUSED_PACKET_LENGTH 27 /* a packet that is shorter than its own header, or of another length than that gives */

/* Says which part of a message the radio module has to open. Refuses with 1 to 9; `offset` gets the byte at fault. */
uint32_t kabizarle_read_outer(const uint8_t *bytes, size_t length, uint64_t part[KABIZARLE_PART_PLACES], uint64_t *offset);

/* Reads a message into all places of `fields`. Refuses with 1 to 13 and 27; `offset` gets the byte at fault. */
uint32_t kabizarle_read(const uint8_t *bytes, size_t length, uint64_t fields[KABIZARLE_FIELDS], uint64_t *offset);

/* Writes the message of places HEADER to ACKNOWLEDGED, with its payload and check; `written` gets its length. A number that its field
 * cannot hold, as a header with a reserved bit, is refused with 14 before all else; then 1 to 3, 5 to 9, 11, 13, 14, 19 and 27. */
uint32_t kabizarle_write(const uint64_t fields[KABIZARLE_FIELDS], const uint8_t *payload, size_t payload_length,
                         const uint8_t *check, size_t check_length, uint8_t *out, size_t room, uint64_t *written);

/* Finds the first message of a framed stream and the rest, or how many bytes are still wanted; never refuses. */
uint32_t kabizarle_unframe(const uint8_t *stream, size_t length, uint64_t frame[KABIZARLE_FRAME_PLACES]);

/* Writes a message with its length before it; `written` gets the length of both. The message may not stand in `out`: it is not framed
 * in place. Refuses with 1 and 19. */
uint32_t kabizarle_frame(const uint8_t *message, size_t length, uint8_t *out, size_t room, uint64_t *written);

/* Reads a message, gives its verdict, moves its row and writes the acknowledgement that it wants. Refuses with 1 to 13, 15 to 20 and 27; 22 never comes.
 *   own     the gateway's own node
 *   link    the node at the other end of the link, the sender of a message without a source; 0 if it is not known
 *   passed  what the radio module says of the check of an encrypted message; not looked at for a plain one
 *   id      the message id of the acknowledgement, a new one for each
 *   bytes   the message, opened by the radio module if it is encrypted
 *   out     where the acknowledgement goes: 34 bytes, encrypted 56, and none where fields[KABIZARLE_REPLY_LENGTH] is 0
 *   offset  where the byte at fault goes: for 1 to 13 and 27 as kabizarle_read gives it, for 15 to 20 it is 0 */
uint32_t kabizarle_receive(uint64_t own, uint64_t link, bool passed, uint32_t id, const uint8_t *bytes, size_t length,
                           uint64_t table[KABIZARLE_TABLE_WORDS], uint8_t *out, size_t room, uint64_t fields[KABIZARLE_FIELDS],
                           uint64_t *offset);

/* Frees the row of a name: the NODE and the KEY of kabizarle_row, the key as a uint16_t. Refuses with 21. */
uint32_t kabizarle_remove(uint64_t table[KABIZARLE_TABLE_WORDS], uint64_t node, uint16_t key);

/* Rolls one row, which may be one of a table's, forward by one message id; `verdict` gets its verdict; never refuses. */
uint32_t kabizarle_roll(uint64_t row[KABIZARLE_ROW_WORDS], uint32_t id, uint64_t *verdict);

/* Shows the row at a number; past the last row it is free, and all places are 0; never refuses. */
uint32_t kabizarle_row(const uint64_t table[KABIZARLE_TABLE_WORDS], size_t number, uint64_t row[KABIZARLE_ROW_PLACES]);

/* Saves the table: a record of KABIZARLE_RECORD_BYTES for each row in use, in row order; `written` gets the length of them all, 0 for
 * the empty table. Save before the power goes off, and often: what is heard later is not in it. KABIZARLE_SAVED_BYTES of room always
 * suffice. Refuses with 19. */
uint32_t kabizarle_save(const uint64_t table[KABIZARLE_TABLE_WORDS], uint8_t *out, size_t room, uint64_t *written);

/* Replaces the whole table by saved rows: they are placed from the first row on, and all other rows are free and zero; `placed` gets how many
 * they are. No bytes give the empty table. A message that was accepted after the save can be new again. Refuses with 24, 23, 25 and 26,
 * in this order, each looked for in all records before the next. */
uint32_t kabizarle_restore(uint64_t table[KABIZARLE_TABLE_WORDS], const uint8_t *bytes, size_t length, uint64_t *placed);

#ifdef __cplusplus
}
#endif

#endif
