/* The receive path by hand, in plain C, to measure the library against: it reads a message, tells new from duplicate and writes
 * the acknowledgement; and the table saved and restored. Nothing of it is proved.
 *
 * No libc, no heap, no state but the table that the caller lends. Integers on the wire are low byte first; a node id is
 * eight bytes, EUI[0] first, and here one number: 02 00 .. 01 is 0x0200000000000001.
 *
 * Every function returns 0 or the number of the refusal. A refused call changes neither table nor buffer, and what it leaves
 * in a result struct means nothing. `offset` is written where a message is refused, and nowhere else: the byte at fault, 0 where
 * the refusal is about none. */
#ifndef BASELINE_H
#define BASELINE_H
#include <stdbool.h>
#include <stddef.h>
#include <stdint.h>

enum {
	WV_MAX_MESSAGE = 1232,
	WV_CHECK_LEN = 20,
	WV_ROWS = 32,
	WV_MARKS = 15,
	WV_ACK_LEN = 34,
	WV_ACK_LEN_ENCRYPTED = 56,
	WV_RECORD_LEN = 18,
};

enum wv_refusal {
	WV_TOO_LONG = 1,
	WV_TOO_SHORT,
	WV_BAD_VERSION,
	WV_RESERVED_BIT,
	WV_TUNNEL_IN_V1,
	WV_BAD_ENCRYPT_TYPE,
	WV_BAD_KEY_TYPE,
	WV_BAD_SOURCE,
	WV_BAD_DESTINATION,
	WV_BAD_EXCHANGE_BIT,
	WV_RELIABLE_IN_V1,
	WV_BAD_TUNNEL_VERSION,
	WV_BAD_PACKET,
	WV_BAD_OWN_NODE = 15,
	WV_NOT_FOR_US,
	WV_NO_SENDER,
	WV_CHECK_FAILED,
	WV_NO_ROOM,
	WV_TABLE_FULL,
	WV_NO_SUCH_ROW,
	WV_SAVED_MARK = 23,
	WV_SAVED_LENGTH,
	WV_SAVED_ROW,
	WV_SAVED_TWICE,
	WV_BAD_PACKET_LENGTH,
};

/* A part of the caller's bytes; empty where there is none. */
struct wv_part {
	const uint8_t *at;
	size_t len;
};

/* Bits of a message's header and of its exchange header, where the wire has them. */
enum {
	WV_ENCRYPTED = 1 << 4,
	WV_DESTINATION = 1 << 8,
	WV_SOURCE = 1 << 9,
	WV_TUNNELLED = 1 << 10,

	WV_INITIATOR = 1 << 0,
	WV_ACKS = 1 << 1,
	WV_WANTS_ACK = 1 << 2,
};

/* What a message says. An absent field is zero. */
struct wv_message {
	uint64_t source, destination;
	uint32_t id, profile_id, acked_id;
	uint16_t header; /* version in bits 15 to 12, WV_ENCRYPTED to WV_TUNNELLED */
	uint16_t key_id, exchange_id;
	uint8_t exchange; /* WV_INITIATOR, WV_ACKS, WV_WANTS_ACK */
	uint8_t type;
	struct wv_part payload, check;
};

static inline unsigned wv_version(const struct wv_message *m) { return m->header >> 12; }

/* Where the part that the radio module opens starts, and its length; at the end and 0 for a plain message. */
struct wv_outer {
	size_t start, len;
};

/* One sender under one key. Mark k, the bit k - 1, says whether the id k below the highest was accepted. */
struct wv_row {
	uint64_t node;
	uint16_t marks;
	uint32_t highest;
	uint16_t key_id;
	bool used;
};

struct wv_table {
	struct wv_row rows[WV_ROWS];
};

enum wv_verdict { WV_NEW, WV_DUPLICATE };

/* A message as it came in, and what the caller knows about it. */
struct wv_arrival {
	const uint8_t *msg;
	size_t len;
	uint64_t own, link; /* our node; the link's, for a message without source */
	uint32_t ack_id;    /* message id for an acknowledgement */
	bool check_passed;  /* the radio module's word; ignored for a plain message */
};

struct wv_received {
	enum wv_verdict verdict;
	uint32_t ack_len; /* 0: none written */
	struct wv_message message;
};

int wv_read(const uint8_t *msg, size_t len, struct wv_message *m, size_t *offset);
int wv_read_outer(const uint8_t *msg, size_t len, struct wv_outer *o, size_t *offset);

/* The first message of a framed stream and its rest; or, returned, how many bytes are still wanted. */
size_t wv_next_frame(const uint8_t *s, size_t len, struct wv_part *msg, struct wv_part *rest);

/* Rolls a lent row forward by one message. A row not in use takes it as its first. */
enum wv_verdict wv_roll(struct wv_row *row, uint32_t id);

int wv_receive(struct wv_table *table, const struct wv_arrival *a, uint8_t *out, size_t room, struct wv_received *r, size_t *offset);
int wv_remove(struct wv_table *table, uint64_t node, uint16_t key_id);

/* The rows in use as records of 18 bytes, and back; `len` and `rows` get how many bytes or rows they are. */
int wv_save(const struct wv_table *table, uint8_t *out, size_t room, size_t *len);
int wv_restore(struct wv_table *table, const uint8_t *saved, size_t len, size_t *rows);
#endif
