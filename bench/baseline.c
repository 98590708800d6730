/* The receive path by hand: see baseline.h. */
#include "baseline.h"

enum {
	HEADER_RESERVED = 1 << 11 | 0xf,
	EXCHANGE_F = 1 << 4, /* always one */
	EXCHANGE_RESERVED = 0xe8,
	ACK_HEADER = 2 << 12 | WV_SOURCE | WV_DESTINATION,
	ACK_TYPE = 2,
	NODES_AT = 6, /* where the source stands, or the destination if there is no source */
	IPV4_HEADER_LEN = 20, /* at least */
	IPV6_HEADER_LEN = 40,
	RECORD_MARK = 0x5752,
};

static const uint64_t ANY_NODE = UINT64_MAX;

#define always_inline inline __attribute__((always_inline))

/* Unaligned loads and stores; the wire is low byte first, but for node ids and within a packet. */
_Static_assert(__BYTE_ORDER__ == __ORDER_LITTLE_ENDIAN__, "get and put want a little-endian machine");

static always_inline uint16_t get16(const uint8_t *p) { uint16_t x; __builtin_memcpy(&x, p, 2); return x; }
static always_inline uint16_t get_be16(const uint8_t *p) { return __builtin_bswap16(get16(p)); }
static always_inline uint32_t get32(const uint8_t *p) { uint32_t x; __builtin_memcpy(&x, p, 4); return x; }
static always_inline uint64_t get_node(const uint8_t *p) { uint64_t x; __builtin_memcpy(&x, p, 8); return __builtin_bswap64(x); }

static always_inline uint8_t *put16(uint8_t *p, uint16_t x) { __builtin_memcpy(p, &x, 2); return p + 2; }
static always_inline uint8_t *put32(uint8_t *p, uint32_t x) { __builtin_memcpy(p, &x, 4); return p + 4; }
static always_inline uint8_t *put_node(uint8_t *p, uint64_t n) { n = __builtin_bswap64(n); __builtin_memcpy(p, &n, 8); return p + 8; }

/* All zero or all ones: never the node of a sender. */
static always_inline bool reserved_node(uint64_t n) { return n + 1 < 2; }

/* Says where a message is at fault, and gives the refusal. */
static always_inline int refuse(enum wv_refusal refusal, size_t at, size_t *offset)
{
	*offset = at;
	return refusal;
}

/* Refusals 1 to 9 and the fields up to the key id; *at is where what follows starts. */
static always_inline int read_outer(const uint8_t *msg, size_t len, struct wv_message *m, size_t *at, size_t *offset)
{
	if (len > WV_MAX_MESSAGE)
		return refuse(WV_TOO_LONG, WV_MAX_MESSAGE, offset);
	if (len < 2)
		return refuse(WV_TOO_SHORT, len, offset);

	unsigned h = get16(msg), version = h >> 12;

	if (version != 1 && version != 2)
		return refuse(WV_BAD_VERSION, 0, offset);
	if (h & HEADER_RESERVED)
		return refuse(WV_RESERVED_BIT, 0, offset);
	if ((h & WV_TUNNELLED) && version == 1)
		return refuse(WV_TUNNEL_IN_V1, 0, offset);
	if ((h >> 4 & 0xf) > 1)
		return refuse(WV_BAD_ENCRYPT_TYPE, 0, offset);

	size_t after = NODES_AT + (h & WV_SOURCE ? 8 : 0) + (h & WV_DESTINATION ? 8 : 0) + (h & WV_ENCRYPTED ? 2 : 0);

	if (len < after + (h & WV_TUNNELLED ? 2 : 8) + (h & WV_ENCRYPTED ? WV_CHECK_LEN : 0))
		return refuse(WV_TOO_SHORT, len, offset);

	const uint8_t *p = msg + NODES_AT;
	uint64_t source = 0, destination = 0;
	uint16_t key_id = 0;

	if (h & WV_SOURCE) {
		source = get_node(p);
		p += 8;
	}
	if (h & WV_DESTINATION) {
		destination = get_node(p);
		p += 8;
	}
	if (h & WV_ENCRYPTED) {
		key_id = get16(p);
		if (key_id >> 12 != 1 && key_id >> 12 != 2)
			return refuse(WV_BAD_KEY_TYPE, (size_t)(p - msg), offset);
	}
	if ((h & WV_SOURCE) && reserved_node(source))
		return refuse(WV_BAD_SOURCE, NODES_AT, offset);
	if ((h & WV_DESTINATION) && destination == 0)
		return refuse(WV_BAD_DESTINATION, NODES_AT + (h & WV_SOURCE ? 8 : 0), offset);

	m->header = (uint16_t)h;
	m->id = get32(msg + 2);
	m->source = source;
	m->destination = destination;
	m->key_id = key_id;
	*at = after;
	return 0;
}

/* What refuses an IP packet, 0 for nothing. It has to be as long as its own header says: IPv4 gives the total, IPv6 what follows the header. */
static int check_packet(const uint8_t *packet, size_t len)
{
	switch (packet[0] >> 4) {
	case 4:
		return len >= IPV4_HEADER_LEN && len == get_be16(packet + 2) ? 0 : WV_BAD_PACKET_LENGTH;
	case 6:
		return len >= IPV6_HEADER_LEN && len - IPV6_HEADER_LEN == get_be16(packet + 4) ? 0 : WV_BAD_PACKET_LENGTH;
	default:
		return WV_BAD_PACKET;
	}
}

static always_inline int read_message(const uint8_t *msg, size_t len, struct wv_message *m, size_t *offset)
{
	size_t at;
	int refusal = read_outer(msg, len, m, &at, offset);

	if (refusal)
		return refusal;

	size_t end = len - (m->header & WV_ENCRYPTED ? WV_CHECK_LEN : 0);
	const uint8_t *p = msg + at;

	if (m->header & WV_TUNNELLED) {
		if (p[0] != 1)
			return refuse(WV_BAD_TUNNEL_VERSION, at, offset);
		at += 1;
		refusal = check_packet(msg + at, end - at);
		if (refusal)
			return refuse(refusal, at, offset);
		m->exchange = m->type = 0;
		m->exchange_id = 0;
		m->profile_id = m->acked_id = 0;
	} else {
		unsigned x = p[0];

		if ((x & (EXCHANGE_F | EXCHANGE_RESERVED)) != EXCHANGE_F)
			return refuse(WV_BAD_EXCHANGE_BIT, at, offset);
		if ((x & (WV_ACKS | WV_WANTS_ACK)) && wv_version(m) == 1)
			return refuse(WV_RELIABLE_IN_V1, at, offset);
		m->exchange = (uint8_t)(x & ~EXCHANGE_F);
		m->type = p[1];
		m->exchange_id = get16(p + 2);
		m->profile_id = get32(p + 4);
		m->acked_id = 0;
		at += 8;
		if (x & WV_ACKS) {
			if (end - at < 4)
				return refuse(WV_TOO_SHORT, len, offset);
			m->acked_id = get32(p + 8);
			at += 4;
		}
	}
	m->payload = (struct wv_part){ msg + at, end - at };
	m->check = (struct wv_part){ msg + end, len - end };
	return 0;
}

int wv_read(const uint8_t *msg, size_t len, struct wv_message *m, size_t *offset)
{
	return read_message(msg, len, m, offset);
}

int wv_read_outer(const uint8_t *msg, size_t len, struct wv_outer *o, size_t *offset)
{
	struct wv_message m;
	size_t at;
	int refusal = read_outer(msg, len, &m, &at, offset);

	if (refusal)
		return refusal;
	o->start = m.header & WV_ENCRYPTED ? at : len;
	o->len = len - o->start;
	return 0;
}

size_t wv_next_frame(const uint8_t *s, size_t len, struct wv_part *msg, struct wv_part *rest)
{
	*msg = *rest = (struct wv_part){ s, 0 };
	if (len < 2)
		return 2 - len;

	size_t n = get16(s);

	if (len - 2 < n)
		return n - (len - 2);
	*msg = (struct wv_part){ s + 2, n };
	*rest = (struct wv_part){ s + 2 + n, len - 2 - n };
	return 0;
}

static const uint16_t ALL_MARKS = (uint16_t)((UINT64_C(1) << WV_MARKS) - 1);

static always_inline enum wv_verdict roll(struct wv_row *row, uint32_t id)
{
	if (!row->used) {
		row->used = true;
		row->highest = id;
		row->marks = 0;
		return WV_NEW;
	}

	uint32_t ahead = id - row->highest, behind = row->highest - id;
	uint32_t reach = row->key_id ? UINT32_C(1) << 31 : WV_MARKS; /* B: how far back an id is old and not new again */

	if (ahead == 0)
		return WV_DUPLICATE;
	if (behind > reach) { /* above the highest */
		row->marks = ahead > WV_MARKS ? 0 : (uint16_t)(((uint64_t)row->marks << 1 | 1) << (ahead - 1)) & ALL_MARKS;
		row->highest = id;
		return WV_NEW;
	}
	if (behind > WV_MARKS)
		return WV_DUPLICATE;

	uint16_t mark = (uint16_t)(UINT64_C(1) << (behind - 1));

	if (row->marks & mark)
		return WV_DUPLICATE;
	row->marks = (row->marks | mark) & ALL_MARKS;
	return WV_NEW;
}

enum wv_verdict wv_roll(struct wv_row *row, uint32_t id) { return roll(row, id); }

static struct wv_row *find(struct wv_table *t, uint64_t node, uint16_t key_id)
{
	for (struct wv_row *r = t->rows; r < t->rows + WV_ROWS; ++r)
		if (r->node == node && r->key_id == key_id && r->used)
			return r;
	return NULL;
}

static struct wv_row *find_free(struct wv_table *t)
{
	for (struct wv_row *r = t->rows; r < t->rows + WV_ROWS; ++r)
		if (!r->used)
			return r;
	return NULL;
}

/* Standalone acknowledgement, straight into the buffer; the caller has seen that it fits. */
static always_inline void put_ack(uint8_t *p, const struct wv_message *m, uint64_t own, uint64_t sender, uint32_t id)
{
	unsigned encrypted = m->header & WV_ENCRYPTED;

	p = put16(p, (uint16_t)(ACK_HEADER | encrypted));
	p = put32(p, id);
	p = put_node(p, own);
	p = put_node(p, sender);
	if (encrypted)
		p = put16(p, m->key_id);
	*p++ = (uint8_t)(EXCHANGE_F | WV_ACKS | (~m->exchange & WV_INITIATOR));
	*p++ = ACK_TYPE;
	p = put16(p, m->exchange_id);
	p = put32(p, 0);
	p = put32(p, m->id);
	if (encrypted)
		__builtin_memset(p, 0, WV_CHECK_LEN);
}

int wv_receive(struct wv_table *table, const struct wv_arrival *a, uint8_t *out, size_t room, struct wv_received *r, size_t *offset)
{
	struct wv_message *m = &r->message;

	if (reserved_node(a->own))
		return refuse(WV_BAD_OWN_NODE, 0, offset);

	int refusal = read_message(a->msg, a->len, m, offset);

	if (refusal)
		return refusal;
	if ((m->header & WV_DESTINATION) && m->destination != a->own && m->destination != ANY_NODE)
		return refuse(WV_NOT_FOR_US, 0, offset);

	uint64_t sender = m->header & WV_SOURCE ? m->source : a->link;

	if (reserved_node(sender))
		return refuse(WV_NO_SENDER, 0, offset);
	if ((m->header & WV_ENCRYPTED) && !a->check_passed)
		return refuse(WV_CHECK_FAILED, 0, offset);

	/* 22 cannot happen: a message that got here has a legal sender and key id. */
	uint32_t ack_len = 0;

	if (m->exchange & WV_WANTS_ACK)
		ack_len = m->header & WV_ENCRYPTED ? WV_ACK_LEN_ENCRYPTED : WV_ACK_LEN;
	if (room < ack_len)
		return refuse(WV_NO_ROOM, 0, offset);

	struct wv_row *row = find(table, sender, m->key_id);

	if (!row) {
		row = find_free(table);
		if (!row)
			return refuse(WV_TABLE_FULL, 0, offset);
		row->node = sender;
		row->key_id = m->key_id;
	}
	r->verdict = roll(row, m->id);
	r->ack_len = ack_len;
	if (ack_len)
		put_ack(out, m, a->own, sender, a->ack_id);
	return 0;
}

int wv_remove(struct wv_table *table, uint64_t node, uint16_t key_id)
{
	struct wv_row *row = find(table, node, key_id);

	if (!row)
		return WV_NO_SUCH_ROW;
	*row = (struct wv_row){ 0 };
	return 0;
}

int wv_save(const struct wv_table *table, uint8_t *out, size_t room, size_t *len)
{
	size_t count = 0;

	for (const struct wv_row *r = table->rows; r < table->rows + WV_ROWS; ++r)
		count += r->used;
	if (room < count * WV_RECORD_LEN)
		return WV_NO_ROOM;
	for (const struct wv_row *r = table->rows; r < table->rows + WV_ROWS; ++r) {
		if (!r->used)
			continue;
		out = put16(out, RECORD_MARK);
		out = put_node(out, r->node);
		out = put16(out, r->key_id);
		out = put32(out, r->highest);
		out = put16(out, r->marks & ALL_MARKS);
	}
	*len = count * WV_RECORD_LEN;
	return 0;
}

/* The row of a record. */
static always_inline struct wv_row row_of(const uint8_t *p)
{
	return (struct wv_row){ .node = get_node(p + 2), .key_id = get16(p + 10), .highest = get32(p + 12), .marks = get16(p + 16), .used = true };
}

static always_inline bool bad_row(struct wv_row r)
{
	return reserved_node(r.node) || (r.key_id && r.key_id >> 12 != 1 && r.key_id >> 12 != 2) || r.marks > ALL_MARKS;
}

/* Whether the names of two records are the same: the ten bytes of node and key id. */
static always_inline bool same_name(const uint8_t *p, const uint8_t *q)
{
	uint64_t a, b;

	__builtin_memcpy(&a, p + 2, 8);
	__builtin_memcpy(&b, q + 2, 8);
	return a == b && get16(p + 10) == get16(q + 10);
}

int wv_restore(struct wv_table *table, const uint8_t *saved, size_t len, size_t *rows)
{
	const uint8_t *end = saved + len, *p, *q;

	if (len > WV_ROWS * WV_RECORD_LEN || len % WV_RECORD_LEN)
		return WV_SAVED_LENGTH;
	for (p = saved; p < end; p += WV_RECORD_LEN)
		if (get16(p) != RECORD_MARK)
			return WV_SAVED_MARK;
	for (p = saved; p < end; p += WV_RECORD_LEN)
		if (bad_row(row_of(p)))
			return WV_SAVED_ROW;
	for (p = saved; p < end; p += WV_RECORD_LEN)
		for (q = saved; q < p; q += WV_RECORD_LEN)
			if (same_name(p, q))
				return WV_SAVED_TWICE;

	struct wv_row *row = table->rows;

	for (p = saved; p < end; p += WV_RECORD_LEN)
		*row++ = row_of(p);
	__builtin_memset(row, 0, (size_t)((char *)(table->rows + WV_ROWS) - (char *)row));
	*rows = len / WV_RECORD_LEN;
	return 0;
}
