/* Calls every function of the boundary with legal, wrong and extreme arguments, and checks each answer and all that was lent. It prints a
 * line for each check that fails and exits 1, or prints how many passed. What is read ends at memory that may not be touched, and so
 * does what is written: a byte too many ends the program. */
#define _DEFAULT_SOURCE
#include <kabizarle.h>
#include <stdio.h>
#include <string.h>
#include <sys/mman.h>

#define OWN UINT64_C(0x0200000000000001)
#define SENDER UINT64_C(0x020000000000000e)
#define ALL_ONES UINT64_MAX
#define NOWHERE UINT64_C(0xa5a5a5a5a5a5a5a5) /* stands in `offset` before a call: no message has a byte of this number */
#define LENGTH(array) (sizeof(array) / sizeof *(array))

/* The place where X and its kin have the last byte of the source node. */
enum { NAME_AT = 13, REPLY_ID = 9, MARKS = 0x7fff };

/* Where TUNNEL has its packet. */
enum { PACKET_AT = 7 };

/* The worked example of a message, and its acknowledgement with message id 9. */
static const uint8_t X[30] = { 0x00, 0x23, 5, 0, 0, 0, 2, 0, 0, 0, 0, 0, 0, 0x0e, 2, 0, 0, 0, 0, 0, 0, 1, 0x15, 2, 2, 1, 0, 0, 0, 0 };
static const uint8_t REPLY[34] = { 0x00, 0x23, REPLY_ID, 0, 0, 0, 2, 0, 0, 0, 0, 0, 0, 1, 2, 0, 0, 0, 0, 0, 0, 0x0e, 0x12, 2, 2, 1, 0, 0, 0, 0, 5 };

/* Encrypted under a session key, both nodes, I, A and R, a payload of 3 bytes; and a tunnelled IPv4 packet of 25 bytes, with no node. */
static const uint8_t SECRET[59] = { 0x10, 0x23, 5, 0, 0, 0, 2, 0, 0, 0, 0, 0, 0, 0x0e, 2, 0, 0, 0, 0, 0, 0, 1, 1, 0x20, 0x17, 7, 2, 1, 4, 3, 2, 1,
	8, 7, 6, 5, 'a', 'b', 'c', 1, 2, 3, 4, 5, 6, 7, 8, 9, 10, 11, 12, 13, 14, 15, 16, 17, 18, 19, 20 };
static const uint8_t TUNNEL[32] = { 0x00, 0x24, 6, 0, 0, 0, 1, 0x45, 0, 0, 25, 0, 0, 0, 0, 64, 253, 0x8d, 0x8c, 192, 0, 2, 33, 198, 51, 100, 7, 1, 2, 3, 4, 5 };

/* All that a call can be lent, and a copy from before the call. */
static struct lent {
	uint64_t fields[KABIZARLE_FIELDS], table[KABIZARLE_TABLE_WORDS], part[KABIZARLE_PART_PLACES], frame[KABIZARLE_FRAME_PLACES];
	uint64_t row[KABIZARLE_ROW_WORDS], shown[KABIZARLE_ROW_PLACES], written, verdict, placed, offset;
	uint8_t out[KABIZARLE_LONGEST + KABIZARLE_FRAME_BYTES];
} lent, kept;

/* The first bytes that may not be touched, past what is read and past what is written. */
static uint8_t *read_end, *write_end;

static unsigned passed, failed;

static void must(bool holds, int line, const char *what)
{
	if (holds) {
		passed++;
		return;
	}
	failed++;
	printf("line %d: not so: %s\n", line, what);
}
#define MUST(fact) must(fact, __LINE__, #fact)

/* A call that is refused by its number, and leaves all that was lent as it was. */
#define REFUSED(number, call) \
	(kept = lent, must((call) == (number), __LINE__, #call " is " #number), must(unchanged(), __LINE__, #call " changes nothing"))

/* One that also puts the byte at fault into `offset`, and leaves all else as it was. */
#define REFUSED_AT(number, at, call) \
	(kept = lent, must((call) == (number), __LINE__, #call " is " #number), kept.offset = (at), \
	 must(lent.offset == kept.offset, __LINE__, #call " is at " #at), must(unchanged(), __LINE__, #call " changes nothing but offset"))

static bool unchanged(void) { return memcmp(&lent, &kept, sizeof lent) == 0; }

/* Fills all that is lent with a pattern that has no two bytes of a word alike. */
static void scatter(void)
{
	for (size_t i = 0; i < sizeof lent; i++)
		((uint8_t *)&lent)[i] = (uint8_t)(37 * i + i / 251 + 1);
}

/* The same, with an empty table. */
static void start(void)
{
	scatter();
	memset(lent.table, 0, sizeof lent.table);
}

/* Room for 64 KiB that ends at memory which may not be touched: its end. */
static uint8_t *guarded(void)
{
	enum { HALF = 65536 };
	uint8_t *at = mmap(NULL, 2 * HALF, PROT_READ | PROT_WRITE, MAP_PRIVATE | MAP_ANONYMOUS, -1, 0);

	if (at == MAP_FAILED || mprotect(at + HALF, HALF, PROT_NONE) != 0)
		return NULL;
	return at + HALF;
}

/* The bytes, copied to where they end at the end of what may be read. */
static const uint8_t *lend(const uint8_t *bytes, size_t length) { return memcpy(read_end - length, bytes, length); }

/* The answer of a call that is lent `offset`. One that refuses nothing and does not leave it as it was has no right answer. */
static uint32_t answered(uint32_t answer) { return answer == 0 && lent.offset != NOWHERE ? UINT32_MAX : answer; }

/* Outer reading, reading, receiving and writing with what is lent. */
static uint32_t read_outer(const uint8_t *bytes, size_t length)
{
	lent.offset = NOWHERE;
	return answered(kabizarle_read_outer(bytes, length, lent.part, &lent.offset));
}

static uint32_t read_message(const uint8_t *bytes, size_t length)
{
	lent.offset = NOWHERE;
	return answered(kabizarle_read(bytes, length, lent.fields, &lent.offset));
}

static uint32_t receive_by(uint64_t own, uint64_t link, bool good, const uint8_t *bytes, size_t length, uint8_t *out, size_t room)
{
	lent.offset = NOWHERE;
	return answered(kabizarle_receive(own, link, good, REPLY_ID, bytes, length, lent.table, out, room, lent.fields, &lent.offset));
}

static uint32_t receive(const uint8_t *bytes, size_t length) { return receive_by(OWN, 0, true, bytes, length, lent.out, 64); }

static uint32_t put(size_t payload, size_t check, size_t room)
{
	return kabizarle_write(lent.fields, SECRET, payload, SECRET + 39, check, lent.out, room, &lent.written);
}

/* A message that reading and receiving refuse at a byte. */
static const uint8_t *refused_by_both(uint32_t number, uint64_t at, const uint8_t *bytes, size_t length)
{
	bytes = lend(bytes, length);
	scatter();
	REFUSED_AT(number, at, read_message(bytes, length));
	REFUSED_AT(number, at, receive(bytes, length));
	return bytes;
}

/* The same, and outer reading too where the refusal is one of its own. */
static void refused(uint32_t number, uint64_t at, const uint8_t *bytes, size_t length)
{
	bytes = refused_by_both(number, at, bytes, length);
	if (number <= KABIZARLE_REFUSED_DESTINATION)
		REFUSED_AT(number, at, read_outer(bytes, length));
}

/* One that outer reading does not see at fault. */
static void refused_inside(uint32_t number, uint64_t at, const uint8_t *bytes, size_t length)
{
	bytes = refused_by_both(number, at, bytes, length);
	MUST(read_outer(bytes, length) == 0);
}

/* Some bytes of a message overwritten, all by the same: the message is refused at a byte. */
static void spoiled(uint32_t number, uint64_t at, const uint8_t *message, size_t length, size_t first, size_t count, int byte)
{
	uint8_t bytes[96];

	memcpy(bytes, message, length);
	memset(bytes + first, byte, count);
	refused(number, at, bytes, length);
}

/* Every refusal of reading but 1, each by its nearest legal message. */
static void refusals_of_reading(void)
{
	static const uint8_t two[][3] = {
		{ 0x00, 0x20, 2 }, { 0x00, 0x30, 3 }, { 0x01, 0x20, 4 }, { 0x00, 0x28, 4 }, { 0x00, 0x14, 5 }, { 0x20, 0x20, 6 },
	};

	for (size_t i = 0; i < LENGTH(two); i++)
		refused(two[i][2], two[i][2] == 2 ? 2 : 0, two[i], 2);
	spoiled(KABIZARLE_REFUSED_KEY, 22, SECRET, sizeof SECRET, 23, 1, 0x30);
	spoiled(KABIZARLE_REFUSED_KEY, 22, SECRET, sizeof SECRET, 23, 1, 0x00);
	spoiled(KABIZARLE_REFUSED_SOURCE, 6, X, sizeof X, 6, 8, 0);
	spoiled(KABIZARLE_REFUSED_SOURCE, 6, X, sizeof X, 6, 8, 0xff);
	spoiled(KABIZARLE_REFUSED_DESTINATION, 14, X, sizeof X, 14, 8, 0);
	spoiled(KABIZARLE_REFUSED_EXCHANGE, 22, X, sizeof X, 22, 1, 0x05);
	for (int bit = 8; bit < 256; bit *= 2)
		if (bit != 16)
			spoiled(KABIZARLE_REFUSED_EXCHANGE, 22, X, sizeof X, 22, 1, 0x15 + bit);
	spoiled(KABIZARLE_REFUSED_OLD_ASKS, 22, X, sizeof X, 1, 1, 0x13);
	spoiled(KABIZARLE_REFUSED_TUNNEL, 6, TUNNEL, sizeof TUNNEL, 6, 1, 2);
	spoiled(KABIZARLE_REFUSED_PACKET, PACKET_AT, TUNNEL, sizeof TUNNEL, PACKET_AT, 1, 0x55);
	spoiled(KABIZARLE_REFUSED_PACKET_LENGTH, PACKET_AT, TUNNEL, sizeof TUNNEL, PACKET_AT + 3, 1, 24);
}

/* The shapes of a message: the two bytes of its header, and where destination, key id and body start; 0 for a field that it does not have. */
static const struct shape { uint8_t low, high, destination, key, body; } SHAPES[] = {
	{ 0x00, 0x20, 0, 0, 6 }, { 0x00, 0x21, 6, 0, 14 }, { 0x00, 0x22, 0, 0, 14 }, { 0x00, 0x23, 14, 0, 22 },
	{ 0x10, 0x20, 0, 6, 8 }, { 0x10, 0x21, 6, 14, 16 }, { 0x10, 0x22, 0, 14, 16 }, { 0x10, 0x23, 14, 22, 24 },
};

/* How many check bytes a message of a shape has. */
static size_t check_bytes(const struct shape *s) { return s->key ? KABIZARLE_CHECK_BYTES : 0; }

/* The families of a packet: its first byte, how long its header is at least, where that gives the length, and how much of it is not counted. */
static const struct family { uint8_t first, header, at, uncounted; } FAMILIES[] = { { 0x45, 20, 2, 0 }, { 0x60, 40, 4, 40 } };

/* A tunnelled message of a shape, with nodes and key id that are all 0x21 and a packet of some bytes, whose header gives a length: the message's length. */
static size_t tunnelled(const struct shape *s, const struct family *f, size_t count, uint64_t given, uint8_t *bytes)
{
	size_t length = s->body + 1 + count + check_bytes(s);
	uint8_t packet[KABIZARLE_LONGEST];

	memset(bytes, 0x21, length);
	bytes[0] = s->low, bytes[1] = (uint8_t)(s->high + 4), bytes[s->body] = 1;
	memset(packet, 0x21, count);
	packet[0] = f->first, packet[f->at] = (uint8_t)(given >> 8), packet[f->at + 1] = (uint8_t)given;
	memcpy(bytes + s->body + 1, packet, count);
	return length;
}

/* The shortest legal message of a shape, general or with an IPv4 packet, with nodes and key id that are all 0x21: its length. */
static size_t shaped(const struct shape *s, bool general, uint8_t *bytes)
{
	size_t length = tunnelled(s, FAMILIES, FAMILIES->header, FAMILIES->header, bytes);

	if (general) {
		length = s->body + 8 + check_bytes(s);
		memset(bytes + s->body, 0x21, length - s->body);
		bytes[1] = s->high, bytes[s->body] = 0x11;
	}
	MUST(read_message(lend(bytes, length), length) == 0 && read_outer(lend(bytes, length), length) == 0);
	return length;
}

/* The address fields of a message of a shape at fault, and every cut of it; from the fixed part on it is a packet that is cut. */
static void addresses_at_fault(const struct shape *s, const uint8_t *message, size_t length, size_t fixed)
{
	for (size_t n = 0; n < fixed; n++)
		refused(KABIZARLE_REFUSED_TOO_SHORT, n, message, n);
	for (size_t n = fixed; n < length; n++)
		refused_inside(KABIZARLE_REFUSED_PACKET_LENGTH, s->body + 1u, message, n);
	if (s->key) {
		spoiled(KABIZARLE_REFUSED_KEY, s->key, message, length, s->key + 1u, 1, 0x30);
		spoiled(KABIZARLE_REFUSED_KEY, s->key, message, length, s->key, 2, 0);
	}
	if (s->high & 2) {
		spoiled(KABIZARLE_REFUSED_SOURCE, 6, message, length, 6, 8, 0);
		spoiled(KABIZARLE_REFUSED_SOURCE, 6, message, length, 6, 8, 0xff);
	}
	if (s->destination)
		spoiled(KABIZARLE_REFUSED_DESTINATION, s->destination, message, length, s->destination, 8, 0);
}

/* Every field of every shape at fault: the byte is the first of the field, wherever it stands. */
static void fields_at_fault(void)
{
	uint8_t general[96], tunnel[96];

	for (const struct shape *s = SHAPES; s < SHAPES + LENGTH(SHAPES); s++) {
		size_t n = shaped(s, true, general), m = shaped(s, false, tunnel);

		addresses_at_fault(s, general, n, n);
		addresses_at_fault(s, tunnel, m, s->body + 2 + check_bytes(s));
		spoiled(KABIZARLE_REFUSED_TUNNEL, s->body, tunnel, m, s->body, 1, 2);
		spoiled(KABIZARLE_REFUSED_PACKET, s->body + 1u, tunnel, m, s->body + 1u, 1, 0x55);
		spoiled(KABIZARLE_REFUSED_PACKET_LENGTH, s->body + 1u, tunnel, m, s->body + 3u, 1, 1);
		spoiled(KABIZARLE_REFUSED_EXCHANGE, s->body, general, n, s->body, 1, 0x01);
		spoiled(KABIZARLE_REFUSED_EXCHANGE, s->body, general, n, s->body, 1, 0x91);
		general[s->body] = 0x13; /* A, and no room for the acknowledged id */
		refused_inside(KABIZARLE_REFUSED_TOO_SHORT, n, general, n);
		general[1] -= 0x10;
		spoiled(KABIZARLE_REFUSED_OLD_ASKS, s->body, general, n, s->body, 1, 0x13);
		spoiled(KABIZARLE_REFUSED_OLD_ASKS, s->body, general, n, s->body, 1, 0x14);
	}
}

/* A packet of some bytes whose header gives a length, in a message of a shape: taken and written back, or refused with 27 by reading and receiving, at its
 * first byte, and by writing, whatever the check and the room. Outer reading takes both. */
static void packet_tried(const struct shape *s, const struct family *f, size_t count, uint64_t given)
{
	static uint8_t bytes[KABIZARLE_LONGEST];
	size_t length = tunnelled(s, f, count, given, bytes), at = s->body + 1u, check = check_bytes(s);
	uint8_t legal[96], *out = write_end - length;
	size_t legal_length = shaped(s, false, legal);

	if (count < f->header || given + f->uncounted != count) {
		refused_inside(KABIZARLE_REFUSED_PACKET_LENGTH, at, bytes, length);
		MUST(read_message(legal, legal_length) == 0);
		const uint8_t *packet = lend(bytes + at, count);
		REFUSED(27, kabizarle_write(lent.fields, packet, count, bytes + at + count, check, lent.out, sizeof lent.out, &lent.written));
		REFUSED(27, kabizarle_write(lent.fields, packet, count, bytes, 1, NULL, 0, &lent.written));
		return;
	}
	MUST(read_outer(lend(bytes, length), length) == 0 && read_message(lend(bytes, length), length) == 0);
	MUST(lent.fields[KABIZARLE_PAYLOAD_START] == at && lent.fields[KABIZARLE_PAYLOAD_LENGTH] == count);
	MUST(lent.fields[KABIZARLE_CHECK_START] == at + count && lent.fields[KABIZARLE_CHECK_LENGTH] == check);
	const uint8_t *packet = lend(bytes + at, count);
	REFUSED(19, kabizarle_write(lent.fields, packet, count, bytes + at + count, check, lent.out, length - 1, &lent.written));
	REFUSED(14, kabizarle_write(lent.fields, packet, count, bytes, 1, lent.out, length - 1, &lent.written));
	MUST(kabizarle_write(lent.fields, packet, count, bytes + at + count, check, out, length, &lent.written) == 0);
	MUST(lent.written == length && memcmp(out, bytes, length) == 0);
}

/* Packets of both families in every shape: of every length around the one that the header gives, and below the header with one that says so; one off and
 * far off; the longest that there is room for, and below that one byte more. */
static void packets(void)
{
	for (const struct shape *s = SHAPES; s < SHAPES + LENGTH(SHAPES); s++)
		for (const struct family *f = FAMILIES; f < FAMILIES + LENGTH(FAMILIES); f++) {
			const size_t most = KABIZARLE_LONGEST - s->body - 1u - check_bytes(s), shortest = f->header, counts[] = { shortest, shortest + 1, 60, 300, most };

			for (size_t n = 1; n < 90; n++)
				packet_tried(s, f, n, 60 - f->uncounted);
			for (size_t n = 1; n < shortest; n++)
				packet_tried(s, f, n, n);
			for (size_t i = 0; i < LENGTH(counts); i++) {
				uint64_t given = counts[i] - f->uncounted;
				const uint64_t others[] = { given, given + 1, given - 1, given + f->header, given - f->header, given ^ 256, given << 8 | given >> 8, UINT16_MAX };

				for (size_t k = 0; k < LENGTH(others); k++)
					packet_tried(s, f, counts[i], others[k] % 65536);
				if (counts[i] < most)
					packet_tried(s, f, counts[i] + 1, given);
				packet_tried(s, f, counts[i] - 1, given);
			}
		}
}

/* Of several faults the one that comes first in the order decides, and with it the byte; it need not be the first in the message. */
static void first_fault(void)
{
	uint8_t bytes[sizeof SECRET] = { 0x30, 0x3f };

	refused(KABIZARLE_REFUSED_VERSION, 0, bytes, sizeof bytes);
	bytes[1] = 0x1f;
	refused(KABIZARLE_REFUSED_RESERVED, 0, bytes, sizeof bytes);
	bytes[1] = 0x17;
	refused(KABIZARLE_REFUSED_OLD_TUNNEL, 0, bytes, sizeof bytes);
	bytes[1] = 0x13;
	refused(KABIZARLE_REFUSED_ENCRYPT, 0, bytes, sizeof bytes);
	bytes[0] = 0x10;
	refused(KABIZARLE_REFUSED_TOO_SHORT, 51, bytes, 51);
	refused(KABIZARLE_REFUSED_KEY, 22, bytes, sizeof bytes);
	REFUSED_AT(15, 0, receive_by(0, 0, true, bytes, sizeof bytes, lent.out, 64));
	bytes[23] = 0x10;
	refused(KABIZARLE_REFUSED_SOURCE, 6, bytes, sizeof bytes);
	bytes[6] = 2;
	refused(KABIZARLE_REFUSED_DESTINATION, 14, bytes, sizeof bytes);
	bytes[14] = 2, bytes[24] = 0x02;
	refused(KABIZARLE_REFUSED_EXCHANGE, 24, bytes, 52);
	bytes[24] = 0x12;
	refused(KABIZARLE_REFUSED_OLD_ASKS, 24, bytes, 52);
	bytes[1] = 0x23;
	refused_inside(KABIZARLE_REFUSED_TOO_SHORT, 52, bytes, 52);
	bytes[1] = 0x27;
	refused(KABIZARLE_REFUSED_TUNNEL, 24, bytes, sizeof bytes);
	bytes[24] = 1;
	refused(KABIZARLE_REFUSED_PACKET, 25, bytes, sizeof bytes);
	bytes[25] = 0x60;
	refused_inside(KABIZARLE_REFUSED_PACKET_LENGTH, 25, bytes, sizeof bytes);
	REFUSED_AT(27, 25, receive_by(OWN, 0, false, bytes, sizeof bytes, NULL, 0)); /* its check did not pass, and it is for another */
}

/* Every cut of the messages: refused with 2 below the length that its fields need; from there on taken, but for the tunnelled one, whose packet is refused
 * with 27 until it is whole. */
static void cuts(void)
{
	for (size_t n = 0; n < sizeof X; n++)
		refused(KABIZARLE_REFUSED_TOO_SHORT, n, X, n);
	MUST(read_message(lend(X, sizeof X), sizeof X) == 0);
	for (size_t n = 0; n < PACKET_AT + 1; n++)
		refused(KABIZARLE_REFUSED_TOO_SHORT, n, TUNNEL, n);
	for (size_t n = PACKET_AT + 1; n < sizeof TUNNEL; n++)
		refused_inside(KABIZARLE_REFUSED_PACKET_LENGTH, PACKET_AT, TUNNEL, n);
	MUST(read_message(lend(TUNNEL, sizeof TUNNEL), sizeof TUNNEL) == 0);
	for (size_t n = 0; n < sizeof SECRET; n++) {
		const uint8_t *bytes = lend(SECRET, n);

		scatter();
		if (n < 52)
			REFUSED_AT(2, n, read_outer(bytes, n));
		else
			MUST(read_outer(bytes, n) == 0 && lent.part[KABIZARLE_PART_START] == 24 && lent.part[KABIZARLE_PART_LENGTH] == n - 24);
		if (n < 56)
			REFUSED_AT(2, n, read_message(bytes, n));
		else
			MUST(read_message(bytes, n) == 0 && lent.fields[KABIZARLE_PAYLOAD_LENGTH] == n - 56);
	}
}

/* Slices of no bytes, which may be NULL. */
static void empty_slices(void)
{
	scatter();
	REFUSED_AT(2, 0, read_outer(NULL, 0));
	REFUSED_AT(2, 0, read_message(NULL, 0));
	REFUSED_AT(2, 0, receive(NULL, 0));
	REFUSED_AT(2, 0, receive(read_end, 0));
	MUST(kabizarle_unframe(NULL, 0, lent.frame) == 0);
	MUST(lent.frame[0] == 2 && !lent.frame[1] && !lent.frame[2] && !lent.frame[3] && !lent.frame[4]);
	REFUSED(19, kabizarle_frame(NULL, 0, NULL, 0, &lent.written));
	MUST(kabizarle_frame(NULL, 0, lent.out, 2, &lent.written) == 0 && lent.written == 2 && lent.out[0] == 0 && lent.out[1] == 0);
	MUST(read_message(X, sizeof X) == 0);
	REFUSED(19, kabizarle_write(lent.fields, NULL, 0, NULL, 0, NULL, 0, &lent.written));
	MUST(kabizarle_write(lent.fields, NULL, 0, NULL, 0, lent.out, 30, &lent.written) == 0 && lent.written == 30);
	start();
	REFUSED_AT(19, 0, receive_by(OWN, 0, true, X, sizeof X, NULL, 0));
	MUST(receive_by(OWN, SENDER, true, TUNNEL, sizeof TUNNEL, NULL, 0) == 0);
	MUST(lent.fields[KABIZARLE_VERDICT] == KABIZARLE_NEW && lent.fields[KABIZARLE_REPLY_LENGTH] == 0);
}

/* Lengths that no message has, up to the largest number. With one of the last five a sum of lengths can wrap. */
static const size_t TOO_LONG[] = {
	KABIZARLE_LONGEST + 1, UINT16_MAX + (size_t)31, UINT32_MAX + (size_t)31, PTRDIFF_MAX, (size_t)PTRDIFF_MAX + 1,
	SIZE_MAX - KABIZARLE_LONGEST, SIZE_MAX - 75, SIZE_MAX - 29, SIZE_MAX - 1, SIZE_MAX,
};

/* Of a message that is too long nothing is read, and of a stream the first two bytes. */
static void largest_lengths(void)
{
	for (size_t i = 0; i < LENGTH(TOO_LONG); i++) {
		size_t length = TOO_LONG[i];

		start();
		REFUSED_AT(1, KABIZARLE_LONGEST, read_outer(read_end, length));
		REFUSED_AT(1, KABIZARLE_LONGEST, read_message(read_end, length));
		REFUSED_AT(1, KABIZARLE_LONGEST, receive(read_end, length));
		REFUSED(1, kabizarle_frame(read_end, length, lent.out, sizeof lent.out, &lent.written));
		MUST(kabizarle_unframe(lend(X, 2), length, lent.frame) == 0);
		MUST(lent.frame[KABIZARLE_FRAME_WANTED] == (length < 0x2302 ? 0x2302 - length : 0));
		if (length >= 0x2302)
			MUST(lent.frame[KABIZARLE_REST_START] == 0x2302 && lent.frame[KABIZARLE_REST_LENGTH] == length - 0x2302);
	}
}

/* A message is to be written with a payload of such a length. Of that the first six bytes may be looked at; here they are a packet's, whose header gives
 * the length as far as it can: what does not fit in two bytes is another length. */
static void largest_payload(const struct family *f, size_t length, size_t check, size_t room)
{
	size_t given = length - f->uncounted;
	uint8_t first[6] = { f->first };

	first[f->at] = (uint8_t)(given >> 8), first[f->at + 1] = (uint8_t)given;
	const uint8_t *payload = lend(first, sizeof first);
	uint32_t number = lent.fields[KABIZARLE_HEADER] & KABIZARLE_TUNNELLED && given > UINT16_MAX ? KABIZARLE_REFUSED_PACKET_LENGTH : KABIZARLE_REFUSED_TOO_LONG;

	REFUSED(number, kabizarle_write(lent.fields, payload, length, SECRET, check, lent.out, room, &lent.written));
}

/* Such a payload or check of a message to be written: nothing is written, whatever the sum of the lengths. */
static void largest_payloads(const uint8_t *message, size_t message_length)
{
	static const size_t rooms[] = { 0, 40, sizeof lent.out };

	scatter();
	MUST(read_message(message, message_length) == 0);
	const uint8_t *payload = message + lent.fields[KABIZARLE_PAYLOAD_START];
	size_t payload_length = lent.fields[KABIZARLE_PAYLOAD_LENGTH], check = lent.fields[KABIZARLE_CHECK_LENGTH];
	for (size_t i = 0; i < LENGTH(rooms); i++) {
		for (size_t k = 0; k < LENGTH(TOO_LONG); k++)
			REFUSED(14, kabizarle_write(lent.fields, payload, payload_length, read_end, TOO_LONG[k], lent.out, rooms[i], &lent.written));
		for (const struct family *f = FAMILIES; f < FAMILIES + LENGTH(FAMILIES); f++) {
			for (size_t k = 0; k < LENGTH(TOO_LONG); k++)
				largest_payload(f, TOO_LONG[k], check, rooms[i]);
			for (size_t less = 0; less < 80; less++) {
				largest_payload(f, SIZE_MAX - less, check, rooms[i]);
				largest_payload(f, UINT16_MAX + (size_t)60 - less, check, rooms[i]);
			}
		}
	}
}

/* Such a room: no more is written than the message has. */
static void largest_rooms(void)
{
	static const uint8_t longest[KABIZARLE_LONGEST] = { 0x00, 0x20, [6] = 0x10 };
	uint8_t *out = write_end - KABIZARLE_LONGEST;

	for (size_t i = 0; i < LENGTH(TOO_LONG); i++) {
		start();
		MUST(kabizarle_frame(X, sizeof X, write_end - sizeof X - 2, TOO_LONG[i], &lent.written) == 0 && lent.written == sizeof X + 2);
		MUST(receive_by(OWN, 0, true, X, sizeof X, write_end - sizeof REPLY, TOO_LONG[i]) == 0);
		MUST(memcmp(write_end - sizeof REPLY, REPLY, sizeof REPLY) == 0);
		MUST(read_message(lend(longest, sizeof longest), sizeof longest) == 0);
		MUST(lent.fields[KABIZARLE_PAYLOAD_LENGTH] == KABIZARLE_LONGEST - 14);
		MUST(kabizarle_write(lent.fields, longest + 14, KABIZARLE_LONGEST - 14, NULL, 0, out, TOO_LONG[i], &lent.written) == 0);
		MUST(lent.written == KABIZARLE_LONGEST && memcmp(out, longest, KABIZARLE_LONGEST) == 0);
	}
	REFUSED(1, kabizarle_write(lent.fields, longest, KABIZARLE_LONGEST - 13, NULL, 0, lent.out, sizeof lent.out, &lent.written));
}

/* All places of the messages, as reading gives them. */
static void places(void)
{
	static const uint64_t x[] = { 0x2300, 4 + 1, 5, SENDER, OWN, 0, 2, 0x0102, 0, 0, 30, 0, 30, 0, 0, 0 };
	static const uint64_t secret[] = { 0x2310, 7, 5, SENDER, OWN, 0x2001, 7, 0x0102, 0x01020304, 0x05060708, 36, 3, 39, 20, 0, 0 };
	static const uint64_t tunnel[] = { 0x2400, 0, 6, 0, 0, 0, 0, 0, 0, 0, 7, 25, 32, 0, 0, 0 };

	scatter();
	MUST(read_message(lend(X, sizeof X), sizeof X) == 0 && memcmp(lent.fields, x, sizeof x) == 0);
	MUST(read_message(lend(SECRET, sizeof SECRET), sizeof SECRET) == 0 && memcmp(lent.fields, secret, sizeof secret) == 0);
	MUST(read_message(lend(TUNNEL, sizeof TUNNEL), sizeof TUNNEL) == 0 && memcmp(lent.fields, tunnel, sizeof tunnel) == 0);
	MUST(read_outer(lend(X, sizeof X), sizeof X) == 0 && lent.part[0] == 30 && lent.part[1] == 0);
	MUST(read_outer(lend(SECRET, sizeof SECRET), sizeof SECRET) == 0 && lent.part[0] == 24 && lent.part[1] == 35);
}

/* A message that is read, written and read again: the same bytes, in exactly their room and in more, and refused in less. */
static void there_and_back(const uint8_t *message, size_t length)
{
	scatter();
	MUST(read_message(message, length) == 0);
	const uint8_t *payload = message + lent.fields[KABIZARLE_PAYLOAD_START], *check = message + lent.fields[KABIZARLE_CHECK_START];
	size_t payload_length = lent.fields[KABIZARLE_PAYLOAD_LENGTH], check_length = lent.fields[KABIZARLE_CHECK_LENGTH];

	for (size_t p = KABIZARLE_PAYLOAD_START; p < KABIZARLE_FIELDS; p++)
		lent.fields[p] = ALL_ONES; /* writing does not look at these */
	for (size_t room = 0; room < length; room++)
		REFUSED(19, kabizarle_write(lent.fields, payload, payload_length, check, check_length, lent.out, room, &lent.written));
	for (size_t more = 0; more < 20; more++) {
		uint8_t *out = write_end - length - more;

		memset(out, 0xa5, length + more);
		MUST(kabizarle_write(lent.fields, payload, payload_length, check, check_length, out, length + more, &lent.written) == 0);
		MUST(lent.written == length && memcmp(out, message, length) == 0);
		MUST(more == 0 || (out[length] == 0xa5 && memcmp(out + length, out + length + 1, more - 1) == 0));
	}
}

/* Every refusal of writing but 1 and 19, each one place away from a legal value. */
static void refusals_of_writing(void)
{
	static const struct { uint32_t refusal, place; uint64_t value; } cases[] = {
		{ 3, KABIZARLE_HEADER, 0x0310 }, { 3, KABIZARLE_HEADER, 0x3310 }, { 3, KABIZARLE_HEADER, 0xf310 }, { 6, KABIZARLE_HEADER, 0x1320 },
		{ 6, KABIZARLE_HEADER, 0x13f0 }, { 5, KABIZARLE_HEADER, 0x1710 }, { 7, KABIZARLE_KEY, 0x0001 }, { 7, KABIZARLE_KEY, 0xffff }, { 8, KABIZARLE_SOURCE, 0 },
		{ 8, KABIZARLE_SOURCE, ALL_ONES }, { 9, KABIZARLE_DESTINATION, 0 }, { 11, KABIZARLE_FLAGS, 2 }, { 11, KABIZARLE_FLAGS, 4 },
		{ 14, KABIZARLE_HEADER, 0x1110 }, { 14, KABIZARLE_HEADER, 0x1210 }, { 14, KABIZARLE_ACKNOWLEDGED, 1 }, { 14, KABIZARLE_HEADER, 0x1300 },
	};

	for (size_t i = 0; i < LENGTH(cases); i++) {
		scatter();
		MUST(read_message(SECRET, sizeof SECRET) == 0);
		lent.fields[KABIZARLE_HEADER] = KABIZARLE_VERSION + KABIZARLE_SOURCED + KABIZARLE_DESTINED + KABIZARLE_ENCRYPTED;
		lent.fields[KABIZARLE_FLAGS] = KABIZARLE_INITIATOR;
		lent.fields[KABIZARLE_ACKNOWLEDGED] = 0;
		MUST(put(3, 20, sizeof lent.out) == 0);
		lent.fields[cases[i].place] = cases[i].value;
		REFUSED(cases[i].refusal, put(3, 20, sizeof lent.out));
	}
	MUST(read_message(SECRET, sizeof SECRET) == 0);
	REFUSED(14, put(3, 19, sizeof lent.out));
	REFUSED(14, put(3, 0, sizeof lent.out));
	MUST(read_message(TUNNEL, sizeof TUNNEL) == 0);
	REFUSED(2, put(0, 0, sizeof lent.out));
	REFUSED(13, put(3, 0, sizeof lent.out)); /* its first byte is 0x10 */
	REFUSED(27, kabizarle_write(lent.fields, TUNNEL + PACKET_AT, 24, NULL, 0, lent.out, sizeof lent.out, &lent.written));
	for (size_t p = KABIZARLE_SOURCE; p <= KABIZARLE_ACKNOWLEDGED; p++) {
		MUST(read_message(TUNNEL, sizeof TUNNEL) == 0);
		lent.fields[p] = 0x21; /* a tunnelled message with no node has none of these fields */
		REFUSED(14, kabizarle_write(lent.fields, TUNNEL + PACKET_AT, 25, NULL, 0, lent.out, sizeof lent.out, &lent.written));
		REFUSED(27, kabizarle_write(lent.fields, TUNNEL + PACKET_AT, 24, NULL, 0, lent.out, sizeof lent.out, &lent.written));
	}
	MUST(read_message(TUNNEL, sizeof TUNNEL) == 0);
	for (uint64_t bit = KABIZARLE_INITIATOR; bit <= KABIZARLE_WANTS; bit *= 2) {
		lent.fields[KABIZARLE_FLAGS] = bit;
		REFUSED(14, kabizarle_write(lent.fields, TUNNEL + PACKET_AT, 25, NULL, 0, lent.out, sizeof lent.out, &lent.written));
	}
}

/* Places with numbers that their fields cannot hold are refused before all else; the largest that they can hold are written. */
static void wide_places(void)
{
	static const struct { size_t place; uint64_t most; } widths[] = {
		{ KABIZARLE_HEADER, UINT16_MAX }, { KABIZARLE_FLAGS, 7 }, { KABIZARLE_KIND, UINT8_MAX }, { KABIZARLE_KEY, UINT16_MAX },
		{ KABIZARLE_EXCHANGE, UINT16_MAX }, { KABIZARLE_ID, UINT32_MAX }, { KABIZARLE_PROFILE, UINT32_MAX }, { KABIZARLE_ACKNOWLEDGED, UINT32_MAX },
	};
	uint64_t legal[KABIZARLE_FIELDS];

	scatter();
	MUST(read_message(SECRET, sizeof SECRET) == 0);
	memcpy(legal, lent.fields, sizeof legal);
	for (size_t i = 0; i < LENGTH(widths); i++) {
		const uint64_t wide[] = { widths[i].most + 1, widths[i].most + 1 + legal[widths[i].place], (UINT64_C(1) << 63) + legal[widths[i].place], ALL_ONES };

		for (size_t k = 0; k < LENGTH(wide); k++) {
			memcpy(lent.fields, legal, sizeof legal);
			lent.fields[widths[i].place] = wide[k];
			REFUSED(14, put(3, 20, sizeof lent.out));
			lent.fields[widths[i].place == KABIZARLE_HEADER ? KABIZARLE_SOURCE : KABIZARLE_HEADER] = 0; /* 8, or 3 */
			REFUSED(14, put(3, 20, sizeof lent.out));
		}
	}
	for (unsigned bit = 0; bit < 64; bit++) {
		memcpy(lent.fields, legal, sizeof legal);
		lent.fields[KABIZARLE_FLAGS] |= UINT64_C(1) << bit;
		if (bit > 2)
			REFUSED(14, put(3, 20, sizeof lent.out));
		memcpy(lent.fields, legal, sizeof legal);
		lent.fields[KABIZARLE_HEADER] |= UINT64_C(1) << bit;
		if (bit < 4 || bit == 11 || bit > 15) /* no field has these bits */
			REFUSED(14, put(3, 20, sizeof lent.out));
	}
	memcpy(lent.fields, legal, sizeof legal);
	for (size_t i = 2; i < LENGTH(widths); i++)
		lent.fields[widths[i].place] = widths[i].place == KABIZARLE_KEY ? 0x2fff : widths[i].most;
	lent.fields[KABIZARLE_SOURCE] = lent.fields[KABIZARLE_DESTINATION] = ALL_ONES - 1;
	memcpy(legal, lent.fields, sizeof legal);
	MUST(put(3, 20, 59) == 0 && lent.written == 59);
	MUST(read_message(lent.out, 59) == 0 && memcmp(lent.fields, legal, sizeof legal) == 0);
}

/* A framed message, its rooms, and every cut of the stream. */
static void frames(void)
{
	static const uint8_t zeros[KABIZARLE_LONGEST];
	const size_t whole = sizeof X + KABIZARLE_FRAME_BYTES;

	scatter();
	for (size_t room = 0; room < whole; room++)
		REFUSED(19, kabizarle_frame(X, sizeof X, lent.out, room, &lent.written));
	MUST(kabizarle_frame(lend(X, sizeof X), sizeof X, write_end - whole, whole, &lent.written) == 0 && lent.written == whole);
	const uint8_t *stream = write_end - whole;

	for (size_t n = 0; n <= whole; n++) {
		const uint8_t *bytes = lend(stream, n);

		MUST(kabizarle_unframe(bytes, n, lent.frame) == 0);
		MUST(lent.frame[KABIZARLE_FRAME_WANTED] == (n < 2 ? 2 - n : whole - n));
		MUST(n == whole || (!lent.frame[1] && !lent.frame[2] && !lent.frame[3] && !lent.frame[4]));
	}
	MUST(lent.frame[KABIZARLE_FRAME_START] == 2 && lent.frame[KABIZARLE_FRAME_LENGTH] == sizeof X && memcmp(stream + 2, X, sizeof X) == 0);
	MUST(lent.frame[KABIZARLE_REST_START] == whole && lent.frame[KABIZARLE_REST_LENGTH] == 0);
	MUST(kabizarle_unframe(lend((const uint8_t[]){ 0xff, 0xff, 0 }, 3), 3, lent.frame) == 0 && lent.frame[KABIZARLE_FRAME_WANTED] == 65534);
	MUST(kabizarle_unframe(lend((const uint8_t[]){ 0, 0, 7 }, 3), 3, lent.frame) == 0 && lent.frame[KABIZARLE_FRAME_LENGTH] == 0);
	MUST(lent.frame[KABIZARLE_REST_START] == 2 && lent.frame[KABIZARLE_REST_LENGTH] == 1);
	MUST(kabizarle_frame(zeros, sizeof zeros, lent.out, sizeof lent.out, &lent.written) == 0 && lent.written == sizeof lent.out);
	REFUSED(19, kabizarle_frame(zeros, sizeof zeros, lent.out, sizeof lent.out - 1, &lent.written));
}

/* The worked example: new, then duplicate, each acknowledged; and a refusal of receiving for each reason of its own. */
static void receiving(void)
{
	uint8_t other[sizeof X];

	start();
	MUST(receive(lend(X, sizeof X), sizeof X) == 0 && lent.fields[KABIZARLE_VERDICT] == KABIZARLE_NEW && lent.fields[KABIZARLE_ID] == 5);
	MUST(lent.fields[KABIZARLE_REPLY_LENGTH] == sizeof REPLY && memcmp(lent.out, REPLY, sizeof REPLY) == 0);
	MUST(lent.table[0] == SENDER && lent.table[1] == (UINT64_C(1) << 48) + 5 && lent.table[2] == 0);
	kept = lent;
	uint8_t *out = write_end - sizeof REPLY;
	MUST(receive_by(OWN, 0, false, X, sizeof X, out, sizeof REPLY) == 0);
	MUST(lent.fields[KABIZARLE_VERDICT] == KABIZARLE_DUPLICATE && memcmp(out, REPLY, sizeof REPLY) == 0);
	MUST(memcmp(lent.table, kept.table, sizeof lent.table) == 0);
	for (size_t room = 0; room < sizeof REPLY; room++)
		REFUSED_AT(19, 0, receive_by(OWN, 0, true, X, sizeof X, lent.out, room));
	for (size_t room = 0; room < KABIZARLE_ACKNOWLEDGEMENT_BYTES; room++)
		REFUSED_AT(19, 0, receive_by(OWN, 0, true, SECRET, sizeof SECRET, lent.out, room));
	REFUSED_AT(15, 0, receive_by(0, 0, true, X, sizeof X, lent.out, 64));
	REFUSED_AT(15, 0, receive_by(ALL_ONES, 0, true, NULL, 0, lent.out, 64));
	REFUSED_AT(16, 0, receive_by(OWN + 1, 0, true, X, sizeof X, lent.out, 64));
	REFUSED_AT(17, 0, receive_by(OWN, 0, true, TUNNEL, sizeof TUNNEL, lent.out, 64));
	REFUSED_AT(17, 0, receive_by(OWN, ALL_ONES, true, TUNNEL, sizeof TUNNEL, lent.out, 64));
	REFUSED_AT(18, 0, receive_by(OWN, 0, false, SECRET, sizeof SECRET, lent.out, 0));
	MUST(receive_by(OWN, SENDER, false, TUNNEL, sizeof TUNNEL, NULL, 0) == 0 && (uint32_t)lent.table[1] == 6);
	MUST(receive(SECRET, sizeof SECRET) == 0 && lent.fields[KABIZARLE_REPLY_LENGTH] == KABIZARLE_ACKNOWLEDGEMENT_BYTES && lent.table[3] == SENDER);
	memcpy(other, X, sizeof X);
	memset(other + 14, 0xff, 8);
	MUST(receive(other, sizeof other) == 0 && lent.fields[KABIZARLE_DESTINATION] == ALL_ONES);
}

/* A table of all 32 rows: the names it holds are served, and another has no row until one is freed. */
static void full_table(void)
{
	uint8_t bytes[sizeof X];

	start();
	memcpy(bytes, X, sizeof X);
	for (uint8_t i = 0; i < KABIZARLE_ROWS; i++) {
		bytes[NAME_AT] = (uint8_t)(0x20 + i);
		MUST(receive(bytes, sizeof bytes) == 0 && lent.fields[KABIZARLE_VERDICT] == KABIZARLE_NEW);
		MUST(kabizarle_row(lent.table, i, lent.shown) == 0);
		MUST(memcmp(lent.shown, (const uint64_t[]){ 1, SENDER - 0x0e + 0x20 + i, 0, 5, 0 }, sizeof lent.shown) == 0);
	}
	REFUSED_AT(20, 0, receive(X, sizeof X));
	REFUSED_AT(20, 0, receive(SECRET, sizeof SECRET));
	REFUSED_AT(20, 0, receive_by(OWN, SENDER, true, TUNNEL, sizeof TUNNEL, NULL, 0));
	REFUSED_AT(19, 0, receive_by(OWN, 0, true, X, sizeof X, lent.out, 33));
	kept = lent;
	MUST(receive(bytes, sizeof bytes) == 0 && lent.fields[KABIZARLE_VERDICT] == KABIZARLE_DUPLICATE);
	MUST(memcmp(lent.table, kept.table, sizeof lent.table) == 0);
	REFUSED(21, kabizarle_remove(lent.table, SENDER, 0));
	REFUSED(21, kabizarle_remove(lent.table, SENDER + 0x19, 1));
	kept = lent;
	MUST(kabizarle_remove(lent.table, SENDER + 0x19, 0) == 0);
	memset(&kept.table[3 * 7], 0, 3 * sizeof *kept.table);
	MUST(unchanged());
	MUST(receive(X, sizeof X) == 0 && lent.table[3 * 7] == SENDER);
}

/* Only rows in use are found; bits that belong to no field are not looked at, and are clear once the row is put. */
static void odd_tables(void)
{
	start();
	REFUSED(21, kabizarle_remove(lent.table, 0, 0));
	for (size_t i = 0; i < KABIZARLE_ROWS; i++)
		memcpy(&lent.table[3 * i], (const uint64_t[]){ SENDER, ~(UINT64_C(1) << 48), ALL_ONES }, 24);
	REFUSED(21, kabizarle_remove(lent.table, SENDER, UINT16_MAX));
	kept = lent;
	MUST(receive(X, sizeof X) == 0 && lent.table[0] == SENDER && lent.table[1] == (UINT64_C(1) << 48) + 5 && lent.table[2] == 0);
	MUST(memcmp(lent.table + 3, kept.table + 3, sizeof lent.table - 24) == 0);
	memset(lent.table, 0xff, sizeof lent.table);
	REFUSED_AT(20, 0, receive(X, sizeof X));
	kept = lent;
	MUST(kabizarle_remove(lent.table, ALL_ONES, UINT16_MAX) == 0);
	memset(kept.table, 0, 24);
	MUST(unchanged());
}

/* Rows as numbers; past the last row all places are zero, also where the place of the row would wrap. */
static void rows(void)
{
	static const size_t past[] = { KABIZARLE_ROWS, KABIZARLE_ROWS + 1, KABIZARLE_TABLE_WORDS, SIZE_MAX / 24 + 1, SIZE_MAX / 3 + 1, SIZE_MAX };
	static const uint64_t zeros[KABIZARLE_ROW_PLACES];

	for (size_t i = 0; i < LENGTH(past); i++) {
		scatter();
		memset(lent.table, 0xff, sizeof lent.table);
		kept = lent;
		memset(kept.shown, 0, sizeof kept.shown);
		MUST(kabizarle_row(lent.table, past[i], lent.shown) == 0 && memcmp(lent.shown, zeros, sizeof zeros) == 0);
		MUST(unchanged());
	}
	MUST(kabizarle_row(lent.table, KABIZARLE_ROWS - 1, lent.shown) == 0);
	lent.shown[KABIZARLE_ROW_MARKS] &= MARKS; /* the other bits stand for no mark */
	MUST(memcmp(lent.shown, (const uint64_t[]){ 1, ALL_ONES, UINT16_MAX, UINT32_MAX, MARKS }, sizeof lent.shown) == 0);
	lent.table[1] = ~(UINT64_C(1) << 48);
	MUST(kabizarle_row(lent.table, 0, lent.shown) == 0 && lent.shown[KABIZARLE_ROW_USED] == 0);
}

/* One row: words before, id, verdict, words after. The node stays, and so do the three words of a duplicate. */
static void rolled(uint64_t state, uint64_t marks, uint32_t id, uint64_t verdict, uint64_t state_after, uint64_t marks_after)
{
	scatter();
	memcpy(&lent.table[3 * 30], (const uint64_t[]){ SENDER, state, marks }, 24);
	kept = lent;
	MUST(kabizarle_roll(&lent.table[3 * 30], id, &lent.verdict) == 0 && lent.verdict == verdict);
	kept.verdict = verdict;
	memcpy(&kept.table[3 * 30], (const uint64_t[]){ SENDER, state_after, marks_after }, 24);
	MUST(unchanged());
}

/* The ledger of examples, a free row, the plain row's reach, and bits that stand for nothing. */
static void rolling(void)
{
	const uint64_t plain = UINT64_C(1) << 48, in_use = plain + (UINT64_C(0x2001) << 32), key = UINT64_C(0x2001) << 32, odd = UINT64_C(0xfffe) << 48;
	const uint64_t no_mark = ~(uint64_t)MARKS;
	enum { NEW = KABIZARLE_NEW, AGAIN = KABIZARLE_DUPLICATE };

	rolled(key, 0, 5, NEW, in_use + 5, 0);
	rolled(in_use + 5, 0, 5, AGAIN, in_use + 5, 0);
	rolled(in_use + 5, 0, 4, NEW, in_use + 5, 1);
	rolled(in_use + 20, 0, 5, NEW, in_use + 20, 1 << 14);
	rolled(in_use + 20, 0, 4, AGAIN, in_use + 20, 0);
	rolled(plain + 20, 0, 4, NEW, plain + 4, 0);
	rolled(in_use + UINT32_MAX, 0, 0, NEW, in_use, 1);
	rolled(in_use, 0, 2147483647, NEW, in_use + 2147483647, 0);
	rolled(in_use, 0, 2147483648, AGAIN, in_use, 0);
	rolled(in_use + 10, 5, 13, NEW, in_use + 13, 4 + 8 + 32);
	rolled(in_use + 10, 1, 25, NEW, in_use + 25, 1 << 14);
	rolled(in_use + 10, 1, 26, NEW, in_use + 26, 0);
	rolled(plain + 20, 1 << 14, 5, AGAIN, plain + 20, 1 << 14);
	rolled(odd + key + 7, ALL_ONES, 5, NEW, in_use + 5, 0);
	rolled(odd + in_use + 20, no_mark, 20, AGAIN, odd + in_use + 20, no_mark);
	rolled(odd + in_use + 20, no_mark, 4, AGAIN, odd + in_use + 20, no_mark);
	rolled(odd + in_use + 20, no_mark, 21, NEW, in_use + 21, 1);
	rolled(odd + in_use + 20, no_mark, 19, NEW, in_use + 20, 1);
	rolled(odd + plain + 20, no_mark, 4, NEW, plain + 4, 0);
	rolled(odd + in_use + 20, ALL_ONES, 21, NEW, in_use + 21, MARKS);
}

/* Puts the record of a saved row. */
static void put_record(uint8_t *at, uint64_t node, uint16_t key, uint32_t highest, uint16_t marks)
{
	at[0] = 0x52, at[1] = 0x57;
	for (int i = 0; i < 8; i++)
		at[2 + i] = (uint8_t)(node >> (56 - 8 * i));
	at[10] = (uint8_t)key, at[11] = (uint8_t)(key >> 8);
	for (int i = 0; i < 4; i++)
		at[12 + i] = (uint8_t)(highest >> (8 * i));
	at[16] = (uint8_t)marks, at[17] = (uint8_t)(marks >> 8);
}

/* A row as its three words. */
static void put_words(size_t row, uint64_t node, uint64_t state, uint64_t marks)
{
	memcpy(&lent.table[3 * row], (const uint64_t[]){ node, state, marks }, 24);
}

/* The table is saved as these bytes: in their room, in more and in any, and refused in less. Nothing else of what is lent changes. */
static void saved_as(const uint8_t *bytes, size_t length)
{
	for (size_t room = 0; room < length; room++)
		REFUSED(19, kabizarle_save(lent.table, lent.out, room, &lent.written));
	if (length > 0)
		REFUSED(19, kabizarle_save(lent.table, NULL, 0, &lent.written));
	kept = lent;
	kept.written = length;
	for (size_t more = 0; more < 40; more++) {
		uint8_t *out = write_end - length - more;

		memset(out, 0xa5, length + more);
		MUST(kabizarle_save(lent.table, out, length + more, &lent.written) == 0 && memcmp(out, bytes, length) == 0);
		MUST(more == 0 || (out[length] == 0xa5 && memcmp(out + length, out + length + 1, more - 1) == 0));
	}
	for (size_t i = 0; i < LENGTH(TOO_LONG); i++) {
		memset(write_end - length, 0xa5, length);
		MUST(kabizarle_save(lent.table, write_end - length, TOO_LONG[i], &lent.written) == 0 && memcmp(write_end - length, bytes, length) == 0);
	}
	MUST(unchanged());
}

/* Tables that are saved: none in use, all in use, some between free rows; bits of no field are not saved, and a row is saved whatever it says. */
static void saving(void)
{
	const uint64_t in_use = UINT64_C(1) << 48, odd = UINT64_C(0xfffe) << 48, key = UINT64_C(0x2001) << 32;
	uint8_t bytes[KABIZARLE_SAVED_BYTES] = { 0 };

	MUST(KABIZARLE_SAVED_BYTES == KABIZARLE_ROWS * KABIZARLE_RECORD_BYTES);
	start();
	saved_as(bytes, 0);
	MUST(kabizarle_save(lent.table, NULL, 0, &lent.written) == 0 && lent.written == 0);
	for (size_t i = 0; i < KABIZARLE_ROWS; i++)
		put_words(i, ALL_ONES - i, ~in_use, ALL_ONES); /* free, whatever else they hold */
	saved_as(bytes, 0);
	put_words(1, SENDER, odd + in_use + key + 0x01020304, ALL_ONES);
	put_words(7, 0, in_use + (UINT64_C(0x3000) << 32) + UINT32_MAX, ~(uint64_t)MARKS);
	put_words(30, ALL_ONES, in_use, 0x5a5a);
	put_words(31, SENDER, in_use + key, 1);
	put_record(bytes, SENDER, 0x2001, 0x01020304, MARKS);
	put_record(bytes + 18, 0, 0x3000, UINT32_MAX, 0);
	put_record(bytes + 36, ALL_ONES, 0, 0, 0x5a5a);
	put_record(bytes + 54, SENDER, 0x2001, 0, 1);
	saved_as(bytes, 72);
	for (size_t i = 0; i < KABIZARLE_ROWS; i++) {
		put_words(i, SENDER + i, in_use + (key + i) + odd, i << 10 | UINT64_C(1) << 15);
		put_record(bytes + 18 * i, SENDER + i, 0x2001, (uint32_t)i, (uint16_t)(i << 10 & MARKS));
	}
	saved_as(bytes, sizeof bytes);
}

static uint32_t restore(const uint8_t *bytes, size_t length)
{
	return kabizarle_restore(lent.table, lend(bytes, length), length, &lent.placed);
}

/* The records are restored from a table of rubbish: their rows are the first, all other words are zero, and they are saved as the same bytes. */
static void restored(const uint8_t *bytes, size_t count)
{
	static const uint64_t zeros[KABIZARLE_TABLE_WORDS];

	scatter();
	kept = lent;
	MUST(restore(bytes, 18 * count) == 0 && lent.placed == count);
	MUST(memcmp(lent.table + 3 * count, zeros, sizeof zeros - 24 * count) == 0);
	kept.placed = count;
	memcpy(kept.table, lent.table, sizeof lent.table);
	MUST(unchanged());
	MUST(kabizarle_save(lent.table, lent.out, sizeof lent.out, &lent.written) == 0 && lent.written == 18 * count);
	MUST(memcmp(lent.out, bytes, 18 * count) == 0);
	for (size_t i = 0; i < count; i++) {
		MUST(kabizarle_row(lent.table, i, lent.shown) == 0 && lent.shown[KABIZARLE_ROW_USED] == 1);
		put_record(lent.out, lent.shown[KABIZARLE_ROW_NODE], (uint16_t)lent.shown[KABIZARLE_ROW_KEY], (uint32_t)lent.shown[KABIZARLE_ROW_HIGHEST],
			(uint16_t)lent.shown[KABIZARLE_ROW_MARKS]);
		MUST(memcmp(lent.out, bytes + 18 * i, 18) == 0);
	}
}

/* Saved rows of other nodes, with their key ids by turns plain, of a fabric and of a session. */
static void make_records(uint8_t *bytes, size_t count)
{
	static const uint16_t keys[] = { 0, 0x1000, 0x2fff };

	for (size_t i = 0; i < count; i++)
		put_record(bytes + 18 * i, SENDER + i, keys[i % LENGTH(keys)], (uint32_t)(0x9e3779b9 * i), (uint16_t)(MARKS >> i % 16));
}

/* The faults of saved rows, those that are refused first last. */
enum fault { NAME_TWICE, NODE_ZERO, NODE_ONES, KEY_TYPE_0, KEY_TYPE_3, KEY_TYPE_15, BIT_15, FIRST_OF_MARK, SECOND_OF_MARK, FAULTS };

/* Puts a fault into one of the records: its number. */
static uint32_t spoil(uint8_t *bytes, size_t count, size_t number, enum fault fault)
{
	uint8_t *at = bytes + 18 * number;

	if (fault == NAME_TWICE)
		memcpy(at + 2, bytes + 18 * ((number + 1) % count) + 2, 10);
	if (fault == NODE_ZERO || fault == NODE_ONES)
		memset(at + 2, fault == NODE_ZERO ? 0 : 0xff, 8);
	if (fault == KEY_TYPE_0 || fault == KEY_TYPE_3 || fault == KEY_TYPE_15)
		at[10] = 1, at[11] = fault == KEY_TYPE_0 ? 0 : fault == KEY_TYPE_3 ? 0x30 : 0xf0;
	if (fault == BIT_15)
		at[17] |= 0x80;
	if (fault == FIRST_OF_MARK || fault == SECOND_OF_MARK)
		at[fault == SECOND_OF_MARK] = 0x55;
	return fault == NAME_TWICE ? KABIZARLE_REFUSED_SAVED_TWICE : fault <= BIT_15 ? KABIZARLE_REFUSED_SAVED_ROW : KABIZARLE_REFUSED_SAVED_MARK;
}

/* Every fault in every record; of two, in whichever records they stand, the one that comes first in the order; and 24 before them all. */
static void refusals_of_restoring(void)
{
	uint8_t bytes[KABIZARLE_SAVED_BYTES + KABIZARLE_RECORD_BYTES];

	scatter();
	for (enum fault fault = NAME_TWICE; fault < FAULTS; fault++)
		for (size_t i = 0; i < KABIZARLE_ROWS; i++) {
			make_records(bytes, KABIZARLE_ROWS);
			uint32_t number = spoil(bytes, KABIZARLE_ROWS, i, fault);
			REFUSED(number, restore(bytes, KABIZARLE_SAVED_BYTES));
		}
	for (enum fault late = NAME_TWICE; late < FAULTS; late++)
		for (enum fault early = late; early < FAULTS; early++)
			for (size_t k = 0; k < 9; k++) {
				make_records(bytes, 33);
				spoil(bytes, 3, k / 3, late);
				uint32_t number = spoil(bytes, 3, k % 3, early);
				REFUSED(number, restore(bytes, 54));
				REFUSED(24, restore(bytes, 53));
				REFUSED(24, restore(bytes, sizeof bytes));
			}
	for (size_t i = 0; i < KABIZARLE_ROWS; i++)
		for (size_t k = 0; k < i; k++) {
			make_records(bytes, KABIZARLE_ROWS);
			memcpy(bytes + 18 * i + 2, bytes + 18 * k + 2, 10);
			REFUSED(26, restore(bytes, KABIZARLE_SAVED_BYTES));
		}
}

/* What is taken: any number of records up to 32, one node under several keys, the first two and the last key id of every type, of which those of 1 and 2 are taken, and 0; every mark, and no bit 15. */
static void restoring(void)
{
	uint8_t bytes[KABIZARLE_SAVED_BYTES];

	make_records(bytes, KABIZARLE_ROWS);
	for (size_t count = 0; count <= KABIZARLE_ROWS; count++)
		restored(bytes, count);
	for (uint32_t key = 0; key <= UINT16_MAX; key += key % 0x1000 == 1 ? 0xffe : 1) {
		put_record(bytes, SENDER, (uint16_t)key, 0, 0);
		if (key == 0 || key >> 12 == 1 || key >> 12 == 2)
			restored(bytes, 1);
		else
			REFUSED(25, restore(bytes, 18));
	}
	put_record(bytes, SENDER, 0x1001, 7, 0);
	put_record(bytes + 18, SENDER, 0, 7, 0);
	put_record(bytes + 36, SENDER, 0x2001, 7, 0);
	restored(bytes, 3);
	for (int bit = 0; bit < 15; bit++) {
		put_record(bytes, SENDER, 0, UINT32_MAX, (uint16_t)(1 << bit));
		restored(bytes, 1);
	}
	scatter();
	MUST(kabizarle_restore(lent.table, NULL, 0, &lent.placed) == 0 && lent.placed == 0 && lent.table[0] == 0);
}

/* Lengths that are not those of records: nothing is read of what is too long, whatever the length, also where it is a multiple of 18. */
static void lengths_of_restoring(void)
{
	uint8_t bytes[KABIZARLE_SAVED_BYTES];

	make_records(bytes, KABIZARLE_ROWS);
	scatter();
	for (size_t n = 1; n < sizeof bytes; n++)
		if (n % 18 != 0)
			REFUSED(24, restore(bytes, n));
	for (size_t i = 0; i < LENGTH(TOO_LONG); i++) {
		REFUSED(24, kabizarle_restore(lent.table, read_end, TOO_LONG[i], &lent.placed));
		REFUSED(24, kabizarle_restore(lent.table, read_end, TOO_LONG[i] - TOO_LONG[i] % 18, &lent.placed));
	}
	for (size_t n = sizeof bytes + 1; n < sizeof bytes + 40; n++)
		REFUSED(24, kabizarle_restore(lent.table, read_end, n, &lent.placed));
}

/* What was heard before the save is a duplicate after the restore, and what was held back is new; rows that are refused can be saved. */
static void over_winter(void)
{
	uint8_t bytes[KABIZARLE_SAVED_BYTES], late[sizeof X];

	start();
	memcpy(late, X, sizeof X);
	late[2] = 4;
	MUST(receive(X, sizeof X) == 0 && receive(SECRET, sizeof SECRET) == 0 && lent.fields[KABIZARLE_VERDICT] == KABIZARLE_NEW);
	MUST(kabizarle_save(lent.table, bytes, sizeof bytes, &lent.written) == 0 && lent.written == 36);
	kept = lent;
	MUST(receive(late, sizeof late) == 0 && lent.fields[KABIZARLE_VERDICT] == KABIZARLE_NEW);
	memset(lent.table, 0xff, sizeof lent.table);
	MUST(restore(bytes, 36) == 0 && memcmp(lent.table, kept.table, sizeof lent.table) == 0);
	MUST(receive(X, sizeof X) == 0 && lent.fields[KABIZARLE_VERDICT] == KABIZARLE_DUPLICATE);
	MUST(receive(SECRET, sizeof SECRET) == 0 && lent.fields[KABIZARLE_VERDICT] == KABIZARLE_DUPLICATE);
	MUST(memcmp(lent.table, kept.table, sizeof lent.table) == 0);
	MUST(receive(late, sizeof late) == 0 && lent.fields[KABIZARLE_VERDICT] == KABIZARLE_NEW);
	put_words(5, lent.table[0], lent.table[1], 0);
	MUST(kabizarle_save(lent.table, bytes, sizeof bytes, &lent.written) == 0 && lent.written == 54);
	REFUSED(26, restore(bytes, 54));
	put_words(5, 0, lent.table[1], 0);
	MUST(kabizarle_save(lent.table, bytes, sizeof bytes, &lent.written) == 0 && lent.written == 54);
	REFUSED(25, restore(bytes, 54));
}

int main(void)
{
	read_end = guarded();
	write_end = guarded();
	if (!read_end || !write_end) {
		printf("no memory\n");
		return 1;
	}
	refusals_of_reading();
	fields_at_fault();
	packets();
	first_fault();
	cuts();
	empty_slices();
	largest_lengths();
	largest_payloads(X, sizeof X);
	largest_payloads(SECRET, sizeof SECRET);
	largest_payloads(TUNNEL, sizeof TUNNEL);
	largest_rooms();
	places();
	there_and_back(X, sizeof X);
	there_and_back(REPLY, sizeof REPLY);
	there_and_back(SECRET, sizeof SECRET);
	there_and_back(TUNNEL, sizeof TUNNEL);
	refusals_of_writing();
	wide_places();
	frames();
	receiving();
	full_table();
	odd_tables();
	rows();
	rolling();
	saving();
	refusals_of_restoring();
	restoring();
	lengths_of_restoring();
	over_winter();
	printf("%u checks passed\n", passed);
	if (failed)
		printf("%u checks failed\n", failed);
	return failed ? 1 : 0;
}
