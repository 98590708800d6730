/* check: the worked examples through the adapter: X and its acknowledgement, the refusals of two bytes and those of messages with a field at fault,
 * each with its byte, packets of many lengths, the ledger P1 to P12 by its verdicts, and the row of X saved, restored and refused. Exit status: 0, or the
 * number of the first that fails: 1 to 12 for the ledger, 101 and up for the rest. */
#include "start.h"
#include "messages.h"

enum { MARKS = 15 };
#define MARK(k) (1u << ((k) - 1))

static const uint8_t REPLY[34] = { 0x00, 0x23, 9, 0, 0, 0, 2, 0, 0, 0, 0, 0, 0, 1, 2, 0, 0, 0, 0, 0, 0, 0x0e, 0x12, 2, 2, 1, 0, 0, 0, 0, 5, 0, 0, 0 };
/* Two bytes, and what refuses them; the byte at fault is the length for 2, and else 0. */
static const uint8_t TWO[6][3] = { { 0x00, 0x20, 2 }, { 0x00, 0x30, 3 }, { 0x01, 0x20, 4 }, { 0x00, 0x28, 4 }, { 0x00, 0x14, 5 }, { 0x20, 0x20, 6 } };

static void must(long number, bool holds)
{
	if (!holds)
		quit(number);
}

/* 'n' or 'd', the verdict on an id of the encrypted sender, or of the plain one. */
static char ask(bool plain, uint32_t id)
{
	static uint8_t open[30] = { 0x00, 0x23, 0, 0, 0, 0, 2, 0, 0, 0, 0, 0, 0, 0x0e, 2, 0, 0, 0, 0, 0, 0, 1, 0x11, 2, 2, 1 };
	uint8_t *message = plain ? open : secret;

	put_id(message, id);
	struct gw_answer a = receive(message, plain ? sizeof open : sizeof secret);
	return a.refusal || a.reply_length ? '?' : a.duplicate ? 'd' : 'n';
}

/* An empty table that has then heard some ids. */
static void heard(bool plain, unsigned count, const uint32_t *ids)
{
	gw_open(table);
	for (unsigned i = 0; i < count; i++)
		ask(plain, ids[i]);
}
#define HEARD(plain, ...) heard(plain, sizeof((uint32_t[]){ __VA_ARGS__ }) / 4, (const uint32_t[]){ __VA_ARGS__ })

/* The marks of the encrypted row, seen from outside: mark k for a duplicate k below the highest. It spoils the row. */
static uint32_t marks(uint32_t highest)
{
	uint32_t set = 0;

	for (uint32_t k = 1; k <= MARKS; k++)
		if (ask(false, highest - k) == 'd')
			set |= MARK(k);
	return set;
}

/* A message that is refused, and its byte at fault. */
static bool refuses(const uint8_t *message, size_t length, uint32_t refusal, uint64_t offset)
{
	struct gw_answer a = receive(message, length);

	return a.refusal == refusal && a.offset == offset;
}

/* Messages with one byte changed, each with the byte that its refusal points at; cut short, too long, and for another gateway. */
static void fields_at_fault(void)
{
	static uint8_t too_long[1233], nobody[30] = { 0x00, 0x23, 5, 0, 0, 0, 0, 0, 0, 0, 0, 0, 0, 0, 2 };
	static const struct { uint8_t *message; size_t length; uint8_t at, byte, refusal, offset; } faults[] = {
		{ secret, sizeof secret, 23, 0x30, 7, 22 }, { secret, sizeof secret, 24, 0x01, 10, 24 }, { nobody, sizeof nobody, 21, 1, 8, 6 },
		{ X, sizeof X, 1, 0x13, 11, 22 }, { X, sizeof X, 22, 0x35, 10, 22 }, { X, sizeof X, 22, 0x17, 2, 30 }, { X, sizeof X - 1, 22, 0x15, 2, 29 },
		{ X, sizeof X, 21, 2, 16, 0 }, { tunnel, sizeof tunnel, 22, 2, 12, 22 }, { tunnel, sizeof tunnel, 23, 0x55, 13, 23 },
	};

	for (size_t i = 0; i < sizeof faults / sizeof *faults; i++) {
		uint8_t *byte = faults[i].message + faults[i].at, right = *byte;

		*byte = faults[i].byte;
		must(130 + (long)i, refuses(faults[i].message, faults[i].length, faults[i].refusal, faults[i].offset));
		*byte = right;
	}
	nobody[13] = 0x0e, nobody[14] = 0; /* a source, and a destination that is all zero */
	must(140, refuses(nobody, sizeof nobody, 9, 14));
	nobody[1] = 0x21, nobody[13] = 0; /* such a destination alone */
	must(141, refuses(nobody, sizeof nobody, 9, 6));
	must(142, refuses(too_long, sizeof too_long, 1, 1232) && refuses(X, 1, 2, 1) && refuses(X, 0, 2, 0));
}

/* Packets of both families, plain and encrypted, of every length up to 80 bytes, with a header that says each of many lengths. */
static void packet_lengths(void)
{
	enum { MOST = 80, HEAD = 24, CHECK = 20 };
	static const struct { uint8_t first, header, at, uncounted; } families[] = { { 0x45, 20, 2, 0 }, { 0x60, 40, 4, 40 } };

	for (unsigned i = 0; i < 4; i++) {
		uint8_t message[HEAD + 1 + MOST + CHECK] = { 0 }, header = families[i / 2].header, uncounted = families[i / 2].uncounted;
		size_t first = i % 2 ? HEAD + 1 : HEAD - 1, after = i % 2 ? CHECK : 0;

		for (size_t k = 0; k < first - 1; k++)
			message[k] = secret[k];
		message[0] = i % 2 ? 0x10 : 0x00, message[1] = 0x27, message[first - 1] = 1, message[first] = families[i / 2].first;
		for (unsigned given = 0; given <= UINT16_MAX; given += given < 300 ? 1 : 255) {
			message[first + families[i / 2].at] = (uint8_t)(given >> 8), message[first + families[i / 2].at + 1] = (uint8_t)given;
			for (size_t n = 1; n <= MOST; n++)
				if (n >= header && given + uncounted == n)
					must(150 + (long)i, receive(message, first + n + after).refusal == 0);
				else
					must(154 + (long)i, refuses(message, first + n + after, 27, first));
		}
	}
}

/* The row of X, saved and restored; and two rows, the second with one byte changed, taken or refused. */
static void saved_rows(void)
{
	static const uint8_t row[18] = { 0x52, 0x57, 2, 0, 0, 0, 0, 0, 0, 0x0e, 0, 0, 5 };
	static const struct { uint8_t at, byte; long answer; } changes[] = {
		{ 11, 0x20, 2 }, { 9, 0x0f, 2 }, { 12, 6, -26 }, { 2, 0, 2 }, { 11, 0x30, -25 }, { 10, 1, -25 }, { 17, 0x80, -25 }, { 0, 0x57, -23 }, { 1, 0x58, -23 },
	};
	uint8_t bytes[36];

	gw_open(table);
	put_id(X, 5);
	receive(X, sizeof X);
	must(120, gw_save(table, out, 17) == -19 && gw_save(table, out, 18) == 18);
	for (size_t i = 0; i < sizeof row; i++)
		must(121, out[i] == row[i]);
	must(122, gw_restore(table, row, 17) == -24 && gw_restore(table, row, 0) == 0 && !receive(X, sizeof X).duplicate);
	gw_open(table);
	must(123, gw_restore(table, row, 18) == 1 && receive(X, sizeof X).duplicate);
	for (size_t i = 0; i < sizeof changes / sizeof *changes; i++) {
		for (size_t k = 0; k < sizeof bytes; k++)
			bytes[k] = row[k % 18];
		bytes[18 + changes[i].at] = changes[i].byte;
		must(124, gw_restore(table, bytes, sizeof bytes) == changes[i].answer);
	}
}

static void bench_begin(long *stack)
{
	(void)stack;
	gw_open(table);
	for (int again = 0; again < 2; again++) {
		struct gw_answer a = receive(X, sizeof X);

		must(101 + again, a.refusal == 0 && a.duplicate == again && a.reply_length == sizeof REPLY);
		for (size_t i = 0; i < sizeof REPLY; i++)
			must(103, out[i] == REPLY[i]);
	}
	for (int i = 0; i < 6; i++)
		must(110 + i, refuses(TWO[i], 2, TWO[i][2], TWO[i][2] == 2 ? 2 : 0));
	fields_at_fault();
	packet_lengths();

	gw_open(table);
	must(1, ask(false, 5) == 'n' && marks(5) == 0);
	HEARD(false, 5);
	must(2, ask(false, 5) == 'd');
	HEARD(false, 5);
	must(3, ask(false, 4) == 'n' && marks(5) == MARK(1));
	HEARD(false, 20);
	must(4, ask(false, 5) == 'n' && marks(20) == MARK(15));
	HEARD(false, 20);
	must(5, ask(false, 4) == 'd');
	HEARD(true, 20);
	must(6, ask(true, 4) == 'n' && ask(true, 4) == 'd' && ask(true, 5) == 'n');
	HEARD(false, 4294967295);
	must(7, ask(false, 0) == 'n' && marks(0) == MARK(1));
	HEARD(false, 0);
	must(8, ask(false, 2147483647) == 'n');
	HEARD(false, 0);
	must(9, ask(false, 2147483648) == 'd');
	HEARD(false, 10, 9, 7);
	must(10, ask(false, 13) == 'n' && marks(13) == (MARK(3) | MARK(4) | MARK(6)));
	HEARD(false, 10, 9);
	must(11, ask(false, 25) == 'n' && marks(25) == MARK(15));
	HEARD(false, 10, 9);
	must(12, ask(false, 26) == 'n' && marks(26) == 0);
	saved_rows();
	quit(0);
}
