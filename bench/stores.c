/* stores: messages of many kinds, received one after the other. The script `stores` finds in the log of its steps what each receive stores in
 * memory. Exit status 1: a wrong answer. */
#include "start.h"
#include "messages.h"

enum { ROWS = 32, NODE = 0x0e, OTHER = 0x0f, FILLS = 0x20, STRANGER = 0x7f };

/* X, with no acknowledgement wanted. */
static uint8_t quiet[30] = { 0x00, 0x23, 5, 0, 0, 0, 2, 0, 0, 0, 0, 0, 0, 0x0e, 2, 0, 0, 0, 0, 0, 0, 1, 0x11, 2, 2, 1, 0, 0, 0, 0 };

/* Encrypted under session key 2, with every field that a message can have, an acknowledged id too. */
static uint8_t whole[60] = { 0x10, 0x23, 5, 0, 0, 0, 2, 0, 0, 0, 0, 0, 0, 0x0e, 2, 0, 0, 0, 0, 0, 0, 1, 2, 0x20, 0x17, 1, 2, 1, 0, 0, 0, 0,
	4, 0, 0, 0, 1, 2, 3, 4 };

/* Without a source: the node that is put in is the destination's. */
static uint8_t unsourced[22] = { 0x00, 0x21, 5, 0, 0, 0, 2, 0, 0, 0, 0, 0, 0, 1, 0x15, 2, 2, 1 };

/* A message, what is put in as its id and as the last byte of its source, what its check came to, the room in the buffer, and the answer as `folded`
 * has it. The first six are scenes, of rows that are known; the next is the first with no acknowledgement wanted. */
struct arrival {
	uint8_t *message;
	size_t length;
	uint8_t id, node;
	bool passed;
	size_t room;
	uint32_t answer;
};
static const struct arrival arrivals[] = {
	{ X, sizeof X, 6, NODE, true, 34, 34 },
	{ X, sizeof X, 6, NODE, true, 34, 256 + 34 },
	{ refused, 2, 8, NODE, true, 64, 5 * 65536 },
	{ tunnel, sizeof tunnel, 7, NODE, true, 0, 0 },
	{ secret, sizeof secret, 6, NODE, true, 0, 0 },
	{ wanting, sizeof wanting, 7, NODE, true, 56, 56 },
	{ quiet, sizeof quiet, 8, NODE, true, 0, 0 },
	{ tunnel, sizeof tunnel, 7, NODE, true, 0, 256 },
	{ secret, sizeof secret, 6, NODE, true, 0, 256 },
	{ wanting, sizeof wanting, 7, NODE, true, 56, 256 + 56 },
	{ X, sizeof X, 5, OTHER, true, 34, 34 },
	{ X, sizeof X, 9, NODE, true, 33, 19 * 65536 },
	{ unsourced, sizeof unsourced, 8, 1, true, 64, 17 * 65536 },
	{ unsourced, sizeof unsourced, 8, 2, true, 64, 16 * 65536 },
	{ wanting, sizeof wanting, 8, NODE, true, 55, 19 * 65536 },
	{ wanting, sizeof wanting, 8, NODE, false, 56, 18 * 65536 },
	{ whole, sizeof whole, 5, NODE, true, 56, 56 },
	{ whole, sizeof whole, 6, NODE, true, 56, 56 },
	{ whole, 55, 7, NODE, true, 56, 2 * 65536 + 55 },
	{ tunnel, sizeof tunnel - 1, 8, NODE, true, 64, 27 * 65536 + 23 },
}, to_a_full_table[] = {
	{ X, sizeof X, 9, NODE, true, 34, 34 },
	{ whole, sizeof whole, 8, NODE, true, 56, 56 },
	{ X, sizeof X, 8, STRANGER, true, 34, 20 * 65536 },
	{ whole, sizeof whole, 8, STRANGER, true, 56, 20 * 65536 },
};

/* In the log a receive stands between these two. At the first it shows the buffer and the table, and the stack pointer before anything is laid down
 * for the call; at the second the length of the acknowledgement. */
__attribute__((noinline)) void bench_before(const uint8_t *buffer, size_t length, const uint8_t *rows, size_t size)
{
	__asm__ volatile("" :: "r"(buffer), "r"(length), "r"(rows), "r"(size));
}
__attribute__((noinline)) void bench_after(uint32_t reply_length) { __asm__ volatile("" :: "r"(reply_length)); }

static __attribute__((noinline)) void bench_receive(const struct arrival *a)
{
	put_id(a->message, a->id);
	a->message[SOURCE_LAST] = a->node;
	bench_before(out, sizeof out, table, sizeof table);
	struct gw_answer answer = gw_receive(table, OWN, 0, 9, a->passed, a->message, a->length, out, a->room);

	bench_after(answer.reply_length);
	if (folded(answer) != a->answer)
		quit(1);
}

static void bench_begin(long *stack)
{
	(void)stack;
	gw_open(table);
	receive(X, sizeof X);
	receive(secret, sizeof secret);
	for (size_t i = 0; i < sizeof arrivals / sizeof *arrivals; i++)
		bench_receive(&arrivals[i]);
	for (uint8_t i = 0; i < ROWS; i++) {
		tunnel[SOURCE_LAST] = FILLS + i;
		receive(tunnel, sizeof tunnel);
	}
	for (size_t i = 0; i < sizeof to_a_full_table / sizeof *to_a_full_table; i++)
		bench_receive(&to_a_full_table[i]);
	quit(0);
}
