/* scenes SCENE N: N receives of one kind. Exit status 1: a wrong answer. The script `run` counts the instructions. */
#include "start.h"
#include "messages.h"

/* What the other 31 rows hold: nothing; other nodes; the same node under other keys; other nodes, by their first byte, with other
 * ids and marks. */
enum others { NONE, NODES, KEYS, MARKED };

/* A message, how far its id moves from one receive to the next, the other rows, and the answer as `folded` has it. */
static const struct scene {
	uint8_t *message;
	size_t length;
	uint32_t step;
	enum others others;
	uint32_t answer;
} scenes[] = {
	{ X, sizeof X, 1, NONE, 34 },
	{ X, sizeof X, 0, NONE, 256 + 34 },
	{ refused, 2, 1, NONE, 5 * 65536 },
	{ tunnel, sizeof tunnel, 1, NONE, 0 },
	{ secret, sizeof secret, 1, NODES, 0 },
	{ wanting, sizeof wanting, 1, NODES, 56 },
	{ wanting, sizeof wanting, 1, NONE, 56 },
	{ X, sizeof X, 1, NODES, 34 },
	{ secret, sizeof secret, 1, KEYS, 0 },
	{ secret, sizeof secret, 1, MARKED, 0 },
};

/* N receives, and the sum of their answers. */
static __attribute__((noinline)) uint32_t bench_run(unsigned long n, uint8_t *message, size_t length, uint32_t id, uint32_t step)
{
	uint32_t sum = 0;

	for (; n; n--, id += step) {
		put_id(message, id);
		sum += folded(receive(message, length));
	}
	return sum;
}

/* 31 other names first, so that the name of the scene stands in the last row. */
static __attribute__((noinline)) void bench_fill(const struct scene *s)
{
	size_t at = s->others == NODES ? SOURCE_LAST : s->others == KEYS ? KEY_LOW : SOURCE_FIRST;
	uint8_t own = s->message[at];

	for (uint8_t i = 0; i < 31; i++) {
		s->message[at] = (uint8_t)(0x20 + i);
		if (s->others == MARKED)
			bench_run(5, s->message, s->length, 7777u * i, 1 + i % 4);
		else
			bench_run(1, s->message, s->length, 100, 0);
	}
	s->message[at] = own;
}

static __attribute__((noinline)) unsigned long bench_number(const char *s)
{
	unsigned long n = 0;

	while (*s)
		n = n * 10 + (unsigned long)(*s++ - '0');
	return n;
}

static void bench_begin(long *stack)
{
	char **words = (char **)(stack + 1);
	const struct scene *s = &scenes[bench_number(words[1])];
	unsigned long n = bench_number(words[2]);

	gw_open(table);
	if (s->others != NONE)
		bench_fill(s);
	bench_run(1, s->message, s->length, 5 - s->step, 0);
	uint32_t sum = bench_run(n, s->message, s->length, 5, s->step);
#ifdef GW_NULL
	quit(sum != 0);
#else
	quit(sum != (uint32_t)n * s->answer);
#endif
}
