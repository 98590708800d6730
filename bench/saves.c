/* saves SCENE N: a table with all 32 rows in use, saved (scene 10) or restored (scene 11) N times. Exit status 1: a wrong answer. The script
 * `run` counts the instructions. */
#include "start.h"
#include "messages.h"

enum { ROWS = 32, RECORD = 18 };

static uint8_t saved[ROWS * RECORD];

/* N saves or restores, and the sum of their answers. */
static __attribute__((noinline)) long bench_run(unsigned long n, bool restores)
{
	long sum = 0;

	for (; n; n--)
		sum += restores ? gw_restore(table, saved, sizeof saved) : gw_save(table, saved, sizeof saved);
	return sum;
}

static void bench_begin(long *stack)
{
	char **words = (char **)(stack + 1);
	bool restores = words[1][1] == '1';
	unsigned long n = 0;

	for (const char *s = words[2]; *s; s++)
		n = n * 10 + (unsigned long)(*s - '0');
	gw_open(table);
	for (uint8_t i = 0; i < ROWS; i++) {
		secret[SOURCE_LAST] = (uint8_t)(0x20 + i);
		receive(secret, sizeof secret);
	}
	gw_save(table, saved, sizeof saved);
	long sum = bench_run(n, restores);
#ifdef GW_NULL
	quit(sum != 0);
#else
	quit(sum != (long)n * (restores ? ROWS : ROWS * RECORD));
#endif
}
