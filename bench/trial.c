/* trial: the work of the program `trial` by hand. Reads ids of 4 bytes each, low byte first, from standard input, tries 15, 31 and 63 marks on
 * them, and prints for each how many are new and how many are duplicates; then the least number of marks with the verdicts of 63, or
 * `refused 28`. */
#include <stddef.h>
#include <stdint.h>
#include "process.h"

enum { MOST_BYTES = 65536, ID = 4 };
#define BEHIND 0x80000000u /* how far behind the highest an id may lie */

static uint8_t ids[MOST_BYTES + 1];

static inline uint32_t get32(const uint8_t *p) { uint32_t x; __builtin_memcpy(&x, p, 4); return x; }

struct tally {
	size_t new;
	uint32_t farthest; /* how far behind the highest the farthest new id lay */
};

/* What some marks, 1 to 63, make of the ids. Bit k of `heard` says whether the id k below the highest was accepted; bit 0 is the highest
 * itself. Bits above the marks are not looked at, so they need not be cleared. */
static struct tally count(uint32_t marks, const uint8_t *p, const uint8_t *end)
{
	struct tally t = { 0, 0 };

	if (p == end)
		return t;

	uint32_t highest = get32(p);
	uint64_t heard = 1;

	t.new = 1;
	while ((p += ID) != end) {
		uint32_t id = get32(p), ahead = id - highest;

		if (ahead == 0)
			continue;
		if (ahead < BEHIND) {
			heard = ahead < 64 ? heard << ahead | 1 : 1;
			highest = id;
		} else {
			uint32_t behind = highest - id;

			if (behind > marks || heard >> behind & 1)
				continue;
			heard |= (uint64_t)1 << behind;
			if (behind > t.farthest)
				t.farthest = behind;
		}
		t.new++;
	}
	return t;
}

static char text[128], *last = text;

static void put_text(const char *s)
{
	while (*s)
		*last++ = *s++;
}

static void put_number(size_t n, char after)
{
	if (n > 9)
		put_number(n / 10, 0);
	*last++ = (char)('0' + n % 10);
	if (after)
		*last++ = after;
}

static void put_tally(uint32_t marks, struct tally t, size_t n)
{
	put_number(marks, ' ');
	put_number(t.new, ' ');
	put_number(n - t.new, '\n');
}

static void bench_begin(long *stack)
{
	size_t length = 0;
	long got;

	(void)stack;
	while ((got = system_call(0, 0, (long)(ids + length), (long)(sizeof ids - length))) > 0)
		length += (size_t)got;
	if (length % ID != 0 || length > MOST_BYTES) {
		put_text("refused 28\n");
	} else {
		struct tally few = count(15, ids, ids + length), more = count(31, ids, ids + length), most = count(63, ids, ids + length);

		put_tally(15, few, length / ID);
		put_tally(31, more, length / ID);
		put_tally(63, most, length / ID);
		put_text("least ");
		put_number(most.farthest > 1 ? most.farthest : 1, '\n');
	}
	quit(system_call(1, 1, (long)text, last - text) != last - text);
}
