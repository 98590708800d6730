/* steps LOG WHAT PROGRAM [WORD..]: runs a program for x86-64 Linux instruction by instruction, by the kernel's single steps. For each instruction it logs what
 * stands in the registers before it is executed: with the WHAT `places` the instruction pointer alone, 8 bytes; with `registers` the 27 words of the kernel's
 * struct user_regs_struct. Its exit status is the program's, or 125 where the program ends by a signal or cannot be run. */
#include <stddef.h>
#include <stdint.h>
#include "process.h"

enum { READ_WRITE_FORK = 57, EXECUTE = 59, WAIT = 61, TRACE = 101, OPEN = 2, WRITE = 1 };
enum { TRACE_ME = 0, PEEK_REGISTER = 3, STEP = 9, GET_REGISTERS = 12 };
enum { WORDS = 27, RIP = 16, ROOM = 1 << 16, CANNOT = 125, TRAP = 5 };

static inline long system_call_of_four(long number, long a, long b, long c, long d)
{
	register long fourth __asm__("r10") = d;
	long answer;

	__asm__ volatile("syscall" : "=a"(answer) : "a"(number), "D"(a), "S"(b), "d"(c), "r"(fourth) : "rcx", "r11", "memory");
	return answer;
}

static uint64_t log[ROOM], *next = log;
static long file;

static void flush(void)
{
	const char *from = (const char *)log;
	long left = (long)((const char *)next - from), done;

	for (; left; from += done, left -= done)
		if ((done = system_call(WRITE, file, (long)from, left)) <= 0)
			quit(CANNOT);
	next = log;
}

static void bench_begin(long *stack)
{
	long count = *stack, child, state = 0;
	char **words = (char **)(stack + 1), **environment = words + count + 1;

	if (count < 4 || (file = system_call(OPEN, (long)words[1], 01 | 0100 | 01000, 0600)) < 0)
		quit(CANNOT);
	long words_of_each = words[2][0] == 'r' ? WORDS : 1;

	child = system_call(READ_WRITE_FORK, 0, 0, 0);
	if (child == 0) {
		system_call_of_four(TRACE, TRACE_ME, 0, 0, 0);
		system_call(EXECUTE, (long)words[3], (long)(words + 3), (long)environment);
		quit(CANNOT);
	}
	for (;;) {
		int status = 0;

		if (child < 0 || system_call_of_four(WAIT, child, (long)&status, 0, 0) != child)
			quit(CANNOT);
		if ((status & 0x7f) == 0) {
			flush();
			quit(status >> 8 & 0xff);
		}
		if ((status & 0xff) != 0x7f || status >> 8 != TRAP)
			quit(CANNOT);
		if (next + WORDS > log + ROOM)
			flush();
		state = words_of_each == 1 ? system_call_of_four(TRACE, PEEK_REGISTER, child, RIP * 8, (long)next)
			: system_call_of_four(TRACE, GET_REGISTERS, child, 0, (long)next);
		next += words_of_each;
		if (state < 0 || system_call_of_four(TRACE, STEP, child, 0, 0) < 0)
			quit(CANNOT);
	}
}
