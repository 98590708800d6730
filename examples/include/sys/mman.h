/* What the programs here use of this header, for a compiler that comes without its own: the numbers are those of Linux. */
#pragma once
#include <stddef.h>
#define PROT_NONE 0
#define PROT_READ 1
#define PROT_WRITE 2
#define MAP_PRIVATE 2
#define MAP_ANONYMOUS 32
#define MAP_FAILED ((void *)-1)
void *mmap(void *at, size_t length, int protection, int flags, int file, long offset);
int mprotect(void *at, size_t length, int protection);
