/* What the programs here use of this header, for a compiler that comes without its own. */
#pragma once
#include <stddef.h>
int memcmp(const void *a, const void *b, size_t length);
void *memcpy(void *restrict to, const void *restrict from, size_t length);
void *memset(void *to, int byte, size_t length);
int strcmp(const char *a, const char *b);
char *strrchr(const char *text, int c);
