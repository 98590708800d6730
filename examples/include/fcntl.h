/* What the programs here use of this header, for a compiler that comes without its own: the number is that of Linux. */
#pragma once
#define O_RDONLY 0
int open(const char *name, int how, ...);
