/* What the programs here use of this header, for a compiler that comes without its own: the number is that of Linux. */
#pragma once
#define ENOENT 2
int *__errno_location(void);
#define errno (*__errno_location())
