/* What the programs here use of this header, for a compiler that comes without its own. */
#pragma once
typedef __SIZE_TYPE__ size_t;
#define NULL ((void *)0)
