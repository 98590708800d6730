/* What the programs here use of this header, for a compiler that comes without its own. */
#pragma once
#ifndef __cplusplus
#define bool _Bool
#define true 1
#define false 0
#endif
