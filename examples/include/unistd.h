/* What the programs here use of this header, for a compiler that comes without its own. */
#pragma once
int fsync(int file);
int close(int file);
