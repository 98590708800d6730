/* What the programs want to know of a receive; of a refused one the byte at fault too. */
#include <stdbool.h>
#include <stddef.h>
#include <stdint.h>

struct gw_answer {
	uint32_t refusal;
	bool duplicate;
	uint32_t reply_length;
	uint64_t offset;
};
