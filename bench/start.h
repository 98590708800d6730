/* What the programs that receive start from: the table, the buffer, and a receive through the adapter. */
#include ADAPTER

#define OWN 0x0200000000000001u

static _Alignas(64) uint8_t table[GW_TABLE_BYTES];
static uint8_t out[64];

static inline struct gw_answer receive(const uint8_t *message, size_t length)
{
	return gw_receive(table, OWN, 0, 9, true, message, length, out, sizeof out);
}

/* An answer as one number. */
static inline uint32_t folded(struct gw_answer a) { return a.refusal * 65536 + a.duplicate * 256 + a.reply_length + (uint32_t)a.offset; }

static inline void put_id(uint8_t *message, uint32_t id)
{
	for (int i = 0; i < 4; i++)
		message[2 + i] = (uint8_t)(id >> 8 * i);
}

#include "process.h"
