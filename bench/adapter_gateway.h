/* How the programs reach the library. */
#include "../include/kabizarle.h"
#include "answer.h"
#define GW_TABLE_BYTES (KABIZARLE_TABLE_WORDS * sizeof(uint64_t))

static inline void gw_open(void *table)
{
	for (size_t i = 0; i < KABIZARLE_TABLE_WORDS; i++)
		((uint64_t *)table)[i] = 0;
}

static inline struct gw_answer gw_receive(void *table, uint64_t own, uint64_t link, uint32_t id, bool passed,
	const uint8_t *message, size_t length, uint8_t *out, size_t room)
{
	uint64_t fields[KABIZARLE_FIELDS], offset;
	uint32_t refusal = kabizarle_receive(own, link, passed, id, message, length, table, out, room, fields, &offset);

	if (refusal)
		return (struct gw_answer){ refusal, false, 0, offset };
	return (struct gw_answer){ 0, fields[KABIZARLE_VERDICT] == KABIZARLE_DUPLICATE, (uint32_t)fields[KABIZARLE_REPLY_LENGTH], 0 };
}

static inline long gw_save(const void *table, uint8_t *out, size_t room)
{
	uint64_t length;
	uint32_t refusal = kabizarle_save(table, out, room, &length);

	return refusal ? -(long)refusal : (long)length;
}

static inline long gw_restore(void *table, const uint8_t *saved, size_t length)
{
	uint64_t rows;
	uint32_t refusal = kabizarle_restore(table, saved, length, &rows);

	return refusal ? -(long)refusal : (long)rows;
}
