/* No library: what the programs cost by themselves, which every figure has taken off. Its answers are not looked at. */
#include "answer.h"
#define GW_NULL
#define GW_TABLE_BYTES 64

static inline void gw_open(void *table) { (void)table; }

static inline struct gw_answer gw_receive(void *table, uint64_t own, uint64_t link, uint32_t id, bool passed,
	const uint8_t *message, size_t length, uint8_t *out, size_t room)
{
	(void)own, (void)link, (void)id, (void)passed, (void)length, (void)room;
	__asm__ volatile("" :: "r"(table), "r"(message), "r"(out) : "memory");
	return (struct gw_answer){ 0, false, 0, 0 };
}

static inline long gw_save(const void *table, uint8_t *out, size_t room)
{
	__asm__ volatile("" :: "r"(table), "r"(out), "r"(room) : "memory");
	return 0;
}

static inline long gw_restore(void *table, const uint8_t *saved, size_t length)
{
	__asm__ volatile("" :: "r"(table), "r"(saved), "r"(length) : "memory");
	return 0;
}
