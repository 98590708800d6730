/* How the programs reach baseline.c. An adapter offers GW_TABLE_BYTES, gw_open, gw_receive, and gw_save and gw_restore, which answer with the
 * bytes or rows, or with the refusal's number below 0; what it costs counts as the call. */
#include "baseline.h"
#include "answer.h"
#define GW_TABLE_BYTES sizeof(struct wv_table)

static inline void gw_open(void *table) { *(struct wv_table *)table = (struct wv_table){ 0 }; }

static inline struct gw_answer gw_receive(void *table, uint64_t own, uint64_t link, uint32_t id, bool passed,
	const uint8_t *message, size_t length, uint8_t *out, size_t room)
{
	struct wv_arrival a = { message, length, own, link, id, passed };
	struct wv_received r;
	size_t offset;
	int refusal = wv_receive(table, &a, out, room, &r, &offset);

	if (refusal)
		return (struct gw_answer){ (uint32_t)refusal, false, 0, offset };
	return (struct gw_answer){ 0, r.verdict == WV_DUPLICATE, r.ack_len, 0 };
}

static inline long gw_save(const void *table, uint8_t *out, size_t room)
{
	size_t length;
	int refusal = wv_save(table, out, room, &length);

	return refusal ? -refusal : (long)length;
}

static inline long gw_restore(void *table, const uint8_t *saved, size_t length)
{
	size_t rows;
	int refusal = wv_restore(table, saved, length, &rows);

	return refusal ? -refusal : (long)rows;
}
