/* A season of a gateway: receives many messages into one table, and holds every answer to a model of the rule of positions.
 * To build it: examples/build examples/season.c season [-DMESSAGES=20000], which prints the words that run it, one to a line.
 *
 * The model shares no code with the library: it keeps accepted positions as plain numbers, shifts no marks and compares no ids. Compared are
 * the answer, the table, the acknowledgement, and what kabizarle_roll makes of a copy of the row; and the byte at fault, which is 0 for every
 * refusal of a legal message. The exit status is 1 where one differs. */
#include <kabizarle.h>
#include <stdio.h>
#include <string.h>

#ifndef MESSAGES
#define MESSAGES 1000000
#endif
#define ROUND (UINT64_C(1) << 32) /* how many ids there are */

/* 33 names for 32 rows: the table fills up. Of the accepted positions the last KEPT are enough: those accepted since the oldest that
 * still has a mark lie within 15 of it, and no position is accepted twice. */
enum { NODES = 11, KEYS = 3, MARKS = 15, KEPT = 31 };
static const uint64_t OWN = 0x0200000000000001, FIRST_NODE = 0x0200000000000100, KEY_IDS[KEYS] = { 0, 0x1001, 0x2abc };
static const uint64_t NOWHERE = UINT64_MAX; /* what stands where the byte at fault goes, before each call */

/* The model: the list of each row, numbered as in the table. */
static struct list { uint64_t node, key, count, greatest, accepted[KEPT]; } model[KABIZARLE_ROWS];

static uint64_t table[KABIZARLE_TABLE_WORDS];
static uint32_t counters[NODES][KEYS];                  /* the id that a node last counted to under a key */
static unsigned long verdicts[KABIZARLE_DUPLICATE + 1]; /* how many of each */

/* A number below another, by xorshift: the same season in every run. */
static uint64_t draw(uint64_t below)
{
	static uint64_t x = 88172645463325252;

	x ^= x << 13, x ^= x >> 7, x ^= x << 17;
	return (x >> 11) % below;
}

/* The list of a name, or the first that is free; NULL for none. */
static struct list *find(bool used, uint64_t node, uint64_t key)
{
	for (struct list *l = model; l < model + KABIZARLE_ROWS; l++)
		if (used ? l->count && l->node == node && l->key == key : !l->count)
			return l;
	return NULL;
}

/* Whether a position is in the list; places that are not filled yet hold 0, which is no position. */
static bool accepted(const struct list *l, uint64_t position)
{
	for (size_t i = 0; i < KEPT; i++)
		if (l->accepted[i] == position)
			return true;
	return false;
}

/* The rule of positions: the id has the one position from `lowest` on that equals it modulo 2^32. A new one joins the list. */
static uint64_t judge(struct list *l, uint64_t id)
{
	uint64_t lowest = l->greatest - (l->key ? ROUND / 2 : MARKS), position = l->count ? lowest + (id - lowest) % ROUND : id + ROUND;

	if (l->count && (position + MARKS < l->greatest || accepted(l, position)))
		return KABIZARLE_DUPLICATE;
	l->greatest = position > l->greatest ? position : l->greatest;
	l->accepted[l->count++ % KEPT] = position;
	return KABIZARLE_NEW;
}

/* Whether the table shows of a row what its list says. */
static bool row_agrees(size_t number)
{
	const struct list *l = &model[number];
	uint64_t shown[KABIZARLE_ROW_PLACES], right[] = { l->count != 0, l->node, l->key, l->greatest % ROUND, 0 };

	for (uint64_t k = 1; k <= MARKS && l->count; k++)
		right[KABIZARLE_ROW_MARKS] |= (uint64_t)accepted(l, l->greatest - k) << (k - 1);
	return kabizarle_row(table, number, shown) == 0 && memcmp(shown, right, sizeof shown) == 0;
}

/* An id of a sender: the same again, one held back, or its counter moved: to any, half way round, back, past a gap, or to the next. */
static uint32_t next_id(uint32_t *counter)
{
	uint32_t how = (uint32_t)draw(1000), step = (uint32_t)draw(20);

	if (how < 300)
		return *counter - (how < 150 ? 0 : step);
	return *counter += how < 302 ? (uint32_t)draw(ROUND) : how < 304 ? (UINT32_C(1) << 31) + step - 10 : how < 307 ? 0 - step : how < 360 ? step : 1;
}

/* Judges an id that was received: whether the verdict, the table, and the table from before with its row rolled forward are as the list says. */
static bool judged_alike(struct list *l, uint32_t id, uint64_t given, uint64_t *before)
{
	uint64_t *row = before + KABIZARLE_ROW_WORDS * (l - model), rolled;

	if (l->count == 0) /* the row was free: it is rolled under the name that it carries */
		row[KABIZARLE_NODE_WORD] = l->node, row[KABIZARLE_STATE_WORD] = l->key << 32;
	uint64_t verdict = judge(l, id);
	verdicts[verdict]++;
	return kabizarle_roll(row, id, &rolled) == 0 && rolled == verdict && given == verdict && row_agrees((size_t)(l - model))
		&& memcmp(before, table, sizeof table) == 0;
}

/* Makes a message and receives it: whether all is as the model says. Some checks do not pass, and some acknowledgements have no room. */
static bool hear(uint32_t reply_id)
{
	uint8_t bytes[64], reply[KABIZARLE_ACKNOWLEDGEMENT_BYTES], check[KABIZARLE_CHECK_BYTES] = { 0 };
	size_t n = draw(NODES), k = draw(KEYS), room = draw(16) ? sizeof reply : 0;
	bool wants = draw(2), passed = draw(8);
	uint64_t node = FIRST_NODE + n, key = KEY_IDS[k], id = next_id(&counters[n][k]), length = 0, before[KABIZARLE_TABLE_WORDS];
	uint64_t header = 2 * KABIZARLE_VERSION + KABIZARLE_SOURCED + KABIZARLE_DESTINED + (key ? KABIZARLE_ENCRYPTED : 0);
	uint64_t fields[KABIZARLE_FIELDS] = { header, wants ? KABIZARLE_WANTS : 0, id, node, OWN, key };
	const uint64_t right[] = { header, KABIZARLE_INITIATOR + KABIZARLE_ACKNOWLEDGES, reply_id, OWN, node, key, 2, 0, 0, id };
	struct list *known = find(true, node, key), *l = known ? known : find(false, 0, 0);
	uint32_t expected = key && !passed ? KABIZARLE_REFUSED_CHECK : wants && !room ? KABIZARLE_REFUSED_NO_ROOM : l ? 0 : KABIZARLE_REFUSED_FULL;

	kabizarle_write(fields, NULL, 0, check, key ? sizeof check : 0, bytes, sizeof bytes, &length);
	memcpy(before, table, sizeof table);
	uint64_t offset = NOWHERE;
	uint32_t refusal = kabizarle_receive(OWN, 0, passed, reply_id, bytes, length, table, reply, room, fields, &offset);
	if (refusal != expected || offset != (refusal ? 0 : NOWHERE))
		return false;
	if (expected != 0)
		return memcmp(before, table, sizeof table) == 0;
	if (!known)
		*l = (struct list){ .node = node, .key = key };
	if (!judged_alike(l, (uint32_t)id, fields[KABIZARLE_VERDICT], before) || !wants != !fields[KABIZARLE_REPLY_LENGTH])
		return false;
	return !wants || (kabizarle_read(reply, fields[KABIZARLE_REPLY_LENGTH], fields, &offset) == 0 && memcmp(fields, right, sizeof right) == 0);
}

/* Takes a valve down, so that its name starts a new list: whether all rows are as the model says. */
static bool take_down(void)
{
	uint64_t node = FIRST_NODE + draw(NODES), key = KEY_IDS[draw(KEYS)];
	struct list *l = find(true, node, key);
	bool agrees = kabizarle_remove(table, node, (uint16_t)key) == (l ? 0 : KABIZARLE_REFUSED_NO_ROW);

	if (l)
		*l = (struct list){ 0 };
	for (size_t row = 0; row < KABIZARLE_ROWS; row++)
		agrees = agrees && row_agrees(row);
	return agrees;
}

int main(void)
{
	unsigned long disagree = 0;

	for (uint32_t i = 0; i < MESSAGES; i++)
		disagree += !hear(i) + (i % 500 == 0 && !take_down());
	printf("%lu messages: new %lu, duplicate %lu, the rest refused; %lu disagree\n", (unsigned long)MESSAGES, verdicts[KABIZARLE_NEW],
		verdicts[KABIZARLE_DUPLICATE], disagree);
	return disagree != 0;
}
