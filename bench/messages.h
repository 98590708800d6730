/* The messages of the scenes. Ids and nodes are put in before a receive, so each has room for both. */
static uint8_t X[30] = { 0x00, 0x23, 5, 0, 0, 0, 2, 0, 0, 0, 0, 0, 0, 0x0e, 2, 0, 0, 0, 0, 0, 0, 1, 0x15, 2, 2, 1, 0, 0, 0, 0 };

/* Refused for its first two bytes, which are all that is handed over. */
static uint8_t refused[14] = { 0x00, 0x14 };

/* Tunnelled, both nodes, an IPv6 packet of 60 bytes. */
static uint8_t tunnel[23 + 60] = { 0x00, 0x27, 5, 0, 0, 0, 2, 0, 0, 0, 0, 0, 0, 0x0e, 2, 0, 0, 0, 0, 0, 0, 1, 1, 0x60, 0, 0, 0, 0, 20 };

/* Encrypted under session key 1, both nodes, a payload of 4 bytes; without and with an acknowledgement wanted. */
static uint8_t secret[56] = { 0x10, 0x23, 5, 0, 0, 0, 2, 0, 0, 0, 0, 0, 0, 0x0e, 2, 0, 0, 0, 0, 0, 0, 1, 1, 0x20, 0x11, 1, 2, 1, 0, 0, 0, 0, 1, 2, 3, 4 };
static uint8_t wanting[56] = { 0x10, 0x23, 5, 0, 0, 0, 2, 0, 0, 0, 0, 0, 0, 0x0e, 2, 0, 0, 0, 0, 0, 0, 1, 1, 0x20, 0x15, 1, 2, 1, 0, 0, 0, 0, 1, 2, 3, 4 };

/* Where a message has the first and the last byte of its source, and the low byte of its key id. */
enum { SOURCE_FIRST = 6, SOURCE_LAST = 13, KEY_LOW = 22 };
