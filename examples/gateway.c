/* Lists a framed stream: ./gateway [-t TABLE] [FILE] < STREAM
 * To build it on x86-64: cc -I include examples/gateway.c "$(./archive)" -o gateway
 *
 * It prints what ./list prints: a line for each message, with its ordinal, the verdict, and the message id, or the number of the
 * refusal and the byte at fault; and then how many bytes are left over. The acknowledgements, each framed, go to FILE if it is given.
 * With -t the table is kept in the file TABLE from one run to the next; where there is no such file it starts empty, and says so. The
 * exit status is 2 where the arguments, the input or an output failed, or where TABLE cannot be written or is refused, which then
 * stays as it is. */
#define _POSIX_C_SOURCE 200112L
#include <kabizarle.h>
#include <errno.h>
#include <fcntl.h>
#include <stdio.h>
#include <string.h>
#include <unistd.h>

/* The own node, for your gateway's to be put in; the link's node, of which nothing is known. */
static const uint64_t OWN_NODE = 0x0200000000000001;
static const uint64_t LINK_NODE = 0;

/* How much of the input is read, the room for an acknowledgement, and for the name of a file. */
enum { MOST = 65536, ROOM = 64, NAME = 4096 };

/* Restores the table from a file. Where there is none the table stays empty. That is said, and so is what is refused or cannot be read. */
static bool load_table(const char *name, uint64_t *table)
{
	uint8_t saved[KABIZARLE_SAVED_BYTES + 1]; /* one byte more, so that a file that is too long is refused */
	uint64_t rows;
	FILE *file = fopen(name, "rb");

	if (!file && errno == ENOENT) {
		fprintf(stderr, "%s: no such file: the table starts empty\n", name);
		return true;
	}
	size_t length = file ? fread(saved, 1, sizeof saved, file) : 0;
	bool good = file && !ferror(file);
	if (!good)
		perror(name);
	if (file)
		fclose(file);
	if (!good)
		return false;
	uint32_t refusal = kabizarle_restore(table, saved, length, &rows);
	if (refusal != 0)
		fprintf(stderr, "%s: refused %u: this is no table as it was saved\n", name, (unsigned)refusal);
	return refusal == 0;
}

/* Waits until the folder of a file is on the disk, and with it the file's name. */
static bool keep_name(const char *name)
{
	char folder[NAME];
	const char *slash = strrchr(name, '/');
	int n = slash ? snprintf(folder, sizeof folder, "%.*s/", (int)(slash - name), name) : snprintf(folder, sizeof folder, ".");
	int file = n < 0 || (size_t)n >= sizeof folder ? -1 : open(folder, O_RDONLY);
	bool good = file >= 0 && fsync(file) == 0;

	if (file >= 0 && close(file) != 0)
		good = false;
	return good;
}

/* Saves the table to a second file, which then takes the place of the first: whenever the power goes, one of the two is whole. */
static bool save_table(const char *name, const uint64_t *table)
{
	uint8_t saved[KABIZARLE_SAVED_BYTES];
	uint64_t length;
	char second[NAME];
	int n = snprintf(second, sizeof second, "%s.new", name);

	if (n < 0 || (size_t)n >= sizeof second) {
		fprintf(stderr, "%s: the name is too long\n", name);
		return false;
	}
	if (kabizarle_save(table, saved, sizeof saved, &length) != 0)
		return false; /* not with room for every table */
	FILE *file = fopen(second, "wb");
	bool good = file && fwrite(saved, 1, length, file) == length && fflush(file) == 0 && fsync(fileno(file)) == 0;
	if (file && fclose(file) != 0)
		good = false;
	if (good && rename(second, name) == 0 && keep_name(name))
		return true;
	perror(second);
	remove(second);
	return false;
}

/* Frames an acknowledgement and appends it to the file. */
static bool send_reply(FILE *replies, const uint8_t *reply, size_t length)
{
	uint8_t framed[KABIZARLE_FRAME_BYTES + ROOM];
	uint64_t written;

	if (kabizarle_frame(reply, length, framed, sizeof framed, &written) != 0)
		return false;
	return fwrite(framed, 1, written, replies) == written;
}

/* Receives one message and prints its line. A duplicate is acknowledged again: its sender may not have heard the first. */
static bool hear(uint64_t *table, uint32_t *next_id, unsigned long ordinal, const uint8_t *message, size_t length, FILE *replies)
{
	uint8_t reply[ROOM];
	uint64_t fields[KABIZARLE_FIELDS], offset;
	/* The check of an encrypted message counts as passed: here the radio module's own answer belongs. */
	uint32_t refusal = kabizarle_receive(OWN_NODE, LINK_NODE, true, *next_id, message, length, table, reply, sizeof reply, fields, &offset);

	if (refusal != 0)
		return printf("%lu refused %u %lu\n", ordinal, (unsigned)refusal, (unsigned long)offset) > 0;
	const char *verdict = fields[KABIZARLE_VERDICT] == KABIZARLE_NEW ? "new" : "duplicate";
	if (printf("%lu %s %lu\n", ordinal, verdict, (unsigned long)fields[KABIZARLE_ID]) < 0)
		return false;
	/* A new message would be acted on here; its payload starts at message + fields[KABIZARLE_PAYLOAD_START]. */
	if (fields[KABIZARLE_REPLY_LENGTH] == 0)
		return true;
	++*next_id; /* each acknowledgement has an id of its own */
	return !replies || send_reply(replies, reply, fields[KABIZARLE_REPLY_LENGTH]);
}

/* Lists a stream. */
static bool list(uint64_t *table, const uint8_t *stream, size_t length, FILE *replies)
{
	uint64_t frame[KABIZARLE_FRAME_PLACES];
	uint32_t next_id = 0; /* a gateway goes on from its last run's */

	for (unsigned long ordinal = 1;; ordinal++) {
		if (kabizarle_unframe(stream, length, frame) != 0)
			return false;
		if (frame[KABIZARLE_FRAME_WANTED] != 0)
			return printf("end %zu\n", length) > 0;
		if (!hear(table, &next_id, ordinal, stream + frame[KABIZARLE_FRAME_START], frame[KABIZARLE_FRAME_LENGTH], replies))
			return false;
		stream += frame[KABIZARLE_REST_START];
		length = frame[KABIZARLE_REST_LENGTH];
	}
}

int main(int count, char **words)
{
	static uint8_t stream[MOST];
	static uint64_t table[KABIZARLE_TABLE_WORDS];
	const char *program = words[0], *table_name = NULL;
	FILE *replies = NULL;

	if (count > 2 && strcmp(words[1], "-t") == 0) {
		table_name = words[2];
		words += 2;
		count -= 2;
	}
	if (count > 2 || (count == 2 && words[1][0] == '-')) {
		fprintf(stderr, "usage: %s [-t TABLE] [FILE] < STREAM\n", program);
		return 2;
	}
	/* A table that cannot be saved is found out before anything is heard. */
	if (table_name && (!load_table(table_name, table) || !save_table(table_name, table)))
		return 2;
	if (count == 2 && !(replies = fopen(words[1], "wb"))) {
		perror(words[1]);
		return 2;
	}
	size_t length = fread(stream, 1, sizeof stream, stdin);
	bool good = !ferror(stdin) && list(table, stream, length, replies);

	/* Whatever failed, what was heard is kept. A gateway that runs for months saves more often than at its end. */
	if (table_name && !save_table(table_name, table))
		good = false;
	if (replies && fclose(replies) != 0)
		good = false;
	if (fflush(stdout) != 0)
		good = false;
	if (!good)
		fprintf(stderr, "%s: reading or writing failed\n", program);
	return good ? 0 : 2;
}
