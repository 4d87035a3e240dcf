/*
 * A small host: what a debugger does with the library, in the order in which a user would do it.
 *
 * It mounts an empty reel, gives the unit a message buffer, writes a record, meets a packet that ends past memory, reads the record back in
 * reverse, meets a damaged block and mends it, and then steps back over all of it. At each stop it shows the registers, the message and the
 * reel. Then it shows a reel of three files as its table has them, finds a file and a block, and sees a step back mend the table. At the end
 * it mounts what is whole of a damaged reel.
 */
#include <stdio.h>
#include <stdlib.h>
#include <string.h>

#include "ts11.h"

#define BLOCKS 256

/* Everything that a unit needs belongs to the host. */
static ts11_state state;
static uint8_t memory[8192];
static uint8_t reel[BLOCKS * TS11_BLOCK];
static uint8_t table[BLOCKS * TS11_PLACE_BYTES]; /* no reel has more objects than blocks */
static uint8_t journal[65536];

/* The buffers as every step takes them. */
#define BUFFERS memory, sizeof memory, reel, sizeof reel, table, sizeof table, journal, sizeof journal

enum { PACKET = 0x100, CHARACTERISTICS = 0x120, MESSAGE = 0x200, TEXT = 0x400, BUFFER = 0x600 };

/* A refused call has changed nothing; this host gives up at the first. */
static void must(const char *what, ts11_answer answer)
{
	if (answer != TS11_DONE) {
		printf("%s: refusal %zu\n", what, answer);
		exit(1);
	}
}

static unsigned word_at(size_t at)
{
	return memory[at] | (unsigned)memory[at + 1] << 8;
}

/* Stores made by the host through the library are steps: they are undone with the rest. */
static void store(size_t at, const void *bytes, size_t length)
{
	must("host store", ts11_host_store(&state, BUFFERS, at, bytes, length));
}

static void store_words(size_t at, const uint16_t *words, size_t count)
{
	uint8_t bytes[16];
	for (size_t i = 0; i < count; i++) {
		bytes[2 * i] = words[i] & 255;
		bytes[2 * i + 1] = words[i] >> 8;
	}
	store(at, bytes, 2 * count);
}

/* What is wrong with a block that a call had to read. */
static const char *in_words(uint8_t fault)
{
	switch (fault) {
	case TS11_FAULT_KIND: return "its kind is none of the three";
	case TS11_FAULT_LENGTH: return "its length is none that it can have";
	case TS11_FAULT_INDEX: return "its index, or its place, is not the one that is due";
	case TS11_FAULT_PADDING: return "a byte behind its data is not 0";
	case TS11_FAULT_CHECK: return "its check word is not the one that its words give";
	default: return "nothing";
	}
}

static ts11_answer advance(void)
{
	bool stepped, interrupt;
	size_t block;
	uint8_t fault;
	ts11_answer answer = ts11_advance(&state, BUFFERS, &stepped, &interrupt, &block, &fault);
	if (answer == TS11_BAD_BLOCK)
		printf("  refusal 7, block %zu: %s\n", block, in_words(fault));
	return answer;
}

/* What the driver of the machine does: a packet in memory, as far as memory goes, and its address into TSDB. */
static void give_at(size_t at, uint16_t header, uint16_t pointer, uint16_t count)
{
	const uint16_t packet[4] = { header, pointer, 0, count };
	size_t room = (sizeof memory - at) / 2;
	store_words(at, packet, room < 4 ? room : 4);
	must("TSDB", ts11_write_tsdb(&state, BUFFERS, TS11_TSDB(at)));
}

/* .. and then the unit runs. */
static void command_at(size_t at, uint16_t header, uint16_t pointer, uint16_t count)
{
	give_at(at, header, pointer, count);
	must("advance", advance());
}

static void command(uint16_t header, uint16_t pointer, uint16_t count)
{
	command_at(PACKET, header, pointer, count);
}

static void show_registers(void)
{
	uint16_t tsba, tssr;
	must("TSBA", ts11_read_register(&state, TS11_REGISTER_TSBA, &tsba));
	must("TSSR", ts11_read_register(&state, TS11_REGISTER_TSSR, &tssr));
	printf("  TSBA %04x  TSSR %04x:%s%s%s%s%s class %d\n", tsba, tssr, tssr & TS11_TSSR_SC ? " SC" : "",
	       tssr & TS11_TSSR_NXM ? " NXM" : "", tssr & TS11_TSSR_NBA ? " NBA" : "", tssr & TS11_TSSR_SSR ? " SSR" : "",
	       tssr & TS11_TSSR_OFL ? " OFL" : "", TS11_CLASS(tssr));
}

static void show_message(void)
{
	unsigned xst0 = word_at(MESSAGE + TS11_MESSAGE_XST0);
	printf("  message %04x  residual %u  XST0 %04x:%s%s%s%s%s  XST3 %04x\n", word_at(MESSAGE + TS11_MESSAGE_HEADER),
	       word_at(MESSAGE + TS11_MESSAGE_RESIDUAL), xst0, xst0 & TS11_XST0_RLS ? " RLS" : "",
	       xst0 & TS11_XST0_MOT ? " MOT" : "", xst0 & TS11_XST0_ONL ? " ONL" : "", xst0 & TS11_XST0_VCK ? " VCK" : "",
	       xst0 & TS11_XST0_BOT ? " BOT" : "", word_at(MESSAGE + TS11_MESSAGE_XST3));
}

/* The object at a place of the table: where it begins the table says, what it is its first block. */
static void show_object(size_t place)
{
	uint32_t block = ts11_place_block(table, place);
	const uint8_t *b = reel + block * TS11_BLOCK;
	if (b[TS11_BLOCK_KIND] == TS11_KIND_RECORD)
		printf(" [block %u, %u bytes]", block, b[TS11_BLOCK_LENGTH] | (unsigned)b[TS11_BLOCK_LENGTH + 1] << 8);
	else
		printf(" [block %u, %s]", block, b[TS11_BLOCK_KIND] == TS11_KIND_MARK ? "mark" : "gap");
}

static void show_reel(void)
{
	uint32_t objects = ts11_state_number(&state, TS11_AT_OBJECTS);
	printf("  tape at block %u of %u recorded:", ts11_state_number(&state, TS11_AT_POSITION),
	       ts11_state_number(&state, TS11_AT_END));
	for (uint32_t place = 0; place < objects; place++)
		show_object(place);
	printf("\n");
}

/* The data buffer: the bytes that can be printed, and dots. */
static void show_buffer(void)
{
	printf("  buffer \"");
	for (size_t i = 0; i < 10; i++)
		putchar(memory[BUFFER + i] < ' ' ? '.' : memory[BUFFER + i]);
	printf("\"  journal %u bytes\n", ts11_state_number(&state, TS11_AT_USED));
}

static void show(const char *where)
{
	printf("%s\n", where);
	show_registers();
	show_message();
	show_reel();
	show_buffer();
}

/* A stop: what there was to see, and a copy of all of it, to compare with when the user comes back. */
typedef struct stop {
	const char *name;
	ts11_state state;
	uint8_t memory[sizeof memory], reel[sizeof reel], table[sizeof table];
} stop;

static stop stops[6];
static int stop_count;

static void make_stop(const char *name)
{
	stop *s = &stops[stop_count++];
	s->name = name;
	s->state = state;
	memcpy(s->memory, memory, sizeof memory);
	memcpy(s->reel, reel, sizeof reel);
	memcpy(s->table, table, sizeof table);
	show(name);
}

/* Steps back until the journal is as long as it was at the stop. Nothing but the state needs to be asked. */
static int back_to(const stop *s)
{
	int steps = 0;
	while (ts11_state_number(&state, TS11_AT_USED) > ts11_state_number(&s->state, TS11_AT_USED)) {
		must("step back", ts11_step_back(&state, BUFFERS));
		steps++;
	}
	printf("%d steps back to: ", steps);
	show(s->name);
	if (memcmp(&state, &s->state, sizeof state) != 0 || memcmp(memory, s->memory, sizeof memory) != 0 ||
	    memcmp(reel, s->reel, sizeof reel) != 0 || memcmp(table, s->table, sizeof table) != 0) {
		printf("state, memory, reel or table is not what it was\n");
		exit(1);
	}
	return steps;
}

/* Mounts as much of the reel as is whole, from block 0 on, and tells what was in the way. */
static void mount(size_t end)
{
	ts11_answer answer;
	size_t block;
	uint8_t fault;
	while ((answer = ts11_mount(&state, sizeof memory, reel, sizeof reel, table, sizeof table, sizeof journal, end, true,
	                            false, &block, &fault)) == TS11_BAD_BLOCK) {
		printf("  recorded end %zu: refusal 7, block %zu: %s\n", end, block, in_words(fault));
		end = block; /* all before it is right, but this end may cut a record off; then its first block comes next */
	}
	must("mount", answer);
}

static void give_message_buffer(void)
{
	const uint16_t characteristics[4] = { MESSAGE, 0, TS11_MESSAGE_BYTES, 0 };
	store_words(CHARACTERISTICS, characteristics, 4);
	command(TS11_WRITE_CHARACTERISTICS | TS11_ACK, CHARACTERISTICS, 8);
}

/* The reel's bytes are the host's, and may come to harm while a command waits. It is refused, and waits on until they are mended. */
static void read_damaged(void)
{
	give_at(PACKET, TS11_READ_NEXT | TS11_ACK, BUFFER, 10);
	ts11_state before = state;
	reel[TS11_BLOCK_BYTES] ^= 1;
	printf("a byte of the record is changed under a read that waits\n");
	if (advance() != TS11_BAD_BLOCK || memcmp(&state, &before, sizeof state) != 0) {
		printf("it is not refused, or the state is not what it was\n");
		exit(1);
	}
	show_registers();
	reel[TS11_BLOCK_BYTES] ^= 1;
	must("advance", advance());
}

/* The reel view: a line for each file. The marks before an object are the number of its file. */
static void show_files(void)
{
	uint32_t objects = ts11_state_number(&state, TS11_AT_OBJECTS);
	for (uint32_t place = 0; place < objects; place++) {
		uint32_t file = ts11_place_marks(table, place);
		if (place == 0 || file != ts11_place_marks(table, place - 1))
			printf("%s  file %u:", place == 0 ? "" : "\n", file);
		show_object(place);
	}
	printf("\n");
}

/* What the user clicks on: a file's number, or a block. No block of the reel is read for it. */
static void find_file(size_t file)
{
	bool found;
	size_t place;
	must("a file's look-up", ts11_find_file(&state, table, sizeof table, file, &found, &place));
	printf("  file %zu", file);
	if (found)
		printf(" begins at place %zu of the table, block %u\n", place, ts11_place_block(table, place));
	else
		printf(" is not there\n");
}

static void find_block(size_t block)
{
	bool found;
	size_t place;
	must("a block's look-up", ts11_find_block(&state, table, sizeof table, block, &found, &place));
	printf("  block %zu", block);
	if (found)
		printf(" is in the object at place %zu, which begins at block %u\n", place, ts11_place_block(table, place));
	else
		printf(" is past the recorded end\n");
}

static void write_mark(void)
{
	command(TS11_WRITE_MARK | TS11_ACK, 0, 0);
}

/* Three files, found by the table; a write at block 0 cuts all of it off, and a step back mends it. */
static void view_reel(void)
{
	uint8_t before[sizeof table];

	give_message_buffer();
	command(TS11_WRITE | TS11_ACK | TS11_CVC, TEXT, 9);
	command(TS11_WRITE | TS11_ACK, TEXT, 600);
	write_mark();
	command(TS11_WRITE | TS11_ACK, TEXT, 80);
	write_mark();
	command(TS11_ERASE | TS11_ACK, 0, 0);
	command(TS11_WRITE | TS11_ACK, TEXT, 1200);
	printf("a reel of three files\n");
	show_files();
	find_file(2);
	find_file(3);
	find_block(2);
	find_block(8);
	find_block(10);

	command(TS11_REWIND | TS11_ACK, 0, 0);
	memcpy(before, table, sizeof table);
	write_mark();
	printf("a mark is written at block 0\n");
	show_files();
	find_file(2);
	must("step back", ts11_step_back(&state, BUFFERS));
	printf("it is undone, and the table is %swhat it was\n", memcmp(table, before, sizeof table) == 0 ? "" : "NOT ");
	show_files();
	find_file(2);
	must("step back", ts11_step_back(&state, BUFFERS)); /* the TSDB write too, so that no command waits */
}

/* A reel from an archive: of its four blocks the third has come to harm. */
static void mount_damaged(void)
{
	give_message_buffer();
	command(TS11_WRITE | TS11_ACK | TS11_CVC, TEXT, 9);
	command(TS11_WRITE | TS11_ACK, TEXT, 600);
	write_mark();
	printf("a reel of two records and a mark\n");
	show_reel();
	reel[2 * TS11_BLOCK + TS11_BLOCK_BYTES] ^= 1;
	printf("a byte of it is changed, and what is whole is mounted\n");
	mount(ts11_state_number(&state, TS11_AT_END));
	show_reel();
}

int main(void)
{
	int steps = 0;

	mount(0);
	make_stop("an empty reel is mounted, on line");

	give_message_buffer();
	make_stop("the unit has a message buffer");

	store(TEXT, "MONTH END", 9);
	command(TS11_WRITE | TS11_ACK | TS11_CVC, TEXT, 9);
	make_stop("a record of 9 bytes is written");

	/* A rewind uses none of the words behind its header, but all four are fetched. */
	command_at(sizeof memory - 4, TS11_REWIND | TS11_ACK, 0, 0);
	make_stop("a rewind whose packet ends past memory is not carried out");

	command(TS11_READ_PREVIOUS | TS11_ACK, BUFFER, 10);
	make_stop("it is read back in reverse, to the high end of 10 bytes");

	read_damaged();
	make_stop("the byte is put right, and the same read is carried out");

	for (int i = stop_count - 2; i >= 0; i--)
		steps += back_to(&stops[i]);
	if (ts11_step_back(&state, BUFFERS) != TS11_NO_ENTRY)
		return 1;
	printf("%d steps undone, and state, memory, reel and table were at each stop what they had been\n", steps);

	view_reel();
	mount_damaged();
	return 0;
}
