/*
 * compare.c: the library against the plain unit, over the same random calls.
 *
 *   compare [rounds [seed]]
 *
 * Each round makes up buffers, a reel and a state, and then makes some 80 calls on both. After each call answer,
 * out-parameters, state, memory, reel, table and used journal must be the same, byte for byte; and where nothing was made
 * up since a mount, the table that is worked out afresh. The first difference is told, with exit status 1; so is a run in
 * which some refusal, class, command or status bit never occurred, or some fault in a mount, forward or in reverse, or
 * one of the ways in which a packet ends past memory, a long record is moved or the table matters (some 4,000 rounds have
 * them all). The same seed makes the same calls.
 */
#include "objects.h"
#include "plain.h"
#include "ts11.h"

#include <stdarg.h>
#include <stdio.h>
#include <stdlib.h>
#include <string.h>

#define ROUNDS 8000
#define SEED 11
#define SLACK 4096     /* bytes behind each buffer, which are compared too; wrong lengths reach into them */
#define TABLE_ROOM ((size_t)TS11_REEL_BLOCKS_MAX * TS11_PLACE_BYTES + SLACK)
#define SMALL 24576    /* up to so many bytes are compared whole after each call, else what the call touched */
#define RARELY 64      /* .. and the whole after one call in so many */
#define BUILT_MOST 300 /* blocks of a reel that a round builds on */
#define REMEMBERED 256 /* objects of them, by length and place */
#define LONG_ROUNDS 8  /* one round in so many has buffers for long records */

/* ---- random numbers ---------------------------------------------------------------------------------------------- */

static uint64_t random_bits;

static uint64_t next_random(void)
{
	random_bits ^= random_bits << 13;
	random_bits ^= random_bits >> 7;
	random_bits ^= random_bits << 17;
	return random_bits;
}

static size_t below(size_t n)
{
	return (size_t)(next_random() >> 16) % n;
}

static bool one_in(size_t n)
{
	return below(n) == 0;
}

static void fill_random(uint8_t *at, size_t n)
{
	for (size_t i = 0; i < n; i += 8) {
		uint64_t x = next_random();
		memcpy(at + i, &x, n - i < 8 ? n - i : 8);
	}
}

/* ---- two worlds -------------------------------------------------------------------------------------------------- */

/* What one unit has; the library's is the first, the plain unit's the second. */
struct world {
	ts11_state state;
	uint8_t *memory, *reel, *table, *journal;
};

struct lengths {
	size_t memory, reel, table, journal;
};

static struct world worlds[2];
static struct lengths held;   /* the bytes in use of each buffer */
static struct lengths handed; /* the lengths that calls are handed: the same, but for a wrong one now and then */

struct out {
	ts11_answer answer;
	size_t block;
	uint8_t fault;
	bool stepped, interrupt;
	uint16_t word;
	bool found;
	size_t place;
};

/* Out-parameters as they are before a call, so that one left alone is seen. */
static const struct out unset = {
	.answer = 99, .block = 12345, .fault = 0x5A, .stepped = true, .interrupt = true, .word = 0x5A5A,
	.found = true, .place = 54321,
};

/* The buffers as steps take them; the table is const in some. */
#define MEMORY_AND_REEL ts11_state *, uint8_t *, size_t, uint8_t *, size_t
#define JOURNAL uint8_t *, size_t

struct calls {
	ts11_answer (*mount)(ts11_state *, size_t, const uint8_t *, size_t, uint8_t *, size_t, size_t, size_t, bool, bool,
	                     size_t *, uint8_t *);
	ts11_answer (*write_tsdb)(MEMORY_AND_REEL, const uint8_t *, size_t, JOURNAL, uint16_t);
	ts11_answer (*write_tssr)(MEMORY_AND_REEL, const uint8_t *, size_t, JOURNAL, uint16_t);
	ts11_answer (*operate)(MEMORY_AND_REEL, const uint8_t *, size_t, JOURNAL, bool, bool);
	ts11_answer (*read_register)(const ts11_state *, bool, uint16_t *);
	ts11_answer (*host_store)(ts11_state *, uint8_t *, size_t, const uint8_t *, size_t, const uint8_t *, size_t,
	                          JOURNAL, size_t, const uint8_t *, size_t);
	ts11_answer (*advance)(MEMORY_AND_REEL, uint8_t *, size_t, JOURNAL, bool *, bool *, size_t *, uint8_t *);
	ts11_answer (*step_back)(MEMORY_AND_REEL, uint8_t *, size_t, const uint8_t *, size_t);
	ts11_answer (*find_file)(const ts11_state *, const uint8_t *, size_t, size_t, bool *, size_t *);
	ts11_answer (*find_block)(const ts11_state *, const uint8_t *, size_t, size_t, bool *, size_t *);
};

static const struct calls units[2] = {
	{ts11_mount, ts11_write_tsdb, ts11_write_tssr, ts11_operate, ts11_read_register, ts11_host_store, ts11_advance,
	 ts11_step_back, ts11_find_file, ts11_find_block},
	{plain_mount, plain_write_tsdb, plain_write_tssr, plain_operate, plain_read_register, plain_host_store,
	 plain_advance, plain_step_back, plain_find_file, plain_find_block},
};

/* Memory, reel, table and journal of a world, as steps are handed them. */
#define BUFFERS(w)                                                                                                     \
	(w)->memory, handed.memory, (w)->reel, handed.reel, (w)->table, handed.table, (w)->journal, handed.journal

/* ---- what was seen ----------------------------------------------------------------------------------------------- */

static const uint16_t commands[] = {
	TS11_READ_NEXT, TS11_READ_PREVIOUS, TS11_REREAD_PREVIOUS, TS11_REREAD_NEXT,
	TS11_WRITE, TS11_WRITE_RETRY, TS11_WRITE_MARK, TS11_ERASE, TS11_WRITE_MARK_RETRY,
	TS11_SPACE_RECORDS, TS11_SPACE_RECORDS_REVERSE, TS11_SKIP_MARKS, TS11_SKIP_MARKS_REVERSE, TS11_REWIND,
	TS11_WRITE_CHARACTERISTICS, TS11_RELEASE, TS11_UNLOAD, TS11_CLEAN, TS11_INITIALIZE, TS11_GET_STATUS,
};
#define COMMANDS (sizeof commands / sizeof commands[0])
#define TAPE_COMMANDS 13 /* the first ones, given more often */

/* A packet that ends so many bytes past memory, by 7 its header word itself; of each command, and of what is none. */
enum { OVERHANGS = 7, HEADER_ASTRIDE = 7, OVERHANG_HEADERS = COMMANDS + 1, NO_COMMAND = 2, FLAGS = 16 };
enum { OVERHANG_WAYS = OVERHANG_HEADERS * OVERHANGS * FLAGS };

/* Lengths about 16,384 and about the limit; what is done with such a record, where on the reel, SWB and journal. */
static const size_t long_lengths[] = {16383, 16384, 16385, 65534, 65535};
enum { LONG_LENGTHS = sizeof long_lengths / sizeof long_lengths[0] };
enum deed { WRITE_IT, RETRY_IT, READ_IT, READ_IT_IN_REVERSE, DEEDS };
enum place { ANYWHERE, AT_THE_END, A_BLOCK_SHORT, PLACES };
enum { LONG_WAYS = LONG_LENGTHS * DEEDS * PLACES * 4 };

/* The longest record's blocks, and the longest entry: that of a retry, with the gap. */
enum {
	LONGEST = 131,
	LONGEST_ENTRY = TS11_ENTRY_HEAD + TS11_MESSAGE_BYTES + (LONGEST + 1) * TS11_BLOCK + 2 * TS11_PLACE_BYTES
};

/* The ways in which the table matters. */
enum table_way {
	SMALL_TO_MOUNT,  /* 11: a mount */
	SMALL_TO_CHANGE, /* .. a step, by the objects that there are: a register write or an act */
	SMALL_TO_STORE,
	SMALL_TO_ADVANCE,
	SMALL_FOR_WRITE, /* .. the last of the steps, by those that a write would leave */
	SMALL_TO_BACK,   /* .. a step back, by the objects that there are */
	SMALL_FOR_BACK,  /* .. and by those that it would bring back */
	SMALL_TO_FIND,
	SMALL_BEFORE_9,  /* .. where the journal has no room either */
	CUT,             /* a write that leaves fewer objects */
	MENDED,          /* a step back that brings some back */
	WRITTEN_OVER,    /* a write over a table that is made up */
	FILE_FOUND,
	NO_FILE,
	BLOCK_FOUND,
	NO_BLOCK,
	TABLE_WAYS
};

static uint64_t seed;
static size_t round_number, round_calls;
static size_t calls_made, idles, undone;
static size_t answers[TS11_SMALL_TABLE + 1], classes[TS11_CLASS_LOST + 1], carried_out[COMMANDS];
static unsigned xst0_seen, xst3_seen;
static size_t overhung[OVERHANG_WAYS], long_given[LONG_WAYS], table_ways[TABLE_WAYS], worked_out;

/* Who met a block at fault, and the fault: of the block itself, or last, of its place. */
enum meeting { BY_MOUNT, FORWARD, REVERSE, MEETINGS };
static const char *const meeting_names[MEETINGS] = {"mount", "forward", "reverse"};
static const uint8_t faults[] = {TS11_FAULT_KIND,    TS11_FAULT_LENGTH, TS11_FAULT_INDEX,
                                 TS11_FAULT_PADDING, TS11_FAULT_CHECK,  TS11_FAULT_INDEX};
enum { FAULTS = sizeof faults, OWN_INDEX = 2, OUT_OF_PLACE = FAULTS - 1 };
static size_t met_at_fault[MEETINGS][FAULTS];

static uint32_t number_at(const uint8_t *at)
{
	return (uint32_t)at[0] | (uint32_t)at[1] << 8 | (uint32_t)at[2] << 16 | (uint32_t)at[3] << 24;
}

static uint32_t state_at(size_t at)
{
	return ts11_state_number(&worlds[0].state, at);
}

/* ---- comparing --------------------------------------------------------------------------------------------------- */

static void differ(const char *call, const char *format, ...)
{
	va_list rest;
	fprintf(stderr, "compare: seed %llu round %zu call %zu (%s): ", (unsigned long long)seed, round_number, round_calls,
	        call);
	va_start(rest, format);
	vfprintf(stderr, format, rest);
	va_end(rest);
	fprintf(stderr, "\n");
	exit(1);
}

static void alike_bytes(const char *call, const char *what, const uint8_t *a, const uint8_t *b, size_t from, size_t n)
{
	if (memcmp(a + from, b + from, n) == 0)
		return;
	while (a[from] == b[from])
		from++;
	differ(call, "%s byte %zu: library %u, plain %u", what, from, (unsigned)a[from], (unsigned)b[from]);
}

static void alike_memory(const char *call, size_t from, size_t n)
{
	alike_bytes(call, "memory", worlds[0].memory, worlds[1].memory, from, n);
}

static void alike_reel(const char *call, size_t from, size_t n)
{
	alike_bytes(call, "reel", worlds[0].reel, worlds[1].reel, from, n);
}

/* Whole, with the bytes behind it. */
static void alike_table(const char *call)
{
	size_t n = (held.table > handed.table ? held.table : handed.table) + SLACK;
	alike_bytes(call, "table", worlds[0].table, worlds[1].table, 0, n < TABLE_ROOM ? n : TABLE_ROOM);
}

static void alike_journal(const char *call, size_t from, size_t n)
{
	alike_bytes(call, "journal", worlds[0].journal, worlds[1].journal, from, n);
}

static void alike_whole(const char *call)
{
	uint32_t used = state_at(TS11_AT_USED);
	alike_memory(call, 0, held.memory + SLACK);
	alike_reel(call, 0, held.reel + SLACK);
	if (used <= held.journal)
		alike_journal(call, 0, used);
}

static bool inside(size_t at, size_t n, size_t limit)
{
	return at <= limit && n <= limit - at;
}

/* An entry has its length at its front and its head at its end, 31 numbers; the places stand from number 21 on. */
enum { HEAD_NUMBERS = 31, HEAD = 4 * HEAD_NUMBERS };

/* The entry that was added or removed, if any, and the places that it names; a byte more for the flipped address. */
static void alike_touched(const char *call, uint32_t before)
{
	uint32_t after = state_at(TS11_AT_USED);
	size_t low = before < after ? before : after;
	size_t high = before < after ? after : before;
	if (high > held.journal || high - low < TS11_ENTRY_HEAD)
		return;
	alike_journal(call, low, high - low);
	const uint8_t *head = worlds[0].journal + high - HEAD;
	size_t data = number_at(head + 84), data_length = number_at(head + 88);
	size_t message = number_at(head + 96), message_length = number_at(head + 100);
	size_t block = number_at(head + 104), blocks = number_at(head + 108);
	if (inside(data, data_length, held.memory))
		alike_memory(call, data - (data != 0), data_length + 2);
	if (inside(message, message_length, held.memory))
		alike_memory(call, message, message_length);
	if (inside(block, blocks, held.reel / TS11_BLOCK))
		alike_reel(call, block * TS11_BLOCK, blocks * TS11_BLOCK);
}

static void alike_out(const char *call, const struct out *a, const struct out *b)
{
	if (a->answer != b->answer)
		differ(call, "answer: library %zu, plain %zu", a->answer, b->answer);
	if (a->block != b->block)
		differ(call, "block: library %zu, plain %zu", a->block, b->block);
	if (a->fault != b->fault)
		differ(call, "fault of block %zu: library %u, plain %u", a->block, a->fault, b->fault);
	if (a->stepped != b->stepped)
		differ(call, "stepped: library %d, plain %d", a->stepped, b->stepped);
	if (a->interrupt != b->interrupt)
		differ(call, "interrupt: library %d, plain %d", a->interrupt, b->interrupt);
	if (a->word != b->word)
		differ(call, "word: library %04x, plain %04x", (unsigned)a->word, (unsigned)b->word);
	if (a->found != b->found || a->place != b->place)
		differ(call, "found: library %d at %zu, plain %d at %zu", a->found, a->place, b->found, b->place);
}

/* ---- the table --------------------------------------------------------------------------------------------------- */

static size_t places_handed(void)
{
	return handed.table / TS11_PLACE_BYTES;
}

static uint32_t objects_of(const ts11_state *state)
{
	return ts11_state_number(state, TS11_AT_OBJECTS);
}

/* Since a mount nothing but calls has changed state, reel, table and journal. */
static bool in_session;

/* The table as it was before the call. */
static uint8_t *table_before;

/* The state, with the table before a call. */
static ts11_state before_call(void)
{
	memcpy(table_before, worlds[0].table, held.table);
	return worlds[0].state;
}

static void expect_table_kept(const char *call)
{
	if (memcmp(table_before, worlds[0].table, held.table) != 0)
		differ(call, "the table changed");
}

/* The used part of the table is that of the objects on the reel. */
static void expect_afresh(const char *call)
{
	static struct object objects[TS11_REEL_BLOCKS_MAX];
	size_t count = work_out(objects, worlds[0].reel, state_at(TS11_AT_END));
	if (state_at(TS11_AT_OBJECTS) != count)
		differ(call, "objects %u, and afresh %zu", (unsigned)state_at(TS11_AT_OBJECTS), count);
	for (size_t i = 0; i < count; i++)
		if (ts11_place_block(worlds[0].table, i) != objects[i].block ||
		    ts11_place_marks(worlds[0].table, i) != objects[i].marks)
			differ(call, "place %zu is not that of the table worked out afresh", i);
	worked_out++;
}

/* After a call of both: all alike, and what was not done has left the state as it was. */
static struct out alike(const char *call, const struct out o[2], const ts11_state *before)
{
	round_calls++;
	calls_made++;
	alike_out(call, &o[0], &o[1]);
	alike_bytes(call, "state", worlds[0].state.bytes, worlds[1].state.bytes, 0, TS11_STATE_BYTES);
	alike_table(call);
	if (held.memory + held.reel + state_at(TS11_AT_USED) <= SMALL || one_in(RARELY))
		alike_whole(call);
	else
		alike_touched(call, ts11_state_number(before, TS11_AT_USED));
	if ((o[0].answer != TS11_DONE || !o[0].stepped) && memcmp(before, &worlds[0].state, sizeof *before) != 0)
		differ(call, "answer %zu, no step, and yet the state changed", o[0].answer);
	if (o[0].answer > TS11_SMALL_TABLE)
		differ(call, "answer %zu", o[0].answer);
	if (o[0].answer != TS11_DONE || !o[0].stepped)
		expect_table_kept(call);
	if (o[0].answer == TS11_DONE && in_session)
		expect_afresh(call);
	answers[o[0].answer]++;
	return o[0];
}

/* Is the index wrong by itself? The kind and the length are right. */
static bool index_is_wrong(const uint8_t *block)
{
	uint32_t n = word_at(block + TS11_BLOCK_LENGTH), i = word_at(block + TS11_BLOCK_INDEX);
	return word_at(block + TS11_BLOCK_KIND) == TS11_KIND_RECORD ? i * TS11_BLOCK_DATA >= n : i != 0;
}

/* Counts a block at fault; any other answer is told with no fault. */
static void count_fault(const char *call, const struct out *o, enum meeting meeting)
{
	size_t k = 0;
	if (o->answer != TS11_BAD_BLOCK && (o->block != 0 || o->fault != 0))
		differ(call, "answer %zu, and yet block %zu, fault %u", o->answer, o->block, o->fault);
	if (o->answer != TS11_BAD_BLOCK)
		return;
	while (k < FAULTS && faults[k] != o->fault)
		k++;
	if (k == FAULTS)
		differ(call, "fault %u", o->fault);
	if (k == OWN_INDEX && !index_is_wrong(worlds[0].reel + o->block * TS11_BLOCK))
		k = OUT_OF_PLACE;
	met_at_fault[meeting][k]++;
}

/* Counts a refusal 11: which way, and of a step whether the journal had no room for any entry either. */
static void count_small(const struct out *o, enum table_way way)
{
	bool step = way >= SMALL_TO_CHANGE && way <= SMALL_FOR_WRITE;
	if (o->answer != TS11_SMALL_TABLE)
		return;
	table_ways[way]++;
	table_ways[SMALL_BEFORE_9] += step && state_at(TS11_AT_JOURNAL) - state_at(TS11_AT_USED) < TS11_ENTRY_HEAD;
}

/* ---- the calls, on both ------------------------------------------------------------------------------------------ */

static struct out try_mount(size_t end, bool online, bool locked)
{
	struct out o[2] = {unset, unset};
	ts11_state before = before_call();
	for (int i = 0; i < 2; i++) {
		struct world *w = &worlds[i];
		o[i].answer = units[i].mount(&w->state, handed.memory, w->reel, handed.reel, w->table, handed.table,
		                             handed.journal, end, online, locked, &o[i].block, &o[i].fault);
	}
	in_session |= o[0].answer == TS11_DONE;
	struct out done = alike("mount", o, &before);
	count_fault("mount", &done, BY_MOUNT);
	count_small(&done, SMALL_TO_MOUNT);
	return done;
}

/* A call that leaves the table alone. */
static struct out alike_change(const char *call, const struct out o[2], const ts11_state *before, enum table_way way)
{
	struct out done = alike(call, o, before);
	expect_table_kept(call);
	count_small(&done, way);
	return done;
}

static struct out try_tsdb(uint16_t word)
{
	struct out o[2] = {unset, unset};
	ts11_state before = before_call();
	for (int i = 0; i < 2; i++) {
		struct world *w = &worlds[i];
		o[i].answer = units[i].write_tsdb(&w->state, BUFFERS(w), word);
	}
	return alike_change("write_tsdb", o, &before, SMALL_TO_CHANGE);
}

static struct out try_tssr(uint16_t word)
{
	struct out o[2] = {unset, unset};
	ts11_state before = before_call();
	for (int i = 0; i < 2; i++) {
		struct world *w = &worlds[i];
		o[i].answer = units[i].write_tssr(&w->state, BUFFERS(w), word);
	}
	return alike_change("write_tssr", o, &before, SMALL_TO_CHANGE);
}

static struct out try_operate(bool which_switch, bool on)
{
	struct out o[2] = {unset, unset};
	ts11_state before = before_call();
	for (int i = 0; i < 2; i++) {
		struct world *w = &worlds[i];
		o[i].answer = units[i].operate(&w->state, BUFFERS(w), which_switch, on);
	}
	return alike_change("operate", o, &before, SMALL_TO_CHANGE);
}

static struct out try_register(bool which_register)
{
	struct out o[2] = {unset, unset};
	ts11_state before = before_call();
	for (int i = 0; i < 2; i++)
		o[i].answer = units[i].read_register(&worlds[i].state, which_register, &o[i].word);
	struct out done = alike("read_register", o, &before);
	expect_table_kept("read_register");
	return done;
}

/* Both look-ups; what is not found has place 0. */
static void count_found(const char *call, const struct out *o, enum table_way found, enum table_way none)
{
	if (!o->found && o->place != 0)
		differ(call, "nothing found, and yet place %zu", o->place);
	if (o->found && (o->answer != TS11_DONE || o->place >= state_at(TS11_AT_OBJECTS)))
		differ(call, "answer %zu, and yet found at %zu", o->answer, o->place);
	if (o->answer == TS11_DONE)
		table_ways[o->found ? found : none]++;
}

static struct out try_find_file(size_t file)
{
	struct out o[2] = {unset, unset};
	ts11_state before = before_call();
	for (int i = 0; i < 2; i++)
		o[i].answer = units[i].find_file(&worlds[i].state, worlds[i].table, handed.table, file, &o[i].found,
		                                 &o[i].place);
	struct out done = alike_change("find_file", o, &before, SMALL_TO_FIND);
	count_found("find_file", &done, FILE_FOUND, NO_FILE);
	return done;
}

static struct out try_find_block(size_t block)
{
	struct out o[2] = {unset, unset};
	ts11_state before = before_call();
	for (int i = 0; i < 2; i++)
		o[i].answer = units[i].find_block(&worlds[i].state, worlds[i].table, handed.table, block, &o[i].found,
		                                  &o[i].place);
	struct out done = alike_change("find_block", o, &before, SMALL_TO_FIND);
	count_found("find_block", &done, BLOCK_FOUND, NO_BLOCK);
	return done;
}

static struct out try_store(size_t address, const uint8_t *bytes, size_t length)
{
	struct out o[2] = {unset, unset};
	ts11_state before = before_call();
	for (int i = 0; i < 2; i++) {
		struct world *w = &worlds[i];
		o[i].answer = units[i].host_store(&w->state, BUFFERS(w), address, bytes, length);
	}
	return alike_change("host_store", o, &before, SMALL_TO_STORE);
}

/* Counts an advance that was a step: its class, the command where it was carried out, the status bits that it sent. */
static void count_advance(const ts11_state *before, uint32_t header)
{
	uint32_t class = state_at(TS11_AT_CLASS);
	classes[class]++;
	if (ts11_state_number(before, TS11_AT_SSR) == 0 && (class == TS11_CLASS_NORMAL || class == TS11_CLASS_STATUS))
		for (size_t i = 0; i < COMMANDS; i++)
			carried_out[i] += (header & 0x0F7F) == commands[i] && (header & TS11_ACK) != 0;
	const uint8_t *head = worlds[0].journal + state_at(TS11_AT_USED) - HEAD;
	if (number_at(head + 100) != 0) {
		const uint8_t *message = worlds[0].memory + number_at(head + 96);
		xst0_seen |= word_at(message + TS11_MESSAGE_XST0);
		xst3_seen |= word_at(message + TS11_MESSAGE_XST3);
	}
}

/* Counts what an advance does to the table. */
static void count_places(const struct out *o, const ts11_state *before)
{
	uint32_t objects = objects_of(before);
	bool written = o->stepped && memcmp(table_before, worlds[0].table, held.table) != 0;
	count_small(o, objects > places_handed() ? SMALL_TO_ADVANCE : SMALL_FOR_WRITE);
	table_ways[CUT] += o->stepped && state_at(TS11_AT_OBJECTS) < objects;
	table_ways[WRITTEN_OVER] += written && !in_session;
}

static struct out advance_both(void)
{
	struct out o[2] = {unset, unset};
	ts11_state before = before_call();
	for (int i = 0; i < 2; i++) {
		struct world *w = &worlds[i];
		o[i].answer = units[i].advance(&w->state, BUFFERS(w), &o[i].stepped, &o[i].interrupt, &o[i].block,
		                               &o[i].fault);
	}
	struct out done = alike("advance", o, &before);
	count_places(&done, &before);
	return done;
}

/* The way that a command reads its first blocks; a reread reads the same ones again on its way back. */
static enum meeting way_of(uint32_t header)
{
	switch (header & 0x0F1F) {
	case TS11_READ_PREVIOUS:
	case TS11_REREAD_PREVIOUS:
	case TS11_WRITE_RETRY:
	case TS11_SPACE_RECORDS_REVERSE:
	case TS11_SKIP_MARKS_REVERSE:
	case TS11_WRITE_MARK_RETRY:
		return REVERSE;
	default:
		return FORWARD;
	}
}

static struct out try_advance(void)
{
	ts11_state before = worlds[0].state;
	uint32_t pointer = state_at(TS11_AT_POINTER);
	uint32_t header = (size_t)pointer + 2 <= held.memory ? word_at(worlds[0].memory + pointer) : 0;
	struct out done = advance_both();
	count_fault("advance", &done, way_of(header));
	if (done.stepped)
		count_advance(&before, header);
	else
		idles += done.answer == TS11_DONE;
	return done;
}

static struct out try_back(void)
{
	struct out o[2] = {unset, unset};
	ts11_state before = before_call();
	for (int i = 0; i < 2; i++) {
		struct world *w = &worlds[i];
		o[i].answer = units[i].step_back(&w->state, BUFFERS(w));
	}
	struct out done = alike("step_back", o, &before);
	undone += done.answer == TS11_DONE;
	count_small(&done, objects_of(&before) > places_handed() ? SMALL_TO_BACK : SMALL_FOR_BACK);
	table_ways[MENDED] += done.answer == TS11_DONE && state_at(TS11_AT_OBJECTS) > objects_of(&before);
	return done;
}

/* ---- set-up of a round: what is not a call goes to both worlds alike --------------------------------------------- */

static size_t built_from, built_end;         /* the blocks that hold objects */
static size_t edges[REMEMBERED], edge_count; /* where objects begin and end */
static size_t record_lengths[REMEMBERED], record_count;

static void put_number(uint8_t *at, uint32_t value)
{
	for (size_t j = 0; j < 4; j++)
		at[j] = (uint8_t)(value >> 8 * j);
}

static void put_state(size_t at, uint32_t value)
{
	in_session = false;
	for (int i = 0; i < 2; i++)
		put_number(worlds[i].state.bytes + at, value);
}

/* The state of before, where a turn made up another. */
static void put_state_back(const ts11_state *kept)
{
	in_session = false;
	worlds[0].state = worlds[1].state = *kept;
}

static void poke(size_t at, const uint8_t *bytes, size_t n)
{
	if (at > held.memory)
		return;
	n = n < held.memory - at ? n : held.memory - at;
	memcpy(worlds[0].memory + at, bytes, n);
	memcpy(worlds[1].memory + at, bytes, n);
}

/* Words in memory: put there, or stored by the host. */
static void give_words(size_t at, const uint16_t *words, size_t n)
{
	uint8_t bytes[8];
	for (size_t i = 0; i < n; i++) {
		bytes[2 * i] = (uint8_t)words[i];
		bytes[2 * i + 1] = (uint8_t)(words[i] >> 8);
	}
	if (one_in(3))
		try_store(at, bytes, 2 * n);
	else
		poke(at, bytes, 2 * n);
}

static bool long_round; /* memory holds the longest record; reel and journal have room for it, or a little less */

static size_t pick_memory(void)
{
	if (long_round)
		return one_in(3) ? TS11_MEMORY_MAX : TS11_RECORD_MAX + 1 + 2 * below(4000);
	switch (below(12)) {
	case 0: return 2 + 2 * below(32);
	case 1: return TS11_MEMORY_MAX;
	case 2: return 65536 + 2 * below(70000);
	case 3: case 4: case 5: return 512 + 2 * below(16384);
	default: return 64 + 2 * below(225);
	}
}

static size_t pick_blocks(void)
{
	if (one_in(100))
		return TS11_REEL_BLOCKS_MAX;
	switch (below(long_round ? 4 : 6)) {
	case 0: return TS11_EOT_MARGIN - 2 + below(8);
	case 1: return 1 + below(BUILT_MOST);
	case 2: return TS11_EOT_MARGIN + 1 + below(BUILT_MOST - TS11_EOT_MARGIN);
	default: return long_round ? LONGEST - 1 + below(4) : 1 + below(16);
	}
}

static size_t pick_journal(void)
{
	if (one_in(100))
		return TS11_JOURNAL_MAX - below(2) * below(1000);
	if (long_round)
		return LONGEST_ENTRY - 1000 + below(one_in(2) ? 2000 : 3 * LONGEST_ENTRY);
	switch (below(10)) {
	case 0: return below(TS11_ENTRY_HEAD * 3);
	case 1: return below(4096);
	default: return 4096 + below(60000);
	}
}

static size_t built_objects;

/* Places for the objects that are built and a few more; for every block; just enough; too few. Any length will do. */
static size_t pick_table(void)
{
	size_t odd = one_in(3) ? below(TS11_PLACE_BYTES) : 0;
	switch (below(8)) {
	case 0: return held.reel / TS11_BLOCK * TS11_PLACE_BYTES + odd;
	case 1: return built_objects * TS11_PLACE_BYTES + odd;
	case 2: return below(built_objects + 1) * TS11_PLACE_BYTES + odd;
	case 3: return below(4 * TS11_PLACE_BYTES);
	default: return (built_objects + below(48)) * TS11_PLACE_BYTES + odd;
	}
}

static void put_block(size_t k, unsigned kind, size_t n, size_t i)
{
	uint8_t *b = worlds[0].reel + k * TS11_BLOCK;
	size_t left = n - i * TS11_BLOCK_DATA;
	memset(b, 0, TS11_BLOCK);
	b[TS11_BLOCK_KIND] = (uint8_t)kind;
	put_word(b + TS11_BLOCK_LENGTH, n);
	b[TS11_BLOCK_INDEX] = (uint8_t)i;
	fill_random(b + TS11_BLOCK_BYTES, left < TS11_BLOCK_DATA ? left : TS11_BLOCK_DATA);
	seal(b);
}

static size_t pick_length(void)
{
	static const size_t corners[] = {1, 2, 503, 504, 505, 1007, 1008, 1009, 65520, 65521};
	if (one_in(long_round ? 3 : 16))
		return long_lengths[below(LONG_LENGTHS)];
	switch (below(8)) {
	case 0: return corners[below(sizeof corners / sizeof corners[0])];
	case 1: return 1 + below(one_in(2) ? TS11_RECORD_MAX : 16384);
	case 2: case 3: return 1 + below(2500);
	default: return 1 + below(300);
	}
}

/* One object goes behind those that are built, if it fits below a limit. */
static void build_object(size_t limit)
{
	unsigned kind = one_in(5) ? TS11_KIND_GAP : one_in(4) ? TS11_KIND_MARK : TS11_KIND_RECORD;
	size_t n = kind == TS11_KIND_RECORD ? pick_length() : 0;
	size_t blocks = kind == TS11_KIND_RECORD ? pieces(n) : 1;
	if (blocks > limit - built_end)
		return;
	for (size_t i = 0; i < blocks; i++)
		put_block(built_end + i, kind, n, i);
	built_end += blocks;
	built_objects++;
	if (edge_count < REMEMBERED)
		edges[edge_count++] = built_end;
	if (kind == TS11_KIND_RECORD && record_count < REMEMBERED)
		record_lengths[record_count++] = n;
}

static void build_reel(void)
{
	size_t blocks = held.reel / TS11_BLOCK;
	size_t most = blocks < BUILT_MOST ? blocks : BUILT_MOST;
	built_from = blocks > most && one_in(2) ? blocks - most : 0;
	built_end = built_from;
	built_objects = 0;
	edges[0] = built_end;
	edge_count = 1;
	record_count = 0;
	uint8_t *from = worlds[0].reel + built_from * TS11_BLOCK;
	if (one_in(2))
		fill_random(from, most * TS11_BLOCK);
	else
		memset(from, 0, most * TS11_BLOCK);
	for (size_t objects = below(3) * below(12) + below(12); objects != 0; objects--)
		build_object(built_from + most);
	memcpy(worlds[1].reel + built_from * TS11_BLOCK, from, most * TS11_BLOCK);
}

static uint8_t *built_block(void)
{
	return worlds[0].reel + (built_from + below(built_end - built_from)) * TS11_BLOCK;
}

/* A sound piece of a long record: the first, which the end cuts off, the last, which reaches below block 0, or any. */
static void harm_place(uint8_t *b)
{
	size_t n = long_lengths[below(LONG_LENGTHS)], last = pieces(n) - 1;
	size_t i = one_in(4) ? below(last + 1) : one_in(2) ? 0 : last;
	put_block((size_t)(b - worlds[0].reel) / TS11_BLOCK, TS11_KIND_RECORD, n, i);
}

/* The sum becomes 0, and the check word what is 0 modulo 65,535 too, but is none. */
static void check_wrongly(uint8_t *b)
{
	seal(b);
	uint32_t w = (word_at(b + TS11_BLOCK_BYTES) + 65535 - word_at(b + TS11_BLOCK_CHECK)) % 65535;
	put_word(b + TS11_BLOCK_BYTES, w);
	put_word(b + TS11_BLOCK_CHECK, 0xFFFF);
}

/* A length about the limit, or about a whole number of blocks; of a record 0 alone is a wrong one. */
static void harm_length(uint8_t *b)
{
	static const size_t corners[] = {0, 0, 0, 1, 504, 505, 1008, 1009, 16383, 16384, 16385, 65534, 65535};
	put_word(b + TS11_BLOCK_LENGTH, corners[below(sizeof corners / sizeof corners[0])]);
}

/* An index about the record's last. */
static void harm_index(uint8_t *b)
{
	put_word(b + TS11_BLOCK_INDEX, pieces(word_at(b + TS11_BLOCK_LENGTH)) + below(4) - 2);
}

static void harm(uint8_t *b)
{
	switch (below(9)) {
	case 0: b[below(TS11_BLOCK)] ^= (uint8_t)(1 << below(8)); break;
	case 1: b[below(TS11_BLOCK_BYTES)] = (uint8_t)below(one_in(2) ? 4 : 256); break;
	case 2: b[TS11_BLOCK_CHECK - 1] = (uint8_t)below(256); break;
	case 3: memmove(b, built_block(), TS11_BLOCK); break;
	case 4: b[TS11_BLOCK_BYTES + below(TS11_BLOCK_DATA)] ^= (uint8_t)(1 + below(255)); break;
	case 5: harm_length(b); break;
	case 6: harm_index(b); break;
	case 7: harm_place(b); break;
	default: check_wrongly(b); break;
	}
}

/* One block of what is built comes to harm, or to two; in half the cases its check word is made right again. */
static void damage(void)
{
	if (built_end == built_from)
		return;
	in_session = false;
	uint8_t *b = built_block();
	harm(b);
	if (one_in(3))
		harm(b);
	if (one_in(2))
		seal(b);
	memcpy(worlds[1].reel + (b - worlds[0].reel), b, TS11_BLOCK);
}

static void make_up_message_buffer(void)
{
	size_t length = TS11_MESSAGE_BYTES + below(held.memory - TS11_MESSAGE_BYTES + 1) / (1 + below(20));
	put_state(TS11_AT_MESSAGE, (uint32_t)below(held.memory - length + 1) & ~1u);
	put_state(TS11_AT_MESSAGE_LENGTH, (uint32_t)length);
}

/* As many as the table has places, or fewer; now and then more. */
static void make_up_objects(void)
{
	size_t places = held.table / TS11_PLACE_BYTES;
	put_state(TS11_AT_OBJECTS, (uint32_t)(one_in(8) ? places + below(3) : below(places + 1)));
}

/* A number that may stand in a place: of a block, of few marks, or any. */
static uint32_t made_up_number(void)
{
	switch (below(8)) {
	case 0: return (uint32_t)next_random();
	case 1: return 0xFFFFFFFF - (uint32_t)below(2);
	case 2: return (uint32_t)below(3);
	default: return (uint32_t)below(built_end + 2);
	}
}

/* One number of the table, all of them, or all in order: the first blocks then rise, some of them by 0. */
static void make_up_table(void)
{
	size_t places = held.table / TS11_PLACE_BYTES;
	uint8_t *t = worlds[0].table;
	in_session = false;
	if (places == 0)
		return;
	if (places > BUILT_MOST)
		places = BUILT_MOST;
	size_t at = one_in(2) ? below(places) : 0, to = one_in(2) ? at + 1 : places;
	bool in_order = one_in(2);
	uint32_t block = 0;
	for (; at < to; at++) {
		block += (uint32_t)below(4);
		put_number(t + at * TS11_PLACE_BYTES, in_order ? block : made_up_number());
		put_number(t + at * TS11_PLACE_BYTES + 4, made_up_number());
	}
	memcpy(worlds[1].table, t, held.table);
	if (one_in(2))
		make_up_objects();
}

/* A state that no call need have left, but that refusal 1 lets pass. */
static void make_up_state(void)
{
	size_t blocks = held.reel / TS11_BLOCK;
	size_t end = one_in(4) ? below(blocks + 1) : one_in(8) ? blocks : built_end;
	size_t position = one_in(4) ? below(end + 1) : edges[below(edge_count)];
	size_t used = one_in(6) ? below(held.journal + 1) : one_in(6) ? TS11_ENTRY_HEAD - 1 + below(3) : 0;
	bool nba = held.memory < TS11_MESSAGE_BYTES || one_in(3);
	for (int i = 0; i < 2; i++)
		memset(&worlds[i].state, 0, sizeof worlds[i].state);
	put_state(TS11_AT_POSITION, (uint32_t)(position < end ? position : end));
	put_state(TS11_AT_END, (uint32_t)end);
	put_state(TS11_AT_POINTER, (uint32_t)(one_in(3) ? below(1 << 18) : below(held.memory)));
	put_state(TS11_AT_CLASS, (uint32_t)below(TS11_CLASS_LOST + 1));
	for (size_t at = TS11_AT_RMR; at <= TS11_AT_RELEASE_IE; at += 4)
		put_state(at, (uint32_t)below(2));
	for (size_t at = TS11_AT_EAI; at <= TS11_AT_ENB; at += 4)
		put_state(at, (uint32_t)below(2));
	put_state(TS11_AT_ONLINE, !one_in(6));
	put_state(TS11_AT_LOCKED, one_in(6));
	put_state(TS11_AT_NBA, nba);
	if (!nba)
		make_up_message_buffer();
	put_state(TS11_AT_MEMORY, (uint32_t)held.memory);
	put_state(TS11_AT_BLOCKS, (uint32_t)blocks);
	if (used > held.journal)
		used = held.journal;
	put_state(TS11_AT_USED, (uint32_t)used);
	put_state(TS11_AT_JOURNAL, (uint32_t)held.journal);
	memcpy(worlds[1].journal, worlds[0].journal, used);
	make_up_objects();
}

/* ---- what a turn does -------------------------------------------------------------------------------------------- */

static uint32_t odd_number(void)
{
	static const uint32_t corners[] = {0, 1, 2, 127, 128, 0xFFFF, 0x10000, 0x3FFFF, 0x40000,
	                                   0x1000000, 0x7FFFFFFF, 0x80000000, 0xFFFFFFFF};
	if (one_in(3))
		return (uint32_t)next_random();
	return corners[below(sizeof corners / sizeof corners[0])] + (one_in(3) ? (uint32_t)below(3) - 1 : 0);
}

/* Now and then a number that no buffer could have. */
static size_t odd_length(size_t length)
{
	if (!one_in(20))
		return length;
	return odd_number() + (one_in(2) ? SIZE_MAX - 0xFFFFFFFF : 0);
}

static size_t pick_count(void)
{
	size_t n = record_count == 0 || one_in(3) ? pick_length() : record_lengths[below(record_count)];
	switch (below(10)) {
	case 0: return 0;
	case 1: return n + 1;
	case 2: return n - 1;
	case 3: return below(65536);
	case 4: return n / 2;
	default: return n;
	}
}

/* Pointer low, high and count of a data buffer, inside memory if that can be, or anything. */
static void pick_buffer(uint16_t *words)
{
	size_t count = pick_count() & 0xFFFF;
	size_t pointer = below(held.memory);
	if (count > held.memory && !one_in(4))
		count = below(held.memory + 1) & 0xFFFF;
	if (count <= held.memory && !one_in(8))
		pointer = one_in(8) ? held.memory - count : below(held.memory - count + 1);
	words[0] = (uint16_t)pointer;
	words[1] = (uint16_t)(pointer >> 16 | (one_in(40) ? below(65536) : 0));
	words[2] = (uint16_t)count;
}

/* Write Characteristics: its data first, then pointer and count. */
static void pick_characteristics(uint16_t *words)
{
	size_t length = one_in(12) ? below(20) : TS11_MESSAGE_BYTES + below(60);
	size_t address = below(held.memory);
	if (length <= held.memory && !one_in(12))
		address = below(held.memory - length + 1);
	if (!one_in(12))
		address &= ~(size_t)1;
	size_t at = held.memory < 8 ? 0 : below(held.memory - 7) & ~(size_t)1;
	uint16_t high = (uint16_t)(address >> 16 | (one_in(40) ? below(65536) : 0));
	give_words(at, (const uint16_t[]){(uint16_t)address, high, (uint16_t)length, (uint16_t)below(65536)}, 4);
	words[0] = (uint16_t)(at + one_in(30));
	words[1] = (uint16_t)(at >> 16);
	words[2] = one_in(4) ? (uint16_t)below(12) : 8;
}

static uint16_t pick_header(void)
{
	uint16_t header = commands[below(COMMANDS)];
	if (one_in(40))
		return (uint16_t)next_random();
	if (one_in(3))
		header = commands[below(TAPE_COMMANDS)];
	header |= one_in(30) ? 0 : TS11_ACK;
	header |= one_in(8) ? 0 : TS11_CVC;
	header |= one_in(3) ? TS11_OPP : 0;
	header |= one_in(3) ? TS11_SWB : 0;
	header |= one_in(2) ? TS11_IE : 0;
	return header;
}

static size_t pick_packet_place(void)
{
	size_t last = held.memory < 12 ? held.memory : 12;
	if (one_in(20))
		return below(1 << 18);
	return one_in(10) ? held.memory - 1 - below(last) : below(held.memory);
}

/* A packet goes to memory, its address to TSDB, and the unit advances. */
static void give_command(uint16_t header)
{
	uint16_t words[4] = {header, (uint16_t)(one_in(10) ? below(65536) : below(8)), 0, 0};
	size_t at = pick_packet_place() & ~(size_t)3;
	if ((header & 0x1F) == (TS11_WRITE_CHARACTERISTICS & 0x1F))
		pick_characteristics(words + 1);
	else if ((header & 0x1F) != (TS11_REWIND & 0x1F))
		pick_buffer(words + 1);
	if (state_at(TS11_AT_SSR) == 1 && !one_in(20))
		give_words(at, words, 4);
	try_tsdb(TS11_TSDB(at));
	if (try_advance().answer == TS11_BAD_BLOCK && one_in(2))
		try_tssr(0);
}

/* ---- packets that overhang memory -------------------------------------------------------------------------------- */

/* One of the ways in which a command waits whose packet ends past memory. */
struct overhang {
	uint16_t code; /* and mode */
	size_t past;   /* by so many bytes */
	bool ack, owned, nba, pending;
};

static struct overhang overhang_by_number(size_t n)
{
	size_t flags = n % FLAGS, past = n / FLAGS % OVERHANGS, k = n / FLAGS / OVERHANGS;
	uint16_t code = k < COMMANDS ? commands[k] : NO_COMMAND;
	return (struct overhang){code, past + 1, flags & 1, flags >> 1 & 1, flags >> 2 & 1, flags >> 3 & 1};
}

/* The command waits: its packet as far as memory goes, and the state; a pointer that is no multiple of 4 is made up too. */
static void put_overhang(const struct overhang *o, bool cvc)
{
	size_t at = held.memory + o->past - TS11_PACKET_BYTES;
	uint16_t header = o->code | (o->ack ? TS11_ACK : 0) | (cvc ? TS11_CVC : 0) | (one_in(2) ? TS11_IE : 0);
	uint8_t packet[TS11_PACKET_BYTES];
	fill_random(packet, sizeof packet);
	packet[0] = (uint8_t)header;
	packet[1] = (uint8_t)(header >> 8);
	poke(at, packet, sizeof packet);
	put_state(TS11_AT_POINTER, (uint32_t)at);
	put_state(TS11_AT_SSR, 0);
	put_state(TS11_AT_NXM, 0);
	put_state(TS11_AT_NBA, o->nba);
	put_state(TS11_AT_PENDING, o->pending);
	put_state(TS11_AT_UNIT_OWNS, o->owned);
	put_state(TS11_AT_VCK, (uint32_t)below(2));
	if (state_at(TS11_AT_OBJECTS) > held.table / TS11_PLACE_BYTES)
		put_state(TS11_AT_OBJECTS, 0);
	if (!o->nba)
		make_up_message_buffer();
}

/* Steps 1, 2, 3, 5, 6 and 7 in their order: one of them ends it. */
static uint32_t class_of_overhang(const struct overhang *o)
{
	if (o->past == HEADER_ASTRIDE)
		return TS11_CLASS_UNMOVED;
	if (!o->ack && !o->owned)
		return TS11_CLASS_NORMAL;
	if (o->pending)
		return TS11_CLASS_ATTENTION;
	if (o->code == NO_COMMAND || (o->nba && o->code != TS11_WRITE_CHARACTERISTICS))
		return TS11_CLASS_REJECT;
	return TS11_CLASS_UNMOVED;
}

/* Step 4 comes after 1 to 3. */
static bool reaches_cvc(const struct overhang *o)
{
	return o->past != HEADER_ASTRIDE && (o->ack || o->owned) && !o->pending;
}

static void expect_overhang(const struct overhang *o, size_t at, uint32_t wanted)
{
	if (state_at(at) != wanted)
		differ("advance", "code %x, packet %zu past memory, ACK %d owned %d NBA %d attention %d: state at %zu is %u, not %u",
		       (unsigned)o->code, o->past, o->ack, o->owned, o->nba, o->pending, at, (unsigned)state_at(at),
		       (unsigned)wanted);
}

/* How it ended, and that nothing of the command was carried out. */
static void expect_overhang_end(const struct overhang *o, bool cvc, const ts11_state *before)
{
	static const size_t kept[] = {TS11_AT_POSITION, TS11_AT_END, TS11_AT_POINTER, TS11_AT_NBA, TS11_AT_ONLINE,
	                              TS11_AT_LOCKED, TS11_AT_RELEASE_IE, TS11_AT_EAI, TS11_AT_ESS, TS11_AT_ENB,
	                              TS11_AT_MESSAGE, TS11_AT_MESSAGE_LENGTH};
	for (size_t k = 0; k < sizeof kept / sizeof kept[0]; k++)
		expect_overhang(o, kept[k], ts11_state_number(before, kept[k]));
	expect_overhang(o, TS11_AT_CLASS, class_of_overhang(o));
	expect_overhang(o, TS11_AT_NXM, class_of_overhang(o) == TS11_CLASS_UNMOVED);
	expect_overhang(o, TS11_AT_SSR, 1);
	expect_overhang(o, TS11_AT_VCK, cvc && reaches_cvc(o) ? 0 : ts11_state_number(before, TS11_AT_VCK));
}

/* Each way in its turn; one that the journal has no room for comes again. */
static void give_overhang(void)
{
	static size_t given;
	if (held.memory < TS11_MESSAGE_BYTES)
		return;
	struct overhang o = overhang_by_number(given);
	bool cvc = one_in(2);
	put_overhang(&o, cvc);
	ts11_state before = worlds[0].state;
	struct out done = advance_both();
	if (done.answer == TS11_JOURNAL_FULL)
		return;
	if (done.answer != TS11_DONE || !done.stepped)
		differ("advance", "a packet past memory is answered %zu", done.answer);
	expect_overhang_end(&o, cvc, &before);
	overhung[given]++;
	given = (given + 1) % OVERHANG_WAYS;
	if (one_in(2))
		try_back();
}

/* ---- long records ------------------------------------------------------------------------------------------------ */

/* One of the ways in which a command waits that moves a long record. */
struct long_way {
	size_t length;
	enum deed deed;
	enum place place;
	bool swb, byte_short; /* the journal has a byte too few for the entry */
};

static struct long_way long_way_by_number(size_t n)
{
	return (struct long_way){.length = long_lengths[n / 4 / PLACES / DEEDS], .deed = n / 4 / PLACES % DEEDS,
	                         .place = n / 4 % PLACES, .swb = n & 1, .byte_short = n >> 1 & 1};
}

static bool reads(const struct long_way *w)
{
	return w->deed == READ_IT || w->deed == READ_IT_IN_REVERSE;
}

/* The blocks from the place on that the command reads or writes. */
static size_t blocks_needed(const struct long_way *w)
{
	return pieces(w->length) + (w->deed == RETRY_IT);
}

/* The entry where it is answered 0: what does not fit on the reel saves no block and no place. */
static size_t entry_of(const struct long_way *w)
{
	size_t entry = TS11_ENTRY_HEAD + TS11_MESSAGE_BYTES;
	if (reads(w))
		return entry + w->length;
	if (w->place == A_BLOCK_SHORT)
		return entry;
	return entry + blocks_needed(w) * TS11_BLOCK + (w->deed == RETRY_IT ? 2 : 1) * TS11_PLACE_BYTES;
}

static void put_alike(size_t k, unsigned kind, size_t n, size_t i)
{
	in_session = false;
	put_block(k, kind, n, i);
	memcpy(worlds[1].reel + k * TS11_BLOCK, worlds[0].reel + k * TS11_BLOCK, TS11_BLOCK);
}

/*
 * The first block of the place. A block short, a write runs over the reel's end and a record that is read is cut off
 * there; in reverse it reaches below block 0, and this is then the block of its second piece.
 */
static size_t place_of(const struct long_way *w)
{
	size_t reel = held.reel / TS11_BLOCK, needed = blocks_needed(w);
	switch (w->place) {
	case ANYWHERE: return below(reel - needed + 1);
	case AT_THE_END: return reel - needed;
	default: return w->deed == READ_IT_IN_REVERSE ? 0 : reel - needed + 1;
	}
}

/* What the command finds on the reel, and where the tape stands: the record before or behind it, or a retry's mark. */
static void put_tape(const struct long_way *w, size_t at)
{
	bool cut = reads(w) && w->place == A_BLOCK_SHORT, reverse = w->deed == READ_IT_IN_REVERSE;
	size_t there = reads(w) ? blocks_needed(w) - cut : w->deed == RETRY_IT, end = at + there;
	for (size_t i = 0; i < there; i++)
		put_alike(at + i, reads(w) ? TS11_KIND_RECORD : TS11_KIND_MARK, reads(w) ? w->length : 0, i + (cut && reverse));
	put_state(TS11_AT_POSITION, (uint32_t)(w->deed == READ_IT ? at : end));
	put_state(TS11_AT_END, (uint32_t)end);
}

/* The packet waits, nothing else is in the command's way, and the journal has as much room as the way has it. */
static void put_long(const struct long_way *w, size_t at)
{
	static const uint16_t headers[DEEDS] = {TS11_WRITE, TS11_WRITE_RETRY, TS11_READ_NEXT, TS11_READ_PREVIOUS};
	uint16_t header = headers[w->deed] | TS11_ACK | TS11_CVC | (w->swb ? TS11_SWB : 0);
	size_t packet = below(held.memory - TS11_PACKET_BYTES + 1), data = below(held.memory - w->length + 1);
	size_t used = held.journal - entry_of(w) + w->byte_short;
	const uint16_t words[4] = {header, (uint16_t)data, (uint16_t)(data >> 16), (uint16_t)w->length};
	for (int i = 0; i < 2; i++)
		for (size_t k = 0; k < 4; k++)
			put_word(worlds[i].memory + packet + 2 * k, words[k]);
	put_tape(w, at);
	put_state(TS11_AT_POINTER, (uint32_t)packet);
	put_state(TS11_AT_SSR, 0);
	put_state(TS11_AT_NBA, 0);
	put_state(TS11_AT_PENDING, 0);
	put_state(TS11_AT_ONLINE, 1);
	put_state(TS11_AT_LOCKED, 0);
	make_up_message_buffer();
	put_state(TS11_AT_USED, (uint32_t)used);
	memcpy(worlds[1].journal, worlds[0].journal, used);
}

static ts11_answer answer_of(const struct long_way *w)
{
	if (reads(w) && w->place == A_BLOCK_SHORT)
		return TS11_BAD_BLOCK;
	return w->byte_short ? TS11_JOURNAL_FULL : TS11_DONE;
}

/* The class of a command that is answered 0; what it wrote may end at or past the EOT marker. */
static uint32_t class_of_long(const struct long_way *w, size_t at)
{
	if (reads(w))
		return TS11_CLASS_NORMAL;
	if (w->place == A_BLOCK_SHORT)
		return TS11_CLASS_REJECT;
	return at + blocks_needed(w) + TS11_EOT_MARGIN >= held.reel / TS11_BLOCK ? TS11_CLASS_STATUS : TS11_CLASS_NORMAL;
}

/* How it ended. What has no room on the reel finds EOT set (step 11). */
static void expect_long_end(const struct long_way *w, size_t at, const struct out *done)
{
	const uint8_t *message = worlds[0].memory + state_at(TS11_AT_MESSAGE);
	bool short_of_blocks = w->place == A_BLOCK_SHORT;
	if (done->answer != answer_of(w))
		differ("advance", "%zu bytes, deed %d, place %d at block %zu: answer %zu, not %zu", w->length, (int)w->deed,
		       (int)w->place, at, done->answer, answer_of(w));
	if (done->answer == TS11_BAD_BLOCK && done->fault != TS11_FAULT_INDEX)
		differ("advance", "%zu bytes, deed %d, cut off at block %zu: fault %u", w->length, (int)w->deed, at,
		       done->fault);
	if (done->answer == TS11_DONE && state_at(TS11_AT_CLASS) != class_of_long(w, at))
		differ("advance", "%zu bytes, deed %d, place %d at block %zu: class %u, not %u", w->length, (int)w->deed,
		       (int)w->place, at, (unsigned)state_at(TS11_AT_CLASS), (unsigned)class_of_long(w, at));
	if (done->answer == TS11_DONE && short_of_blocks && !(word_at(message + TS11_MESSAGE_XST0) & TS11_XST0_EOT))
		differ("advance", "%zu bytes, deed %d: no room at block %zu, and EOT is not set", w->length, (int)w->deed, at);
}

/* Each way in its turn; one that the buffers have no room for comes again. The round goes on with the state as it stood, over what was laid and stored. */
static void give_long(void)
{
	static size_t given;
	struct long_way w = long_way_by_number(given);
	ts11_state kept = worlds[0].state;
	size_t places = held.table / TS11_PLACE_BYTES;
	if (held.journal < entry_of(&w) || held.reel / TS11_BLOCK + (w.place == A_BLOCK_SHORT) < blocks_needed(&w) ||
	    places < 2)
		return;
	size_t at = place_of(&w);
	put_long(&w, at);
	put_state(TS11_AT_OBJECTS, (uint32_t)below(places - 1));
	struct out done = try_advance();
	expect_long_end(&w, at, &done);
	if (done.answer == TS11_DONE)
		try_back();
	long_given[given]++;
	given = (given + 1) % LONG_WAYS;
	put_state_back(&kept);
}

static void host_store(void)
{
	static uint8_t bytes[70000];
	size_t length = one_in(20) ? below(sizeof bytes) : one_in(3) ? below(held.memory + 2) : below(40);
	if (length > sizeof bytes)
		length = sizeof bytes;
	size_t address = below(held.memory + 2);
	if (length <= held.memory && !one_in(4))
		address = below(held.memory - length + 1);
	fill_random(bytes, length < 64 ? length : 64);
	try_store(odd_length(address), bytes, length);
}

static void put_journal(size_t at, uint32_t value)
{
	in_session = false;
	for (int i = 0; i < 2; i++)
		put_number(worlds[i].journal + at, value);
}

/* A step back with a number of the newest entry's head made up, which is put right again where the entry stays. */
static void back_spoiled(size_t head)
{
	size_t at = head + 4 * below(HEAD_NUMBERS);
	uint32_t kept = number_at(worlds[0].journal + at);
	put_journal(at, one_in(2) ? odd_number() : kept + (uint32_t)below(9) - 4);
	if (try_back().answer != TS11_DONE)
		put_journal(at, kept);
}

static void step_back(void)
{
	uint32_t used = state_at(TS11_AT_USED);
	if (used >= TS11_ENTRY_HEAD && used <= held.journal && one_in(4))
		back_spoiled(used - HEAD);
	for (size_t n = below(7); n != 0; n--)
		if (try_back().answer != TS11_DONE)
			return;
}

/* A mount is handed the lengths of memory and journal alone, so those may be anything. */
static void mount(void)
{
	struct lengths kept = handed;
	size_t end = one_in(6) ? below(built_end + 2) : built_end;
	if (end > BUILT_MOST)
		end = below(BUILT_MOST);
	handed.memory = odd_length(handed.memory);
	handed.journal = odd_length(handed.journal);
	end = odd_length(end);
	if (end <= held.reel / TS11_BLOCK && end > BUILT_MOST)
		end = BUILT_MOST;
	try_mount(end, !one_in(6), one_in(6));
	handed = kept;
}

/* Files and blocks that are there, just past the last, or none. */
static void look_up(void)
{
	size_t objects = state_at(TS11_AT_OBJECTS), end = state_at(TS11_AT_END);
	if (one_in(2))
		try_find_file(odd_length(below(objects < BUILT_MOST ? objects / 4 + 2 : BUILT_MOST)));
	else
		try_find_block(odd_length(one_in(8) ? end : below(end + 2)));
}

static void any_call(void)
{
	switch (below(9)) {
	case 0: mount(); break;
	case 1: try_tsdb((uint16_t)next_random()); break;
	case 2: try_tssr((uint16_t)next_random()); break;
	case 3: try_operate(one_in(2), one_in(2)); break;
	case 4: try_register(one_in(2)); break;
	case 5: host_store(); break;
	case 6: try_advance(); break;
	case 7: look_up(); break;
	default: try_back(); break;
	}
}

static size_t wrong_length(size_t length, size_t limit)
{
	switch (below(5)) {
	case 0: length += 1 + below(2); break;
	case 1: length -= length < 2 ? 0 : 1 + below(2); break;
	case 2: length += TS11_BLOCK; break;
	case 3: length -= length < TS11_BLOCK ? length : TS11_BLOCK; break;
	default: length = below(limit); break;
	}
	return length < limit ? length : limit;
}

/* A call that is handed a table of another length: any will do that has the places. */
static void with_table_of(size_t length)
{
	handed.table = length;
	any_call();
	handed.table = held.table;
}

/* About as many places as there are objects. */
static size_t close_length(void)
{
	size_t objects = state_at(TS11_AT_OBJECTS);
	if (objects > TS11_REEL_BLOCKS_MAX)
		objects = TS11_REEL_BLOCKS_MAX;
	return (objects < 2 ? 0 : objects - 2) * TS11_PLACE_BYTES + below(5 * TS11_PLACE_BYTES);
}

/* A call with lengths that are not all those of the buffers. */
static void with_wrong_lengths(void)
{
	if (one_in(2))
		handed.memory = wrong_length(held.memory, TS11_MEMORY_MAX + SLACK);
	if (one_in(2))
		handed.reel = wrong_length(held.reel, TS11_REEL_BLOCKS_MAX * TS11_BLOCK + SLACK);
	if (one_in(2))
		handed.journal = wrong_length(held.journal, TS11_JOURNAL_MAX + SLACK);
	if (one_in(4))
		with_table_of(wrong_length(held.table, TABLE_ROOM));
	else
		any_call();
	handed = held;
}

/* A call on a state with a number made up, or all of them. */
static void with_spoiled_state(void)
{
	in_session = false;
	if (one_in(8)) {
		fill_random(worlds[0].state.bytes, TS11_STATE_BYTES);
		worlds[1].state = worlds[0].state;
	} else {
		size_t at = 4 * below(32);
		put_state(at, one_in(2) ? odd_number() : state_at(at) + (uint32_t)below(5) - 2);
	}
	any_call();
}

/* Where a turn left a state that would have all further calls refused, the one before is put back. */
static void settle(const ts11_state *kept)
{
	if (state_at(TS11_AT_MEMORY) != held.memory || state_at(TS11_AT_BLOCKS) != held.reel / TS11_BLOCK ||
	    state_at(TS11_AT_JOURNAL) != held.journal || state_at(TS11_AT_OBJECTS) > held.table / TS11_PLACE_BYTES ||
	    try_register(one_in(2)).answer != TS11_DONE)
		put_state_back(kept);
}

static void odd_turn(void)
{
	ts11_state kept = worlds[0].state;
	switch (below(10)) {
	case 0: host_store(); break;
	case 1: try_operate(one_in(3), one_in(2)); break;
	case 2: case 3: step_back(); break;
	case 4: with_wrong_lengths(); break;
	case 5: with_spoiled_state(); break;
	case 6: try_advance(); break;
	case 7: with_table_of(close_length()); break;
	case 8: look_up(); break;
	default: any_call(); break;
	}
	settle(&kept);
}

static void take_turn(void)
{
	if (state_at(TS11_AT_NBA) == 1 && one_in(2))
		give_command(TS11_WRITE_CHARACTERISTICS | TS11_ACK | TS11_CVC);
	if (state_at(TS11_AT_ONLINE) == 0 && one_in(3))
		try_operate(TS11_SWITCH_ONLINE, true);
	if (held.journal - state_at(TS11_AT_USED) < 2 * TS11_ENTRY_HEAD && one_in(2))
		step_back();
	if (one_in(60))
		damage();
	if (one_in(60))
		make_up_table();
	if (one_in(30))
		give_overhang();
	if (long_round && one_in(4))
		give_long();
	if (one_in(3))
		odd_turn();
	else
		give_command(pick_header());
}

/* A reel that is well formed, as it is built; where the table is too small, with a larger one. */
static void mount_whole(void)
{
	size_t needed = built_objects * TS11_PLACE_BYTES;
	bool small = held.table < needed;
	if (try_mount(built_end, !one_in(6), one_in(6)).answer != (small ? TS11_SMALL_TABLE : TS11_DONE))
		differ("mount", "%zu objects, a table of %zu bytes: another answer", built_objects, held.table);
	if (small) {
		held.table = handed.table = needed;
		memcpy(worlds[1].table, worlds[0].table, held.table);
		try_mount(built_end, !one_in(6), one_in(6));
	}
}

static void run_round(void)
{
	long_round = one_in(LONG_ROUNDS);
	held.memory = pick_memory();
	held.reel = pick_blocks() * TS11_BLOCK;
	held.journal = pick_journal();
	handed = held;
	round_calls = 0;
	fill_random(worlds[0].memory, held.memory);
	memcpy(worlds[1].memory, worlds[0].memory, held.memory);
	build_reel();
	held.table = handed.table = pick_table();
	fill_random(worlds[0].table, held.table);
	memcpy(worlds[1].table, worlds[0].table, held.table);
	in_session = false;
	if (built_from != 0 || one_in(3))
		make_up_state();
	else
		mount_whole();
	if (one_in(4))
		damage();
	for (size_t turns = 10 + below(30); turns != 0; turns--)
		take_turn();
	alike_whole("end of round");
}

/* ---- the whole --------------------------------------------------------------------------------------------------- */

static void make_worlds(void)
{
	for (int i = 0; i < 2; i++) {
		worlds[i].memory = calloc(TS11_MEMORY_MAX + SLACK, 1);
		worlds[i].reel = calloc((size_t)TS11_REEL_BLOCKS_MAX * TS11_BLOCK + SLACK, 1);
		worlds[i].table = calloc(TABLE_ROOM, 1);
		worlds[i].journal = calloc(TS11_JOURNAL_MAX + SLACK, 1);
		table_before = calloc(TABLE_ROOM, 1);
		if (worlds[i].memory == NULL || worlds[i].reel == NULL || worlds[i].table == NULL || worlds[i].journal == NULL ||
		    table_before == NULL) {
			fprintf(stderr, "compare: no room for the buffers\n");
			exit(1);
		}
	}
}

/* Something that must have occurred, for both to be alike to mean anything. */
static bool missed(const char *what, unsigned number, size_t times)
{
	if (times == 0)
		fprintf(stderr, "compare: %s %x never occurred\n", what, number);
	return times == 0;
}

static bool ways_missed(const char *what, const size_t *given, size_t ways)
{
	size_t times = 0;
	for (size_t n = 0; n < ways; n++)
		times += given[n] == 0;
	if (times != 0)
		fprintf(stderr, "compare: %zu of %zu ways of %s never occurred\n", times, ways, what);
	return times != 0;
}

static bool fault_missed(void)
{
	bool any = false;
	for (int i = 0; i < MEETINGS; i++)
		for (int k = 0; k < FAULTS; k++)
			if (met_at_fault[i][k] == 0) {
				fprintf(stderr, "compare: %s: fault %c%s never occurred\n", meeting_names[i], faults[k],
				        k == OUT_OF_PLACE ? ", a sound block out of place," : "");
				any = true;
			}
	return any;
}

static bool anything_missed(void)
{
	bool any = missed("idle advance", 0, idles) | fault_missed();
	any |= ways_missed("a packet past memory", overhung, OVERHANG_WAYS);
	any |= ways_missed("a long record", long_given, LONG_WAYS);
	for (unsigned i = 0; i < TABLE_WAYS; i++)
		any |= missed("way of the table", i, table_ways[i]);
	any |= missed("a table worked out afresh", 0, worked_out);
	any |= missed("step back", 0, undone);
	for (unsigned i = TS11_BAD_STATE; i <= TS11_SMALL_TABLE; i++)
		any |= i != 10 && missed("refusal", i, answers[i]);
	for (unsigned i = 0; i <= TS11_CLASS_LOST; i++)
		any |= i != TS11_CLASS_RECOVERABLE && missed("class", i, classes[i]);
	for (unsigned i = 0; i < COMMANDS; i++)
		any |= missed("command", commands[i], carried_out[i]);
	for (unsigned bit = 1; bit < 0x10000; bit <<= 1)
		any |= missed("XST0 bit", bit, xst0_seen & bit);
	any |= missed("XST3 bit", TS11_XST3_OPI, xst3_seen & TS11_XST3_OPI);
	any |= missed("XST3 bit", TS11_XST3_REV, xst3_seen & TS11_XST3_REV);
	any |= missed("XST3 bit", TS11_XST3_RIB, xst3_seen & TS11_XST3_RIB);
	return any;
}

int main(int argc, char **argv)
{
	size_t rounds = argc > 1 ? strtoull(argv[1], NULL, 0) : ROUNDS;
	seed = argc > 2 ? strtoull(argv[2], NULL, 0) : SEED;
	random_bits = seed * 0x9E3779B97F4A7C15u | 1;
	make_worlds();
	for (round_number = 0; round_number < rounds; round_number++)
		run_round();
	if (anything_missed())
		return 1;
	printf("compare: %zu calls, both alike (%zu steps back, %zu idle; refusals 1 to 9 and 11:", calls_made, undone, idles);
	for (size_t i = TS11_BAD_STATE; i <= TS11_SMALL_TABLE; i++)
		if (i != 10)
			printf(" %zu", answers[i]);
	printf("; the table afresh %zu, small, cut, mended, found:", worked_out);
	for (size_t i = 0; i < TABLE_WAYS; i++)
		printf(" %zu", table_ways[i]);
	printf("; classes 0 to 6:");
	for (size_t i = 0; i <= TS11_CLASS_LOST; i++)
		printf(" %zu", classes[i]);
	printf("; faults K N I P C and out of place");
	for (int i = 0; i < MEETINGS; i++) {
		printf(", %s:", meeting_names[i]);
		for (int k = 0; k < FAULTS; k++)
			printf(" %zu", met_at_fault[i][k]);
	}
	printf(")\n");
	return 0;
}
