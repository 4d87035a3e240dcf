/*
 * The library against plain C: the same operations on the same inputs, in one run.
 *
 * Timed, each line runs both sides in turn for some rounds, and keeps the quickest of each side's times, so that what else the machine does
 * falls out. Counted, each line marks where a run of operations begins and ends, and the emulator's plugin insn.c tells how many
 * instructions lie between; a third side that does nothing has the harness's own share. A side's state is put back between two operations
 * by copying its 128 bytes, so every operation starts from the same place.
 */
#define _DEFAULT_SOURCE /* syscall */
#include <stdio.h>
#include <stdlib.h>
#include <string.h>
#include <time.h>

#include "mark.h"
#include "plain.h"
#include "ts11.h"

static int rounds = 9;
static bool counting = false;
#define PACKET 0x100  /* where the command packet stands */
#define MESSAGE 0x200 /* the message buffer */
#define DATA 0x1000   /* the data buffer */

/* One implementation of the calls that are measured. */
#define MEMORY_AND_REEL ts11_state *, uint8_t *, size_t, uint8_t *, size_t
#define STEP MEMORY_AND_REEL, const uint8_t *, size_t, uint8_t *, size_t
typedef struct side {
	const char *name;
	ts11_answer (*mount)(ts11_state *, size_t, const uint8_t *, size_t, uint8_t *, size_t, size_t, size_t, bool, bool,
	                     size_t *, uint8_t *);
	ts11_answer (*write_tsdb)(STEP, uint16_t);
	ts11_answer (*write_tssr)(STEP, uint16_t);
	ts11_answer (*operate)(STEP, bool, bool);
	ts11_answer (*host_store)(ts11_state *, uint8_t *, size_t, const uint8_t *, size_t, const uint8_t *, size_t,
	                          uint8_t *, size_t, size_t, const uint8_t *, size_t);
	ts11_answer (*advance)(MEMORY_AND_REEL, uint8_t *, size_t, uint8_t *, size_t, bool *, bool *, size_t *, uint8_t *);
	ts11_answer (*step_back)(MEMORY_AND_REEL, uint8_t *, size_t, const uint8_t *, size_t);
	ts11_answer (*find_file)(const ts11_state *, const uint8_t *, size_t, size_t, bool *, size_t *);
	ts11_answer (*find_block)(const ts11_state *, const uint8_t *, size_t, size_t, bool *, size_t *);
} side;

static const side LIBRARY = { "library",      ts11_mount,      ts11_write_tsdb, ts11_write_tssr, ts11_operate,
	                      ts11_host_store, ts11_advance,    ts11_step_back,  ts11_find_file,  ts11_find_block };
static const side PLAIN = { "plain C",        plain_mount,      plain_write_tsdb, plain_write_tssr, plain_operate,
	                    plain_host_store, plain_advance,    plain_step_back,  plain_find_file,  plain_find_block };

/* A side that does nothing: what a line counts for it is the harness's own. */
#define UNUSED __attribute__((unused))
#define STATE_AND_MEMORY UNUSED ts11_state *s, UNUSED uint8_t *m, UNUSED size_t ml
#define REEL UNUSED uint8_t *r, UNUSED size_t rl
#define TABLE UNUSED uint8_t *t, UNUSED size_t tl
#define JOURNAL UNUSED uint8_t *j, UNUSED size_t jl
static ts11_answer no_mount(UNUSED ts11_state *s, UNUSED size_t m, UNUSED const uint8_t *r, UNUSED size_t rl, TABLE,
                            UNUSED size_t j, UNUSED size_t e, UNUSED bool on, UNUSED bool lock, UNUSED size_t *k,
                            UNUSED uint8_t *f)
{
	return TS11_DONE;
}

static ts11_answer no_write(STATE_AND_MEMORY, REEL, const TABLE, JOURNAL, UNUSED uint16_t w)
{
	return TS11_DONE;
}

static ts11_answer no_act(STATE_AND_MEMORY, REEL, const TABLE, JOURNAL, UNUSED bool which, UNUSED bool on)
{
	return TS11_DONE;
}

static ts11_answer no_store(STATE_AND_MEMORY, const REEL, const TABLE, JOURNAL, UNUSED size_t at,
                            UNUSED const uint8_t *b, UNUSED size_t n)
{
	return TS11_DONE;
}

static bool no_step = true; /* what an advance that does nothing tells */

static ts11_answer no_advance(STATE_AND_MEMORY, REEL, TABLE, JOURNAL, bool *stepped, UNUSED bool *interrupt,
                              UNUSED size_t *k, UNUSED uint8_t *f)
{
	*stepped = no_step;
	return TS11_DONE;
}

static ts11_answer no_back(STATE_AND_MEMORY, REEL, TABLE, const JOURNAL)
{
	return TS11_DONE;
}

static ts11_answer no_find(UNUSED const ts11_state *s, const TABLE, UNUSED size_t n, bool *found, size_t *place)
{
	*found = true;
	*place = 0;
	return TS11_DONE;
}

static const side NOTHING = { "nothing", no_mount,   no_write, no_write, no_act,
	                      no_store,  no_advance, no_back,  no_find,  no_find };

/* A host: a state and its four buffers, and the place that it last looked up. */
typedef struct host {
	const side *with;
	ts11_state state;
	uint8_t *memory, *reel, *table, *journal;
	size_t memory_length, reel_length, table_length, journal_length;
	size_t place;
} host;

/* The buffers as steps take them. */
#define BUFFERS(h) \
	(h)->memory, (h)->memory_length, (h)->reel, (h)->reel_length, (h)->table, (h)->table_length, (h)->journal, \
	        (h)->journal_length

static void wrong(const char *what, const host *h, size_t answer)
{
	printf("bench: %s: %s answered %zu\n", what, h->with->name, answer);
	exit(1);
}

static void *room(size_t n)
{
	void *p = calloc(n, 1);
	if (p == NULL) {
		printf("bench: no room for %zu bytes\n", n);
		exit(1);
	}
	return p;
}

static host made(const side *with, size_t memory, size_t blocks, size_t journal)
{
	host h = { .with = with };
	h.memory_length = memory;
	h.reel_length = blocks * TS11_BLOCK;
	h.table_length = blocks * TS11_PLACE_BYTES;
	h.journal_length = journal;
	h.memory = room(h.memory_length);
	h.reel = room(h.reel_length);
	h.table = room(h.table_length);
	h.journal = room(h.journal_length + 1);
	return h;
}

static void freed(host *h)
{
	free(h->memory);
	free(h->reel);
	free(h->table);
	free(h->journal);
}

static void mount(host *h, size_t end)
{
	size_t block;
	uint8_t fault;
	size_t a = h->with->mount(&h->state, h->memory_length, h->reel, h->reel_length, h->table, h->table_length,
	                          h->journal_length, end, true, false, &block, &fault);
	if (a != TS11_DONE)
		wrong("mount", h, a);
}

static void word(host *h, size_t at, size_t w)
{
	h->memory[at] = w & 255;
	h->memory[at + 1] = w >> 8 & 255;
}

static void packet(host *h, unsigned header, size_t w1, size_t w2, size_t w3)
{
	word(h, PACKET, header);
	word(h, PACKET + 2, w1);
	word(h, PACKET + 4, w2);
	word(h, PACKET + 6, w3);
}

static void tsdb(host *h)
{
	size_t a = h->with->write_tsdb(&h->state, BUFFERS(h), TS11_TSDB(PACKET));
	if (a != TS11_DONE)
		wrong("TSDB write", h, a);
}

static void tssr(host *h)
{
	size_t a = h->with->write_tssr(&h->state, BUFFERS(h), 0);
	if (a != TS11_DONE)
		wrong("TSSR write", h, a);
}

static void operate(host *h, bool which, bool on)
{
	size_t a = h->with->operate(&h->state, BUFFERS(h), which, on);
	if (a != TS11_DONE)
		wrong("operator act", h, a);
}

static void advance_to(host *h, bool step)
{
	bool stepped, interrupt;
	size_t block;
	uint8_t fault;
	size_t a = h->with->advance(&h->state, BUFFERS(h), &stepped, &interrupt, &block, &fault);
	if (a != TS11_DONE || stepped != step)
		wrong("advance", h, a);
}

static void advance(host *h)
{
	advance_to(h, true);
}

static void back(host *h)
{
	size_t a = h->with->step_back(&h->state, BUFFERS(h));
	if (a != TS11_DONE)
		wrong("step back", h, a);
}

static void store(host *h, size_t n)
{
	static const uint8_t bytes[TS11_HOST_STORE_MAX];
	size_t a = h->with->host_store(&h->state, BUFFERS(h), DATA, bytes, n);
	if (a != TS11_DONE)
		wrong("host store", h, a);
}

static void find_file(host *h, size_t file)
{
	bool found;
	size_t a = h->with->find_file(&h->state, h->table, h->table_length, file, &found, &h->place);
	if (a != TS11_DONE || !found)
		wrong("a file's look-up", h, a);
}

static void find_block(host *h, size_t block)
{
	bool found;
	size_t a = h->with->find_block(&h->state, h->table, h->table_length, block, &found, &h->place);
	if (a != TS11_DONE || !found)
		wrong("a block's look-up", h, a);
}

/* A command to its end; the class must be the one that is expected. */
static void run(host *h, unsigned header, size_t w1, size_t w2, size_t w3, unsigned class)
{
	packet(h, header | TS11_ACK | TS11_CVC, w1, w2, w3);
	tsdb(h);
	advance(h);
	if (ts11_state_number(&h->state, TS11_AT_CLASS) != class)
		wrong("a command's class", h, ts11_state_number(&h->state, TS11_AT_CLASS));
}

static void give_message_buffer(host *h)
{
	word(h, DATA, MESSAGE);
	word(h, DATA + 2, 0);
	word(h, DATA + 4, TS11_MESSAGE_BYTES);
	word(h, DATA + 6, 0);
	run(h, TS11_WRITE_CHARACTERISTICS, DATA, 0, 8, TS11_CLASS_NORMAL);
}

static void fill_data(host *h, size_t n)
{
	for (size_t i = 0; i < n; i++)
		h->memory[DATA + i] = (uint8_t)(i * 7 + (i >> 8) * 13 + 5);
}

/* Forgets the journal: the steps so far cannot be undone any more. */
static void forget(host *h)
{
	memset(h->state.bytes + TS11_AT_USED, 0, 4);
}

/* One record behind the others. At or past the EOT marker that is a tape status alert. */
static void write_record(host *h, size_t n)
{
	size_t end = ts11_state_number(&h->state, TS11_AT_POSITION) + (n + TS11_BLOCK_DATA - 1) / TS11_BLOCK_DATA;
	bool eot = end + TS11_EOT_MARGIN >= h->reel_length / TS11_BLOCK;
	run(h, TS11_WRITE, DATA, 0, n, eot ? TS11_CLASS_STATUS : TS11_CLASS_NORMAL);
}

static void write_records(host *h, size_t count, size_t n)
{
	fill_data(h, n);
	for (size_t i = 0; i < count; i++) {
		write_record(h, n);
		forget(h);
	}
}

static void rewind_tape(host *h)
{
	run(h, TS11_REWIND, 0, 0, 0, TS11_CLASS_NORMAL);
	forget(h);
}

/* ---- what is measured ---- */

/* An operation from a state that stands in `from`, done `times` times. */
typedef void operation(host *h, const ts11_state *from, size_t times);

static void many_mounts(host *h, const ts11_state *from, size_t times)
{
	size_t end = ts11_state_number(from, TS11_AT_END);
	for (size_t i = 0; i < times; i++)
		mount(h, end);
}

static void many_advances(host *h, const ts11_state *from, size_t times)
{
	for (size_t i = 0; i < times; i++) {
		h->state = *from;
		advance(h);
	}
}

static void many_idles(host *h, const ts11_state *from, size_t times)
{
	for (size_t i = 0; i < times; i++) {
		h->state = *from;
		advance_to(h, false);
	}
}

static void many_tsdbs(host *h, const ts11_state *from, size_t times)
{
	for (size_t i = 0; i < times; i++) {
		h->state = *from;
		tsdb(h);
	}
}

static void many_tssrs(host *h, const ts11_state *from, size_t times)
{
	for (size_t i = 0; i < times; i++) {
		h->state = *from;
		tssr(h);
	}
}

/* The write lock, set: a switch that stood the other way. */
static void many_acts(host *h, const ts11_state *from, size_t times)
{
	for (size_t i = 0; i < times; i++) {
		h->state = *from;
		operate(h, true, true);
	}
}

static void many_stores(host *h, const ts11_state *from, size_t times)
{
	for (size_t i = 0; i < times; i++) {
		h->state = *from;
		store(h, 64);
	}
}

static void many_writes_and_backs(host *h, const ts11_state *from, size_t times)
{
	for (size_t i = 0; i < times; i++) {
		h->state = *from;
		tsdb(h);
		back(h);
	}
}

static void many_advances_and_backs(host *h, const ts11_state *from, size_t times)
{
	for (size_t i = 0; i < times; i++) {
		h->state = *from;
		advance(h);
		back(h);
	}
}

static void many_stores_and_backs(host *h, const ts11_state *from, size_t times)
{
	for (size_t i = 0; i < times; i++) {
		h->state = *from;
		store(h, 64);
		back(h);
	}
}

/* Only the step back: `from` stands after the step, and the journal's entry below it stays. */
static void many_backs(host *h, const ts11_state *from, size_t times)
{
	for (size_t i = 0; i < times; i++) {
		h->state = *from;
		back(h);
	}
}

/* The reel of the look-ups: so many files, each a few records and a mark; the file that is sought, and a block of it. */
enum { FILES = 600, FILE_RECORDS = 4, SOUGHT_FILE = 500, SOUGHT_BLOCK = SOUGHT_FILE * (FILE_RECORDS + 1) + 2 };

static void many_files(host *h, const ts11_state *from, size_t times)
{
	(void)from;
	for (size_t i = 0; i < times; i++)
		find_file(h, SOUGHT_FILE);
}

static void many_blocks(host *h, const ts11_state *from, size_t times)
{
	(void)from;
	for (size_t i = 0; i < times; i++)
		find_block(h, SOUGHT_BLOCK);
}

static double now(void)
{
	struct timespec t;
	clock_gettime(CLOCK_MONOTONIC, &t);
	return (double)t.tv_sec + (double)t.tv_nsec * 1e-9;
}

static double timed(operation *op, host *h, const ts11_state *from, size_t times)
{
	double t = now();
	op(h, from, times);
	return (now() - t) / (double)times;
}

/* Seconds for one operation, the least of all rounds, for each side in turn. */
static void measure(operation *op, host h[2], const ts11_state from[2], size_t times, double best[2])
{
	best[0] = best[1] = 1e9;
	for (int round = 0; round < rounds; round++)
		for (int i = 0; i < 2; i++) {
			double t = timed(op, &h[i], &from[i], times);
			if (t < best[i])
				best[i] = t;
		}
}

/* Both sides have done the same, if they stand alike. */
static void same(const char *line, const host h[2])
{
	if (memcmp(&h[0].state, &h[1].state, sizeof h[0].state) != 0 ||
	    memcmp(h[0].memory, h[1].memory, h[0].memory_length) != 0 ||
	    memcmp(h[0].reel, h[1].reel, h[0].reel_length) != 0 ||
	    memcmp(h[0].table, h[1].table, h[0].table_length) != 0 || h[0].place != h[1].place) {
		printf("bench: %s: the two sides differ\n", line);
		exit(1);
	}
}

/* The same line counted: marks around each side's run, the side that does nothing first. Its name goes to the standard output. */
static void counted(const char *line, operation *op, host h[2], const ts11_state from[2], size_t times)
{
	host none = h[0];
	none.with = &NOTHING;
	mark();
	op(&none, &from[0], times);
	for (int i = 0; i < 2; i++) {
		mark();
		op(&h[i], &from[i], times);
	}
	mark();
	same(line, h);
	printf("%zu %s\n", times, line);
}

/* Bytes are those that an operation must look at or move; 0 where calls are what counts. */
static void told(const char *line, const double best[2], size_t bytes)
{
	printf("| %-42s |", line);
	for (int i = 0; i < 2; i++) {
		if (bytes != 0)
			printf(" %9.2f us %8.1f MB/s |", best[i] * 1e6, (double)bytes / best[i] * 1e-6);
		else
			printf(" %9.2f us %8.0f k/s  |", best[i] * 1e6, 1e-3 / best[i]);
	}
	printf(" %5.2f |\n", best[0] / best[1]);
	fflush(stdout);
}

/* One line of the table, timed or counted. Both sides then stand where they stood before it. */
static void report(const char *line, operation *op, host h[2], size_t times, size_t bytes)
{
	const ts11_state from[2] = { h[0].state, h[1].state };
	if (counting) {
		counted(line, op, h, from, times < COUNTED ? times : COUNTED);
	} else {
		double best[2];
		measure(op, h, from, times, best);
		same(line, h);
		told(line, best, bytes);
	}
	for (int i = 0; i < 2; i++)
		h[i].state = from[i];
}

static void both(host h[2], size_t memory, size_t blocks, size_t journal)
{
	h[0] = made(&LIBRARY, memory, blocks, journal);
	h[1] = made(&PLAIN, memory, blocks, journal);
	for (int i = 0; i < 2; i++) {
		mount(&h[i], 0);
		give_message_buffer(&h[i]);
		forget(&h[i]);
	}
}

static void both_freed(host h[2])
{
	freed(&h[0]);
	freed(&h[1]);
}

/* As many records as a reel has room for; of the shorter ones two less, so that their line compares with older counts. */
static void bench_mount(void)
{
	static const struct {
		size_t bytes, records;
		const char *line;
	} full[] = { { 16384, 1983, "mount, full reel of 16,384-byte records" },
		     { TS11_RECORD_MAX, 500, "mount, full reel of 65,535-byte records" } };
	for (size_t k = 0; k < sizeof full / sizeof full[0]; k++) {
		host h[2];
		both(h, TS11_MEMORY_MAX, TS11_REEL_BLOCKS_MAX, 1 << 20);
		for (int i = 0; i < 2; i++)
			write_records(&h[i], full[k].records, full[k].bytes);
		size_t end = ts11_state_number(&h[0].state, TS11_AT_END);
		report(full[k].line, many_mounts, h, 1, end * TS11_BLOCK);
		both_freed(h);
	}
}

/* A reel that is full of marks: no reel has more objects. */
static void bench_mount_marks(void)
{
	host h[2];
	both(h, TS11_MEMORY_MAX, TS11_REEL_BLOCKS_MAX, 1 << 20);
	for (int i = 0; i < 2; i++) {
		run(&h[i], TS11_WRITE_MARK, 0, 0, 0, TS11_CLASS_NORMAL);
		for (size_t k = 1; k < TS11_REEL_BLOCKS_MAX; k++)
			memcpy(h[i].reel + k * TS11_BLOCK, h[i].reel, TS11_BLOCK);
		mount(&h[i], TS11_REEL_BLOCKS_MAX);
	}
	report("mount, reel of 65,536 marks", many_mounts, h, 1, h[0].reel_length);
	both_freed(h);
}

static void bench_space(void)
{
	host h[2];
	both(h, TS11_MEMORY_MAX, 16384, 65536);
	for (int i = 0; i < 2; i++) {
		write_records(&h[i], 10000, 80);
		rewind_tape(&h[i]);
		packet(&h[i], TS11_SPACE_RECORDS | TS11_ACK, 10000, 0, 0);
		tsdb(&h[i]);
	}
	report("space over 10,000 records of 80 bytes", many_advances, h, 4, (size_t)10000 * TS11_BLOCK);
	both_freed(h);
}

/* One file of many: found as a driver finds it, from block 0, and by the table. */
static void bench_find(void)
{
	host h[2];
	both(h, TS11_MEMORY_MAX, 16384, 65536);
	for (int i = 0; i < 2; i++) {
		for (size_t k = 0; k < FILES; k++) {
			write_records(&h[i], FILE_RECORDS, 80);
			run(&h[i], TS11_WRITE_MARK, 0, 0, 0, TS11_CLASS_NORMAL);
			forget(&h[i]);
		}
		rewind_tape(&h[i]);
		packet(&h[i], TS11_SKIP_MARKS | TS11_ACK, SOUGHT_FILE, 0, 0);
		tsdb(&h[i]);
	}
	report("file 500 of 600, by skipping marks", many_advances, h, 20, SOUGHT_FILE * (FILE_RECORDS + 1) * TS11_BLOCK);
	report("file 500 of 600, by the table", many_files, h, 50000, 0);
	report("block 2,502 of 3,000, by the table", many_blocks, h, 50000, 0);
	both_freed(h);
}

/* A write behind many objects: where the table is cut is looked for among them all. */
static void bench_write_behind(void)
{
	host h[2];
	both(h, TS11_MEMORY_MAX, 16384, 65536);
	for (int i = 0; i < 2; i++) {
		write_records(&h[i], 10000, 80);
		run(&h[i], TS11_SPACE_RECORDS_REVERSE, 10, 0, 0, TS11_CLASS_NORMAL);
		forget(&h[i]);
		packet(&h[i], TS11_WRITE | TS11_ACK, DATA, 0, 80);
		tsdb(&h[i]);
	}
	report("write, 80 bytes behind 9,990 records", many_advances, h, 20000, 80);
	report("write and its step back, behind 9,990", many_advances_and_backs, h, 20000, 80);
	both_freed(h);
}

static const struct {
	size_t bytes, times;
} SIZES[] = { { 80, 20000 }, { 512, 10000 }, { 8192, 1500 }, { 16384, 800 }, { TS11_RECORD_MAX, 200 } };

static void bench_transfer(const char *what, unsigned command, operation *op)
{
	unsigned code = command & ~(unsigned)TS11_SWB;
	for (size_t k = 0; k < sizeof SIZES / sizeof SIZES[0]; k++) {
		host h[2];
		size_t n = SIZES[k].bytes;
		char line[64];
		both(h, TS11_MEMORY_MAX, 4096, 1 << 20);
		for (int i = 0; i < 2; i++) {
			write_records(&h[i], 1, n);
			if (code == TS11_READ_NEXT)
				rewind_tape(&h[i]);
			packet(&h[i], command | TS11_ACK, DATA, 0, n);
			tsdb(&h[i]);
		}
		snprintf(line, sizeof line, "%s, %zu bytes", what, n);
		report(line, op, h, SIZES[k].times, n);
		both_freed(h);
	}
}

static void bench_steps(void)
{
	host h[2];
	both(h, TS11_MEMORY_MAX, 4096, 1 << 20);
	report("TSDB write", many_tsdbs, h, 50000, 0);
	report("TSDB write and its step back", many_writes_and_backs, h, 50000, 0);
	report("TSSR write", many_tssrs, h, 50000, 0);
	report("operator act", many_acts, h, 50000, 0);
	no_step = false;
	report("idle advance", many_idles, h, 50000, 0);
	no_step = true;
	report("host store of 64 bytes", many_stores, h, 50000, 0);
	report("host store of 64 bytes and its step back", many_stores_and_backs, h, 50000, 0);
	for (int i = 0; i < 2; i++) {
		packet(&h[i], TS11_GET_STATUS | TS11_ACK, 0, 0, 0);
		tsdb(&h[i]);
	}
	report("get status", many_advances, h, 50000, 0);
	report("get status and its step back", many_advances_and_backs, h, 50000, 0);
	both_freed(h);
}

/* The same step back at three sizes of the buffers: its time is that of the bytes it brings back, not theirs. */
static void bench_back(void)
{
	static const struct {
		size_t memory, blocks, journal;
		const char *name;
	} at[] = { { 16384, 128, 65536, "small" },
		   { 65536, 4096, 1 << 20, "middle" },
		   { TS11_MEMORY_MAX, TS11_REEL_BLOCKS_MAX, TS11_JOURNAL_MAX, "full size" } };
	for (size_t k = 0; k < sizeof at / sizeof at[0]; k++) {
		host h[2];
		char line[64];
		both(h, at[k].memory, at[k].blocks, at[k].journal);
		for (int i = 0; i < 2; i++) {
			fill_data(&h[i], 512);
			write_record(&h[i], 512);
		}
		snprintf(line, sizeof line, "step back of a 512-byte write, %s", at[k].name);
		report(line, many_backs, h, 20000, 0);
		both_freed(h);
	}
}

/* `bench ROUNDS`: fewer rounds are quicker and less exact. `bench count`: marks for the plugin, and each line's name and times. */
int main(int argc, char **argv)
{
	counting = argc > 1 && strcmp(argv[1], "count") == 0;
	if (argc > 1 && !counting)
		rounds = atoi(argv[1]);
	if (!counting) {
		printf("| %-42s | %-25s | %-25s | ratio |\n", "operation", "library", "plain C");
		printf("|---|---|---|---|\n");
	}
	bench_mount();
	bench_mount_marks();
	bench_space();
	bench_find();
	bench_transfer("read", TS11_READ_NEXT, many_advances);
	bench_transfer("write", TS11_WRITE, many_advances);
	bench_transfer("swapped read", TS11_READ_NEXT | TS11_SWB, many_advances);
	bench_transfer("swapped write", TS11_WRITE | TS11_SWB, many_advances);
	bench_transfer("write and its step back", TS11_WRITE, many_advances_and_backs);
	bench_transfer("read and its step back", TS11_READ_NEXT, many_advances_and_backs);
	bench_write_behind();
	bench_steps();
	bench_back();
	return 0;
}
