/*
 * limits: lengths and numbers at every limit and just outside it, blocks with every fault, tables of every small length
 * and of any bytes, a reel of as many objects as it can have, and one session with memory, reel and journal of full
 * size. Every buffer is an allocation of exactly its length. A refused call must have changed nothing.
 * Compile with -I host/include and link with libts11.a.
 */
#include "driver.h"

#define TWO_32 ((size_t)1 << 32)
#define REEL_MAX ((size_t)TS11_REEL_BLOCKS_MAX * TS11_BLOCK)

enum { READY = TS11_XST0_ONL | TS11_XST0_PED };

/* The bytes of the host's stores. */
static uint8_t host[TS11_HOST_STORE_MAX + 1];

/* ---- mount ------------------------------------------------------------------------------------------------------- */

/* What a mount is handed besides the reel's bytes. */
struct lengths {
	size_t memory, reel, journal, recorded_end;
};

/* Fills the reel with gaps, the shortest objects. */
static void lay_gaps(uint8_t *reel, size_t blocks)
{
	for (size_t at = 0; at < blocks;)
		at = lay_gap(reel, at);
}

static void expect_mounted(const ts11_state *s, const struct lengths *l)
{
	EXPECT("position", ts11_state_number(s, TS11_AT_POSITION), 0);
	EXPECT("recorded end", ts11_state_number(s, TS11_AT_END), l->recorded_end);
	EXPECT("memory", ts11_state_number(s, TS11_AT_MEMORY), l->memory);
	EXPECT("blocks", ts11_state_number(s, TS11_AT_BLOCKS), l->reel / TS11_BLOCK);
	EXPECT("journal", ts11_state_number(s, TS11_AT_JOURNAL), l->journal);
	EXPECT("used journal", ts11_state_number(s, TS11_AT_USED), 0);
}

/* Mounts over a state of any bytes, with a reel of exactly its length; that many whole gaps stand on it. */
static void expect_mount(const struct lengths *l, size_t gaps, ts11_answer wanted)
{
	context("mount: memory %zu, reel %zu, journal %zu, recorded end %zu", l->memory, l->reel, l->journal,
	        l->recorded_end);
	struct unit u = make_unit_with(0, l->reel, gaps * TS11_PLACE_BYTES, 0, 0);
	struct copy state = { 0 }, reel = { 0 };
	size_t block = 1;
	uint8_t fault = 1;
	memset(u.state.at, 0xD5, u.state.length);
	lay_gaps(u.reel.at, gaps);
	take_copy(&state, u.state.at, u.state.length);
	take_copy(&reel, u.reel.at, u.reel.length);
	EXPECT("answer",
	       ts11_mount(state_of(&u), l->memory, u.reel.at, l->reel, u.table.at, u.table.length, l->journal,
	                  l->recorded_end, true, false, &block, &fault),
	       wanted);
	EXPECT("*block", block, 0);
	EXPECT("*fault", fault, wanted == TS11_BAD_BLOCK ? TS11_FAULT_KIND : 0);
	EXPECT_BYTES("the reel", u.reel.at, reel.bytes, reel.length);
	if (wanted == TS11_DONE) {
		expect_mounted(state_of(&u), l);
		expect_afresh(&u);
	} else {
		EXPECT_BYTES("refused: the state", u.state.at, state.bytes, state.length);
		EXPECT("refused: the table", all_are(u.table.at, u.table.length, 0), true);
	}
	free(state.bytes);
	free(reel.bytes);
	free_unit(&u);
	context("");
}

static void test_mount_memory(void)
{
	static const struct {
		size_t memory;
		ts11_answer answer;
	} rows[] = {
		{ 0, TS11_BAD_MEMORY },
		{ 1, TS11_BAD_MEMORY },
		{ 2, TS11_DONE },
		{ 3, TS11_BAD_MEMORY },
		{ 262142, TS11_DONE },
		{ 262143, TS11_BAD_MEMORY },
		{ TS11_MEMORY_MAX, TS11_DONE },
		{ TS11_MEMORY_MAX + 1, TS11_BAD_MEMORY },
		{ TS11_MEMORY_MAX + 2, TS11_BAD_MEMORY },
		{ TWO_32, TS11_BAD_MEMORY },
		{ TWO_32 + 2, TS11_BAD_MEMORY },
		{ TWO_32 + TS11_MEMORY_MAX, TS11_BAD_MEMORY },
		{ SIZE_MAX - 1, TS11_BAD_MEMORY },
		{ SIZE_MAX, TS11_BAD_MEMORY },
	};
	ROWS(k, rows)
		expect_mount(&(struct lengths){ rows[k].memory, TS11_BLOCK, 0, 0 }, 0, rows[k].answer);
}

static void test_mount_reel(void)
{
	static const struct {
		size_t reel;
		ts11_answer answer;
	} rows[] = {
		{ 0, TS11_BAD_REEL },
		{ 511, TS11_BAD_REEL },
		{ 512, TS11_DONE },
		{ 513, TS11_BAD_REEL },
		{ 1023, TS11_BAD_REEL },
		{ 1024, TS11_DONE },
		{ REEL_MAX - 1, TS11_BAD_REEL },
		{ REEL_MAX, TS11_DONE },
		{ REEL_MAX + 1, TS11_BAD_REEL },
		{ REEL_MAX + TS11_BLOCK, TS11_BAD_REEL },
	};
	ROWS(k, rows)
		expect_mount(&(struct lengths){ 2, rows[k].reel, 0, 0 }, 0, rows[k].answer);
}

static void test_mount_journal(void)
{
	static const struct {
		size_t journal;
		ts11_answer answer;
	} rows[] = {
		{ 0, TS11_DONE },
		{ 1, TS11_DONE },
		{ TS11_JOURNAL_MAX - 1, TS11_DONE },
		{ TS11_JOURNAL_MAX, TS11_DONE },
		{ TS11_JOURNAL_MAX + 1, TS11_BAD_JOURNAL },
		{ TWO_32, TS11_BAD_JOURNAL },
		{ TWO_32 + 1, TS11_BAD_JOURNAL },
		{ SIZE_MAX, TS11_BAD_JOURNAL },
	};
	ROWS(k, rows)
		expect_mount(&(struct lengths){ 2, TS11_BLOCK, rows[k].journal, 0 }, 0, rows[k].answer);
}

/* A reel of three gaps; ends whose bytes, or whose low 32 bits, would be small are no smaller for that. */
static void test_mount_recorded_end(void)
{
	static const struct {
		size_t end;
		ts11_answer answer;
	} rows[] = {
		{ 0, TS11_DONE },
		{ 2, TS11_DONE },
		{ 3, TS11_DONE },
		{ 4, TS11_BAD_REEL },
		{ TWO_32, TS11_BAD_REEL },
		{ TWO_32 + 3, TS11_BAD_REEL },
		{ SIZE_MAX / TS11_BLOCK + 1, TS11_BAD_REEL },
		{ SIZE_MAX / TS11_BLOCK + 3, TS11_BAD_REEL },
		{ SIZE_MAX - 1, TS11_BAD_REEL },
		{ SIZE_MAX, TS11_BAD_REEL },
	};
	ROWS(k, rows)
		expect_mount(&(struct lengths){ 2, 3 * TS11_BLOCK, 0, rows[k].end }, 3, rows[k].answer);
}

/* Of several refusals the least is given; a block at fault comes last. */
static void test_mount_order(void)
{
	static const struct {
		struct lengths lengths;
		ts11_answer answer;
	} rows[] = {
		{ { 1, 511, TS11_JOURNAL_MAX + 1, SIZE_MAX }, TS11_BAD_MEMORY },
		{ { 2, 511, TS11_JOURNAL_MAX + 1, SIZE_MAX }, TS11_BAD_REEL },
		{ { 2, 512, TS11_JOURNAL_MAX + 1, 2 }, TS11_BAD_REEL },
		{ { 2, 512, TS11_JOURNAL_MAX + 1, 1 }, TS11_BAD_JOURNAL },
		{ { 2, 512, TS11_JOURNAL_MAX, 1 }, TS11_BAD_BLOCK },
	};
	ROWS(k, rows)
		expect_mount(&rows[k].lengths, 0, rows[k].answer);
}

/* ---- lengths other than the mount's ------------------------------------------------------------------------------ */

enum { SMALL_MEMORY = 64, SMALL_REEL = 3 * TS11_BLOCK, SMALL_PLACES = 3, SMALL_JOURNAL = 1024 };

/* The calls that a mounted unit takes, each answered 0 when all is right; the advance is an idle one. */
static const struct call calls[] = {
	{ .kind = WRITE_TSDB, .word = 8 },
	{ .kind = WRITE_TSSR, .word = 1 },
	{ .kind = OPERATE, .which = TS11_SWITCH_ONLINE, .on = false },
	{ .kind = HOST_STORE, .address = 3, .bytes = host, .length = 5 },
	{ .kind = ADVANCE },
	{ .kind = STEP_BACK },
	{ .kind = READ_REGISTER, .which = TS11_REGISTER_TSSR },
	{ .kind = FIND_FILE, .sought = 0 },
	{ .kind = FIND_BLOCK, .sought = 0 },
};
enum { BUFFERED = COUNT(calls) - 3 }; /* all but the last are handed memory, reel and journal */

/* An idle advance and a register read don't ask how many places the table has. */
static bool asks_table(const struct call *c)
{
	return c->kind != ADVANCE && c->kind != READ_REGISTER;
}

/* A small unit with one entry in its journal. */
static struct unit small_unit(void)
{
	struct unit u = make_unit(SMALL_MEMORY, SMALL_REEL, SMALL_JOURNAL, 0);
	lay_gaps(u.reel.at, 3);
	EXPECT("the mount", mount(&u, 3, true, false).answer, TS11_DONE);
	EXPECT("a step", operate(&u, TS11_SWITCH_WRITE_LOCK, true).answer, TS11_DONE);
	return u;
}

static struct buffer exact(const struct buffer *b, long more)
{
	struct buffer other = make_buffer(b->length + (size_t)more, 0);
	memcpy(other.at, b->at, other.length < b->length ? other.length : b->length);
	return other;
}

/* What is wrong with a call: the state, and by how much the buffers' lengths differ from the mount's. */
struct differing {
	bool state;
	long memory, reel, journal, table;
};

/* The call is handed buffers whose lengths differ by so much, each allocated anew. */
static ts11_answer answer_with(const struct call *c, const struct differing *d)
{
	struct unit u = small_unit();
	if (d->state)
		set_number(&u, TS11_AT_CLASS, 7);
	struct unit v = { exact(&u.state, 0), exact(&u.memory, d->memory), exact(&u.reel, d->reel),
		              exact(&u.table, d->table), exact(&u.journal, d->journal) };
	ts11_answer answer = checked(&v, c).answer;
	free_unit(&u);
	free_unit(&v);
	return answer;
}

/* A longer table is as good. */
static ts11_answer least_refusal(const struct call *c, const struct differing *d)
{
	if (d->state)
		return TS11_BAD_STATE;
	if (d->memory)
		return TS11_BAD_MEMORY;
	if (d->reel)
		return TS11_BAD_REEL;
	if (d->journal)
		return TS11_BAD_JOURNAL;
	return d->table < 0 && asks_table(c) ? TS11_SMALL_TABLE : TS11_DONE;
}

static void expect_answer_with(const struct call *c, struct differing d)
{
	context("call %d: state %s, memory %+ld, reel %+ld, journal %+ld, table %+ld", (int)c->kind,
	        d.state ? "wrong" : "right", d.memory, d.reel, d.journal, d.table);
	EXPECT("answer", answer_with(c, &d), least_refusal(c, &d));
}

/* 1 before 2 before 3 before 4, whatever else is wrong. */
static void test_other_lengths(void)
{
	static const long memories[] = { 0, -1, 1, -2, 2 }, reels[] = { 0, -1, 1, -TS11_BLOCK, TS11_BLOCK },
					  journals[] = { 0, -1, 1 }, tables[] = { 0, -1, 1, -8, 8 };
	for (size_t c = 0; c < BUFFERED; c++)
		ROWS(m, memories)
			ROWS(r, reels)
				ROWS(j, journals)
					ROWS(t, tables) {
						struct differing d = { false, memories[m], reels[r], journals[j], tables[t] };
						expect_answer_with(&calls[c], d);
						d.state = true;
						if (m < 2 && r < 2 && j < 2 && t < 2)
							expect_answer_with(&calls[c], d);
					}
	for (size_t c = BUFFERED; c < COUNT(calls); c++)
		ROWS(t, tables) {
			expect_answer_with(&calls[c], (struct differing){ .table = tables[t] });
			expect_answer_with(&calls[c], (struct differing){ .state = true, .table = tables[t] });
		}
	context("");
}

/* ---- numbers of the state ---------------------------------------------------------------------------------------- */

/* Made-up numbers at their limits and just outside them. */
static const struct {
	const char *name;
	size_t at;
	uint32_t value;
	ts11_answer answer;
} made_up[] = {
	{ "position at the end", TS11_AT_POSITION, 3, TS11_DONE },
	{ "position beyond the end", TS11_AT_POSITION, 4, TS11_BAD_STATE },
	{ "huge position", TS11_AT_POSITION, UINT32_MAX, TS11_BAD_STATE },
	{ "end at 0", TS11_AT_END, 0, TS11_DONE },
	{ "end beyond capacity", TS11_AT_END, 4, TS11_BAD_STATE },
	{ "huge end", TS11_AT_END, UINT32_MAX, TS11_BAD_STATE },
	{ "pointer of 18 bits", TS11_AT_POINTER, 0x3FFFF, TS11_DONE },
	{ "pointer of 19 bits", TS11_AT_POINTER, 0x40000, TS11_BAD_STATE },
	{ "huge pointer", TS11_AT_POINTER, UINT32_MAX, TS11_BAD_STATE },
	{ "class 6", TS11_AT_CLASS, 6, TS11_DONE },
	{ "class 7", TS11_AT_CLASS, 7, TS11_BAD_STATE },
	{ "no message buffer", TS11_AT_NBA, 0, TS11_BAD_STATE },
	{ "message address while NBA", TS11_AT_MESSAGE, UINT32_MAX, TS11_DONE },
	{ "message length while NBA", TS11_AT_MESSAGE_LENGTH, UINT32_MAX, TS11_DONE },
	{ "memory of 0", TS11_AT_MEMORY, 0, TS11_BAD_STATE },
	{ "odd memory", TS11_AT_MEMORY, SMALL_MEMORY + 1, TS11_BAD_STATE },
	{ "memory beyond", TS11_AT_MEMORY, TS11_MEMORY_MAX + 2, TS11_BAD_STATE },
	{ "no blocks", TS11_AT_BLOCKS, 0, TS11_BAD_STATE },
	{ "blocks below the end", TS11_AT_BLOCKS, 2, TS11_BAD_STATE },
	{ "blocks beyond", TS11_AT_BLOCKS, TS11_REEL_BLOCKS_MAX + 1, TS11_BAD_STATE },
	{ "journal below the used", TS11_AT_JOURNAL, TS11_ENTRY_HEAD - 1, TS11_BAD_STATE },
	{ "journal beyond", TS11_AT_JOURNAL, TS11_JOURNAL_MAX + 1, TS11_BAD_STATE },
	{ "used beyond", TS11_AT_USED, SMALL_JOURNAL + 1, TS11_BAD_STATE },
	{ "RMR of 2", TS11_AT_RMR, 2, TS11_BAD_STATE },
	{ "on line of 256", TS11_AT_ONLINE, 256, TS11_BAD_STATE },
	{ "no objects", TS11_AT_OBJECTS, 0, TS11_DONE },
	{ "objects past the recorded end", TS11_AT_OBJECTS, SMALL_PLACES, TS11_DONE },
	{ "objects past the table", TS11_AT_OBJECTS, SMALL_PLACES + 1, TS11_SMALL_TABLE },
	{ "huge objects", TS11_AT_OBJECTS, UINT32_MAX, TS11_SMALL_TABLE },
	{ "first unused number", TS11_STATE_UNUSED, 1, TS11_BAD_STATE },
	{ "unused number before the objects", TS11_AT_OBJECTS - 4, 0x80000000, TS11_BAD_STATE },
	{ "unused number behind the objects", TS11_AT_OBJECTS + 4, 1, TS11_BAD_STATE },
	{ "last unused byte", TS11_STATE_BYTES - 4, 0x80000000, TS11_BAD_STATE },
};

static void test_made_up_states(void)
{
	ROWS(k, made_up)
		ROWS(c, calls) {
			context("made up: %s, call %d", made_up[k].name, (int)calls[c].kind);
			struct unit u = small_unit();
			set_number(&u, made_up[k].at, made_up[k].value);
			bool asked = made_up[k].answer != TS11_SMALL_TABLE || asks_table(&calls[c]);
			EXPECT("answer", checked(&u, &calls[c]).answer, asked ? made_up[k].answer : TS11_DONE);
			free_unit(&u);
		}
	context("");
}

/* With NBA clear, the message buffer must be even, hold a message and lie in memory. */
static void test_made_up_message(void)
{
	static const struct {
		uint32_t address, length;
		ts11_answer answer;
	} rows[] = {
		{ 0, TS11_MESSAGE_BYTES, TS11_DONE },
		{ 0, TS11_MESSAGE_BYTES - 1, TS11_BAD_STATE },
		{ 1, TS11_MESSAGE_BYTES, TS11_BAD_STATE },
		{ 0, SMALL_MEMORY, TS11_DONE },
		{ 0, SMALL_MEMORY + 1, TS11_BAD_STATE },
		{ SMALL_MEMORY - TS11_MESSAGE_BYTES, TS11_MESSAGE_BYTES, TS11_DONE },
		{ SMALL_MEMORY - TS11_MESSAGE_BYTES, TS11_MESSAGE_BYTES + 1, TS11_BAD_STATE },
		{ SMALL_MEMORY - TS11_MESSAGE_BYTES + 2, TS11_MESSAGE_BYTES, TS11_BAD_STATE },
		{ UINT32_MAX - 1, TS11_MESSAGE_BYTES, TS11_BAD_STATE },
		{ 2, UINT32_MAX, TS11_BAD_STATE },
	};
	ROWS(k, rows) {
		context("made up: message buffer at %" PRIu32 " of %" PRIu32, rows[k].address, rows[k].length);
		struct unit u = small_unit();
		set_number(&u, TS11_AT_NBA, 0);
		set_number(&u, TS11_AT_MESSAGE, rows[k].address);
		set_number(&u, TS11_AT_MESSAGE_LENGTH, rows[k].length);
		EXPECT("answer", write_tsdb(&u, 8).answer, rows[k].answer);
		free_unit(&u);
	}
	context("");
}

/* ---- host stores ------------------------------------------------------------------------------------------------- */

static void expect_store(struct unit *u, size_t address, size_t length, ts11_answer wanted)
{
	context("memory %zu: host store of %zu bytes at %zu", u->memory.length, length, address);
	struct buffer bytes = make_buffer(length, 0);
	make_bytes(bytes.at, length, (unsigned)address);
	size_t before = used(u);
	EXPECT("answer", host_store(u, address, bytes.at, length).answer, wanted);
	EXPECT("entry", used(u) - before, wanted == TS11_DONE ? TS11_ENTRY_HEAD + length : 0);
	if (wanted == TS11_DONE)
		EXPECT_BYTES("memory there", u->memory.at + address, bytes.at, length);
	free_buffer(&bytes);
	context("");
}

static void test_host_stores(void)
{
	enum { END = TS11_MEMORY_MAX, MOST = TS11_HOST_STORE_MAX };
	static const struct {
		size_t address, length;
		ts11_answer answer;
	} rows[] = {
		{ 0, 0, TS11_DONE },
		{ 0, MOST, TS11_DONE },
		{ 0, MOST + 1, TS11_BAD_STORE },
		{ END - MOST - 1, MOST + 1, TS11_BAD_STORE },
		{ END - MOST, MOST, TS11_DONE },
		{ END - MOST + 1, MOST, TS11_BAD_STORE },
		{ END - 1, 1, TS11_DONE },
		{ END - 1, 2, TS11_BAD_STORE },
		{ END, 0, TS11_DONE },
		{ END, 1, TS11_BAD_STORE },
		{ END + 1, 0, TS11_BAD_STORE },
		{ TWO_32, 0, TS11_BAD_STORE },
		{ TWO_32, 1, TS11_BAD_STORE },
		{ SIZE_MAX, 0, TS11_BAD_STORE },
		{ SIZE_MAX, 1, TS11_BAD_STORE },
		{ SIZE_MAX - MOST + 1, MOST, TS11_BAD_STORE },
		{ SIZE_MAX, MOST, TS11_BAD_STORE },
	};
	struct unit u = make_unit(END, TS11_BLOCK, TS11_JOURNAL_MAX / 16, 0);
	EXPECT("the mount", mount(&u, 0, true, false).answer, TS11_DONE);
	ROWS(k, rows)
		expect_store(&u, rows[k].address, rows[k].length, rows[k].answer);
	free_unit(&u);
}

/* Memory smaller than a store; 5 is given before 9. */
static void test_small_host_stores(void)
{
	struct unit u = small_unit();
	expect_store(&u, 0, SMALL_MEMORY, TS11_DONE);
	expect_store(&u, 0, SMALL_MEMORY + 1, TS11_BAD_STORE);
	expect_store(&u, 1, SMALL_MEMORY, TS11_BAD_STORE);
	set_number(&u, TS11_AT_USED, SMALL_JOURNAL);
	expect_store(&u, SMALL_MEMORY, 1, TS11_BAD_STORE);
	expect_store(&u, SMALL_MEMORY, 0, TS11_JOURNAL_FULL);
	free_unit(&u);
}

/* A used journal that no entry ends: too short for one, or with a state that 1 refuses where the entry would stand. */
static void test_no_entries(void)
{
	static const struct {
		uint32_t used;
		ts11_answer answer;
	} rows[] = {
		{ 0, TS11_NO_ENTRY },
		{ 1, TS11_BAD_ENTRY },
		{ TS11_ENTRY_HEAD - 1, TS11_BAD_ENTRY },
		{ SMALL_JOURNAL - 1, TS11_BAD_ENTRY },
		{ SMALL_JOURNAL, TS11_BAD_ENTRY },
	};
	ROWS(k, rows) {
		context("made up: used journal of %" PRIu32, rows[k].used);
		struct unit u = small_unit();
		set_number(&u, TS11_AT_USED, rows[k].used);
		EXPECT("step back", step_back(&u).answer, rows[k].answer);
		free_unit(&u);
	}
	context("");
}

/* Steps back over an entry with one byte damaged: 0 with a state that 1 accepts, 8, or for the objects 11. */
static bool damaged_refused(struct unit *u, size_t at, uint8_t damage)
{
	u->journal.at[at] ^= damage;
	ts11_answer answer = step_back(u).answer;
	EXPECT("0, 8 or 11", answer == TS11_DONE || answer == TS11_BAD_ENTRY || answer == TS11_SMALL_TABLE, true);
	EXPECT("the state then", read_register(u, TS11_REGISTER_TSSR).answer, TS11_DONE);
	return answer != TS11_DONE;
}

/* An entry with memory, reel and table bytes, each of its bytes damaged in turn; guards stand around all buffers. */
static void test_damaged_entry(void)
{
	struct unit u = make_unit(SMALL_JOURNAL, SMALL_REEL, 4 * SMALL_JOURNAL, GUARD);
	struct picture whole = { 0 };
	size_t refused = 0;
	EXPECT("the mount", mount(&u, 0, true, false).answer, TS11_DONE);
	characteristics(&u, TS11_CVC, MESSAGE, TS11_MESSAGE_BYTES, 0);
	size_t entry = command(&u, TS11_ERASE | TS11_ACK, 0, 0).entry;
	EXPECT("the entry", entry, TS11_ENTRY_HEAD + TS11_MESSAGE_BYTES + TS11_BLOCK + TS11_PLACE_BYTES);
	take_picture(&whole, &u);
	for (size_t k = 0; k < 2 * entry; k++) {
		context("byte %zu of an entry damaged", k / 2);
		refused += damaged_refused(&u, used(&u) - entry + k / 2, k % 2 ? 0xFF : (uint8_t)(1 << k / 2 % 8));
		put_back(&u, &whole);
	}
	context("");
	EXPECT("some are refused, not all", refused > 0 && refused < 2 * entry, true);
	EXPECT("the entry as it was", step_back(&u).answer, TS11_DONE);
	free_picture(&whole);
	free_unit(&u);
}

/* With length 0 any address will do: nothing is read or written there. */
static void test_empty_buffers(void)
{
	uint8_t *nowhere = (uint8_t *)1;
	struct unit u = make_unit(2, TS11_BLOCK, SMALL_JOURNAL, 0);
	EXPECT("the mount", mount(&u, 0, true, false).answer, TS11_DONE);
	EXPECT("a store of no bytes", host_store(&u, 2, nowhere, 0).answer, TS11_DONE);
	struct buffer none = { nowhere, 0, 0 };
	struct unit no_journal = { u.state, u.memory, u.reel, u.table, none };
	EXPECT("a mount without a journal", mount(&no_journal, 0, true, false).answer, TS11_DONE);
	EXPECT("a step", write_tsdb(&no_journal, 0).answer, TS11_JOURNAL_FULL);
	EXPECT("a step back", step_back(&no_journal).answer, TS11_NO_ENTRY);
	EXPECT("an idle advance", advance(&no_journal).answer, TS11_DONE);
	struct unit no_table = { u.state, u.memory, u.reel, none, none };
	EXPECT("a mount without a table", mount(&no_table, 0, true, false).answer, TS11_DONE);
	EXPECT("a file without a table", find_file(&no_table, 0).found, false);
	EXPECT("a step back without a table", step_back(&no_table).answer, TS11_NO_ENTRY);
	struct unit no_memory = { u.state, none, u.reel, u.table, none };
	EXPECT("without memory", write_tsdb(&no_memory, 0).answer, TS11_BAD_MEMORY);
	struct unit no_reel = { u.state, u.memory, none, u.table, none };
	EXPECT("without a reel", write_tsdb(&no_reel, 0).answer, TS11_BAD_REEL);
	EXPECT("a mount without a reel", mount(&no_reel, 0, true, false).answer, TS11_BAD_REEL);
	free_unit(&u);
}

/* ---- the ends of memory ------------------------------------------------------------------------------------------ */

/* Two bytes of memory hold a header and nothing else. */
static void test_least_memory(void)
{
	static const uint8_t get_status[] = { TS11_GET_STATUS & 255, (TS11_GET_STATUS | TS11_ACK) >> 8 };
	struct unit u = make_unit(2, TS11_BLOCK, SMALL_JOURNAL, 0);
	EXPECT("the mount", mount(&u, 0, true, false).answer, TS11_DONE);
	EXPECT("the header's store", host_store(&u, 0, get_status, 2).answer, TS11_DONE);
	write_tsdb(&u, 0);
	EXPECT("the command", advance(&u).answer, TS11_DONE);
	EXPECT("TSSR", tssr(&u), TS11_TSSR_SC | TS11_TSSR_NBA | TS11_TSSR_SSR | TS11_CLASS_REJECT << 1);
	write_tsdb(&u, TS11_TSDB(4));
	EXPECT("a command beyond", advance(&u).answer, TS11_DONE);
	EXPECT("TSSR", tssr(&u), TS11_TSSR_SC | TS11_TSSR_NXM | TS11_TSSR_NBA | TS11_TSSR_SSR | TS11_CLASS_UNMOVED << 1);
	free_unit(&u);
}

/* Blocks of a reel on which the longest record ends well before the EOT marker. */
enum { ROOMY = 400 };

static struct unit unit_of_memory(size_t memory)
{
	static const uint8_t record[] = "to the last byte";
	struct unit u = make_unit(memory, ROOMY * TS11_BLOCK, TS11_JOURNAL_MAX / 16, 0);
	lay_record(u.reel.at, 0, record, 16);
	EXPECT("the mount", mount(&u, 1, true, false).answer, TS11_DONE);
	return u;
}

static void expect_class(const char *what, struct ending e, unsigned class)
{
	EXPECT(what, e.answer, TS11_DONE);
	EXPECT(what, TS11_CLASS(e.tssr), class);
}

/* A message buffer, and data, that end where memory ends, and two bytes or one byte further. */
static void test_end_of_memory(size_t memory)
{
	struct unit u = unit_of_memory(memory);
	context("memory %zu", memory);
	expect_class("a message buffer at the end",
	             characteristics(&u, TS11_CVC, memory - TS11_MESSAGE_BYTES, TS11_MESSAGE_BYTES, 0), TS11_CLASS_NORMAL);
	EXPECT("the message there", word_at(u.memory.at + memory - TS11_MESSAGE_BYTES), TS11_END);
	expect_class("a message buffer past it",
	             characteristics(&u, 0, memory - TS11_MESSAGE_BYTES + 2, TS11_MESSAGE_BYTES, 0), TS11_CLASS_REJECT);
	expect_class("a message buffer in place", characteristics(&u, 0, MESSAGE, TS11_MESSAGE_BYTES, 0),
	             TS11_CLASS_NORMAL);
	expect_class("data past it", command(&u, TS11_READ_NEXT | TS11_ACK, memory - 15, 16), TS11_CLASS_UNMOVED);
	EXPECT("the position", number(&u, TS11_AT_POSITION), 0);
	expect_class("data to the end", command(&u, TS11_READ_NEXT | TS11_ACK, memory - 16, 16), TS11_CLASS_NORMAL);
	EXPECT_BYTES("the data", u.memory.at + memory - 16, (const uint8_t *)"to the last byte", 16);
	expect_class("no data at the end", command(&u, TS11_REREAD_PREVIOUS | TS11_ACK, memory, 0),
	             memory < TS11_MEMORY_MAX ? TS11_CLASS_STATUS : TS11_CLASS_REJECT); /* the pointer has no 19th bit */
	free_unit(&u);
	context("");
}

/* A packet whose last words are missing: whatever the command would use, it ends with NXM and is not carried out. */
static void expect_not_fetched(struct unit *u, size_t at, uint16_t header)
{
	uint8_t bytes[2];
	context("memory %zu, header %x at %zu", u->memory.length, header, at);
	EXPECT("no message in the buffer", put_packet(u, 0, 0, 0), TS11_DONE);
	put_word(bytes, header | TS11_ACK | TS11_IE);
	EXPECT("the header's store", host_store(u, at, bytes, 2).answer, TS11_DONE);
	write_tsdb(u, TS11_TSDB(at));
	struct ending e = advance_to_end(u);
	expect_class("the command", e, TS11_CLASS_UNMOVED);
	EXPECT("NXM", e.tssr & TS11_TSSR_NXM, TS11_TSSR_NXM);
	EXPECT("the message", e.sent ? e.header : 0, TS11_END_FAILED);
	EXPECT("the residual", e.residual, 0);
	EXPECT("the interrupt", e.interrupt, true);
	EXPECT("the buffer's owner", number(u, TS11_AT_UNIT_OWNS), 0);
	EXPECT("the position", number(u, TS11_AT_POSITION), 1);
	EXPECT("on line", number(u, TS11_AT_ONLINE), 1);
	EXPECT("the release's IE", number(u, TS11_AT_RELEASE_IE), 0);
	EXPECT("NBA", number(u, TS11_AT_NBA), 0);
}

/* The last packet that ends inside memory. */
static void expect_fetched(struct unit *u, uint16_t header)
{
	static const uint8_t packet[TS11_PACKET_BYTES];
	size_t at = (u->memory.length - TS11_PACKET_BYTES) / 4 * 4;
	uint8_t bytes[2];
	context("memory %zu, header %x at %zu", u->memory.length, header, at);
	put_word(bytes, header | TS11_ACK);
	EXPECT("the packet's store", host_store(u, at, packet, sizeof packet).answer, TS11_DONE);
	EXPECT("the header's store", host_store(u, at, bytes, 2).answer, TS11_DONE);
	write_tsdb(u, TS11_TSDB(at));
	expect_class("the command", advance_to_end(u), TS11_CLASS_NORMAL);
}

static void test_packets_at_the_end(size_t memory)
{
	static const uint16_t headers[] = { TS11_READ_NEXT, TS11_WRITE_CHARACTERISTICS, TS11_WRITE, TS11_SPACE_RECORDS,
		TS11_REWIND, TS11_WRITE_MARK, TS11_RELEASE, TS11_UNLOAD, TS11_INITIALIZE, TS11_GET_STATUS };
	struct unit u = unit_of_memory(memory);
	characteristics(&u, TS11_CVC, MESSAGE, TS11_MESSAGE_BYTES, 0);
	expect_class("a record passed", command(&u, TS11_SPACE_RECORDS | TS11_ACK, 1, 0), TS11_CLASS_NORMAL);
	ROWS(k, headers)
		for (size_t at = memory / 4 * 4; at + TS11_PACKET_BYTES > memory; at -= 4)
			if (at + 2 <= memory)
				expect_not_fetched(&u, at, headers[k]);
	expect_fetched(&u, TS11_GET_STATUS);
	expect_fetched(&u, TS11_REWIND);
	EXPECT("the position", number(&u, TS11_AT_POSITION), 0);
	free_unit(&u);
	context("");
}

static void test_memory_ends(void)
{
	static const size_t memories[] = { 0x1002, TS11_MEMORY_MAX - 2, TS11_MEMORY_MAX };
	ROWS(k, memories) {
		test_end_of_memory(memories[k]);
		test_packets_at_the_end(memories[k]);
	}
}

/* ---- blocks at fault --------------------------------------------------------------------------------------------- */

/* M 0, R 1 1100, M 4, R 5 600, G 7, M 8; what lies above is zeros. */
enum { HARMED_BLOCKS = 12, HARMED_END = 9, LONG = 1100, SHORT = 600 };

static struct unit harmed;
static struct picture unharmed; /* with a message buffer, at block 0 */

static uint8_t *harmed_block(size_t block)
{
	return harmed.reel.at + block * TS11_BLOCK;
}

static void make_harmed(void)
{
	harmed = make_unit(4 * SMALL_JOURNAL, HARMED_BLOCKS * TS11_BLOCK, 4 * SMALL_JOURNAL, GUARD);
	uint8_t *reel = harmed.reel.at;
	size_t at = lay_record(reel, lay_mark(reel, 0), host, LONG);
	at = lay_record(reel, lay_mark(reel, at), host, SHORT);
	EXPECT("the tape's end", lay_mark(reel, lay_gap(reel, at)), HARMED_END);
	EXPECT("the mount", mount(&harmed, HARMED_END, true, false).answer, TS11_DONE);
	characteristics(&harmed, TS11_CVC, MESSAGE, TS11_MESSAGE_BYTES, 0);
	take_picture(&unharmed, &harmed);
}

static void free_harmed(void)
{
	free_picture(&unharmed);
	free_unit(&harmed);
}

/* Every command that reads blocks that way in its first stage, or its only one. */
static const uint16_t forward_commands[] = { TS11_READ_NEXT, TS11_REREAD_NEXT, TS11_REREAD_NEXT | TS11_OPP,
	                                         TS11_SPACE_RECORDS, TS11_SKIP_MARKS };
static const uint16_t reverse_commands[] = { TS11_READ_PREVIOUS,
	                                         TS11_REREAD_PREVIOUS,
	                                         TS11_REREAD_PREVIOUS | TS11_OPP,
	                                         TS11_WRITE_RETRY,
	                                         TS11_SPACE_RECORDS_REVERSE,
	                                         TS11_SKIP_MARKS_REVERSE,
	                                         TS11_WRITE_MARK_RETRY };

/* A command from a position on the reel as it stands. */
static struct ending run_harmed(uint16_t header, size_t position, size_t end)
{
	bool spaces = (header & 0x1F) == (TS11_SPACE_RECORDS & 0x1F);
	memcpy(harmed.state.at, unharmed.state.bytes, TS11_STATE_BYTES);
	set_number(&harmed, TS11_AT_POSITION, (uint32_t)position);
	set_number(&harmed, TS11_AT_END, (uint32_t)end);
	return command(&harmed, header | TS11_ACK, spaces ? 1 : DATA, 5);
}

static void expect_command_fault(uint16_t header, size_t position, size_t end, size_t block, uint8_t fault)
{
	char row[sizeof expectations.context];
	snprintf(row, sizeof row, "%s", expectations.context);
	context("%.120s, command %x", row, header);
	struct ending e = run_harmed(header, position, end);
	EXPECT("answer", e.answer, TS11_BAD_BLOCK);
	EXPECT("*block", e.block, block);
	EXPECT("*fault", e.fault, fault);
	EXPECT("the command waits", number(&harmed, TS11_AT_SSR), 0);
	context("%s", row);
}

static void expect_forward_faults(size_t position, size_t end, size_t block, uint8_t fault)
{
	ROWS(k, forward_commands)
		expect_command_fault(forward_commands[k], position, end, block, fault);
}

static void expect_reverse_faults(size_t position, size_t end, size_t block, uint8_t fault)
{
	ROWS(k, reverse_commands)
		expect_command_fault(reverse_commands[k], position, end, block, fault);
}

/* What stands before the block at fault can be mounted: up to it, or up to the record that it was to be a piece of. */
static void expect_rest_mounted(size_t block)
{
	struct result r = mount(&harmed, block, true, false);
	if (r.answer == TS11_BAD_BLOCK) {
		EXPECT("a lower block", r.block < block, true);
		EXPECT("its fault", r.fault, TS11_FAULT_INDEX);
		r = mount(&harmed, r.block, true, false);
	}
	EXPECT("the mount of the rest", r.answer, TS11_DONE);
}

static void expect_mount_fault(size_t end, size_t block, uint8_t fault)
{
	struct result r = mount(&harmed, end, true, false);
	EXPECT("mount: answer", r.answer, TS11_BAD_BLOCK);
	EXPECT("mount: *block", r.block, block);
	EXPECT("mount: *fault", r.fault, fault);
	expect_rest_mounted(block);
}

/*
 * What is done to a block besides: a byte put behind its data, the first or the last there; with its check word made, a
 * data byte flipped, or that word; ALL_ONES makes the sum 0 and the word 65,535, which is 0 modulo 65,535 too.
 */
enum { WRONG_CHECK = 1, FIRST_PADDING = 2, LAST_PADDING = 4, FLIPPED = 8, ALL_ONES = 16 };

/* In place of one block of the tape stands this one, with as many data bytes as it uses. */
struct placed {
	const char *name;
	size_t at;
	unsigned kind;
	size_t length, index;
	unsigned harm;
	size_t from, to;          /* where a command begins that meets it forward, in reverse */
	uint8_t forward, reverse; /* the fault that this meets; 0: no command is tried */
	size_t end;               /* the recorded end; 0: the tape's */
};

enum { K = TS11_FAULT_KIND, N = TS11_FAULT_LENGTH, I = TS11_FAULT_INDEX, P = TS11_FAULT_PADDING, C = TS11_FAULT_CHECK };
enum { PIECE = TS11_KIND_RECORD, MARK = TS11_KIND_MARK, GAP = TS11_KIND_GAP };

static const struct placed placed[] = {
	{ "zeros for an object", 4, 0, 0, 0, 0, 4, 5, K, K, 0 },
	{ "zeros for a record's first piece", 1, 0, 0, 0, 0, 1, 4, K, K, 0 },
	{ "zeros for a piece", 2, 0, 0, 0, 0, 1, 4, K, K, 0 },
	{ "a kind that is none, for an object", 4, 4, 0, 0, 0, 4, 5, K, K, 0 },
	{ "a kind that is none, for a piece", 2, 4, LONG, 1, 0, 1, 4, K, K, 0 },
	{ "a kind that is a piece's in its low byte", 3, 0x101, LONG, 2, 0, 1, 4, K, K, 0 },
	{ "a kind that is a mark's in its high byte", 4, 0x200, 0, 0, 0, 4, 5, K, K, 0 },
	{ "a kind of all ones", 7, 0xFFFF, 0, 0, 0, 7, 8, K, K, 0 },
	{ "a mark with a length, for a piece", 2, MARK, 5, 0, 0, 1, 4, N, N, 0 },
	{ "a mark with a length", 4, MARK, 1, 0, 0, 4, 5, N, N, 0 },
	{ "a gap with a length", 7, GAP, 256, 0, 0, 7, 8, N, N, 0 },
	{ "a sound mark for a piece", 2, MARK, 0, 0, 0, 1, 4, I, I, 0 },
	{ "a sound gap for a piece", 2, GAP, 0, 0, 0, 1, 4, I, I, 0 },
	{ "a piece of another record", 2, PIECE, SHORT, 1, 0, 1, 4, I, I, 0 },
	{ "a whole record for a piece", 2, PIECE, 5, 0, 0, 1, 4, I, I, 0 },
	{ "the first piece once more", 2, PIECE, LONG, 0, 0, 1, 4, I, I, 0 },
	{ "the last piece before its turn", 2, PIECE, LONG, 2, 0, 1, 4, I, I, 0 },
	{ "a mark with a wrong check, for a piece", 2, MARK, 0, 0, WRONG_CHECK, 1, 4, C, C, 0 },
	{ "a gap with a wrong check, for a piece", 2, GAP, 0, 0, WRONG_CHECK, 1, 4, C, C, 0 },
	{ "another record's piece with a wrong check", 2, PIECE, SHORT, 1, WRONG_CHECK, 1, 4, C, C, 0 },
	{ "another record's piece with a byte behind it", 2, PIECE, SHORT, 1, LAST_PADDING, 1, 4, P, P, 0 },
	{ "a mark with data, for a piece", 2, MARK, 0, 0, FIRST_PADDING | WRONG_CHECK, 1, 4, P, P, 0 },
	{ "a record that the end cuts off", 1, PIECE, LONG, 0, 0, 1, 0, I, 0, 3 },
	{ "the same with a wrong check", 1, PIECE, LONG, 0, WRONG_CHECK, 1, 0, C, 0, 3 },
	{ "a record of which the end leaves a piece", 1, PIECE, LONG, 0, 0, 1, 2, I, I, 2 },
	{ "a piece before the end that is not the last", 2, PIECE, LONG, 1, 0, 0, 3, 0, I, 3 },
	{ "the same with a wrong check", 2, PIECE, LONG, 1, WRONG_CHECK, 0, 3, 0, C, 3 },
	{ "a record of all the blocks and one more", 0, PIECE, HARMED_BLOCKS * 504 + 1, 0, 0, 0, 0, I, 0, HARMED_BLOCKS },
	{ "the same with a wrong check", 0, PIECE, HARMED_BLOCKS * 504 + 1, 0, WRONG_CHECK, 0, 0, C, 0, HARMED_BLOCKS },
	{ "the longest record, cut off", 1, PIECE, TS11_RECORD_MAX, 0, 0, 1, 2, I, I, 0 },
	{ "the same with a wrong check", 1, PIECE, TS11_RECORD_MAX, 0, WRONG_CHECK, 1, 2, C, C, 0 },
	{ "a record of 16,385 bytes, cut off", 1, PIECE, 16385, 0, 0, 1, 2, I, I, 0 },
	{ "the same with a wrong check", 1, PIECE, 16385, 0, WRONG_CHECK, 1, 2, C, C, 0 },
	{ "the longest record's last piece", 4, PIECE, TS11_RECORD_MAX, 130, 0, 4, 5, I, I, 0 },
	{ "the same with a wrong check", 4, PIECE, TS11_RECORD_MAX, 130, WRONG_CHECK, 4, 5, C, C, 0 },
	{ "the same with a byte behind it", 4, PIECE, TS11_RECORD_MAX, 130, FIRST_PADDING, 4, 5, P, P, 0 },
	{ "a record that reaches below block 0", 0, PIECE, LONG, 2, 0, 0, 1, I, I, 0 },
	{ "the same with a wrong check", 0, PIECE, LONG, 2, WRONG_CHECK, 0, 1, C, C, 0 },
	{ "the same with a byte behind it", 0, PIECE, LONG, 2, FIRST_PADDING, 0, 1, P, P, 0 },
	{ "a record that reaches a block below block 0", 1, PIECE, LONG, 2, 0, 1, 2, I, I, 0 },
	{ "the second piece for an object", 4, PIECE, LONG, 1, 0, 4, 5, I, I, 0 },
	{ "the same with a wrong check", 4, PIECE, LONG, 1, WRONG_CHECK, 4, 5, C, C, 0 },
	{ "an index past the last, for an object", 4, PIECE, LONG, 3, 0, 4, 5, I, I, 0 },
	{ "the same with a wrong check", 4, PIECE, LONG, 3, WRONG_CHECK, 4, 5, I, I, 0 },
	{ "an index past the last, for a piece", 2, PIECE, LONG, 3, WRONG_CHECK, 1, 4, I, I, 0 },
	{ "an index past the last of the longest record", 4, PIECE, TS11_RECORD_MAX, 131, WRONG_CHECK, 4, 5, I, I, 0 },
	{ "an index past the last of a full block", 4, PIECE, 504, 1, WRONG_CHECK, 4, 5, I, I, 0 },
	{ "a byte more, and the index is the last", 4, PIECE, 505, 1, WRONG_CHECK, 4, 5, C, C, 0 },
	{ "an index of all ones", 3, PIECE, LONG, 0xFFFF, 0, 1, 4, I, I, 0 },
	{ "a mark with an index", 4, MARK, 0, 1, WRONG_CHECK, 4, 5, I, I, 0 },
	{ "a gap with an index", 7, GAP, 0, 256, FIRST_PADDING, 7, 8, I, I, 0 },
	{ "a piece of a record of 16,385 bytes", 2, PIECE, 16385, 1, 0, 1, 4, I, I, 0 },
	{ "a piece of the longest record", 3, PIECE, TS11_RECORD_MAX, 2, 0, 1, 4, I, I, 0 },
	{ "the same with a wrong check", 3, PIECE, TS11_RECORD_MAX, 2, WRONG_CHECK, 1, 4, C, C, 0 },
	{ "a mark with a length of all ones", 4, MARK, 0xFFFF, 0, 0, 4, 5, N, N, 0 },
	{ "a length of 0, for an object", 4, PIECE, 0, 0, 0, 4, 5, N, N, 0 },
	{ "a length of 0, for a piece", 2, PIECE, 0, 1, 0, 1, 4, N, N, 0 },
	{ "a data byte flipped in a first piece", 1, PIECE, LONG, 0, FLIPPED, 1, 4, C, C, 0 },
	{ "a data byte flipped in a full piece", 2, PIECE, LONG, 1, FLIPPED, 1, 4, C, C, 0 },
	{ "a data byte flipped in the last piece", 3, PIECE, LONG, 2, FLIPPED, 1, 4, C, C, 0 },
	{ "the first byte behind the data", 3, PIECE, LONG, 2, FIRST_PADDING, 1, 4, P, P, 0 },
	{ "the last byte behind the data", 3, PIECE, LONG, 2, LAST_PADDING, 1, 4, P, P, 0 },
	{ "a byte behind the data, and a wrong check", 3, PIECE, LONG, 2, LAST_PADDING | WRONG_CHECK, 1, 4, P, P, 0 },
	{ "a byte behind an odd length, in its word", 4, PIECE, 3, 0, FIRST_PADDING, 4, 5, P, P, 0 },
	{ "a mark's first data byte", 4, MARK, 0, 0, FIRST_PADDING, 4, 5, P, P, 0 },
	{ "a gap's last data byte", 7, GAP, 0, 0, LAST_PADDING, 7, 8, P, P, 0 },
	{ "a sum of 0, and the check all ones", 2, PIECE, LONG, 1, ALL_ONES, 1, 4, C, C, 0 },
};

static size_t used_by(const struct placed *p)
{
	if (p->kind != PIECE || p->length == 0 || p->index >= pieces(p->length))
		return 0;
	size_t left = p->length - p->index * TS11_BLOCK_DATA;
	return left < TS11_BLOCK_DATA ? left : TS11_BLOCK_DATA;
}

static void place(const struct placed *p)
{
	uint8_t *block = harmed_block(p->at);
	size_t n = used_by(p);
	put_back(&harmed, &unharmed);
	lay_block(block, p->kind, p->length, p->index, host, n);
	if (p->harm & FIRST_PADDING)
		block[TS11_BLOCK_BYTES + n] = 1;
	if (p->harm & LAST_PADDING)
		block[TS11_BLOCK_CHECK - 1] = 0x80;
	if (p->harm & ALL_ONES) {
		unsigned word = word_at(block + TS11_BLOCK_BYTES) + 65535u - check_of(block);
		put_word(block + TS11_BLOCK_BYTES, word % 65535);
	}
	seal(block);
	if (p->harm & FLIPPED)
		block[TS11_BLOCK_BYTES + n / 2] ^= 4;
	if (p->harm & WRONG_CHECK)
		block[TS11_BLOCK_CHECK] ^= 1;
	if (p->harm & ALL_ONES) {
		EXPECT("the sum", word_at(block + TS11_BLOCK_CHECK), 0);
		put_word(block + TS11_BLOCK_CHECK, 0xFFFF);
	}
}

/* A mount meets it as a command forward does. */
static void test_placed(void)
{
	ROWS(k, placed) {
		const struct placed *p = &placed[k];
		size_t end = p->end ? p->end : HARMED_END;
		context("%s, block %zu", p->name, p->at);
		place(p);
		if (p->forward) {
			expect_forward_faults(p->from, end, p->at, p->forward);
			expect_mount_fault(end, p->at, p->forward);
		}
		if (p->reverse)
			expect_reverse_faults(p->to, end, p->at, p->reverse);
	}
	context("");
}

/* The tape's blocks, and the positions before and behind their objects. A full one has no byte behind its data. */
static const struct {
	size_t at, from, to;
	bool full;
} tape_blocks[HARMED_END] = {
	{ 0, 0, 1, false }, { 1, 1, 4, true },  { 2, 1, 4, true },  { 3, 1, 4, false }, { 4, 4, 5, false },
	{ 5, 5, 7, true },  { 6, 5, 7, false }, { 7, 7, 8, false }, { 8, 8, 9, false },
};

/* In the order in which a block is looked at. */
static const uint8_t faults[] = { K, N, I, P, C };
enum { FAULTS = COUNT(faults), PADDING_BIT = 1 << 3 };

/* Makes each thing of a set wrong, whatever the rest of the block is. Of a record 0 alone is a wrong length. */
static void harm_block(uint8_t *block, unsigned set)
{
	if (set & 2)
		put_word(block + TS11_BLOCK_LENGTH, word_at(block + TS11_BLOCK_KIND) == PIECE ? 0 : 0xFFFF);
	if (set & 1)
		put_word(block + TS11_BLOCK_KIND, GAP + 1);
	if (set & 4)
		put_word(block + TS11_BLOCK_INDEX, 0xFFFF);
	if (set & PADDING_BIT)
		block[TS11_BLOCK_CHECK - 1] = 1;
	seal(block);
	if (set & 16)
		block[TS11_BLOCK_CHECK] ^= 1;
}

static uint8_t first_of(unsigned set)
{
	size_t k = 0;
	while (!(set >> k & 1))
		k++;
	return faults[k];
}

/* Of all things that are wrong with a block the first in their order is told, for every set of them. */
static void test_fault_order(void)
{
	ROWS(k, tape_blocks)
		for (unsigned set = 1; set < 1 << FAULTS; set++) {
			if (tape_blocks[k].full && set & PADDING_BIT)
				continue;
			context("block %zu, set %02x of the faults", tape_blocks[k].at, set);
			put_back(&harmed, &unharmed);
			harm_block(harmed_block(tape_blocks[k].at), set);
			expect_forward_faults(tape_blocks[k].from, HARMED_END, tape_blocks[k].at, first_of(set));
			expect_reverse_faults(tape_blocks[k].to, HARMED_END, tape_blocks[k].at, first_of(set));
			expect_mount_fault(HARMED_END, tape_blocks[k].at, first_of(set));
		}
	context("");
}

/* From the same places no command meets a fault where nothing is wrong. */
static void test_unharmed(void)
{
	ROWS(k, tape_blocks) {
		context("block %zu as it should be", tape_blocks[k].at);
		ROWS(c, forward_commands) {
			put_back(&harmed, &unharmed);
			EXPECT("forward", run_harmed(forward_commands[c], tape_blocks[k].from, HARMED_END).answer, TS11_DONE);
		}
		ROWS(c, reverse_commands) {
			put_back(&harmed, &unharmed);
			EXPECT("in reverse", run_harmed(reverse_commands[c], tape_blocks[k].to, HARMED_END).answer, TS11_DONE);
		}
	}
	context("");
}

static void test_blocks_at_fault(void)
{
	make_harmed();
	test_unharmed();
	test_placed();
	test_fault_order();
	free_harmed();
}

/* ---- the table --------------------------------------------------------------------------------------------------- */

/* R 0 1100, M 3, G 4, M 5, M 6, R 7 2; the marks that stand before each object are 0 0 1 1 2 3. */
enum { INDEXED_BLOCKS = 20, INDEXED_END = 8, INDEXED_OBJECTS = 6, LAST_OBJECT = 7 };

static struct unit indexed_unit(size_t table)
{
	struct unit u = make_unit_with(4 * SMALL_JOURNAL, INDEXED_BLOCKS * TS11_BLOCK, table, 4 * SMALL_JOURNAL, 0);
	uint8_t *reel = u.reel.at;
	size_t at = lay_mark(reel, lay_record(reel, 0, host, LONG));
	at = lay_mark(reel, lay_mark(reel, lay_gap(reel, at)));
	EXPECT("the tape's end", lay_record(reel, at, host, 2), INDEXED_END);
	make_bytes(u.table.at, u.table.length, 5);
	return u;
}

/* Mounts ever longer parts of the tape with tables of every length. */
static void test_table_lengths(void)
{
	static const size_t ends[] = { 0, 3, 4, 5, 6, 7, 8 };
	ROWS(n, ends)
		for (size_t length = 0; length < (n + 2) * TS11_PLACE_BYTES; length++) {
			struct unit u = indexed_unit(length);
			context("%zu objects, a table of %zu bytes", n, length);
			EXPECT("the mount", mount(&u, ends[n], true, false).answer,
			       length < n * TS11_PLACE_BYTES ? TS11_SMALL_TABLE : TS11_DONE);
			if (length >= n * TS11_PLACE_BYTES)
				EXPECT("objects", objects(&u), n);
			free_unit(&u);
		}
	context("");
}

/* A mounted unit with a message buffer, at a block. */
static struct unit indexed_at(uint32_t position)
{
	struct unit u = indexed_unit(INDEXED_BLOCKS * TS11_PLACE_BYTES);
	EXPECT("the mount", mount(&u, INDEXED_END, true, false).answer, TS11_DONE);
	characteristics(&u, TS11_CVC, MESSAGE, TS11_MESSAGE_BYTES, 0);
	set_number(&u, TS11_AT_POSITION, position);
	return u;
}

/* The same unit with a table of so many bytes, which begins like its own and is allocated anew. */
static struct unit with_table(const struct unit *u, size_t length)
{
	struct unit v = *u;
	v.table = exact(&u->table, (long)length - (long)u->table.length);
	return v;
}

/* Commands from each bound: how many objects they leave, and so the least table beside that of the objects before. */
static void test_table_room(void)
{
	static const struct {
		const char *name;
		uint32_t position;
		uint16_t header;
		size_t leaves;
	} rows[] = {
		{ "a record behind all", INDEXED_END, TS11_WRITE, INDEXED_OBJECTS + 1 },
		{ "a mark behind all", INDEXED_END, TS11_WRITE_MARK, INDEXED_OBJECTS + 1 },
		{ "a gap behind all", INDEXED_END, TS11_ERASE, INDEXED_OBJECTS + 1 },
		{ "a retry over the last record", INDEXED_END, TS11_WRITE_RETRY, INDEXED_OBJECTS + 1 },
		{ "a mark retry over it", INDEXED_END, TS11_WRITE_MARK_RETRY, INDEXED_OBJECTS + 1 },
		{ "a record over the last one", LAST_OBJECT, TS11_WRITE, INDEXED_OBJECTS },
		{ "a retry over the last mark", LAST_OBJECT, TS11_WRITE_RETRY, INDEXED_OBJECTS },
		{ "a mark over the second mark", 5, TS11_WRITE_MARK, 4 },
		{ "a retry over a mark and a gap", 5, TS11_WRITE_RETRY, 3 },
		{ "a gap at block 0", 0, TS11_ERASE, 1 },
		{ "a read", 0, TS11_READ_NEXT, INDEXED_OBJECTS },
		{ "a space", INDEXED_END, TS11_SPACE_RECORDS_REVERSE, INDEXED_OBJECTS },
	};
	ROWS(k, rows) {
		size_t least = rows[k].leaves < INDEXED_OBJECTS ? INDEXED_OBJECTS : rows[k].leaves;
		struct unit u = indexed_at(rows[k].position);
		context("%s", rows[k].name);
		put_packet(&u, rows[k].header | TS11_ACK, rows[k].header == TS11_SPACE_RECORDS_REVERSE ? 1 : DATA, 9);
		write_tsdb(&u, TS11_TSDB(PACKET));
		for (size_t length = 0; length <= (least + 1) * TS11_PLACE_BYTES; length++) {
			struct unit v = with_table(&u, length);
			struct picture before = { 0 };
			ts11_answer wanted = length < least * TS11_PLACE_BYTES ? TS11_SMALL_TABLE : TS11_DONE;
			take_picture(&before, &v);
			EXPECT("the advance", advance(&v).answer, wanted);
			EXPECT("objects", objects(&v), wanted == TS11_DONE ? rows[k].leaves : INDEXED_OBJECTS);
			if (wanted == TS11_DONE)
				expect_afresh(&v);
			put_back(&v, &before);
			free_picture(&before);
			free_buffer(&v.table);
		}
		free_unit(&u);
	}
	context("");
}

/* 11 comes after 5, 6, 7 and 8 and before 9; step back asks it of both counts. */
static void test_table_order(void)
{
	struct unit u = indexed_at(0), small = with_table(&u, INDEXED_OBJECTS * TS11_PLACE_BYTES - 1);
	EXPECT("a store past memory", host_store(&small, u.memory.length, host, 1).answer, TS11_BAD_STORE);
	EXPECT("a store", host_store(&small, 0, host, 1).answer, TS11_SMALL_TABLE);
	EXPECT("a step back", step_back(&small).answer, TS11_SMALL_TABLE);
	EXPECT("an idle advance", advance(&small).answer, TS11_DONE);
	EXPECT("a register", read_register(&small, TS11_REGISTER_TSSR).answer, TS11_DONE);
	uint32_t used_now = (uint32_t)used(&u);
	set_number(&u, TS11_AT_USED, 0);
	EXPECT("a step back with no entry", step_back(&small).answer, TS11_NO_ENTRY);
	set_number(&u, TS11_AT_USED, used_now - 1);
	EXPECT("a step back with no whole entry", step_back(&small).answer, TS11_BAD_ENTRY);
	set_number(&u, TS11_AT_USED, (uint32_t)u.journal.length);
	EXPECT("a TSDB write without room", write_tsdb(&u, 0).answer, TS11_JOURNAL_FULL);
	EXPECT("and with a small table", write_tsdb(&small, 0).answer, TS11_SMALL_TABLE);
	set_number(&u, TS11_AT_USED, used_now);
	put_packet(&u, TS11_WRITE_MARK_RETRY | TS11_ACK, 0, 0);
	write_tsdb(&u, TS11_TSDB(PACKET));
	set_number(&u, TS11_AT_POSITION, INDEXED_END);
	u.reel.at[LAST_OBJECT * TS11_BLOCK + TS11_BLOCK_BYTES] ^= 1;
	EXPECT("a damaged block", advance(&small).answer, TS11_BAD_BLOCK);
	EXPECT("a mount of it", mount(&small, INDEXED_END, true, false).answer, TS11_BAD_BLOCK);
	u.reel.at[LAST_OBJECT * TS11_BLOCK + TS11_BLOCK_BYTES] ^= 1;
	EXPECT("a sound one", advance(&small).answer, TS11_SMALL_TABLE);
	set_number(&u, TS11_AT_USED, (uint32_t)u.journal.length);
	EXPECT("a sound one without room", advance(&u).answer, TS11_JOURNAL_FULL);
	EXPECT("and with a small table", advance(&small).answer, TS11_SMALL_TABLE);
	EXPECT("a store without room, with a small table", host_store(&small, 0, host, 1).answer, TS11_SMALL_TABLE);
	free_buffer(&small.table);
	free_unit(&u);
}

/* A mark at block 0 leaves one object; its step back wants room for those that it brings back. */
static void test_table_mended(void)
{
	struct unit u = indexed_at(0);
	command(&u, TS11_WRITE_MARK | TS11_ACK, 0, 0);
	EXPECT("objects", objects(&u), 1);
	for (size_t length = 0; length <= (INDEXED_OBJECTS + 1) * TS11_PLACE_BYTES; length++) {
		struct unit v = with_table(&u, length);
		struct picture before = { 0 };
		bool enough = length >= INDEXED_OBJECTS * TS11_PLACE_BYTES;
		context("a table of %zu bytes", length);
		take_picture(&before, &v);
		EXPECT("step back", step_back(&v).answer, enough ? TS11_DONE : TS11_SMALL_TABLE);
		if (enough)
			expect_afresh(&v);
		put_back(&v, &before);
		free_picture(&before);
		free_buffer(&v.table);
	}
	context("");
	set_number(&u, TS11_AT_OBJECTS, 0);
	EXPECT("an entry with more places than objects", step_back(&u).answer, TS11_BAD_ENTRY);
	free_unit(&u);
}

/* ---- tables of any bytes ----------------------------------------------------------------------------------------- */

/* What may stand in a place here; every list of them up to a length is tried. */
static const uint32_t alphabet[] = { 0, 1, 2, 3, UINT32_MAX };
enum { LETTERS = COUNT(alphabet), MADE_UP_PLACES = 4 };

static void put_number(uint8_t *at, uint32_t value)
{
	for (int i = 0; i < 4; i++)
		at[i] = (uint8_t)(value >> 8 * i);
}

/* The nth list of letters, as first blocks or as marks. */
static void make_up_places(uint8_t *table, size_t count, size_t nth, size_t number_at)
{
	for (size_t i = 0; i < count; i++, nth /= LETTERS)
		put_number(table + i * TS11_PLACE_BYTES + number_at, alphabet[nth % LETTERS]);
}

static size_t lists_of(size_t count)
{
	size_t lists = 1;
	while (count-- > 0)
		lists *= LETTERS;
	return lists;
}

/* The rule of the search as it is told: look at the place in the middle, and go on in one half. */
static size_t halved(const uint8_t *table, uint32_t (*number_of)(const uint8_t *, size_t), size_t bound, size_t from,
                     size_t count)
{
	size_t half = count / 2;
	if (count == 0)
		return from;
	if (number_of(table, from + half) < bound)
		return halved(table, number_of, bound, from + half + 1, count - half - 1);
	return halved(table, number_of, bound, from, half);
}

/* .. and where the numbers never fall: the first that is no less. */
static size_t first_from(const uint8_t *table, uint32_t (*number_of)(const uint8_t *, size_t), size_t bound,
                         size_t count)
{
	size_t at = 0;
	while (at < count && number_of(table, at) < bound)
		at++;
	return at;
}

static bool never_falls(const uint8_t *table, uint32_t (*number_of)(const uint8_t *, size_t), size_t count)
{
	for (size_t i = 1; i < count; i++)
		if (number_of(table, i) < number_of(table, i - 1))
			return false;
	return true;
}

/* The last place is looked at before all others. */
static size_t searched(const uint8_t *table, uint32_t (*number_of)(const uint8_t *, size_t), size_t bound, size_t count)
{
	bool all = count > 0 && number_of(table, count - 1) < bound;
	size_t at = all ? count : halved(table, number_of, bound, 0, count);
	if (never_falls(table, number_of, count))
		EXPECT("the search where numbers never fall", at, first_from(table, number_of, bound, count));
	return at;
}

static void expect_place_found(struct result r, size_t at, size_t count)
{
	EXPECT("answer", r.answer, TS11_DONE);
	EXPECT("*found", r.found, at < count);
	EXPECT("*place", r.place, at < count ? at : 0);
}

/* Both look-ups over one table; u's recorded end is 3. */
static void expect_look_ups_in(struct unit *u, size_t count)
{
	static const size_t sought[] = { 0, 1, 2, 3, 4, UINT32_MAX, TWO_32, SIZE_MAX };
	ROWS(k, sought) {
		size_t file = searched(u->table.at, ts11_place_marks, sought[k], count);
		expect_place_found(find_file(u, sought[k]), file, count);
		size_t behind = sought[k] < 3 ? searched(u->table.at, ts11_place_block, sought[k] + 1, count) : 0;
		expect_place_found(find_block(u, sought[k]), behind - 1, count);
	}
}

/* As many objects as the table has places, or one more. */
static void test_look_ups_in_any_table(void)
{
	make = perform;
	for (size_t count = 0; count <= MADE_UP_PLACES; count++)
		for (size_t nth = 0; nth < lists_of(count); nth++) {
			struct unit u = make_unit_with(SMALL_MEMORY, SMALL_REEL, count * TS11_PLACE_BYTES, 0, 0);
			lay_gaps(u.reel.at, 3);
			context("%zu places, list %zu", count, nth);
			EXPECT("the mount", mount(&u, 0, true, false).answer, TS11_DONE);
			set_number(&u, TS11_AT_END, 3);
			set_number(&u, TS11_AT_OBJECTS, (uint32_t)count);
			make_up_places(u.table.at, count, nth, 0);
			make_up_places(u.table.at, count, lists_of(count) - 1 - nth, 4);
			expect_look_ups_in(&u, count);
			set_number(&u, TS11_AT_OBJECTS, (uint32_t)count + 1);
			EXPECT("a file, an object too many", find_file(&u, 0).answer, TS11_SMALL_TABLE);
			EXPECT("a block, an object too many", find_block(&u, 0).answer, TS11_SMALL_TABLE);
			free_unit(&u);
		}
	make = checked;
	context("");
}

/* What a write at a block must leave of a table: the places before the cut, and one or two more. */
static size_t expect_cut(uint8_t *wanted, const struct unit *u, size_t count, uint32_t block, size_t filled)
{
	size_t at = searched(wanted, ts11_place_block, block, count);
	uint32_t marks = 0;
	if (at > 0) {
		const uint8_t *before = u->reel.at + (size_t)ts11_place_block(wanted, at - 1) * TS11_BLOCK;
		marks = ts11_place_marks(wanted, at - 1) + (word_at(before + TS11_BLOCK_KIND) == TS11_KIND_MARK);
	}
	for (size_t i = 0; i < filled; i++) {
		put_number(wanted + (at + i) * TS11_PLACE_BYTES, block + (uint32_t)i);
		put_number(wanted + (at + i) * TS11_PLACE_BYTES + 4, marks);
	}
	return at + filled;
}

/* Writes over tables of any bytes, at each block of a tape: G 0, M 1, G 2, M 3; a retry meets one of the marks. */
static void test_writes_over_any_table(void)
{
	enum { ROOM = MADE_UP_PLACES + 2 };
	struct unit u = make_unit_with(SMALL_JOURNAL, 8 * TS11_BLOCK, ROOM * TS11_PLACE_BYTES + 3, 4 * SMALL_JOURNAL, 0);
	struct picture start = { 0 };
	uint8_t wanted[ROOM * TS11_PLACE_BYTES + 3];
	lay_mark(u.reel.at, lay_gap(u.reel.at, lay_mark(u.reel.at, lay_gap(u.reel.at, 0))));
	EXPECT("the mount", mount(&u, 4, true, false).answer, TS11_DONE);
	characteristics(&u, TS11_CVC, MESSAGE, TS11_MESSAGE_BYTES, 0);
	take_picture(&start, &u);
	for (size_t count = 0; count <= MADE_UP_PLACES; count++)
		for (size_t nth = 0; nth < lists_of(count); nth++)
			for (uint32_t position = 0; position <= 4; position++) {
				bool retry = position >= 2 && nth % 2;
				put_back(&u, &start);
				make_up_places(u.table.at, count, nth, 0);
				make_up_places(u.table.at, count, (nth * 7 + 3) % lists_of(count), 4);
				set_number(&u, TS11_AT_OBJECTS, (uint32_t)count);
				set_number(&u, TS11_AT_POSITION, position);
				memcpy(wanted, u.table.at, sizeof wanted);
				context("%zu places, list %zu, %s at block %u", count, nth, retry ? "a retry" : "a mark", position);
				size_t left = expect_cut(wanted, &u, count, retry ? (position < 4 ? 1 : 3) : position, retry ? 2 : 1);
				struct ending e = command(&u, (retry ? TS11_WRITE_MARK_RETRY : TS11_WRITE_MARK) | TS11_ACK, 0, 0);
				EXPECT("answer", e.answer, TS11_DONE);
				EXPECT("objects", objects(&u), left);
				EXPECT_BYTES("the table", u.table.at, wanted, sizeof wanted);
			}
	free_picture(&start);
	free_unit(&u);
	context("");
}

/* ---- records and small reels ------------------------------------------------------------------------------------- */

/* A data buffer's bytes in their order: with SWB byte i lies at its address with the lowest bit flipped. */
static void gather(uint8_t *bytes, const struct unit *u, size_t from, size_t length, bool swapped)
{
	for (size_t i = 0; i < length; i++)
		bytes[i] = u->memory.at[(from + i) ^ swapped];
}

/* The record's blocks are those of the second writing of them. */
static void expect_laid(const struct unit *u, size_t at, const uint8_t *bytes, size_t length)
{
	size_t n = pieces(length) * TS11_BLOCK;
	uint8_t *wanted = need(malloc(n));
	lay_record(wanted, 0, bytes, length);
	EXPECT_BYTES("the blocks", u->reel.at + at * TS11_BLOCK, wanted, n);
	free(wanted);
}

/* Back over the record and forward again, to another place. */
static void expect_read_back(struct unit *u, const uint8_t *bytes, size_t length, uint16_t swb)
{
	size_t to = DATA + 2 * TS11_RECORD_MAX;
	uint8_t *got = need(malloc(length));
	for (int reverse = 1; reverse >= 0; reverse--) {
		memset(u->memory.at + to, 0, length + 1);
		struct ending e =
			command(u, (reverse ? TS11_READ_PREVIOUS : TS11_READ_NEXT) | TS11_ACK | swb, to, (uint16_t)length);
		expect_class("read", e, TS11_CLASS_NORMAL);
		EXPECT("entry of the read", e.entry, TS11_ENTRY_HEAD + TS11_MESSAGE_BYTES + length);
		EXPECT("position", number(u, TS11_AT_POSITION), reverse ? 0 : pieces(length));
		gather(got, u, to, length, swb);
		EXPECT_BYTES("data", got, bytes, length);
	}
	free(got);
}

/* A copy of what a step changes, to hold the buffers to after as many steps back. */
struct kept {
	uint8_t *state, *memory, *reel, *table;
};

static uint8_t *kept_bytes(const struct buffer *b)
{
	return memcpy(need(malloc(b->length)), b->at, b->length);
}

static struct kept keep(const struct unit *u)
{
	return (struct kept){ kept_bytes(&u->state), kept_bytes(&u->memory), kept_bytes(&u->reel), kept_bytes(&u->table) };
}

static void expect_undone(struct unit *u, int steps, struct kept *before)
{
	for (int k = 0; k < steps; k++)
		EXPECT("step back", step_back(u).answer, TS11_DONE);
	EXPECT_BYTES("the state before", u->state.at, before->state, u->state.length);
	EXPECT_BYTES("memory before", u->memory.at, before->memory, u->memory.length);
	EXPECT_BYTES("the reel before", u->reel.at, before->reel, u->reel.length);
	EXPECT_BYTES("the table before", u->table.at, before->table, u->table.length);
	free(before->state);
	free(before->memory);
	free(before->reel);
	free(before->table);
}

/* Written, read back in both directions, and all of it undone: each command is a store of its packet, a TSDB write and an advance. */
static void expect_record(size_t length, size_t blocks, uint16_t swb)
{
	struct unit u = unit_of_memory(TS11_MEMORY_MAX);
	bool written = blocks > 0;
	uint8_t *bytes = need(malloc(length + 1));
	context("record of %zu bytes%s", length, swb ? ", SWB" : "");
	characteristics(&u, TS11_CVC, MESSAGE, TS11_MESSAGE_BYTES, 0);
	make_bytes(u.memory.at + DATA, length + 1, 3);
	gather(bytes, &u, DATA, length, swb);
	struct kept before = keep(&u);
	struct ending e = command(&u, TS11_WRITE | TS11_ACK | swb, DATA, (uint16_t)length);
	expect_class("write", e, written ? TS11_CLASS_NORMAL : TS11_CLASS_REJECT);
	EXPECT("XST0 of the write", e.xst0, READY | (written ? TS11_XST0_MOT : TS11_XST0_NEF | TS11_XST0_BOT));
	EXPECT("entry of the write", e.entry,
	       TS11_ENTRY_HEAD + TS11_MESSAGE_BYTES + blocks * TS11_BLOCK + (written ? TS11_PLACE_BYTES : 0));
	EXPECT("position", number(&u, TS11_AT_POSITION), blocks);
	EXPECT("recorded end", number(&u, TS11_AT_END), written ? blocks : 1);
	if (written) {
		expect_laid(&u, 0, bytes, length);
		expect_read_back(&u, bytes, length, swb);
	}
	expect_undone(&u, written ? 9 : 3, &before);
	free(bytes);
	free_unit(&u);
	context("");
}

static void test_records(void)
{
	static const struct {
		size_t length, blocks;
	} rows[] = {
		{ 0, 0 },
		{ 1, 1 },
		{ TS11_BLOCK_DATA, 1 },
		{ TS11_BLOCK_DATA + 1, 2 },
		{ 16383, 33 },
		{ 16384, 33 },
		{ 16385, 33 },
		{ 130 * TS11_BLOCK_DATA, 130 },
		{ 130 * TS11_BLOCK_DATA + 1, 131 },
		{ TS11_RECORD_MAX - 1, 131 },
		{ TS11_RECORD_MAX, 131 },
	};
	ROWS(k, rows) {
		expect_record(rows[k].length, rows[k].blocks, 0);
		expect_record(rows[k].length, rows[k].blocks, TS11_SWB);
	}
}

/* A reel of few blocks filled with marks: class 2 from the one that ends at the marker on, then no room. */
static void test_small_reel(size_t blocks, size_t marker)
{
	struct unit u = make_unit(SMALL_JOURNAL, blocks * TS11_BLOCK, TS11_JOURNAL_MAX / 16, 0);
	context("reel of %zu blocks", blocks);
	EXPECT("the mount", mount(&u, 0, true, false).answer, TS11_DONE);
	struct ending e = characteristics(&u, TS11_CVC, MESSAGE, TS11_MESSAGE_BYTES, 0);
	EXPECT("XST0 at block 0", e.xst0, READY | TS11_XST0_BOT | (marker == 0 ? TS11_XST0_EOT : 0));
	for (size_t k = 1; k <= blocks; k++) {
		e = command(&u, TS11_WRITE_MARK | TS11_ACK, 0, 0);
		expect_class("a mark", e, k < marker ? TS11_CLASS_NORMAL : TS11_CLASS_STATUS);
		EXPECT("XST0", e.xst0, READY | TS11_XST0_TMK | TS11_XST0_MOT | (k < marker ? 0 : TS11_XST0_EOT));
	}
	e = command(&u, TS11_WRITE_MARK | TS11_ACK, 0, 0);
	expect_class("a mark too many", e, TS11_CLASS_REJECT);
	EXPECT("XST0", e.xst0, READY | TS11_XST0_NEF | TS11_XST0_EOT);
	EXPECT("position", number(&u, TS11_AT_POSITION), blocks);
	free_unit(&u);
	context("");
}

static void test_small_reels(void)
{
	test_small_reel(1, 0);
	test_small_reel(159, 0);
	test_small_reel(160, 0);
	test_small_reel(161, 1);
	test_small_reel(162, 2);
}

/* ---- room for long records --------------------------------------------------------------------------------------- */

/* The longest record's blocks, those from the EOT marker to the end, and memory in which such a record just lies. */
enum { LONG_BLOCKS = 131, FROM_MARKER = 160, LONG_MEMORY = DATA + TS11_RECORD_MAX + 1 };

/* At a made-up position, to which no block below it matters; a retry finds a mark before it. */
static struct unit unit_with_room(size_t left, bool retry)
{
	struct unit u = unit_of_memory(LONG_MEMORY);
	size_t at = ROOMY - left;
	characteristics(&u, TS11_CVC, MESSAGE, TS11_MESSAGE_BYTES, 0);
	make_bytes(u.memory.at + DATA, TS11_RECORD_MAX, (unsigned)left);
	if (retry)
		at = lay_mark(u.reel.at, at);
	set_number(&u, TS11_AT_END, (uint32_t)at);
	set_number(&u, TS11_AT_POSITION, (uint32_t)at);
	return u;
}

/* A record, or a retry's gap and record in a mark's place, with so many blocks left: it fits, or finds EOT (step 11). */
static void expect_room(size_t length, bool retry, size_t left)
{
	struct unit u = unit_with_room(left, retry);
	size_t before = number(&u, TS11_AT_POSITION), needed = pieces(length) + retry;
	bool fits = needed <= left, eot = !fits || left - needed <= FROM_MARKER;
	size_t after = fits ? ROOMY - left + needed : before;
	size_t kept = needed * TS11_BLOCK + (retry ? 2 : 1) * TS11_PLACE_BYTES;
	context("%s of %zu bytes with %zu blocks left", retry ? "retry" : "write", length, left);
	struct ending e = command(&u, (retry ? TS11_WRITE_RETRY : TS11_WRITE) | TS11_ACK, DATA, (uint16_t)length);
	expect_class("class", e, !fits ? TS11_CLASS_REJECT : eot ? TS11_CLASS_STATUS : TS11_CLASS_NORMAL);
	EXPECT("XST0", e.xst0, READY | (fits ? TS11_XST0_MOT : TS11_XST0_NEF) | (eot ? TS11_XST0_EOT : 0));
	EXPECT("XST3", e.xst3, 0);
	EXPECT("residual", e.residual, 0);
	EXPECT("entry", e.entry, TS11_ENTRY_HEAD + TS11_MESSAGE_BYTES + (fits ? kept : 0));
	EXPECT("position", number(&u, TS11_AT_POSITION), after);
	EXPECT("recorded end", number(&u, TS11_AT_END), after);
	free_unit(&u);
	context("");
}

static void test_room(void)
{
	static const size_t lengths[] = { 1, TS11_BLOCK_DATA + 1, 16384, 130 * TS11_BLOCK_DATA, TS11_RECORD_MAX };
	for (int retry = 0; retry < 2; retry++) {
		ROWS(k, lengths) {
			size_t needed = pieces(lengths[k]) + (size_t)retry;
			expect_room(lengths[k], retry, needed - 1);
			expect_room(lengths[k], retry, needed);
			expect_room(lengths[k], retry, needed + FROM_MARKER);
			expect_room(lengths[k], retry, needed + FROM_MARKER + 1);
		}
		expect_room(TS11_RECORD_MAX, retry, 1);
	}
	expect_room(TS11_RECORD_MAX, false, 0);
}

/* Behind the longest record, with a command for such a one waiting. */
static struct unit unit_with_long(size_t journal, uint16_t header)
{
	struct unit u = make_unit(LONG_MEMORY, ROOMY * TS11_BLOCK, journal, 0);
	EXPECT("the longest record's blocks", lay_record(u.reel.at, 0, host, TS11_RECORD_MAX), LONG_BLOCKS);
	EXPECT("the mount", mount(&u, LONG_BLOCKS, true, false).answer, TS11_DONE);
	characteristics(&u, TS11_CVC, MESSAGE, TS11_MESSAGE_BYTES, 0);
	set_number(&u, TS11_AT_POSITION, LONG_BLOCKS);
	EXPECT("the packet's store", put_packet(&u, header | TS11_ACK, DATA, TS11_RECORD_MAX), TS11_DONE);
	EXPECT("the TSDB write", write_tsdb(&u, TS11_TSDB(PACKET)).answer, TS11_DONE);
	return u;
}

/* A journal with a byte less than the step's entry wants: nothing changes; and one with just enough, and back again. */
static void test_long_entries(void)
{
	static const struct {
		const char *name;
		uint16_t header;
		size_t entry;
	} rows[] = {
		{ "read", TS11_READ_PREVIOUS, 65677 },
		{ "swapped read", TS11_READ_PREVIOUS | TS11_SWB, 65677 },
		{ "write", TS11_WRITE, 67222 },
		{ "write retry, which has the longest entry of all", TS11_WRITE_RETRY, 67742 },
	};
	ROWS(k, rows)
		for (size_t less = 0; less < 2; less++) {
			struct unit u = unit_with_long(SMALL_JOURNAL, rows[k].header);
			size_t before = used(&u);
			free_unit(&u);
			context("%s of the longest record, with %zu bytes of room less", rows[k].name, less);
			u = unit_with_long(before + rows[k].entry - less, rows[k].header);
			struct kept bytes = keep(&u);
			EXPECT("answer", advance(&u).answer, less ? TS11_JOURNAL_FULL : TS11_DONE);
			EXPECT("used journal", used(&u), before + (less ? 0 : rows[k].entry));
			expect_undone(&u, less ? 0 : 1, &bytes);
			free_unit(&u);
		}
	context("");
}

/* ---- as many objects as there can be ----------------------------------------------------------------------------- */

static struct unit unit_of_marks(void)
{
	struct unit u = make_unit(SMALL_JOURNAL, REEL_MAX, 4 * SMALL_JOURNAL, 0);
	for (size_t at = 0; at < TS11_REEL_BLOCKS_MAX;)
		at = lay_mark(u.reel.at, at);
	return u;
}

/* Each mark is found, as a block and as the first object of its file; behind the last there is none. */
static void expect_all_found(struct unit *u)
{
	size_t wrong = 0;
	make = perform;
	for (size_t k = 0; k < TS11_REEL_BLOCKS_MAX; k++) {
		struct result file = find_file(u, k), block = find_block(u, k);
		wrong += file.answer || block.answer || !file.found || !block.found || file.place != k || block.place != k;
	}
	EXPECT("marks that are not found", wrong, 0);
	EXPECT("a file behind the last mark", find_file(u, TS11_REEL_BLOCKS_MAX).found, false);
	EXPECT("a block behind it", find_block(u, TS11_REEL_BLOCKS_MAX).found, false);
	make = checked;
}

/* A mark at the last block, over the one there: as many objects as before, in a table of just as many places. */
static void expect_last_rewritten(struct unit *u)
{
	struct kept before = keep(u);
	set_number(u, TS11_AT_POSITION, TS11_REEL_BLOCKS_MAX - 1);
	memcpy(before.state, u->state.at, u->state.length);
	expect_class("a mark over the last", command(u, TS11_WRITE_MARK | TS11_ACK, 0, 0), TS11_CLASS_STATUS);
	EXPECT("objects", objects(u), TS11_REEL_BLOCKS_MAX);
	expect_afresh(u);
	expect_undone(u, 3, &before);
}

static void test_most_objects(void)
{
	static const size_t less[] = { 1, TS11_PLACE_BYTES };
	struct unit u = unit_of_marks();
	context("65,536 marks");
	ROWS(k, less) {
		struct unit v = u;
		v.table = make_buffer(u.table.length - less[k], 0);
		EXPECT("a table that is too small", mount(&v, TS11_REEL_BLOCKS_MAX, true, false).answer, TS11_SMALL_TABLE);
		EXPECT("without the last mark", mount(&v, TS11_REEL_BLOCKS_MAX - 1, true, false).answer, TS11_DONE);
		free_buffer(&v.table);
	}
	EXPECT("a table of just as many places", mount(&u, TS11_REEL_BLOCKS_MAX, true, false).answer, TS11_DONE);
	EXPECT("objects", objects(&u), TS11_REEL_BLOCKS_MAX);
	expect_all_found(&u);
	characteristics(&u, TS11_CVC, MESSAGE, TS11_MESSAGE_BYTES, 0);
	struct kept before = keep(&u);
	command(&u, TS11_ERASE | TS11_ACK, 0, 0);
	EXPECT("objects after a gap at BOT", objects(&u), 1);
	expect_undone(&u, 3, &before);
	expect_all_found(&u);
	free_unit(&u);
	u = unit_of_marks();
	EXPECT("the mount", mount(&u, TS11_REEL_BLOCKS_MAX, true, false).answer, TS11_DONE);
	characteristics(&u, TS11_CVC, MESSAGE, TS11_MESSAGE_BYTES, 0);
	expect_last_rewritten(&u);
	free_unit(&u);
	context("");
}

/* ---- full size: the session -------------------------------------------------------------------------------------- */

/*
 * On the reel: records of 1, 504 and 505 bytes, a gap, a mark, and records of the greatest length up to PRERECORDED;
 * the unit writes WRITTEN more, then one that fills the reel to its very end.
 */
enum {
	AFTER_MARK = 6,
	LONG_RECORDS = (TS11_REEL_BLOCKS_MAX - AFTER_MARK) / LONG_BLOCKS,
	WRITTEN = 200,
	PRERECORDED = AFTER_MARK + (LONG_RECORDS - WRITTEN) * LONG_BLOCKS,
	LONG_END = AFTER_MARK + LONG_RECORDS * LONG_BLOCKS,
	LAST_BLOCKS = TS11_REEL_BLOCKS_MAX - LONG_END,
	LAST = LAST_BLOCKS * TS11_BLOCK_DATA,
	MEMORY_END = TS11_MEMORY_MAX
};

static struct unit full;
static struct picture fresh; /* right after the mount */
static size_t standing;      /* entries in the journal, counted here */

static struct result counted(struct unit *u, const struct call *c)
{
	struct result r = perform(u, c);
	if (is_step(c, &r))
		standing++;
	if (c->kind == STEP_BACK && r.answer == TS11_DONE)
		standing--;
	return r;
}

static size_t free_room(void)
{
	return TS11_JOURNAL_MAX - used(&full);
}

/* A refusal, with nothing changed in 50 million bytes. */
static void expect_refused(const char *what, const struct call *c, ts11_answer wanted)
{
	static struct picture before;
	take_picture(&before, &full);
	EXPECT(what, counted(&full, c).answer, wanted);
	expect_same(what, &full, &before);
}

static void lay_full_reel(void)
{
	uint8_t *reel = full.reel.at, *bytes = need(malloc(TS11_RECORD_MAX));
	make_bytes(bytes, TS11_RECORD_MAX, 9);
	size_t at = lay_record(reel, 0, bytes, 1);
	at = lay_record(reel, at, bytes, TS11_BLOCK_DATA);
	at = lay_record(reel, at, bytes, TS11_BLOCK_DATA + 1);
	at = lay_gap(reel, at);
	at = lay_mark(reel, at);
	EXPECT("the block after the mark", at, AFTER_MARK);
	for (; at < PRERECORDED; bytes[0]++)
		at = lay_record(reel, at, bytes, TS11_RECORD_MAX);
	EXPECT("the prerecorded end", at, PRERECORDED);
	memset(reel + at * TS11_BLOCK, 0xC3, full.reel.length - at * TS11_BLOCK);
	free(bytes);
}

static void full_mount(void)
{
	full = make_unit(MEMORY_END, REEL_MAX, TS11_JOURNAL_MAX, 0);
	make_bytes(full.memory.at, full.memory.length, 77);
	lay_full_reel();
	EXPECT("the mount", mount(&full, PRERECORDED, true, false).answer, TS11_DONE);
	expect_afresh(&full);
	take_picture(&fresh, &full);
	standing = 0;
}

/* A command, with its class, XST0 beside ONL and PED, residual and the position it ends at. */
static struct ending expect_command(const char *what, uint16_t header, size_t pointer, uint16_t count, unsigned class,
                                    unsigned xst0, unsigned residual, size_t position)
{
	struct ending e = command(&full, header | TS11_ACK, pointer, count);
	expect_class(what, e, class);
	EXPECT(what, e.xst0, READY | xst0);
	EXPECT(what, e.residual, residual);
	EXPECT(what, number(&full, TS11_AT_POSITION), position);
	return e;
}

static void full_to_the_end(void)
{
	characteristics(&full, TS11_CVC, MESSAGE, TS11_MESSAGE_BYTES, 0);
	expect_command("skip to the mark", TS11_SKIP_MARKS, 1, 0, 0, TS11_XST0_MOT | TS11_XST0_TMK, 0, AFTER_MARK);
	expect_command("space to the end", TS11_SPACE_RECORDS, LONG_RECORDS - WRITTEN, 0, 0, TS11_XST0_MOT, 0, PRERECORDED);
	struct ending e = expect_command("space past it", TS11_SPACE_RECORDS, 2, 0, TS11_CLASS_LOST, 0, 2, PRERECORDED);
	EXPECT("XST3 past the end", e.xst3, TS11_XST3_OPI);
}

/* Where in memory record k comes from. */
static size_t written_from(size_t k)
{
	return MEMORY_END - TS11_RECORD_MAX - 8 * k;
}

/* Records of the greatest length, the first from data that ends where memory ends; a byte further is no memory. */
static void full_write(void)
{
	expect_command("data past memory", TS11_WRITE, MEMORY_END - TS11_RECORD_MAX + 1, TS11_RECORD_MAX,
	               TS11_CLASS_UNMOVED, 0, 0, PRERECORDED);
	for (size_t k = 0; k < WRITTEN; k++) {
		size_t from = written_from(k), end = PRERECORDED + (k + 1) * LONG_BLOCKS;
		bool eot = end >= TS11_REEL_BLOCKS_MAX - FROM_MARKER;
		struct ending e =
			expect_command("write", TS11_WRITE, from, TS11_RECORD_MAX, eot ? TS11_CLASS_STATUS : TS11_CLASS_NORMAL,
		                   TS11_XST0_MOT | (eot ? TS11_XST0_EOT : 0), 0, end);
		EXPECT("entry", e.entry,
		       TS11_ENTRY_HEAD + TS11_MESSAGE_BYTES + LONG_BLOCKS * TS11_BLOCK + TS11_PLACE_BYTES);
		EXPECT("recorded end", number(&full, TS11_AT_END), end);
		expect_afresh(&full);
	}
	expect_laid(&full, PRERECORDED, full.memory.at + written_from(0), TS11_RECORD_MAX);
}

/* Step 11: what does not fit is rejected, what just fits is written, and then nothing fits. */
static void full_fill_reel(void)
{
	enum { NO_ROOM = TS11_XST0_NEF | TS11_XST0_EOT, FILLED = TS11_REEL_BLOCKS_MAX };
	size_t from = MEMORY_END - LAST;
	expect_command("a long record", TS11_WRITE, DATA, TS11_RECORD_MAX, TS11_CLASS_REJECT, NO_ROOM, 0, LONG_END);
	expect_command("a byte too many", TS11_WRITE, from - 1, LAST + 1, TS11_CLASS_REJECT, NO_ROOM, 0, LONG_END);
	expect_command("to the very end", TS11_WRITE, from, LAST, TS11_CLASS_STATUS, TS11_XST0_MOT | TS11_XST0_EOT, 0,
	               FILLED);
	EXPECT("recorded end", number(&full, TS11_AT_END), FILLED);
	expect_afresh(&full);
	expect_command("a byte", TS11_WRITE, DATA, 1, TS11_CLASS_REJECT, NO_ROOM, 0, FILLED);
	expect_command("a mark", TS11_WRITE_MARK, 0, 0, TS11_CLASS_REJECT, NO_ROOM, 0, FILLED);
	expect_command("a gap", TS11_ERASE, 0, 0, TS11_CLASS_REJECT, NO_ROOM, 0, FILLED);
	expect_command("a retry with its gap", TS11_WRITE_RETRY, from, LAST, TS11_CLASS_REJECT, NO_ROOM, 0, FILLED);
	expect_command("forward", TS11_READ_NEXT, DATA, 1, TS11_CLASS_LOST, TS11_XST0_EOT, 1, FILLED);
}

/* The last record in reverse, to data that ends where memory ends; the buffer is longer than the record. */
static void full_read_last(void)
{
	uint8_t *bytes = need(malloc(LAST));
	memcpy(bytes, full.memory.at + MEMORY_END - LAST, LAST);
	host_store(&full, MEMORY_END - LAST, host, LAST);
	struct ending e = expect_command("the last record in reverse", TS11_READ_PREVIOUS, MEMORY_END - TS11_RECORD_MAX,
	                                 TS11_RECORD_MAX, TS11_CLASS_STATUS, TS11_XST0_RLS | TS11_XST0_MOT | TS11_XST0_EOT,
	                                 TS11_RECORD_MAX - LAST, LONG_END);
	EXPECT("XST3", e.xst3, TS11_XST3_REV);
	EXPECT("entry", e.entry, TS11_ENTRY_HEAD + TS11_MESSAGE_BYTES + LAST);
	EXPECT_BYTES("its bytes", full.memory.at + MEMORY_END - LAST, bytes, LAST);
	free(bytes);
}

/* The last of the longest records, in reverse and forward again; with SWB the bytes of each word change places. */
static void full_read_long(void)
{
	enum { ENTRY = TS11_ENTRY_HEAD + TS11_MESSAGE_BYTES + TS11_RECORD_MAX, FIRST = LONG_END - LONG_BLOCKS };
	size_t from = written_from(WRITTEN - 1);
	uint8_t *bytes = need(malloc(TS11_RECORD_MAX));
	struct ending e = expect_command("a long record in reverse", TS11_READ_PREVIOUS, DATA, TS11_RECORD_MAX,
	                                 TS11_CLASS_NORMAL, TS11_XST0_MOT, 0, FIRST);
	EXPECT("XST3", e.xst3, TS11_XST3_REV);
	EXPECT("entry", e.entry, ENTRY);
	EXPECT_BYTES("its bytes", full.memory.at + DATA, full.memory.at + from, TS11_RECORD_MAX);
	e = expect_command("a long record forward, SWB", TS11_READ_NEXT | TS11_SWB, DATA, TS11_RECORD_MAX,
	                   TS11_CLASS_NORMAL, TS11_XST0_MOT | TS11_XST0_EOT, 0, LONG_END);
	EXPECT("XST3", e.xst3, 0);
	EXPECT("entry", e.entry, ENTRY);
	gather(bytes, &full, DATA, TS11_RECORD_MAX, true);
	EXPECT_BYTES("its bytes", bytes, full.memory.at + from, TS11_RECORD_MAX);
	free(bytes);
}

/* A full reel is mounted whole by another unit; an end one block further is refused. */
static void full_mount_whole(void)
{
	struct unit other = full;
	other.state = make_buffer(TS11_STATE_BYTES, 0);
	other.table = make_buffer(objects(&full) * TS11_PLACE_BYTES, 0);
	EXPECT("an end beyond capacity",
	       perform(&other, &(struct call){ .kind = MOUNT, .recorded_end = TS11_REEL_BLOCKS_MAX + 1 }).answer,
	       TS11_BAD_REEL);
	EXPECT("its state", all_are(other.state.at, TS11_STATE_BYTES, 0), true);
	EXPECT("an end at capacity",
	       perform(&other, &(struct call){ .kind = MOUNT, .recorded_end = TS11_REEL_BLOCKS_MAX }).answer, TS11_DONE);
	EXPECT("its end", number(&other, TS11_AT_END), TS11_REEL_BLOCKS_MAX);
	EXPECT_BYTES("its table", other.table.at, full.table.at, other.table.length);
	free_buffer(&other.state);
	free_buffer(&other.table);
}

/* Back over everything: to the mark, over it, to BOT; then by marks, there and back. */
static void full_to_bot(void)
{
	enum { MOST = 65535, SHORT = TS11_XST0_RLS | TS11_XST0_MOT, RIB = TS11_XST3_RIB | TS11_XST3_REV };
	expect_command("back to the mark", TS11_SPACE_RECORDS_REVERSE, LONG_RECORDS, 0, 0, TS11_XST0_MOT, 0, AFTER_MARK);
	expect_command("over it", TS11_SPACE_RECORDS_REVERSE, MOST, 0, TS11_CLASS_STATUS, TS11_XST0_TMK | SHORT, MOST,
	               AFTER_MARK - 1);
	struct ending e = expect_command("to BOT", TS11_SPACE_RECORDS_REVERSE, MOST, 0, TS11_CLASS_STATUS,
	                                 SHORT | TS11_XST0_BOT, MOST - 3, 0);
	EXPECT("XST3 at BOT", e.xst3, RIB);
	expect_command("reverse at BOT", TS11_SPACE_RECORDS_REVERSE, 1, 0, TS11_CLASS_REJECT, TS11_XST0_NEF | TS11_XST0_BOT,
	               1, 0);
	expect_command("marks to the end", TS11_SKIP_MARKS, MOST, 0, TS11_CLASS_LOST,
	               TS11_XST0_TMK | TS11_XST0_MOT | TS11_XST0_EOT, MOST - 1, TS11_REEL_BLOCKS_MAX);
	e = expect_command("marks to BOT", TS11_SKIP_MARKS_REVERSE, MOST, 0, TS11_CLASS_STATUS,
	                   SHORT | TS11_XST0_TMK | TS11_XST0_BOT, MOST - 1, 0);
	EXPECT("XST3 at BOT", e.xst3, RIB);
}

/* A write at BOT ends the reel after one block; the 65,535 others are forgotten, and step back must bring them back. */
static void full_write_at_bot(void)
{
	expect_command("a mark at BOT", TS11_WRITE_MARK, 0, 0, 0, TS11_XST0_TMK | TS11_XST0_MOT, 0, 1);
	EXPECT("recorded end", number(&full, TS11_AT_END), 1);
	EXPECT("objects", objects(&full), 1);
	expect_afresh(&full);
}

/* ---- full size: the journal -------------------------------------------------------------------------------------- */

static const struct call store_most = {
	.kind = HOST_STORE, .address = MEMORY_END - TS11_HOST_STORE_MAX, .bytes = host, .length = TS11_HOST_STORE_MAX
};

/* The largest stores, at the end of memory, as long as the free room holds their entry. */
static void full_fill_journal(void)
{
	enum { ENTRY = TS11_ENTRY_HEAD + TS11_HOST_STORE_MAX };
	while (free_room() >= ENTRY) {
		size_t before = used(&full);
		make_bytes(host, TS11_HOST_STORE_MAX, (unsigned)before);
		if (!EXPECT("a store that fits", counted(&full, &store_most).answer, TS11_DONE))
			return;
		EXPECT("its entry", used(&full) - before, ENTRY);
	}
	EXPECT_BYTES("memory's end", full.memory.at + MEMORY_END - TS11_HOST_STORE_MAX, host, TS11_HOST_STORE_MAX);
	expect_refused("a store that does not fit", &store_most, TS11_JOURNAL_FULL);
}

/* One store that leaves exactly this much room, far from packet and message. */
static void leave_room(size_t room)
{
	size_t length = free_room() - TS11_ENTRY_HEAD - room;
	EXPECT("the store that leaves room", host_store(&full, MEMORY_END - length, host, length).answer, TS11_DONE);
	EXPECT("free room", free_room(), room);
}

/* A step with an entry of this length: refused with a byte less of room, answered 0 with just enough; then undone. */
static void expect_fits_exactly(const char *what, const struct call *c, size_t entry)
{
	leave_room(entry - 1);
	expect_refused(what, c, TS11_JOURNAL_FULL);
	EXPECT("step back over the filler", step_back(&full).answer, TS11_DONE);
	leave_room(entry);
	EXPECT(what, counted(&full, c).answer, TS11_DONE);
	EXPECT("free room after it", free_room(), 0);
	EXPECT("step back over it", step_back(&full).answer, TS11_DONE);
	EXPECT("step back over the filler", step_back(&full).answer, TS11_DONE);
}

/* The command waits while the room is made. */
static void expect_command_fits_exactly(const char *what, uint16_t header, size_t pointer, uint16_t count,
                                        size_t stored)
{
	put_packet(&full, header | TS11_ACK, pointer, count);
	write_tsdb(&full, TS11_TSDB(PACKET));
	expect_fits_exactly(what, &(struct call){ .kind = ADVANCE }, TS11_ENTRY_HEAD + stored);
	EXPECT("step back over TSDB", step_back(&full).answer, TS11_DONE);
	EXPECT("step back over the packet", step_back(&full).answer, TS11_DONE);
}

static void full_exact_room(void)
{
	enum { SENT = TS11_MESSAGE_BYTES, PLACE = TS11_PLACE_BYTES };
	expect_fits_exactly("TSDB", &(struct call){ .kind = WRITE_TSDB, .word = 4 }, TS11_ENTRY_HEAD);
	expect_fits_exactly("TSSR", &(struct call){ .kind = WRITE_TSSR }, TS11_ENTRY_HEAD);
	expect_fits_exactly("a switch", &(struct call){ .kind = OPERATE, .which = TS11_SWITCH_WRITE_LOCK, .on = true },
	                    TS11_ENTRY_HEAD);
	expect_fits_exactly("a store of 0", &(struct call){ .kind = HOST_STORE, .bytes = host }, TS11_ENTRY_HEAD);
	expect_fits_exactly("a store of 77", &(struct call){ .kind = HOST_STORE, .bytes = host, .length = 77 },
	                    TS11_ENTRY_HEAD + 77);
	expect_command_fits_exactly("release", TS11_RELEASE, 0, 0, 0);
	expect_command_fits_exactly("get status", TS11_GET_STATUS, 0, 0, SENT);
	expect_command_fits_exactly("read a mark", TS11_READ_PREVIOUS, DATA, 9, SENT);
	expect_command_fits_exactly("erase", TS11_ERASE, 0, 0, SENT + TS11_BLOCK + PLACE);
	expect_command_fits_exactly("write", TS11_WRITE, DATA, 505, SENT + 2 * TS11_BLOCK + PLACE);
	expect_command_fits_exactly("write retry", TS11_WRITE_RETRY, DATA, 505, SENT + 3 * TS11_BLOCK + 2 * PLACE);
}

/* No room at all: every step is refused, also with a command waiting; an idle advance and the registers need none. */
static void full_no_room(void)
{
	leave_room(0);
	EXPECT("used journal", used(&full), TS11_JOURNAL_MAX);
	expect_refused("TSDB", &(struct call){ .kind = WRITE_TSDB }, TS11_JOURNAL_FULL);
	expect_refused("TSSR", &(struct call){ .kind = WRITE_TSSR }, TS11_JOURNAL_FULL);
	expect_refused("a switch", &(struct call){ .kind = OPERATE }, TS11_JOURNAL_FULL);
	expect_refused("a store of 0", &(struct call){ .kind = HOST_STORE, .bytes = host }, TS11_JOURNAL_FULL);
	expect_refused("a store past memory",
	               &(struct call){ .kind = HOST_STORE, .address = SIZE_MAX, .bytes = host, .length = 1 },
	               TS11_BAD_STORE);
	expect_refused("an idle advance", &(struct call){ .kind = ADVANCE }, TS11_DONE);
	expect_refused("TSBA", &(struct call){ .kind = READ_REGISTER, .which = TS11_REGISTER_TSBA }, TS11_DONE);
	EXPECT("step back over the filler", step_back(&full).answer, TS11_DONE);
	put_packet(&full, TS11_READ_PREVIOUS | TS11_ACK, DATA, 9);
	write_tsdb(&full, TS11_TSDB(PACKET));
	leave_room(0);
	expect_refused("a command", &(struct call){ .kind = ADVANCE }, TS11_JOURNAL_FULL);
	full.reel.at[TS11_BLOCK_CHECK] ^= 1;
	expect_refused("a command at a damaged block", &(struct call){ .kind = ADVANCE }, TS11_BAD_BLOCK);
	full.reel.at[TS11_BLOCK_CHECK] ^= 1;
}

/* One byte more or less of any buffer, at full size. */
static void full_other_lengths(void)
{
	struct unit whole = full;
	const struct call c = { .kind = STEP_BACK };
	full.memory.length = whole.memory.length - 1;
	expect_refused("memory less one", &c, TS11_BAD_MEMORY);
	full.memory.length = whole.memory.length - 2;
	expect_refused("memory less two", &c, TS11_BAD_MEMORY);
	full.memory = whole.memory;
	full.reel.length = whole.reel.length - 1;
	expect_refused("reel less one", &c, TS11_BAD_REEL);
	full.reel.length = whole.reel.length - TS11_BLOCK;
	expect_refused("reel less a block", &c, TS11_BAD_REEL);
	full.reel = whole.reel;
	full.journal.length = whole.journal.length - 1;
	expect_refused("journal less one", &c, TS11_BAD_JOURNAL);
	full.journal = whole.journal;
	full.table.length = objects(&full) * TS11_PLACE_BYTES - 1;
	expect_refused("a place less than objects", &c, TS11_SMALL_TABLE);
	full.table = whole.table;
}

/* Back over all entries: state, memory and reel are those of the mount. */
static size_t full_all_back(void)
{
	size_t steps = 0, entries = standing;
	while (steps <= entries && counted(&full, &(struct call){ .kind = STEP_BACK }).answer == TS11_DONE)
		steps++;
	EXPECT("steps back", steps, entries);
	expect_refused("one more", &(struct call){ .kind = STEP_BACK }, TS11_NO_ENTRY);
	expect_same("all stepped back", &full, &fresh);
	expect_afresh(&full);
	EXPECT("used journal", used(&full), 0);
	return steps;
}

static size_t test_full_size(void)
{
	context("full size");
	make = counted;
	full_mount();
	full_to_the_end();
	full_write();
	full_fill_reel();
	full_read_last();
	full_read_long();
	full_mount_whole();
	full_to_bot();
	full_write_at_bot();
	full_fill_journal();
	full_exact_room();
	full_no_room();
	full_other_lengths();
	size_t steps = full_all_back();
	make = checked;
	free_unit(&full);
	free_picture(&fresh);
	context("");
	return steps;
}

int main(void)
{
	char done[100];
	make_bytes(host, sizeof host, 42);
	test_mount_memory();
	test_mount_reel();
	test_mount_journal();
	test_mount_recorded_end();
	test_mount_order();
	test_other_lengths();
	test_made_up_states();
	test_made_up_message();
	test_host_stores();
	test_small_host_stores();
	test_no_entries();
	test_damaged_entry();
	test_empty_buffers();
	test_least_memory();
	test_memory_ends();
	test_blocks_at_fault();
	test_table_lengths();
	test_table_room();
	test_table_order();
	test_table_mended();
	test_look_ups_in_any_table();
	test_writes_over_any_table();
	test_records();
	test_small_reels();
	test_room();
	test_long_entries();
	test_most_objects();
	size_t steps = test_full_size();
	snprintf(done, sizeof done, "every limit and fault, and %zu steps of full size stepped back", steps);
	return summary("limits", done);
}
