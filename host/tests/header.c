/*
 * header: shows by the library's behaviour that every constant of ts11.h is the library's. Most are measured: what the
 * unit does or shows gives a number, and that must be the constant, so that any other value in the header is noticed.
 * Compile with -I host/include and link with libts11.a; spoil.sh shows that this program notices what it should.
 */
#include "names.h"

#include "driver.h"

_Static_assert(_Generic((ts11_answer)0, size_t: 1, default: 0), "an answer is a size_t");
_Static_assert(sizeof(ts11_state) == TS11_STATE_BYTES, "a state is its bytes and nothing else");
_Static_assert(_Generic(TS11_TSDB(0), uint16_t: 1, default: 0), "the TSDB word is a word");
_Static_assert(_Generic(TS11_COMMAND(0, 0), uint16_t: 1, default: 0), "a packet's header is a word");
_Static_assert(TS11_STACK_BYTES == 2048, "what hosts were told; stack.c shows that a call keeps to it");

/* ---- the unit under test ----------------------------------------------------------------------------------------- */

enum { MEMORY_BYTES = 4096, REEL_BLOCKS = 176, JOURNAL_BYTES = 65536, TAPE_END = 9, TAPE_OBJECTS = 8, HERE = 3 };

static struct unit u;

/* R 0 2, M 1, R 2 7, R 3 9, G 4, M 5, M 6, R 7 505: from block 3 every motion has something of its own to meet. */
static void lay_tape(void)
{
	uint8_t *reel = u.reel.at, bytes[505];
	make_bytes(bytes, sizeof bytes, 1);
	size_t at = lay_record(reel, 0, (const uint8_t *)"AB", 2);
	at = lay_mark(reel, at);
	at = lay_record(reel, at, (const uint8_t *)"ABCDEFG", 7);
	at = lay_record(reel, at, (const uint8_t *)"abcdefghi", 9);
	at = lay_gap(reel, at);
	at = lay_mark(reel, at);
	at = lay_mark(reel, at);
	EXPECT("the tape's end", lay_record(reel, at, bytes, sizeof bytes), TAPE_END);
}

/* A unit freshly mounted. */
static void mounted(void)
{
	free_unit(&u);
	u = make_unit(MEMORY_BYTES, REEL_BLOCKS * TS11_BLOCK, JOURNAL_BYTES, GUARD);
	lay_tape();
	EXPECT("the mount", mount(&u, TAPE_END, true, false).answer, TS11_DONE);
}

/* A unit with a message buffer, volume check cleared, at a block. */
static void ready(uint16_t mode, uint32_t position)
{
	mounted();
	characteristics(&u, TS11_CVC, MESSAGE, TS11_MESSAGE_BYTES, mode);
	EXPECT("NBA of the unit made ready", number(&u, TS11_AT_NBA), 0);
	set_number(&u, TS11_AT_POSITION, position);
}

static struct ending get_status(void)
{
	return command(&u, TS11_GET_STATUS | TS11_ACK, 0, 0);
}

/* ---- offsets lie where they can ---------------------------------------------------------------------------------- */

static const size_t state_offsets[] = {
	TS11_AT_POSITION, TS11_AT_END,        TS11_AT_POINTER, TS11_AT_CLASS,          TS11_AT_RMR,     TS11_AT_NXM,
	TS11_AT_NBA,      TS11_AT_SSR,        TS11_AT_ONLINE,  TS11_AT_LOCKED,         TS11_AT_VCK,     TS11_AT_UNIT_OWNS,
	TS11_AT_PENDING,  TS11_AT_RELEASE_IE, TS11_AT_MESSAGE, TS11_AT_MESSAGE_LENGTH, TS11_AT_EAI,     TS11_AT_ESS,
	TS11_AT_ENB,      TS11_AT_MEMORY,     TS11_AT_BLOCKS,  TS11_AT_USED,           TS11_AT_JOURNAL, TS11_AT_OBJECTS,
};
enum { NUMBERS = COUNT(state_offsets) };

static const size_t message_offsets[] = { TS11_MESSAGE_HEADER, TS11_MESSAGE_LENGTH, TS11_MESSAGE_RESIDUAL,
	                                      TS11_MESSAGE_XST0,   TS11_MESSAGE_XST1,   TS11_MESSAGE_XST2,
	                                      TS11_MESSAGE_XST3 };

static const size_t block_offsets[] = { TS11_BLOCK_KIND, TS11_BLOCK_LENGTH, TS11_BLOCK_INDEX, TS11_BLOCK_BYTES,
	                                    TS11_BLOCK_CHECK };

/* Asked first: the rest puts bytes at these places. */
static bool offsets_inside(void)
{
	bool inside = EXPECT("a block's data inside it", TS11_BLOCK_BYTES + TS11_BLOCK_DATA <= TS11_BLOCK, true);
	ROWS(k, state_offsets)
		inside &= EXPECT("a state offset inside it", state_offsets[k] + 4 <= TS11_STATE_BYTES, true);
	ROWS(k, message_offsets)
		inside &= EXPECT("a message offset inside it", message_offsets[k] + 2 <= TS11_MESSAGE_BYTES, true);
	ROWS(k, block_offsets)
		inside &= EXPECT("a block offset inside it", block_offsets[k] + 2 <= TS11_BLOCK, true);
	return inside;
}

/* ---- limits ------------------------------------------------------------------------------------------------------ */

static void test_mount_limits(void)
{
	static const struct {
		const char *name;
		size_t memory, reel, journal;
		ts11_answer answer;
	} rows[] = {
		{ "largest memory", TS11_MEMORY_MAX, TS11_BLOCK, 0, TS11_DONE },
		{ "memory beyond", TS11_MEMORY_MAX + 2, TS11_BLOCK, 0, TS11_BAD_MEMORY },
		{ "reel of a block less one", 2, TS11_BLOCK - 1, 0, TS11_BAD_REEL },
		{ "reel of a block", 2, TS11_BLOCK, 0, TS11_DONE },
		{ "reel of a block and one", 2, TS11_BLOCK + 1, 0, TS11_BAD_REEL },
		{ "largest reel", 2, (size_t)TS11_REEL_BLOCKS_MAX * TS11_BLOCK, 0, TS11_DONE },
		{ "reel beyond", 2, ((size_t)TS11_REEL_BLOCKS_MAX + 1) * TS11_BLOCK, 0, TS11_BAD_REEL },
		{ "largest journal", 2, TS11_BLOCK, TS11_JOURNAL_MAX, TS11_DONE },
		{ "journal beyond", 2, TS11_BLOCK, TS11_JOURNAL_MAX + 1, TS11_BAD_JOURNAL },
	};
	ROWS(k, rows) {
		struct buffer state = make_buffer(TS11_STATE_BYTES, GUARD), reel = make_buffer(rows[k].reel, 0);
		ts11_state *s = (ts11_state *)state.at;
		size_t block = 1;
		uint8_t fault = 1, no_table;
		context("%s", rows[k].name);
		EXPECT("mount",
		       ts11_mount(s, rows[k].memory, reel.at, rows[k].reel, &no_table, 0, rows[k].journal, 0, true, false,
		                  &block, &fault),
		       rows[k].answer);
		EXPECT("*block", block, 0);
		EXPECT("*fault", fault, 0);
		if (rows[k].answer == TS11_DONE)
			EXPECT("blocks", ts11_state_number(s, TS11_AT_BLOCKS), rows[k].reel / TS11_BLOCK);
		free_buffer(&reel);
		free_buffer(&state);
	}
	context("");
}

static void large_unit(void)
{
	free_unit(&u);
	u = make_unit(2 * (TS11_HOST_STORE_MAX + 1), REEL_BLOCKS * TS11_BLOCK, 4 * (TS11_HOST_STORE_MAX + 1), GUARD);
	EXPECT("the mount", mount(&u, 0, true, false).answer, TS11_DONE);
	characteristics(&u, TS11_CVC, MESSAGE, TS11_MESSAGE_BYTES, 0);
}

static void test_record_limits(void)
{
	static const struct {
		size_t length, blocks;
		unsigned class;
	} rows[] = {
		{ 0, 0, TS11_CLASS_REJECT },
		{ 1, 1, TS11_CLASS_NORMAL },
		{ TS11_BLOCK_DATA, 1, TS11_CLASS_NORMAL },
		{ TS11_BLOCK_DATA + 1, 2, TS11_CLASS_NORMAL },
		{ TS11_RECORD_MAX, (TS11_RECORD_MAX + 503) / 504, TS11_CLASS_STATUS },
		{ TS11_RECORD_MAX + 1, 0, TS11_CLASS_REJECT }, /* in the count's word this is 0 */
	};
	ROWS(k, rows) {
		context("record of %zu bytes", rows[k].length);
		large_unit();
		struct ending e = command(&u, TS11_WRITE | TS11_ACK, DATA, (uint16_t)rows[k].length);
		EXPECT("class", TS11_CLASS(e.tssr), rows[k].class);
		EXPECT("position", number(&u, TS11_AT_POSITION), rows[k].blocks);
		EXPECT("entry", e.entry,
		       TS11_ENTRY_HEAD + TS11_MESSAGE_BYTES + rows[k].blocks * TS11_BLOCK +
		           (rows[k].blocks ? TS11_PLACE_BYTES : 0));
	}
	context("");
}

static void test_host_store_limit(void)
{
	uint8_t *bytes = need(calloc(TS11_HOST_STORE_MAX + 1, 1));
	large_unit();
	EXPECT("largest host store", host_store(&u, 0, bytes, TS11_HOST_STORE_MAX).answer, TS11_DONE);
	EXPECT("host store beyond", host_store(&u, 0, bytes, TS11_HOST_STORE_MAX + 1).answer, TS11_BAD_STORE);
	free(bytes);
}

static void test_entry_and_message_sizes(void)
{
	ready(0, HERE);
	size_t before = used(&u);
	write_tsdb(&u, 0);
	EXPECT("entry of a TSDB write", used(&u) - before, TS11_ENTRY_HEAD);
	ready(0, HERE);
	EXPECT("entry with a message", get_status().entry - TS11_ENTRY_HEAD, TS11_MESSAGE_BYTES);
	EXPECT("least message buffer", TS11_CLASS(characteristics(&u, 0, MESSAGE, TS11_MESSAGE_BYTES, 0).tssr),
	       TS11_CLASS_NORMAL);
	EXPECT("a byte less", TS11_CLASS(characteristics(&u, 0, MESSAGE, TS11_MESSAGE_BYTES - 1, 0).tssr),
	       TS11_CLASS_REJECT);
}

/* What an erase keeps beside head, message and block; and the least table for as many objects as the tape has. */
static void test_place_size(void)
{
	ready(0, HERE);
	size_t entry = command(&u, TS11_ERASE | TS11_ACK, 0, 0).entry;
	EXPECT("bytes kept of the table", entry - TS11_ENTRY_HEAD - TS11_MESSAGE_BYTES - TS11_BLOCK, TS11_PLACE_BYTES);
	mounted();
	struct unit v = u;
	v.table = (struct buffer){ u.table.at, 0, 0 };
	while (v.table.length < u.table.length && mount(&v, TAPE_END, true, false).answer == TS11_SMALL_TABLE)
		v.table.length++;
	EXPECT("the least table", v.table.length, TAPE_OBJECTS * TS11_PLACE_BYTES);
}

/* A packet that ends where memory ends, and one that ends a byte further. */
static void test_packet_size(void)
{
	size_t last = MEMORY_BYTES - TS11_PACKET_BYTES;
	ready(0, HERE);
	for (size_t past = 0; past < 2; past++) {
		set_number(&u, TS11_AT_POINTER, (uint32_t)(last + past));
		set_number(&u, TS11_AT_SSR, 0);
		put_word(u.memory.at + last + past, TS11_GET_STATUS | TS11_ACK);
		EXPECT("a packet to the end, and past it", TS11_CLASS(advance_to_end(&u).tssr),
		       past ? TS11_CLASS_UNMOVED : TS11_CLASS_NORMAL);
	}
}

static void test_eot_margin(void)
{
	ready(0, 0);
	set_number(&u, TS11_AT_END, REEL_BLOCKS);
	uint32_t marker = 0;
	for (; marker < REEL_BLOCKS; marker++) {
		set_number(&u, TS11_AT_POSITION, marker);
		if (get_status().xst0 & TS11_XST0_EOT)
			break;
	}
	EXPECT("blocks from the EOT marker to the end", REEL_BLOCKS - marker, TS11_EOT_MARGIN);
}

/* ---- answers ----------------------------------------------------------------------------------------------------- */

/* The unit with one buffer handed shorter, whose guards are then out of place; the table with no place to spare. */
static struct unit handed(size_t memory_less, size_t reel_less, size_t journal_less, size_t table_less)
{
	struct unit v = u;
	v.memory = (struct buffer){ u.memory.at, u.memory.length - memory_less, 0 };
	v.reel = (struct buffer){ u.reel.at, u.reel.length - reel_less, 0 };
	v.journal = (struct buffer){ u.journal.at, u.journal.length - journal_less, 0 };
	v.table = (struct buffer){ u.table.at, TAPE_OBJECTS * TS11_PLACE_BYTES - table_less, 0 };
	return v;
}

static void test_answers_to_lengths(void)
{
	ready(0, HERE);
	struct unit memory = handed(2, 0, 0, 0), reel = handed(0, TS11_BLOCK, 0, 0), journal = handed(0, 0, 1, 0);
	struct unit table = handed(0, 0, 0, 1), enough = handed(0, 0, 0, 0);
	EXPECT("the lengths of the mount", write_tsdb(&u, 0).answer, TS11_DONE);
	EXPECT("a table with just the places", write_tsdb(&enough, 0).answer, TS11_DONE);
	EXPECT("a table with a byte less", write_tsdb(&table, 0).answer, TS11_SMALL_TABLE);
	EXPECT("another memory length", write_tsdb(&memory, 0).answer, TS11_BAD_MEMORY);
	EXPECT("another reel length", write_tsdb(&reel, 0).answer, TS11_BAD_REEL);
	EXPECT("another journal length", write_tsdb(&journal, 0).answer, TS11_BAD_JOURNAL);
	set_number(&u, TS11_AT_CLASS, 7);
	EXPECT("a state that none is", write_tsdb(&u, 0).answer, TS11_BAD_STATE);
	EXPECT("a register of it", read_register(&u, TS11_REGISTER_TSBA).answer, TS11_BAD_STATE);
}

static void test_other_answers(void)
{
	mounted();
	EXPECT("step back with no entry", step_back(&u).answer, TS11_NO_ENTRY);
	EXPECT("a store past memory", host_store(&u, MEMORY_BYTES, (const uint8_t *)"A", 1).answer, TS11_BAD_STORE);
	EXPECT("a step", write_tsdb(&u, 0).answer, TS11_DONE);
	memset(u.journal.at, 0xFF, TS11_ENTRY_HEAD);
	EXPECT("an entry that does not fit", step_back(&u).answer, TS11_BAD_ENTRY);
	ready(0, HERE);
	u.reel.at[HERE * TS11_BLOCK + TS11_BLOCK_BYTES] ^= 1;
	struct ending e = command(&u, TS11_READ_NEXT | TS11_ACK, DATA, 9);
	EXPECT("a damaged block", e.answer, TS11_BAD_BLOCK);
	EXPECT("its number", e.block, HERE);
	EXPECT("SSR: the command goes on waiting", number(&u, TS11_AT_SSR), 0);
	free_unit(&u);
	u = make_unit(MEMORY_BYTES, TS11_BLOCK, TS11_ENTRY_HEAD - 1, GUARD);
	EXPECT("a mount with a small journal", mount(&u, 0, true, false).answer, TS11_DONE);
	EXPECT("an entry with no room", write_tsdb(&u, 0).answer, TS11_JOURNAL_FULL);
}

/* ---- faults ------------------------------------------------------------------------------------------------------ */

/* One thing is wrong with a block: this word. */
static const struct harm {
	const char *name;
	size_t at;
	unsigned word;
	uint8_t fault;
} harms[] = {
	{ "kind", TS11_BLOCK_KIND, TS11_KIND_GAP + 1, TS11_FAULT_KIND },
	{ "length", TS11_BLOCK_LENGTH, 0, TS11_FAULT_LENGTH },
	{ "index", TS11_BLOCK_INDEX, 1, TS11_FAULT_INDEX },
	{ "padding", TS11_BLOCK_BYTES + TS11_BLOCK_DATA - 2, 1, TS11_FAULT_PADDING },
	{ "check", TS11_BLOCK_CHECK, 0, TS11_FAULT_CHECK },
};

static void harm_block(uint8_t *block, const struct harm *h)
{
	put_word(block + h->at, h->word);
	if (h->at != TS11_BLOCK_CHECK)
		seal(block);
}

static void expect_fault(ts11_answer answer, size_t block, uint8_t fault, const struct harm *h)
{
	EXPECT("answer", answer, TS11_BAD_BLOCK);
	EXPECT("*block", block, HERE);
	EXPECT("*fault", fault, h->fault);
}

/* The command waits; where the reel is mended, it is carried out. */
static void expect_fault_read(const struct harm *h, bool reverse)
{
	uint8_t whole[TS11_BLOCK];
	ready(0, HERE + reverse);
	uint8_t *block = u.reel.at + HERE * TS11_BLOCK;
	memcpy(whole, block, TS11_BLOCK);
	harm_block(block, h);
	struct ending e = command(&u, (reverse ? TS11_READ_PREVIOUS : TS11_READ_NEXT) | TS11_ACK, DATA, 9);
	expect_fault(e.answer, e.block, e.fault, h);
	EXPECT("SSR: the command goes on waiting", number(&u, TS11_AT_SSR), 0);
	memcpy(block, whole, TS11_BLOCK);
	EXPECT("the reel mended", advance(&u).answer, TS11_DONE);
	EXPECT_BYTES("its record", u.memory.at + DATA, (const uint8_t *)"abcdefghi", 9);
}

static void test_faults(void)
{
	ROWS(k, harms) {
		context("fault %s", harms[k].name);
		mounted();
		harm_block(u.reel.at + HERE * TS11_BLOCK, &harms[k]);
		struct result r = mount(&u, TAPE_END, true, false);
		expect_fault(r.answer, r.block, r.fault, &harms[k]);
		expect_fault_read(&harms[k], false);
		expect_fault_read(&harms[k], true);
	}
	context("");
}

/* Whatever stood in *block and *fault before. */
static void expect_no_fault(const char *what, struct unit *v, enum kind kind, ts11_answer wanted)
{
	static const uint8_t before[] = { 0, 1, TS11_FAULT_CHECK, 0xFF };
	struct call c = { .kind = kind, .recorded_end = TAPE_END };
	ROWS(k, before) {
		ts11_state kept = *state_of(v);
		struct outs o;
		memset(&o, before[k], sizeof o);
		context("%s, over the byte %u", what, before[k]);
		EXPECT("answer", put(v, &c, &o), wanted);
		EXPECT("*block", o.block, 0);
		EXPECT("*fault", o.fault, 0);
		*state_of(v) = kept;
	}
	context("");
}

static void test_no_faults(void)
{
	struct unit memory, reel, journal, table;
	ready(0, HERE);
	memory = handed(1, 0, 0, 0);
	reel = handed(0, 1, 0, 0);
	journal = handed(0, 0, 1, 0);
	table = handed(0, 0, 0, 1);
	expect_no_fault("an idle advance", &u, ADVANCE, TS11_DONE);
	put_packet(&u, TS11_READ_NEXT | TS11_ACK, DATA, 9);
	write_tsdb(&u, TS11_TSDB(PACKET));
	expect_no_fault("a step", &u, ADVANCE, TS11_DONE);
	expect_no_fault("an advance with another memory", &memory, ADVANCE, TS11_BAD_MEMORY);
	expect_no_fault("an advance with another reel", &reel, ADVANCE, TS11_BAD_REEL);
	expect_no_fault("an advance with another journal", &journal, ADVANCE, TS11_BAD_JOURNAL);
	expect_no_fault("an advance with a small table", &table, ADVANCE, TS11_SMALL_TABLE);
	set_number(&u, TS11_AT_USED, JOURNAL_BYTES);
	expect_no_fault("an advance without room", &u, ADVANCE, TS11_JOURNAL_FULL);
	expect_no_fault("an advance with a small table, and without room", &table, ADVANCE, TS11_SMALL_TABLE);
	set_number(&u, TS11_AT_USED, JOURNAL_BYTES + 1);
	expect_no_fault("an advance from a number out of range", &u, ADVANCE, TS11_BAD_STATE);
	set_number(&u, TS11_AT_RMR, 2);
	expect_no_fault("an advance from no state's bytes", &u, ADVANCE, TS11_BAD_STATE);
	expect_no_fault("a mount", &u, MOUNT, TS11_DONE);
	expect_no_fault("a mount with an odd memory", &memory, MOUNT, TS11_BAD_MEMORY);
	expect_no_fault("a mount with no whole reel", &reel, MOUNT, TS11_BAD_REEL);
	expect_no_fault("a mount with a small table", &table, MOUNT, TS11_SMALL_TABLE);
	journal.journal.length = TS11_JOURNAL_MAX + 1;
	expect_no_fault("a mount with too long a journal", &journal, MOUNT, TS11_BAD_JOURNAL);
}

/* ---- the state: fields driven ------------------------------------------------------------------------------------ */

/* In the order of state_offsets. */
union numbers {
	struct {
		uint32_t position, end, pointer, class, rmr, nxm, nba, ssr, online, locked, vck, unit_owns, pending, release_ie,
			message, message_length, eai, ess, enb, memory, blocks, used, journal, objects;
	};
	uint32_t all[NUMBERS];
};
_Static_assert(sizeof(union numbers) == 4 * NUMBERS, "a number for each offset");

/* What the state should be by now: each act changes the fields that it is known to change, and no other may move. */
static union numbers now;

static void expect_state(const char *act)
{
	uint8_t wanted[TS11_STATE_BYTES] = { 0 };
	ROWS(k, now.all)
		for (int i = 0; i < 4; i++)
			wanted[state_offsets[k] + i] |= (uint8_t)(now.all[k] >> 8 * i);
	EXPECT_BYTES(act, u.state.at, wanted, TS11_STATE_BYTES);
}

static void initial(uint32_t used_journal)
{
	now = (union numbers){ .end = TAPE_END,
		                   .nba = 1,
		                   .ssr = 1,
		                   .online = now.online,
		                   .locked = now.locked,
		                   .vck = 1,
		                   .memory = MEMORY_BYTES,
		                   .blocks = REEL_BLOCKS,
		                   .used = used_journal,
		                   .journal = JOURNAL_BYTES,
		                   .objects = TAPE_OBJECTS };
}

static void drive_switches(void)
{
	now = (union numbers){ .online = 1 };
	initial(0);
	mounted();
	expect_state("mount");
	operate(&u, TS11_SWITCH_ONLINE, false);
	now.online = 0;
	now.used += TS11_ENTRY_HEAD;
	expect_state("off line");
	operate(&u, TS11_SWITCH_WRITE_LOCK, true);
	now.locked = 1;
	now.used += TS11_ENTRY_HEAD;
	expect_state("write lock on");
	mount(&u, TAPE_END, false, true);
	now.used = 0;
	expect_state("mount off line and locked");
	operate(&u, TS11_SWITCH_WRITE_LOCK, false);
	now.locked = 0;
	operate(&u, TS11_SWITCH_ONLINE, true);
	now.online = 1;
	now.used = 2 * TS11_ENTRY_HEAD;
	expect_state("write lock off, on line");
}

static void drive_registers(void)
{
	write_tsdb(&u, TS11_TSDB(0x21234));
	now.pointer = 0x21234;
	now.ssr = 0;
	now.used += TS11_ENTRY_HEAD;
	expect_state("TSDB");
	write_tsdb(&u, 0);
	now.rmr = 1;
	now.used += TS11_ENTRY_HEAD;
	expect_state("TSDB while a command waits");
	advance(&u);
	now.nxm = now.ssr = 1;
	now.class = TS11_CLASS_UNMOVED;
	now.used += TS11_ENTRY_HEAD;
	expect_state("a header outside memory");
	static const uint16_t words[] = { 0, 1, 0x8001, 0xFFFF };
	ROWS(k, words) {
		write_tssr(&u, words[k]);
		initial(now.used + TS11_ENTRY_HEAD);
		expect_state("TSSR");
	}
}

static void drive_characteristics(void)
{
	static const struct {
		uint16_t mode;
		uint32_t eai, ess, enb, message_length;
	} rows[] = { { TS11_ESS, 0, 1, 0, 14 }, { TS11_ENB, 0, 0, 1, 20 }, { TS11_EAI, 1, 0, 0, 33 } };
	ROWS(k, rows) {
		characteristics(&u, TS11_CVC, 0x208, (uint16_t)rows[k].message_length, rows[k].mode);
		now.pointer = PACKET;
		now.nba = now.vck = 0;
		now.message = 0x208;
		now.message_length = rows[k].message_length;
		now.eai = rows[k].eai;
		now.ess = rows[k].ess;
		now.enb = rows[k].enb;
		now.used = (uint32_t)used(&u);
		expect_state("Write Characteristics");
	}
}

static void drive_attention(void)
{
	command(&u, TS11_RELEASE | TS11_ACK | TS11_IE, 0, 0);
	now.unit_owns = now.release_ie = 1;
	now.used = (uint32_t)used(&u);
	expect_state("release with IE");
	command(&u, TS11_RELEASE | TS11_ACK, 0, 0);
	now.release_ie = 0;
	now.used = (uint32_t)used(&u);
	expect_state("release without IE");
	operate(&u, TS11_SWITCH_ONLINE, false);
	now.online = 0;
	now.pending = 1;
	now.used += TS11_ENTRY_HEAD;
	expect_state("off line with EAI");
	advance(&u);
	now.pending = now.unit_owns = 0;
	now.class = TS11_CLASS_ATTENTION;
	now.used += TS11_ENTRY_HEAD + TS11_MESSAGE_BYTES;
	expect_state("attention");
	operate(&u, TS11_SWITCH_ONLINE, true);
	now.online = now.vck = now.pending = 1;
	now.used += TS11_ENTRY_HEAD;
	expect_state("on line with EAI");
}

static void drive_tape(void)
{
	ready(0, 0);
	initial((uint32_t)used(&u));
	now.pointer = PACKET;
	now.nba = now.vck = 0;
	now.message = MESSAGE;
	now.message_length = TS11_MESSAGE_BYTES;
	expect_state("a unit made ready");
	command(&u, TS11_SPACE_RECORDS | TS11_ACK, 1, 0);
	now.position = 1;
	now.used = (uint32_t)used(&u);
	expect_state("space over a record");
	command(&u, TS11_ERASE | TS11_ACK, 0, 0);
	now.position = now.end = now.objects = 2;
	now.used = (uint32_t)used(&u);
	expect_state("erase");
}

/* ---- the state: fields made up ----------------------------------------------------------------------------------- */

static uint64_t seen_tssr(void)
{
	return tssr(&u);
}

static uint64_t seen_tsba(void)
{
	return read_register(&u, TS11_REGISTER_TSBA).word;
}

static uint64_t seen_answer(void)
{
	return write_tsdb(&u, 0).answer;
}

static uint64_t seen_step_back(void)
{
	return step_back(&u).answer;
}

static uint64_t seen_first_byte(void)
{
	command(&u, TS11_READ_NEXT | TS11_ACK, DATA, 9);
	return u.memory.at[DATA];
}

static uint64_t seen_space(void)
{
	return TS11_CLASS(command(&u, TS11_SPACE_RECORDS | TS11_ACK, 1, 0).tssr);
}

/* The place where the file behind two marks begins. */
static uint64_t seen_file(void)
{
	struct result r = find_file(&u, 2);
	return r.found ? r.place : 99;
}

static uint64_t seen_xst0(void)
{
	return get_status().xst0;
}

/* Where the message's header comes to stand. */
static uint64_t seen_place(void)
{
	get_status();
	for (uint64_t at = MESSAGE; at < DATA; at += 2)
		if (word_at(u.memory.at + at) == TS11_END)
			return at;
	return 0;
}

static uint64_t seen_sent_without_ack(void)
{
	return command(&u, TS11_GET_STATUS, 0, 0).sent;
}

static uint64_t seen_attention(void)
{
	set_number(&u, TS11_AT_UNIT_OWNS, 1);
	struct result r = advance(&u);
	return r.stepped ? TS11_CLASS(tssr(&u)) : 99;
}

static uint64_t seen_attention_interrupt(void)
{
	set_number(&u, TS11_AT_UNIT_OWNS, 1);
	set_number(&u, TS11_AT_PENDING, 1);
	return advance(&u).interrupt;
}

static uint64_t seen_attention_to_switch(void)
{
	operate(&u, TS11_SWITCH_ONLINE, false);
	return seen_attention();
}

static uint64_t seen_two_marks(void)
{
	set_number(&u, TS11_AT_POSITION, 5);
	return command(&u, TS11_SKIP_MARKS | TS11_ACK, 2, 0).xst0;
}

static uint64_t seen_first_mark(void)
{
	lay_mark(u.reel.at, 0);
	set_number(&u, TS11_AT_POSITION, 0);
	set_number(&u, TS11_AT_ESS, 1);
	return command(&u, TS11_SKIP_MARKS | TS11_ACK, 1, 0).xst0;
}

enum { XST0_READY = TS11_XST0_ONL | TS11_XST0_PED, XST0_SKIPPED = XST0_READY | TS11_XST0_TMK | TS11_XST0_MOT };

/* What is seen of a unit at block 3, and what with one number of its state made up. */
static void test_made_up(void)
{
	static const struct {
		const char *name;
		size_t at;
		uint32_t value;
		uint64_t (*seen)(void);
		uint64_t usually, then;
	} rows[] = {
		{ "position", TS11_AT_POSITION, 2, seen_first_byte, 'a', 'A' },
		{ "recorded end", TS11_AT_END, HERE, seen_space, TS11_CLASS_NORMAL, TS11_CLASS_LOST },
		{ "end before position", TS11_AT_END, HERE - 1, seen_answer, TS11_DONE, TS11_BAD_STATE },
		{ "pointer", TS11_AT_POINTER, 0x21234, seen_tsba, PACKET, 0x1234 },
		{ "pointer past 18 bits", TS11_AT_POINTER, 0x40000, seen_answer, TS11_DONE, TS11_BAD_STATE },
		{ "class", TS11_AT_CLASS, TS11_CLASS_RECOVERABLE, seen_tssr, 0x0080, 0x8088 },
		{ "RMR", TS11_AT_RMR, 1, seen_tssr, 0x0080, 0x9080 },
		{ "NXM", TS11_AT_NXM, 1, seen_tssr, 0x0080, 0x8880 },
		{ "NBA", TS11_AT_NBA, 1, seen_tssr, 0x0080, 0x0480 },
		{ "SSR", TS11_AT_SSR, 0, seen_tssr, 0x0080, 0x0000 },
		{ "on line", TS11_AT_ONLINE, 0, seen_tssr, 0x0080, 0x00C0 },
		{ "write lock", TS11_AT_LOCKED, 1, seen_xst0, XST0_READY, XST0_READY | TS11_XST0_WLK },
		{ "VCK", TS11_AT_VCK, 1, seen_xst0, XST0_READY, XST0_READY | TS11_XST0_VCK },
		{ "unit owns", TS11_AT_UNIT_OWNS, 1, seen_sent_without_ack, false, true },
		{ "pending", TS11_AT_PENDING, 1, seen_attention, 99, TS11_CLASS_ATTENTION },
		{ "release's IE", TS11_AT_RELEASE_IE, 1, seen_attention_interrupt, false, true },
		{ "message address", TS11_AT_MESSAGE, 0x240, seen_place, MESSAGE, 0x240 },
		{ "message length", TS11_AT_MESSAGE_LENGTH, TS11_MESSAGE_BYTES - 1, seen_answer, TS11_DONE, TS11_BAD_STATE },
		{ "EAI", TS11_AT_EAI, 1, seen_attention_to_switch, 99, TS11_CLASS_ATTENTION },
		{ "ESS", TS11_AT_ESS, 1, seen_two_marks, XST0_SKIPPED, XST0_SKIPPED | TS11_XST0_LET },
		{ "ENB", TS11_AT_ENB, 1, seen_first_mark, XST0_SKIPPED, XST0_SKIPPED | TS11_XST0_LET },
		{ "memory length", TS11_AT_MEMORY, MEMORY_BYTES - 2, seen_answer, TS11_DONE, TS11_BAD_MEMORY },
		{ "reel length", TS11_AT_BLOCKS, REEL_BLOCKS - 1, seen_answer, TS11_DONE, TS11_BAD_REEL },
		{ "used journal", TS11_AT_USED, JOURNAL_BYTES + 1, seen_answer, TS11_DONE, TS11_BAD_STATE },
		{ "no used journal", TS11_AT_USED, 0, seen_step_back, TS11_DONE, TS11_NO_ENTRY },
		{ "journal length", TS11_AT_JOURNAL, JOURNAL_BYTES - 1, seen_answer, TS11_DONE, TS11_BAD_JOURNAL },
		{ "objects", TS11_AT_OBJECTS, 6, seen_file, 6, 99 },
		{ "objects past the table", TS11_AT_OBJECTS, REEL_BLOCKS + 1, seen_answer, TS11_DONE, TS11_SMALL_TABLE },
	};
	ROWS(k, rows) {
		context("made up: %s", rows[k].name);
		ready(0, HERE);
		EXPECT("usually", rows[k].seen(), rows[k].usually);
		ready(0, HERE);
		set_number(&u, rows[k].at, rows[k].value);
		EXPECT("made up", rows[k].seen(), rows[k].then);
	}
	context("");
}

/* Is a state with one bit of this byte changed refused? */
static bool byte_refused(size_t at)
{
	u.state.at[at] ^= 1;
	bool refused = read_register(&u, TS11_REGISTER_TSSR).answer == TS11_BAD_STATE;
	u.state.at[at] ^= 1;
	return refused;
}

/* A flag other than 0 and 1 is no state, nor is anything in the unused bytes; behind them the library does not look. */
static void test_state_bytes(void)
{
	free_unit(&u);
	u = make_unit(2, TS11_BLOCK, 0, GUARD);
	memset(u.state.at, 0xFF, TS11_STATE_BYTES);
	EXPECT("a mount over any bytes", mount(&u, 0, true, false).answer, TS11_DONE);
	EXPECT("unused bytes after it", all_are(u.state.at + TS11_STATE_UNUSED, TS11_STATE_BYTES - TS11_STATE_UNUSED, 0),
	       true);
	size_t least = TS11_STATE_BYTES;
	while (least > 0 && (byte_refused(least - 1) || least - 1 - TS11_AT_OBJECTS < 4))
		least--;
	EXPECT("the least byte from which on all are unused", least, TS11_STATE_UNUSED);
	set_number(&u, TS11_AT_VCK, 2);
	EXPECT("a flag of 2", read_register(&u, TS11_REGISTER_TSSR).answer, TS11_BAD_STATE);
}

static void test_state_number(void)
{
	ts11_state s = { { 0x11, 0x22, 0x33, 0x44, 0x85, 0x86, 0x87, 0x88 } };
	EXPECT("the number at 0", ts11_state_number(&s, 0), 0x44332211);
	EXPECT("the number at 4", ts11_state_number(&s, 4), 0x88878685);
}

/* ---- the table --------------------------------------------------------------------------------------------------- */

static void test_place_numbers(void)
{
	static const uint8_t table[] = { 0x11, 0x22, 0x33, 0x44, 0x85, 0x86, 0x87, 0x88, 0x91, 0xA2, 0xB3, 0xC4, 5, 6, 7, 8 };
	EXPECT("a first block", ts11_place_block(table, 0), 0x44332211);
	EXPECT("the marks before it", ts11_place_marks(table, 0), 0x88878685);
	EXPECT("the next first block", ts11_place_block(table, 1), 0xC4B3A291);
	EXPECT("the marks before it", ts11_place_marks(table, 1), 0x08070605);
}

/* The tape's first blocks, and the marks before each object. */
static const uint32_t tape_places[TAPE_OBJECTS][2] = { { 0, 0 }, { 1, 0 }, { 2, 1 }, { 3, 1 },
	                                                   { 4, 1 }, { 5, 1 }, { 6, 2 }, { 7, 3 } };

static void expect_place(size_t place, uint32_t block, uint32_t marks)
{
	EXPECT("first block", ts11_place_block(u.table.at, place), block);
	EXPECT("marks before", ts11_place_marks(u.table.at, place), marks);
}

static void test_places(void)
{
	mounted();
	for (size_t k = 0; k < TAPE_OBJECTS; k++) {
		context("place %zu of a mounted tape", k);
		expect_place(k, tape_places[k][0], tape_places[k][1]);
	}
	ready(0, 7);
	context("a mark in place of the last record");
	command(&u, TS11_WRITE_MARK | TS11_ACK, 0, 0);
	EXPECT("objects", objects(&u), TAPE_OBJECTS);
	expect_place(7, 7, 3);
	context("a record behind it");
	command(&u, TS11_WRITE | TS11_ACK, DATA, 5);
	EXPECT("objects", objects(&u), TAPE_OBJECTS + 1);
	expect_place(8, 8, 4);
	context("a retry over it: a gap and a record");
	struct ending e = command(&u, TS11_WRITE_RETRY | TS11_ACK, DATA, 5);
	EXPECT("objects", objects(&u), TAPE_OBJECTS + 2);
	expect_place(8, 8, 4);
	expect_place(9, 9, 4);
	EXPECT("entry", e.entry, TS11_ENTRY_HEAD + TS11_MESSAGE_BYTES + 2 * (TS11_BLOCK + TS11_PLACE_BYTES));
	context("a step back");
	EXPECT("its answer", step_back(&u).answer, TS11_DONE);
	EXPECT("objects", objects(&u), TAPE_OBJECTS + 1);
	context("");
}

/* What a look-up finds, or SIZE_MAX. */
static void expect_look_up(const char *what, struct result r, size_t wanted)
{
	EXPECT(what, r.answer, TS11_DONE);
	EXPECT(what, r.found ? r.place : SIZE_MAX, wanted);
}

static void test_look_ups(void)
{
	static const size_t files[] = { 0, 2, 6, 7, SIZE_MAX };
	static const size_t blocks[TAPE_END + 2] = { 0, 1, 2, 3, 4, 5, 6, 7, 7, SIZE_MAX, SIZE_MAX };
	mounted();
	ROWS(k, files) {
		context("file %zu", k);
		expect_look_up("its place", find_file(&u, k), files[k]);
	}
	ROWS(k, blocks) {
		context("block %zu", k);
		expect_look_up("its place", find_block(&u, k), blocks[k]);
	}
	context("");
	struct unit table = handed(0, 0, 0, 1);
	EXPECT("a file in a small table", find_file(&table, 0).answer, TS11_SMALL_TABLE);
	EXPECT("a block in a small table", find_block(&table, 0).answer, TS11_SMALL_TABLE);
	set_number(&u, TS11_AT_CLASS, 7);
	EXPECT("a file by a state that none is", find_file(&u, 0).answer, TS11_BAD_STATE);
	EXPECT("a block by it", find_block(&table, 0).answer, TS11_BAD_STATE);
}

/* ---- registers --------------------------------------------------------------------------------------------------- */

static void test_tsdb(void)
{
	static const size_t addresses[] = { 0,      0x4,     0x8,     0x10,    0x20,    0x40,   0x80,
		                                0x100,  0x200,   0x400,   0x800,   0x1000,  0x2000, 0x4000,
		                                0x8000, 0x10000, 0x20000, 0x11234, 0x21234, 0x3FFFC };
	ROWS(k, addresses) {
		context("address %zx", addresses[k]);
		mounted();
		write_tsdb(&u, TS11_TSDB(addresses[k]));
		EXPECT("the command pointer", number(&u, TS11_AT_POINTER), addresses[k]);
		EXPECT("TSBA", read_register(&u, TS11_REGISTER_TSBA).word, addresses[k] & 0xFFFF);
		EXPECT("TSSR", tssr(&u),
		       TS11_TSSR_NBA | (addresses[k] & 0x20000 ? TS11_TSSR_A17 : 0) |
		           (addresses[k] & 0x10000 ? TS11_TSSR_A16 : 0));
		EXPECT("with bits that TSDB has no place for", TS11_TSDB(addresses[k] | 0x7C0003), TS11_TSDB(addresses[k]));
	}
	context("");
	EXPECT("the TSDB word of 21234 hex", TS11_TSDB(0x21234), 0x1236);
}

/* Every TSSR bit as the unit comes to it. */
static void test_tssr_driven(void)
{
	mounted();
	EXPECT("fresh on line", tssr(&u), TS11_TSSR_NBA | TS11_TSSR_SSR);
	EXPECT("fresh on line", tssr(&u), 0x0480);
	operate(&u, TS11_SWITCH_ONLINE, false);
	EXPECT("off line", tssr(&u), TS11_TSSR_NBA | TS11_TSSR_SSR | TS11_TSSR_OFL);
	operate(&u, TS11_SWITCH_ONLINE, true);
	operate(&u, TS11_SWITCH_WRITE_LOCK, true);
	EXPECT("write locked", tssr(&u), TS11_TSSR_NBA | TS11_TSSR_SSR);
	write_tsdb(&u, TS11_TSDB(0x10000));
	EXPECT("a command waits", tssr(&u), TS11_TSSR_NBA | TS11_TSSR_A16);
	write_tsdb(&u, 0);
	EXPECT("TSDB refused", tssr(&u), TS11_TSSR_SC | TS11_TSSR_RMR | TS11_TSSR_NBA | TS11_TSSR_A16);
	advance(&u);
	EXPECT("a header outside memory", tssr(&u),
	       TS11_TSSR_SC | TS11_TSSR_RMR | TS11_TSSR_NXM | TS11_TSSR_NBA | TS11_TSSR_A16 | TS11_TSSR_SSR |
	           TS11_CLASS_UNMOVED << 1);
	ready(0, 2);
	EXPECT("count 10, record 7", command(&u, TS11_READ_NEXT | TS11_ACK, DATA, 10).tssr, 0x8084);
	EXPECT("count 10, record 7", tssr(&u), TS11_TSSR_SC | TS11_TSSR_SSR | TS11_CLASS_STATUS << 1);
}

static uint16_t tssr_with(size_t at, uint32_t value)
{
	uint32_t before = number(&u, at);
	set_number(&u, at, value);
	uint16_t word = tssr(&u);
	set_number(&u, at, before);
	return word;
}

/* Each TSSR bit alone: the difference that one number of the state makes. SC comes with others, and stays under NXM. */
static void test_tssr_measured(void)
{
	ready(0, HERE);
	uint16_t word = tssr(&u), sc_and_rmr = tssr_with(TS11_AT_RMR, 1), classes = 0;
	EXPECT("NBA", word ^ tssr_with(TS11_AT_NBA, 1), TS11_TSSR_NBA);
	EXPECT("SSR", word ^ tssr_with(TS11_AT_SSR, 0), TS11_TSSR_SSR);
	EXPECT("OFL", word ^ tssr_with(TS11_AT_ONLINE, 0), TS11_TSSR_OFL);
	EXPECT("A16", word ^ tssr_with(TS11_AT_POINTER, 0x10000), TS11_TSSR_A16);
	EXPECT("A17", word ^ tssr_with(TS11_AT_POINTER, 0x20000), TS11_TSSR_A17);
	EXPECT("SC", word ^ sc_and_rmr ^ TS11_TSSR_RMR, TS11_TSSR_SC);
	for (uint32_t c = 1; c < 7; c++)
		classes |= word ^ tssr_with(TS11_AT_CLASS, c);
	EXPECT("class", classes ^ TS11_TSSR_SC, TS11_TSSR_CLASS);
	set_number(&u, TS11_AT_NXM, 1);
	EXPECT("RMR", tssr(&u) ^ tssr_with(TS11_AT_RMR, 1), TS11_TSSR_RMR);
	set_number(&u, TS11_AT_RMR, 1);
	EXPECT("NXM", tssr(&u) ^ sc_and_rmr, TS11_TSSR_NXM);
	set_number(&u, TS11_AT_CLASS, 7);
	EXPECT("class 7", read_register(&u, TS11_REGISTER_TSSR).answer, TS11_BAD_STATE);
}

static void test_class_macro(void)
{
	size_t wrong = 0;
	for (unsigned word = 0; word < 65536; word++)
		wrong += TS11_CLASS(word) != (word & TS11_TSSR_CLASS) / 2;
	EXPECT("words whose class is not bits 3:1", wrong, 0);
	ready(0, HERE);
	for (uint32_t c = 0; c < 7; c++)
		EXPECT("the class of a made-up state", TS11_CLASS(tssr_with(TS11_AT_CLASS, c)), c);
}

/* ---- classes and messages ---------------------------------------------------------------------------------------- */

static void test_classes(void)
{
	static const struct {
		const char *name;
		uint32_t position;
		uint16_t header;
		size_t pointer;
		uint16_t count;
		unsigned class;
		uint16_t message;
	} rows[] = {
		{ "a status", HERE, TS11_GET_STATUS, 0, 0, TS11_CLASS_NORMAL, TS11_END },
		{ "a mark", 1, TS11_READ_NEXT, DATA, 9, TS11_CLASS_STATUS, TS11_END },
		{ "an unknown code", HERE, TS11_COMMAND(0, 0), 0, 0, TS11_CLASS_REJECT, TS11_END_ILLEGAL },
		{ "reverse at block 0", 0, TS11_READ_PREVIOUS, DATA, 9, TS11_CLASS_REJECT, TS11_END_REJECTED },
		{ "data past memory", HERE, TS11_READ_NEXT, MEMORY_BYTES - 8, 9, TS11_CLASS_UNMOVED, TS11_END_FAILED },
		{ "at the recorded end", TAPE_END, TS11_READ_NEXT, DATA, 9, TS11_CLASS_LOST, TS11_END_FAILED },
	};
	ROWS(k, rows) {
		context("class of %s", rows[k].name);
		ready(0, rows[k].position);
		struct ending e = command(&u, rows[k].header | TS11_ACK, rows[k].pointer, rows[k].count);
		EXPECT("class", TS11_CLASS(e.tssr), rows[k].class);
		EXPECT("message header", e.header, rows[k].message);
	}
	context("");
	ready(TS11_EAI, HERE);
	command(&u, TS11_RELEASE | TS11_ACK, 0, 0);
	operate(&u, TS11_SWITCH_ONLINE, false);
	struct ending e = advance_to_end(&u);
	EXPECT("class of an attention", TS11_CLASS(e.tssr), TS11_CLASS_ATTENTION);
	EXPECT("message header of an attention", e.header, TS11_END_ATTENTION);
	EXPECT("a class that only a made-up state has", TS11_CLASS(tssr_with(TS11_AT_CLASS, TS11_CLASS_RECOVERABLE)), 4);
}

/* A reverse read of a short record fills every word of the message that can be other than 0. */
static void test_message(void)
{
	ready(0, HERE);
	struct ending e = command(&u, TS11_READ_PREVIOUS | TS11_ACK, DATA, 10);
	const uint8_t *message = u.memory.at + MESSAGE;
	EXPECT("a message was sent", e.sent, true);
	EXPECT("header", word_at(message + TS11_MESSAGE_HEADER), TS11_END);
	EXPECT("length", word_at(message + TS11_MESSAGE_LENGTH), 10);
	EXPECT("residual", word_at(message + TS11_MESSAGE_RESIDUAL), 3);
	EXPECT("XST0", word_at(message + TS11_MESSAGE_XST0), 0x40C8);
	EXPECT("XST1", word_at(message + TS11_MESSAGE_XST1), 0);
	EXPECT("XST2", word_at(message + TS11_MESSAGE_XST2), 0);
	EXPECT("XST3", word_at(message + TS11_MESSAGE_XST3), TS11_XST3_REV);
	EXPECT_BYTES("the record at the buffer's high end", u.memory.at + DATA + 3, (const uint8_t *)"ABCDEFG", 7);
}

/* XST1 and XST2 are both 0: they are the two words that the others leave, in this order. */
static void test_message_words(void)
{
	unsigned bytes_covered = 0;
	ROWS(k, message_offsets) {
		bytes_covered ^= 3u << message_offsets[k];
		EXPECT("the words in the order of the paper", k == 0 || message_offsets[k - 1] < message_offsets[k], true);
	}
	EXPECT("the bytes that the seven words cover", bytes_covered, (1u << TS11_MESSAGE_BYTES) - 1);
}

/* ---- commands ---------------------------------------------------------------------------------------------------- */

/* The paper's order, which is that of code and mode. */
static const uint16_t headers[] = {
	TS11_READ_NEXT,
	TS11_READ_PREVIOUS,
	TS11_REREAD_PREVIOUS,
	TS11_REREAD_NEXT,
	TS11_WRITE_CHARACTERISTICS,
	TS11_WRITE,
	TS11_WRITE_RETRY,
	TS11_SPACE_RECORDS,
	TS11_SPACE_RECORDS_REVERSE,
	TS11_SKIP_MARKS,
	TS11_SKIP_MARKS_REVERSE,
	TS11_REWIND,
	TS11_WRITE_MARK,
	TS11_ERASE,
	TS11_WRITE_MARK_RETRY,
	TS11_RELEASE,
	TS11_UNLOAD,
	TS11_CLEAN,
	TS11_INITIALIZE,
	TS11_GET_STATUS,
};

static bool legal(uint16_t header)
{
	struct ending e = command(&u, header | TS11_ACK, DATA, 8);
	bool illegal = e.sent && TS11_CLASS(e.tssr) == TS11_CLASS_REJECT && (e.xst0 & TS11_XST0_ILC);
	for (int k = 0; k < 3; k++)
		EXPECT("step back", step_back(&u).answer, TS11_DONE);
	return !illegal;
}

/* All codes and modes are tried: those that the unit knows are the header's, one for one. */
static void test_known_commands(void)
{
	size_t found = 0;
	ready(0, HERE);
	make = perform;
	for (unsigned code = 0; code < 32; code++)
		for (unsigned mode = 0; mode < 16; mode++)
			if (legal((uint16_t)(mode << 8 | code))) {
				if (found < COUNT(headers))
					EXPECT("a known command", headers[found], mode << 8 | code);
				found++;
			}
	make = checked;
	EXPECT("known commands", found, COUNT(headers));
}

/* The data buffer before a command. */
#define UNTOUCHED "........."

/* All that tells one command from another. */
struct effect {
	uint32_t position, end, online, unit_owns;
	unsigned class;
	bool sent;
	uint16_t residual, xst0, xst3;
	size_t entry;
	uint16_t kind_2, kind_3;
	char data[10];
};

static struct effect effect_of(uint16_t header, size_t pointer, uint16_t count)
{
	ready(0, HERE);
	memcpy(u.memory.at + DATA, UNTOUCHED, 9);
	struct ending e = command(&u, header | TS11_ACK, pointer, count);
	struct effect f;
	memset(&f, 0, sizeof f);
	f.position = number(&u, TS11_AT_POSITION);
	f.end = number(&u, TS11_AT_END);
	f.online = number(&u, TS11_AT_ONLINE);
	f.unit_owns = number(&u, TS11_AT_UNIT_OWNS);
	f.class = TS11_CLASS(e.tssr);
	f.sent = e.sent;
	f.residual = e.sent ? e.residual : 0;
	f.xst0 = e.sent ? e.xst0 : 0;
	f.xst3 = e.sent ? e.xst3 : 0;
	f.entry = e.entry;
	f.kind_2 = word_at(u.reel.at + 2 * TS11_BLOCK + TS11_BLOCK_KIND);
	f.kind_3 = word_at(u.reel.at + 3 * TS11_BLOCK + TS11_BLOCK_KIND);
	memcpy(f.data, u.memory.at + DATA, 9);
	return f;
}

static void expect_effect(const struct effect *got, const struct effect *wanted)
{
	EXPECT("position", got->position, wanted->position);
	EXPECT("recorded end", got->end, wanted->end);
	EXPECT("on line", got->online, wanted->online);
	EXPECT("unit owns", got->unit_owns, wanted->unit_owns);
	EXPECT("class", got->class, wanted->class);
	EXPECT("sent", got->sent, wanted->sent);
	EXPECT("residual", got->residual, wanted->residual);
	EXPECT("XST0", got->xst0, wanted->xst0);
	EXPECT("XST3", got->xst3, wanted->xst3);
	EXPECT("entry", got->entry, wanted->entry);
	EXPECT("kind of block 2", got->kind_2, wanted->kind_2);
	EXPECT("kind of block 3", got->kind_3, wanted->kind_3);
	EXPECT_BYTES("data", (const uint8_t *)got->data, (const uint8_t *)wanted->data, 9);
}

enum { R = TS11_KIND_RECORD, M = TS11_KIND_MARK, G = TS11_KIND_GAP };
enum { STILL = XST0_READY, MOVED = STILL | TS11_XST0_MOT, MARKED = MOVED | TS11_XST0_TMK };
enum { RLS = TS11_XST0_RLS, BOT = TS11_XST0_BOT, ONL = TS11_XST0_ONL, REV = TS11_XST3_REV };
enum { HEAD = TS11_ENTRY_HEAD, SENT = HEAD + TS11_MESSAGE_BYTES, LAID = 512 + 8 };

/* From block 3, with the record "ABCDEFG" behind and "abcdefghi" ahead. */
static const struct {
	const char *name;
	uint16_t header;
	size_t pointer;
	uint16_t count;
	struct effect effect; /* position end online owns class sent residual xst0 xst3 entry kinds data */
} commands[] = {
	{ "read next", TS11_READ_NEXT, DATA, 9, { 4, 9, 1, 0, 0, 1, 0, MOVED, 0, SENT + 9, R, R, "abcdefghi" } },
	{ "previous", TS11_READ_PREVIOUS, DATA, 9, { 2, 9, 1, 0, 2, 1, 2, MOVED | RLS, REV, SENT + 7, R, R, "..ABCDEFG" } },
	{ "reread", TS11_REREAD_PREVIOUS, DATA, 9, { 3, 9, 1, 0, 2, 1, 2, STILL | RLS, 0, SENT + 7, R, R, "ABCDEFG.." } },
	{ "reread next", TS11_REREAD_NEXT, DATA, 9, { 3, 9, 1, 0, 0, 1, 0, STILL, REV, SENT + 9, R, R, "abcdefghi" } },
	{ "write", TS11_WRITE, DATA, 5, { 4, 4, 1, 0, 0, 1, 0, MOVED, 0, SENT + LAID, R, R, UNTOUCHED } },
	{ "write retry", TS11_WRITE_RETRY, DATA, 5, { 4, 4, 1, 0, 0, 1, 0, MOVED, 0, SENT + 2 * LAID, G, R, UNTOUCHED } },
	{ "space", TS11_SPACE_RECORDS, 1, 0, { 4, 9, 1, 0, 0, 1, 0, MOVED, 0, SENT, R, R, UNTOUCHED } },
	{ "space reverse", TS11_SPACE_RECORDS_REVERSE, 1, 0, { 2, 9, 1, 0, 0, 1, 0, MOVED, REV, SENT, R, R, UNTOUCHED } },
	{ "skip", TS11_SKIP_MARKS, 1, 0, { 6, 9, 1, 0, 0, 1, 0, MARKED, 0, SENT, R, R, UNTOUCHED } },
	{ "skip reverse", TS11_SKIP_MARKS_REVERSE, 1, 0, { 1, 9, 1, 0, 0, 1, 0, MARKED, REV, SENT, R, R, UNTOUCHED } },
	{ "rewind", TS11_REWIND, 1, 0, { 0, 9, 1, 0, 0, 1, 0, MOVED | BOT, 0, SENT, R, R, UNTOUCHED } },
	{ "mark", TS11_WRITE_MARK, 0, 0, { 4, 4, 1, 0, 0, 1, 0, MARKED, 0, SENT + LAID, R, M, UNTOUCHED } },
	{ "erase", TS11_ERASE, 0, 0, { 4, 4, 1, 0, 0, 1, 0, MOVED, 0, SENT + LAID, R, G, UNTOUCHED } },
	{ "mark retry", TS11_WRITE_MARK_RETRY, 0, 0, { 4, 4, 1, 0, 0, 1, 0, MARKED, 0, SENT + 2 * LAID, G, M, UNTOUCHED } },
	{ "release", TS11_RELEASE, 0, 0, { 3, 9, 1, 1, 0, 0, 0, 0, 0, HEAD, R, R, UNTOUCHED } },
	{ "unload", TS11_UNLOAD, 0, 0, { 0, 9, 0, 0, 0, 1, 0, (MOVED | BOT) & ~ONL, 0, SENT, R, R, UNTOUCHED } },
	{ "clean", TS11_CLEAN, 0, 0, { 3, 9, 1, 0, 0, 1, 0, STILL, 0, SENT, R, R, UNTOUCHED } },
	{ "initialize", TS11_INITIALIZE, 0, 0, { 3, 9, 1, 0, 0, 1, 0, STILL, 0, SENT, R, R, UNTOUCHED } },
	{ "get status", TS11_GET_STATUS, 0, 0, { 3, 9, 1, 0, 0, 1, 0, STILL, 0, SENT, R, R, UNTOUCHED } },
};
enum { WITHOUT_ACTION = 3 }; /* the last of the table: nothing tells clean, initialize and get status apart */

static void test_effects(void)
{
	ROWS(k, commands) {
		context("%s", commands[k].name);
		struct effect f = effect_of(commands[k].header, commands[k].pointer, commands[k].count);
		expect_effect(&f, &commands[k].effect);
	}
	context("");
}

static bool same_effect(const struct effect *a, const struct effect *b)
{
	return a->position == b->position && a->end == b->end && a->online == b->online && a->unit_owns == b->unit_owns &&
	       a->xst3 == b->xst3 && a->entry == b->entry && a->kind_2 == b->kind_2 && a->kind_3 == b->kind_3 &&
	       memcmp(a->data, b->data, 9) == 0;
}

/* So each command's effect is its own. */
static void test_effects_differ(void)
{
	size_t alike = 0;
	ROWS(i, commands)
		for (size_t j = 0; j < i; j++)
			alike += same_effect(&commands[i].effect, &commands[j].effect);
	EXPECT("pairs of commands with the same effect", alike, WITHOUT_ACTION * (WITHOUT_ACTION - 1) / 2);
}

/* Write Characteristics is the one that takes a new message buffer. */
static void test_write_characteristics(void)
{
	ready(0, HERE);
	struct ending e = characteristics(&u, 0, 0x240, 20, 0);
	EXPECT("class", TS11_CLASS(e.tssr), TS11_CLASS_NORMAL);
	EXPECT("message address", number(&u, TS11_AT_MESSAGE), 0x240);
	EXPECT("message length", number(&u, TS11_AT_MESSAGE_LENGTH), 20);
	EXPECT("the message stands there", word_at(u.memory.at + 0x240 + TS11_MESSAGE_HEADER), TS11_END);
	EXPECT("entry", e.entry, SENT);
}

/* ---- flags: which of the 16 bits of a word has an effect --------------------------------------------------------- */

static bool runs_unowned(uint16_t bit)
{
	ready(0, HERE);
	return command(&u, TS11_GET_STATUS | bit, 0, 0).sent;
}

static bool clears_vck(uint16_t bit)
{
	ready(0, HERE);
	set_number(&u, TS11_AT_VCK, 1);
	command(&u, TS11_GET_STATUS | TS11_ACK | bit, 0, 0);
	return number(&u, TS11_AT_VCK) == 0;
}

static bool interrupts(uint16_t bit)
{
	ready(0, HERE);
	return command(&u, TS11_GET_STATUS | TS11_ACK | bit, 0, 0).interrupt;
}

static bool swaps(uint16_t bit)
{
	ready(0, 2);
	command(&u, TS11_READ_NEXT | TS11_ACK | bit, DATA, 6);
	return memcmp(u.memory.at + DATA, "BADCFE", 6) == 0;
}

/* A reread of the previous record that reads first reads in reverse: the record lies at the buffer's high end. */
static bool reads_first(uint16_t bit)
{
	ready(0, HERE);
	struct ending e = command(&u, TS11_REREAD_PREVIOUS | TS11_ACK | bit, DATA, 9);
	return memcmp(u.memory.at + DATA + 2, "ABCDEFG", 7) == 0 && number(&u, TS11_AT_POSITION) == HERE && e.xst3 == 0;
}

static bool makes_attention(uint16_t bit)
{
	ready(bit, HERE);
	operate(&u, TS11_SWITCH_ONLINE, false);
	set_number(&u, TS11_AT_UNIT_OWNS, 1);
	return advance(&u).stepped;
}

static bool stops_at_two_marks(uint16_t bit)
{
	ready(bit, 5);
	return command(&u, TS11_SKIP_MARKS | TS11_ACK, 2, 0).xst0 & TS11_XST0_LET;
}

/* With ESS, from block 0. */
static bool stops_at_first_mark(uint16_t bit)
{
	ready(TS11_ESS | bit, 0);
	lay_mark(u.reel.at, 0);
	return command(&u, TS11_SKIP_MARKS | TS11_ACK, 1, 0).xst0 & TS11_XST0_LET;
}

static void test_flags(void)
{
	static const struct {
		const char *name;
		bool (*has_effect)(uint16_t bit);
		uint16_t flag;
	} rows[] = {
		{ "ACK", runs_unowned, TS11_ACK },       { "CVC", clears_vck, TS11_CVC },
		{ "IE", interrupts, TS11_IE },           { "SWB", swaps, TS11_SWB },
		{ "OPP", reads_first, TS11_OPP },        { "EAI", makes_attention, TS11_EAI },
		{ "ESS", stops_at_two_marks, TS11_ESS }, { "ENB", stops_at_first_mark, TS11_ENB },
	};
	ROWS(k, rows) {
		unsigned bits = 0;
		context("flag %s", rows[k].name);
		EXPECT("without it", rows[k].has_effect(0), false);
		for (unsigned bit = 1; bit < 0x10000; bit <<= 1)
			bits |= rows[k].has_effect((uint16_t)bit) ? bit : 0;
		EXPECT("bits with its effect", bits, rows[k].flag);
	}
	context("");
}

/* ---- XST0 and XST3: the difference that one thing makes ---------------------------------------------------------- */

/* The unit made ready at a block with a mode word, write lock and line switch; then a command. */
struct trial {
	uint16_t mode, position;
	bool locked, offline, vck;
	uint16_t header;
	size_t pointer;
	uint16_t count;
};

static struct ending tried(const struct trial *t)
{
	ready(t->mode, 0);
	set_number(&u, TS11_AT_END, t->position > TAPE_END ? REEL_BLOCKS : TAPE_END);
	set_number(&u, TS11_AT_POSITION, t->position);
	if (t->locked)
		operate(&u, TS11_SWITCH_WRITE_LOCK, true);
	if (t->offline)
		operate(&u, TS11_SWITCH_ONLINE, false);
	if (t->vck)
		set_number(&u, TS11_AT_VCK, 1);
	return command(&u, t->header | TS11_ACK, t->pointer, t->count);
}

enum { STATUS = TS11_GET_STATUS, MARKER = REEL_BLOCKS - TS11_EOT_MARGIN };

static void test_xst0(void)
{
	static const struct {
		const char *name;
		struct trial one, other;
		unsigned difference;
	} rows[] = {
		{ "TMK", { .position = 3, .header = TS11_WRITE_MARK }, { .position = 3, .header = TS11_ERASE }, TS11_XST0_TMK },
		{ "RLS",
		  { .position = 2, .header = TS11_READ_NEXT, .pointer = DATA, .count = 8 },
		  { .position = 2, .header = TS11_READ_NEXT, .pointer = DATA, .count = 7 },
		  TS11_XST0_RLS },
		{ "RLL",
		  { .position = 2, .header = TS11_READ_NEXT, .pointer = DATA, .count = 6 },
		  { .position = 2, .header = TS11_READ_NEXT, .pointer = DATA, .count = 7 },
		  TS11_XST0_RLL },
		{ "LET",
		  { .mode = TS11_ESS, .position = 5, .header = TS11_SKIP_MARKS, .pointer = 2 },
		  { .position = 5, .header = TS11_SKIP_MARKS, .pointer = 2 },
		  TS11_XST0_LET },
		{ "WLE",
		  { .position = 0, .locked = true, .header = TS11_WRITE, .pointer = DATA, .count = 5 },
		  { .position = 0, .locked = true, .header = TS11_READ_PREVIOUS, .pointer = DATA, .count = 5 },
		  TS11_XST0_WLE },
		{ "NEF",
		  { .position = 3, .header = TS11_WRITE, .pointer = DATA, .count = 0 },
		  { .position = 3, .header = STATUS },
		  TS11_XST0_NEF },
		{ "ILC", { .position = 3, .header = 0 }, { .position = 3, .header = STATUS }, TS11_XST0_ILC },
		{ "ILA",
		  { .position = 3, .header = TS11_READ_NEXT, .pointer = 0x40000 },
		  { .position = 3, .header = STATUS },
		  TS11_XST0_ILA },
		{ "MOT",
		  { .position = 2, .header = TS11_SPACE_RECORDS, .pointer = 1 },
		  { .position = 3, .header = STATUS },
		  TS11_XST0_MOT },
		{ "ONL",
		  { .position = 3, .header = STATUS },
		  { .position = 3, .offline = true, .header = STATUS },
		  TS11_XST0_ONL },
		{ "IE", { .position = 3, .header = STATUS | TS11_IE }, { .position = 3, .header = STATUS }, TS11_XST0_IE },
		{ "VCK", { .position = 3, .vck = true, .header = STATUS }, { .position = 3, .header = STATUS }, TS11_XST0_VCK },
		{ "WLK",
		  { .position = 3, .locked = true, .header = STATUS },
		  { .position = 3, .header = STATUS },
		  TS11_XST0_WLK },
		{ "BOT", { .position = 0, .header = STATUS }, { .position = 1, .header = STATUS }, TS11_XST0_BOT },
		{ "EOT",
		  { .position = MARKER, .header = STATUS },
		  { .position = MARKER - 1, .header = STATUS },
		  TS11_XST0_EOT },
	};
	unsigned always = 0xFFFF;
	ROWS(k, rows) {
		context("XST0 %s", rows[k].name);
		uint16_t one = tried(&rows[k].one).xst0, other = tried(&rows[k].other).xst0;
		EXPECT("difference", one ^ other, rows[k].difference);
		EXPECT("the bit is set in the first", one & rows[k].difference, rows[k].difference);
		always &= one & other;
	}
	context("");
	EXPECT("the bit of XST0 that is always set", always, TS11_XST0_PED);
}

static void test_xst3(void)
{
	static const struct {
		const char *name;
		struct trial one, other;
		unsigned difference;
	} rows[] = {
		{ "OPI",
		  { .position = TAPE_END, .header = TS11_READ_NEXT, .pointer = DATA, .count = 9 },
		  { .position = 3, .header = TS11_READ_NEXT, .pointer = DATA, .count = 9 },
		  TS11_XST3_OPI },
		{ "REV",
		  { .position = 3, .header = TS11_READ_PREVIOUS, .pointer = DATA, .count = 9 },
		  { .position = 3, .header = TS11_READ_NEXT, .pointer = DATA, .count = 9 },
		  TS11_XST3_REV },
		{ "RIB",
		  { .position = 1, .header = TS11_SPACE_RECORDS_REVERSE, .pointer = 2 },
		  { .position = 1, .header = TS11_SPACE_RECORDS_REVERSE, .pointer = 1 },
		  TS11_XST3_RIB },
	};
	ROWS(k, rows) {
		context("XST3 %s", rows[k].name);
		uint16_t one = tried(&rows[k].one).xst3, other = tried(&rows[k].other).xst3;
		EXPECT("difference", one ^ other, rows[k].difference);
		EXPECT("the bit is set in the first", one & rows[k].difference, rows[k].difference);
	}
	context("");
}

/* ---- the reel's blocks ------------------------------------------------------------------------------------------- */

static uint8_t *block_at(size_t block)
{
	return u.reel.at + block * TS11_BLOCK;
}

/* Words of a block that the library wrote; the check word is summed again here. */
static void expect_block(size_t block, unsigned kind, unsigned length, unsigned index)
{
	const uint8_t *b = block_at(block);
	EXPECT("kind", word_at(b + TS11_BLOCK_KIND), kind);
	EXPECT("record length", word_at(b + TS11_BLOCK_LENGTH), length);
	EXPECT("index", word_at(b + TS11_BLOCK_INDEX), index);
	EXPECT("check word", word_at(b + TS11_BLOCK_CHECK), check_of(b));
}

static void test_written_record(void)
{
	ready(0, HERE);
	make_bytes(u.memory.at + DATA, 600, 5);
	command(&u, TS11_WRITE | TS11_ACK, DATA, 600);
	context("a record of 600 bytes");
	expect_block(3, 1, 600, 0);
	expect_block(4, 1, 600, 1);
	EXPECT("kind", word_at(block_at(3) + TS11_BLOCK_KIND), TS11_KIND_RECORD);
	EXPECT_BYTES("first data", block_at(3) + TS11_BLOCK_BYTES, u.memory.at + DATA, TS11_BLOCK_DATA);
	EXPECT_BYTES("second data", block_at(4) + TS11_BLOCK_BYTES, u.memory.at + DATA + TS11_BLOCK_DATA,
	             600 - TS11_BLOCK_DATA);
	EXPECT("bytes not used", all_are(block_at(4) + TS11_BLOCK_BYTES + 96, TS11_BLOCK_CHECK - TS11_BLOCK_BYTES - 96, 0),
	       true);
	uint8_t wanted[2 * TS11_BLOCK];
	lay_record(wanted, 0, u.memory.at + DATA, 600);
	EXPECT_BYTES("both blocks", block_at(3), wanted, sizeof wanted);
	context("");
}

static void test_written_mark_and_gap(void)
{
	ready(0, HERE);
	command(&u, TS11_WRITE_MARK | TS11_ACK, 0, 0);
	command(&u, TS11_ERASE | TS11_ACK, 0, 0);
	context("a mark");
	expect_block(3, TS11_KIND_MARK, 0, 0);
	EXPECT("check word", word_at(block_at(3) + TS11_BLOCK_CHECK), 2);
	EXPECT("all else", all_are(block_at(3) + 2, TS11_BLOCK_CHECK - 2, 0), true);
	context("a gap");
	expect_block(4, TS11_KIND_GAP, 0, 0);
	EXPECT("check word", word_at(block_at(4) + TS11_BLOCK_CHECK), 3);
	EXPECT("all else", all_are(block_at(4) + 2, TS11_BLOCK_CHECK - 2, 0), true);
	context("");
	u.memory.at[DATA] = 'A';
	u.memory.at[DATA + 1] = 'B';
	command(&u, TS11_WRITE | TS11_ACK, DATA, 2);
	EXPECT("check word of the record AB", word_at(block_at(5) + TS11_BLOCK_CHECK), 0x4244);
}

/* ---- all of it --------------------------------------------------------------------------------------------------- */

static void test_all(void)
{
	test_mount_limits();
	test_record_limits();
	test_host_store_limit();
	test_entry_and_message_sizes();
	test_place_size();
	test_packet_size();
	test_eot_margin();
	test_answers_to_lengths();
	test_other_answers();
	test_faults();
	test_no_faults();
	drive_switches();
	drive_registers();
	drive_characteristics();
	drive_attention();
	drive_tape();
	test_made_up();
	test_state_bytes();
	test_state_number();
	test_place_numbers();
	test_places();
	test_look_ups();
	test_tsdb();
	test_tssr_driven();
	test_tssr_measured();
	test_class_macro();
	test_classes();
	test_message();
	test_message_words();
	test_known_commands();
	test_effects();
	test_effects_differ();
	test_write_characteristics();
	test_flags();
	test_xst0();
	test_xst3();
	test_written_record();
	test_written_mark_and_gap();
	free_unit(&u);
}

int main(void)
{
	if (offsets_inside())
		test_all();
	return summary("header", "constants and prototypes of ts11.h are the library's");
}
