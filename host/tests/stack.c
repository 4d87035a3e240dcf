/*
 * stack NEEDS: the stack that each call uses, from its return address down. A call runs on a stack of its own, painted
 * before: what is no longer paint was used. It must not grow with the record, nor with memory, reel or journal, nor
 * pass what the machine code needs at most (the file NEEDS, by frames.awk), nor may that pass TS11_STACK_BYTES.
 * Compile with -I host/include and link with libts11.a, for x86-64.
 */
#include "driver.h"

/* ---- a painted stack --------------------------------------------------------------------------------------------- */

/* Room for scratch as long as a few records; an even number of words, so that the stack begins where one may. */
enum { WORDS = 4 * (TS11_RECORD_MAX + 1) / sizeof(uint64_t), IN_REGISTERS = 6, ARGUMENTS = 13 };
_Static_assert(WORDS % 2 == 0, "a call's stack is aligned to 16 bytes");

static _Alignas(16) uint64_t painted[WORDS + ARGUMENTS - IN_REGISTERS];

typedef void function(void);

/* Calls f on another stack, with thirteen arguments or, by f, fewer: those past the sixth stand there already. */
uint64_t call_on(uint64_t *stack, function *f, const uint64_t *arguments);
__asm__(".text\n"
        "call_on:\n"
        "	push %rbp\n"
        "	mov %rsp, %rbp\n"
        "	mov %rdi, %rsp\n"
        "	mov %rsi, %rax\n"
        "	mov %rdx, %r10\n"
        "	mov (%r10), %rdi\n"
        "	mov 8(%r10), %rsi\n"
        "	mov 16(%r10), %rdx\n"
        "	mov 24(%r10), %rcx\n"
        "	mov 32(%r10), %r8\n"
        "	mov 40(%r10), %r9\n"
        "	call *%rax\n"
        "	mov %rbp, %rsp\n"
        "	pop %rbp\n"
        "	ret\n");

/* A word that no call has a reason to store: no small number, no address, and no two alike. */
static uint64_t paint(size_t place)
{
	return 0xA5C3965A3C69F001 + place * 0x0101010101010101;
}

/* Makes the call; *bytes is what it used of the stack. */
static uint64_t call_painted(function *f, const uint64_t *arguments, size_t *bytes)
{
	size_t place = 0;
	for (size_t i = 0; i < WORDS; i++)
		painted[i] = paint(i);
	memcpy(painted + WORDS, arguments + IN_REGISTERS, (ARGUMENTS - IN_REGISTERS) * sizeof *arguments);
	uint64_t answer = call_on(painted + WORDS, f, arguments);
	while (place < WORDS && painted[place] == paint(place))
		place++;
	*bytes = (WORDS - place) * sizeof *painted;
	return answer;
}

/* ---- the calls on it --------------------------------------------------------------------------------------------- */

#define AT(pointer) ((uint64_t)(uintptr_t)(pointer))
#define CALL(f, ...) call_painted((function *)(f), (uint64_t[ARGUMENTS]){ __VA_ARGS__ }, &last)

/* What the last call used. */
static size_t last;

/* As put_call (unit.h) makes them. */
static ts11_answer put_painted(struct unit *u, const struct call *c, struct outs *o)
{
	uint64_t s = AT(u->state.at), m = AT(u->memory.at), r = AT(u->reel.at), t = AT(u->table.at), j = AT(u->journal.at);
	uint64_t mn = u->memory.length, rn = u->reel.length, tn = u->table.length, jn = u->journal.length;
	switch (c->kind) {
	case MOUNT:
		return CALL(ts11_mount, s, mn, r, rn, t, tn, jn, c->recorded_end, c->online, c->write_lock, AT(&o->block),
		            AT(&o->fault));
	case WRITE_TSDB:
		return CALL(ts11_write_tsdb, s, m, mn, r, rn, t, tn, j, jn, c->word);
	case WRITE_TSSR:
		return CALL(ts11_write_tssr, s, m, mn, r, rn, t, tn, j, jn, c->word);
	case OPERATE:
		return CALL(ts11_operate, s, m, mn, r, rn, t, tn, j, jn, c->which, c->on);
	case READ_REGISTER:
		return CALL(ts11_read_register, s, c->which, AT(&o->word));
	case HOST_STORE:
		return CALL(ts11_host_store, s, m, mn, r, rn, t, tn, j, jn, c->address, AT(c->bytes), c->length);
	case ADVANCE:
		return CALL(ts11_advance, s, m, mn, r, rn, t, tn, j, jn, AT(&o->stepped), AT(&o->interrupt), AT(&o->block),
		            AT(&o->fault));
	case STEP_BACK:
		return CALL(ts11_step_back, s, m, mn, r, rn, t, tn, j, jn);
	case FIND_FILE:
		return CALL(ts11_find_file, s, t, tn, c->sought, AT(&o->found), AT(&o->place));
	default:
		return CALL(ts11_find_block, s, t, tn, c->sought, AT(&o->found), AT(&o->place));
	}
}

/* ---- what was seen ----------------------------------------------------------------------------------------------- */

static const size_t record_lengths[] = { 1, TS11_BLOCK_DATA, TS11_BLOCK_DATA + 1, 16384, TS11_RECORD_MAX };

enum { LENGTHS = COUNT(record_lengths) };

/* Where the test stands: the record's length, the buffers, with SWB or without, from an even address or an odd one. */
static size_t nth;
static enum { SMALL, FULL, SIZES } size;
static enum { STRAIGHT, SWAPPED, SWAPPED_FROM_ODD, WAYS } way;

/* The most that a call, or an advance by one command, may use, what it did use, and for a call what its code needs. */
struct use {
	const char *name;
	size_t most, bytes[WAYS][SIZES][LENGTHS], need;
};

#define USE(words, bytes) { .name = words, .most = bytes }

static size_t larger(size_t a, size_t b)
{
	return a > b ? a : b;
}

static void note(struct use *use)
{
	size_t *bytes = &use->bytes[way][size][nth];
	*bytes = larger(*bytes, last);
}

static struct use calls[] = {
	[MOUNT] = USE("ts11_mount", 368),
	[WRITE_TSDB] = USE("ts11_write_tsdb", 96),
	[WRITE_TSSR] = USE("ts11_write_tssr", 88),
	[OPERATE] = USE("ts11_operate", 112),
	[READ_REGISTER] = USE("ts11_read_register", 24),
	[HOST_STORE] = USE("ts11_host_store", 176),
	[ADVANCE] = USE("ts11_advance", 1968),
	[STEP_BACK] = USE("ts11_step_back", 296),
	[FIND_FILE] = USE("ts11_find_file", 56),
	[FIND_BLOCK] = USE("ts11_find_block", 64),
};

static struct result noted(struct unit *u, const struct call *c)
{
	struct result r = perform(u, c);
	note(&calls[c->kind]);
	return r;
}

/* ---- every command ----------------------------------------------------------------------------------------------- */

/* On the reel stand a mark, the record, a mark; a command begins before the record or behind it. */
static struct {
	struct use use;
	uint16_t header;
	bool behind;
} commands[] = {
	{ USE("read next", 1536), TS11_READ_NEXT, false },
	{ USE("read previous", 1536), TS11_READ_PREVIOUS, true },
	{ USE("reread next", 1952), TS11_REREAD_NEXT, false },
	{ USE("reread previous", 1952), TS11_REREAD_PREVIOUS, true },
	{ USE("reread next, OPP", 1968), TS11_REREAD_NEXT | TS11_OPP, false },
	{ USE("reread previous, OPP", 1968), TS11_REREAD_PREVIOUS | TS11_OPP, true },
	{ USE("write", 1400), TS11_WRITE, true },
	{ USE("write retry", 1824), TS11_WRITE_RETRY, true },
	{ USE("write characteristics", 1360), TS11_WRITE_CHARACTERISTICS, false },
	{ USE("space records", 1824), TS11_SPACE_RECORDS, false },
	{ USE("space records reverse", 1824), TS11_SPACE_RECORDS_REVERSE, true },
	{ USE("skip marks", 1824), TS11_SKIP_MARKS, false },
	{ USE("skip marks reverse", 1824), TS11_SKIP_MARKS_REVERSE, true },
	{ USE("rewind", 1360), TS11_REWIND, true },
	{ USE("write mark", 1400), TS11_WRITE_MARK, true },
	{ USE("erase", 1400), TS11_ERASE, true },
	{ USE("write mark retry", 1824), TS11_WRITE_MARK_RETRY, true },
	{ USE("release", 1360), TS11_RELEASE, false },
	{ USE("unload", 1360), TS11_UNLOAD, true },
	{ USE("clean", 1360), TS11_CLEAN, false },
	{ USE("initialize", 1360), TS11_INITIALIZE, false },
	{ USE("get status", 1360), TS11_GET_STATUS, false },
};

static bool reads(uint16_t header)
{
	return (header & 0x1F) == TS11_READ_NEXT;
}

static bool writes(uint16_t header)
{
	return (header & 0x1F) == TS11_WRITE;
}

/* The record's bytes on the reel, and those at DATA before a command: two more, which an odd start and length reach. */
static uint8_t on_reel[TS11_RECORD_MAX], in_memory[TS11_RECORD_MAX + 2];

/* Where a command's data begins, and where byte i of it lies: with SWB the address has its lowest bit flipped. */
static size_t start(void)
{
	return DATA + (way == SWAPPED_FROM_ODD);
}

static size_t place(size_t i)
{
	return (start() + i) ^ (way != STRAIGHT);
}

/* A command with its operands: the record's bytes, the characteristics, or a count of 1. */
static void run(struct unit *u, uint16_t header)
{
	struct ending e;
	if (reads(header) || writes(header))
		e = command(u, TS11_ACK | header, start(), (uint16_t)record_lengths[nth]);
	else if (header == TS11_WRITE_CHARACTERISTICS)
		e = command(u, TS11_ACK | header, CHARACTERISTICS, 8);
	else
		e = command(u, TS11_ACK | header, 1, 0);
	EXPECT("answer", e.answer, TS11_DONE);
	EXPECT("class", TS11_CLASS(e.tssr), TS11_CLASS_NORMAL);
}

static void expect_read(const struct unit *u)
{
	for (size_t i = 0; i < record_lengths[nth]; i++)
		EXPECT("a byte read", u->memory.at[place(i)], on_reel[i]);
}

static void expect_written(const struct unit *u)
{
	size_t n = record_lengths[nth], first = number(u, TS11_AT_POSITION) - pieces(n);
	for (size_t i = 0; i < n; i++) {
		const uint8_t *block = u->reel.at + (first + i / TS11_BLOCK_DATA) * TS11_BLOCK;
		EXPECT("a byte written", block[TS11_BLOCK_BYTES + i % TS11_BLOCK_DATA], in_memory[place(i) - DATA]);
	}
}

static void back_to_the_mount(struct unit *u)
{
	while (used(u))
		if (!EXPECT("a step back to the mount", step_back(u).answer, TS11_DONE))
			return;
}

static void run_row(struct unit *u, size_t row)
{
	uint16_t header = commands[row].header | (way != STRAIGHT ? TS11_SWB : 0);
	context("%s%s, a record of %zu bytes", commands[row].use.name, way ? ", SWB" : "", record_lengths[nth]);
	EXPECT("a message buffer", characteristics(u, TS11_CVC, MESSAGE, TS11_MESSAGE_BYTES, 0).sent, true);
	run(u, TS11_SKIP_MARKS);
	if (commands[row].behind)
		run(u, TS11_SPACE_RECORDS);
	run(u, header);
	EXPECT("the step back of it", step_back(u).answer, TS11_DONE);
	EXPECT("the command once more", advance(u).stepped, true);
	note(&commands[row].use);
	if (reads(header))
		expect_read(u);
	if (writes(header))
		expect_written(u);
	back_to_the_mount(u);
	context("");
}

/* The other calls: registers, switches turned, a host store as long as the record, a command that is lost, look-ups. */
static void run_others(struct unit *u)
{
	for (int k = 0; k < 2; k++) {
		EXPECT("a register", read_register(u, k).answer, TS11_DONE);
		EXPECT("a switch", operate(u, k, k).answer, TS11_DONE);
		EXPECT("a switch turned back", operate(u, k, !k).answer, TS11_DONE);
	}
	EXPECT("a store", host_store(u, DATA, in_memory, record_lengths[nth]).answer, TS11_DONE);
	EXPECT("the step back of it", step_back(u).answer, TS11_DONE);
	EXPECT("an idle advance", advance(u).stepped, false);
	EXPECT("TSDB", write_tsdb(u, TS11_TSDB(PACKET)).answer, TS11_DONE);
	EXPECT("TSDB, a command waiting", write_tsdb(u, TS11_TSDB(PACKET)).answer, TS11_DONE);
	EXPECT("TSSR", write_tssr(u, 0).answer, TS11_DONE);
	EXPECT("the file behind two marks", find_file(u, 2).found, true);
	EXPECT("the last block", find_block(u, number(u, TS11_AT_END) - 1).place, objects(u) - 1);
	back_to_the_mount(u);
}

/* A mark, the record, a mark, and records of that length up to the reel's end. */
static size_t lay_reel(const struct buffer *reel)
{
	size_t n = record_lengths[nth], at = lay_mark(reel->at, 0);
	at = lay_mark(reel->at, lay_record(reel->at, at, on_reel, n));
	while (at + pieces(n) <= reel->length / TS11_BLOCK)
		at = lay_record(reel->at, at, on_reel, n);
	return at;
}

static struct unit unit_of_size(void)
{
	if (size == FULL)
		return make_unit(TS11_MEMORY_MAX, (size_t)TS11_REEL_BLOCKS_MAX * TS11_BLOCK, TS11_JOURNAL_MAX, 0);
	size_t blocks = TS11_EOT_MARGIN + 4 * pieces(TS11_RECORD_MAX);
	return make_unit(DATA + 2 * (TS11_RECORD_MAX / 2 + 2), blocks * TS11_BLOCK, 8 * TS11_RECORD_MAX, 0);
}

/* All calls with buffers of one size, around a record of one length. */
static void run_all(void)
{
	struct unit u = unit_of_size();
	memcpy(u.memory.at + DATA, in_memory, record_lengths[nth] + 2);
	way = STRAIGHT;
	EXPECT("the mount", mount(&u, lay_reel(&u.reel), true, false).answer, TS11_DONE);
	run_others(&u);
	for (; way < WAYS; way++)
		ROWS(row, commands)
			if (way == STRAIGHT || reads(commands[row].header) || writes(commands[row].header))
				run_row(&u, row);
	free_unit(&u);
}

/* ---- what is held ------------------------------------------------------------------------------------------------ */

static size_t bytes_with(const struct use *use, size_t k)
{
	size_t bytes = 0;
	for (size_t w = 0; w < WAYS; w++)
		for (size_t s = 0; s < SIZES; s++)
			bytes = larger(bytes, use->bytes[w][s][k]);
	return bytes;
}

static void expect_at_most(const char *what, size_t bytes, size_t most)
{
	EXPECT(what, larger(bytes, most), most);
}

/* No more than with one byte and small buffers, and no more than is stated, which has to be near what is used. */
static void expect_use(const struct use *use)
{
	size_t with_one = use->bytes[STRAIGHT][SMALL][0];
	context("%s", use->name);
	for (size_t k = 0; k < LENGTHS; k++)
		expect_at_most("bytes, with one byte and small buffers", bytes_with(use, k), with_one);
	expect_at_most("bytes, as stated", with_one, use->most);
	EXPECT("eight words less than is stated", with_one + 64 <= use->most, false);
	context("");
}

static void expect_call(const struct use *call)
{
	expect_use(call);
	context("%s", call->name);
	expect_at_most("bytes, by the machine code", bytes_with(call, 0), call->need);
	expect_at_most("what the machine code needs, as stated", call->need, call->most);
	expect_at_most("what the machine code needs, as the header has it", call->need, TS11_STACK_BYTES);
	context("");
}

/* What frames.awk says of each call; it must know no call that is not here. */
static void read_needs(const char *file)
{
	char name[64];
	size_t bytes;
	FILE *lines = fopen(file, "r");
	if (!lines) {
		printf("stack: there is no file %s\n", file);
		exit(1);
	}
	while (fscanf(lines, "%63s %zu", name, &bytes) == 2) {
		bool found = false;
		ROWS(k, calls)
			if (strcmp(name, calls[k].name) == 0 && calls[k].need == 0) {
				calls[k].need = bytes;
				found = true;
			}
		context("%s", name);
		EXPECT("a row of its own", found, true);
		context("");
	}
	EXPECT("a line that is no call and number", !feof(lines), false);
	fclose(lines);
}

static void show(const char *before, const struct use *use)
{
	printf("  %s%-*s", before, 36 - (int)strlen(before), use->name);
	for (size_t k = 0; k < LENGTHS; k++)
		printf("%7zu", bytes_with(use, k));
	if (use->need)
		printf("%9zu", use->need);
	printf("\n");
}

static void show_all(void)
{
	printf("stack: bytes with records of");
	for (size_t k = 0; k < LENGTHS; k++)
		printf(" %zu,", record_lengths[k]);
	printf(" and what the machine code needs at most; the header says %d\n", TS11_STACK_BYTES);
	ROWS(k, calls)
		show("", &calls[k]);
	ROWS(k, commands)
		show("ts11_advance, ", &commands[k].use);
}

/* A call with scratch is seen to have it. */
static uint64_t with_scratch(uint64_t bytes)
{
	volatile uint8_t scratch[bytes];
	scratch[0] = 1;
	return scratch[0];
}

static void test_paint(void)
{
	for (size_t n = 1; n <= WORDS * sizeof *painted / 2; n *= 8) {
		EXPECT("the call on another stack", CALL(with_scratch, n), 1);
		EXPECT("scratch is seen", last >= n && last < n + 128, true);
	}
}

int main(int count, char **words)
{
	if (count != 2) {
		printf("usage: stack NEEDS\n");
		return 2;
	}
	test_paint();
	read_needs(words[1]);
	make_bytes(on_reel, sizeof on_reel, 3);
	make_bytes(in_memory, sizeof in_memory, 8);
	put = put_painted;
	make = noted;
	for (size = SMALL; size < SIZES; size++)
		for (nth = 0; nth < LENGTHS; nth++)
			run_all();
	show_all();
	ROWS(k, calls)
		expect_call(&calls[k]);
	ROWS(k, commands)
		expect_use(&commands[k].use);
	return summary("stack", "every call and command, swapped or not, with small buffers and full ones");
}
