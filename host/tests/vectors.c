/*
 * vectors SCRIPT EXPECTED: drives a script of set-up and call lines through the library and compares what comes out,
 * line by line. Every call is also held to what all calls promise (unit.h): guards stay whole, a refusal changes
 * nothing, each step is undone and done again. Compile with -I host/include and link with libts11.a.
 */
#include "expect.h"
#include "tape.h"
#include "ts11.h"
#include "unit.h"

enum { LINE = 8192, WORDS = 16, BYTES_MAX = 131072 };

/* ---- the script's state ------------------------------------------------------------------------------------------ */

struct sizes {
	size_t memory, reel, journal, table;
};

static struct {
	const char *script, *expected;
	size_t script_line, expected_line, cases, calls;
	FILE *from, *with;
	struct unit unit;
	size_t cursor; /* the block at which the next object is laid */
	bool cut;      /* the calls are handed these lengths */
	bool table_cut;
	struct sizes handed;
	struct buffer host; /* a host store's bytes */
} run;

static void give_up(const char *why)
{
	printf("%s:%zu: %s\n", run.script, run.script_line, why);
	exit(1);
}

/* ---- words of a line --------------------------------------------------------------------------------------------- */

static size_t number_in(const char *word)
{
	char *end;
	bool hex = word && word[0] == '0' && word[1] == 'x';
	size_t n = word && *word ? strtoull(word, &end, hex ? 16 : 10) : 0;
	if (!word || !*word || *end)
		give_up("a number is wanted");
	return n;
}

static unsigned digit(char c)
{
	if (c >= '0' && c <= '9')
		return (unsigned)(c - '0');
	if (c >= 'a' && c <= 'f')
		return (unsigned)(c - 'a' + 10);
	if (c >= 'A' && c <= 'F')
		return (unsigned)(c - 'A' + 10);
	give_up("a hexadecimal digit is wanted");
	return 0;
}

/* No word at all stands for no bytes. */
static size_t hex_in(const char *word, uint8_t *bytes)
{
	size_t n = word ? strlen(word) / 2 : 0;
	for (size_t i = 0; i < n; i++)
		bytes[i] = (uint8_t)(digit(word[2 * i]) << 4 | digit(word[2 * i + 1]));
	return n;
}

static size_t made_in(const char *length, const char *seed, uint8_t *bytes)
{
	size_t n = number_in(length);
	if (n > BYTES_MAX)
		give_up("too many bytes");
	make_bytes(bytes, n, (unsigned)number_in(seed));
	return n;
}

/* ---- the result line --------------------------------------------------------------------------------------------- */

/* The first in the order of the result line; the last three are not printed. */
static const struct {
	const char *name;
	size_t at;
} fields[] = {
	{ "pos", TS11_AT_POSITION },
	{ "end", TS11_AT_END },
	{ "ptr", TS11_AT_POINTER },
	{ "class", TS11_AT_CLASS },
	{ "rmr", TS11_AT_RMR },
	{ "nxm", TS11_AT_NXM },
	{ "nba", TS11_AT_NBA },
	{ "ssr", TS11_AT_SSR },
	{ "online", TS11_AT_ONLINE },
	{ "lock", TS11_AT_LOCKED },
	{ "vck", TS11_AT_VCK },
	{ "unit_owns", TS11_AT_UNIT_OWNS },
	{ "attn", TS11_AT_PENDING },
	{ "eai", TS11_AT_EAI },
	{ "ess", TS11_AT_ESS },
	{ "enb", TS11_AT_ENB },
	{ "msgaddr", TS11_AT_MESSAGE },
	{ "msglen", TS11_AT_MESSAGE_LENGTH },
	{ "release_ie", TS11_AT_RELEASE_IE },
	{ "used", TS11_AT_USED },
	{ "objects", TS11_AT_OBJECTS },
	{ "memlen", TS11_AT_MEMORY },
	{ "reelblocks", TS11_AT_BLOCKS },
	{ "jrnllen", TS11_AT_JOURNAL },
};
enum { FIELDS = sizeof fields / sizeof fields[0], PRINTED = 21 };

/* CRC-32, eight bytes at a time: crc_table[k] is for a byte with k bytes behind it. */
static uint32_t crc_table[8][256];

static void make_crc_table(void)
{
	for (uint32_t i = 0; i < 256; i++) {
		uint32_t c = i;
		for (int bit = 0; bit < 8; bit++)
			c = c & 1 ? c >> 1 ^ 0xEDB88320 : c >> 1;
		crc_table[0][i] = c;
	}
	for (int k = 1; k < 8; k++)
		for (int i = 0; i < 256; i++)
			crc_table[k][i] = crc_table[k - 1][i] >> 8 ^ crc_table[0][crc_table[k - 1][i] & 255];
}

static uint32_t crc(const uint8_t *bytes, size_t length)
{
	uint32_t c = 0xFFFFFFFF;
	size_t i = 0;
	for (; length - i >= 8; i += 8) {
		const uint8_t *p = bytes + i;
		c = crc_table[7][(c ^ p[0]) & 255] ^ crc_table[6][(c >> 8 ^ p[1]) & 255] ^
		    crc_table[5][(c >> 16 ^ p[2]) & 255] ^ crc_table[4][c >> 24 ^ p[3]] ^ crc_table[3][p[4]] ^
		    crc_table[2][p[5]] ^ crc_table[1][p[6]] ^ crc_table[0][p[7]];
	}
	for (; i < length; i++)
		c = crc_table[0][(c ^ bytes[i]) & 255] ^ c >> 8;
	return ~c;
}

/* The answer and what else its line says before the first bar. */
static int print_answer(char *out, size_t room, const struct call *c, const struct result *r, size_t entry)
{
	if (c->kind == READ_REGISTER)
		return snprintf(out, room, "%zu word=%04x", r->answer, r->word);
	if (r->answer == TS11_BAD_BLOCK)
		return snprintf(out, room, "%zu block=%zu fault=%c", r->answer, r->block, r->fault);
	if (c->kind == ADVANCE && r->answer == TS11_DONE && !r->stepped)
		return snprintf(out, room, "idle");
	if (!is_step(c, r))
		return snprintf(out, room, "%zu", r->answer);
	if (c->kind == ADVANCE)
		return snprintf(out, room, "%zu int=%d entry=%zu", r->answer, r->interrupt, entry);
	return snprintf(out, room, "%zu entry=%zu", r->answer, entry);
}

static size_t print_decimal(char *out, uint32_t n)
{
	char digits[10];
	size_t count = 0;
	do
		digits[count++] = (char)('0' + n % 10);
	while (n /= 10);
	for (size_t i = 0; i < count; i++)
		out[i] = digits[count - 1 - i];
	return count;
}

/* A line has room: an answer, 21 numbers and three check sums are shorter by far. */
static void print_result(char *out, const struct call *c, const struct result *r, size_t entry)
{
	const struct unit *u = &run.unit;
	out += print_answer(out, LINE, c, r, entry);
	*out++ = ' ';
	*out++ = '|';
	for (int k = 0; k < PRINTED; k++) {
		*out++ = ' ';
		out += print_decimal(out, number(u, fields[k].at));
	}
	sprintf(out, " | %08" PRIx32 " %08" PRIx32 " %08" PRIx32, crc(u->memory.at, u->memory.length),
	        crc(u->reel.at, u->reel.length), crc(u->table.at, used_table(u)));
}

/* The next line that is expected must be this one. */
static void compare_line(const char *got)
{
	char wanted[LINE];
	bool there = fgets(wanted, sizeof wanted, run.with);
	run.expected_line++;
	wanted[there ? strcspn(wanted, "\r\n") : 0] = 0;
	expectations.made++;
	if (there && strcmp(got, wanted) == 0)
		return;
	if (failure(run.expected, (int)run.expected_line, "the line differs"))
		printf("\n\tgot    %s\n\twanted %s\n", got, there ? wanted : "(no more lines)");
}

/* ---- a call line ------------------------------------------------------------------------------------------------- */

static struct buffer resized(const struct buffer *b, size_t length)
{
	struct buffer other = make_buffer(length, GUARD);
	memcpy(other.at, b->at, length < b->length ? length : b->length);
	return other;
}

static void take_back(struct buffer *b, struct buffer *other)
{
	memcpy(b->at, other->at, other->length < b->length ? other->length : b->length);
	free_buffer(other);
}

/* The call is handed buffers of other lengths; what it stores beyond the unit's own is thrown away. */
static struct result checked_cut(const struct call *c)
{
	struct unit *u = &run.unit;
	struct unit cut = { u->state, resized(&u->memory, run.handed.memory), resized(&u->reel, run.handed.reel),
		                resized(&u->table, run.table_cut ? run.handed.table : u->table.length),
		                resized(&u->journal, run.handed.journal) };
	struct result r = checked(&cut, c);
	take_back(&u->memory, &cut.memory);
	take_back(&u->reel, &cut.reel);
	take_back(&u->table, &cut.table);
	take_back(&u->journal, &cut.journal);
	return r;
}

static void make_call(const struct call *c)
{
	char line[LINE];
	run.calls++;
	if (!run.unit.state.at)
		give_up("a call before the sizes");
	size_t used = number(&run.unit, TS11_AT_USED);
	struct result r = run.cut ? checked_cut(c) : checked(&run.unit, c);
	expect_guarded(&run.unit);
	print_result(line, c, &r, number(&run.unit, TS11_AT_USED) - used);
	compare_line(line);
}

static void call_mount(char **w)
{
	bool cursor = w[1] && strcmp(w[1], "cursor") == 0;
	make_call(&(struct call){ .kind = MOUNT,
	                          .recorded_end = cursor ? run.cursor : number_in(w[1]),
	                          .online = number_in(w[2]) != 0,
	                          .write_lock = number_in(w[3]) != 0 });
}

static void call_tsdb(char **w)
{
	make_call(&(struct call){ .kind = WRITE_TSDB, .word = (uint16_t)number_in(w[1]) });
}

static void call_tssr(char **w)
{
	make_call(&(struct call){ .kind = WRITE_TSSR, .word = (uint16_t)number_in(w[1]) });
}

static void call_reg(char **w)
{
	bool tssr = w[1] && strcmp(w[1], "tssr") == 0;
	if (!tssr && (!w[1] || strcmp(w[1], "tsba") != 0))
		give_up("tsba or tssr is wanted");
	make_call(&(struct call){ .kind = READ_REGISTER, .which = tssr ? TS11_REGISTER_TSSR : TS11_REGISTER_TSBA });
}

static void call_op(char **w)
{
	static const struct {
		const char *name;
		bool which, on;
	} acts[] = { { "on", TS11_SWITCH_ONLINE, true },
		         { "off", TS11_SWITCH_ONLINE, false },
		         { "lock", TS11_SWITCH_WRITE_LOCK, true },
		         { "unlock", TS11_SWITCH_WRITE_LOCK, false } };
	for (int k = 0; k < 4; k++)
		if (w[1] && strcmp(w[1], acts[k].name) == 0) {
			make_call(&(struct call){ .kind = OPERATE, .which = acts[k].which, .on = acts[k].on });
			return;
		}
	give_up("on, off, lock or unlock is wanted");
}

/* The store's bytes stand alone between guards, at their exact length. */
static void call_store(const char *address, const uint8_t *bytes, size_t length)
{
	run.host = make_buffer(length, GUARD);
	memcpy(run.host.at, bytes, length);
	make_call(
		&(struct call){ .kind = HOST_STORE, .address = number_in(address), .bytes = run.host.at, .length = length });
	EXPECT_BYTES("the host store's own bytes", run.host.at, bytes, length);
	EXPECT("bytes beside the host store's are as before", guarded(&run.host), true);
	free_buffer(&run.host);
}

static uint8_t bytes[BYTES_MAX];

static void call_host(char **w)
{
	call_store(w[1], bytes, hex_in(w[2], bytes));
}

static void call_hostn(char **w)
{
	call_store(w[1], bytes, made_in(w[2], w[3], bytes));
}

static void call_adv(char **w)
{
	(void)w;
	make_call(&(struct call){ .kind = ADVANCE });
}

static void call_back(char **w)
{
	(void)w;
	make_call(&(struct call){ .kind = STEP_BACK });
}

/* ---- set-up lines ------------------------------------------------------------------------------------------------ */

/* The requests that the library has built in, a bit for each, and those that change no line of a script. */
enum { OWN_RULES = 1 << 2 | 1 << 4 | 1 << 7 | 1 << 8, UNSEEN_RULES = 1 << 1 | 1 << 3 | 1 << 12 | 1 << 13 };

static void set_up_rules(char **w)
{
	unsigned named = 0;
	for (int k = 1; k < WORDS && w[k]; k++)
		named |= 1u << (number_in(w[k]) < 31 ? number_in(w[k]) : 31);
	if (((named ^ OWN_RULES) & ~(unsigned)UNSEEN_RULES) != 0)
		give_up("other rules than the library's");
}

static void set_up_sizes(char **w)
{
	free_unit(&run.unit);
	run.unit = make_unit(number_in(w[1]), number_in(w[2]) * TS11_BLOCK, number_in(w[3]), GUARD);
}

static void set_up_lens(char **w)
{
	run.cut = !w[1] || strcmp(w[1], "off") != 0;
	run.table_cut = run.cut && w[4];
	if (run.cut)
		run.handed = (struct sizes){ number_in(w[1]), number_in(w[2]), number_in(w[3]), w[4] ? number_in(w[4]) : 0 };
}

static void set_up_index(char **w)
{
	free_buffer(&run.unit.table);
	run.unit.table = make_buffer(number_in(w[1]), GUARD);
}

static void set_up_field(char **w)
{
	for (int k = 0; k < FIELDS; k++)
		if (w[1] && strcmp(w[1], fields[k].name) == 0) {
			set_number(&run.unit, fields[k].at, (uint32_t)number_in(w[2]));
			return;
		}
	give_up("no such field");
}

/* Bytes put into a buffer with no call. */
static void poke(struct buffer *b, size_t at, const uint8_t *what, size_t n)
{
	if (at > b->length || n > b->length - at)
		give_up("outside the buffer");
	memcpy(b->at + at, what, n);
}

static void set_up_poke(char **w)
{
	poke(&run.unit.memory, number_in(w[1]), bytes, hex_in(w[2], bytes));
}

static void set_up_word(char **w)
{
	put_word(bytes, (unsigned)number_in(w[2]));
	poke(&run.unit.memory, number_in(w[1]), bytes, 2);
}

static void set_up_pokereel(char **w)
{
	poke(&run.unit.reel, number_in(w[1]), bytes, hex_in(w[2], bytes));
}

static void set_up_poketable(char **w)
{
	poke(&run.unit.table, number_in(w[1]), bytes, hex_in(w[2], bytes));
}

static void need_blocks(size_t at, size_t n)
{
	if (at + n > run.unit.reel.length / TS11_BLOCK)
		give_up("outside the reel");
}

static void set_up_fixsum(char **w)
{
	size_t block = number_in(w[1]);
	need_blocks(block, 1);
	seal(run.unit.reel.at + block * TS11_BLOCK);
}

static void add_record(size_t length)
{
	need_blocks(run.cursor, pieces(length));
	run.cursor = lay_record(run.unit.reel.at, run.cursor, bytes, length);
}

static void set_up_record(char **w)
{
	add_record(hex_in(w[1], bytes));
}

static void set_up_record_made(char **w)
{
	add_record(made_in(w[1], w[2], bytes));
}

static void set_up_mark(char **w)
{
	(void)w;
	need_blocks(run.cursor, 1);
	run.cursor = lay_mark(run.unit.reel.at, run.cursor);
}

static void set_up_gap(char **w)
{
	(void)w;
	need_blocks(run.cursor, 1);
	run.cursor = lay_gap(run.unit.reel.at, run.cursor);
}

static void start_case(char **w)
{
	char line[LINE];
	run.cases++;
	free_unit(&run.unit);
	run.cursor = 0;
	run.cut = false;
	snprintf(line, sizeof line, "case %s", w[1] ? w[1] : "");
	compare_line(line);
}

/* ---- the lines in turn ------------------------------------------------------------------------------------------- */

static const struct {
	const char *name;
	void (*carry_out)(char **words);
} lines[] = {
	{ "rules", set_up_rules },
	{ "case", start_case },
	{ "sizes", set_up_sizes },
	{ "lens", set_up_lens },
	{ "index", set_up_index },
	{ "set", set_up_field },
	{ "poke", set_up_poke },
	{ "word", set_up_word },
	{ "pokereel", set_up_pokereel },
	{ "poketable", set_up_poketable },
	{ "fixsum", set_up_fixsum },
	{ "R", set_up_record },
	{ "RN", set_up_record_made },
	{ "M", set_up_mark },
	{ "G", set_up_gap },
	{ "mount", call_mount },
	{ "tsdb", call_tsdb },
	{ "tssr", call_tssr },
	{ "reg", call_reg },
	{ "op", call_op },
	{ "host", call_host },
	{ "hostn", call_hostn },
	{ "adv", call_adv },
	{ "back", call_back },
};

static void carry_out(char **w)
{
	for (size_t k = 0; k < sizeof lines / sizeof lines[0]; k++)
		if (strcmp(w[0], lines[k].name) == 0) {
			lines[k].carry_out(w);
			return;
		}
	give_up("unknown line");
}

static void take_line(char *line)
{
	char *w[WORDS] = { 0 };
	line[strcspn(line, "#\r\n")] = 0;
	int n = 0;
	context("%s:%zu", run.script, run.script_line);
	for (char *t = strtok(line, " \t"); t; t = strtok(NULL, " \t")) {
		if (n == WORDS)
			give_up("too many words");
		w[n++] = t;
	}
	if (w[0])
		carry_out(w);
}

static void take_script(void)
{
	char line[LINE];
	while (fgets(line, sizeof line, run.from)) {
		run.script_line++;
		if (!strchr(line, '\n') && !feof(run.from))
			give_up("the line is too long");
		take_line(line);
	}
	if (fgets(line, sizeof line, run.with)) {
		expectations.failed++;
		printf("%s:%zu: more lines are expected than the script gives\n", run.expected, run.expected_line + 1);
	}
}

int main(int count, char **arguments)
{
	char done[200];
	if (count != 3) {
		printf("usage: vectors SCRIPT EXPECTED\n");
		return 1;
	}
	run.script = arguments[1];
	run.expected = arguments[2];
	run.from = fopen(run.script, "r");
	run.with = fopen(run.expected, "r");
	if (!run.from || !run.with) {
		printf("vectors: can't read %s\n", run.from ? run.expected : run.script);
		return 1;
	}
	make_crc_table();
	take_script();
	free_unit(&run.unit);
	snprintf(done, sizeof done, "%zu cases, %zu calls, %zu lines equal", run.cases, run.calls, run.expected_line);
	return summary("vectors", done);
}
