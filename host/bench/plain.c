/*
 * plain.c: the tape unit of ts11.h in ordinary C, see plain.h.
 *
 * From the bottom up: words and runs of bytes, blocks of the reel, motion over the reel, the table of its objects, the
 * state, the journal, how commands end, the commands, the steps of an advance, the calls. An advance is planned first,
 * and nothing is stored before the last refusal is past.
 */
#include "plain.h"

#include <string.h>

_Static_assert(__BYTE_ORDER__ == __ORDER_LITTLE_ENDIAN__, "words and numbers are copied as they lie");

#define POINTER_LIMIT (1u << 18)
#define LAST_CLASS TS11_CLASS_LOST

/* ---- words and runs of bytes ------------------------------------------------------------------------------------- */

static inline uint32_t least(uint32_t a, uint32_t b)
{
	return a < b ? a : b;
}

static inline uint32_t word_at(const uint8_t *at)
{
	uint16_t w;
	memcpy(&w, at, sizeof w);
	return w;
}

static inline void put_word(uint8_t *at, uint32_t value)
{
	uint16_t w = (uint16_t)value;
	memcpy(at, &w, sizeof w);
}

/* An even number of bytes, the two of each pair exchanged. */
static void copy_pairs(uint8_t *restrict to, const uint8_t *restrict from, size_t n)
{
	for (size_t i = 0; i < n; i += 2) {
		uint16_t w;
		memcpy(&w, from + i, sizeof w);
		w = (uint16_t)(w << 8 | w >> 8);
		memcpy(to + i, &w, sizeof w);
	}
}

/*
 * With SWB the data byte of an address lies at that address with its lowest bit flipped. Memory is even, so it holds
 * that place too.
 */
static void fetch_swapped(uint8_t *restrict to, const uint8_t *restrict memory, uint32_t address, size_t n)
{
	if (n != 0 && address % 2 == 1) {
		*to++ = memory[address++ - 1];
		n--;
	}
	size_t even = n & ~(size_t)1;
	copy_pairs(to, memory + address, even);
	if (n != even)
		to[even] = memory[address + even + 1];
}

static void store_swapped(uint8_t *restrict memory, uint32_t address, const uint8_t *restrict from, size_t n)
{
	if (n != 0 && address % 2 == 1) {
		memory[address++ - 1] = *from++;
		n--;
	}
	size_t even = n & ~(size_t)1;
	copy_pairs(memory + address, from, even);
	if (n != even)
		memory[address + even + 1] = from[even];
}

/* The n data bytes from an address on, out of memory. */
static void fetch_data(uint8_t *to, const uint8_t *memory, uint32_t address, size_t n, bool swb)
{
	if (swb)
		fetch_swapped(to, memory, address, n);
	else
		memcpy(to, memory + address, n);
}

/* .. and into it. */
static void store_data(uint8_t *memory, uint32_t address, const uint8_t *from, size_t n, bool swb)
{
	if (swb)
		store_swapped(memory, address, from, n);
	else
		memcpy(memory + address, from, n);
}

/* ---- blocks of the reel ------------------------------------------------------------------------------------------ */

static const uint8_t no_bytes[TS11_BLOCK_DATA];

static inline size_t reel_bytes(uint32_t blocks)
{
	return (size_t)blocks * TS11_BLOCK;
}

/* How many blocks a record of n bytes takes. */
static inline uint32_t pieces_of(uint32_t n)
{
	return (n + TS11_BLOCK_DATA - 1) / TS11_BLOCK_DATA;
}

/* How many data bytes piece i of a record of n bytes holds. */
static inline uint32_t piece_bytes(uint32_t n, uint32_t i)
{
	return least(n - i * TS11_BLOCK_DATA, TS11_BLOCK_DATA);
}

static inline uint32_t eot_marker(uint32_t blocks)
{
	return blocks < TS11_EOT_MARGIN ? 0 : blocks - TS11_EOT_MARGIN;
}

/*
 * The sum of the 255 words before the check word, modulo 65,535. As 65,536 is 1 modulo 65,535, numbers of four bytes
 * may be added in place of words; the check word, the high half of the last of them, is taken off again.
 */
static uint32_t check_of(const uint8_t *block)
{
	uint64_t sum = 0;
	for (size_t i = 0; i < TS11_BLOCK; i += 8) {
		uint64_t x;
		memcpy(&x, block + i, sizeof x);
		sum += (x & 0xFFFFFFFF) + (x >> 32);
	}
	sum -= (uint64_t)word_at(block + TS11_BLOCK_CHECK) << 16;
	return (uint32_t)(sum % 65535);
}

/* Is the block just this one: by kind, length and index, with zeros behind its data and the right check word? */
static bool block_is(const uint8_t *block, uint32_t kind, uint32_t length, uint32_t index)
{
	if (word_at(block + TS11_BLOCK_KIND) != kind || word_at(block + TS11_BLOCK_LENGTH) != length ||
	    word_at(block + TS11_BLOCK_INDEX) != index)
		return false;
	uint32_t used = kind == TS11_KIND_RECORD ? piece_bytes(length, index) : 0;
	if (memcmp(block + TS11_BLOCK_BYTES + used, no_bytes, TS11_BLOCK_DATA - used) != 0)
		return false;
	return word_at(block + TS11_BLOCK_CHECK) == check_of(block);
}

/* What is wrong with a block that was not the one wanted: its own fault, or if it has none, its place. */
static uint8_t fault_of(const uint8_t *block)
{
	uint32_t kind = word_at(block + TS11_BLOCK_KIND);
	uint32_t length = word_at(block + TS11_BLOCK_LENGTH);
	uint32_t index = word_at(block + TS11_BLOCK_INDEX);
	bool piece = kind == TS11_KIND_RECORD;
	if (!piece && kind != TS11_KIND_MARK && kind != TS11_KIND_GAP)
		return TS11_FAULT_KIND;
	if (piece ? length == 0 || length > TS11_RECORD_MAX : length != 0)
		return TS11_FAULT_LENGTH;
	if (piece ? index >= pieces_of(length) : index != 0)
		return TS11_FAULT_INDEX;
	uint32_t used = piece ? piece_bytes(length, index) : 0;
	if (memcmp(block + TS11_BLOCK_BYTES + used, no_bytes, TS11_BLOCK_DATA - used) != 0)
		return TS11_FAULT_PADDING;
	if (word_at(block + TS11_BLOCK_CHECK) != check_of(block))
		return TS11_FAULT_CHECK;
	return TS11_FAULT_INDEX;
}

/* Everything but the data: the words before it, zeros behind it, the check word. */
static void frame_block(uint8_t *block, uint32_t kind, uint32_t length, uint32_t index, uint32_t used)
{
	put_word(block + TS11_BLOCK_KIND, kind);
	put_word(block + TS11_BLOCK_LENGTH, length);
	put_word(block + TS11_BLOCK_INDEX, index);
	memset(block + TS11_BLOCK_BYTES + used, 0, TS11_BLOCK_DATA - used);
	put_word(block + TS11_BLOCK_CHECK, check_of(block));
}

/* The record of the n data bytes from an address on. */
static void lay_record(uint8_t *block, const uint8_t *memory, uint32_t address, uint32_t n, bool swb)
{
	for (uint32_t i = 0; i < pieces_of(n); i++) {
		uint32_t used = piece_bytes(n, i);
		fetch_data(block + TS11_BLOCK_BYTES, memory, address, used, swb);
		frame_block(block, TS11_KIND_RECORD, n, i, used);
		block += TS11_BLOCK;
		address += used;
	}
}

/* Bytes `from` to `from + n` of the record whose first block this is go to memory, piece by piece. */
static void copy_record(const uint8_t *block, uint32_t from, uint8_t *memory, uint32_t address, uint32_t n, bool swb)
{
	block += reel_bytes(from / TS11_BLOCK_DATA);
	uint32_t skip = from % TS11_BLOCK_DATA;
	while (n != 0) {
		uint32_t here = least(n, TS11_BLOCK_DATA - skip);
		store_data(memory, address, block + TS11_BLOCK_BYTES + skip, here, swb);
		block += TS11_BLOCK;
		address += here;
		n -= here;
		skip = 0;
	}
}

/* ---- motion over the reel ---------------------------------------------------------------------------------------- */

enum what { MET_RECORD, MET_MARK, MET_GAP, MET_NOTHING, MET_FAULT };

struct met {
	enum what what;
	uint32_t at;     /* the object's first block, or the block at fault */
	uint32_t length; /* a record's bytes */
	uint32_t beyond; /* the position beyond it; where nothing was met, the position as it was */
};

static struct met fault_at(uint32_t block)
{
	return (struct met){.what = MET_FAULT, .at = block};
}

/* A record met at block k with `ahead` blocks from there to the end of motion; its pieces are read in the order met. */
static struct met pass_record(const uint8_t *reel, bool reverse, uint32_t k, uint32_t ahead)
{
	uint32_t n = word_at(reel + reel_bytes(k) + TS11_BLOCK_LENGTH);
	if (n == 0 || n > TS11_RECORD_MAX)
		return fault_at(k);
	uint32_t pieces = pieces_of(n);
	if (pieces > ahead)
		return fault_at(k);
	uint32_t first = reverse ? k + 1 - pieces : k;
	for (uint32_t j = 0; j < pieces; j++) {
		uint32_t i = reverse ? pieces - 1 - j : j;
		if (!block_is(reel + reel_bytes(first + i), TS11_KIND_RECORD, n, i))
			return fault_at(first + i);
	}
	uint32_t beyond = reverse ? first : first + pieces;
	return (struct met){.what = MET_RECORD, .at = first, .length = n, .beyond = beyond};
}

/* Passes one object. The position is not beyond the recorded end. */
static struct met pass(const uint8_t *reel, bool reverse, uint32_t position, uint32_t end)
{
	uint32_t ahead = reverse ? position : end - position;
	if (ahead == 0)
		return (struct met){.what = MET_NOTHING, .beyond = position};
	uint32_t k = reverse ? position - 1 : position;
	const uint8_t *block = reel + reel_bytes(k);
	uint32_t kind = word_at(block + TS11_BLOCK_KIND);
	if (kind == TS11_KIND_RECORD)
		return pass_record(reel, reverse, k, ahead);
	if ((kind != TS11_KIND_MARK && kind != TS11_KIND_GAP) || !block_is(block, kind, 0, 0))
		return fault_at(k);
	enum what what = kind == TS11_KIND_MARK ? MET_MARK : MET_GAP;
	return (struct met){.what = what, .at = k, .beyond = reverse ? k : k + 1};
}

/* Passes gaps, and the next record or mark. */
static struct met seek(const uint8_t *reel, bool reverse, uint32_t position, uint32_t end)
{
	struct met m = pass(reel, reverse, position, end);
	while (m.what == MET_GAP)
		m = pass(reel, reverse, m.beyond, end);
	return m;
}

/* Reads every block below the end, and counts the objects. */
static struct met sweep(const uint8_t *reel, uint32_t end, uint32_t *objects)
{
	struct met m = pass(reel, false, 0, end);
	uint32_t count = 0;
	while (m.what != MET_NOTHING && m.what != MET_FAULT) {
		count++;
		m = pass(reel, false, m.beyond, end);
	}
	*objects = count;
	return m;
}

/* ---- the table --------------------------------------------------------------------------------------------------- */

/* The offsets of a place's two numbers. */
enum { OF_BLOCK = 0, OF_MARKS = 4 };

static inline uint32_t number_at(const uint8_t *at)
{
	uint32_t n;
	memcpy(&n, at, sizeof n);
	return n;
}

static inline size_t table_bytes(uint32_t places)
{
	return (size_t)places * TS11_PLACE_BYTES;
}

/* How many places a table of that length has. */
static inline size_t places_in(size_t length)
{
	size_t places = length / TS11_PLACE_BYTES;
	return places < UINT32_MAX ? places : UINT32_MAX;
}

static void put_place(uint8_t *table, uint32_t place, uint32_t block, uint32_t marks)
{
	memcpy(table + table_bytes(place) + OF_BLOCK, &block, sizeof block);
	memcpy(table + table_bytes(place) + OF_MARKS, &marks, sizeof marks);
}

/*
 * Of the first `count` places the first whose number is no less than a bound: by a look at the last place, which is enough
 * for a write at the recorded end, and then by halving. The table may be made up.
 */
static uint32_t first_from(const uint8_t *table, size_t number, uint32_t count, size_t bound)
{
	if (count != 0 && number_at(table + table_bytes(count - 1) + number) < bound)
		return count;
	uint32_t low = 0;
	while (count != 0) {
		uint32_t half = count / 2;
		if (number_at(table + table_bytes(low + half) + number) < bound) {
			low += half + 1;
			count -= half + 1;
		} else {
			count = half;
		}
	}
	return low;
}

/* The marks before the object that a place is for, by the place before it. */
static uint32_t marks_before(const uint8_t *table, uint32_t place, const uint8_t *reel, uint32_t blocks)
{
	if (place == 0)
		return 0;
	const uint8_t *last = table + table_bytes(place - 1);
	uint32_t block = number_at(last + OF_BLOCK);
	bool mark = block < blocks && word_at(reel + reel_bytes(block) + TS11_BLOCK_KIND) == TS11_KIND_MARK;
	return number_at(last + OF_MARKS) + mark;
}

/* The table of a reel that a sweep has found whole: the first block of each object tells how many it has. */
static void fill_table(uint8_t *table, const uint8_t *reel, uint32_t objects)
{
	uint32_t at = 0, marks = 0;
	for (uint32_t place = 0; place < objects; place++) {
		const uint8_t *block = reel + reel_bytes(at);
		uint32_t kind = word_at(block + TS11_BLOCK_KIND);
		put_place(table, place, at, marks);
		at += kind == TS11_KIND_RECORD ? pieces_of(word_at(block + TS11_BLOCK_LENGTH)) : 1;
		marks += kind == TS11_KIND_MARK;
	}
}

/* ---- the state --------------------------------------------------------------------------------------------------- */

/* The numbers that the state block and the head of a journal entry both begin with. The flags among them are 0 or 1. */
struct unit {
	uint32_t position, end;
	uint32_t pointer, class, rmr, nxm, nba, ssr;
	uint32_t online, locked, vck;
	uint32_t unit_owns, pending, release_ie;
	uint32_t message, message_length, eai, ess, enb;
	uint32_t memory, blocks;
};

/* The state block. */
struct session {
	struct unit unit;
	uint32_t used, journal;
	uint32_t unused[(TS11_AT_OBJECTS - TS11_STATE_UNUSED) / 4];
	uint32_t objects;
	uint32_t unused_behind[(TS11_STATE_BYTES - TS11_AT_OBJECTS) / 4 - 1];
};

_Static_assert(offsetof(struct unit, pointer) == TS11_AT_POINTER, "state block");
_Static_assert(offsetof(struct unit, online) == TS11_AT_ONLINE, "state block");
_Static_assert(offsetof(struct unit, unit_owns) == TS11_AT_UNIT_OWNS, "state block");
_Static_assert(offsetof(struct unit, message) == TS11_AT_MESSAGE, "state block");
_Static_assert(offsetof(struct unit, memory) == TS11_AT_MEMORY, "state block");
_Static_assert(offsetof(struct session, used) == TS11_AT_USED, "state block");
_Static_assert(offsetof(struct session, unused) == TS11_STATE_UNUSED, "state block");
_Static_assert(offsetof(struct session, objects) == TS11_AT_OBJECTS, "state block");
_Static_assert(sizeof(struct session) == TS11_STATE_BYTES, "state block");

static bool memory_wrong(size_t length)
{
	return length % 2 != 0 || length == 0 || length > TS11_MEMORY_MAX;
}

static bool blocks_wrong(size_t blocks)
{
	return blocks == 0 || blocks > TS11_REEL_BLOCKS_MAX;
}

static bool buffer_wrong(uint32_t address, uint32_t length, uint32_t memory)
{
	return address % 2 != 0 || length < TS11_MESSAGE_BYTES || length > memory || address > memory - length;
}

/* Refusal 1, but for flags and the numbers of the journal. */
static bool unit_wrong(const struct unit *u)
{
	return u->position > u->end || u->end > u->blocks || u->pointer >= POINTER_LIMIT || u->class > LAST_CLASS ||
	       (!u->nba && buffer_wrong(u->message, u->message_length, u->memory)) ||
	       memory_wrong(u->memory) || blocks_wrong(u->blocks);
}

static bool flags_wrong(const struct unit *u)
{
	uint32_t all = u->rmr | u->nxm | u->nba | u->ssr | u->online | u->locked | u->vck;
	all |= u->unit_owns | u->pending | u->release_ie | u->eai | u->ess | u->enb;
	return all > 1;
}

/* In a journal entry a flag is whatever is not 0. */
static void settle_flags(struct unit *u)
{
	u->rmr = u->rmr != 0;
	u->nxm = u->nxm != 0;
	u->nba = u->nba != 0;
	u->ssr = u->ssr != 0;
	u->online = u->online != 0;
	u->locked = u->locked != 0;
	u->vck = u->vck != 0;
	u->unit_owns = u->unit_owns != 0;
	u->pending = u->pending != 0;
	u->release_ie = u->release_ie != 0;
	u->eai = u->eai != 0;
	u->ess = u->ess != 0;
	u->enb = u->enb != 0;
}

/* Refusal 1. */
static bool session_wrong(const struct session *s)
{
	uint32_t rest = 0;
	for (size_t i = 0; i < sizeof s->unused / sizeof s->unused[0]; i++)
		rest |= s->unused[i];
	for (size_t i = 0; i < sizeof s->unused_behind / sizeof s->unused_behind[0]; i++)
		rest |= s->unused_behind[i];
	return rest != 0 || flags_wrong(&s->unit) || unit_wrong(&s->unit) ||
	       s->used > s->journal || s->journal > TS11_JOURNAL_MAX;
}

/* Refusals 1 to 4, which every step and step back makes first. */
static ts11_answer open_session(struct session *s, const ts11_state *state, size_t memory, size_t reel,
                                size_t journal)
{
	memcpy(s, state->bytes, sizeof *s);
	if (session_wrong(s))
		return TS11_BAD_STATE;
	if (memory != s->unit.memory)
		return TS11_BAD_MEMORY;
	if (reel != reel_bytes(s->unit.blocks))
		return TS11_BAD_REEL;
	if (journal != s->journal)
		return TS11_BAD_JOURNAL;
	return TS11_DONE;
}

static void close_session(const struct session *s, ts11_state *state)
{
	memcpy(state->bytes, s, sizeof *s);
}

/* ---- the journal ------------------------------------------------------------------------------------------------- */

/*
 * An entry is its length in four bytes, the old data bytes, the old message bytes, the old blocks and the old places of a
 * step, and then this head: the state before the step, and where those bytes came from. Of what a step does not store,
 * place and length are 0, and SWB is; but a Read that passes its record names its place and SWB even where its count is 0.
 * The places are the last ones of the table that the step leaves.
 */
struct entry {
	struct unit unit;
	uint32_t data_at, data_length, swb;
	uint32_t message_at, message_length;
	uint32_t reel_at, reel_blocks;
	uint32_t objects, places;
	uint32_t unused;
};

_Static_assert(sizeof(uint32_t) + sizeof(struct entry) == TS11_ENTRY_HEAD, "an entry's length and its head");

static size_t entry_length(const struct entry *e)
{
	return TS11_ENTRY_HEAD + (size_t)e->data_length + e->message_length + reel_bytes(e->reel_blocks) +
	       table_bytes(e->places);
}

/* The front of an entry; gives where its old bytes begin. */
static uint8_t *put_length(uint8_t *at, size_t length)
{
	uint32_t front = (uint32_t)length;
	memcpy(at, &front, sizeof front);
	return at + sizeof front;
}

/* Adds an entry with the bytes that stand at its places, those of the table from `places` on, or answers 9. */
static ts11_answer add_entry(struct session *s, uint8_t *journal, const struct entry *e, const uint8_t *memory,
                             const uint8_t *reel, const uint8_t *places)
{
	size_t length = entry_length(e);
	if (s->journal - s->used < length)
		return TS11_JOURNAL_FULL;
	uint8_t *at = put_length(journal + s->used, length);
	fetch_data(at, memory, e->data_at, e->data_length, e->swb);
	at += e->data_length;
	memcpy(at, memory + e->message_at, e->message_length);
	at += e->message_length;
	memcpy(at, reel + reel_bytes(e->reel_at), reel_bytes(e->reel_blocks));
	at += reel_bytes(e->reel_blocks);
	memcpy(at, places, table_bytes(e->places));
	at += table_bytes(e->places);
	memcpy(at, e, sizeof *e);
	s->used += (uint32_t)length;
	return TS11_DONE;
}

/* An entry that stores nothing over: its length and the head. */
static ts11_answer add_head(struct session *s, uint8_t *journal)
{
	struct entry e = {.unit = s->unit, .objects = s->objects};
	if (s->journal - s->used < TS11_ENTRY_HEAD)
		return TS11_JOURNAL_FULL;
	memcpy(put_length(journal + s->used, TS11_ENTRY_HEAD), &e, sizeof e);
	s->used += TS11_ENTRY_HEAD;
	return TS11_DONE;
}

/* Does a run of n from a place on lie below a limit? The numbers may be made up, so no sum of 32 bits. */
static bool run_fits(uint32_t at, uint32_t n, uint32_t limit)
{
	return (uint64_t)at + n <= limit;
}

/* Refusal 8: a made-up entry may say anything. */
static bool entry_wrong(const struct entry *e, const struct session *s)
{
	return !run_fits(e->data_at, e->data_length, s->unit.memory) ||
	       !run_fits(e->message_at, e->message_length, s->unit.memory) ||
	       !run_fits(e->reel_at, e->reel_blocks, s->unit.blocks) || e->places > s->objects ||
	       e->unit.memory != s->unit.memory || e->unit.blocks != s->unit.blocks ||
	       entry_length(e) > s->used || unit_wrong(&e->unit);
}

/* The old bytes go back; data last, for where it overlaps the message. */
static void bring_back(const uint8_t *at, const struct entry *e, uint8_t *memory, uint8_t *reel, uint8_t *places)
{
	const uint8_t *message = at + e->data_length;
	const uint8_t *blocks = message + e->message_length;
	memcpy(places, blocks + reel_bytes(e->reel_blocks), table_bytes(e->places));
	memcpy(reel + reel_bytes(e->reel_at), blocks, reel_bytes(e->reel_blocks));
	memcpy(memory + e->message_at, message, e->message_length);
	store_data(memory, e->data_at, at, e->data_length, e->swb);
}

/* ---- ends of commands -------------------------------------------------------------------------------------------- */

/* A command packet. */
struct command {
	uint32_t header;
	uint32_t code;
	uint32_t what;    /* code and mode: TS11_READ_NEXT and so on */
	uint32_t pointer; /* where its data lie, 18 bits */
	uint32_t above;   /* pointer bits above A17 */
	uint32_t count;
};

/* Where refusal 7 tells the block at fault, and what is wrong with it. */
struct bad {
	size_t *block;
	uint8_t *fault;
};

/* What an advance is about to store. */
struct plan {
	struct unit next;     /* the state after it */
	struct entry entry;   /* the state before it, and the places it stores over */
	bool interrupt;
	struct command command;
	uint32_t record;      /* first block of the record that data come from */
	uint32_t record_from; /* .. and the first of its bytes that is moved */
	uint32_t kind;        /* of the object that is written */
	bool gap_first;       /* .. and whether a retry's gap goes before it */
	uint32_t cut;         /* the place of the first object that is written */
	uint32_t marks;       /* .. and the marks before it */
	struct bad bad;       /* where a block at fault is told */
	uint16_t message[TS11_MESSAGE_BYTES / 2];
};

/* How a command ends, as its message tells it; of XST0 only what the command found. */
struct ending {
	uint32_t class;
	uint32_t xst0;
	uint32_t xst3;
	uint32_t residual;
};

/* Every end sets SSR and keeps RMR and NXM; class 5 sets NXM. */
static void end_unit(struct unit *u, uint32_t class)
{
	u->class = class;
	u->nxm |= class == TS11_CLASS_UNMOVED;
	u->ssr = 1;
}

static uint32_t message_header(const struct ending *e)
{
	switch (e->class) {
	case TS11_CLASS_NORMAL:
	case TS11_CLASS_STATUS:
		return TS11_END;
	case TS11_CLASS_ATTENTION:
		return TS11_END_ATTENTION;
	case TS11_CLASS_REJECT:
		return e->xst0 & TS11_XST0_NEF ? TS11_END_REJECTED : TS11_END_ILLEGAL;
	default:
		return TS11_END_FAILED;
	}
}

/* XST0's low byte: the unit's condition. */
static uint32_t condition(const struct unit *u, bool motion, bool ie)
{
	return (motion ? TS11_XST0_MOT : 0) | (u->online ? TS11_XST0_ONL : 0) | (ie ? TS11_XST0_IE : 0) |
	       (u->vck ? TS11_XST0_VCK : 0) | TS11_XST0_PED | (u->locked ? TS11_XST0_WLK : 0) |
	       (u->position == 0 ? TS11_XST0_BOT : 0) | (u->position >= eot_marker(u->blocks) ? TS11_XST0_EOT : 0);
}

/* An end that is told: the CPU owns the message buffer, and a message goes out if NBA is clear. Answers 0. */
static ts11_answer finish(struct plan *p, bool ie, struct ending e)
{
	struct unit *u = &p->next;
	end_unit(u, e.class);
	u->unit_owns = 0;
	p->interrupt = ie;
	if (u->nba)
		return TS11_DONE;
	bool motion = u->position != p->entry.unit.position || p->entry.reel_blocks != 0;
	p->entry.message_at = u->message;
	p->entry.message_length = TS11_MESSAGE_BYTES;
	p->message[TS11_MESSAGE_HEADER / 2] = (uint16_t)message_header(&e);
	p->message[TS11_MESSAGE_LENGTH / 2] = 10;
	p->message[TS11_MESSAGE_RESIDUAL / 2] = (uint16_t)e.residual;
	p->message[TS11_MESSAGE_XST0 / 2] = (uint16_t)(e.xst0 | condition(u, motion, ie));
	p->message[TS11_MESSAGE_XST3 / 2] = (uint16_t)e.xst3;
	return TS11_DONE;
}

static ts11_answer end_command(struct plan *p, struct ending e)
{
	return finish(p, (p->command.header & TS11_IE) != 0, e);
}

/* A command that is not run, for a reason that XST0 shows. */
static ts11_answer reject(struct plan *p, uint32_t found)
{
	return end_command(p, (struct ending){.class = TS11_CLASS_REJECT, .xst0 = found});
}

/* Refusal 7. What is wrong is looked for only here, so that a sound block costs nothing more. */
static ts11_answer bad_block(const uint8_t *reel, const struct met *m, const struct bad *bad)
{
	*bad->block = m->at;
	*bad->fault = fault_of(reel + reel_bytes(m->at));
	return TS11_BAD_BLOCK;
}

/* An attention: then none is pending, even where NBA holds the message back. */
static ts11_answer attend(struct plan *p, bool ie)
{
	p->next.pending = 0;
	return finish(p, ie, (struct ending){.class = TS11_CLASS_ATTENTION});
}

/* ---- commands carried out ---------------------------------------------------------------------------------------- */

static uint32_t direction(bool reverse)
{
	return reverse ? TS11_XST3_REV : 0;
}

/* Nothing further that way: RIB in reverse, OPI forward. */
static void run_out(struct ending *e, bool reverse)
{
	e->class = reverse ? TS11_CLASS_STATUS : TS11_CLASS_LOST;
	e->xst3 |= reverse ? TS11_XST3_RIB : TS11_XST3_OPI;
}

/* A first stage of a Read that finds no record ends it, with the residual as if nothing moved. */
static ts11_answer stop_read(struct plan *p, const uint8_t *reel, const struct met *m, bool reverse)
{
	struct ending e = {.class = TS11_CLASS_STATUS, .xst3 = direction(reverse), .residual = p->command.count};
	if (m->what == MET_FAULT)
		return bad_block(reel, m, &p->bad);
	p->next.position = m->beyond;
	if (m->what == MET_MARK)
		e.xst0 = TS11_XST0_TMK | TS11_XST0_RLS;
	else
		run_out(&e, reverse);
	return end_command(p, e);
}

/*
 * Read in reverse fills from the last buffer place down: a short record lies at the high end, a long one gives its last
 * bytes.
 */
static void place_data(struct plan *p, const struct met *m, bool reverse)
{
	const struct command *c = &p->command;
	uint32_t moved = least(m->length, c->count);
	p->entry.data_at = c->pointer + (reverse ? c->count - moved : 0);
	p->entry.data_length = moved;
	p->entry.swb = (c->header & TS11_SWB) != 0;
	p->record = m->at;
	p->record_from = reverse ? m->length - moved : 0;
}

/* A reread goes back over the record that it found, in a second stage: that is the read, or with OPP the space. */
static ts11_answer read_tape(struct plan *p, const uint8_t *reel, bool reverse, bool reread)
{
	struct unit *u = &p->next;
	uint32_t count = p->command.count;
	struct met m = seek(reel, reverse, u->position, u->end);
	if (m.what != MET_RECORD)
		return stop_read(p, reel, &m, reverse);
	bool read_reverse = reverse;
	if (reread) {
		read_reverse = p->command.header & TS11_OPP ? reverse : !reverse;
		reverse = !reverse;
		m = seek(reel, reverse, m.beyond, u->end); /* the same blocks again, so the same record */
	}
	u->position = m.beyond;
	place_data(p, &m, read_reverse);
	struct ending e = {.xst3 = direction(reverse), .residual = count - p->entry.data_length};
	if (m.length != count) {
		e.class = TS11_CLASS_STATUS;
		e.xst0 = m.length < count ? TS11_XST0_RLS : TS11_XST0_RLL;
	}
	return end_command(p, e);
}

/*
 * A mark in Position: does it end the command? It stops Records and isn't counted. Of Marks it is counted, and with ESS
 * the second in a row ends them.
 */
static bool mark_ends(struct ending *e, bool marks, bool second)
{
	e->xst0 |= TS11_XST0_TMK;
	if (!marks) {
		e->class = TS11_CLASS_STATUS;
		e->xst0 |= TS11_XST0_RLS;
		return true;
	}
	e->residual--;
	if (!second)
		return false;
	e->class = TS11_CLASS_STATUS;
	e->xst0 |= TS11_XST0_LET | (e->residual != 0 ? TS11_XST0_RLS : 0);
	return true;
}

/* Position, modes 0 to 3. With ENB a mark met first from block 0 counts as the second in a row. */
static ts11_answer space(struct plan *p, const uint8_t *reel, bool reverse, bool marks)
{
	struct unit *u = &p->next;
	struct ending e = {.residual = p->command.count};
	bool after_mark = u->enb && u->position == 0;
	while (e.residual != 0) {
		struct met m = seek(reel, reverse, u->position, u->end);
		if (m.what == MET_FAULT)
			return bad_block(reel, &m, &p->bad);
		u->position = m.beyond;
		e.xst3 = direction(reverse);
		if (m.what == MET_NOTHING) {
			run_out(&e, reverse);
			e.xst0 |= reverse ? TS11_XST0_RLS : 0;
			break;
		}
		if (m.what == MET_MARK && mark_ends(&e, marks, u->ess && after_mark))
			break;
		after_mark = m.what == MET_MARK;
		if (m.what == MET_RECORD && !marks)
			e.residual--;
	}
	return end_command(p, e);
}

_Static_assert((TS11_RECORD_MAX + TS11_BLOCK_DATA - 1) / TS11_BLOCK_DATA + 1 <= TS11_EOT_MARGIN,
               "a gap and record without room are past the EOT marker");

/* Write and Format: where the tape stands, or for a retry, behind a gap, where the last record or mark stood. */
static ts11_answer write_object(struct plan *p, const uint8_t *reel, uint32_t kind, bool retry)
{
	struct unit *u = &p->next;
	uint32_t at = u->position;
	uint32_t blocks = kind == TS11_KIND_RECORD ? pieces_of(p->command.count) : 1;
	if (retry) {
		struct met m = seek(reel, true, u->position, u->end);
		if (m.what == MET_FAULT)
			return bad_block(reel, &m, &p->bad);
		if (m.what == MET_NOTHING) {
			struct ending e = {.xst3 = direction(true)};
			u->position = m.beyond;
			run_out(&e, true);
			return end_command(p, e);
		}
		at = m.at;
		blocks++;
	}
	/* Step 11. A position without room for it is past the EOT marker, so EOT shows by itself. */
	if (blocks > u->blocks - at)
		return reject(p, TS11_XST0_NEF);
	p->kind = kind;
	p->gap_first = retry;
	p->entry.reel_at = at;
	p->entry.reel_blocks = blocks;
	u->position = u->end = at + blocks;
	return end_command(p, (struct ending){
		.class = u->position >= eot_marker(u->blocks) ? TS11_CLASS_STATUS : TS11_CLASS_NORMAL,
		.xst0 = kind == TS11_KIND_MARK ? TS11_XST0_TMK : 0,
	});
}

/* Message address low, high, length, mode word. At fault, NBA is set and all old values are kept. */
static ts11_answer write_characteristics(struct plan *p, const uint8_t *memory)
{
	struct unit *u = &p->next;
	const struct command *c = &p->command;
	const uint8_t *data = memory + c->pointer;
	u->nba = 1;
	if (c->count < 6)
		return reject(p, 0);
	uint32_t address = word_at(data) | word_at(data + 2) << 16;
	uint32_t length = word_at(data + 4);
	uint32_t mode = c->count < 8 ? 0 : word_at(data + 6);
	if (address >= POINTER_LIMIT || buffer_wrong(address, length, u->memory))
		return reject(p, 0);
	u->nba = 0;
	u->message = address;
	u->message_length = length;
	u->eai = (mode & TS11_EAI) != 0;
	u->ess = (mode & TS11_ESS) != 0;
	u->enb = (mode & TS11_ENB) != 0;
	return end_command(p, (struct ending){.class = TS11_CLASS_NORMAL});
}

/* No message, no interrupt, the owner kept; its IE is left for an idle attention. */
static ts11_answer release(struct plan *p)
{
	p->next.release_ie = (p->command.header & TS11_IE) != 0;
	end_unit(&p->next, TS11_CLASS_NORMAL);
	return TS11_DONE;
}

/* Rewind reads no block; an unload ends off line as well, with no attention. */
static ts11_answer rewind_tape(struct plan *p, bool unload)
{
	p->next.position = 0;
	if (unload)
		p->next.online = 0;
	return end_command(p, (struct ending){.class = TS11_CLASS_NORMAL});
}

static ts11_answer carry_out(struct plan *p, const uint8_t *memory, const uint8_t *reel)
{
	switch (p->command.what) {
	case TS11_READ_NEXT: return read_tape(p, reel, false, false);
	case TS11_READ_PREVIOUS: return read_tape(p, reel, true, false);
	case TS11_REREAD_PREVIOUS: return read_tape(p, reel, true, true);
	case TS11_REREAD_NEXT: return read_tape(p, reel, false, true);
	case TS11_WRITE_CHARACTERISTICS: return write_characteristics(p, memory);
	case TS11_WRITE: return write_object(p, reel, TS11_KIND_RECORD, false);
	case TS11_WRITE_RETRY: return write_object(p, reel, TS11_KIND_RECORD, true);
	case TS11_SPACE_RECORDS: return space(p, reel, false, false);
	case TS11_SPACE_RECORDS_REVERSE: return space(p, reel, true, false);
	case TS11_SKIP_MARKS: return space(p, reel, false, true);
	case TS11_SKIP_MARKS_REVERSE: return space(p, reel, true, true);
	case TS11_REWIND: return rewind_tape(p, false);
	case TS11_WRITE_MARK: return write_object(p, reel, TS11_KIND_MARK, false);
	case TS11_ERASE: return write_object(p, reel, TS11_KIND_GAP, false);
	case TS11_WRITE_MARK_RETRY: return write_object(p, reel, TS11_KIND_MARK, true);
	case TS11_RELEASE: return release(p);
	case TS11_UNLOAD: return rewind_tape(p, true);
	default: return end_command(p, (struct ending){.class = TS11_CLASS_NORMAL}); /* the rest take no action */
	}
}

/* ---- advance, in order ------------------------------------------------------------------------------------------- */

static bool known(uint32_t what)
{
	switch (what) {
	case TS11_READ_NEXT:
	case TS11_READ_PREVIOUS:
	case TS11_REREAD_PREVIOUS:
	case TS11_REREAD_NEXT:
	case TS11_WRITE_CHARACTERISTICS:
	case TS11_WRITE:
	case TS11_WRITE_RETRY:
	case TS11_SPACE_RECORDS:
	case TS11_SPACE_RECORDS_REVERSE:
	case TS11_SKIP_MARKS:
	case TS11_SKIP_MARKS_REVERSE:
	case TS11_REWIND:
	case TS11_WRITE_MARK:
	case TS11_ERASE:
	case TS11_WRITE_MARK_RETRY:
	case TS11_RELEASE:
	case TS11_UNLOAD:
	case TS11_CLEAN:
	case TS11_INITIALIZE:
	case TS11_GET_STATUS:
		return true;
	default:
		return false;
	}
}

static bool reverse_first(uint32_t what)
{
	switch (what) {
	case TS11_READ_PREVIOUS:
	case TS11_REREAD_PREVIOUS:
	case TS11_WRITE_RETRY:
	case TS11_SPACE_RECORDS_REVERSE:
	case TS11_SKIP_MARKS_REVERSE:
	case TS11_WRITE_MARK_RETRY:
		return true;
	default:
		return false;
	}
}

/* The code of a command, as it stands in the header's bits 4:0. */
enum code { READ = 1, CHARACTERISTICS = 4, WRITE = 5, POSITION = 8, FORMAT = 9 };

static bool has_data(const struct command *c)
{
	return c->code == READ || c->code == CHARACTERISTICS || c->code == WRITE;
}

/* Of the words behind the header only those that the command uses are looked at. */
static void fetch_packet(struct command *c, const uint8_t *packet)
{
	if (has_data(c)) {
		uint32_t high = word_at(packet + 4);
		c->pointer = word_at(packet + 2) | (high & 3) << 16;
		c->above = high >> 2;
		c->count = word_at(packet + 6);
	} else if (c->code == POSITION) {
		c->count = word_at(packet + 2);
	}
}

/* What Read and Position give as the residual where they are not run. */
static uint32_t whole_count(const struct command *c)
{
	return c->code == READ || (c->code == POSITION && c->what != TS11_REWIND) ? c->count : 0;
}

/* Step 9: 0, or what XST0 shows of a command that can't be run. */
static uint32_t not_executable(const struct unit *u, const struct command *c)
{
	bool writes = c->code == WRITE || c->code == FORMAT;
	bool tape = writes || c->code == READ || c->code == POSITION || c->what == TS11_UNLOAD;
	if (tape && (!u->online || u->vck))
		return TS11_XST0_NEF;
	if (writes && u->locked)
		return TS11_XST0_NEF | TS11_XST0_WLE;
	if (reverse_first(c->what) && u->position == 0)
		return TS11_XST0_NEF;
	if (c->code == WRITE && (c->count == 0 || c->count > TS11_RECORD_MAX))
		return TS11_XST0_NEF;
	return 0;
}

/* Steps 8 to 10: how the command ends unrun, or class 0. */
static struct ending hindrance(const struct unit *u, const struct command *c)
{
	struct ending e = {.class = TS11_CLASS_REJECT, .residual = whole_count(c)};
	if (c->above != 0 || (c->code == CHARACTERISTICS && c->pointer % 2 == 1)) {
		e.xst0 = TS11_XST0_ILA;
		return e;
	}
	e.xst0 = not_executable(u, c);
	if (e.xst0 == 0)
		e.class = has_data(c) && c->pointer + c->count > u->memory ? TS11_CLASS_UNMOVED : TS11_CLASS_NORMAL;
	return e;
}

/* Steps 5 to 10, and the command. */
static ts11_answer run_command(struct plan *p, const uint8_t *memory, const uint8_t *reel)
{
	struct unit *u = &p->next;
	struct command *c = &p->command;
	if ((c->header & 0x60) != 0 || !known(c->what))
		return reject(p, TS11_XST0_ILC);
	if (u->nba && c->code != CHARACTERISTICS)
		return reject(p, 0);
	if (u->pointer + TS11_PACKET_BYTES > u->memory)
		return end_command(p, (struct ending){.class = TS11_CLASS_UNMOVED});
	fetch_packet(c, memory + u->pointer);
	struct ending e = hindrance(u, c);
	if (e.class != TS11_CLASS_NORMAL)
		return end_command(p, e);
	return carry_out(p, memory, reel);
}

/* Steps 1 to 4: header outside memory, ACK and no ACK, attention, CVC. */
static ts11_answer plan_command(struct plan *p, const uint8_t *memory, const uint8_t *reel)
{
	struct unit *u = &p->next;
	if (u->pointer + 2 > u->memory) {
		end_unit(u, TS11_CLASS_UNMOVED);
		return TS11_DONE;
	}
	uint32_t header = word_at(memory + u->pointer);
	p->command.header = header;
	p->command.code = header & 0x1F;
	p->command.what = header & 0x0F1F;
	if (header & TS11_ACK)
		u->unit_owns = 1;
	if (!u->unit_owns) {
		end_unit(u, TS11_CLASS_NORMAL);
		p->interrupt = (header & TS11_IE) != 0;
		return TS11_DONE;
	}
	if (u->pending)
		return attend(p, (header & TS11_IE) != 0);
	if (header & TS11_CVC)
		u->vck = 0;
	return run_command(p, memory, reel);
}

/* What is written gets its place, and a retry's gap one before it; or refusal 11. */
static ts11_answer plan_places(struct plan *p, const struct session *s, const uint8_t *table, size_t length,
                               const uint8_t *reel)
{
	struct entry *e = &p->entry;
	size_t places = places_in(length);
	if (s->objects > places)
		return TS11_SMALL_TABLE;
	if (e->reel_blocks == 0)
		return TS11_DONE;
	p->cut = first_from(table, OF_BLOCK, s->objects, e->reel_at);
	p->marks = marks_before(table, p->cut, reel, s->unit.blocks);
	e->places = p->gap_first ? 2 : 1;
	return e->places > places - p->cut ? TS11_SMALL_TABLE : TS11_DONE;
}

/* Places and blocks first, then data, and the message over it. */
static void store_plan(const struct plan *p, uint8_t *memory, uint8_t *reel, uint8_t *table)
{
	const struct entry *e = &p->entry;
	const struct command *c = &p->command;
	for (uint32_t i = 0; i < e->places; i++)
		put_place(table, p->cut + i, e->reel_at + i, p->marks);
	if (e->reel_blocks != 0) {
		uint8_t *at = reel + reel_bytes(e->reel_at);
		if (p->gap_first) {
			frame_block(at, TS11_KIND_GAP, 0, 0, 0);
			at += TS11_BLOCK;
		}
		if (p->kind == TS11_KIND_RECORD)
			lay_record(at, memory, c->pointer, c->count, (c->header & TS11_SWB) != 0);
		else
			frame_block(at, p->kind, 0, 0, 0);
	}
	copy_record(reel + reel_bytes(p->record), p->record_from, memory, e->data_at, e->data_length, e->swb);
	memcpy(memory + e->message_at, p->message, e->message_length);
}

/* ---- the calls --------------------------------------------------------------------------------------------------- */

/* What a mount and an initialize both set. */
static void initialize(struct unit *u)
{
	u->pointer = u->class = 0;
	u->rmr = u->nxm = 0;
	u->nba = u->ssr = u->vck = 1;
	u->unit_owns = u->pending = u->release_ie = 0;
	u->message = u->message_length = 0;
	u->eai = u->ess = u->enb = 0;
}

ts11_answer plain_mount(ts11_state *state, size_t memory_length, const uint8_t *reel, size_t reel_length,
                        uint8_t *table, size_t table_length, size_t journal_length, size_t recorded_end, bool online,
                        bool write_lock, size_t *block, uint8_t *fault)
{
	size_t blocks = reel_length / TS11_BLOCK;
	*block = 0;
	*fault = 0;
	if (memory_wrong(memory_length))
		return TS11_BAD_MEMORY;
	if (reel_length % TS11_BLOCK != 0 || blocks_wrong(blocks) || recorded_end > blocks)
		return TS11_BAD_REEL;
	if (journal_length > TS11_JOURNAL_MAX)
		return TS11_BAD_JOURNAL;
	uint32_t objects;
	struct met m = sweep(reel, (uint32_t)recorded_end, &objects);
	if (m.what == MET_FAULT)
		return bad_block(reel, &m, &(struct bad){block, fault});
	if (objects > places_in(table_length))
		return TS11_SMALL_TABLE;
	fill_table(table, reel, objects);
	struct session s = {.journal = (uint32_t)journal_length, .objects = objects};
	initialize(&s.unit);
	s.unit.end = (uint32_t)recorded_end;
	s.unit.online = online;
	s.unit.locked = write_lock;
	s.unit.memory = (uint32_t)memory_length;
	s.unit.blocks = (uint32_t)blocks;
	close_session(&s, state);
	return TS11_DONE;
}

/* What the steps that change the state alone begin with: refusals 1 to 4, 11 and 9, and the entry. */
static ts11_answer open_change(struct session *s, const ts11_state *state, size_t memory, size_t reel, size_t table,
                               uint8_t *journal, size_t journal_length)
{
	ts11_answer answer = open_session(s, state, memory, reel, journal_length);
	if (answer != TS11_DONE)
		return answer;
	return s->objects > places_in(table) ? TS11_SMALL_TABLE : add_head(s, journal);
}

ts11_answer plain_write_tsdb(ts11_state *state, uint8_t *memory, size_t memory_length, uint8_t *reel,
                             size_t reel_length, const uint8_t *table, size_t table_length, uint8_t *journal,
                             size_t journal_length, uint16_t word)
{
	struct session s;
	ts11_answer answer = open_change(&s, state, memory_length, reel_length, table_length, journal, journal_length);
	(void)memory;
	(void)reel;
	(void)table;
	if (answer != TS11_DONE)
		return answer;
	if (s.unit.ssr) {
		s.unit.pointer = (word & 0xFFFCu) | (word & 3u) << 16;
		s.unit.class = s.unit.rmr = s.unit.nxm = s.unit.ssr = 0;
	} else {
		s.unit.rmr = 1;
	}
	close_session(&s, state);
	return TS11_DONE;
}

ts11_answer plain_write_tssr(ts11_state *state, uint8_t *memory, size_t memory_length, uint8_t *reel,
                             size_t reel_length, const uint8_t *table, size_t table_length, uint8_t *journal,
                             size_t journal_length, uint16_t word)
{
	struct session s;
	ts11_answer answer = open_change(&s, state, memory_length, reel_length, table_length, journal, journal_length);
	(void)memory;
	(void)reel;
	(void)table;
	(void)word;
	if (answer != TS11_DONE)
		return answer;
	initialize(&s.unit);
	if (s.unit.online)
		s.unit.position = 0;
	close_session(&s, state);
	return TS11_DONE;
}

/* Going on or off line makes an attention pending if EAI is set; going on line sets VCK. */
static void switch_line(struct unit *u, bool on)
{
	if (u->online == on)
		return;
	u->online = on;
	u->pending |= u->eai;
	u->vck |= on;
}

ts11_answer plain_operate(ts11_state *state, uint8_t *memory, size_t memory_length, uint8_t *reel, size_t reel_length,
                          const uint8_t *table, size_t table_length, uint8_t *journal, size_t journal_length,
                          bool which_switch, bool on)
{
	struct session s;
	ts11_answer answer = open_change(&s, state, memory_length, reel_length, table_length, journal, journal_length);
	(void)memory;
	(void)reel;
	(void)table;
	if (answer != TS11_DONE)
		return answer;
	if (which_switch == TS11_SWITCH_WRITE_LOCK)
		s.unit.locked = on;
	else
		switch_line(&s.unit, on);
	close_session(&s, state);
	return TS11_DONE;
}

static uint16_t tssr_of(const struct unit *u)
{
	uint32_t w = u->class << 1 | (u->pointer >> 16) << 8;
	if (u->class != 0 || u->rmr || u->nxm)
		w |= TS11_TSSR_SC;
	w |= (u->rmr ? TS11_TSSR_RMR : 0) | (u->nxm ? TS11_TSSR_NXM : 0) | (u->nba ? TS11_TSSR_NBA : 0);
	w |= (u->ssr ? TS11_TSSR_SSR : 0) | (u->online ? 0 : TS11_TSSR_OFL);
	return (uint16_t)w;
}

ts11_answer plain_read_register(const ts11_state *state, bool which_register, uint16_t *word)
{
	struct session s;
	memcpy(&s, state->bytes, sizeof s);
	*word = 0;
	if (session_wrong(&s))
		return TS11_BAD_STATE;
	*word = which_register == TS11_REGISTER_TSSR ? tssr_of(&s.unit) : (uint16_t)s.unit.pointer;
	return TS11_DONE;
}

ts11_answer plain_host_store(ts11_state *state, uint8_t *memory, size_t memory_length, const uint8_t *reel,
                             size_t reel_length, const uint8_t *table, size_t table_length, uint8_t *journal,
                             size_t journal_length, size_t address, const uint8_t *bytes, size_t length)
{
	struct session s;
	ts11_answer answer = open_session(&s, state, memory_length, reel_length, journal_length);
	if (answer != TS11_DONE)
		return answer;
	if (length > TS11_HOST_STORE_MAX || length > memory_length || address > memory_length - length)
		return TS11_BAD_STORE;
	if (s.objects > places_in(table_length))
		return TS11_SMALL_TABLE;
	struct entry e = {
		.unit = s.unit, .data_at = (uint32_t)address, .data_length = (uint32_t)length, .objects = s.objects};
	answer = add_entry(&s, journal, &e, memory, reel, table);
	if (answer != TS11_DONE)
		return answer;
	memcpy(memory + address, bytes, length);
	close_session(&s, state);
	return TS11_DONE;
}

ts11_answer plain_advance(ts11_state *state, uint8_t *memory, size_t memory_length, uint8_t *reel, size_t reel_length,
                          uint8_t *table, size_t table_length, uint8_t *journal, size_t journal_length, bool *stepped,
                          bool *interrupt, size_t *block, uint8_t *fault)
{
	struct session s;
	ts11_answer answer = open_session(&s, state, memory_length, reel_length, journal_length);
	*stepped = *interrupt = false;
	*block = 0;
	*fault = 0;
	if (answer != TS11_DONE)
		return answer;
	bool waits = !s.unit.ssr;
	bool attends = s.unit.pending && s.unit.unit_owns;
	if (!waits && !attends)
		return TS11_DONE;
	struct plan p = {.next = s.unit, .entry = {.unit = s.unit, .objects = s.objects}, .bad = {block, fault}};
	answer = waits ? plan_command(&p, memory, reel) : attend(&p, s.unit.release_ie);
	if (answer == TS11_DONE)
		answer = plan_places(&p, &s, table, table_length, reel);
	if (answer == TS11_DONE)
		answer = add_entry(&s, journal, &p.entry, memory, reel, table + table_bytes(p.cut));
	if (answer != TS11_DONE)
		return answer;
	store_plan(&p, memory, reel, table);
	s.unit = p.next;
	if (p.entry.places != 0)
		s.objects = p.cut + p.entry.places;
	close_session(&s, state);
	*stepped = true;
	*interrupt = p.interrupt;
	return TS11_DONE;
}

ts11_answer plain_step_back(ts11_state *state, uint8_t *memory, size_t memory_length, uint8_t *reel, size_t reel_length,
                            uint8_t *table, size_t table_length, const uint8_t *journal, size_t journal_length)
{
	struct session s;
	ts11_answer answer = open_session(&s, state, memory_length, reel_length, journal_length);
	if (answer != TS11_DONE)
		return answer;
	if (s.used == 0)
		return TS11_NO_ENTRY;
	if (s.used < TS11_ENTRY_HEAD)
		return TS11_BAD_ENTRY;
	struct entry e;
	memcpy(&e, journal + s.used - sizeof e, sizeof e);
	if (entry_wrong(&e, &s))
		return TS11_BAD_ENTRY;
	if (s.objects > places_in(table_length) || e.objects > places_in(table_length))
		return TS11_SMALL_TABLE;
	settle_flags(&e.unit);
	s.used -= (uint32_t)entry_length(&e);
	uint8_t *places = table + table_bytes(s.objects - e.places);
	bring_back(journal + s.used + sizeof(uint32_t), &e, memory, reel, places);
	s.unit = e.unit;
	s.objects = e.objects;
	close_session(&s, state);
	return TS11_DONE;
}

/* What the look-ups begin with: refusals 1 and 11, and nothing found. */
static ts11_answer open_table(struct session *s, const ts11_state *state, size_t table_length, bool *found,
                              size_t *place)
{
	memcpy(s, state->bytes, sizeof *s);
	*found = false;
	*place = 0;
	if (session_wrong(s))
		return TS11_BAD_STATE;
	return s->objects > places_in(table_length) ? TS11_SMALL_TABLE : TS11_DONE;
}

ts11_answer plain_find_file(const ts11_state *state, const uint8_t *table, size_t table_length, size_t file,
                            bool *found, size_t *place)
{
	struct session s;
	ts11_answer answer = open_table(&s, state, table_length, found, place);
	if (answer != TS11_DONE)
		return answer;
	uint32_t at = first_from(table, OF_MARKS, s.objects, file);
	*found = at < s.objects;
	*place = *found ? at : 0;
	return TS11_DONE;
}

ts11_answer plain_find_block(const ts11_state *state, const uint8_t *table, size_t table_length, size_t block,
                             bool *found, size_t *place)
{
	struct session s;
	ts11_answer answer = open_table(&s, state, table_length, found, place);
	if (answer != TS11_DONE || block >= s.unit.end)
		return answer;
	uint32_t behind = first_from(table, OF_BLOCK, s.objects, block + 1);
	*found = behind != 0;
	*place = *found ? behind - 1 : 0;
	return TS11_DONE;
}
