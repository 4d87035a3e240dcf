/*
 * One unit and all that a host keeps for it, the library's calls as values, and what every call promises: nothing
 * outside the handed buffers changes, a refused call changes nothing, a step is undone and done again exactly, and in a
 * session from a mount on the table is the one that is worked out afresh from the reel.
 */
#ifndef UNIT_H
#define UNIT_H

#include "expect.h"
#include "objects.h"
#include "ts11.h"

/* ---- buffers ----------------------------------------------------------------------------------------------------- */

/* More than a block, and odd: between guards no buffer is aligned. */
enum { GUARD = 513, GUARD_BYTE = 0xA7 };

/* Bytes with `guard` guard bytes before and after them; 0 guard bytes make an allocation of exactly the length. */
struct buffer {
	uint8_t *at;
	size_t length, guard;
};

static inline struct buffer make_buffer(size_t length, size_t guard)
{
	size_t whole = length + 2 * guard;
	uint8_t *room = need(calloc(1, whole + (whole == 0)));
	memset(room, GUARD_BYTE, guard);
	memset(room + guard + length, GUARD_BYTE, guard);
	return (struct buffer){ room + guard, length, guard };
}

static inline void free_buffer(struct buffer *b)
{
	if (b->at)
		free(b->at - b->guard);
	*b = (struct buffer){ 0 };
}

static inline bool all_are(const uint8_t *bytes, size_t length, uint8_t value)
{
	for (size_t i = 0; i < length; i++)
		if (bytes[i] != value)
			return false;
	return true;
}

static inline bool guarded(const struct buffer *b)
{
	static uint8_t guard[GUARD];
	if (guard[0] != GUARD_BYTE)
		memset(guard, GUARD_BYTE, GUARD);
	return memcmp(b->at - b->guard, guard, b->guard) == 0 && memcmp(b->at + b->length, guard, b->guard) == 0;
}

struct unit {
	struct buffer state, memory, reel, table, journal;
};

static inline struct unit make_unit_with(size_t memory, size_t reel, size_t table, size_t journal, size_t guard)
{
	return (struct unit){ make_buffer(TS11_STATE_BYTES, guard), make_buffer(memory, guard), make_buffer(reel, guard),
		                  make_buffer(table, guard), make_buffer(journal, guard) };
}

/* With a table of a place for each block, which is always enough. */
static inline struct unit make_unit(size_t memory, size_t reel, size_t journal, size_t guard)
{
	return make_unit_with(memory, reel, reel / TS11_BLOCK * TS11_PLACE_BYTES, journal, guard);
}

static inline void free_unit(struct unit *u)
{
	free_buffer(&u->state);
	free_buffer(&u->memory);
	free_buffer(&u->reel);
	free_buffer(&u->table);
	free_buffer(&u->journal);
}

static inline ts11_state *state_of(const struct unit *u)
{
	return (ts11_state *)u->state.at;
}

static inline uint32_t number(const struct unit *u, size_t at)
{
	return ts11_state_number(state_of(u), at);
}

/* Makes up one number of the state. */
static inline void set_number(struct unit *u, size_t at, uint32_t value)
{
	for (int i = 0; i < 4; i++)
		u->state.at[at + i] = (uint8_t)(value >> 8 * i);
}

/* The used journal, as far as the handed buffer has it: a made-up state may say anything. */
static inline size_t used_part(const struct unit *u)
{
	size_t used = number(u, TS11_AT_USED);
	return used < u->journal.length ? used : u->journal.length;
}

/* The table's used part by a state, as far as the handed buffer has it. */
static inline size_t used_table_by(const struct unit *u, const uint8_t *state)
{
	size_t used = (size_t)ts11_state_number((const ts11_state *)state, TS11_AT_OBJECTS) * TS11_PLACE_BYTES;
	return used < u->table.length ? used : u->table.length;
}

static inline size_t used_table(const struct unit *u)
{
	return used_table_by(u, u->state.at);
}

/* ---- the calls as values ----------------------------------------------------------------------------------------- */

enum kind {
	MOUNT,
	WRITE_TSDB,
	WRITE_TSSR,
	OPERATE,
	READ_REGISTER,
	HOST_STORE,
	ADVANCE,
	STEP_BACK,
	FIND_FILE,
	FIND_BLOCK
};

struct call {
	enum kind kind;
	size_t recorded_end;     /* mount */
	bool online, write_lock; /* mount */
	bool which, on;          /* operate: the switch; read: the register */
	uint16_t word;           /* the register writes */
	size_t address, length;  /* host store */
	const uint8_t *bytes;    /* host store */
	size_t sought;           /* the look-ups: a file, a block */
};

struct result {
	ts11_answer answer;
	bool stepped, interrupt;
	uint16_t word;
	size_t block;
	uint8_t fault;
	bool found;
	size_t place;
};

/* The out-parameters, apart from each other. */
struct outs {
	uint8_t first[16];
	bool stepped;
	uint8_t second[16];
	bool interrupt;
	uint8_t third[16];
	uint16_t word;
	uint8_t fourth[16];
	size_t block;
	uint8_t fifth[16];
	uint8_t fault;
	uint8_t sixth[16];
	bool found;
	uint8_t seventh[16];
	size_t place;
	uint8_t last[16];
};

static inline ts11_answer put_call(struct unit *u, const struct call *c, struct outs *o)
{
	ts11_state *s = state_of(u);
	uint8_t *m = u->memory.at, *r = u->reel.at, *t = u->table.at, *j = u->journal.at;
	size_t mn = u->memory.length, rn = u->reel.length, tn = u->table.length, jn = u->journal.length;
	switch (c->kind) {
	case MOUNT:
		return ts11_mount(s, mn, r, rn, t, tn, jn, c->recorded_end, c->online, c->write_lock, &o->block, &o->fault);
	case WRITE_TSDB:
		return ts11_write_tsdb(s, m, mn, r, rn, t, tn, j, jn, c->word);
	case WRITE_TSSR:
		return ts11_write_tssr(s, m, mn, r, rn, t, tn, j, jn, c->word);
	case OPERATE:
		return ts11_operate(s, m, mn, r, rn, t, tn, j, jn, c->which, c->on);
	case READ_REGISTER:
		return ts11_read_register(s, c->which, &o->word);
	case HOST_STORE:
		return ts11_host_store(s, m, mn, r, rn, t, tn, j, jn, c->address, c->bytes, c->length);
	case ADVANCE:
		return ts11_advance(s, m, mn, r, rn, t, tn, j, jn, &o->stepped, &o->interrupt, &o->block, &o->fault);
	case STEP_BACK:
		return ts11_step_back(s, m, mn, r, rn, t, tn, j, jn);
	case FIND_FILE:
		return ts11_find_file(s, t, tn, c->sought, &o->found, &o->place);
	default:
		return ts11_find_block(s, t, tn, c->sought, &o->found, &o->place);
	}
}

/* How the library is entered: as any host does, or on a stack that is watched. */
static ts11_answer (*put)(struct unit *, const struct call *, struct outs *) = put_call;

static inline bool finds(const struct call *c)
{
	return c->kind == FIND_FILE || c->kind == FIND_BLOCK;
}

static inline void expect_outs_apart(const struct outs *o, uint8_t fill)
{
	EXPECT("bytes beside the out-parameters are as before",
	       all_are(o->first, 16, fill) && all_are(o->second, 16, fill) && all_are(o->third, 16, fill) &&
	           all_are(o->fourth, 16, fill) && all_are(o->fifth, 16, fill) && all_are(o->sixth, 16, fill) &&
	           all_are(o->seventh, 16, fill) && all_are(o->last, 16, fill),
	       true);
}

/* Makes the call with `fill` (0 or 1) in every byte of the out-parameters; those that it has not are given as 0. */
static inline struct result perform_over(struct unit *u, const struct call *c, uint8_t fill)
{
	struct outs o;
	memset(&o, fill, sizeof o);
	struct result r = { .answer = put(u, c, &o) };
	expect_outs_apart(&o, fill);
	if (c->kind == MOUNT || c->kind == ADVANCE) {
		r.block = o.block;
		r.fault = o.fault;
	}
	if (c->kind == READ_REGISTER)
		r.word = o.word;
	if (finds(c)) {
		r.found = o.found;
		r.place = o.place;
	}
	if (c->kind == ADVANCE) {
		r.stepped = o.stepped;
		r.interrupt = o.interrupt;
	}
	return r;
}

static inline struct result perform(struct unit *u, const struct call *c)
{
	return perform_over(u, c, 1);
}

static inline bool is_step(const struct call *c, const struct result *r)
{
	if (r->answer != TS11_DONE || c->kind == MOUNT || c->kind == READ_REGISTER || c->kind == STEP_BACK || finds(c))
		return false;
	return c->kind != ADVANCE || r->stepped;
}

/* ---- pictures: what a unit's bytes were -------------------------------------------------------------------------- */

struct copy {
	uint8_t *bytes;
	size_t length, room;
};

struct picture {
	struct copy state, memory, reel, table, used;
};

static inline void make_room(struct copy *c, size_t length)
{
	if (c->room >= length)
		return;
	free(c->bytes);
	c->bytes = need(calloc(1, length));
	c->room = length;
}

/* From one picture to the next most bytes stay: only pieces that differ are copied. */
static inline void take_copy(struct copy *c, const uint8_t *bytes, size_t length)
{
	enum { PIECE = 4096 };
	make_room(c, length);
	for (size_t at = 0; at < length; at += PIECE) {
		size_t n = length - at < PIECE ? length - at : PIECE;
		if (memcmp(c->bytes + at, bytes + at, n) != 0)
			memcpy(c->bytes + at, bytes + at, n);
	}
	c->length = length;
}

static inline void take_picture(struct picture *p, const struct unit *u)
{
	take_copy(&p->state, u->state.at, u->state.length);
	take_copy(&p->memory, u->memory.at, u->memory.length);
	take_copy(&p->reel, u->reel.at, u->reel.length);
	take_copy(&p->table, u->table.at, u->table.length);
	take_copy(&p->used, u->journal.at, used_part(u));
}

/* A copy of no bytes has no place. */
static inline void put_copy(uint8_t *at, const struct copy *c)
{
	if (c->length)
		memcpy(at, c->bytes, c->length);
}

/* The unit as it was when the picture was taken. */
static inline void put_back(struct unit *u, const struct picture *p)
{
	put_copy(u->state.at, &p->state);
	put_copy(u->memory.at, &p->memory);
	put_copy(u->reel.at, &p->reel);
	put_copy(u->table.at, &p->table);
	put_copy(u->journal.at, &p->used);
}

static inline void free_picture(struct picture *p)
{
	free(p->state.bytes);
	free(p->memory.bytes);
	free(p->reel.bytes);
	free(p->table.bytes);
	free(p->used.bytes);
	*p = (struct picture){ 0 };
}

/* State, memory, reel, table and used journal are those of the picture, byte for byte. */
static inline void expect_same(const char *when, const struct unit *u, const struct picture *p)
{
	expectations.when = when;
	EXPECT_BYTES("the state", u->state.at, p->state.bytes, p->state.length);
	EXPECT_BYTES("memory", u->memory.at, p->memory.bytes, p->memory.length);
	EXPECT_BYTES("the reel", u->reel.at, p->reel.bytes, p->reel.length);
	EXPECT_BYTES("the table", u->table.at, p->table.bytes, p->table.length);
	EXPECT_BYTES("the used journal", u->journal.at, p->used.bytes, p->used.length);
	expectations.when = NULL;
}

/* ---- the table worked out afresh --------------------------------------------------------------------------------- */

static inline void expect_found(struct unit *u, enum kind kind, size_t sought, size_t wanted)
{
	struct result r = perform(u, &(struct call){ .kind = kind, .sought = sought });
	EXPECT("look-up: answer", r.answer, TS11_DONE);
	EXPECT("look-up: *found", r.found, wanted != SIZE_MAX);
	EXPECT("look-up: *place", r.place, wanted != SIZE_MAX ? wanted : 0);
}

/* Both look-ups, for the first, the last, those just past it, and others in turn. */
static inline void expect_look_ups(struct unit *u, const struct object *objects, size_t count)
{
	static size_t turn;
	size_t end = number(u, TS11_AT_END), files = count ? objects[count - 1].marks : 0;
	const size_t sought[][2] = { { 0, 0 }, { files, end }, { files + 1, end ? end - 1 : 0 }, { SIZE_MAX, SIZE_MAX },
		                         { turn % (files + 1), turn % (end + 1) } };
	turn++;
	ROWS(k, sought) {
		expect_found(u, FIND_FILE, sought[k][0], place_of_file(objects, count, sought[k][0]));
		expect_found(u, FIND_BLOCK, sought[k][1], place_of_block(objects, count, sought[k][1]));
	}
}

/* The used part of the table is that of the reel's objects, and the look-ups find them by it. */
static inline void expect_afresh(struct unit *u)
{
	static struct object objects[TS11_REEL_BLOCKS_MAX];
	uint32_t end = number(u, TS11_AT_END);
	if (!EXPECT("the recorded end is inside the reel", end <= u->reel.length / TS11_BLOCK, true))
		return;
	size_t count = work_out(objects, u->reel.at, end);
	expectations.when = "the table afresh";
	if (EXPECT("objects", number(u, TS11_AT_OBJECTS), count) &&
	    EXPECT("room for them", count * TS11_PLACE_BYTES <= u->table.length, true)) {
		bool same = true;
		for (size_t i = 0; i < count; i++)
			same &= ts11_place_block(u->table.at, i) == objects[i].block &&
			        ts11_place_marks(u->table.at, i) == objects[i].marks;
		EXPECT("each place", same, true);
		expect_look_ups(u, objects, count);
	}
	expectations.when = NULL;
}

/*
 * A session goes on while nothing but calls has changed state, reel, used table and used journal: they are those that
 * the last accepted call left.
 */
static struct {
	bool on;
	struct copy state, reel, table, used;
} session;

static inline bool is_copy(const struct copy *c, const uint8_t *bytes, size_t length)
{
	return c->length == length && (length == 0 || memcmp(c->bytes, bytes, length) == 0);
}

static inline bool session_goes_on(const struct unit *u)
{
	return session.on && is_copy(&session.state, u->state.at, u->state.length) &&
	       is_copy(&session.reel, u->reel.at, u->reel.length) &&
	       is_copy(&session.table, u->table.at, used_table(u)) && is_copy(&session.used, u->journal.at, used_part(u));
}

/* After an accepted call. */
static inline void expect_session(struct unit *u, bool goes_on)
{
	session.on = goes_on;
	if (!goes_on)
		return;
	expect_afresh(u);
	take_copy(&session.state, u->state.at, u->state.length);
	take_copy(&session.reel, u->reel.at, u->reel.length);
	take_copy(&session.table, u->table.at, used_table(u));
	take_copy(&session.used, u->journal.at, used_part(u));
}

/* ---- what every call promises ------------------------------------------------------------------------------------ */

static inline void expect_guarded(const struct unit *u)
{
	EXPECT("bytes beside the state are as before", guarded(&u->state), true);
	EXPECT("bytes beside memory are as before", guarded(&u->memory), true);
	EXPECT("bytes beside the reel are as before", guarded(&u->reel), true);
	EXPECT("bytes beside the table are as before", guarded(&u->table), true);
	EXPECT("bytes beside the journal are as before", guarded(&u->journal), true);
}

static inline bool is_fault(uint8_t letter)
{
	return letter == TS11_FAULT_KIND || letter == TS11_FAULT_LENGTH || letter == TS11_FAULT_INDEX ||
	       letter == TS11_FAULT_PADDING || letter == TS11_FAULT_CHECK;
}

static inline void expect_outs(const struct call *c, const struct result *r)
{
	if (r->answer != TS11_BAD_BLOCK) {
		EXPECT("*block without refusal 7", r->block, 0);
		EXPECT("*fault without refusal 7", r->fault, 0);
	} else {
		EXPECT("*fault is one of the five", is_fault(r->fault), true);
	}
	if (r->answer != TS11_DONE)
		EXPECT("*stepped, *interrupt, *word and *found refused", r->stepped || r->interrupt || r->word || r->found,
		       false);
	if (!r->found)
		EXPECT("*place without an object", r->place, 0);
	if (c->kind == ADVANCE && !r->stepped)
		EXPECT("*interrupt without a step", r->interrupt, false);
}

static inline void expect_same_result(const struct result *got, const struct result *wanted)
{
	EXPECT("done again: answer", got->answer, wanted->answer);
	EXPECT("done again: *stepped", got->stepped, wanted->stepped);
	EXPECT("done again: *interrupt", got->interrupt, wanted->interrupt);
	EXPECT("done again: *word", got->word, wanted->word);
	EXPECT("done again: *block", got->block, wanted->block);
	EXPECT("done again: *fault", got->fault, wanted->fault);
	EXPECT("done again: *found", got->found, wanted->found);
	EXPECT("done again: *place", got->place, wanted->place);
}

/* What stands in the journal above the used part is nobody's: other bytes there must make no difference. */
static inline void scribble(struct unit *u, size_t entry)
{
	size_t used = used_part(u), room = u->journal.length - used;
	size_t n = entry + GUARD < room ? entry + GUARD : room;
	memset(u->journal.at + used, 0x5A, n);
}

/* A step that was just taken is undone, then taken again. */
static inline void expect_undone_and_redone(struct unit *u, const struct call *c, const struct result *r,
                                            const struct picture *before)
{
	static struct picture after;
	take_picture(&after, u);
	struct result back = perform(u, &(struct call){ .kind = STEP_BACK });
	EXPECT("step back over the step", back.answer, TS11_DONE);
	expect_guarded(u);
	expect_same("step back", u, before);
	scribble(u, after.used.length - before->used.length);
	struct result again = perform_over(u, c, 0);
	expect_guarded(u);
	expect_same_result(&again, r);
	expect_same("done again", u, &after);
}

/* Of the table only the places that a call fills may change: a mount's, and of a step or step back the last two. */
static inline void expect_table_kept(const struct unit *u, const struct call *c, const struct picture *before)
{
	bool fills = c->kind == MOUNT || c->kind == ADVANCE || c->kind == STEP_BACK;
	size_t to = used_table_by(u, c->kind == STEP_BACK ? before->state.bytes : u->state.at);
	size_t most = c->kind == MOUNT ? to : 2 * TS11_PLACE_BYTES, from = to < most ? 0 : to - most;
	if (!fills)
		from = to = 0;
	EXPECT_BYTES("the table before what is filled", u->table.at, before->table.bytes, from);
	EXPECT_BYTES("the table behind it", u->table.at + to, before->table.bytes + to, before->table.length - to);
}

/* Buffers that a call is handed as const, or not at all, are as before even where it is answered 0. */
static inline void expect_read_only(const struct unit *u, const struct call *c, const struct picture *before)
{
	expect_table_kept(u, c, before);
	if (c->kind == MOUNT)
		EXPECT_BYTES("mount: memory", u->memory.at, before->memory.bytes, before->memory.length);
	if (c->kind == MOUNT || c->kind == HOST_STORE)
		EXPECT_BYTES("mount or host store: the reel", u->reel.at, before->reel.bytes, before->reel.length);
	EXPECT_BYTES("the journal that was in use", u->journal.at, before->used.bytes, before->used.length);
}

/* Makes a call and holds it to all that every call promises. The unit is left as the call leaves it. */
static inline struct result checked(struct unit *u, const struct call *c)
{
	static struct picture before;
	bool goes_on = session_goes_on(u);
	take_picture(&before, u);
	struct result r = perform(u, c);
	expect_guarded(u);
	expect_outs(c, &r);
	if (r.answer != TS11_DONE)
		expect_same("refused", u, &before);
	else if (c->kind == READ_REGISTER || finds(c) || (c->kind == ADVANCE && !r.stepped))
		expect_same("no step", u, &before);
	else
		expect_read_only(u, c, &before);
	if (is_step(c, &r))
		expect_undone_and_redone(u, c, &r, &before);
	if (r.answer == TS11_DONE)
		expect_session(u, goes_on || c->kind == MOUNT);
	return r;
}

#endif
