/* The CPU's side of a unit: register accesses, packets put into memory by host stores, commands and their messages. */
#ifndef DRIVER_H
#define DRIVER_H

#include "tape.h"
#include "unit.h"

/* Where packet, message buffer, characteristics and data stand in memory. */
enum { PACKET = 0x100, MESSAGE = 0x108, CHARACTERISTICS = 0x120, DATA = 0x400 };
enum { NO_MESSAGE = 0xEEEE };

/* What goes with a call: it is held to all its promises, or made plainly, as where buffers are large. */
static struct result (*make)(struct unit *, const struct call *) = checked;

static inline struct result mount(struct unit *u, size_t recorded_end, bool online, bool write_lock)
{
	return make(
		u, &(struct call){ .kind = MOUNT, .recorded_end = recorded_end, .online = online, .write_lock = write_lock });
}

static inline struct result write_tsdb(struct unit *u, uint16_t word)
{
	return make(u, &(struct call){ .kind = WRITE_TSDB, .word = word });
}

static inline struct result write_tssr(struct unit *u, uint16_t word)
{
	return make(u, &(struct call){ .kind = WRITE_TSSR, .word = word });
}

static inline struct result operate(struct unit *u, bool which_switch, bool on)
{
	return make(u, &(struct call){ .kind = OPERATE, .which = which_switch, .on = on });
}

static inline struct result read_register(struct unit *u, bool which_register)
{
	return make(u, &(struct call){ .kind = READ_REGISTER, .which = which_register });
}

static inline struct result host_store(struct unit *u, size_t address, const uint8_t *bytes, size_t length)
{
	return make(u, &(struct call){ .kind = HOST_STORE, .address = address, .bytes = bytes, .length = length });
}

static inline struct result advance(struct unit *u)
{
	return make(u, &(struct call){ .kind = ADVANCE });
}

static inline struct result step_back(struct unit *u)
{
	return make(u, &(struct call){ .kind = STEP_BACK });
}

static inline struct result find_file(struct unit *u, size_t file)
{
	return make(u, &(struct call){ .kind = FIND_FILE, .sought = file });
}

static inline struct result find_block(struct unit *u, size_t block)
{
	return make(u, &(struct call){ .kind = FIND_BLOCK, .sought = block });
}

static inline uint16_t tssr(struct unit *u)
{
	return read_register(u, TS11_REGISTER_TSSR).word;
}

static inline size_t used(const struct unit *u)
{
	return number(u, TS11_AT_USED);
}

static inline size_t objects(const struct unit *u)
{
	return number(u, TS11_AT_OBJECTS);
}

/* How an advance ended. */
struct ending {
	ts11_answer answer;
	bool stepped, interrupt;
	size_t block, entry;
	uint8_t fault;
	uint16_t tssr;
	bool sent; /* a message went to MESSAGE */
	uint16_t header, residual, xst0, xst3;
};

static inline struct ending advance_to_end(struct unit *u)
{
	size_t before = used(u);
	struct result r = advance(u);
	const uint8_t *message = u->memory.at + MESSAGE;
	return (struct ending){
		.answer = r.answer,
		.stepped = r.stepped,
		.interrupt = r.interrupt,
		.block = r.block,
		.fault = r.fault,
		.entry = used(u) - before,
		.tssr = tssr(u),
		.sent = word_at(message) != NO_MESSAGE,
		.header = word_at(message + TS11_MESSAGE_HEADER),
		.residual = word_at(message + TS11_MESSAGE_RESIDUAL),
		.xst0 = word_at(message + TS11_MESSAGE_XST0),
		.xst3 = word_at(message + TS11_MESSAGE_XST3),
	};
}

/* Puts a packet into memory, with no message behind it. */
static inline ts11_answer put_packet(struct unit *u, uint16_t header, size_t pointer, uint16_t count)
{
	uint8_t bytes[TS11_PACKET_BYTES + TS11_MESSAGE_BYTES];
	memset(bytes, NO_MESSAGE & 255, sizeof bytes);
	put_word(bytes, header);
	put_word(bytes + 2, pointer & 0xFFFF);
	put_word(bytes + 4, (unsigned)(pointer >> 16));
	put_word(bytes + 6, count);
	return host_store(u, PACKET, bytes, sizeof bytes).answer;
}

/* One command, from the packet to its end. A Position's count stands where the others have the pointer's low word. */
static inline struct ending command(struct unit *u, uint16_t header, size_t pointer, uint16_t count)
{
	EXPECT("the packet's store", put_packet(u, header, pointer, count), TS11_DONE);
	EXPECT("the TSDB write", write_tsdb(u, TS11_TSDB(PACKET)).answer, TS11_DONE);
	return advance_to_end(u);
}

/* Write Characteristics, with further flags in its header. */
static inline struct ending characteristics(struct unit *u, uint16_t flags, size_t address, uint16_t length,
                                            uint16_t mode)
{
	uint8_t bytes[8];
	put_word(bytes, address & 0xFFFF);
	put_word(bytes + 2, (unsigned)(address >> 16));
	put_word(bytes + 4, length);
	put_word(bytes + 6, mode);
	EXPECT("the characteristics' store", host_store(u, CHARACTERISTICS, bytes, sizeof bytes).answer, TS11_DONE);
	return command(u, TS11_WRITE_CHARACTERISTICS | TS11_ACK | flags, CHARACTERISTICS, sizeof bytes);
}

#endif
