/* A reel's objects worked out afresh, apart from the library, and where a look-up must find them. */
#ifndef OBJECTS_H
#define OBJECTS_H

#include "tape.h"

/* The objects of a whole reel below its end, by the header words of their first blocks. */
struct object {
	uint32_t block, blocks, marks; /* the first block, how many, the marks before it */
};

static inline size_t work_out(struct object *objects, const uint8_t *reel, uint32_t end)
{
	size_t count = 0;
	uint32_t at = 0, marks = 0;
	while (at < end) {
		const uint8_t *block = reel + (size_t)at * TS11_BLOCK;
		size_t length = word_at(block + TS11_BLOCK_LENGTH); /* 0 in a mark or gap, which take a block too */
		objects[count] = (struct object){ at, length ? (uint32_t)pieces(length) : 1, marks };
		marks += word_at(block + TS11_BLOCK_KIND) == TS11_KIND_MARK;
		at += objects[count++].blocks;
	}
	return count;
}

/* Where a look-up must find it, read from the first object on: its place, or SIZE_MAX. */
static inline size_t place_of_file(const struct object *objects, size_t count, size_t file)
{
	for (size_t i = 0; i < count; i++)
		if (objects[i].marks == file)
			return i;
	return SIZE_MAX;
}

static inline size_t place_of_block(const struct object *objects, size_t count, size_t block)
{
	for (size_t i = 0; i < count; i++)
		if (block >= objects[i].block && block - objects[i].block < objects[i].blocks)
			return i;
	return SIZE_MAX;
}

#endif
