/* A second writing of the reel's blocks, apart from the library: words, check words, records, marks and gaps. */
#ifndef TAPE_H
#define TAPE_H

#include "ts11.h"
#include <string.h>

static inline uint16_t word_at(const uint8_t *at)
{
	return (uint16_t)(at[0] | at[1] << 8);
}

static inline void put_word(uint8_t *at, unsigned word)
{
	at[0] = (uint8_t)word;
	at[1] = (uint8_t)(word >> 8);
}

/* The check word: the sum of the words before it, modulo 65,535. */
static inline uint16_t check_of(const uint8_t *block)
{
	uint32_t sum = 0;
	for (size_t at = 0; at < TS11_BLOCK_CHECK; at += 2)
		sum += word_at(block + at);
	return (uint16_t)(sum % 65535);
}

static inline void seal(uint8_t *block)
{
	put_word(block + TS11_BLOCK_CHECK, check_of(block));
}

/* One block: kind, the record's length, the piece's index, n data bytes; all else 0. */
static inline void lay_block(uint8_t *block, unsigned kind, size_t length, size_t index, const uint8_t *data, size_t n)
{
	memset(block, 0, TS11_BLOCK);
	put_word(block + TS11_BLOCK_KIND, kind);
	put_word(block + TS11_BLOCK_LENGTH, (unsigned)length);
	put_word(block + TS11_BLOCK_INDEX, (unsigned)index);
	if (n)
		memcpy(block + TS11_BLOCK_BYTES, data, n);
	seal(block);
}

static inline size_t pieces(size_t length)
{
	return (length + TS11_BLOCK_DATA - 1) / TS11_BLOCK_DATA;
}

/* Each lays an object at block `at` and gives the block beyond it. */
static inline size_t lay_record(uint8_t *reel, size_t at, const uint8_t *data, size_t length)
{
	for (size_t index = 0; index < pieces(length); index++) {
		size_t from = index * TS11_BLOCK_DATA;
		size_t n = length - from < TS11_BLOCK_DATA ? length - from : TS11_BLOCK_DATA;
		lay_block(reel + (at + index) * TS11_BLOCK, TS11_KIND_RECORD, length, index, data + from, n);
	}
	return at + pieces(length);
}

static inline size_t lay_mark(uint8_t *reel, size_t at)
{
	lay_block(reel + at * TS11_BLOCK, TS11_KIND_MARK, 0, 0, NULL, 0);
	return at + 1;
}

static inline size_t lay_gap(uint8_t *reel, size_t at)
{
	lay_block(reel + at * TS11_BLOCK, TS11_KIND_GAP, 0, 0, NULL, 0);
	return at + 1;
}

/* Bytes that differ from place to place, the same for the same seed. */
static inline void make_bytes(uint8_t *bytes, size_t length, unsigned seed)
{
	for (size_t i = 0; i < length; i++)
		bytes[i] = (uint8_t)(seed + i * 7 + (i >> 8) * 13);
}

#endif
