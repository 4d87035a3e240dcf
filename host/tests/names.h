/*
 * The prototypes of ts11.h, with the parameters' names: each name is made to give its parameter a type of its own, so
 * that a declaration with two names exchanged has another type and does not compile. The library's order is that here.
 */
#ifndef NAMES_H
#define NAMES_H

/* What ts11.h includes is included before its words mean something else. */
#include <stdbool.h>
#include <stddef.h>
#include <stdint.h>

#define ts11_state named_state
#define ts11_state_number named_state_number
#define ts11_mount named_mount
#define ts11_write_tsdb named_write_tsdb
#define ts11_write_tssr named_write_tssr
#define ts11_operate named_operate
#define ts11_read_register named_read_register
#define ts11_host_store named_host_store
#define ts11_advance named_advance
#define ts11_step_back named_step_back
#define ts11_find_file named_find_file
#define ts11_find_block named_find_block
#define ts11_place_block named_place_block
#define ts11_place_marks named_place_marks

enum name {
	MEMORY_ = 1,
	MEMORY_LENGTH_,
	REEL_,
	REEL_LENGTH_,
	JOURNAL_,
	JOURNAL_LENGTH_,
	RECORDED_END_,
	ONLINE_,
	WRITE_LOCK_,
	BLOCK_,
	FAULT_,
	WORD_,
	WHICH_SWITCH_,
	ON_,
	WHICH_REGISTER_,
	ADDRESS_,
	LENGTH_,
	STEPPED_,
	INTERRUPT_,
	TABLE_,
	TABLE_LENGTH_,
	FILE_,
	FOUND_,
	PLACE_
};

#define memory (*memory)[MEMORY_]
#define memory_length (*memory_length)[MEMORY_LENGTH_]
#define reel (*reel)[REEL_]
#define reel_length (*reel_length)[REEL_LENGTH_]
#define journal (*journal)[JOURNAL_]
#define journal_length (*journal_length)[JOURNAL_LENGTH_]
#define recorded_end (*recorded_end)[RECORDED_END_]
#define online (*online)[ONLINE_]
#define write_lock (*write_lock)[WRITE_LOCK_]
#define block (*block)[BLOCK_]
#define fault (*fault)[FAULT_]
#define word (*word)[WORD_]
#define which_switch (*which_switch)[WHICH_SWITCH_]
#define on (*on)[ON_]
#define which_register (*which_register)[WHICH_REGISTER_]
#define address (*address)[ADDRESS_]
#define length (*length)[LENGTH_]
#define stepped (*stepped)[STEPPED_]
#define interrupt (*interrupt)[INTERRUPT_]
#define table (*table)[TABLE_]
#define table_length (*table_length)[TABLE_LENGTH_]
#define file (*file)[FILE_]
#define found (*found)[FOUND_]
#define place (*place)[PLACE_]

#include "ts11.h"

#undef memory
#undef memory_length
#undef reel
#undef reel_length
#undef journal
#undef journal_length
#undef recorded_end
#undef online
#undef write_lock
#undef block
#undef fault
#undef word
#undef which_switch
#undef on
#undef which_register
#undef address
#undef length
#undef stepped
#undef interrupt
#undef table
#undef table_length
#undef file
#undef found
#undef place

/* A type other than the header's is an error. `state`, and `bytes` of the host store, have their own types anyway. */
#define NAMED_MEMORY ts11_state *, uint8_t *(*)[MEMORY_], size_t(*)[MEMORY_LENGTH_]
#define NAMED_REEL uint8_t *(*)[REEL_], size_t(*)[REEL_LENGTH_]
#define NAMED_TABLE uint8_t *(*)[TABLE_], size_t(*)[TABLE_LENGTH_]
#define NAMED_JOURNAL uint8_t *(*)[JOURNAL_], size_t(*)[JOURNAL_LENGTH_]
#define NAMED_BUFFERS NAMED_MEMORY, NAMED_REEL, const NAMED_TABLE, NAMED_JOURNAL

size_t ts11_mount(ts11_state *, size_t (*)[MEMORY_LENGTH_], const NAMED_REEL, NAMED_TABLE, size_t (*)[JOURNAL_LENGTH_],
                  size_t (*)[RECORDED_END_], bool (*)[ONLINE_], bool (*)[WRITE_LOCK_], size_t *(*)[BLOCK_],
                  uint8_t *(*)[FAULT_]);
size_t ts11_write_tsdb(NAMED_BUFFERS, uint16_t (*)[WORD_]);
size_t ts11_write_tssr(NAMED_BUFFERS, uint16_t (*)[WORD_]);
size_t ts11_operate(NAMED_BUFFERS, bool (*)[WHICH_SWITCH_], bool (*)[ON_]);
size_t ts11_read_register(const ts11_state *, bool (*)[WHICH_REGISTER_], uint16_t *(*)[WORD_]);
size_t ts11_host_store(NAMED_MEMORY, const NAMED_REEL, const NAMED_TABLE, NAMED_JOURNAL, size_t (*)[ADDRESS_],
                       const uint8_t *, size_t (*)[LENGTH_]);
size_t ts11_advance(NAMED_MEMORY, NAMED_REEL, NAMED_TABLE, NAMED_JOURNAL, bool *(*)[STEPPED_], bool *(*)[INTERRUPT_],
                    size_t *(*)[BLOCK_], uint8_t *(*)[FAULT_]);
size_t ts11_step_back(NAMED_MEMORY, NAMED_REEL, NAMED_TABLE, const NAMED_JOURNAL);
size_t ts11_find_file(const ts11_state *, const NAMED_TABLE, size_t (*)[FILE_], bool *(*)[FOUND_], size_t *(*)[PLACE_]);
size_t ts11_find_block(const ts11_state *, const NAMED_TABLE, size_t (*)[BLOCK_], bool *(*)[FOUND_],
                       size_t *(*)[PLACE_]);
uint32_t ts11_state_number(const ts11_state *, size_t);
uint32_t ts11_place_block(const uint8_t *, size_t);
uint32_t ts11_place_marks(const uint8_t *, size_t);

#undef NAMED_MEMORY
#undef NAMED_REEL
#undef NAMED_TABLE
#undef NAMED_JOURNAL
#undef NAMED_BUFFERS
#undef ts11_state
#undef ts11_state_number
#undef ts11_mount
#undef ts11_write_tsdb
#undef ts11_write_tssr
#undef ts11_operate
#undef ts11_read_register
#undef ts11_host_store
#undef ts11_advance
#undef ts11_step_back
#undef ts11_find_file
#undef ts11_find_block
#undef ts11_place_block
#undef ts11_place_marks

/* The header once more, as it stands, by whoever includes it next. */
#undef TS11_H

#endif
