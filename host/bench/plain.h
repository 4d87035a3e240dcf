/*
 * plain.h: the calls of ts11.h under other names, carried out by ordinary C of which nothing is proved: plain.c.
 *
 * It is what the library is measured against, and a second opinion that it is compared with. Types, constants, state
 * block and the meaning of each call are those of ts11.h; a journal entry has the same bytes too, so that either may
 * undo the steps of the other.
 */
#ifndef PLAIN_H
#define PLAIN_H

#include "ts11.h"

#ifdef __cplusplus
extern "C" {
#endif

ts11_answer plain_mount(ts11_state *state, size_t memory_length, const uint8_t *reel, size_t reel_length,
                        uint8_t *table, size_t table_length, size_t journal_length, size_t recorded_end, bool online,
                        bool write_lock, size_t *block, uint8_t *fault);

ts11_answer plain_write_tsdb(ts11_state *state, uint8_t *memory, size_t memory_length, uint8_t *reel,
                             size_t reel_length, const uint8_t *table, size_t table_length, uint8_t *journal,
                             size_t journal_length, uint16_t word);

ts11_answer plain_write_tssr(ts11_state *state, uint8_t *memory, size_t memory_length, uint8_t *reel,
                             size_t reel_length, const uint8_t *table, size_t table_length, uint8_t *journal,
                             size_t journal_length, uint16_t word);

ts11_answer plain_operate(ts11_state *state, uint8_t *memory, size_t memory_length, uint8_t *reel, size_t reel_length,
                          const uint8_t *table, size_t table_length, uint8_t *journal, size_t journal_length,
                          bool which_switch, bool on);

ts11_answer plain_read_register(const ts11_state *state, bool which_register, uint16_t *word);

ts11_answer plain_host_store(ts11_state *state, uint8_t *memory, size_t memory_length, const uint8_t *reel,
                             size_t reel_length, const uint8_t *table, size_t table_length, uint8_t *journal,
                             size_t journal_length, size_t address, const uint8_t *bytes, size_t length);

ts11_answer plain_advance(ts11_state *state, uint8_t *memory, size_t memory_length, uint8_t *reel, size_t reel_length,
                          uint8_t *table, size_t table_length, uint8_t *journal, size_t journal_length, bool *stepped,
                          bool *interrupt, size_t *block, uint8_t *fault);

ts11_answer plain_step_back(ts11_state *state, uint8_t *memory, size_t memory_length, uint8_t *reel, size_t reel_length,
                            uint8_t *table, size_t table_length, const uint8_t *journal, size_t journal_length);

ts11_answer plain_find_file(const ts11_state *state, const uint8_t *table, size_t table_length, size_t file,
                            bool *found, size_t *place);

ts11_answer plain_find_block(const ts11_state *state, const uint8_t *table, size_t table_length, size_t block,
                             bool *found, size_t *place);

#ifdef __cplusplus
}
#endif

#endif
