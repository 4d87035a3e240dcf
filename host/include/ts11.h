/*
 * ts11.h: the command side of one TS11-compatible tape unit, its reel image with a table of the objects on it, and a
 * journal that steps back.
 *
 * Link with libts11.a (x86-64 Linux; of the C library it needs memset and nothing else). Every function of the
 * archive is proved to meet its contract on all inputs, to return, and to touch nothing but the buffers named in
 * its call.
 *
 * THE HOST OWNS EVERYTHING. The library has no memory of its own. A host keeps, for one unit:
 *   state    one ts11_state, 128 bytes
 *   memory   the machine's memory: an even number of bytes, 2 to 262,144; words are little-endian
 *   reel     the reel image: 1 to 65,536 blocks of 512 bytes
 *   table    a place of 8 bytes for each object on the reel; any length will do, but see TS11_SMALL_TABLE
 *   journal  room for the undo entries: 0 to 16,777,216 bytes; one entry takes at most 67,742
 * and hands them to every call, each buffer as a pointer and a length in bytes. The buffers of one call, the state
 * and the out-parameters must not overlap, no pointer may be null (with length 0 any other address will do), and
 * each must have the bytes that its length says. Two calls may run at once if they share no buffer that either
 * writes.
 *
 * A CALL NEEDS LITTLE STACK: at most TS11_STACK_BYTES, from its return address down, whatever the record, the buffers
 * and the bytes in them. There is no working area: data goes from memory straight into the reel's blocks, and from
 * them straight into memory. What the host's memset takes of the stack is not counted.
 *
 * A CALL ANSWERS 0 OR A REFUSAL'S NUMBER. Refused, it has changed no byte of state, memory, reel, table or journal.
 * Where several refusals hold, the least number is given; but 11 comes before 9.
 *
 * A STEP IS UNDONE EXACTLY. ts11_write_tsdb, ts11_write_tssr, ts11_operate, ts11_host_store and ts11_advance are
 * steps: answered 0, each adds one entry to the journal (an idle advance adds none). ts11_step_back removes the
 * newest and brings back state, memory, reel and table as they were before it, byte for byte, if memory, reel, table
 * and state were changed by nothing but calls in between.
 *
 * THE TABLE IS THE REEL'S. Lend the same table to the mount and to every call after it, and let nothing else write to
 * it. After every call that is answered 0 its used part then has a place for each object below the recorded end, in
 * their order, as if worked out afresh; how many, the state says. So file 500 is found at once: see ts11_find_file.
 * What stands past the used part is promised to nobody.
 *
 * HOW A DRIVER STARTS. After a mount or a TSSR write the unit has no message buffer (NBA) and wants its volume
 * check (VCK) cleared. The first command is TS11_WRITE_CHARACTERISTICS | TS11_ACK | TS11_CVC with count 8; until
 * one is accepted, every other command is rejected without a message. A command is: its packet in memory, the
 * packet's address into TSDB by ts11_write_tsdb, then ts11_advance. Put TS11_ACK on every command: each message
 * hands the buffer back to the CPU, and a command without ACK is then dropped.
 */
#ifndef TS11_H
#define TS11_H

#include <stdbool.h>
#include <stddef.h>
#include <stdint.h>

#ifdef __cplusplus
extern "C" {
#endif

/* ---- limits -------------------------------------------------------------------------------------------------- */

#define TS11_MEMORY_MAX 262144     /* bytes of memory; the length is even and not 0 */
#define TS11_BLOCK 512             /* bytes of a block of the reel */
#define TS11_BLOCK_DATA 504        /* data bytes of a block; a record of n bytes takes n / 504 blocks, rounded up */
#define TS11_REEL_BLOCKS_MAX 65536 /* blocks of a reel; at least 1 */
#define TS11_JOURNAL_MAX 16777216  /* bytes of journal; 0 is allowed, and then no step is */
#define TS11_RECORD_MAX 65535      /* bytes of a record, which takes at most 131 blocks; at least 1 */
#define TS11_HOST_STORE_MAX 65535  /* bytes of one host store; 0 is allowed */
#define TS11_EOT_MARGIN 160        /* the EOT marker is this many blocks before the reel's end, or at block 0 */
#define TS11_PLACE_BYTES 8         /* bytes of a place of the table; an object that is written keeps one in its entry */
#define TS11_ENTRY_HEAD 128        /* bytes of a journal entry beside the memory, reel and table bytes that it keeps */
#define TS11_PACKET_BYTES 8        /* bytes of a command packet: one of them outside memory is NXM */
#define TS11_MESSAGE_BYTES 14      /* bytes of a message, and the least message buffer */
#define TS11_STACK_BYTES 2048      /* bytes of stack that any call needs at most, from its return address down */

/* ---- answers ------------------------------------------------------------------------------------------------- */

/* 0, or the number of a refusal. */
typedef size_t ts11_answer;

/*
 * 1: a number of the state is out of range or out of step with another (position above the end, used journal above the
 *    journal, message buffer not allowed), or the bytes are no state's at all.
 * 7: the number of the first block at fault goes to *block, and what is wrong with it, one of the faults below, to
 *    *fault. A command goes on waiting: mend the reel, and advance again.
 * 11: the table has fewer places (its length / 8, rounded down, and no more than 2^32 - 1) than there are objects, in
 *     the state handed in or in the one that the call would leave. Every mount, step and step back asks it, after 8 and
 *     before 9, and the look-ups do; an idle advance does not. As many places as the reel has blocks are always enough.
 */
#define TS11_DONE 0
#define TS11_BAD_STATE 1    /* the state: see above */
#define TS11_BAD_MEMORY 2   /* memory length not allowed, or not that of the mount */
#define TS11_BAD_REEL 3     /* reel length not allowed, or not that of the mount; at a mount, end above capacity */
#define TS11_BAD_JOURNAL 4  /* journal too long, or not of the mount's length */
#define TS11_BAD_STORE 5    /* host store too long, or not inside memory */
#define TS11_NO_ENTRY 6     /* step back with no entry */
#define TS11_BAD_BLOCK 7    /* a block that must be read is damaged or out of place: see above */
#define TS11_BAD_ENTRY 8    /* the newest entry's numbers don't fit, or it keeps a state that 1 refuses */
#define TS11_JOURNAL_FULL 9 /* free journal less than the step's entry */
#define TS11_SMALL_TABLE 11 /* fewer places in the table than objects: see above */

/*
 * The faults, as letters of ASCII. The block is looked at by itself, in the order below, and the first thing wrong with
 * it is told: it is damaged, and another copy of the reel is wanted. A sound block has the fault index where it is out
 * of place: it is not the piece that is due, or its record is cut off, by the recorded end or by block 0. What is wrong
 * then may be this block, one beside it, or the recorded end.
 */
#define TS11_FAULT_KIND 'K'    /* the kind is none of the three */
#define TS11_FAULT_LENGTH 'N'  /* the record's length is 0; in a mark or gap it is not 0 */
#define TS11_FAULT_INDEX 'I'   /* the record has no such piece; in a mark or gap the index is not 0; or out of place */
#define TS11_FAULT_PADDING 'P' /* a data byte that is not used is not 0 */
#define TS11_FAULT_CHECK 'C'   /* the check word is not the sum of the words before it, modulo 65,535 */

/* ---- the state ----------------------------------------------------------------------------------------------- */

/*
 * The unit's state, as 32 numbers of four bytes, low byte first, at the offsets below. A host may copy it, compare
 * it, store it and read it: two states are the same exactly when their bytes are. Bytes that no call wrote are
 * legal too: they mean the state that the numbers say, or get TS11_BAD_STATE (a flag other than 0 and 1, one of the
 * unused numbers not 0, a number out of range). Alignment does not matter.
 */
#define TS11_STATE_BYTES 128

typedef struct ts11_state {
	uint8_t bytes[TS11_STATE_BYTES];
} ts11_state;

#define TS11_AT_POSITION 0         /* the tape's position, in blocks */
#define TS11_AT_END 4              /* the recorded end, in blocks: the reel's objects lie below it */
#define TS11_AT_POINTER 8          /* the command pointer last accepted, 18 bits */
#define TS11_AT_CLASS 12           /* the termination class, 0 to 6 */
#define TS11_AT_RMR 16             /* flag: register modification refused */
#define TS11_AT_NXM 20             /* flag: nonexistent memory */
#define TS11_AT_NBA 24             /* flag: need buffer address; clear, the message buffer below is in force */
#define TS11_AT_SSR 28             /* flag: subsystem ready; clear, a command waits */
#define TS11_AT_ONLINE 32          /* flag: the on-line switch */
#define TS11_AT_LOCKED 36          /* flag: the write lock */
#define TS11_AT_VCK 40             /* flag: volume check */
#define TS11_AT_UNIT_OWNS 44       /* flag: the unit owns the message buffer */
#define TS11_AT_PENDING 48         /* flag: an attention is pending */
#define TS11_AT_RELEASE_IE 52      /* flag: the IE of the last release, which an idle attention uses */
#define TS11_AT_MESSAGE 56         /* the message buffer's address */
#define TS11_AT_MESSAGE_LENGTH 60  /* .. and its length in bytes */
#define TS11_AT_EAI 64             /* flag: characteristic EAI, attention interrupts */
#define TS11_AT_ESS 68             /* flag: characteristic ESS, stop at two marks */
#define TS11_AT_ENB 72             /* flag: characteristic ENB, stop at a mark met first from block 0 */
#define TS11_AT_MEMORY 76          /* the mount's memory length, in bytes */
#define TS11_AT_BLOCKS 80          /* the mount's reel length, in blocks */
#define TS11_AT_USED 84            /* the used journal, in bytes */
#define TS11_AT_JOURNAL 88         /* the mount's journal length, in bytes */
#define TS11_AT_OBJECTS 112        /* the objects on the reel: so many places of the table are used */
#define TS11_STATE_UNUSED 92       /* from here on all bytes are 0, but for the four at TS11_AT_OBJECTS */

/* The number at one of these offsets. */
static inline uint32_t ts11_state_number(const ts11_state *state, size_t at)
{
	const uint8_t *b = state->bytes + at;
	return (uint32_t)b[0] | (uint32_t)b[1] << 8 | (uint32_t)b[2] << 16 | (uint32_t)b[3] << 24;
}

/* ---- the table ----------------------------------------------------------------------------------------------- */

/*
 * An object is a record, a mark, or one gap block; its place has two numbers, which the functions below read. A host may
 * copy, compare and store the table. Bytes that no call wrote are legal here too: calls and look-ups take them as they
 * are, and touch no byte outside the table.
 */

/* Of a table's nth place, from 0 on, the first block of its object. The place must lie in the table. */
static inline uint32_t ts11_place_block(const uint8_t *places, size_t nth)
{
	const uint8_t *b = places + nth * TS11_PLACE_BYTES;
	return (uint32_t)b[0] | (uint32_t)b[1] << 8 | (uint32_t)b[2] << 16 | (uint32_t)b[3] << 24;
}

/* .. and how many marks stand before that object on the reel, itself not counted. */
static inline uint32_t ts11_place_marks(const uint8_t *places, size_t nth)
{
	const uint8_t *b = places + nth * TS11_PLACE_BYTES;
	return (uint32_t)b[4] | (uint32_t)b[5] << 8 | (uint32_t)b[6] << 16 | (uint32_t)b[7] << 24;
}

/* ---- the calls ----------------------------------------------------------------------------------------------- */

/*
 * Mounts a reel: reads every block below the recorded end, fills the table, sets position 0, the two switches, the
 * lengths, and all else as ts11_write_tssr does, and empties the journal. The state that it replaces is not looked at.
 * memory_length and journal_length are those of the buffers that later calls will be handed. Refusals 2, 3, 4, 7 with
 * *block and *fault, else both are 0, and then 11. Not a step.
 *
 * What stands before a block at fault is not lost: with *block as the recorded end the same reel's mount is answered 0,
 * or 7 with the first block of the record that this end cuts off; with that block as the recorded end, 0.
 */
ts11_answer ts11_mount(ts11_state *state, size_t memory_length, const uint8_t *reel, size_t reel_length, uint8_t *table,
                       size_t table_length, size_t journal_length, size_t recorded_end, bool online, bool write_lock,
                       size_t *block, uint8_t *fault);

/*
 * The CPU writes a word to TSDB: the address of a command packet, see TS11_TSDB. It clears RMR, NXM, class and SSR,
 * and the command waits for ts11_advance. With SSR clear it sets RMR and nothing else: the command that waits is
 * not touched. Refusals 1 to 4, 11, 9. A step.
 */
ts11_answer ts11_write_tsdb(ts11_state *state, uint8_t *memory, size_t memory_length, uint8_t *reel, size_t reel_length,
                            const uint8_t *table, size_t table_length, uint8_t *journal, size_t journal_length,
                            uint16_t word);

/*
 * The CPU writes a word to TSSR: any value initializes the unit. The command that waits, a pending attention, the
 * message buffer and the characteristics are dropped; NBA, SSR and VCK are set, RMR, NXM, class and the pointer
 * cleared; both buffers are the CPU's; on line the tape goes to position 0. Switches and recorded end stay.
 * Refusals 1 to 4, 11, 9. A step.
 */
ts11_answer ts11_write_tssr(ts11_state *state, uint8_t *memory, size_t memory_length, uint8_t *reel, size_t reel_length,
                            const uint8_t *table, size_t table_length, uint8_t *journal, size_t journal_length,
                            uint16_t word);

/*
 * The operator sets a switch. Going on line sets VCK; going on or off line makes an attention pending if EAI is
 * set. An act that finds its switch already so changes nothing, and is a step all the same. Refusals 1 to 4, 11, 9.
 */
#define TS11_SWITCH_ONLINE false
#define TS11_SWITCH_WRITE_LOCK true
ts11_answer ts11_operate(ts11_state *state, uint8_t *memory, size_t memory_length, uint8_t *reel, size_t reel_length,
                         const uint8_t *table, size_t table_length, uint8_t *journal, size_t journal_length,
                         bool which_switch, bool on);

/* The CPU reads a register into *word. Refusal 1, with *word 0. Not a step, and the state is not changed. */
#define TS11_REGISTER_TSBA false
#define TS11_REGISTER_TSSR true
ts11_answer ts11_read_register(const ts11_state *state, bool which_register, uint16_t *word);

/* The host stores bytes in memory at an address; the store is undone with the rest. Refusals 1 to 5, 11, 9. A step. */
ts11_answer ts11_host_store(ts11_state *state, uint8_t *memory, size_t memory_length, const uint8_t *reel,
                            size_t reel_length, const uint8_t *table, size_t table_length, uint8_t *journal,
                            size_t journal_length, size_t address, const uint8_t *bytes, size_t length);

/*
 * The unit goes on by one move: it carries out the command that waits, whole. Or, where an attention is pending and
 * the unit owns the message buffer (since a release, or by the ACK of the command that waits), it sends that
 * instead, and a command that waits is lost. *stepped is false if there was nothing to do (idle; answer 0, nothing
 * changed), *interrupt true if the unit interrupts the CPU. Refusals 1 to 4, 7 with *block and *fault, 11, 9; refused,
 * *stepped and *interrupt are false. *block and *fault are 0 unless the answer is 7. A step, if *stepped.
 *
 * A write cuts the table off where the first block is no longer below its own, and fills a place there for what it has
 * written, a retry two: one for its gap. The entry has eight bytes for each.
 */
ts11_answer ts11_advance(ts11_state *state, uint8_t *memory, size_t memory_length, uint8_t *reel, size_t reel_length,
                         uint8_t *table, size_t table_length, uint8_t *journal, size_t journal_length, bool *stepped,
                         bool *interrupt, size_t *block, uint8_t *fault);

/* Undoes the newest step that still stands. Its cost is that of the bytes it brings back. Refusals 1 to 4, 6, 8, 11. */
ts11_answer ts11_step_back(ts11_state *state, uint8_t *memory, size_t memory_length, uint8_t *reel, size_t reel_length,
                           uint8_t *table, size_t table_length, const uint8_t *journal, size_t journal_length);

/*
 * Looks up where a file begins: file 0 with the first object, file n with the object behind the n-th mark. *found is
 * whether an object stands there, *place its place in the table, or else 0. The cost is that of the logarithm of the
 * objects. Refusals 1 and 11, with nothing found. Not a step, and nothing is changed.
 */
ts11_answer ts11_find_file(const ts11_state *state, const uint8_t *table, size_t table_length, size_t file, bool *found,
                           size_t *place);

/* The same for the object that holds a block; one at or past the recorded end is in none. */
ts11_answer ts11_find_block(const ts11_state *state, const uint8_t *table, size_t table_length, size_t block,
                            bool *found, size_t *place);

/* ---- registers ----------------------------------------------------------------------------------------------- */

/*
 * The TSDB word that names a command packet at an address: bits 15:2 in place, A17 and A16 in bits 1:0, so the
 * address is a multiple of 4 (it is evaluated twice). TSBA reads its low 16 bits back.
 */
#define TS11_TSDB(address) ((uint16_t)(((address) & 0xFFFC) | ((address) >> 16 & 3)))

/* TSSR, as it reads. RMR and NXM stay until the next accepted TSDB write. */
#define TS11_TSSR_SC 0x8000    /* special condition: the class is not 0, or RMR or NXM is set */
#define TS11_TSSR_RMR 0x1000   /* register modification refused: TSDB was written while SSR was clear */
#define TS11_TSSR_NXM 0x0800   /* nonexistent memory: packet or data outside memory */
#define TS11_TSSR_NBA 0x0400   /* need buffer address: no message buffer yet, or the last one named was not allowed */
#define TS11_TSSR_A17 0x0200   /* bit 17 of the command pointer */
#define TS11_TSSR_A16 0x0100   /* bit 16 of the command pointer */
#define TS11_TSSR_SSR 0x0080   /* subsystem ready: no command waits */
#define TS11_TSSR_OFL 0x0040   /* off line */
#define TS11_TSSR_CLASS 0x000E /* the termination class, in bits 3:1 */

/*
 * Termination classes.
 * 0: the command ended as asked; or it was dropped for want of TS11_ACK.
 * 1: the on-line switch was turned, with EAI; a command that waited is lost.
 * 2: a Read or Space met a mark; a record was shorter or longer than the count; reverse ran into BOT; logical end of
 *    tape; a write or format ended at or past EOT, which on a reel of 160 blocks or fewer is anywhere.
 * 3: nothing was done, but that CVC has cleared VCK: see NEF, ILC and ILA; or NBA, and then there is no message.
 * 5: memory that is not there. Where the packet's first word is not, there is no message and no interrupt.
 * 6: forward at the recorded end.
 */
#define TS11_CLASS(tssr) ((tssr) >> 1 & 7)
#define TS11_CLASS_NORMAL 0      /* normal termination */
#define TS11_CLASS_ATTENTION 1   /* attention */
#define TS11_CLASS_STATUS 2      /* tape status alert */
#define TS11_CLASS_REJECT 3      /* function reject */
#define TS11_CLASS_RECOVERABLE 4 /* recoverable error, tape moved: never given by this unit */
#define TS11_CLASS_UNMOVED 5     /* recoverable error, tape not moved */
#define TS11_CLASS_LOST 6        /* unrecoverable error, position lost */

/* ---- the command packet: four words at the address given by TSDB --------------------------------------------- */

/*
 * Word 0 is the header. Then for Read, Write and Write Characteristics: pointer low, pointer high (A17 and A16), byte
 * count; for Space and Skip: the count. A word that the command has no use for may hold anything, but all four are
 * fetched: where one of the eight bytes lies outside memory, any command that has got so far (known, not dropped, not lost
 * to an attention, and with a message buffer or giving one) ends with NXM, class 5, and is not carried out. Data that by the
 * whole count would end outside memory is NXM too.
 *
 * ACK: without it, and the message buffer the CPU's, the command is dropped: SSR set, class 0, no message, nothing done.
 * CVC: acts first, even if the command is then rejected. While VCK is set every tape command is rejected with NEF.
 * OPP: Reread Previous reads in reverse, then spaces forward; Reread Next reads forward, then spaces in reverse.
 * SWB: a data byte lies at its address with the lowest bit flipped, so an odd start or length reaches a byte outside.
 */
#define TS11_ACK 0x8000 /* acknowledge: gives the message buffer to the unit, which each message hands back */
#define TS11_CVC 0x4000 /* clear volume check */
#define TS11_OPP 0x2000 /* opposite: a reread does its read first */
#define TS11_SWB 0x1000 /* swap bytes */
#define TS11_IE 0x0080  /* interrupt enable: at the end, also of a dropped command; of a release, at the attention */
#define TS11_COMMAND(code, mode) ((uint16_t)((mode) << 8 | (code))) /* or the flags above to it */

/*
 * Read and Space pass over gaps and stop just after the record or mark. Write, mark and erase cut off what lay behind:
 * the recorded end is then just after the new object. A reread whose first stage meets a mark, BOT or the end ends there,
 * and so does a retry that meets BOT.
 */
#define TS11_READ_NEXT TS11_COMMAND(1, 0)             /* with count 0 too the record is passed */
#define TS11_READ_PREVIOUS TS11_COMMAND(1, 1)         /* in reverse: fills the buffer from its last place down */
#define TS11_REREAD_PREVIOUS TS11_COMMAND(1, 2)       /* space reverse, read forward */
#define TS11_REREAD_NEXT TS11_COMMAND(1, 3)           /* space forward, read reverse */
#define TS11_WRITE_CHARACTERISTICS TS11_COMMAND(4, 0) /* data: see the mode word */
#define TS11_WRITE TS11_COMMAND(5, 0)                 /* a record of 1 to 65,535 bytes */
#define TS11_WRITE_RETRY TS11_COMMAND(5, 2)           /* space reverse over a record or mark, a gap, the record */
#define TS11_SPACE_RECORDS TS11_COMMAND(8, 0)         /* a mark stops it, is passed and is not counted */
#define TS11_SPACE_RECORDS_REVERSE TS11_COMMAND(8, 1) /* the same in reverse */
#define TS11_SKIP_MARKS TS11_COMMAND(8, 2)            /* passes records, counts marks; see ESS and ENB */
#define TS11_SKIP_MARKS_REVERSE TS11_COMMAND(8, 3)    /* the same in reverse */
#define TS11_REWIND TS11_COMMAND(8, 4)                /* to position 0 */
#define TS11_WRITE_MARK TS11_COMMAND(9, 0)            /* a tape mark */
#define TS11_ERASE TS11_COMMAND(9, 1)                 /* a gap of one block */
#define TS11_WRITE_MARK_RETRY TS11_COMMAND(9, 2)      /* space reverse over a record or mark, a gap, the mark */
#define TS11_RELEASE TS11_COMMAND(10, 0)              /* no message: the unit keeps the buffer for an attention */
#define TS11_UNLOAD TS11_COMMAND(10, 1)               /* rewinds and goes off line; no attention */
#define TS11_CLEAN TS11_COMMAND(10, 2)                /* no action */
#define TS11_INITIALIZE TS11_COMMAND(11, 0)           /* no action */
#define TS11_GET_STATUS TS11_COMMAND(15, 0)           /* a message, and nothing else */

/*
 * The data of Write Characteristics, at an even address: the message buffer's address low and high, its length, and the
 * mode word, which is 0 if the count is 6 or 7. The address is even and the length at least 14, inside memory; if not,
 * NBA is set and the old values stay unused.
 */
#define TS11_ESS 0x0080 /* skipping marks stops at two marks with no record between them */
#define TS11_ENB 0x0040 /* .. and, with ESS, at a mark met first from block 0 */
#define TS11_EAI 0x0020 /* turning the on-line switch makes an attention pending */

/* ---- the message packet: seven words in the message buffer --------------------------------------------------- */

/*
 * The residual is what is left of the count: bytes for Read, records or marks for Space and Skip, 0 for all else. A
 * command rejected by ILA, by NXM of its data or by NEF leaves the whole count, one rejected before leaves 0.
 */
#define TS11_MESSAGE_HEADER 0   /* offset of the header: one of the TS11_END_.. words */
#define TS11_MESSAGE_LENGTH 2   /* the word 10 */
#define TS11_MESSAGE_RESIDUAL 4 /* what is left of the count */
#define TS11_MESSAGE_XST0 6     /* extended status 0 */
#define TS11_MESSAGE_XST1 8     /* 0 */
#define TS11_MESSAGE_XST2 10    /* 0 */
#define TS11_MESSAGE_XST3 12    /* extended status 3 */

#define TS11_END 0x8010           /* header: classes 0 and 2 */
#define TS11_END_ILLEGAL 0x8111   /* class 3 without NEF */
#define TS11_END_REJECTED 0x8211  /* class 3 with NEF */
#define TS11_END_FAILED 0x8012    /* classes 5 and 6 */
#define TS11_END_ATTENTION 0x0013 /* an attention */

/*
 * XST0: the high byte is what the command found, the low byte the unit's condition at the end.
 * RLS: a Read met a shorter record or a mark; a Space or Skip was stopped by a mark, BOT or LET with count left.
 * NEF: a tape command off line or with VCK set; a write or format under write lock; reverse from BOT; a written length
 *      of 0; no room left on the reel.
 * ILC: unknown code or mode, or header bit 5 or 6 set. ILA: pointer bits above A17, or odd in Write Characteristics.
 */
#define TS11_XST0_TMK 0x8000 /* tape mark: one was met or written */
#define TS11_XST0_RLS 0x4000 /* record length short */
#define TS11_XST0_LET 0x2000 /* logical end of tape: two marks with ESS, or a mark first from BOT with ENB */
#define TS11_XST0_RLL 0x1000 /* record length long: the record has more bytes than the count */
#define TS11_XST0_WLE 0x0800 /* write lock error, beside NEF */
#define TS11_XST0_NEF 0x0400 /* non-executable function */
#define TS11_XST0_ILC 0x0200 /* illegal command */
#define TS11_XST0_ILA 0x0100 /* illegal address */
#define TS11_XST0_MOT 0x0080 /* motion: the position is another than at the start, or blocks were written */
#define TS11_XST0_ONL 0x0040 /* on line */
#define TS11_XST0_IE 0x0020  /* interrupt enable */
#define TS11_XST0_VCK 0x0010 /* volume check */
#define TS11_XST0_PED 0x0008 /* phase encoded drive, always 1 */
#define TS11_XST0_WLK 0x0004 /* write locked */
#define TS11_XST0_BOT 0x0002 /* beginning of tape: position 0 */
#define TS11_XST0_EOT 0x0001 /* end of tape: position at or past the marker */

#define TS11_XST3_OPI 0x0040 /* operation incomplete: forward at the recorded end */
#define TS11_XST3_REV 0x0020 /* the last stage ran in reverse */
#define TS11_XST3_RIB 0x0001 /* reverse into BOT */

/* ---- the reel's blocks: 256 words ---------------------------------------------------------------------------- */

#define TS11_BLOCK_KIND 0     /* offset of the kind */
#define TS11_BLOCK_LENGTH 2   /* the record's length in bytes; 0 in a mark or gap */
#define TS11_BLOCK_INDEX 4    /* the piece's index from 0; 0 in a mark or gap */
#define TS11_BLOCK_BYTES 6    /* 504 data bytes; those not used are 0 */
#define TS11_BLOCK_CHECK 510  /* the sum of the 255 words before it, modulo 65,535 */
#define TS11_KIND_RECORD 1    /* a piece of a record */
#define TS11_KIND_MARK 2      /* a tape mark */
#define TS11_KIND_GAP 3       /* an erased gap */

#ifdef __cplusplus
}
#endif

#endif
