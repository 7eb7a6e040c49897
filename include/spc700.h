/* The SPC700 for C and C++: one step, a run, a wake, a count of marks, what differs between two memories, blanked images, one
 * instruction's text, SPC files and state records.
 *
 * The functions are those of the proved crate `exports`. `tools/build exports` writes them to target/staticlib/libexports.a, for
 * programs on x86-64 Linux:
 *
 *     cc -I include program.c target/staticlib/libexports.a
 *
 * Of other libraries they use C's memcpy, memmove and memset alone. They allocate nothing and keep nothing between two calls.
 *
 * What a call is lent. Every region is two arguments: a pointer to its first element, then how many elements it has. They are bytes; only
 * the counts of spc700_counts are 32-bit numbers, and the row of spc700_differences has 16-bit numbers.
 *   - The pointer is never NULL, also where the length is 0, it is aligned as its type asks, and as many elements as the length says
 *     belong to the caller.
 *   - No two regions of one call overlap.
 *   - Nothing else reads or writes them while the call runs.
 * These three are the caller's to keep: the proofs rest on them. Where a region has to have one length, another one is refused. The code
 * and the text of spc700_text and the row of spc700_differences may have any length, so what is told there is taken.
 *
 * What a call answers: one number, which spc700_refusal, spc700_stop and spc700_number below take apart.
 *   bits 0 to 31    the number: steps, bytes of text, stretches, or addresses; else 0
 *   bits 32 to 39   the stop of a step or a run, or whether a mark is touched; else 0
 *   bits 40 to 47   the refusal: 0, or why the call was refused
 *   bits 48 to 63   0
 * A refused call changes no byte that it was lent, and its stop and number are 0.
 *
 * In Rust, declare the functions in an `extern "C"` block: uint8_t * is *mut u8, const uint8_t * is *const u8, uint16_t * is *mut u16,
 * uint32_t * is *mut u32, size_t is usize.
 */
#ifndef SPC700_H
#define SPC700_H

#include <stddef.h>
#include <stdint.h>

#ifdef __cplusplus
extern "C" {
#endif

/* How many bytes registers, memory, each map, an SPC file and a state record have, how many numbers a count of marks gives, and how many
 * are room enough for the differences between any two memories. */
#define SPC700_REGISTERS 8
#define SPC700_MEMORY 65536
#define SPC700_MAP 8192
#define SPC700_FILE 66048
#define SPC700_RECORD 65543
#define SPC700_COUNTS 3
#define SPC700_DIFFERENCES 65536

/* Where in an SPC file the memory begins. */
#define SPC700_FILE_MEMORY 256

/* Where in a state record the memory begins: behind the first seven bytes of the registers. It has no place for the eighth. */
#define SPC700_RECORD_MEMORY 7

/* Where in the registers the state stands, and what it can be. */
#define SPC700_STATE 7
#define SPC700_AWAKE 0
#define SPC700_SLEPT 1   /* SLEEP was executed */
#define SPC700_STOPPED 2 /* STOP was executed */

/* Refusals. Where a call could be refused for several reasons, the one that stands first in its own list of refusals below is answered. */
#define SPC700_WRONG_MEMORY 1    /* memory is not 65,536 bytes */
#define SPC700_WRONG_MAP 2       /* a map is not 8,192 bytes */
#define SPC700_NO_ROOM 3         /* the text is longer than its buffer, or the stretches are more than the row has room for */
#define SPC700_CUT 4             /* fewer bytes than the instruction has */
#define SPC700_WRONG_REGISTERS 6 /* the registers are not 8 bytes, or the last of them is above 2 */
#define SPC700_WRONG_COUNTS 6    /* the row for a count is not 3 numbers */
#define SPC700_WRONG_RECORD 6    /* the state record is not 65,543 bytes */
#define SPC700_WRONG_FILE 7      /* the file is not 66,048 bytes */
#define SPC700_NO_SPC_FILE 8     /* the file's first 33 bytes are not those of an SPC file */
#define SPC700_NO_EDITION 9      /* there is no edition of this number */
#define SPC700_NOT_DEFAULT 10    /* a byte of the file that a state record has no place for is not its default */
#define SPC700_NOT_AWAKE 12      /* registers that are to go into a file are not awake */

/* Why a run stopped: it is the state that the registers are in afterwards. A step has the same stops. */
#define SPC700_STOP_BUDGET 0 /* they are awake: as many steps as the budget allows were taken */
#define SPC700_STOP_SLEEP 1  /* SLEEP was executed, as the last step of this call or in an earlier one */
#define SPC700_STOP_STOP 2   /* STOP was executed, likewise */

/* The editions of the pointer rule. They differ in one thing: where the pointer of [d]+Y and of [d+X] has its second byte if its first
 * one is the last byte of a page. A run that is to be repeated has to be given the same edition. */
#define SPC700_EDITION_CRATE 1 /* as the Rust crate spc700 does: at the next address, so behind 00FF comes 0100 */
#define SPC700_EDITION_PART 2  /* as the part does: at the first address of the same page, so behind 00FF comes 0000, behind 01FF 0100 */

/* Takes one step if the registers are awake; else it takes none, and nothing changes.
 *
 * registers   A X Y SP PC-low PC-high PSW and the state, one byte each; PSW is N V P B H I Z C from bit 7 to bit 0. The state is 0, 1 or 2:
 *             awake, slept or stopped. Begin with 0. The step leaves them as they are after it: SLEEP sets the state to 1, STOP to 2, and
 *             no other instruction changes it.
 * edition     1 or 2, of the pointer rule.
 * memory      the byte of each address. The step stores in it.
 * reads       a map: address k is bit k mod 8 of byte k div 8. The step marks each address that it reads while `writes` lacks it.
 * writes      a map, too. The step marks each address that it stores to. No call clears a mark: start with maps of zeros.
 *
 * Answers the stop, and as the number the steps taken: 1, or 0 where the registers were not awake. SLEEP and STOP count as steps. No later
 * call goes on behind them until spc700_wake was called: that the next one goes on behind SLEEP, as it did once, is withdrawn.
 * Refusals: 6, 9, 1, 2. */
uint64_t spc700_step(
    uint8_t *registers, size_t registers_length,
    uint8_t edition,
    uint8_t *memory, size_t memory_length,
    uint8_t *reads, size_t reads_length,
    uint8_t *writes, size_t writes_length);

/* Takes steps until `budget` of them are taken (stop 0), SLEEP was executed (stop 1) or STOP was executed (stop 2), whichever comes
 * first; SLEEP or STOP as the last step of the budget is stop 1 or 2. Regions and edition are those of spc700_step.
 *
 * Answers the stop, and the steps taken as the number. With budget 0 nothing changes. With registers that are not awake nothing changes
 * either, whatever the budget: their state is the stop, and the number is 0. So a call that is made again after stop 1 or 2 answers that
 * stop and 0 steps, and a run that is cut into parts, each from what the one before it left, is the run in one with the steps of all.
 *
 * A call takes some 132 KB of stack, whatever the budget: 128 KB are a row of 65,536 cells of 16 bits, on which a run with a budget of 12,000
 * or more is made. Such a run lays memory and maps out in the row before its first step and puts them back behind its last one, which costs
 * about as much as 8,000 to 11,000 steps made the other way, also where SLEEP or STOP ends it early; a step then costs less than a third of
 * what it costs in shorter runs. So make long runs, and give a run that you expect to be short a small budget. The answer is the same.
 * Refusals: 6, 9, 1, 2. */
uint64_t spc700_run(
    uint8_t *registers, size_t registers_length,
    uint8_t edition,
    uint32_t budget,
    uint8_t *memory, size_t memory_length,
    uint8_t *reads, size_t reads_length,
    uint8_t *writes, size_t writes_length);

/* Wakes: sets the state of the registers to 0, awake, whichever it was, and changes no other byte. A step or a run then goes on at PC,
 * which SLEEP and STOP leave behind themselves. What would wake the part comes from outside and is not built here: whoever calls this
 * decides that it came.
 *
 * registers   as spc700_step takes them.
 *
 * Answers 0: stop and number are 0, too.
 * Refusals: 6. */
uint64_t spc700_wake(uint8_t *registers, size_t registers_length);

/* Counts the marks of both maps: every marked address once, by the way in which it is marked.
 *
 * reads, writes   the maps of steps and runs.
 * counts          three numbers, which the call writes: how many addresses are read only (marked in `reads` alone), how many are stored
 *                 only (marked in `writes` alone), how many are both. Their length is 3, not 12: it counts numbers.
 *
 * So the first and the third together are the marks of `reads`, the second and the third those of `writes`; no such sum passes 65,536.
 * An address that a step stored to before any step read it is stored only: a later read of it leaves no mark.
 *
 * Answers 0: stop and number are 0, too. Changes the three numbers alone.
 * Refusals: 6, 2. */
uint64_t spc700_counts(
    const uint8_t *reads, size_t reads_length,
    const uint8_t *writes, size_t writes_length,
    uint32_t *counts, size_t counts_length);

/* Compares two memories address by address, and writes first and last address of every stretch at which they differ, in ascending order.
 * Each stretch is as long as possible: at least one address at which they are equal stands between two of them.
 *
 * first, second   65,536 bytes each, which stay as they are.
 * has_map         0: there is no map. 1 to 255: there is one.
 * map             a map, as spc700_step keeps them. Where has_map is 0 it is not looked at: lend any address that is not NULL, with the
 *                 length 0.
 * row             16-bit numbers, which the call writes: first and last address of the first stretch, then those of the second, and so on.
 *                 Those behind the last stretch stay as they are. Its length counts numbers, not bytes: `sizeof row` is twice as much, is
 *                 not refused, and lets the call write behind the row. With 65,536 numbers (SPC700_DIFFERENCES) a row is never too short,
 *                 as there are at most 32,768 stretches.
 *
 * Answers how many stretches there are as the number, 0 where the memories are equal. The stop is 1 where there is a map and an address of
 * some stretch is marked in it, else 0.
 *
 * What refusal 0 and stop 0 tell where there is a map: if the map is the `reads` that a run on `first` left, from maps of zeros, then a run
 * on `second` from maps of zeros, with the same registers, edition and budget, gives the same registers, steps, stop and maps, and equal
 * bytes at every address that is marked in `writes`; every other address keeps its own memory's byte. `first` and `second` are the memories
 * as they were before the runs. It is about what the processor reads: samples that the sound chip fetches by itself leave no mark.
 * Refusals: 1, 2, 3. */
uint64_t spc700_differences(
    const uint8_t *first, size_t first_length,
    const uint8_t *second, size_t second_length,
    uint8_t has_map,
    const uint8_t *map, size_t map_length,
    uint16_t *row, size_t row_length);

/* Blanks a memory: puts one byte at every address that a map does not mark.
 *
 * memory   65,536 bytes, which the call changes in place: only at unmarked addresses. It may be the memory of an SPC file, at file + 256
 *          (SPC700_FILE_MEMORY), or of a state record, at record + 7 (SPC700_RECORD_MEMORY).
 * map      a map, as spc700_step keeps them. It stays as it is.
 * byte     0 to 255.
 *
 * The number that it answers is how many addresses the map does not mark. Each of them was given the byte, also where it had it before. A
 * map without marks, which a refused run leaves, blanks everything.
 *
 * What it is for. Keep a copy of the registers and of the image, since a run changes both. Run from maps of zeros, look at the refusal, and
 * blank the copy of the image by the `reads` that the run left. Then a run on the blanked copy from maps of zeros, with the registers that
 * were kept and the same edition and budget, gives the same registers, steps, stop and maps, and equal bytes at every address that is
 * marked in `writes`; every other address keeps its own memory's byte. So it is with every map that has at least these marks: mark what
 * else is to stay, and for an image that serves several runs put their maps together, each byte of the one | that of the other. Nothing is
 * left in the memory of what stood at unmarked addresses: any two images that are equal at the marked ones become the same.
 *
 * What it does not cover. Samples that the sound chip fetches by itself leave no mark. A run with a larger budget, with other registers
 * (another tune) or in the other edition may read more than the map marks. Timers, ports and sound chip at 00F0 to 00FF and the boot ROM
 * at FFC0 to FFFF are plain memory here, so a player that has them may go another way, and read more. And of an SPC file it blanks the
 * memory alone: titles, and whatever else stands before and behind it, stay.
 * Refusals: 1, 2. */
uint64_t spc700_blank(
    uint8_t *memory, size_t memory_length,
    const uint8_t *map, size_t map_length,
    uint8_t byte);

/* Writes the text of one instruction, as `MOV A, #$7F`, into a buffer; no newline and no zero byte follow it.
 *
 * code   the instruction's opcode and the bytes behind it. Bytes past the instruction are ignored.
 * text   the buffer. The bytes behind the text stay as they are. 80 bytes are room enough for every instruction.
 *
 * Answers the text's length as the number.
 * Refusals: 4, 3. */
uint64_t spc700_text(
    const uint8_t *code, size_t code_length,
    uint8_t *text, size_t text_length);

/* Reads the registers out of an SPC file, of which no byte changes.
 *
 * file        66,048 bytes. The first 33 are `SNES-SPC700 Sound File Data v0.30`.
 * registers   8 bytes, which the call writes, as spc700_step takes them; what they held does not matter, so none of it is refused. A file
 *             has no place for the state: they are awake.
 *
 * The memory needs no call: where this one is not refused, it is the 65,536 bytes at file + 256 (SPC700_FILE_MEMORY). Files often go on
 * behind byte 66,047, with tags. Such a file is refused with 7 where all of it is lent: lend the first 66,048 bytes.
 *
 * Answers 0: stop and number are 0, too.
 * Refusals: 6, 7, 8. */
uint64_t spc700_file_read(
    const uint8_t *file, size_t file_length,
    uint8_t *registers, size_t registers_length);

/* Writes registers and memory into an SPC file. Its bytes 37 to 43 and 256 to 65,791 are written; all others stay as they are.
 *
 * file        as spc700_file_read takes it. The first 33 bytes must stand there already: the call makes no file out of other bytes.
 * registers   as spc700_step takes them, and awake: a file has no place for the state, and would give back slept or stopped ones as awake.
 *             They stay as they are.
 * memory      65,536 bytes, which stay as they are. It is no part of `file`, since no two regions overlap.
 *
 * Answers 0: stop and number are 0, too.
 * Refusals: 6, 7, 8, 1, 12. */
uint64_t spc700_file_write(
    uint8_t *file, size_t file_length,
    const uint8_t *registers, size_t registers_length,
    const uint8_t *memory, size_t memory_length);

/* Makes an SPC file of a state record. Every byte of the file is written, whatever it held.
 *
 * file     66,048 bytes: the signature, the registers at 37 to 43, in the file's own order, the memory at 256 to 65,791. The other bytes
 *          get their defaults: 26, 26, 27, 30 at 33 to 36, and zero at 44 to 255 and at 65,792 to 66,047. So it has zeros where files
 *          have titles and the sound chip's registers.
 * record   65,543 bytes, which stay as they are: the first seven bytes of the registers as spc700_step takes them, and the memory behind
 *          them.
 *
 * Answers 0: stop and number are 0, too.
 * Refusals: 6, 7. */
uint64_t spc700_file_from_record(
    uint8_t *file, size_t file_length,
    const uint8_t *record, size_t record_length);

/* Makes a state record of an SPC file that holds nothing else: every byte which the record has no place for must have the default that
 * spc700_file_from_record gives it, and then that call makes the same file of the record again. A file with titles or with the sound
 * chip's registers is refused with 10, so that nothing is lost unseen: for its registers and memory there is spc700_file_read.
 *
 * record   65,543 bytes, all of which the call writes.
 * file     as spc700_file_read takes it. It stays as it is.
 *
 * Answers 0: stop and number are 0, too.
 * Refusals: 6, 7, 8, 10. */
uint64_t spc700_record_from_file(
    uint8_t *record, size_t record_length,
    const uint8_t *file, size_t file_length);

#ifdef __cplusplus
}
#endif

/* An answer's parts. */
static inline uint8_t spc700_refusal(uint64_t answer) { return (uint8_t)(answer >> 40); }
static inline uint8_t spc700_stop(uint64_t answer) { return (uint8_t)(answer >> 32); }
static inline uint32_t spc700_number(uint64_t answer) { return (uint32_t)answer; }

#endif
