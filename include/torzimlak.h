/*
 * Torzimlak: a proved virtual machine for MINIMAL.
 *
 * Link with libhost.a, which `tools/build library` builds into target/staticlib, for x86-64. It needs memcpy and memset of the C library,
 * and nothing else.
 *
 * Every function may be given any words and bytes; it ends, touches nothing but what it is lent, and a refused call changes no lent word
 * or byte. What is lent:
 *   - A slice is a pointer and a length. The pointer is aligned as its type is and valid for that length; with length 0 it may be NULL.
 *   - What is lent for writing must not overlap anything else that is lent to the same call. What is lent for reading may overlap.
 *   - No pointer is kept after a call.
 *
 * There are no globals and no locks, so every function is reentrant: threads may call at the same time, so long as what one call writes
 * is lent to no other.
 *
 * Nothing is allocated: a call works on the stack, torzimlak_assemble on about 1.1 MB of it, so that its thread should have 2 MB, and each
 * other function on less than 40 KB (TORZIMLAK_ASSEMBLE_STACK and TORZIMLAK_STACK below). Frames over a page are taken page by page,
 * downwards, so that a stack that is too short faults in its guard page, if it has one, before anything behind that is written.
 *
 * Answers are the numbers of the papers: 0 done, 1 to 10, 30 to 33 and 40 to 45 refusals, 20 to 29 endings of a run. Where there is a
 * value beside the number, the answer is a uint64_t: the number is its upper half, the value its lower half, 0 unless it is said.
 */
#ifndef TORZIMLAK_H
#define TORZIMLAK_H

#include <stddef.h>
#include <stdint.h>

#ifdef __cplusplus
extern "C" {
#endif

/* The number and the value of an answer. */
#define TORZIMLAK_NUMBER(answer) ((uint32_t)((answer) >> 32))
#define TORZIMLAK_VALUE(answer) ((uint32_t)(answer))

/*
 * The words of a state. Links are the places of open calls' JSRs, oldest first. Those from the count on are not looked at, and a start,
 * run, resume or restore that is not refused writes them as 0. RA is a 64-bit float, always finite: its low 32 bits, then its high ones.
 * More words than these may be lent: the words behind are neither looked at nor changed. Fewer are no state (31).
 * Between calls a host may write memory, the six registers and IA as it likes. What else it writes, RA and its flag too, is judged by the
 * state check.
 */
enum {
    TORZIMLAK_XL = 0,
    TORZIMLAK_XR = 1,
    TORZIMLAK_XS = 2,
    TORZIMLAK_WA = 3,
    TORZIMLAK_WB = 4,
    TORZIMLAK_WC = 5,
    TORZIMLAK_IA = 6,      /* 32 bits, signed */
    TORZIMLAK_FLAG = 7,    /* overflow of IA: 0 or 1 */
    TORZIMLAK_PLACE = 8,
    TORZIMLAK_WAITING = 9, /* 0 or 1 */
    TORZIMLAK_COUNT = 10,  /* of links, at most 256 */
    TORZIMLAK_LINKS = 11,
    TORZIMLAK_RA_LOW = 267,
    TORZIMLAK_RA_HIGH = 268,
    TORZIMLAK_REAL_FLAG = 269, /* overflow of RA: 0 or 1 */
    TORZIMLAK_STATE_WORDS = 270
};

/*
 * Limits. A table of TORZIMLAK_TABLE_WORDS words holds any program, a file of TORZIMLAK_FILE_BYTES bytes any machine: memory, 256 links,
 * 32 fresh addresses and a trailer of 19 words.
 */
enum {
    TORZIMLAK_MIN_MEMORY = 256,
    TORZIMLAK_MAX_MEMORY = 8192,
    TORZIMLAK_MAX_BUDGET = 1000000,
    TORZIMLAK_TABLE_WORDS = 16872,
    TORZIMLAK_FILE_BYTES = 33996 /* 4 * (8192 + 256 + 32 + 19) */
};

/*
 * Bytes of stack that are enough for a call of torzimlak_assemble, and of each other function. The code itself takes at most 1,080,264
 * bytes, torzimlak_run 27,080, torzimlak_resume 20,808, each other function under 19,000; the rest is for memcpy and memset, of which a
 * loader that binds them at their first call takes some thousands.
 */
enum {
    TORZIMLAK_ASSEMBLE_STACK = 1114112,
    TORZIMLAK_STACK = 40960
};

/*
 * Cards become a table. Number 0: the value is the table's length, and room past it stays as it was. Numbers 1 to 10: refused; the value
 * is the line, 0 where there is none.
 */
uint64_t torzimlak_assemble(const uint8_t *cards, size_t bytes, uint32_t *table, size_t table_words);

/* 0: the table passes its check. 30: it does not. */
uint32_t torzimlak_check_table(const uint32_t *table, size_t table_words);

/*
 * 0: the state may be run on the table with memory of that many words. In this order, 30: the table; 31: fewer words than a state has, a
 * flag or waiting word that is neither 0 nor 1, an RA that is not finite, the length of memory, or the state.
 */
uint32_t torzimlak_check_state(const uint32_t *table, size_t table_words, size_t memory_words, const uint32_t *state, size_t state_words);

/*
 * The plain start: a machine in lent memory with the host's fresh words, its argument in WA. 0: started; the program's words are set, and
 * all words behind them are 0, so that nothing of what the memory held before is left; RA is +0, and both flags are off. In this order,
 * 30: the table; 31: fewer words are lent than a state has; 10: memory's length; 43: the count of fresh words. A refused start clears
 * nothing. What the lent state held is not looked at.
 */
uint32_t torzimlak_start(const uint32_t *table, size_t table_words, uint32_t *memory, size_t memory_words, const uint32_t *fresh,
                         size_t fresh_words, uint32_t argument, uint32_t *state, size_t state_words);

/*
 * The warm start: the same, but that all words behind the program's stay as they were lent. For a host that loads what the program is to
 * find there, such as a price list, before it starts it: the first of these words has the index table[1] + table[2], and XR holds its
 * address. Whatever else the memory held is left, too: not for memory that another shop has used. Answers as of torzimlak_start.
 */
uint32_t torzimlak_warm_start(const uint32_t *table, size_t table_words, uint32_t *memory, size_t memory_words, const uint32_t *fresh,
                              size_t fresh_words, uint32_t argument, uint32_t *state, size_t state_words);

/*
 * At most `budget` steps. Numbers 20 to 29: the ending; the value is the count of steps. In this order, 30: the table; 31: the state, as
 * torzimlak_check_state judges it; 32: the budget is over TORZIMLAK_MAX_BUDGET.
 */
uint64_t torzimlak_run(const uint32_t *table, size_t table_words, uint32_t *memory, size_t memory_words, uint32_t *state,
                       size_t state_words, uint32_t budget);

/*
 * The host's answer to the call that the machine waits at: an exit, or 0 for no number. 0: the machine goes on at the next run. 26: the
 * exit's PPM has no label; the machine still waits. In this order, 30: the table; 31: the state, as torzimlak_check_state judges it; 33:
 * not waiting, or an exit above the declared count.
 */
uint32_t torzimlak_resume(const uint32_t *table, size_t table_words, const uint32_t *memory, size_t memory_words, uint32_t *state,
                          size_t state_words, uint32_t exit);

/*
 * The machine as a file at the front of the room; fresh words are in it as 0. Number 0: the value is the file's length L, at most
 * TORZIMLAK_FILE_BYTES, and room past it stays. In this order, 30: the table; 31: the state, as torzimlak_check_state judges it; 45: the
 * room is under L.
 */
uint64_t torzimlak_write(const uint32_t *table, size_t table_words, const uint32_t *memory, size_t memory_words, const uint32_t *state,
                         size_t state_words, uint32_t build, uint8_t *file, size_t bytes);

/*
 * The machine at the end of the file, woken in the lent memory and state with the host's fresh words. 0: woken. In this order, 30: the
 * table; 31: fewer words are lent than a state has; 40: the trailer, also a flag in it that is neither 0 nor 1 or an RA that is not finite;
 * 41: another program or build; 42: the frozen state; 43: the count of fresh words; 44: the length of memory. What the lent state held is
 * not looked at. A file of before there were reals, with a trailer of 16 words, is taken too, as its length L says: RA is then +0 and its
 * flag off.
 */
uint32_t torzimlak_restore(const uint32_t *table, size_t table_words, const uint8_t *file, size_t bytes, uint32_t build,
                           const uint32_t *fresh, size_t fresh_words, uint32_t *memory, size_t memory_words, uint32_t *state,
                           size_t state_words);

#ifdef __cplusplus
}
#endif

#endif
