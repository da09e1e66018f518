/*
 * What include/torzimlak.h says of reals: RA's two words and its flag in a state, the states and files that are refused for them, and that a
 * file of before there were reals wakes with RA +0 and its flag off. Ends with 1 if anything is not as the header says.
 */
#include "torzimlak.h"
#include <stdio.h>
#include <string.h>

enum { MEMORY = 256, BUILD = 1, BUDGET = 100, WAITING = 20, REAL = 12, TRAILER = 64, OLD_STATE_WORDS = 267, SUM = 6, MARK = 0x5EED };

/* Adds 0.2 to 0.1, stores the sum, divides it by zero, and waits. */
static const char cards[] = " SEC\nSYSWT EXP E,0\n SEC\n SEC\nTENTH DRC 0.1\nFIFTH DRC 0.2\nZERO$ DRC 0.\n SEC\nSUM$$ DRC 1.5\n SEC\n"
                            "START LDR TENTH\n ADR FIFTH\n STR SUM$$\n DVR ZERO$\n JSR SYSWT\n BRN START\n"
                            " SEC\n ERB 1,STACK\n SEC\nERROR BRN ERROR\n END\n";
static uint32_t table[TORZIMLAK_TABLE_WORDS];
static size_t table_words;
static uint32_t memory[MEMORY];
static uint32_t state[TORZIMLAK_STATE_WORDS];
static uint8_t file[TORZIMLAK_FILE_BYTES];
static size_t file_bytes;
static int failures;

static void expect(const char *what, uint32_t got, uint32_t due) {
    if (got != due) {
        printf("reals: FAILED: %s: %u, not %u\n", what, (unsigned)got, (unsigned)due);
        failures++;
    }
}

/* RA and its flag are this. */
static void expect_ra(const char *what, double due, uint32_t flag) {
    uint64_t bits;
    memcpy(&bits, &due, sizeof bits);
    expect(what, state[TORZIMLAK_RA_LOW], (uint32_t)bits);
    expect(what, state[TORZIMLAK_RA_HIGH], (uint32_t)(bits >> 32));
    expect(what, state[TORZIMLAK_REAL_FLAG], flag);
}

/* The state's words are anything, to be written by the next call. */
static void forget(void) {
    size_t i;
    for (i = 0; i < TORZIMLAK_STATE_WORDS; i++) {
        state[i] = MARK;
    }
}

static uint32_t restore(void) {
    return torzimlak_restore(table, table_words, file, file_bytes, BUILD, NULL, 0, memory, MEMORY, state, TORZIMLAK_STATE_WORDS);
}

/* One of the file's last words, of which 1 is L, changed. */
static void put(size_t from_end, uint32_t word) {
    size_t i;
    for (i = 0; i < 4; i++) {
        file[file_bytes - 4 * from_end + i] = (uint8_t)(word >> (8 * i));
    }
}

/* A program that waits with 0.1 + 0.2 in RA and its flag on. */
static void run(void) {
    double tenth = 0.1, sum = tenth + 0.2;
    uint64_t answer = torzimlak_assemble((const uint8_t *)cards, strlen(cards), table, TORZIMLAK_TABLE_WORDS);
    expect("assemble", TORZIMLAK_NUMBER(answer), 0);
    table_words = TORZIMLAK_VALUE(answer);
    forget();
    expect("start", torzimlak_start(table, table_words, memory, MEMORY, NULL, 0, 0, state, TORZIMLAK_STATE_WORDS), 0);
    expect_ra("RA at the start", 0.0, 0);
    answer = torzimlak_run(table, table_words, memory, MEMORY, state, TORZIMLAK_STATE_WORDS, BUDGET);
    expect("run", TORZIMLAK_NUMBER(answer), WAITING);
    expect_ra("RA where it waits", sum, 1);
    expect("the sum's low word", memory[SUM], state[TORZIMLAK_RA_LOW]);
    expect("the sum's high word", memory[SUM + 1], state[TORZIMLAK_RA_HIGH]);
}

/* States with this word at this place, which then is as it was. */
static void judge(const char *what, size_t at, uint32_t word, uint32_t due) {
    uint32_t kept = state[at];
    state[at] = word;
    expect(what, torzimlak_check_state(table, table_words, MEMORY, state, TORZIMLAK_STATE_WORDS), due);
    state[at] = kept;
}

static void states(void) {
    judge("the state", TORZIMLAK_REAL_FLAG, 0, 0);
    judge("a flag of 2", TORZIMLAK_REAL_FLAG, 2, 31);
    judge("the largest exponent", TORZIMLAK_RA_HIGH, 0xFFEFFFFF, 0);
    judge("an infinity or NaN", TORZIMLAK_RA_HIGH, 0x7FF00000, 31);
    judge("another one", TORZIMLAK_RA_HIGH, 0xFFFFFFFF, 31);
    expect("words as of before there were reals", torzimlak_check_state(table, table_words, MEMORY, state, OLD_STATE_WORDS), 31);
}

/* Files of this machine, of both kinds. */
static void files(void) {
    double tenth = 0.1;
    uint32_t high = state[TORZIMLAK_RA_HIGH], length;
    uint64_t answer = torzimlak_write(table, table_words, memory, MEMORY, state, TORZIMLAK_STATE_WORDS, BUILD, file, sizeof file);
    expect("write", TORZIMLAK_NUMBER(answer), 0);
    length = TORZIMLAK_VALUE(answer);
    file_bytes = length;
    expect("the file's length", length, 4 * MEMORY + REAL + TRAILER);
    forget();
    expect("restore", restore(), 0);
    expect_ra("RA woken", tenth + 0.2, 1);
    put(17, 2);
    expect("restore, a flag of 2", restore(), 40);
    put(17, 1);
    put(18, 0x7FF00000);
    expect("restore, an infinity or NaN", restore(), 40);
    put(18, high);
    put(1, length + 4);
    expect("restore, another L", restore(), 40);
    memmove(file + length - TRAILER - REAL, file + length - TRAILER, TRAILER);
    file_bytes = length - REAL;
    put(1, length);
    expect("restore, the new L and the old trailer", restore(), 40);
    put(1, length - REAL);
    forget();
    expect("restore of the old kind", restore(), 0);
    expect_ra("RA of the old kind", 0.0, 0);
    expect("its sum", memory[SUM + 1], high);
}

int main(void) {
    run();
    states();
    files();
    if (failures == 0) {
        printf("reals: as the header says\n");
    }
    return failures != 0;
}
