/*
 * A host in C: the cards that its argument names are assembled, warmed and frozen once, then woken for a thousand visitors, each with a
 * fresh word of its own. Says how many tokens differ from the one before; ends with 1 if a call answers anything but what it should.
 */
#include "torzimlak.h"
#include <stdio.h>
#include <string.h>

enum { VISITORS = 1000, MEMORY = 256, BUILD = 1, BUDGET = 1000, WAITING = 20, OTHER_BUILD = 41, NOT_WAITING = 33, TOKEN = 8 };

static uint8_t cards[32769];
static uint32_t table[TORZIMLAK_TABLE_WORDS];
static size_t table_words;
static uint32_t memory[MEMORY];
static uint32_t state[TORZIMLAK_STATE_WORDS];
static uint8_t file[TORZIMLAK_FILE_BYTES];

static int expect(const char *what, uint32_t got, uint32_t due) {
    if (got == due) {
        return 1;
    }
    fprintf(stderr, "%s: %u, not %u\n", what, (unsigned)got, (unsigned)due);
    return 0;
}

/* The character at an address. */
static char character(uint32_t address) {
    return (char)(memory[address / 4] >> (8 * (address % 4)));
}

static int run(void) {
    uint64_t answer = torzimlak_run(table, table_words, memory, MEMORY, state, TORZIMLAK_STATE_WORDS, BUDGET);
    return expect("run", TORZIMLAK_NUMBER(answer), WAITING);
}

/* The machine of one visitor; its token. */
static int visit(size_t bytes, uint32_t word, char token[TOKEN]) {
    uint32_t i;
    if (!expect("restore", torzimlak_restore(table, table_words, file, bytes, BUILD, &word, 1, memory, MEMORY, state, TORZIMLAK_STATE_WORDS), 0)
        || !expect("resume", torzimlak_resume(table, table_words, memory, MEMORY, state, TORZIMLAK_STATE_WORDS, 0), 0) || !run()
        || !expect("token's length", state[TORZIMLAK_WA], TOKEN)) {
        return 0;
    }
    for (i = 0; i < TOKEN; i++) {
        token[i] = character(state[TORZIMLAK_XL] + i);
    }
    return 1;
}

/* The warmed machine as a file; its length, or 0. */
static size_t freeze(void) {
    uint32_t zero = 0;
    uint64_t answer;
    if (!expect("start", torzimlak_start(table, table_words, memory, MEMORY, &zero, 1, 0, state, TORZIMLAK_STATE_WORDS), 0)
        || !expect("resume", torzimlak_resume(table, table_words, memory, MEMORY, state, TORZIMLAK_STATE_WORDS, 0), NOT_WAITING) || !run()
        || !expect("check_state", torzimlak_check_state(table, table_words, MEMORY, state, TORZIMLAK_STATE_WORDS), 0)) {
        return 0;
    }
    answer = torzimlak_write(table, table_words, memory, MEMORY, state, TORZIMLAK_STATE_WORDS, BUILD, file, sizeof file);
    return expect("write", TORZIMLAK_NUMBER(answer), 0) ? TORZIMLAK_VALUE(answer) : 0;
}

static int assemble(const char *path) {
    FILE *in = fopen(path, "rb");
    size_t bytes;
    uint64_t answer;
    if (in == NULL) {
        perror(path);
        return 0;
    }
    bytes = fread(cards, 1, sizeof cards, in);
    fclose(in);
    answer = torzimlak_assemble(cards, bytes, table, TORZIMLAK_TABLE_WORDS);
    table_words = TORZIMLAK_VALUE(answer);
    return expect("assemble", TORZIMLAK_NUMBER(answer), 0) && expect("check_table", torzimlak_check_table(table, table_words), 0);
}

int main(int count, char **arguments) {
    char before[TOKEN] = {0}, token[TOKEN];
    uint32_t word = 0;
    unsigned visitor, differ = 0;
    size_t bytes;
    if (count != 2 || !assemble(arguments[1]) || (bytes = freeze()) == 0) {
        return 1;
    }
    if (!expect("other build", torzimlak_restore(table, table_words, file, bytes, BUILD + 1, &word, 1, memory, MEMORY, state, TORZIMLAK_STATE_WORDS), OTHER_BUILD)) {
        return 1;
    }
    for (visitor = 0; visitor < VISITORS; visitor++) {
        word += 0x9E3779B1u;
        if (!visit(bytes, word, token)) {
            return 1;
        }
        differ += memcmp(before, token, TOKEN) != 0;
        memcpy(before, token, TOKEN);
    }
    printf("%u visitors, %u tokens unlike the one before\n", (unsigned)VISITORS, differ);
    return differ == VISITORS ? 0 : 1;
}
