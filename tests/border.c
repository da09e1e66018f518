/*
 * What include/torzimlak.h says beside the answers: NULL with length 0, what a start leaves behind the program's words, words that a call leaves and
 * words that it sets to 0, the stack of each call, measured by painting a stack of its own (link with -z now, so that no binding is measured), and
 * that a stack that is too short faults in its guard page. Its argument names the cards of a program with one fresh word that waits; a second one is
 * made here, whose switch takes the table check the most stack and whose TRC takes it a run. Prints the stack of each call; ends with 1 if anything
 * is not as the header says.
 */
#define _GNU_SOURCE
#include "torzimlak.h"
#include <pthread.h>
#include <signal.h>
#include <stdio.h>
#include <stdlib.h>
#include <string.h>
#include <sys/mman.h>
#include <sys/wait.h>
#include <unistd.h>

enum { STACK = 4 << 20, SHORT = 64 << 10, GUARD = 4096, SPARE = 16384, RUN_SPARE = 12288, PAINT = 0xA5, MEMORY = TORZIMLAK_MAX_MEMORY, MORE = 3, MARK = 0x5EED, BUILD = 1, WAITING = 20, CASES = 1000 };

static uint8_t cards[32769];
static size_t card_bytes;
static uint32_t table[TORZIMLAK_TABLE_WORDS];
static size_t table_words;
static uint32_t memory[MEMORY];
static uint32_t state[TORZIMLAK_STATE_WORDS + MORE];
static uint8_t file[TORZIMLAK_FILE_BYTES];
static size_t file_bytes;
static uint32_t word = 7;
static uint32_t number;
static int failures;

static void expect(const char *what, uint32_t got, uint32_t due) {
    if (got != due) {
        printf("border: FAILED: %s: %u, not %u\n", what, (unsigned)got, (unsigned)due);
        failures++;
    }
}

/* The calls, each with what the others left. */
static void call_nothing(void) {
}

static void call_assemble(void) {
    uint64_t answer = torzimlak_assemble(cards, card_bytes, table, TORZIMLAK_TABLE_WORDS);
    number = TORZIMLAK_NUMBER(answer);
    table_words = TORZIMLAK_VALUE(answer);
}

static void call_check_table(void) {
    number = torzimlak_check_table(table, table_words);
}

static void call_check_state(void) {
    number = torzimlak_check_state(table, table_words, MEMORY, state, TORZIMLAK_STATE_WORDS + MORE);
}

static void call_start(void) {
    number = torzimlak_start(table, table_words, memory, MEMORY, &word, 1, 0, state, TORZIMLAK_STATE_WORDS + MORE);
}

static void call_warm_start(void) {
    number = torzimlak_warm_start(table, table_words, memory, MEMORY, &word, 1, 0, state, TORZIMLAK_STATE_WORDS + MORE);
}

static void call_run(void) {
    number = TORZIMLAK_NUMBER(torzimlak_run(table, table_words, memory, MEMORY, state, TORZIMLAK_STATE_WORDS + MORE, TORZIMLAK_MAX_BUDGET));
}

static void call_resume(void) {
    number = torzimlak_resume(table, table_words, memory, MEMORY, state, TORZIMLAK_STATE_WORDS + MORE, 0);
}

static void call_write(void) {
    uint64_t answer = torzimlak_write(table, table_words, memory, MEMORY, state, TORZIMLAK_STATE_WORDS + MORE, BUILD, file, sizeof file);
    number = TORZIMLAK_NUMBER(answer);
    file_bytes = TORZIMLAK_VALUE(answer);
}

static void call_restore(void) {
    number = torzimlak_restore(table, table_words, file, file_bytes, BUILD, &word, 1, memory, MEMORY, state, TORZIMLAK_STATE_WORDS + MORE);
}

static void *threaded(void *call) {
    (*(void (**)(void))call)();
    return NULL;
}

/* Memory for a stack, painted. */
static uint8_t *paint(size_t bytes) {
    uint8_t *room = mmap(NULL, bytes, PROT_READ | PROT_WRITE, MAP_PRIVATE | MAP_ANONYMOUS, -1, 0);
    if (room == MAP_FAILED) {
        perror("border: FAILED");
        exit(1);
    }
    memset(room, PAINT, bytes);
    return room;
}

/* Runs a call in a thread on this stack. */
static void run_on(uint8_t *stack, size_t bytes, void (*call)(void)) {
    pthread_attr_t attributes;
    pthread_t thread;
    pthread_attr_init(&attributes);
    if (pthread_attr_setstack(&attributes, stack, bytes) != 0 || pthread_create(&thread, &attributes, threaded, &call) != 0) {
        printf("border: FAILED: no thread\n");
        exit(1);
    }
    pthread_join(thread, NULL);
    pthread_attr_destroy(&attributes);
}

/* How many bytes from the front are painted still. */
static size_t still_painted(const uint8_t *room, size_t bytes) {
    size_t i = 0;
    while (i < bytes && room[i] == PAINT) {
        i++;
    }
    return i;
}

/* The bytes of a painted stack that a thread with this call changed. */
static size_t painted(void (*call)(void)) {
    uint8_t *stack = paint(STACK);
    size_t used;
    run_on(stack, STACK, call);
    used = STACK - still_painted(stack, STACK);
    munmap(stack, STACK);
    return used;
}

/* Other memory, a guard page, and a short stack, from the low addresses up. */
static uint8_t *below_guard;

/* A fault: in the guard page, and nothing below it is written? */
static void on_fault(int signal, siginfo_t *info, void *context) {
    const uint8_t *at = info->si_addr, *guard = below_guard + STACK;
    (void)signal;
    (void)context;
    _exit(guard <= at && at < guard + GUARD && still_painted(below_guard, STACK) == STACK ? 0 : 1);
}

static void call_short(void) {
    static uint8_t handler_stack[SHORT];
    stack_t other;
    struct sigaction action;
    memset(&other, 0, sizeof other);
    memset(&action, 0, sizeof action);
    other.ss_sp = handler_stack;
    other.ss_size = sizeof handler_stack;
    action.sa_sigaction = on_fault;
    action.sa_flags = SA_SIGINFO | SA_ONSTACK;
    if (sigaltstack(&other, NULL) != 0 || sigaction(SIGSEGV, &action, NULL) != 0) {
        _exit(2);
    }
    call_assemble();
    _exit(3);
}

/* A stack that is too short for the assembler, in a process of its own: 0 if it faults in its guard page. */
static void guarded(void) {
    int status = 0;
    pid_t child = fork();
    if (child == 0) {
        below_guard = paint(STACK + GUARD + SHORT);
        if (mprotect(below_guard + STACK, GUARD, PROT_NONE) != 0) {
            _exit(4);
        }
        run_on(below_guard + STACK + GUARD, SHORT, call_short);
        _exit(5);
    }
    if (child < 0 || waitpid(child, &status, 0) != child || !WIFEXITED(status)) {
        status = -1;
    }
    expect("a short stack faults in its guard page", (uint32_t)(status < 0 ? 1 : WEXITSTATUS(status)), 0);
}

/* Garbage from the links' count to RA, and marks behind the state. */
static void litter(void) {
    size_t i;
    for (i = TORZIMLAK_LINKS + state[TORZIMLAK_COUNT]; i < TORZIMLAK_RA_LOW; i++) {
        state[i] = MARK;
    }
    for (i = TORZIMLAK_STATE_WORDS; i < TORZIMLAK_STATE_WORDS + MORE; i++) {
        state[i] = MARK;
    }
}

/* Whether links from the count on are 0, RA and its flag too, and the words behind the state stay. */
static int tidy(void) {
    size_t i;
    for (i = TORZIMLAK_LINKS + state[TORZIMLAK_COUNT]; i < TORZIMLAK_STATE_WORDS; i++) {
        if (state[i] != 0) {
            return 0;
        }
    }
    for (; i < TORZIMLAK_STATE_WORDS + MORE; i++) {
        if (state[i] != MARK) {
            return 0;
        }
    }
    return 1;
}

/* Each call, its answer, whether it leaves a state, and the most bytes of stack that the header says the code takes. */
enum { OTHERS = 18999 };
static const struct {
    const char *name;
    void (*call)(void);
    uint32_t due;
    int leaves_state;
    size_t most;
} calls[] = {
    {"assemble", call_assemble, 0, 0, 1080264}, {"check_table", call_check_table, 0, 0, OTHERS}, {"warm_start", call_warm_start, 0, 1, OTHERS}, {"start", call_start, 0, 1, OTHERS},
    {"check_state", call_check_state, 0, 0, OTHERS}, {"run", call_run, WAITING, 1, 27080}, {"write", call_write, 0, 0, OTHERS},
    {"restore", call_restore, 0, 1, OTHERS}, {"resume", call_resume, 0, 1, 20808},
};

/* Cards of a program that translates a long string and waits, with a long switch whose values share one remainder by 1,024. */
static void write_long_cards(void) {
    static const char head[] = " SEC\nSYSWT EXP E,0\n SEC\nBYTES EQU 20000\nTABLE EQU 30000\n SEC\n SEC\nF$ONE DAC 0\n SEC\n"
                               "START MOV =BYTES,WA\n ZER XL\n MOV =TABLE,XR\n TRC\n JSR SYSWT\n BSW XL,1048576,START\n";
    static const char tail[] = " ESW\n SEC\n ERB 1,STACK\n SEC\nERROR BRN ERROR\n END\n";
    char *at = (char *)cards;
    int i;
    at += sprintf(at, "%s", head);
    for (i = CASES; i > 0; i--) {
        at += sprintf(at, " IFF %d,START\n", 1024 * (i - 1));
    }
    at += sprintf(at, "%s", tail);
    card_bytes = (size_t)(at - (char *)cards);
}

/* Each call on a painted stack, over the stack that a thread needs that calls nothing. */
static void stacks(const char *program) {
    size_t own = painted(call_nothing), i;
    for (i = 0; i < sizeof calls / sizeof calls[0]; i++) {
        size_t used, spare;
        litter();
        used = painted(calls[i].call) - own;
        printf("stack of %s, %s: %zu bytes\n", calls[i].name, program, used);
        expect(calls[i].name, number, calls[i].due);
        expect("the state's words are tidy", calls[i].leaves_state ? (uint32_t)tidy() : 1, 1);
        expect("the code's stack is as small as the header says", used <= calls[i].most, 1);
        spare = calls[i].call == call_run ? RUN_SPARE : SPARE;
        expect("the header's stack is enough", calls[i].most + spare <= (i == 0 ? TORZIMLAK_ASSEMBLE_STACK : TORZIMLAK_STACK), 1);
    }
}

/* Pointers to nothing: refused, each in its order, and nothing is touched. */
static void nulls(void) {
    expect("assemble of NULL", TORZIMLAK_NUMBER(torzimlak_assemble(NULL, 0, NULL, 0)), 8);
    expect("assemble to NULL", TORZIMLAK_NUMBER(torzimlak_assemble(cards, card_bytes, NULL, 0)), 10);
    expect("check_table of NULL", torzimlak_check_table(NULL, 0), 30);
    expect("check_state of NULL", torzimlak_check_state(NULL, 0, 0, NULL, 0), 30);
    expect("check_state, state NULL", torzimlak_check_state(table, table_words, MEMORY, NULL, 0), 31);
    expect("start of NULL", torzimlak_start(NULL, 0, NULL, 0, NULL, 0, 0, NULL, 0), 30);
    expect("start, state NULL", torzimlak_start(table, table_words, NULL, 0, NULL, 0, 0, NULL, 0), 31);
    expect("start, memory NULL", torzimlak_start(table, table_words, NULL, 0, NULL, 0, 0, state, TORZIMLAK_STATE_WORDS), 10);
    expect("start, fresh NULL", torzimlak_start(table, table_words, memory, MEMORY, NULL, 0, 0, state, TORZIMLAK_STATE_WORDS), 43);
    expect("run of NULL", TORZIMLAK_NUMBER(torzimlak_run(NULL, 0, NULL, 0, NULL, 0, 0)), 30);
    expect("run, state NULL", TORZIMLAK_NUMBER(torzimlak_run(table, table_words, memory, MEMORY, NULL, 0, 0)), 31);
    expect("run, memory NULL", TORZIMLAK_NUMBER(torzimlak_run(table, table_words, NULL, 0, state, TORZIMLAK_STATE_WORDS, 0)), 31);
    expect("resume of NULL", torzimlak_resume(NULL, 0, NULL, 0, NULL, 0, 0), 30);
    expect("resume, memory NULL", torzimlak_resume(table, table_words, NULL, 0, state, TORZIMLAK_STATE_WORDS, 0), 31);
    expect("write of NULL", TORZIMLAK_NUMBER(torzimlak_write(NULL, 0, NULL, 0, NULL, 0, 0, NULL, 0)), 30);
    expect("write to NULL", TORZIMLAK_NUMBER(torzimlak_write(table, table_words, memory, MEMORY, state, TORZIMLAK_STATE_WORDS, 0, NULL, 0)), 45);
    expect("restore of NULL", torzimlak_restore(NULL, 0, NULL, 0, 0, NULL, 0, NULL, 0, NULL, 0), 30);
    expect("restore, state NULL", torzimlak_restore(table, table_words, NULL, 0, BUILD, NULL, 0, NULL, 0, NULL, 0), 31);
    expect("restore, file NULL", torzimlak_restore(table, table_words, NULL, 0, BUILD, NULL, 0, NULL, 0, state, TORZIMLAK_STATE_WORDS), 40);
    expect("restore, fresh NULL", torzimlak_restore(table, table_words, file, file_bytes, BUILD, NULL, 0, NULL, 0, state, TORZIMLAK_STATE_WORDS), 43);
    expect("restore, memory NULL", torzimlak_restore(table, table_words, file, file_bytes, BUILD, &word, 1, NULL, 0, state, TORZIMLAK_STATE_WORDS), 44);
}

/* Whether all words behind the program's own are this word. */
static uint32_t behind_are(uint32_t due) {
    size_t i;
    for (i = table[1] + table[2]; i < MEMORY; i++) {
        if (memory[i] != due) {
            return 0;
        }
    }
    return 1;
}

/* The plain start clears what is behind the program's own words, the warm one leaves it, and a refused one clears nothing. */
static void tenants(void) {
    size_t i;
    for (i = 0; i < MEMORY; i++) {
        memory[i] = MARK;
    }
    expect("start, no fresh word", torzimlak_start(table, table_words, memory, MEMORY, NULL, 0, 0, state, TORZIMLAK_STATE_WORDS), 43);
    expect("start, a word too few", torzimlak_start(table, table_words, memory, TORZIMLAK_MIN_MEMORY - 1, &word, 1, 0, state, TORZIMLAK_STATE_WORDS), 10);
    expect("start, no room for a state", torzimlak_start(table, table_words, memory, MEMORY, &word, 1, 0, state, TORZIMLAK_STATE_WORDS - 1), 31);
    expect("start, no table", torzimlak_start(table, table_words - 1, memory, MEMORY, &word, 1, 0, state, TORZIMLAK_STATE_WORDS), 30);
    expect("a refused start leaves the first word", memory[0], MARK);
    expect("a refused start clears nothing", behind_are(MARK), 1);
    call_warm_start();
    expect("the warm start", number, 0);
    expect("the warm start clears nothing", behind_are(MARK), 1);
    call_start();
    expect("the plain start", number, 0);
    expect("the plain start clears what is behind the program's words", behind_are(0), 1);
}

int main(int count, char **arguments) {
    FILE *in = count == 2 ? fopen(arguments[1], "rb") : NULL;
    if (in == NULL) {
        fprintf(stderr, "usage: border CARDS\n");
        return 1;
    }
    card_bytes = fread(cards, 1, sizeof cards, in);
    fclose(in);
    stacks("its argument's cards");
    nulls();
    tenants();
    write_long_cards();
    stacks("a long switch and a long TRC");
    fflush(stdout);
    guarded();
    if (failures == 0) {
        printf("border: as the header says\n");
    }
    return failures != 0;
}
