/* The stack that each function of ol_sim_c uses on files: lines NAME HEX INPUTS on standard input. The call runs on a painted stack of its own; what is no longer
 * paint was used. Prints bytes for each file and the most for each function. bench/stack builds and runs it. */
#define _XOPEN_SOURCE 700
#define _DEFAULT_SOURCE
#include <stdlib.h>
#include <string.h>
#include <sys/mman.h>
#include <ucontext.h>

#include "hex.h"
#include "ol_sim.h"

enum { ROOM = 64 << 20, PAINT = 0xA5, FUNCTIONS = 5 };

static const char *const names[FUNCTIONS] = {"ol_sim_lengths", "ol_sim_admit", "ol_sim_order", "ol_sim_start", "ol_sim_cycle"};

static uint8_t *room;
static ucontext_t back, there;

/* what a call is lent, and its number */
static uint8_t file[OL_SIM_FILE_MAX + 1], states[2][OL_SIM_STATE_MAX], inputs[OL_SIM_INPUTS_MAX], values[OL_SIM_VALUES_MAX];
static size_t file_len, state_len, inputs_len, values_len, order[OL_SIM_EQUATIONS_MAX], equations, inputs_asked, place;
static uint8_t number;

static void nothing(void) {}

static void lengths(void) { number = ol_sim_lengths(file, file_len, 0, &place, &state_len, &inputs_asked, &values_len, &equations); }

static void admit(void) { number = ol_sim_admit(file, file_len, &place, &state_len); }

static void sort(void) { number = ol_sim_order(file, file_len, 0, order, OL_SIM_EQUATIONS_MAX, &place); }

static void start(void) { number = ol_sim_start(file, file_len, states[0], state_len, &place); }

static void cycle(void) { number = ol_sim_cycle(file, file_len, states[0], state_len, inputs, inputs_len, states[1], state_len, values, values_len, &place); }

/* the bytes of stack that a call uses */
static size_t used(void (*call)(void)) {
    memset(room, PAINT, ROOM);
    getcontext(&there);
    there.uc_stack.ss_sp = room;
    there.uc_stack.ss_size = ROOM;
    there.uc_link = &back;
    makecontext(&there, call, 0);
    swapcontext(&back, &there);
    size_t free = 0;
    while (free < ROOM && room[free] == PAINT)
        free++;
    if (free < 4096) {
        fprintf(stderr, "stack: the painted stack is used up\n");
        exit(1);
    }
    return ROOM - free;
}

static size_t max(size_t a, size_t b) { return a < b ? b : a; }

/* the bytes that each function uses on the present file; 0 where it was not called */
static void measure(size_t own, size_t bytes[FUNCTIONS]) {
    bytes[0] = used(lengths) - own;
    bytes[1] = used(admit) - own;
    uint8_t verdict = number;
    bytes[2] = used(sort) - own;
    bytes[3] = bytes[4] = 0;
    if (verdict != OL_SIM_DONE)
        return;
    bytes[3] = used(start) - own;
    for (int k = 0; k < 2; k++) {
        bytes[4] = max(bytes[4], used(cycle) - own);
        memcpy(states[0], states[1], state_len);
    }
    if (number != OL_SIM_DONE)
        printf("%*s (the cycle answers %u)\n", 24, "", number);
}

int main(void) {
    static char line[4 * OL_SIM_FILE_MAX], name[64], hex[3 * OL_SIM_FILE_MAX], given[2 * OL_SIM_INPUTS_MAX + 1];
    size_t most[FUNCTIONS] = {0};
    char by[FUNCTIONS][64] = {""};
    room = mmap(NULL, ROOM, PROT_READ | PROT_WRITE, MAP_PRIVATE | MAP_ANONYMOUS, -1, 0);
    if (room == MAP_FAILED)
        return 1;
    size_t own = used(nothing);
    printf("%-24s %14s %14s %14s %14s %14s\n", "bytes of stack", "lengths", "admit", "order", "start", "cycle");
    while (fgets(line, sizeof line, stdin)) {
        if (sscanf(line, "%63s %98303s %18432s", name, hex, given) != 3)
            continue;
        file_len = unhex(hex, file, sizeof file);
        inputs_len = unhex(given, inputs, sizeof inputs);
        size_t bytes[FUNCTIONS];
        measure(own, bytes);
        printf("%-24s %14zu %14zu %14zu %14zu %14zu\n", name, bytes[0], bytes[1], bytes[2], bytes[3], bytes[4]);
        for (int k = 0; k < FUNCTIONS; k++)
            if (bytes[k] > most[k]) {
                most[k] = bytes[k];
                memcpy(by[k], name, sizeof name);
            }
    }
    printf("\n");
    for (int k = 0; k < FUNCTIONS; k++)
        printf("%-14s at most %zu bytes (%s)\n", names[k], most[k], by[k]);
    return 0;
}
