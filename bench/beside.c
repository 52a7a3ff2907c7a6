/* Nanoseconds of a cycle and of an admission of a file, the fastest of 700 batches: beside FILE INPUTS TURNS, both in hexadecimal, so many calls a batch. */
#define _POSIX_C_SOURCE 199309L
#include "hex.h"
#include "ol_sim.h"
#include <stdlib.h>
#include <time.h>

static double now(void) {
    struct timespec t;
    clock_gettime(CLOCK_MONOTONIC, &t);
    return t.tv_sec * 1e9 + t.tv_nsec;
}

int main(int count, char **words) {
    static uint8_t file[65536], inputs[65536], a[65536], b[65536], values[65536];
    size_t place, state, input_bytes, value_bytes, equations;
    if (count < 4) return 2;
    size_t f = unhex(words[1], file, sizeof file), n = unhex(words[2], inputs, sizeof inputs);
    int turns = atoi(words[3]);
    if (ol_sim_lengths(file, f, 0, &place, &state, &input_bytes, &value_bytes, &equations) != 0) return 1;
    if (n != input_bytes || ol_sim_start(file, f, a, state, &place) != 0) return 1;
    double cycle = 1e18, admission = 1e18;
    uint8_t *old = a, *new = b;
    for (int batch = 0; batch < 700; batch++) {
        double begun = now();
        for (int i = 0; i < turns; i++) {
            if (ol_sim_cycle(file, f, old, state, inputs, n, new, state, values, value_bytes, &place) != 0) return 1;
            uint8_t *was = old;
            old = new;
            new = was;
        }
        double between = now();
        for (int i = 0; i < turns; i++)
            if (ol_sim_admit(file, f, &place, &state) != 0) return 1;
        double ended = now();
        if ((between - begun) / turns < cycle) cycle = (between - begun) / turns;
        if ((ended - between) / turns < admission) admission = (ended - between) / turns;
    }
    printf("%.1f %.1f\n", cycle, admission);
    return 0;
}
