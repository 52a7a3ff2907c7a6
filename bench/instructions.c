/* Cycles of a file, for valgrind to count: instructions FILE INPUTS PAIRS, both in hexadecimal. Two cycles a pair, the states exchanged. */
#include "hex.h"
#include "ol_sim.h"
#include <stdlib.h>

int main(int count, char **words) {
    static uint8_t file[65536], inputs[65536], a[65536], b[65536], values[65536];
    size_t place, state, input_bytes, value_bytes, equations;
    if (count < 4) return 2;
    size_t f = unhex(words[1], file, sizeof file), n = unhex(words[2], inputs, sizeof inputs);
    int pairs = atoi(words[3]), numbers = 0;
    ol_sim_lengths(file, f, 0, &place, &state, &input_bytes, &value_bytes, &equations);
    ol_sim_start(file, f, a, state, &place);
    for (int i = 0; i < pairs; i++) {
        numbers += ol_sim_cycle(file, f, a, state, inputs, n, b, state, values, value_bytes, &place);
        numbers += ol_sim_cycle(file, f, b, state, inputs, n, a, state, values, value_bytes, &place);
    }
    printf("%d\n", numbers);
    return 0;
}
