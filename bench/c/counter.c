// The counter of bench/files.py, as a code generator would write it: its state in variables, no file to judge. 0, 16, 17 and 19 as the relay has them.
#include "cells.h"

static struct {
    bool started;
    int64_t v1;
} s;

uint8_t c_counter(const uint8_t *inputs, size_t inputs_len, uint8_t *values, size_t values_len)
{
    (void)inputs;
    if (inputs_len != 0)
        return 16;
    if (values_len != 1 * CELL)
        return 17;
    int64_t v1 = 0;
    if (s.started && __builtin_add_overflow(s.v1, 1, &v1))
        return 19;
    s.started = true;
    s.v1 = v1;
    put_int(values, v1);
    return 0;
}
