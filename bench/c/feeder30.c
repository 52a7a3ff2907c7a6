// feeder30 of bench/files.py, as a code generator would write it: its instances in variables, no file to judge. 0, 16 and 17 as the relay has them. No sum of it leaves 64 bits.
#include "cells.h"

// On-delay timer.
struct ton {
    bool started;
    int32_t t;
};

static inline bool ton(struct ton *s, bool in, int32_t pt)
{
    int32_t t = !s->started ? in : !in ? 0 : s->t < pt ? (int32_t)((int64_t)s->t + 1) : s->t;
    s->started = true;
    s->t = t;
    return in && t >= pt;
}

// Latch, reset first.
struct sr {
    bool started, q;
};

static inline bool sr(struct sr *s, bool set, bool reset)
{
    s->q = !reset && (set || (s->started && s->q));
    s->started = true;
    return s->q;
}

static inline float rms(float a, float b) { return a * a + b * b; }

static struct {
    bool started;
    struct ton slow[3], fast[3];
    struct sr trip[2];
    bool v325;
    int32_t v203;
} s;

static const float c900 = (float)0.01, c901 = (float)1.44;

uint8_t c_feeder30(const uint8_t *inputs, size_t inputs_len, uint8_t *values, size_t values_len)
{
    bool b[8];
    float f[6];
    int32_t t[2];
    if (inputs_len != 16 * CELL)
        return 16;
    for (int k = 0; k < 8; k++)
        if (!get_bool(inputs + CELL * k, &b[k]))
            return 16;
    for (int k = 0; k < 6; k++)
        if (!get_single(inputs + CELL * (8 + k), &f[k]))
            return 16;
    for (int k = 0; k < 2; k++)
        if (!get_int32(inputs + CELL * (14 + k), &t[k]))
            return 16;
    if (values_len != 46 * CELL)
        return 17;
    float v300[3], v303[3];
    bool v310[3], v313[3], v316[3];
    for (int k = 0; k < 3; k++) {
        v300[k] = rms(f[2 * k], f[2 * k + 1]);
        v303[k] = v300[k] > c900 ? v300[k] : (float)0.0;
        v310[k] = v300[k] > c901;
        v313[k] = ton(&s.slow[k], v310[k], t[0]);
        v316[k] = ton(&s.fast[k], v310[k] && !b[k], t[1]);
    }
    bool v319 = v313[0] || v313[1] || v313[2];
    bool v320 = v316[0] || v316[1] || v316[2];
    bool v321 = sr(&s.trip[0], v319, b[3]);
    bool v322 = sr(&s.trip[1], v320, b[3]);
    bool v323 = v321 && !b[4];
    bool v324 = v322 && !b[5];
    bool v325 = v323 != v324;
    bool v326 = s.started && v325 && !s.v325;
    bool v327 = !b[6] || b[7];
    bool v328 = v327 && (v323 || v324);
    bool v329 = v326 || v328;
    bool v200 = v323 || v324;
    bool v201 = v328;
    bool v202 = v329 && b[6];
    int32_t v203 = !s.started ? 0 : v326 ? (int32_t)((int64_t)s.v203 + 1) : s.v203;
    s.started = true;
    s.v325 = v325;
    s.v203 = v203;
    memcpy(values, inputs, 16 * CELL);
    uint8_t *out = values + 16 * CELL;
    put_bool(out, v200);
    put_bool(out + CELL, v201);
    put_bool(out + 2 * CELL, v202);
    put_int(out + 3 * CELL, v203);
    for (int k = 0; k < 3; k++) {
        put_single(out + CELL * (4 + k), v300[k]);
        put_single(out + CELL * (7 + k), v303[k]);
        put_bool(out + CELL * (10 + k), v310[k]);
        put_bool(out + CELL * (13 + k), v313[k]);
        put_bool(out + CELL * (16 + k), v316[k]);
    }
    const bool rest[] = {v319, v320, v321, v322, v323, v324, v325, v326, v327, v328, v329};
    for (int k = 0; k < 11; k++)
        put_bool(out + CELL * (19 + k), rest[k]);
    return 0;
}
