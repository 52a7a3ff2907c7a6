// Cells of nine bytes, read and written as a code generator would: a tag, then eight bytes, the highest first. docs/FORMAT.md, "The cell".
#ifndef BENCH_CELLS_H
#define BENCH_CELLS_H
#include <stdbool.h>
#include <stdint.h>
#include <string.h>

enum { CELL = 9, TAG_BOOL = 0, TAG_INT = 1, TAG_SINGLE = 3 };

static inline uint64_t payload(const uint8_t *c)
{
    uint64_t v;
    memcpy(&v, c + 1, 8);
    return __builtin_bswap64(v);
}

static inline void put_cell(uint8_t *c, uint8_t tag, uint64_t v)
{
    v = __builtin_bswap64(v);
    c[0] = tag;
    memcpy(c + 1, &v, 8);
}

// An input's test and its value.
static inline bool get_bool(const uint8_t *c, bool *v)
{
    uint64_t p = payload(c);
    *v = p == 1;
    return c[0] == TAG_BOOL && p <= 1;
}

static inline bool get_int32(const uint8_t *c, int32_t *v)
{
    int64_t p = (int64_t)payload(c);
    *v = (int32_t)p;
    return c[0] == TAG_INT && p == *v;
}

// There is one NaN.
static inline uint32_t single_bits(float v)
{
    uint32_t b;
    memcpy(&b, &v, 4);
    return v != v ? 0x7fc00000u : b;
}

static inline bool get_single(const uint8_t *c, float *v)
{
    uint64_t p = payload(c);
    uint32_t b = (uint32_t)p;
    memcpy(v, &b, 4);
    return c[0] == TAG_SINGLE && p == single_bits(*v);
}

static inline void put_bool(uint8_t *c, bool v) { put_cell(c, TAG_BOOL, v); }
static inline void put_int(uint8_t *c, int64_t v) { put_cell(c, TAG_INT, (uint64_t)v); }
static inline void put_single(uint8_t *c, float v) { put_cell(c, TAG_SINGLE, single_bits(v)); }

#endif
