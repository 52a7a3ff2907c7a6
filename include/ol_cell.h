/* Cells for C (docs/FORMAT.md): nine bytes, a tag and a payload of 64 bits, big-endian. Plain C beside the library; nothing here is proved. */
#ifndef OL_CELL_H
#define OL_CELL_H

#include <stdint.h>
#include <string.h>

enum ol_cell_tag { OL_CELL_BOOL = 0, OL_CELL_INT = 1, OL_CELL_FLOAT = 2, OL_CELL_FLOAT32 = 3, OL_CELL_ENUM = 4 };

static inline void ol_cell_put(uint8_t *cell, uint8_t tag, uint64_t payload) {
    cell[0] = tag;
    for (int k = 0; k < 8; k++)
        cell[1 + k] = (uint8_t)(payload >> (56 - 8 * k));
}

/* The tag, an enum ol_cell_tag: which of the functions below reads the cell. */
static inline uint8_t ol_cell_tag_of(const uint8_t *cell) { return cell[0]; }

static inline uint64_t ol_cell_payload(const uint8_t *cell) {
    uint64_t payload = 0;
    for (int k = 0; k < 8; k++)
        payload = payload << 8 | cell[1 + k];
    return payload;
}

static inline void ol_cell_put_bool(uint8_t *cell, int b) { ol_cell_put(cell, OL_CELL_BOOL, b != 0); }

static inline void ol_cell_put_int(uint8_t *cell, int64_t i) { ol_cell_put(cell, OL_CELL_INT, (uint64_t)i); }

static inline void ol_cell_put_enum(uint8_t *cell, uint16_t variant) { ol_cell_put(cell, OL_CELL_ENUM, variant); }

/* Every NaN becomes the one NaN that cells have. It is known by its bits: under -ffast-math a compiler takes x == x for true. */
static inline void ol_cell_put_float(uint8_t *cell, double x) {
    uint64_t bits;
    memcpy(&bits, &x, 8);
    int is_nan = (bits & UINT64_C(0x7FFFFFFFFFFFFFFF)) > UINT64_C(0x7FF0000000000000);
    ol_cell_put(cell, OL_CELL_FLOAT, is_nan ? UINT64_C(0x7FF8000000000000) : bits);
}

static inline void ol_cell_put_float32(uint8_t *cell, float x) {
    uint32_t bits;
    memcpy(&bits, &x, 4);
    int is_nan = (bits & UINT32_C(0x7FFFFFFF)) > UINT32_C(0x7F800000);
    ol_cell_put(cell, OL_CELL_FLOAT32, is_nan ? UINT32_C(0x7FC00000) : bits);
}

static inline int ol_cell_bool(const uint8_t *cell) { return cell[8] != 0; }

static inline int64_t ol_cell_int(const uint8_t *cell) { return (int64_t)ol_cell_payload(cell); }

static inline uint16_t ol_cell_enum(const uint8_t *cell) { return (uint16_t)ol_cell_payload(cell); }

static inline double ol_cell_float(const uint8_t *cell) {
    uint64_t bits = ol_cell_payload(cell);
    double x;
    memcpy(&x, &bits, 8);
    return x;
}

static inline float ol_cell_float32(const uint8_t *cell) {
    uint32_t bits = (uint32_t)ol_cell_payload(cell);
    float x;
    memcpy(&x, &bits, 4);
    return x;
}

#endif
