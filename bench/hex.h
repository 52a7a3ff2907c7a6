/* Bytes given as hexadecimal text, at most so many; other text, as `-`, is none. */
#include <stdint.h>
#include <stdio.h>

static size_t unhex(const char *text, uint8_t *out, size_t most) {
    size_t n = 0;
    unsigned x;
    while (n < most && sscanf(text + 2 * n, "%2x", &x) == 1)
        out[n++] = (uint8_t)x;
    return n;
}
