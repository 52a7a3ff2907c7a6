"""Published cases of IEEE 754 arithmetic, as lines of oracle/ieee/vectors.c's form, on standard output.

    python3 oracle/ieee/published.py

They are the cases of two files of CPython 3.11's test suite (Debian's package libpython3.11-testsuite has both):
Lib/test/ieee754.txt, "NaNs and INFs", and Lib/test/test_long.py, `test_float_conversion` (whole numbers to doubles,
round half to even), as far as the whole numbers fit 64 bits. The results are those printed there: no arithmetic of
this machine's is asked but that of exactly representable numbers.
"""
import struct


def bits(x):
    return struct.unpack('>Q', struct.pack('>d', x))[0]


INF, NINF, NAN = 0x7FF0000000000000, 0xFFF0000000000000, 0x7FF8000000000000
SUM, DIFFERENCE, PRODUCT, QUOTIENT, NEGATION, EQUAL, LESS, LESS_EQUAL, FROM_INT = 0x06, 0x07, 0x08, 0x09, 0x0E, 0x10, 0x11, 0x12, 0x00

# Lib/test/ieee754.txt
rows = [
    (EQUAL, INF, INF, 1),  # INF == -NINF
    (NEGATION, NINF, 0, INF),
    (PRODUCT, INF, bits(0.0), NAN),
    (DIFFERENCE, INF, INF, NAN),
    (QUOTIENT, INF, INF, NAN),
    (PRODUCT, INF, INF, INF),
    (PRODUCT, bits(1.5), INF, INF),
    (PRODUCT, bits(0.5), INF, INF),
    (QUOTIENT, INF, bits(1000.0), INF),
    (EQUAL, NAN, NAN, 0),
    (LESS, NAN, bits(0.0), 0),
    (LESS_EQUAL, bits(0.0), NAN, 0),  # NAN >= 0
    (SUM, bits(1.0), NAN, NAN),
    (PRODUCT, bits(1.0), NAN, NAN),
    (PRODUCT, bits(0.0), NAN, NAN),
    (PRODUCT, 0x3FF0000000000001, NAN, NAN),  # (1.0 + epsilon) * NAN
]

# Lib/test/test_long.py, test_float_conversion: a whole number, and the one that its double is
whole = [(x, x) for x in (0, 1, 2, 2**53 - 3, 2**53 - 2, 2**53 - 1, 2**53, 2**53 + 2, 2**54 - 4, 2**54 - 2, 2**54, 2**54 + 4)]
whole += [(-x, -x) for x, _ in whole if x]
for p in range(15):
    whole += [(2**p * (2**53 + x), 2**p * (2**53 + y)) for x, y in [(1, 0), (2, 2), (3, 4), (4, 4), (5, 4), (6, 6), (7, 8)]]
    whole += [(2**p * (2**54 + x), 2**p * (2**54 + y)) for x, y in [(0, 0), (1, 0), (2, 0), (3, 4), (4, 4), (5, 4), (6, 8), (7, 8), (8, 8), (9, 8), (10, 8), (11, 12), (12, 12), (13, 12), (14, 16), (15, 16)]]
for p in range(100):
    whole += [(2**p * (2**53 + 1) + 1, 2**p * (2**53 + 2)), (2**p * (2**53 + 1), 2**p * 2**53)]
for x, y in whole:
    if -2**63 <= x < 2**63:
        assert int(float(y)) == y
        rows.append((FROM_INT, x % 2**64, 0, bits(float(y))))

for op, a, b, r in rows:
    print('%02x %016x %016x %016x' % (op, a, b, r))
