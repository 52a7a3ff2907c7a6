"""Lines of oracle/ieee/vectors.c's form from Berkeley TestFloat's `testfloat_gen`, on standard output, for crates/ieee_vectors to check.

    python3 oracle/ieee/testfloat.py [--gen PROGRAM] [--level 1|2] | target/bin/ieee_vectors       # every function below
    testfloat_gen f64_add | python3 oracle/ieee/testfloat.py f64_add | target/bin/ieee_vectors     # one function, from its output

PROGRAM is testfloat_gen (on the PATH where it is not named). A line of its output has the operands, the result and the
flags, in hexadecimal. Rounding is to nearest, ties to even; of conversions to an integer toward zero (-rminMag).

Two results are document 01's and not the generator's: every NaN is the one NaN, and where a conversion to an integer is
flagged invalid (each machine has a number of its own there) a NaN is 0 and the others are the end of the range.
What ieee_vectors has no operation for is left out: square root, remainder, fused multiply-add, rounding to a whole real,
the other integer types and formats, other roundings, the signalling comparisons, and the flags.
Exit status: 0 done; 2 misuse, no generator, or a line that is none of the function's.
"""
import argparse
import re
import shutil
import subprocess
import sys

# each function's operation in vectors.c's form; the digits of its operands; those of its result
FUNCTIONS = {'i64_to_f64': (0x00, (16,), 16), 'i64_to_f32': (0x01, (16,), 8), 'f64_to_f32': (0x02, (16,), 8),
             'f32_to_f64': (0x03, (8,), 16), 'f64_to_i64': (0x04, (16,), 16), 'f32_to_i64': (0x05, (8,), 16)}
for first, comparison, name, digits in ((0x06, 0x10, 'f64', 16), (0x0a, 0x13, 'f32', 8)):
    for k, operation in enumerate(('add', 'sub', 'mul', 'div')):
        FUNCTIONS['%s_%s' % (name, operation)] = (first + k, (digits, digits), digits)
    for k, operation in enumerate(('eq', 'lt', 'le')):
        FUNCTIONS['%s_%s' % (name, operation)] = (comparison + k, (digits, digits), 1)

HEXADECIMAL = re.compile(r'[0-9A-Fa-f]+\Z')
INVALID = 0x10
LARGEST = {8: 0x7f800000, 16: 0x7ff0000000000000}
NAN = {8: 0x7fc00000, 16: 0x7ff8000000000000}


class Failed(Exception):
    pass


def magnitude(bits, digits):
    return bits & ~(1 << 4 * digits - 1)


def is_nan(bits, digits):
    return magnitude(bits, digits) > LARGEST[digits]


def integer(bits, digits):
    """The integer of a real that is a NaN or outside the range."""
    if is_nan(bits, digits):
        return 0
    return 0x7fffffffffffffff if bits == magnitude(bits, digits) else 0x8000000000000000


def row(function, line):
    """The row of a line of the generator's, or nothing where it is none."""
    operation, operands, digits = FUNCTIONS[function]
    words = line.split()
    if [len(w) for w in words] != [*operands, digits, 2] or not all(HEXADECIMAL.match(w) for w in words):
        return None
    *given, result, flags = (int(w, 16) for w in words)
    if function.endswith('_i64') and flags & INVALID:
        result = integer(given[0], operands[0])
    elif digits in NAN and not function.endswith('_i64') and is_nan(result, digits):
        result = NAN[digits]
    return '%02x %016x %016x %016x' % (operation, *(given + [0])[:2], result)


def convert(function, lines):
    """Writes the rows of a generator's output, and says on standard error how many there are."""
    count = 0
    for line in lines:
        given = row(function, line)
        if given is None:
            raise Failed('line %d is none of %s: %s' % (count + 1, function, line.strip()[:80]))
        print(given)
        count += 1
    if not count:
        raise Failed('no line of %s' % function)
    print('testfloat: %s: %d rows' % (function, count), file=sys.stderr)


def generate(program, level):
    """Writes the rows of every function."""
    found = shutil.which(program)
    if found is None:
        raise Failed('%s is not here: it is Berkeley TestFloat\'s generator; --gen names it' % program)
    for function in FUNCTIONS:
        rounding = '-rminMag' if function.endswith('_i64') else '-rnear_even'
        with subprocess.Popen([found, '-level', level, rounding, function], stdout=subprocess.PIPE, text=True) as p:
            convert(function, p.stdout)
        if p.returncode:
            raise Failed('%s %s ended with exit status %d' % (program, function, p.returncode))


def main():
    p = argparse.ArgumentParser(description=__doc__, formatter_class=argparse.RawDescriptionHelpFormatter)
    p.add_argument('function', nargs='?', choices=FUNCTIONS, metavar='FUNCTION', help='read its output from standard input')
    p.add_argument('--gen', default='testfloat_gen', metavar='PROGRAM')
    p.add_argument('--level', default='1', choices=('1', '2'))
    args = p.parse_args()
    try:
        if args.function:
            convert(args.function, sys.stdin)
        else:
            generate(args.gen, args.level)
        sys.stdout.flush()
    except Failed as e:
        print('testfloat: %s' % e, file=sys.stderr)
        return 2
    return 0


if __name__ == '__main__':
    sys.exit(main())
