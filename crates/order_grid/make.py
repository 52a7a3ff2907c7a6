#!/usr/bin/env python3
# Writes the list of answers that order_grid compares with, to the file `stdin` beside this script:
#     python3 make.py ORACLE GEN
# ORACLE and GEN are the programs of oracle/: a driver around the unchanged Rust of docs/src, and a generator of files. ORACLE takes
# `file HEX` and answers `admit NUMBER PLACE LENGTH`; it takes `order NODE` and answers `order ok INDEX ..` or `order refused NUMBER PLACE`.
# An order is that of the Rust's `evaluation_order`; faults 1 to 5 are those of the driver's reader, and document 01's.
#
# The list, all numbers big-endian. First six sections, of the files whose reading answers 0 (no fault), 1, 2, 3, 4 and 5: how many files
# (two bytes), then of each file how many of its bytes are given (two), these bytes, its length (two), the other bytes being 0, and the
# answer, a number (one) and a place (two). Then ten sections of orderings: how many files (two), then of each file its bytes, as above,
# how many questions (two), and of each question the node's number (two), the buffer's length (two), the answer, as above, and for the
# number 0 the order, a byte for each entry.
import itertools, os, random, struct, subprocess, sys

rng = random.Random(5)
two = lambda n: struct.pack('>H', n)
name = two
def var(n): return b'\x04' + name(n)
def integer(v): return b'\x01' + struct.pack('>q', v)
def real(v): return b'\x02' + struct.pack('>d', v)
def section(xs): return bytes([len(xs)]) + b''.join(xs)
def node(kind, ins, outs, locs, eqs): return bytes([kind]) + section(ins) + section(outs) + section(locs) + section(eqs)
def equation(names, e): return section([name(n) for n in names]) + e
def int64(n): return name(n) + b'\x04'
def file(nodes, enums=(), constants=()): return b'\x01' + section(list(enums)) + section(list(constants)) + section(nodes)
def one(e): return file([node(1, [], [int64(1)], [], [equation([1], e)])])

# ---- files to read

true, false, unary, pre = b'\x00\x01', b'\x00\x00', b'\x05\x00', b'\x08'
# every section, every form, every kind of type
whole = file(
    [node(0, [name(1) + b'\x04'], [name(2) + b'\x09'], [], [equation([2], b'\x0a\x09' + var(1))]),
     node(1, [name(1) + b'\x00', name(2) + b'\x0c\x01'], [int64(3), name(4) + b'\x0b'], [name(5) + b'\x0a'], [
         equation([5], b'\x07' + var(1) + real(0.5) + b'\x09' + real(-1.0) + pre + var(5)),
         equation([3, 4], b'\x0c\x02\x06\x0a' + integer(7) + b'\x0a\x0c\x00' + b'\x0b\x00\x01' + integer(-1) + b'\x03\x41'),
     ]),
     node(1, [name(1) + b'\x0d\x02\x04'], [name(2) + b'\x0d\x20\x0c\x00'], [name(3) + b'\x0d\x01\x00'], [
         equation([3], b'\x0d' + var(1) + integer(1)),
         equation([2], b'\x0e\x02' + b'\x0f\x00\x00\x01' + var(1) + b'\x0f\x01\x00\x02' + true + var(3) + var(1)),
     ])],
    [section([name(100), name(200)]), section([name(300)])],
    [name(400) + b'\x03' + integer(6), name(401) + b'\x0c\x01' + b'\x05\x01' + true, name(402) + b'\x0d\x02\x09' + b'\x0e\x02' + real(0.5) + true])
counter = bytes.fromhex('01000001010001000104000101000109010000000000000000060a08040001010000000000000001')

def nest(levels, wrap, leaf): return wrap * (levels - 1) + leaf
wraps = [b'\x05\x00', b'\x05\x01', b'\x08', b'\x0a\x04', b'\x0b\x00\x01', b'\x06\x00' + true, b'\x09' + true, b'\x07' + true + true, b'\x0c\x02' + false,
         b'\x0d' + true, b'\x0e\x01', b'\x0e\x02' + true, b'\x0f\x00\x00\x01', b'\x0f\x01\x00\x00', b'\x0f\x01\x00\x01' + true]
leaves = [true, integer(1), real(1.5), b'\x03\x00', var(1), b'\x0b\x00\x00', b'\x0d', b'\x0e', b'\x0f', b'\x0f\x00\x00\x00', b'\x10', b'\xff', b'\x00\x02', b'']

def deep():
    for w in wraps:
        for levels in (2, 23, 24, 25, 26): yield one(nest(levels, w, true))
    for leaf in leaves:
        for levels in (24, 25): yield one(nest(levels, b'\x05\x00', leaf))
    # the parts of a form behind which levels end
    for op, n in ((b'\x06\x0a', 2), (b'\x07', 3), (b'\x09', 2), (b'\x0c\x03', 3), (b'\x0b\x00\x05', 5), (b'\x0d', 2), (b'\x0e\x03', 3), (b'\x0f\x00\x00\x02', 2), (b'\x0f\x01\x00\x02', 3)):
        for k in range(n):
            for levels in (23, 24): yield one(op + true * k + nest(levels, b'\x05\x00', true) + true * (n - 1 - k))
    constant = lambda levels: file([node(1, [], [int64(1)], [], [])], [], [int64(9) + nest(levels, b'\x05\x00', true)])
    yield constant(24)
    yield constant(25)

# each count at and beyond its ends, with and without what follows it
def counts():
    head = b'\x01\x00\x00\x01\x01'
    fronts = [(b'\x01', 0, 16), (b'\x01\x01', 1, 32), (b'\x01\x00', 0, 64), (b'\x01\x00\x00', 1, 32), (head, 0, 32), (head + b'\x00', 1, 16),
              (head + b'\x00\x01' + int64(1), 0, 64), (head + b'\x00\x01' + int64(1) + b'\x00', 0, 80), (head + b'\x00\x01' + int64(1) + b'\x00\x01', 1, 16),
              (head + b'\x00\x01' + int64(1) + b'\x00\x01\x01\x00\x01\x0b\x00', 0, 32), (head + b'\x00\x01' + int64(1) + b'\x00\x01\x01\x00\x01\x0c', 2, 16),
              (head + b'\x00\x01' + int64(1) + b'\x00\x01\x01\x00\x01\x0e', 1, 32), (head + b'\x00\x01' + int64(1) + b'\x00\x01\x01\x00\x01\x0f\x00\x00', 0, 32),
              (head + b'\x00\x01' + int64(1) + b'\x00\x01\x01\x00\x01\x0f\x01\xff', 0, 32),
              (b'\x01\x00\x01\x00\x09\x0d', 1, 32), (head + b'\x01\x00\x09\x0d', 1, 32), (head + b'\x00\x01\x00\x09\x0d', 1, 32), (head + b'\x00\x01' + int64(1) + b'\x01\x00\x09\x0d', 1, 32)]
    for front, lo, hi in fronts:
        for n in {max(lo - 1, 0), lo, hi - 1, hi, hi + 1, 255}:
            yield front + bytes([n])
            yield front + bytes([n]) + b'\x00\x01\x00\x00' * 3
    small = node(1, [], [int64(1)], [], [])
    full = [two(k) for k in range(32)]
    yield file([small], [section(full)])
    yield file([small], [section(full[:1])] * 16)
    yield file([small], [], [int64(k) + true for k in range(64)])
    yield file([small] * 32)
    yield file([node(2, [int64(k) for k in range(32)], [int64(k) for k in range(40, 56)], [int64(k) for k in range(60, 124)], [])])
    yield file([node(1, [], [int64(1)], [], [equation([1], true)] * 80)])
    yield file([node(1, [], [int64(1)], [], [equation(range(16), b'\x0c\x10' + true * 16)])])
    yield one(b'\x0b\x00\x20' + true * 32)
    yield one(b'\x0e\x20' + true * 32)
    yield one(b'\x0f\x00\x00\x20' + true * 32)
    yield one(b'\x0f\x01\x00\x20' + true * 33)
    yield file([node(1, [], [name(1) + b'\x0d\x20\x04'], [], [])])
    # an element's type, known or not, and a cast to an array
    for t in range(15): yield file([node(1, [], [name(1) + b'\x0d\x02' + bytes([t])], [], [])])
    for n in (0, 1): yield file([node(1, [], [name(1) + b'\x0d\x02\x0c' + bytes([n])], [], [])], [section([name(7)])])
    yield one(b'\x0a\x0d\x02\x04' + true)
    yield one(b'\x0b\xff\x00')

def lengths():
    for n in (32769, 32770, 40000, 65535): yield bytes(n)
    for n in (1, 2, 3, 4, 32767, 32768): yield bytes(n)
    for n in (32767, 32768, 32769): yield (counter + bytes(n))[:n]
    yield b''
    yield b'\x02'
    # the longest that reads: Tuples of Tuples, of which so many items are Vars, a byte longer than Bools
    def longest(longer):
        items = iter([var(1)] * longer + [true] * (59 * 256))
        tuples = lambda: b'\x0c\x10' + b''.join(b'\x0c\x10' + b''.join(next(items) for _ in range(16)) for _ in range(16))
        return file([node(1, [], [int64(1)], [], [equation([1], tuples()) for _ in range(59)])])
    longer = 32768 - len(longest(0))
    yield longest(longer)
    yield longest(longer + 1)

def damaged():
    for n in range(len(whole)): yield whole[:n]
    for n in range(len(whole)):
        for b in {(whole[n] + 1) % 256, 255, 13, 16} - {whole[n]}: yield whole[:n] + bytes([b]) + whole[n + 1:]
    for extra in (b'\x00', b'\x01', b'\xff\x00'): yield whole + extra
    yield counter + b'\x00'

# files of the generator that are short enough, some of each answer
def generated():
    for seed in range(1, 5):
        lines = subprocess.run([sys.argv[2], str(seed), '--files', '1500', '--cycles', '0', '--mode', 'bad'], capture_output=True, text=True, check=True).stdout
        for line in lines.splitlines():
            if line.startswith('file ') and len(line) <= 605: yield bytes.fromhex(line[5:].replace('-', ''))

def asked(lines):
    run = subprocess.run([sys.argv[1]], input='\n'.join(lines) + '\n', capture_output=True, text=True, check=True)
    return [line.split() for line in run.stdout.splitlines()]

# what reading a file answers, of what admission does: the faults from 6 on are none of the reader's
def readings(files):
    answers = asked(['file ' + (f.hex() or '-') for f in files])
    assert len(answers) == len(files)
    return [(int(a[1]), int(a[2])) if int(a[1]) <= 5 else (0, 0) for a in answers]

def given(f): return two(len(f.rstrip(b'\0'))) + f.rstrip(b'\0') + two(len(f))

def reading_sections():
    files = list(dict.fromkeys([whole, counter, *deep(), *counts(), *lengths(), *damaged()]))
    more = [f for f in dict.fromkeys(generated()) if f not in files]
    by_number = [[] for _ in range(6)]
    for f, a in zip(files, readings(files)): by_number[a[0]].append((f, a))
    taken = [0] * 6
    for f, a in zip(more, readings(more)):
        if taken[a[0]] < 24:
            taken[a[0]] += 1
            by_number[a[0]].append((f, a))
    for number, them in enumerate(by_number): print(number, len(them), 'files,', len({a[1] for _, a in them}), 'places')
    return b''.join(two(len(them)) + b''.join(given(f) + bytes([a[0]]) + two(a[1]) for f, a in them) for them in by_number)

# ---- nodes to order

# a node whose equations define and read the names given: up to 16 are outputs, up to 64 locals, and `declared` says which
def ordered(eqs, declared=None):
    names = list(dict.fromkeys(n for ns, _ in eqs for n in ns)) if declared is None else declared
    names = names or [1]
    return node(1, [], [int64(n) for n in names[:16]], [int64(n) for n in names[16:80]], [equation(ns, e) for ns, e in eqs])

# an expression that reads these names, in this sequence
def reads(names):
    if not names: return rng.choice([true, integer(1), real(0.5), b'\x03\x07', b'\x0b\x00\x00'])
    e = var(names[-1])
    for n in reversed(names[:-1]): e = b'\x06\x0a' + var(n) + e
    return e

# an expression that reads these names, up to 1,024 of them
def many_reads(names):
    rows = [list(names)[k:k + 32] for k in range(0, len(names), 32)]
    return b'\x0e' + bytes([len(rows)]) + b''.join(b'\x0e' + bytes([len(r)]) + b''.join(var(n) for n in r) for r in rows) if rows else true

def graph(edges): return [([k + 1], reads([j + 1 for j in js])) for k, js in enumerate(edges)]

def shuffled(n): return rng.sample(range(n), n)

# equation places[k] reads that at places[k + 1], and the last one what `end` says
def chain(places, end=()):
    edges = [[] for _ in places]
    for k, p in enumerate(places): edges[p] = [places[k + 1]] if k + 1 < len(places) else list(end)
    return graph(edges)

def perms(n): return [list(p) for p in itertools.permutations(range(n))]

def chains():
    for n in range(1, 5):
        for p in perms(n): yield ordered(chain(p))
    for n in (6, 10, 25, 40):
        for p in (list(range(n)), list(range(n))[::-1], shuffled(n)): yield ordered(chain(p))

def rings():
    for n in range(1, 9):
        for _ in range(3):
            p = shuffled(n)
            yield ordered(chain(p, [p[0]]))
            # a tail that leads into a ring
            yield ordered(chain(p, [p[n // 2]]))
            # equations that the ring neither reads nor is read by, and one that it reads
            q = chain(p, [p[0]])
            k = rng.randrange(n + 1)
            yield ordered(q[:k] + [([90], var(91)), ([91], true)] + q[k:])
            q[p[0]] = (q[p[0]][0], b'\x06\x0a' + q[p[0]][1] + var(90))
            yield ordered(q[:k] + [([90], true)] + q[k:])

def self_reads():
    of = lambda e, *more: ordered([([1], e), *more])
    for e in (var(1), pre + var(1), b'\x09' + true + pre + var(1), b'\x09' + var(1) + true, b'\x06\x0a' + var(1) + pre + var(1), unary + pre + unary + var(1)):
        yield of(e)
        yield of(e, ([1], integer(2)))
        yield of(e, ([2], var(1)), ([1], integer(2)))
        yield of(e, ([1], var(1)))
    yield ordered([([1], integer(2)), ([1], var(1))])
    yield ordered([([1, 2], b'\x0c\x02' + var(2) + true)])
    yield ordered([([1, 2], b'\x0c\x02' + true + true), ([2, 3], b'\x0c\x02' + var(1) + var(3))])

def doubles():
    for _ in range(90):
        n, names = rng.randrange(2, 9), rng.randrange(1, 5)
        yield ordered([(rng.sample(range(1, 6), rng.choice([1, 1, 2])), reads([rng.randrange(1, names + 2) for _ in range(rng.choice([0, 0, 1, 1, 2]))])) for _ in range(n)])

# names that are read or defined and not declared, the greatest and the least among them
def undeclared():
    for _ in range(40):
        pool = rng.sample([0, 1, 2, 255, 256, 257, 511, 512, 32768, 65279, 65534, 65535], 6)
        n = rng.randrange(1, 7)
        yield ordered([([rng.choice(pool)], reads([rng.choice(pool) for _ in range(rng.choice([0, 1, 1, 2]))])) for _ in range(n)], [7])

# a read at each part of each form, and the same under Pre
def forms():
    x = var(2)
    parts = [b'\x05\x00' + x, b'\x05\x01' + x, b'\x06\x0a' + x + true, b'\x06\x0a' + true + x, b'\x07' + x + true + true, b'\x07' + true + x + true, b'\x07' + true + true + x,
             b'\x09' + x + true, b'\x09' + true + x, b'\x0a\x03' + x, b'\x0b\x00\x01' + x, b'\x0b\x00\x03' + true + true + x, b'\x0c\x02' + x + true, b'\x0c\x03' + true + true + x, x,
             b'\x0d' + x + true, b'\x0d' + true + x, b'\x0e\x01' + x, b'\x0e\x03' + true + true + x, b'\x0f\x00\x00\x01' + x, b'\x0f\x00\x00\x03' + true + true + x,
             b'\x0f\x01\x00\x00' + x, b'\x0f\x01\x00\x01' + x + true, b'\x0f\x01\x00\x01' + true + x, b'\x0f\x01\x00\x03' + true + true + true + x]
    for e in parts:
        yield ordered([([1], e), ([2], true)])
        yield ordered([([1], pre + e), ([2], true)])
        yield ordered([([1], b'\x06\x0a' + (pre + e) + e), ([2], var(3)), ([3], b'\x04\x00\x09')])
        yield ordered([([1], b'\x06\x0a' + (pre + e) + true), ([2], var(1))])
    for levels in (22, 23, 24): yield ordered([([1], nest(levels, b'\x05\x00', x)), ([2], nest(levels, pre, var(1)))])

def eighty():
    n = 80
    up = list(range(n))
    for p in (up, up[::-1], up[::2] + up[1::2], up[1::2][::-1] + up[::2], shuffled(n), shuffled(n)): yield ordered(chain(p))
    for p in (up, shuffled(n)): yield ordered(chain(p, [p[0]]))
    yield ordered(chain(up, [79]))
    yield ordered(graph([[] for _ in range(n)]))
    yield ordered([([1], true)] * n)
    yield ordered([([1], var(1))] * n)
    yield ordered([([k % 7], var((k + 1) % 7)) for k in range(n)])
    for density in (0.01, 0.02): yield ordered(graph([[j for j in range(n) if j != k and rng.random() < density] for k in range(n)]))
    order = shuffled(n)
    yield ordered(graph([[j for j in range(n) if order[j] < order[k] and rng.random() < 0.05] for k in range(n)]))
    # each reads all before it; all behind it
    yield ordered([([k + 1], many_reads(range(1, k + 1))) for k in range(n)])
    yield ordered([([k + 1], many_reads(range(k + 2, n + 1))) for k in range(n)])
    # a ring of all but the last, of all but the first
    yield ordered([([k + 1], var((k + 1) % (n - 1) + 1)) for k in range(n - 1)] + [([n], true)])
    yield ordered([([n], true)] + [([k + 1], var((k + 1) % (n - 1) + 1)) for k in range(n - 1)])
    # a chain whose ends have the least name and the greatest
    yield ordered([([0], var(1))] + [([k], var(k + 1)) for k in range(1, n - 2)] + [([n - 2], var(65535)), ([65535], true)])
    # none
    yield ordered([])

def random_nodes():
    for _ in range(80):
        n = rng.randrange(0, 12)
        order = shuffled(n)
        density, free = rng.choice([0.1, 0.2, 0.4]), rng.random() < 0.4
        yield ordered(graph([[j for j in range(n) if (free or order[j] < order[k]) and rng.random() < density] for k in range(n)]))

# nodes into files, so many into one
def packed(nodes, each=16):
    nodes = list(nodes)
    return [file(nodes[k:k + each]) for k in range(0, len(nodes), each)]

def equations_of(f, k):
    # where the node's count of equations stands: behind the sections of its variables
    at = 4
    for _ in range(k + 1):
        at += 1
        for _ in range(3): at += 1 + 3 * f[at]
        count, at = f[at], at + 1
        for _ in range(count): at = skip(f, at + 1 + 2 * f[at])
    return count

parts_of = {0: (1, 0), 1: (8, 0), 2: (8, 0), 3: (1, 0), 4: (2, 0), 5: (1, 1), 6: (1, 2), 7: (0, 3), 8: (0, 1), 9: (0, 2), 10: (1, 1), 13: (0, 2)}
def skip(f, at):
    if f[at] == 11: size, n = 2, f[at + 2]
    elif f[at] in (12, 14): size, n = 1, f[at + 1]
    elif f[at] == 15: size, n = 3, f[at + 1] + f[at + 3]
    else: size, n = parts_of[f[at]]
    at += 1 + size
    for _ in range(n): at = skip(f, at)
    return at

# the questions of a file: a node's number, and the buffer's length
def right(f): return [(k, equations_of(f, k)) for k in range(f[3])]
def wrong(f):
    for k in range(f[3]):
        n = equations_of(f, k)
        for m in sorted({0, n - 1, n + 1, n + 80, 256, 256 + n} - {n, -1}): yield (k, m)
def absent(f): return [(k, m) for k in (f[3], f[3] + 1, 32, 255, 256, 257, 32768, 65535) for m in (0, 1, 3)]

# an order is the oracle's; a buffer of another length than the order's is fault 17
def answer(words, length):
    if words[1] == 'refused': return bytes([int(words[2])]) + two(int(words[3]))
    if len(words) - 2 != length: return b'\x11' + two(0)
    return b'\x00' + two(0) + bytes(int(w) for w in words[2:])

def ordering_section(label, files, questions):
    asks = [(f, list(questions(f))) for f in files]
    answers = iter(asked([line for f, qs in asks for line in ['file ' + f.hex()] + ['order %d' % k for k, _ in qs]]))
    out, total, seen = two(len(asks)), 0, set()
    for f, qs in asks:
        assert next(answers)[0] == 'admit'
        said = [answer(next(answers), m) for _, m in qs]
        seen |= {s[0] for s in said}
        out += given(f) + two(len(qs)) + b''.join(two(k) + two(m) + s for (k, m), s in zip(qs, said))
        total += len(qs)
    print(label, total, 'questions, answers', sorted(seen))
    return out

def ordering_sections():
    sorts = [('chains', chains), ('rings', rings), ('self-reads', self_reads), ('double definitions', doubles), ('undeclared names', undeclared),
             ('forms', forms), ('80 equations', eighty), ('random nodes', random_nodes)]
    files = [(label, packed(make())) for label, make in sorts]
    some = [f for _, fs in files for f in fs[:1]]
    out = b''.join(ordering_section(label, fs, right) for label, fs in files)
    return out + ordering_section('wrong buffers', some, wrong) + ordering_section('absent nodes', some[:2] + [counter], absent)

out = reading_sections() + ordering_sections()
open(os.path.join(os.path.dirname(os.path.abspath(sys.argv[0])), 'stdin'), 'wb').write(out)
print(len(out), 'bytes')
