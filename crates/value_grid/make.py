#!/usr/bin/env python3
# Writes the list of answers that value_grid compares with, to the file `stdin` beside this script:
#     python3 make.py ORACLE
# ORACLE is a driver around the unchanged Rust of docs/src (`Sim::new`, `Sim::step_full`), built with overflow checks. It takes a
# command a line, `file HEX`, `start`, `cycle HEX`, in document 01's byte form, and answers each with a line, `answered VALUES STATE`,
# `stopped NUMBER ..`, `refused 16 0`, `state STATE`. Each answer here is that of a file with one equation, whose output is
# a Bool, which holds any value as it is.
#
# The list: 42 cells, the grid. Then an answer for each operator 0 to 19 on each two cells, for Not and Neg on each
# cell, for a cast to each type 0 to 12 of each cell, and for storing each cell in a variable of each type. An answer is a byte, 0 for
# false, 1 for true, 4 for another value, whose cell follows, and for a stop its number, 18 to 21. Then for each type and each cell
# a byte, whether it is taken as an input; for each type the cell of its default; and 17 further cells, each with a byte,
# whether an input of its tag's type takes it. An enum type is that of the names 100 and 200.
import os, struct, subprocess, sys

def cell(tag, payload): return bytes([tag]) + struct.pack('>Q', payload % 2 ** 64)
def double(x): return cell(2, struct.unpack('>Q', struct.pack('>d', x))[0])
def single(x): return cell(3, struct.unpack('>I', struct.pack('>f', x))[0])

ints = [-2 ** 63, 1 - 2 ** 63, -3037000500, -129, -7, -1, 0, 1, 2, 63, 64, 200, 3037000500, 16777219, 2 ** 53 + 1, 2 ** 63 - 1]
doubles = [0.0, -0.0, 1.0, -7.5, 300.7, 1e30, float('-inf'), 2.0 ** -149, 2.0 ** -150, 16777217.0, 2.0 ** 63, 3.4028235677973366e38]
singles = [0.0, -0.0, 1.0, -7.5, 16777216.0, 2.0 ** -149, float('inf')]
grid = [cell(0, 0), cell(0, 1)] + [cell(1, i) for i in ints] + [double(x) for x in doubles] + [cell(2, 0x7FF8 << 48)]
grid += [single(x) for x in singles] + [cell(3, 0x7FC00000), cell(4, 100), cell(4, 200), cell(4, 300)]
odd = [cell(0, 2), cell(1, -1), cell(2, 0x7FF8 << 48), cell(2, (0x7FF8 << 48) + 1), cell(2, 0xFFF8 << 48), cell(2, 0x7FF0 << 48), cell(2, 1)]
odd += [cell(3, 0x7FC00000), cell(3, 0x7FC00001), cell(3, 0xFFC00000), cell(3, 0x7F800000), cell(3, 2 ** 32), cell(4, 200), cell(4, 201), cell(4, 65736)]
odd += [cell(5, 0), cell(255, 1)]

name = lambda n: struct.pack('>H', n)
var = lambda n: b'\x04' + name(n)
types = [bytes([c]) for c in range(12)] + [b'\x0c\x00']
by_tag = [types[0], types[4], types[10], types[9], types[12]]

def file(inputs, output, rhs):
    node = b'\x01' + bytes([len(inputs)]) + b''.join(name(k + 1) + t for k, t in enumerate(inputs))
    node += b'\x01' + name(9) + output + b'\x00\x01\x01' + name(9) + rhs
    return b'\x01\x02\x02' + name(100) + name(200) + b'\x01' + name(300) + b'\x00\x01' + node

# an input's type, for a cell of the grid: the name 300 is the other enum's
def kind(c): return b'\x0c\x01' if c == cell(4, 300) else by_tag[c[0]]

def of_answer(line):
    words = line.split()
    if words[0] == 'stopped':
        assert words[1] in ('18', '19', '20', '21'), line
        return bytes([int(words[1])])
    value = bytes.fromhex(words[1])[-9:]
    return value[-1:] if value[0] == 0 else b'\x04' + value

def of_input(line): return bytes([line.split()[0] != 'refused'])
def of_start(line): return bytes.fromhex(line.split()[1])[-9:]
def nothing(line): return b''

asks = []
def ask(text, read): asks.append((text, read))
def run(f, cells, read=of_answer):
    ask('file ' + f.hex(), nothing)
    ask('start', nothing)
    for c in cells: ask('cycle ' + (c.hex() or '-'), read)

for op in range(20):
    for l in grid:
        for r in grid: run(file([kind(l), kind(r)], types[0], bytes([6, op]) + var(1) + var(2)), [l + r])
for op in range(2):
    for v in grid: run(file([kind(v)], types[0], bytes([5, op]) + var(1)), [v])
for t in types:
    for v in grid: run(file([kind(v)], types[0], b'\x0a' + t + var(1)), [v])
for t in types:
    for v in grid: run(file([kind(v)], t, var(1)), [v])
for t in types:
    for v in grid: run(file([t], types[0], var(1)), [v], of_input)
for t in types:
    ask('file ' + file([], t, b'\x00\x00').hex(), nothing)
    ask('start', of_start)
ask(None, None)
for c in odd: run(file([by_tag[min(c[0], 4)]], types[0], var(1)), [c], of_input)

lines = subprocess.run([sys.argv[1], '--no-model'], input='\n'.join(t for t, _ in asks if t) + '\n', capture_output=True, text=True, check=True).stdout.splitlines()
out, answers, further = b''.join(grid), iter(lines), iter(odd)
at_odd = False
for text, read in asks:
    if text is None: at_odd = True
    else:
        line = next(answers)
        assert not line.startswith('admit') or line.startswith('admit 0 '), (text, line)
        out += (next(further) if at_odd and read is of_input else b'') + read(line)
assert next(answers, None) is None
open(os.path.join(os.path.dirname(os.path.abspath(sys.argv[0])), 'stdin'), 'wb').write(out)
print(len(grid), 'cells,', len(odd), 'further,', len(out), 'bytes')
