#!/usr/bin/env python3
"""Files that ask for much stack: 32 nodes, each calling the one before it from the 24th level of an expression, by each way down. Prints NAME HEX INPUTS-HEX per line, as files.py does.

The names are low (1), or high (60,001 and on), for which the tables by name are larger. `constants` has 64 constants at the deepest level; `refused` is a file that reads and has fault 14,
the last to be judged. Of the files with arrays `frames` has nodes of 112 arrays of 32, 32,256 bytes of cells each, the main one too, `array-arguments` passes 32 arrays from the deepest level, `held` keeps 31
arguments of 32 elements on each of 22 levels while the next one is evaluated, in as many nodes as the file has room for, and `iterated` goes down by folds into Functions of 64 arrays."""
from files import I64, array, arrow, b, bi, call, cast, ci, eq, file, folded, i, index, ite, literal, mapped, name, node, un, var

LEVELS, NODES = 24, 32

# one level down, around an expression
WAYS = {
    'negations': lambda e: un(1, e),
    'sums-left': lambda e: bi('Add', e, i(0)),
    'sums-right': lambda e: bi('Add', i(0), e),
    'conditions': lambda e: ite(bi('Eq', i(0), e), i(0), i(0)),
    'choices': lambda e: ite(b(1), e, i(0)),
    'others': lambda e: ite(b(0), i(0), e),
    'untaken': lambda e: ite(b(1), i(0), e),
    'arrows-left': lambda e: arrow(e, i(0)),
    'arrows-right': lambda e: arrow(i(0), e),
    'casts': lambda e: cast(I64, e),
    'elements': lambda e: index(literal(e), i(0)),
    'indexes': lambda e: index(literal(i(0)), bi('Mul', i(0), e)),
    'seeds': lambda e: folded(0, e, literal(i(0))),
    'folds': lambda e: folded(0, i(0), literal(e)),
    'maps': lambda e: index(mapped(1, literal(e)), i(0)),
}
ITERATORS = ('seeds', 'folds', 'maps')


def down(way, e, levels):
    """e so many levels down. A way may use up several levels at once."""
    while True:
        outer = WAYS[way](e)
        if depth(outer) > levels:
            break
        e = outer
    return e


def depth(e):
    d, end = parse(e, 0)
    assert end == len(e)
    return d


SIZES = {0: (2, 0), 1: (9, 0), 2: (9, 0), 3: (2, 0), 4: (3, 0), 5: (2, 1), 6: (2, 2), 7: (1, 3), 8: (1, 1), 9: (1, 2), 10: (2, 1), 13: (1, 2)}


def parse(e, at):
    """The levels of the expression at a place, and its end."""
    c = e[at]
    if c in SIZES:
        size, parts = SIZES[c]
    elif c == 11:
        size, parts = 3, e[at + 2]
    elif c == 14:
        size, parts = 2, e[at + 1]
    else:
        size, parts = 4, e[at + 3] + e[at + 1]
    at, most = at + size, 0
    for _ in range(parts):
        d, at = parse(e, at)
        most = max(most, d)
    return most + 1, at


def chain(way, first):
    """Each node is an Operator with an input, an output and a local; node k calls node k - 1 at the deepest level. The first has a sum there. Before them stand the iterators' Functions, if any."""
    x, y, z = first, first + 1, first + 2
    nodes = [node(0, [(x, I64), (z, I64)], [(y, I64)], [], [eq(y, var(x))]), node(0, [(x, I64)], [(y, I64)], [], [eq(y, var(x))])] if way in ITERATORS else []
    lowest = len(nodes)
    for k in range(lowest, NODES):
        leaf = call(k - 1, var(x)) if k > lowest else bi('Add', var(x), i(1))
        e = down(way, leaf, LEVELS)
        nodes.append(node(1, [(x, I64)], [(y, I64)], [(z, I64)], [eq(y, e), eq(z, i(0))]))
    return file(nodes)


def arguments(first):
    """The way down is a call's argument: 22 calls in one another in each node would have 22 records, so only the calls of a Function nest. The Function has choices down to the deepest level."""
    x, y = first, first + 1
    nodes = [node(0, [(x, I64)], [(y, I64)], [], [eq(y, down('choices', var(x), LEVELS))])]
    for k in range(1, NODES):
        e = call(k - 1, var(x))
        while depth(e) < LEVELS:
            e = call(0, e)
        nodes.append(node(1, [(x, I64)], [(y, I64)], [], [eq(y, e)]))
    return file(nodes)


def functions(first):
    """Functions all the way down, the last node an Operator."""
    x, y = first, first + 1
    nodes = []
    for k in range(NODES):
        leaf = call(k - 1, var(x)) if k else var(x)
        nodes.append(node(1 if k == NODES - 1 else 0, [(x, I64)], [(y, I64)], [], [eq(y, down('sums-right', leaf, LEVELS))]))
    return file(nodes)


LONGEST, FILE = 32, 32768
A = array(LONGEST, I64)


def main_node(first, last, output, right):
    """An Operator that gives its input, as an array of 32, to the Function `last`."""
    x, y, a = first, first + 1, first + 2
    return node(1, [(x, I64)], [(y, output)], [(a, A)], [eq(a, literal(*[var(x)] * LONGEST)), eq(y, right(call(last, *[var(a)] * 32)))])


def frames(first):
    """Nodes of 32 inputs, 16 outputs and 64 locals, all arrays of 32, each calling the one before it for all its outputs; the last is an Operator, the others are Functions."""
    ins, outs, locs = ([(first + at + k, A) for k in range(n)] for at, n in ((0, 32), (32, 16), (48, 64)))
    nodes = [node(0, ins, outs, locs, [eq(y, var(x)) for (y, _), (x, _) in zip(outs, ins)])]
    for k in range(1, NODES):
        called = call(k - 1, *[var(x) for x, _ in ins])
        nodes.append(node(k == NODES - 1, ins, outs, locs, [bytes([len(outs)]) + b''.join(name(y) for y, _ in outs) + called]))
    return file(nodes)


def array_arguments(first):
    """Functions of 32 inputs and 64 locals, all arrays of 32, and an Int64; each calls the one before it at the last level but one, with its inputs."""
    ins, y, locs = [(first + k, A) for k in range(32)], first + 32, [(first + 33 + k, A) for k in range(64)]
    nodes = [node(0, ins, [(y, I64)], locs, [eq(y, index(var(first), i(0)))])]
    for k in range(1, NODES - 1):
        nodes.append(node(0, ins, [(y, I64)], locs, [eq(y, down('sums-right', call(k - 1, *[var(x) for x, _ in ins]), LEVELS))]))
    return file(nodes + [main_node(first, NODES - 2, I64, lambda e: down('sums-right', e, LEVELS))])


def held(first):
    """The calls of a node are each the last of 32 arguments of another, 31 arrays of 32 before it: all of node 0 but the innermost, which is of the node before. As many nodes as the file has room for."""
    ins, y = [(first + k, A) for k in range(32)], first + 32
    others = [var(x) for x, _ in ins]
    nodes = [node(0, ins, [(y, A)], [], [eq(y, others[-1])])]
    while True:
        e = call(len(nodes) - 1, *others)
        while depth(e) < LEVELS:
            e = call(0, *others[:-1], e)
        more = nodes + [node(0, ins, [(y, A)], [], [eq(y, e)])]
        whole = file(more + [main_node(first, len(more) - 1, A, lambda e: e)])
        if len(whole) > FILE or len(more) == NODES:
            return last
        nodes, last = more, whole


def iterated(first):
    """Functions of two Int64s and 64 arrays of 32, each folding the one before it over one element, from the deepest level."""
    x, y, z, locs = first, first + 1, first + 2, [(first + 3 + k, A) for k in range(64)]
    nodes = [node(0, [(x, I64), (z, I64)], [(y, I64)], locs, [eq(y, var(x))])]
    for k in range(1, NODES):
        e = down('sums-right', folded(k - 1, var(x), literal(var(x))), LEVELS)
        nodes.append(node(0, [(x, I64), (z, I64)], [(y, I64)], locs, [eq(y, e)]) if k < NODES - 1 else node(1, [(x, I64)], [(y, I64)], [], [eq(y, e)]))
    return file(nodes)


def constants(first):
    e = down('choices', i(1), LEVELS)
    return file([node(1, [], [(first, I64)], [], [eq(first, i(1))])], [(first + 1 + k, I64, e) for k in range(64)])


def refused(first):
    return file([node(0, [], [(first, I64)], [], [eq(first, down('sums-right', i(1), LEVELS))])])


def main():
    one = ci(5).hex()
    for names, first in (('low', 1), ('high', 60001)):
        for way in WAYS:
            print('%s-%s' % (way, names), chain(way, first).hex(), one)
        print('arguments-' + names, arguments(first).hex(), one)
        print('functions-' + names, functions(first).hex(), one)
        print('frames-' + names, frames(first).hex(), one * 32 * LONGEST)
        print('array-arguments-' + names, array_arguments(first).hex(), one)
        print('held-' + names, held(first).hex(), one)
        print('iterated-' + names, iterated(first).hex(), one)
        print('constants-' + names, constants(first).hex(), '-')
        print('refused-' + names, refused(first).hex(), '-')


if __name__ == '__main__':
    main()
