#!/usr/bin/env python3
"""Makes stdin and stdout of relay: `lines` with `lines.expected`, worked out by hand (malformed lines, wrong lengths), then the oracle's vectors (bench, corners) and generated files,
good and damaged ones, then the vectors on why a cycle stopped (i) and generated files that stop in each way, then the vectors on arrays, map and fold (ii) and generated files
with arrays, good and damaged ones, then a state and a cycle of a file that is refused with 22, with the answers of the unchanged Rust.

    cd oracle && cargo build --release --offline -j1
    crates/relay/make.py [COUNTS]

Of the generated files those above 1,200 bytes are left out, of those that stop those above 700, of those with arrays those above 450 or 400, and those with long answers: the gate takes at
most 1,048,576 bytes of answers. COUNTS prints how often each answer occurs, and how many bytes of answers each list has."""
import collections
import os
import subprocess
import sys

HERE = os.path.dirname(os.path.abspath(__file__))
ORACLE = os.path.join(HERE, "..", "..", "oracle")
BIN = os.path.join(ORACLE, "target", "release")
# vectors; then the seed, files and cycles of gen, its other words, the longest file that is taken and, where that is asked, how long its answers may be together
LISTS = [(("bench", "corners"), [("7101", "180", "4", ["--mode", "good", "--loads"], 1_200, None), ("7102", "600", "2", ["--mode", "bad"], 1_200, None)]),
         (("i",), [("7103", "60", "4", ["--mode", "good", "--loads", "--stops"], 700, None)]),
         (("ii",), [("7104", "400", "3", ["--mode", "good", "--stops", "--arrays"], 450, 1_200), ("7105", "250", "1", ["--mode", "good", "--loads", "--arrays"], 450, 1_200),
                    ("7106", "1100", "2", ["--mode", "bad", "--arrays"], 400, 600)])]
# behind these lists: a file that is refused with 22, a state to load, and a cycle from one
LAST = ["file 0100000101000100010d02040001010001050108040001", "load 00", "at 00 00"]
ROOM = 1 << 20


def answered(lines):
    stream = "\n".join(lines) + "\n"
    return subprocess.run([os.path.join(BIN, "oracle")], input=stream, capture_output=True, text=True, check=True).stdout.splitlines()


def generated(seed, files, cycles, more, longest, answers):
    out = subprocess.run([os.path.join(BIN, "gen"), seed, "--files", files, "--cycles", cycles] + more, capture_output=True, text=True, check=True).stdout
    blocks, lines = [], []
    for line in out.splitlines():
        if line.startswith("#"):
            continue
        if line.startswith("file ") and lines:
            blocks.append(lines)
            lines = []
        lines.append(line)
    blocks.append(lines)
    blocks = [b for b in blocks if len(b[0]) <= 5 + 2 * longest]
    if answers is not None:
        said = iter(answered([line for b in blocks for line in b]))
        blocks = [b for b in blocks if sum(len(next(said)) + 1 for _ in b) <= answers]
    return [line for b in blocks for line in b]


def vectors(name):
    with open(os.path.join(ORACLE, "vectors", name + ".txt")) as f:
        return [line.rstrip("\n") for line in f if line.strip() and not line.startswith(("#", "raw "))]


def main():
    lists = [[line for name in names for line in vectors(name)] + [line for run in runs for line in generated(*run)] for names, runs in LISTS] + [LAST]
    each = [answered(lines) for lines in lists]
    stream = "".join(line + "\n" for lines in lists for line in lines)
    answers = "".join(line + "\n" for lines in each for line in lines)
    by_hand = [open(os.path.join(HERE, n)).read() for n in ("lines", "lines.expected")]
    assert len(by_hand[1]) + len(answers) <= ROOM, "more answers than the gate takes"
    with open(os.path.join(HERE, "stdin"), "w") as f:
        f.write(by_hand[0] + stream)
    with open(os.path.join(HERE, "stdout"), "w") as f:
        f.write(by_hand[1] + answers)
    if sys.argv[1:] == ["COUNTS"]:
        count = collections.Counter()
        for a in answers.splitlines():
            w = a.split()
            count[" ".join(w[:3] if w[:2] == ["order", "refused"] else w[:1] if w[0] in ("answered", "state", "loaded") else w[:2])] += 1
        for k in sorted(count, key=lambda k: (k.split()[:-1], int(k.split()[-1]) if k.split()[-1].isdigit() else 0)):
            print(count[k], k)
        for (names, _), lines, said in zip(LISTS, lists, each):
            print(" ".join(names) + ":", sum(line.startswith("file ") for line in lines), "files,", sum(len(a) + 1 for a in said), "bytes of answers")


main()
