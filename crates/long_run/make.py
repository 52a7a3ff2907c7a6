#!/usr/bin/env python3
"""Makes stdin and stdout of long_run: the counter and the feeder file of bench/files.py with two lists of inputs, and the unchanged Rust's last answer after a million cycles of each.

    cd oracle && cargo build --release --offline -j1
    crates/long_run/make.py

Each run has 500,000 pairs of cycles; the inputs change after each 1,000 pairs. `fresh again` is counted on the oracle's states too."""
import os
import struct
import subprocess

HERE = os.path.dirname(os.path.abspath(__file__))
ROOT = os.path.join(HERE, "..", "..")
ORACLE = os.path.join(ROOT, "oracle", "target", "release", "oracle")
PAIRS, PHASE = 500_000, 1_000


def bench(name):
    out = subprocess.run(["python3", os.path.join(ROOT, "bench", "files.py")], capture_output=True, text=True, check=True)
    words = [line.split() for line in out.stdout.splitlines()]
    return next(w for w in words if w[0] == name)


def other_inputs(inputs):
    """No fault: every current small, the reset given."""
    cells = [inputs[i:i + 18] for i in range(0, len(inputs), 18)]
    for k in range(8, 14):
        cells[k] = "0300000000" + struct.pack(">f", 0.01 * k).hex()
    cells[3] = "00" + "0" * 15 + "1"
    return "".join(cells)


def last(file, first, second):
    """The counts and the last answer of the oracle."""
    p = subprocess.Popen([ORACLE, "--no-model"], stdin=subprocess.PIPE, stdout=subprocess.PIPE, text=True)
    if os.fork() == 0:
        p.stdin.write(f"file {file}\nstart\n")
        for i in range(PAIRS):
            p.stdin.write(f"cycle {first if i // PHASE % 2 == 0 else second}\n" * 2)
        p.stdin.close()
        os._exit(0)
    p.stdin.close()
    assert p.stdout.readline().startswith("admit 0 0 ")
    state = p.stdout.readline().split()[1]
    answered = again = 0
    line = ""
    for line in p.stdout:
        answered += line.startswith("answered ")
        again += line.split()[-1] == state
    return f"{answered} answered; the fresh state again {again} times\n{line}"


def main():
    counter, feeder = bench("counter"), bench("feeder30")
    first, second = feeder[2], other_inputs(feeder[2])
    with open(os.path.join(HERE, "stdin"), "wb") as f:
        f.write(bytes.fromhex(counter[1] + feeder[1] + first + second))
    with open(os.path.join(HERE, "stdout"), "w") as f:
        f.write(last(counter[1], "-", "-"))
        f.write(last(feeder[1], first, second))


main()
