#!/usr/bin/env python3
"""Brings the names that this repository declares in specs/ and proofs/ to the spelling of the library.

usage: respell.py [--list]        at the top of the repository

A definition, a constructor, a field and a lemma are in snake case, whatever words made the name before:
placeOf is place_of, length-put is length_put. A type, a fact and a module keep their capitals. A lemma that would have a
definition's name gets _lem. Names of src/, of the library, of exported functions, strings, inputs and outputs stay.
Whole words turn alone, in crates/*/specs, proofs, src (clauses and ghost items), must-fail, and in the code spans of the pages.
--list prints the old and the new name of each and writes nothing. A second run changes nothing.
"""

import os
import re
import sys

SPLIT = re.compile(r'"(?:[^"\\\n]|\\.)*"|--[^\n]*|//[^\n]*|[^\s(){}.;,@"«»\[\]\\]+|.', re.S)
HEAD = re.compile(r"^(\s*)((?:(?:abbrev|unfoldable|pub|data|record) )*)((?!let )[^\s(){}.;,@\"«»\[\]\\]+(?: [\w'-]+)*)((?: \{[^{}]*\}| \((?:[^()]|\((?:[^()]|\([^()]*\))*\))*\))*) :(?= |$)")
# Names whose capitals make one word.
WHOLE = {"NaN": "Nan", "IEEE": "Ieee"}
# Lemmas whose spelling a definition takes: they get _lem.
FREED = "add_r all_in all_lines by_zero end_on first_some found_in good_of head_at names_in no_size node_at number_put place_at reads_all ring_in rows_long run_in same_key ty_size".split()
PAGES = ("README.md", "docs", "oracle/README.md", "examples", "tests", "bench")
LIB = re.compile(r"\b(?:Rattle\.std|base|native|lib|mathlib|Prim|seplogic)\.[\w.]*\{([^}]*)\}")


def snake(name):
    for old, new in WHOLE.items():
        name = name.replace(old, new)
    if name in ("-0", "-1"):
        return "minus_" + name[1:]
    name = name.replace("-", "_")
    name = re.sub(r"([a-z0-9])([A-Z])", r"\1_\2", name)
    name = re.sub(r"([A-Z])([A-Z][a-z])", r"\1_\2", name)
    return name.lower()


def files(root, ends, *below):
    for crate in sorted(os.listdir(os.path.join(root, "crates"))):
        for part in below:
            for folder, dirs, names in os.walk(os.path.join(root, "crates", crate, part)):
                dirs[:] = sorted(d for d in dirs if d != "out")
                for name in sorted(names):
                    if name.endswith(ends):
                        yield os.path.join(folder, name)


def read(path):
    with open(path, encoding="utf-8") as f:
        return f.read()


def plan(root):
    """The new name of each name that turns."""
    where, taken = {}, set()
    for path in files(root, ".antt", "specs", "proofs"):
        text = read(path)
        for line in text.splitlines():
            if line.lstrip().startswith("--"):
                continue
            m = HEAD.match(line)
            # A goal of a function is Rattle's to name.
            if m and "◌" not in m[3] and not re.match(r" tie\.", line[m.end() :]):
                for name in m[3].split(" "):
                    where.setdefault(name, set()).add("/specs/" in path or m[1] != "")
        for name in re.findall(r" as ([^\s(){}.;,]+)[,}]", text):
            where.setdefault(name, set()).add(False)
        # What a path, a step or a field is called, behind a dot, meets no name.
        text = re.sub(r"(?m)^((?:pub )?use )[^{\n]*", r"\1", re.sub(r"\.[^\s(){}.;,@\"«»\[\]\\]+", "", text))
        for part in SPLIT.findall(text):
            if part[:2] != "--" and not part.startswith('"'):
                taken.add(part)
    for path in files(root, ".rt", "src"):
        for line in re.findall(r"ghost use [^;]*;", read(path)):
            for name in re.findall(r" as ([^\s(){}.;,]+)[,}]", line):
                where.setdefault(name, set()).add(False)
        taken |= set(re.findall(r"\b(?:const |static )?(\w+)\s*:(?!:)", read(path)))
    turns = {}
    goes = lambda n: not n[0].isupper() and re.search(r"[-A-Z]", n) and not re.fullmatch(r"[^\w]+", n) and not re.search(r"[^\w\-'?₀-₉ℤℕμκλ]", n)
    for name in sorted(where, key=lambda n: ("-" in n, n)):
        if not goes(name):
            continue
        # RustLeaves has a function is_double beside this constructor of Eval.
        new = "is_double_kind" if name == "isDouble" else snake(name)
        free = "-" not in name and new in [*FREED, "in_order", "int_code"]
        if not free and (new in taken or new in turns.values()):
            new += "_lem" if "-" in name else "_of"
        while not free and (new in taken or new in turns.values()):
            new += "'"
        turns[name] = new
    if "endOn" in turns:
        turns.update({name: name + "_lem" for name in FREED})
    return turns


def turned(text, turns, comments):
    # What a file takes from a library keeps its spelling there.
    kept = set()
    for path, items in re.findall(r"(?m)^(?:pub |ghost )?use ([\w.]+)\.\{([^}]*)\}", text):
        if not os.path.isdir("crates/" + (path.split(".") + [""])[1]):
            kept |= {it.split(" as ")[-1].strip() for it in items.split(",")}
    is_proof = re.search(r"(?m)^use Rattle\.\S+ as tie$", text) is not None
    def one(m):
        part = m[0]
        if part.startswith('"'):
            return part
        if part[:2] in ("--", "//"):
            return part[:2] + re.sub(r"[\w'-]+", lambda w: turns.get(w[0], w[0]) if re.search("[a-z][A-Z]", w[0]) else w[0], part[2:]) if comments else part
        if part in kept:
            return part
        if "-" in part and is_proof and text[m.start() - 1 : m.start()] == ".":
            return part
        # Behind a dot stands a step or a path, which has the name of a function.
        if part in FREED and text[m.start() - 1 : m.start()] == ".":
            return part
        return turns.get(part, part)

    return SPLIT.sub(one, text)


def page(text, turns):
    word = lambda t, dashes: re.sub(r"(?<![\w'-])\w[\w'-]*", lambda w: turns.get(w[0], w[0]) if dashes or re.search("[a-z][A-Z]", w[0]) else w[0], t)
    lines, fenced = [], False
    for line in text.split("\n"):
        if line.startswith("```"):
            fenced = not fenced
        if fenced or line.startswith("    "):
            lines.append(word(line, "->" not in line and "./" not in line))
        else:
            lines.append("".join(word(t, True) if t.startswith("`") else word(t, False) for t in re.split(r"(`[^`]*`)", line)))
    return "\n".join(lines)


def main(argv):
    root = os.getcwd()
    turns = plan(root)
    if "--list" in argv:
        for old, new in turns.items():
            print(f"{old}\t{new}")
        return 0
    changed = 0
    todo = [(p, lambda t: turned(t, turns, True)) for p in files(root, ".antt", "specs", "proofs")]
    # In src/ these are numbers, and functions.
    of_code = {a: b for a, b in turns.items() if a not in ("-0", "-1", *FREED)}
    todo += [(p, lambda t: turned(t, of_code, True)) for p in files(root, ".rt", "src")]
    todo += [(p, lambda t: turned(t, of_code if "file: src/" in t else turns, False)) for p in files(root, ".edit", "must-fail")]
    for top in PAGES:
        top = os.path.join(root, top)
        found = [top] if os.path.isfile(top) else [os.path.join(d, f) for d, _, fs in os.walk(top) for f in fs]
        todo += [(p, lambda t: page(t, turns)) for p in found if p.endswith(".md") and "/docs/src/" not in p]
    for path, turn in todo:
        text = read(path)
        new = turn(text)
        if new != text:
            with open(path, "w", encoding="utf-8") as f:
                f.write(new)
            changed += 1
    print(f"respell: {len(turns)} names, {changed} files")
    return 0


if __name__ == "__main__":
    sys.exit(main(sys.argv[1:]))
