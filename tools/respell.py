#!/usr/bin/env python3
"""Respells the definitions and lemmas of the crates: words in snake case, a dash only between two names.

usage: python3 tools/respell.py [ROOT]

The table tools/respelled.tsv, beside this file, has a line for each name: the old one, a tab, the new one. Each whole word of
crates/*/specs, crates/*/proofs, and of clauses, ghost uses and comments in crates/*/src is read by it; strings and functions of src/ keep
their names, since no name of the table is a word of Rattle code. With --texts it does the same to README.md and docs/.
It is run once, right after port.py.
"""
import os
import re
import sys

HERE = os.path.dirname(os.path.realpath(__file__))
WORD = re.compile(r"[^\s(){}\[\],;.:«»`\"◌]+")
STRING = re.compile(r'b?"(?:[^"\\]|\\.)*"')


def table():
    with open(os.path.join(HERE, "respelled.tsv"), encoding="utf-8") as f:
        return dict(line.rstrip("\n").split("\t") for line in f if line.strip())


def respell(text, names, steps=False):
    """With steps, a word behind a dot is a step of the code, which has no lemma's ending."""

    def new(m):
        name = names.get(m.group(0), m.group(0))
        if steps and m.start() > 0 and text[m.start() - 1] == "." and name.endswith("_lem"):
            return name[:-4]
        return "in_shape" if steps and text[m.start() - 1] == "." and name == "is_in_shape" else name

    return WORD.sub(new, text)


def respell_source(text, names):
    out, at = [], 0
    for m in STRING.finditer(text):
        out += [respell(text[at:m.start()], names), m.group(0)]
        at = m.end()
    return "".join(out) + respell(text[at:], names)


def main():
    words = [w for w in sys.argv[1:] if not w.startswith("--")]
    root = words[0] if words else os.getcwd()
    names = table()
    files = []
    if "--texts" in sys.argv:
        files = [os.path.join(root, "README.md")]
        for folder, _, fs in os.walk(os.path.join(root, "docs")):
            files += [os.path.join(folder, f) for f in fs if f.endswith(".md") and f != "PORT.md"]
    else:
        for folder, dirs, fs in os.walk(os.path.join(root, "crates")):
            dirs[:] = sorted(d for d in dirs if d not in ("out", "must-fail"))
            files += [os.path.join(folder, f) for f in sorted(fs) if f.endswith((".rt", ".antt"))]
    changed = 0
    for path in files:
        with open(path, encoding="utf-8") as f:
            text = f.read()
        new = respell_source(text, names) if path.endswith(".rt") else respell(text, names, path.endswith("/Proof.antt"))
        if new != text:
            changed += 1
            with open(path, "w", encoding="utf-8") as f:
                f.write(new)
    print(f"respell: {len(names)} names, {changed} of {len(files)} files changed")


if __name__ == "__main__":
    main()
