#!/usr/bin/env python3
"""Gives this repository's definitions and lemmas the spelling of today's Rattle, once, after the kit's port.py.

usage: python3 tools/respell.py        at the top of the repository

respell.tsv beside this script has a row for each name: old, a tab, new. Whole words turn: in proofs and specs, in the
clauses of src/ (no Rust name has a capital behind a small letter, or a dash), in must-fail edits, and in the code spans
of README.md and docs/. Text in quotes stays. Run it once: a few names move into the place of others.
"""

import os
import re
import sys

HERE = os.path.dirname(os.path.realpath(__file__))
WORD = re.compile(r'[^\s(){}\[\].;,@"«»`:|]+')
QUOTED = re.compile(r'"(?:[^"\\\n]|\\.)*"')
SPAN = re.compile(r"`[^`\n]+`")


def rows():
    with open(os.path.join(HERE, "respell.tsv"), encoding="utf-8") as f:
        return dict(line.rstrip("\n").split("\t") for line in f if line.strip())


def words(text, table):
    return WORD.sub(lambda m: table.get(m[0], m[0]), text)


def outside_quotes(text, table):
    out, at = [], 0
    for m in QUOTED.finditer(text):
        out += [words(text[at : m.start()], table), m[0]]
        at = m.end()
    return "".join(out) + words(text[at:], table)


def turned(path, text, table):
    if path.endswith(".antt"):
        return outside_quotes(text, table)
    ghost = {old: new for old, new in table.items() if old != old.lower() or "-" in old}
    if path.endswith((".rt", ".edit")):
        return outside_quotes(text, ghost)
    return SPAN.sub(lambda m: words(m[0], ghost), text)


def files(top):
    for name in ["README.md"] + sorted(os.listdir(os.path.join(top, "docs"))):
        path = os.path.join(top, "docs" if name != "README.md" else "", name)
        if path.endswith(".md") and name != "PORT.md":
            yield path
    for folder, folders, names in os.walk(os.path.join(top, "crates")):
        folders[:] = sorted(f for f in folders if f != "out")
        for name in sorted(names):
            if name.endswith((".antt", ".rt", ".edit")):
                yield os.path.join(folder, name)


def main():
    table = rows()
    for path in files("."):
        with open(path, encoding="utf-8") as f:
            old = f.read()
        new = turned(path, old, table)
        if new != old:
            clash = sorted(set(WORD.findall(old)) & {table[w] for w in WORD.findall(old) if w in table} - set(table))
            if clash and path.endswith(".antt"):
                print(f"look: {path}: stood there before: {' '.join(clash)}")
            with open(path, "w", encoding="utf-8") as f:
                f.write(new)


if __name__ == "__main__":
    sys.exit(main())
