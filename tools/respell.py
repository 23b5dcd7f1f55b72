#!/usr/bin/env python3
"""Brings the repository's own names to snake case, by the table respelled.tsv beside it.

usage: python3 tools/respell.py      at the top of the repository, once, after port.py

The table has the names that specs/ and proofs/ declare, and the aliases of their imports, that had a dash or a capital inside. Names of src/, of types
and modules, and those that Rattle makes are not in it. A lemma whose name would be a definition's or a function's ends in _lem.
"""

import glob
import os
import re
import sys

TOKEN = re.compile(r"[^\s(){}\[\];,.\"`]+")
QUOTED = re.compile(r"`[^`]*`")
COMMENT = {".rt": "//", ".antt": "--"}


def table():
    with open(os.path.join(os.path.dirname(os.path.realpath(__file__)), "respelled.tsv"), encoding="utf-8") as f:
        return dict(line.rstrip("\n").split("\t") for line in f)


def code(text, names):
    return TOKEN.sub(lambda m: names.get(m.group(0), m.group(0)), text)


def comment(text, names):
    camel = {n: s for n, s in names.items() if "-" not in n and n != s.lower() and any(c.isupper() for c in n)}
    return code(QUOTED.sub(lambda m: code(m.group(0), names), text), camel)


def respelled(text, mark, names):
    lines = []
    for line in text.split("\n"):
        at = line.find(mark) if line.lstrip().startswith(mark) else line.find(" " + mark + " ")
        lines.append(code(line, names) if at < 0 else code(line[:at], names) + comment(line[at:], names))
    return "\n".join(lines)


def main():
    names = table()
    n = 0
    for p in sorted(glob.glob("crates/*/specs/**/*.antt", recursive=True) + glob.glob("crates/*/proofs/**/*.antt", recursive=True) + glob.glob("crates/*/src/*.rt")):
        with open(p, encoding="utf-8") as f:
            old = f.read()
        new = respelled(old, COMMENT[os.path.splitext(p)[1]], names)
        if new != old:
            with open(p, "w", encoding="utf-8") as f:
                f.write(new)
            n += 1
    print(f"respell: {len(names)} names, {n} files")


if __name__ == "__main__":
    sys.exit(main())
