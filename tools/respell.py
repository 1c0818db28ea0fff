#!/usr/bin/env python3
"""Brings this repository's own definitions and lemmas to snake case, and its facts to camel case.

usage: python3 tools/respell.py     once, at the top, right after the toolchain's port.py

A name is turned where a file of specs/ or a shared file of proofs/ declares it with a dash in it. Names that
the toolchain makes, in Answers and Invariants, and functions of src/ keep theirs. Two names that would fall together
stop the run, before anything is written.
"""

import glob
import re
import sys

DECLARED = re.compile(r"\s*(?:unfoldable |abbrev |pub |data |record )*([^\s(){}:]+)(?: [^:=]*)? : ")
TOKEN = re.compile(r"[A-Za-z_][\w'-]*")
MADE = re.compile(r"/(Answers|Invariants|Given|Choices|Proof)\.antt$")


def files(*patterns):
    return sorted(p for pattern in patterns for p in glob.glob(pattern, recursive=True))


def read(path):
    with open(path, encoding="utf-8") as f:
        return f.read()


def declared():
    """Every name that a file of definitions or lemmas declares."""
    names = set()
    for path in files("crates/*/specs/**/*.antt", "crates/*/proofs/**/*.antt"):
        if not MADE.search(path):
            names.update(m[1] for line in read(path).splitlines() if (m := DECLARED.match(line)))
    return names


def turned(name):
    """A fact is in camel case, and all else in snake case."""
    first, *rest = name.split("-")
    if first[:1].isupper():
        return first + "".join(word[:1].upper() + word[1:] for word in rest)
    return "_".join([first, *rest])


def main():
    names = declared()
    turns = {name: turned(name) for name in names if "-" in name and TOKEN.fullmatch(name)}
    # InRank of the book and In-rank of a proof above it are never named in one file
    together = sorted(n for n, to in turns.items() if to in names and to != "InRank")
    together += sorted(n for n in turns if sum(turns[n] == to for to in turns.values()) > 1)
    if together:
        sys.exit("these fall together: " + " ".join(together))
    for path in files("crates/*/specs/**/*.antt", "crates/*/proofs/**/*.antt", "crates/*/src/**/*.rt", "crates/*/must-fail/*.edit", "docs/*.md", "README.md"):
        old = read(path)
        new = TOKEN.sub(lambda m: turns.get(m[0], m[0]), old)
        if new != old:
            with open(path, "w", encoding="utf-8") as f:
                f.write(new)


if __name__ == "__main__":
    main()
