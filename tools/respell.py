#!/usr/bin/env python3
"""Spells the definitions and lemmas of crates/ that port.py left in the older spelling: words in snake case, with the dash between two names kept.

usage: tools/respell.py [TOP]      TOP is the repository's top, by default the folder above this file's

Run once, right after port.py. A word of .antt files, of clauses and ghost lines of .rt files is respelled whole, wherever it stands. Two lemmas and one more
whose names would meet a respelled definition get another name first (FIRST). Names of functions, strings and other files stay.
"""
import glob
import os
import re
import sys

TOP = sys.argv[1] if len(sys.argv) > 1 else os.path.dirname(os.path.dirname(os.path.realpath(__file__)))

# old name, new name, and the files below crates/ in which it is respelled (none: all)
FIRST = [
    ("entry_in", "entry_in-is", None),
    ("under_at", "under-at", "steps/proofs/EndingFive.antt"),
    ("left_open", "left-open", "steps/proofs/Hops.antt orders/proofs/Ways.antt wires/proofs/Drawn.antt wires/proofs/Stretches.antt"),
]

WORD = r"(?<![^\s(){{}}.;,@\"«»`'\[])({})(?![^\s(){{}}.;,@\"«»`'\[\]:])"
DECLARED = re.compile(r"^\s*(?:(?:pub|abbrev|unfoldable|data|record|ruleset) )*([^\s(){}.;,@\"«»:]+)(?: (?:\([^)]*\)|\{[^}]*\}))*\s*:\s", re.M)
CAMEL = re.compile(r"(?:^|[-_])[a-z][a-z0-9_]*[A-Z]")
CLAUSE = re.compile(r"ghost use\b[^;]*;|(?:requires|ensures)\b[^{\n]*\{(?:[^{}]|\{[^{}]*\})*\}|ghost\b[^{\n;]*\{(?:[^{}]|\{[^{}]*\})*\}|//[^\n]*")


def snake(name):
    return re.sub(r"(?<=[a-z0-9])[A-Z]", lambda m: "_" + m[0].lower(), re.sub(r"getD(?=-|$)", "get_or", name))


def files(ending):
    return sorted(p for p in glob.glob(TOP + "/crates/*/**/*" + ending, recursive=True) if "/out/" not in p)


def turn(path, table):
    """Respells the words of a file by a table: all of an .antt file, of an .rt file the clauses, ghost lines and comments."""
    with open(path, encoding="utf-8") as f:
        text = f.read()
    names = sorted(table, key=len, reverse=True)
    pattern = re.compile(WORD.format("|".join(map(re.escape, names))))
    one = lambda t: pattern.sub(lambda m: table[m[1]], t)
    new = one(text) if path.endswith(".antt") else CLAUSE.sub(lambda m: one(m[0]), text)
    if new != text:
        with open(path, "w", encoding="utf-8") as f:
            f.write(new)
        return 1
    return 0


def main():
    every = files(".antt") + files(".rt")
    for old, new, where in FIRST:
        chosen = [TOP + "/crates/" + p for p in where.split()] if where else [p for p in every if p.endswith(".antt")]
        for p in chosen:
            if os.path.exists(p):
                turn(p, {old: new})
    declared = set()
    for p in files(".antt"):
        with open(p, encoding="utf-8") as f:
            declared |= set(DECLARED.findall(f.read()))
    table = {n: snake(n) for n in declared if CAMEL.search(n)}
    for old, new in sorted(table.items()):
        if new in declared:
            print(f"look: {old} is now {new}, a name that is declared elsewhere too")
    print(f"{len(table)} names, {sum(turn(p, table) for p in every)} files")


main()
