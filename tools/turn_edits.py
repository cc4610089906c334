#!/usr/bin/env python3
"""Turns the must-fail edits, written for the text of the commit LANDED, to the text that the crates have today, with the same wrong meaning.

usage: tools/turn_edits.py [--write]      from anywhere in the repository; without --write it only says what it would do

A table of words is learned from the lines that stand in the same place in LANDED and in RESPELLED, the commit that respelled the repository. An old: text is
looked up in LANDED's file, with the edit's earlier pairs applied, and respelled with its new: text by that table, by tight projections (`w .height` is
`w.height`) and bare clauses (`⌜ P ⌝` is `P`). A turned text must stand once in today's file, on the line that answers to LANDED's, and its new: text may have
no word that today's file lacks, unless it is as new in LANDED's. Where one of these fails the edit is listed, with today's line, to be turned by hand. An edit
that is not as LANDED has it was turned before, and stays.
"""
import difflib
import glob
import os
import re
import subprocess
import sys
from collections import Counter, defaultdict

LANDED, RESPELLED = "1a3d293", "c8d6f98"
TOP = os.path.dirname(os.path.dirname(os.path.realpath(__file__)))
WORD = re.compile(r"[^\W\d][\w′'·]*(?:-[\w′'·]+)*")


def git(*args):
    return subprocess.run(["git", "-C", TOP, *args], capture_output=True, text=True, check=True).stdout


def tight(text):
    """The text with bare clauses and tight projections."""
    text = re.sub(r"⌜ (.*?) ⌝", r"\1", text)
    text = re.sub(r"\(([\w′']+) \.([\w′'-]+)\)", r"\1.\2", text)
    return re.sub(r"([\w′')]) \.([\w′'-]+)", r"\1.\2", text)


def places(old, new):
    """The lines of two texts that answer to one another: those that are equal, and those of replaced stretches, by likeness."""
    for tag, a, b, c, d in difflib.SequenceMatcher(None, old, new, autojunk=False).get_opcodes():
        if tag == "equal" or tag == "replace" and b - a == d - c:
            yield from zip(range(a, b), range(c, d))
        elif tag == "replace":
            like = lambda i, j: difflib.SequenceMatcher(None, WORD.sub(lambda m: m[0].lower().replace("_", ""), old[i]), new[j].replace("_", "")).ratio()
            yield from ((i, max(range(c, d), key=lambda j: like(i, j))) for i in range(a, b))


def learn():
    """What each word of LANDED's .rt and .antt files is called in RESPELLED, where it has another name."""
    seen = defaultdict(Counter)
    for path in git("diff", "--name-only", "--diff-filter=M", LANDED, RESPELLED, "--", "crates/*.rt", "crates/*/specs/*.antt").splitlines():
        old, new = (git("show", f"{c}:{path}").split("\n") for c in (LANDED, RESPELLED))
        for i, j in places(old, new):
            a, b = WORD.findall(tight(old[i])), WORD.findall(new[j])
            if len(a) == len(b) and not re.match(r"\s*(pub )?(ghost )?use ", old[i]):
                for x, y in zip(a, b):
                    seen[x][y] += 1
    return {x: y for x, ys in seen.items() for y, n in ys.items() if 2 * n > ys.total()}


def turn(edit, lines, table):
    """The turned text of an edit's lines, and what is unsure about it."""
    texts = [line[5:] for line in lines if re.match("old: |new: ", line)]
    path = os.path.join(edit.split("/must-fail/")[0], next(line[6:] for line in lines if line.startswith("file: ")))
    was = git("show", f"{LANDED}:{os.path.relpath(path, TOP)}").split("\n")
    with open(path, encoding="utf-8") as f:
        now = f.read().split("\n")
    answers = dict(places(was, now))
    words = lambda *texts: {word for text in texts for word in WORD.findall(text)}
    respell = lambda text, keep: WORD.sub(lambda m: m[0] if m[0] in keep else table.get(m[0], m[0]), tight(text))
    turned, unsure = [], []
    for old, new in zip(texts[::2], texts[1::2]):
        at = [i for i, line in enumerate(was) if old in line]
        assert len(at) == 1, f"{edit}: {old} does not stand once in {LANDED}"
        there = now[answers[at[0]]] if at[0] in answers else ""
        pair = (old if old in there else respell(old, ()), respell(new, words(*now)))
        found = [j for j, line in enumerate(now) for _ in range(line.count(pair[0]))]
        strange = words(pair[1]) - words(*now) - (words(new) - words(*was))
        if found != [answers.get(at[0])] or strange:
            unsure.append((old, new, *pair, [j + 1 for j in found], sorted(strange), there))
        else:
            now[found[0]] = now[found[0]].replace(*pair)
        was[at[0]] = was[at[0]].replace(old, new)
        turned += pair
    names = iter(turned)
    return "\n".join(line[:5] + next(names) if re.match("old: |new: ", line) else line for line in lines), unsure


def main():
    table = learn()
    same, turned, before = 0, 0, 0
    for edit in sorted(glob.glob(TOP + "/crates/*/must-fail/*.edit")):
        name = os.path.relpath(edit, TOP)
        with open(edit, encoding="utf-8") as f:
            old = f.read()
        if old != git("show", f"{LANDED}:{name}"):
            before += 1
            continue
        new, unsure = turn(edit, old.split("\n"), table)
        if unsure:
            print(f"by hand: {name}")
            for parts in unsure:
                print("    old {}\n    new {}\n    as  {}\n    to  {}\n    on lines {} strange {} today {}".format(*parts))
        elif new == old:
            same += 1
        else:
            turned += 1
            print(f"turned: {name}\n" + "\n".join("    " + line for line in new.split("\n") if line))
            if "--write" in sys.argv:
                with open(edit, "w", encoding="utf-8") as f:
                    f.write(new)
    print(f"{same} stand as they are, {turned} turned, {before} turned before")


main()
