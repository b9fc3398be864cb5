#!/usr/bin/env python3
"""Spells the repository's own definitions and lemmas in snake case, by respell.tsv beside this file. Run once, at the top, after the kit's port.py.

It turns whole words in crates/: all of .antt but quoted text, and what stands outside of strings in .rt; and code spans in README.md and docs/.
In a function's Answers and Invariants a word behind a dot stays, since it may be a label that Rattle makes, but for those of FIELDS.
"""

import os
import re

HERE = os.path.dirname(os.path.abspath(__file__))
FIELDS = {"as-listed", "every-run", "same-agree", "agree-same", "stepS", "stepT", "t-steps"}
WORD = re.compile(r"[^\s(){}.;,:@\"«»`]+")
STRING = re.compile(r'b?"(?:[^"\\\n]|\\.)*"')
SPAN = re.compile(r"`[^`\n]+`")


def rows():
    with open(os.path.join(HERE, "respell.tsv"), encoding="utf-8") as f:
        return dict(line.rstrip("\n").split("\t") for line in f)


def words(text, table, labels):
    def one(m):
        w = m[0]
        if labels and w not in FIELDS and m.start() and text[m.start() - 1] == ".":
            return w
        return table.get(w, w)

    return WORD.sub(one, text)


def outside_strings(text, turn):
    out, at = [], 0
    for m in STRING.finditer(text):
        out += [turn(text[at : m.start()]), m[0]]
        at = m.end()
    return "".join(out) + turn(text[at:])


def texts(ending, folder):
    for top, folders, files in os.walk(folder):
        folders[:] = [x for x in folders if x != "out"]
        yield from (os.path.join(top, f) for f in sorted(files) if f.endswith(ending))


def rewrite(path, turn):
    with open(path, encoding="utf-8") as f:
        old = f.read()
    new = turn(old)
    if new != old:
        with open(path, "w", encoding="utf-8") as f:
            f.write(new)


table = rows()
for path in texts(".antt", "crates"):
    labels = "/proofs/" in path and os.path.basename(path) in ("Answers.antt", "Invariants.antt")
    rewrite(path, lambda t: outside_strings(t, lambda s: words(s, table, labels)))
for path in texts(".rt", "crates"):
    rewrite(path, lambda t: outside_strings(t, lambda s: words(s, table, False)))
for path in ["README.md", *texts(".md", "docs")]:
    rewrite(path, lambda t: SPAN.sub(lambda m: words(m[0], table, False), t))
