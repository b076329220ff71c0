#!/usr/bin/env python3
"""Brings this repository's own definitions and lemmas to today's spelling, by the table respell.tsv beside this script.

usage: tools/respell.py      at the top of a checkout in which /opt/rattle/port/port.py has just run, once

It turns whole words: in specs/ and proofs/, in the clauses, `ghost use` items and comments of src/, and in the must-fail edits.
In the proof of a function (proofs/F/) a word with a dash stays behind a dot and where it names a goal, since those names are Rattle's.
"""
import glob
import os
import re

HERE = os.path.dirname(os.path.realpath(__file__))
WORD = re.compile(r"[^\s(){}\[\].;,@\"«»`:]+")


def rows():
    with open(os.path.join(HERE, "respell.tsv"), encoding="utf-8") as f:
        for line in f:
            if line.strip() and not line.startswith("#"):
                old, new, *where = line.rstrip("\n").split("\t")
                yield old, new, where[0] if where else ""


def turn(text, table, own):
    def one(m):
        word = m[0]
        if word not in table:
            return word
        if own and "-" in word and (text[m.start() - 1 : m.start()] == "." or text[: m.start()].endswith("\n") or text[m.start() - 6 : m.start()].endswith("\npub ")):
            return word
        return table[word]

    return WORD.sub(one, text)


def main():
    table = list(rows())
    everywhere = {o: n for o, n, w in table if not w}
    for path in sorted(glob.glob("crates/**/*", recursive=True)):
        if not path.endswith((".antt", ".rt", ".edit")) or "/out/" in path:
            continue
        with open(path, encoding="utf-8") as f:
            text = f.read()
        here = {o: n for o, n, w in table if w and path.startswith(w)}
        if path.endswith(".edit"):
            here |= {o: n for o, n, w in table if w == "edits"}
        own = re.match(r"crates/\w+/proofs/.+/", path) is not None
        new = turn(text, {**everywhere, **here}, own) if not here or path.endswith(".edit") else turn(turn(text, here, own), everywhere, own)
        if new != text:
            with open(path, "w", encoding="utf-8") as f:
                f.write(new)


if __name__ == "__main__":
    main()
