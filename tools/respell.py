#!/usr/bin/env python3
"""Brings the names of definitions and lemmas to snake case, once, after the kit's own script.

usage: tools/respell.py [FOLDER]

In FOLDER (the current one if none is given) every name of specs/ and proofs/ that is written as `wordAt` becomes `word_at`: in .antt and
.rt files and must-fail edits below crates/, and between backticks in README.md and docs/. Text in double quotes stays as it is. Names of
functions, types and exported C functions have no such form. Where the new name would fall together with another one, that other one, a
lemma or a local name, gets `_lem` first. A second run changes nothing.
"""

import glob
import os
import re
import sys

CAMEL = re.compile(r"(?<![A-Za-z0-9_'])[a-z][a-z0-9]*(?:[A-Z][A-Za-z0-9]*)+")
QUOTED = re.compile(r'"(?:[^"\\\n]|\\.)*"')
# Names of the library or of other languages that look alike.
OTHERS = {"getD", "hC"}
# Lemmas and local names whose name a definition takes over.
TOGETHER = "masked_plain read_plain word_at block_at offset_at range_at raw_word up_to to_bits".split()
# A word that stands alone: no part of a path, of a field or of a name with dashes.
ALONE = r"(?<![A-Za-z0-9_'.·-]){}(?![A-Za-z0-9_'-])(?!\.)"


def snake(name):
    return re.sub(r"[A-Z]+", lambda it: "_" + it[0].lower(), name)


def files(root, *ends):
    for folder, folders, names in os.walk(os.path.join(root, "crates")):
        folders[:] = sorted(it for it in folders if it != "out")
        for name in sorted(names):
            if name.endswith(ends):
                yield os.path.join(folder, name)


def read(path):
    with open(path, encoding="utf-8", newline="") as it:
        return it.read()


def write(path, text):
    with open(path, "w", encoding="utf-8", newline="") as it:
        it.write(text)


def outside_quotes(text, turn):
    out, at = [], 0
    for it in QUOTED.finditer(text):
        out += [turn(text[at : it.start()]), it[0]]
        at = it.end()
    return "".join(out + [turn(text[at:])])


def names_of(root):
    found = set()
    for path in files(root, ".antt"):
        found |= set(CAMEL.findall(re.sub(r"--.*", "", read(path))))
    return found - OTHERS


def apart(root, names):
    """The names that a definition's new name would fall together with get their ending, where both are in use."""
    taken = {snake(it) for it in names}
    for path in files(root, ".antt"):
        text = new = read(path)
        for word in TOGETHER:
            if word in taken:
                new = re.sub(ALONE.format(word), word + "_lem", new)
        if new != text:
            write(path, new)


def main():
    root = sys.argv[1] if len(sys.argv) > 1 else "."
    names = names_of(root)
    if not names:
        print("respell: nothing to do")
        return
    apart(root, names)
    turn = lambda text: CAMEL.sub(lambda it: snake(it[0]) if it[0] in names else it[0], text)
    for path in files(root, ".antt", ".rt", ".edit"):
        text = read(path)
        new = turn(text) if path.endswith(".edit") else outside_quotes(text, turn)
        if new != text:
            write(path, new)
    pages = [os.path.join(root, "README.md")] + sorted(glob.glob(os.path.join(root, "docs", "**", "*.md"), recursive=True))
    for path in pages:
        text = read(path)
        new = re.sub(r"`[^`\n]*`", lambda it: turn(it[0]), text)
        if new != text:
            write(path, new)
    print(f"respell: {len(names)} names")


main()
