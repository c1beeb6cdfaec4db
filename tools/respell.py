#!/usr/bin/env python3
"""Spells the repository's own names of definitions, lemmas, fields and variables in snake case, in the crates and their edits.

usage: tools/respell.py, at the top, once, on what the toolchain's own script has turned.

A name is cut at its dashes, and each part that begins with a small letter and has a capital is respelled: pathToHV-same becomes
path_to_hv-same. Types, facts and modules begin with a capital and stay. Text between quotes stays. `FIRST` has the names that would
otherwise fall together with another, each with what it becomes before the rest is respelled.
"""

import glob
import re

# the lemma sum-over, and what it is about, sumOver
FIRST = {"sum_over": "sum-map-over"}
# a name that the check makes of a variant
STAYS = {"read_Some"}
PART = re.compile(r"(?<![A-Za-z0-9_'])[a-z][A-Za-z0-9_']*")
QUOTED = re.compile(r"""("(?:[^"\\\n]|\\.)*"|\bb'[^'\\]')""")


def snake(part):
    part = re.sub(r"([A-Z]+)([A-Z][a-z])", r"\1_\2", part)
    return re.sub(r"([a-z0-9])([A-Z])", r"\1_\2", part).lower()


def respelled(match):
    part = match[0]
    return part if part in STAYS or not re.search("[A-Z]", part) else snake(part)


def turned(text):
    for old, new in FIRST.items():
        text = re.sub(rf"(?<![A-Za-z0-9_'-]){old}(?![A-Za-z0-9_'-])", new, text)
    pieces = QUOTED.split(text)
    return "".join(piece if index % 2 else PART.sub(respelled, piece) for index, piece in enumerate(pieces))


def main():
    files = glob.glob("crates/**/*.antt", recursive=True) + glob.glob("crates/*/src/**/*.rt", recursive=True)
    files += glob.glob("crates/*/must-fail/*.edit") + glob.glob("tests/definitions/*.edit")
    count = 0
    for name in sorted(files):
        if "/out/" in name:
            continue
        with open(name, encoding="utf-8") as f:
            text = f.read()
        new = turned(text)
        if new != text:
            with open(name, "w", encoding="utf-8") as f:
                f.write(new)
            count += 1
    print(f"respell: {count} files of {len(files)}")


main()
