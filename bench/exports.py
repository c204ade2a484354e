#!/usr/bin/env python3
"""Counts the instructions that each call of a site takes through the library for C: a hit, a miss, a query, a row, the insertion of what was computed, and
the beginning and the end of a transaction of 64 calls.

usage: bench/exports.py [FOLDER [CLONE [ITS_FOLDER]]]
  FOLDER      of the library, by default bindings/out
  CLONE       another tree, with which this one is compared
  ITS_FOLDER  of its library, by default bindings/out of CLONE

The program is bench/library_site/calls.c of either tree, in a node of 1,024 entries that is full. It prints a table in markdown: instructions of one call
(by callgrind, with all that it calls), and of how many times those of CLONE they are.
"""

import os
import re
import subprocess
import sys
import tempfile

ROOT = os.path.dirname(os.path.dirname(os.path.abspath(__file__)))
CAPACITY, COUNT, PAGE = 1024, 12_800, 64
# What is counted, by the kind of a run: a name, the export, and how many calls of it there are to one of the run.
COUNTED = {
    "hit": [("hit", "txc_call", 1)],
    "miss": [("miss", "txc_call", 1), ("query", "txc_query_rows", 1), ("row of it", "txc_row_at", 1), ("insertion", "txc_finish", 1),
             ("beginning", "txc_begin", 1 / PAGE), ("commit of one that reads", "txc_commit", 1 / PAGE)],
}


def instructions(program, kind, count, room):
    """The instructions of each function in a run, with all that it calls."""
    out = f"{room}/callgrind.out"
    words = ["valgrind", "--tool=callgrind", f"--callgrind-out-file={out}", program, kind, str(CAPACITY), str(count)]
    subprocess.run(words, capture_output=True, check=True)
    words = ["callgrind_annotate", "--inclusive=yes", "--threshold=100", "--show-percs=no", out]
    said = subprocess.run(words, capture_output=True, text=True, check=True).stdout
    found = re.findall(r"^\s*([\d,]+)\s.*:(txc_\w+)(?:'\d+)?(?: \[.*\])?$", said, re.M)
    return {name: int(number.replace(",", "")) for number, name in reversed(found)}


def counts(tree, folder, room):
    """Instructions of one call of each kind through the library of a tree."""
    program, found = f"{room}/calls", {}
    words = ["gcc", "-O2", "-I", f"{tree}/bindings/c", f"{tree}/bench/library_site/calls.c", f"{folder}/libtxc_c.a", "-o", program]
    subprocess.run(words, check=True)
    for kind, counted in COUNTED.items():
        many, none = (instructions(program, kind, count, room) for count in (COUNT, 0))
        for name, export, share in counted:
            found[name] = (many[export] - none.get(export, 0)) / (COUNT * share)
    return found


def main():
    words = [os.path.abspath(it) for it in sys.argv[1:]]
    folder, clone = [*words, *[f"{ROOT}/bindings/out", ""][len(words):]][:2]
    with tempfile.TemporaryDirectory(prefix="exports-") as room:
        ours = counts(ROOT, folder, room)
        theirs = counts(clone, words[2] if len(words) > 2 else f"{clone}/bindings/out", room) if clone else {}
    print("| One | Instructions |" + " Of the other tree | |" * bool(clone) + "\n|---|---|" + "---|---|" * bool(clone))
    for name, count in ours.items():
        print(f"| {name} | {count:,.0f} |" + (f" {theirs[name]:,.0f} | {count / theirs[name]:.3f} |" if clone else ""))


if __name__ == "__main__":
    main()
