#!/usr/bin/env python3
"""Counts what calls of a site take beside transactions that are open in mid-call, through the library for C, and what each open one takes.

usage: bench/open.py [FOLDER]
  FOLDER   of the library, by default bindings/out

It prints a table in markdown: instructions (by callgrind) of one hit, one miss with its query and its insertion, and one commit of a row, beside 10 and
beside 1,000 open transactions; and the bytes that each of the 1,000 takes, by counted allocations.
"""

import os
import re
import subprocess
import sys
import tempfile

ROOT = os.path.dirname(os.path.dirname(os.path.abspath(__file__)))
COUNT = 1600
FEW, MANY = 10, 1000


def ran(program, opened, kind, count):
    """Instructions of a run, and what it printed."""
    words = ["valgrind", "--tool=callgrind", "--callgrind-out-file=/dev/null", program, str(opened), kind, str(count)]
    found = subprocess.run(words, capture_output=True, text=True, check=True)
    return int(re.search(r"Collected : (\d+)", found.stderr)[1]), found.stdout.strip()


def each(program, opened, kind):
    return (ran(program, opened, kind, COUNT)[0] - ran(program, opened, kind, 0)[0]) / COUNT


def main():
    folder = os.path.abspath(sys.argv[1]) if len(sys.argv) > 1 else f"{ROOT}/bindings/out"
    with tempfile.TemporaryDirectory(prefix="open-") as room:
        program, wraps = f"{room}/calls", [f"-Wl,--wrap={it}" for it in ("malloc", "realloc", "free")]
        words = ["gcc", "-O2", "-I", f"{ROOT}/bindings/c", f"{ROOT}/bench/library_open/calls.c", f"{folder}/libtxc_c.a", *wraps, "-o", program]
        subprocess.run(words, check=True)
        print(f"| Beside open transactions | {FEW} | {MANY:,} | |\n|---|---|---|---|")
        for kind in ("hit", "miss", "commit"):
            few, many = each(program, FEW, kind), each(program, MANY, kind)
            print(f"| {kind} | {few:,.0f} | {many:,.0f} | {many / few:.3f} |", flush=True)
        print(f"| bytes of each | {ran(program, FEW, 'hit', 0)[1]} | {ran(program, MANY, 'hit', 0)[1]} | |")


if __name__ == "__main__":
    main()
