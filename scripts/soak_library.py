#!/usr/bin/env python3
"""Checks that a program in C commits three million times through one site of the library that stores no events, with no page torn and no
update lost, in a process that does not grow. `make soak` runs it, beside the gate.

usage: soak_library.py [--proved] [COMMITS [ITEMS]]
  --proved     of the proved library, by `make library`; else of one that is compiled for it with no proof
  COMMITS      how many, by default 3,000,000
  ITEMS        on how many items they are made, by default 512: each is two rows
  TXC_LIBRARY  (of the environment) a folder with a library that is to be taken in their place

The program is bench/soak_library/soak.c. It prints at READINGS counts what it has in memory. It fails where a page was torn or an update lost,
where the last reading is more than GROWTH_KB above the one at a third of the way, and where it takes more than TIME seconds.
"""
import os
import re
import subprocess
import sys
import tempfile
import threading
import time

import library

ROOT = library.ROOT
READINGS = 30
GROWTH_KB = 4_096
TIME = 1_200


def built(room, is_proved):
    """The program, in the folder."""
    folder = os.environ.get("TXC_LIBRARY")
    archive = f"{folder}/libtxc_c.a" if folder else library.library(not is_proved, f"{room}/library")[0]
    if not library.compiler():
        sys.exit("soak_library.py: there is no C compiler")
    library.told([library.compiler(), "-O2", "-I", f"{ROOT}/bindings/c", f"{ROOT}/bench/soak_library/soak.c", archive, "-o", f"{room}/soak"])
    return f"{room}/soak"


def readings(program, commits, items):
    """What it prints at each count, as numbers, and the last line of what else it prints. It is killed after its time."""
    process = subprocess.Popen([program, str(commits), str(max(commits // READINGS, 1)), str(items)], stdout=subprocess.PIPE, text=True)
    clock = threading.Timer(TIME, process.kill)
    clock.start()
    found, last = [], "it was killed"
    try:
        for line in process.stdout:
            if re.fullmatch(r"(\d+ ?){7}\n", line):
                found.append(tuple(map(int, line.split())))
            else:
                last = line.strip()
        return found, last
    finally:
        clock.cancel()
        process.kill()
        process.wait()


def judge(found, last, wanted, items, seconds):
    """Says what came; or ends with what was not as it is to be."""
    ended = re.fullmatch(r"sum (\d+) of (\d+) at (\d+)", last)
    if not ended or not found:
        sys.exit(f"soak_library.py: it ended after {found[-1][0] if found else 0:,} commits and {seconds:.0f} s: {last}")
    total, commits, stamp = map(int, ended.groups())
    _, pages, torn, calls, hits, conflicts, at_end = found[-1]
    at_third, most = found[(len(found) - 1) // 3][-1], max(it[-1] for it in found)
    said = (f"{commits:,} commits on {items:,} items to stamp {stamp:,}, {commits - total:,} lost, {conflicts:,} conflicts, {pages:,} pages, {torn:,} torn, {calls:,} calls, {hits:,} hits: "
            f"{at_third:,} KB after a third, {at_end:,} KB at the end, {most:,} KB at most, {seconds:.0f} s")
    if torn or total != commits or commits < wanted or at_end > at_third + GROWTH_KB:
        sys.exit(f"soak_library.py: not so: {said}")
    return said


def main():
    words = sys.argv[1:]
    numbers = [int(it.replace(",", "")) for it in words if it != "--proved"]
    commits, items = numbers + [3_000_000, 512][len(numbers):]
    with tempfile.TemporaryDirectory(prefix="soak-library-") as room:
        program, begun = built(room, "--proved" in words), time.time()
        found, last = readings(program, commits, items)
    print(judge(found, last, commits, items, time.time() - begun))


if __name__ == "__main__":
    main()
