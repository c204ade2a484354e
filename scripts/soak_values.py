#!/usr/bin/env python3
"""Checks that a program in C reads values of 1 byte to 256 KiB through one site of the library, within a budget of bytes, in a process that does not grow.
`make soak` runs it, beside the gate.

usage: soak_values.py [--proved] [SECONDS [MIB]]
  --proved     of the proved library, by `make library`; else of one that is compiled for it with no proof
  SECONDS      how long, by default 600
  MIB          of the budget, by default 64
  TXC_LIBRARY  (of the environment) a folder with a library that is to be taken in their place

The program is bench/soak_values/soak.c, and says each second what it has in memory. It fails if a value was wrong or the site was above its budget after a trim; if
after the first tenth, and at least ten seconds, the process ever had more than 1.5 times the budget and 0.6 KB an entry; or if on average it had in the last
third more than 1.02 times what it had in the second one. The last line says what came.
"""
import os
import re
import subprocess
import sys
import tempfile

import library

ROOT = library.ROOT
SECONDS, MIB = 600, 64
MOST_TIMES, KB_OF_ENTRY, GROWTH = 1.5, 0.6, 1.02
FIELDS = ("second", "pages", "wrong", "calls", "hits", "entries", "bytes", "trimmed", "most_bytes", "kb")


def built(room, is_proved):
    """The program, in the folder."""
    folder = os.environ.get("TXC_LIBRARY")
    archive = f"{folder}/libtxc_c.a" if folder else library.library(not is_proved, f"{room}/library")[0]
    if not library.compiler():
        sys.exit("soak_values.py: there is no C compiler")
    library.told([library.compiler(), "-O2", "-I", f"{ROOT}/bindings/c", f"{ROOT}/bench/soak_values/soak.c", archive, "-o", f"{room}/soak"])
    return f"{room}/soak"


def readings(program, seconds, budget):
    """What it prints each second, by its names, and the last line of what else it prints."""
    ran = subprocess.run([program, str(seconds), str(budget)], stdout=subprocess.PIPE, text=True, timeout=seconds + 120, check=False)
    found = [dict(zip(FIELDS, map(int, line.split()))) for line in ran.stdout.splitlines() if re.fullmatch(r"(\d+ ?){10}", line)]
    if ran.returncode or not found:
        sys.exit(f"soak_values.py: it ended with status {ran.returncode}: {ran.stdout[-300:]}")
    return found


def judge(found, budget):
    """Says what came; or ends with what was not as it is to be."""
    first, *found = found
    count, last = len(found), found[-1]
    later = found[max(count // 10, min(10, count // 2)):]
    mean = lambda part: sum(it["kb"] for it in part) / len(part)
    most = max(it["kb"] for it in later)
    allowed = min(MOST_TIMES * budget / 1024 + KB_OF_ENTRY * it["entries"] - it["kb"] for it in later)
    growth = mean(found[2 * count // 3:]) / mean(found[count // 3:2 * count // 3])
    said = (f"{count} s, {last['pages']:,} pages, {last['calls']:,} calls, {100 * last['hits'] / last['calls']:.0f} % hits, {last['wrong']} wrong; {last['entries']:,} entries of "
            f"{last['bytes'] / 2**20:.1f} MiB, {last['trimmed']:,} trimmed; {first['kb']:,} KB before, {most:,} KB at most, {allowed:,.0f} KB below the bar, {growth:.3f} from the second third to the last")
    if last["wrong"] or allowed < 0 or growth > GROWTH:
        sys.exit(f"soak_values.py: not so: {said}")
    return said


def main():
    words = [it for it in sys.argv[1:] if it != "--proved"]
    seconds, mib = [int(it) for it in words] + [SECONDS, MIB][len(words):]
    with tempfile.TemporaryDirectory(prefix="soak-values-") as room:
        found = readings(built(room, "--proved" in sys.argv), seconds, mib * 2**20)
    print(judge(found, mib * 2**20))


if __name__ == "__main__":
    main()
