#!/usr/bin/env python3
"""Measures a node's lines by two programs, on the same scripts: processor time, instructions, and misses of a cache of 1 MB.

usage: bench/node_beside.py OLD NEW [--rounds N] [--lines N] | scripts/figures.py

OLD and NEW are programs that bench/node_build.sh or scripts/unproved.py made, both in one way. It prints a table in markdown. Each row is a
workload on a node of so many entries, which the lines that fill it are left out of; each cell has the old program's figure and the new
one's, and the new one's as a part of the old one's. Times are the least of so many rounds, in which the two take turns.
"""

import argparse
import os
import resource
import subprocess
import tempfile

import node_count

KINDS = {"hits": "hits", "evictions": "insertions with eviction", "events": "events, and what they invalidated", "mixed": "mixed"}
CAPACITIES = [10, 1_024, 65_536]
COUNTED = 20_000


def seconds(program, capacity, path):
    """The processor time of a run."""
    before = resource.getrusage(resource.RUSAGE_CHILDREN)
    with open(path, "rb") as file:
        subprocess.run([program, "node", "--settings", f"capacity = {capacity}"], stdin=file, stdout=subprocess.DEVNULL, check=True)
    after = resource.getrusage(resource.RUSAGE_CHILDREN)
    return after.ru_utime + after.ru_stime - before.ru_utime - before.ru_stime


def times(programs, capacity, kind, rounds, lines, room):
    """Nanoseconds of a line, by each program."""
    paths = []
    for number in (capacity, capacity + lines):
        paths.append(f"{room}/{number}")
        with open(paths[-1], "w", encoding="utf-8") as file:
            file.write(node_count.script(kind, capacity, number))
    taken = {(program, path): [] for program in programs for path in paths}
    for _ in range(rounds):
        for program, path in taken:
            taken[program, path].append(seconds(program, capacity, path))
    return [(min(taken[it, paths[1]]) - min(taken[it, paths[0]])) / lines * 1e9 for it in programs]


def cell(old, new, digits=0):
    """The two figures, and the new one as a part of the old one."""
    return f"{old:,.{digits}f}, {new:,.{digits}f}: {new / old:.2f}" if old >= 0.5 else f"{old:,.{digits}f}, {new:,.{digits}f}"


def main():
    words = argparse.ArgumentParser(usage=__doc__.partition("usage: ")[2].partition("\n")[0])
    words.add_argument("programs", nargs=2)
    words.add_argument("--rounds", type=int, default=9)
    words.add_argument("--lines", type=int, default=200_000)
    given = words.parse_args()
    programs = [os.path.abspath(it) for it in given.programs]
    print("| Workload | Entries | Time of a line, ns | Instructions | Misses |\n|---|---|---|---|---|", flush=True)
    with tempfile.TemporaryDirectory() as room:
        for kind, name in KINDS.items():
            for capacity in CAPACITIES:
                taken = times(programs, capacity, kind, given.rounds, given.lines, room)
                counted = [node_count.of_a_line(it, capacity, COUNTED, kind, room)[0] for it in programs]
                instructions, misses = zip(*counted)
                print(f"| {name} | {capacity:,} | {cell(*taken)} | {cell(*instructions)} | {cell(*misses, 1)} |", flush=True)


if __name__ == "__main__":
    main()
