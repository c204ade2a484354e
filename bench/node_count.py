#!/usr/bin/env python3
"""Counts what a line of a node's script takes, whatever else the machine does: instructions, and misses of a cache of 1 MB,
by `valgrind --tool=callgrind`. The lines that fill the node are left out, and what is given back at the end.

usage: node_count.py [--parts] PROGRAM CAPACITY LINES [WORKLOAD..]      by default hits evictions events mixed

PROGRAM is one that bench/node_build.sh or scripts/unproved.py made. A run of so many lines after those that fill the node takes some
ten seconds for 100,000 of them. Each line: the workload, and of one line the instructions and the misses; with --parts the functions
too that make most of the misses, each without those that it calls.
"""
import collections
import os
import random
import re
import subprocess
import sys
import tempfile

from node_scripts import KINDS

# what reads a line and answers it
ANSWERS = "txc_script::running::answer::"
# a first level of 32 KB, and a last of 1 MB
CACHES = ["--cache-sim=yes", "--I1=32768,8,64", "--D1=32768,8,64", "--LL=1048576,16,64"]


def script(kind, capacity, lines):
    """The first lines of a workload: those of fewer lines are the beginning of those of more."""
    rng = random.Random(f"{kind} {capacity} 1")
    written = []
    for line in KINDS[kind](rng, capacity, 1 << 40):
        written.append(line)
        if len(written) == lines:
            return "\n".join(written) + "\n"


def read_costs(path):
    """Returns the instructions and misses of each function by its name: its own, and those with the functions that it called."""
    names, alone, whole = {}, collections.defaultdict(lambda: [0, 0]), collections.defaultdict(lambda: [0, 0])
    places, function, is_call = [], None, False
    with open(path, encoding="utf-8") as file:
        for line in file:
            head = re.match(r"(c?fn)=(\(\d+\))(?: (.*))?", line)
            if line.startswith("events:"):
                words = line.split()[1:]
                places = [[words.index("Ir")], [words.index(it) for it in ("ILmr", "DLmr", "DLmw")]]
            elif head:
                if head[3]:
                    names[head[2]] = head[3]
                if head[1] == "fn":
                    function = head[2]
            elif line.startswith("calls="):
                is_call = True
            elif function and re.match(r"[-+*\d]", line):
                numbers = [int(it) for it in line.split()[1:]] + [0] * 9
                for i, at in enumerate(places):
                    taken = sum(numbers[it] for it in at)
                    whole[function][i] += taken
                    if not is_call:
                        alone[function][i] += taken
                is_call = False
    return ({names[it]: cost for it, cost in some.items()} for some in (alone, whole))


def counts(program, capacity, text, room):
    """Returns the counts of each function in one run: its own, and those with the functions that it called."""
    with open(f"{room}/script", "w", encoding="utf-8") as file:
        file.write(text)
    out = f"{room}/out"
    words = ["valgrind", "--quiet", "--tool=callgrind", f"--callgrind-out-file={out}", *CACHES, program, "node"]
    with open(f"{room}/script", "rb") as file:
        subprocess.run([*words, "--settings", f"capacity = {capacity}"], stdin=file, stdout=subprocess.DEVNULL, stderr=subprocess.DEVNULL, check=True)
    return read_costs(out)


def of_a_line(program, capacity, lines, kind, room):
    """Instructions and misses of one line, and those of each function in it."""
    (few, few_whole), (many, many_whole) = (counts(program, capacity, script(kind, capacity, it), room) for it in (capacity, capacity + lines))
    less = lambda name, more, fewer: [(a - b) / lines for a, b in zip(more[name], fewer.get(name, (0, 0)))]
    # the reading of lines and all below it: what the end gives back is outside of it
    top = next(it for it in many_whole if it.startswith(ANSWERS))
    return less(top, many_whole, few_whole), {name: less(name, many, few) for name in many}


def main():
    words = [it for it in sys.argv[1:] if it != "--parts"]
    program, capacity, lines, *kinds = words
    capacity, lines = int(capacity), int(lines)
    with tempfile.TemporaryDirectory() as room:
        for kind in kinds or ["hits", "evictions", "events", "mixed"]:
            (instructions, misses), parts = of_a_line(program, capacity, lines, kind, room)
            print(f"{kind:10} {capacity:6} entries {instructions:9.0f} instructions {misses:7.1f} misses", flush=True)
            if "--parts" in sys.argv:
                for name in sorted(parts, key=lambda it: -parts[it][1])[:12]:
                    print(f"    {parts[name][0]:9.0f} instructions {parts[name][1]:7.1f} misses  {name}")


if __name__ == "__main__":
    main()
