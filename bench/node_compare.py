#!/usr/bin/env python3
"""Runs two programs over random node scripts and compares what they print, byte by byte.

usage: node_compare.py OLD NEW SCRIPTS LINES [CAPACITY]

OLD and NEW are programs that bench/node_build.sh made. Without a capacity each script takes one of 1 to 64. LINES is
the most that a script has.
"""
import random
import subprocess
import sys

from node_scripts import KINDS


def script(kind, capacity, lines, seed):
    rng = random.Random(f"{kind} {capacity} {lines} {seed}")
    written = []
    for line in KINDS[kind](rng, capacity, lines):
        written.append(line)
        if len(written) == lines:
            break
    return ("\n".join(written) + "\n").encode()


def answer(program, capacity, recent, text):
    settings = f"capacity = {capacity}\nrecent = {recent}"
    run = subprocess.run([program, "node", "--settings", settings], input=text, capture_output=True)
    return run.returncode, run.stdout, run.stderr


def main():
    old, new, scripts, most = sys.argv[1], sys.argv[2], int(sys.argv[3]), int(sys.argv[4])
    fixed = int(sys.argv[5]) if len(sys.argv) > 5 else None
    total = differing = 0
    for seed in range(scripts):
        rng = random.Random(seed)
        capacity = fixed or rng.choice([1, 2, 3, 4, 5, 8, 13, 16, 32, 64])
        recent = rng.choice([1, 2, 4, 16, 64])
        lines = most if fixed else rng.choice([most // 8, most // 3, most])
        text = script("random", capacity, lines, seed)
        a, b = (answer(program, capacity, recent, text) for program in (old, new))
        total += lines
        if a != b:
            differing += 1
            first = next(i for i, (x, y) in enumerate(zip(a[1].split(b"\n") + [b""], b[1].split(b"\n") + [b"?"])) if x != y)
            print(f"seed {seed} capacity {capacity} recent {recent} lines {lines}: reply {first} differs")
    print(f"{scripts} scripts, {total} lines: {differing} differ")
    sys.exit(differing > 0)


if __name__ == "__main__":
    main()
