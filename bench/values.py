#!/usr/bin/env python3
"""Measures hits of long values through the library for C beside a hit of 16 bytes and one copy of as many bytes, and what an entry takes beside its value.

usage: bench/values.py [--counts] [FOLDER]
  --counts  instructions alone, which no other work of the machine changes
  FOLDER    of the library, by default bindings/out

It prints two tables in markdown. The first has, for each length, nanoseconds of processor time (the least of five rounds) and instructions (by callgrind) of one
hit at a node and at a site, and of the copy, of four values in turn each; and of how many times a hit of 16 bytes and one copy a hit is, which is to be at most 1.3. The second
has the bytes of an entry with one tag beside its value, by counted allocations.
"""

import os
import re
import resource
import subprocess
import sys
import tempfile

ROOT = os.path.dirname(os.path.dirname(os.path.abspath(__file__)))
# How many calls are made, by the length of the value, if they are timed; of those that are counted a hundredth.
LENGTHS = {16: 1_280_000, 65_536: 128_000, 1_048_576: 6_400}
KINDS = ("node", "site", "copy")
ROUNDS = 5
# Entries, and the lengths of their values.
ENTRIES, OF_ENTRIES = 8192, (16, 1024, 1025, 16_384)


def seconds(words):
    before = resource.getrusage(resource.RUSAGE_CHILDREN)
    subprocess.run(words, check=True)
    after = resource.getrusage(resource.RUSAGE_CHILDREN)
    return after.ru_utime + after.ru_stime - before.ru_utime - before.ru_stime


def instructions(words):
    ran = subprocess.run(["valgrind", "--tool=callgrind", "--callgrind-out-file=/dev/null", *words], capture_output=True, text=True, check=True)
    return int(re.search(r"Collected : (\d+)", ran.stderr)[1])


def times(program):
    """Nanoseconds of one, by the kind and the length."""
    least = {}
    for _ in range(ROUNDS):
        for kind in KINDS:
            for length, made in LENGTHS.items():
                for count in (made, 0):
                    took = seconds([program, kind, str(length), str(count)])
                    least[kind, length, count] = min(took, least.get((kind, length, count), took))
    return {(kind, length): 1e9 * (least[kind, length, made] - least[kind, length, 0]) / made for kind in KINDS for length, made in LENGTHS.items()}


def counts(program):
    """Instructions of one, by the kind and the length."""
    many = lambda made: max(made // 100, 640)
    each = lambda kind, length, count: instructions([program, kind, str(length), str(count)])
    return {(kind, length): (each(kind, length, many(made)) - each(kind, length, 0)) / many(made) for kind in KINDS for length, made in LENGTHS.items()}


def table(found, unit):
    print(f"| {unit} of one | 16 bytes | 64 KiB | | 1 MiB | |\n|---|---|---|---|---|---|")
    for kind in KINDS:
        cells = [f"{found[kind, 16]:,.0f}"]
        for length in list(LENGTHS)[1:]:
            of = found[kind, length] / (found[kind, 16] + found["copy", length])
            cells += [f"{found[kind, length]:,.0f}", f"{of:.2f}" if kind != "copy" else ""]
        print(f"| {'copy' if kind == 'copy' else f'hit at a {kind}'} | {' | '.join(cells)} |", flush=True)


def main():
    words = [it for it in sys.argv[1:] if it != "--counts"]
    folder = os.path.abspath(words[0]) if words else f"{ROOT}/bindings/out"
    with tempfile.TemporaryDirectory(prefix="values-") as room:
        program, wraps = f"{room}/calls", [f"-Wl,--wrap={it}" for it in ("malloc", "realloc", "free")]
        build = ["gcc", "-O2", "-I", f"{ROOT}/bindings/c", f"{ROOT}/bench/library_values/calls.c", f"{folder}/libtxc_c.a", *wraps, "-o", program]
        subprocess.run(build, check=True)
        if "--counts" not in sys.argv:
            table(times(program), "Nanoseconds")
            print()
        table(counts(program), "Instructions")
        print("\n| Bytes of the value | Bytes of an entry beside it |\n|---|---|")
        for length in OF_ENTRIES:
            ran = subprocess.run([program, "entries", str(length), str(ENTRIES)], capture_output=True, text=True, check=True)
            print(f"| {length:,} | {ran.stdout.strip()} |")


if __name__ == "__main__":
    main()
