#!/usr/bin/env python3
"""Measures the version table of a cache beside a service's own database: what a changed tag takes, by how many places the table has.

usage: bench/owndb_bench/places.py [FOLDER]
  FOLDER   of the library, by default bindings/out

Steps change 500 tags at random; each is pinned, and what no page can read any more is let go after every eighth. It prints a table in markdown: the
processor time of a changed tag, that of the longest call, which keeps the interpreter's lock, and the memory of the table.
"""

import os
import random
import sys
import time
from typing import Any

ROOT = os.path.dirname(os.path.dirname(os.path.dirname(os.path.abspath(__file__))))
PLACES, STEPS, TAGS, KEPT = (4096, 65_536, 1_048_576), 64, 500, 16


def row(places: int) -> str:
    from owndb_bench.held import Holds
    from owndb_bench.hour import resident_mb

    from txcache._versions import Versions

    before, rand, took = resident_mb(os.getpid()), random.Random(1), 0.0
    versions = Versions(1)
    for at in range(0, places, TAGS):
        versions.touch(range(at, min(at + TAGS, places)), 1)
    for step in range(STEPS):
        begun = time.process_time()
        change(versions, rand, places, step)
        took += time.process_time() - begun
    with Holds().watching() as holds:
        for step in range(STEPS, STEPS + STEPS // 4):
            change(versions, rand, places, step)
    memory = resident_mb(os.getpid()) - before
    versions.close()
    return f"| {places:,} | {took / STEPS / TAGS * 1e6:.1f} µs | {holds.longest.ms:.1f} ms | {memory:.0f} MB |"


def change(versions: Any, rand: random.Random, places: int, step: int) -> None:
    versions.touch(sorted(rand.sample(range(places), TAGS)), step + 2)
    versions.pin(step)
    if step % 8 == 7:
        versions.keep(max(0, step - KEPT))


def main() -> None:
    os.environ["TXC_LIBRARY"] = os.path.abspath(sys.argv[1]) if len(sys.argv) > 1 else f"{ROOT}/bindings/out"
    sys.path[:0] = [f"{ROOT}/bindings/python", f"{ROOT}/bench"]
    print("| Places of tags | A changed tag | Longest call | Memory |\n|---|---|---|---|")
    for places in PLACES:  # each in a process of its own, so that its memory is its own
        sys.stdout.flush()
        child = os.fork()
        if not child:
            print(row(places), flush=True)
            os._exit(0)
        os.waitpid(child, 0)


if __name__ == "__main__":
    main()
