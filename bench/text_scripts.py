#!/usr/bin/env python3
"""Writes a script of ten entries, whose lines cost the node next to nothing.

usage: text_scripts.py KIND LINES

KIND: hits, misses, events (of three tags), empty_events, insertions (of 80 bytes) or comments; slashed_events or
slashed_insertions, with tags in their second spelling.
"""
import random
import re
import sys

ENTRIES = 10


def filled():
    for i in range(ENTRIES):
        yield f"insert f1({i}) 0 0 still t1:id={i} {i:08x}"


def hits(rng):
    yield from filled()
    while True:
        yield f"lookup f1({rng.randrange(ENTRIES)}) 0 9"


def misses(rng):
    yield from filled()
    while True:
        yield f"lookup f2({rng.randrange(1000)},{rng.randrange(1000)}) 0 9"


def events(rng):
    yield from filled()
    stamp = 0
    while True:
        stamp += 1
        row = rng.randrange(100_000)
        yield f"event {stamp} t{2 + row % 5}:id={row},t{8 + row % 5}:grp={row % 997},t15:id={row % 7}"


def empty_events(_rng):
    yield from filled()
    stamp = 0
    while True:
        stamp += 1
        yield f"event {stamp} -"


def insertions(rng):
    while True:
        key = rng.randrange(ENTRIES)
        yield f"insert f1({key}) 0 0 closed t1:id={key},t1:grp={key % 3} {rng.randbytes(80).hex()}"


def comments(rng):
    yield from filled()
    while True:
        yield f"# {rng.randrange(10**9)} of this line nothing but its bytes is looked at"


def slashed(lines):
    for line in lines:
        yield re.sub(r"t(\d+):(id|grp)=", r"\1/\2/", line)


KINDS = {
    "hits": hits,
    "misses": misses,
    "events": events,
    "empty_events": empty_events,
    "insertions": insertions,
    "comments": comments,
}


def main():
    kind, lines = sys.argv[1], int(sys.argv[2])
    usual = kind.removeprefix("slashed_")
    written = KINDS[usual](random.Random(usual))
    if kind != usual:
        written = slashed(written)
    for _ in range(lines):
        sys.stdout.write(next(written) + "\n")


if __name__ == "__main__":
    main()
