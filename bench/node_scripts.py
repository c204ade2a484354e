#!/usr/bin/env python3
"""Writes a node's script.

usage: node_scripts.py KIND CAPACITY LINES SEED

KIND: random, or one of the workloads hits, evictions, events, wildcards, mixed.
`random` takes few keys, stamps and tags, so that entries meet; the others fill a node of that capacity.
"""
import random
import sys


def tag(rng, tables, ids):
    table = rng.randrange(tables)
    kind = rng.random()
    if kind < 0.15:
        return f"t{table}:?"
    if kind < 0.65:
        return f"t{table}:id={rng.randrange(ids)}"
    return f"t{table}:grp={rng.randrange(ids)}"


def tags(rng, tables, ids, most):
    many = 20 if rng.random() < 0.01 else rng.randrange(most + 1)
    if many == 0:
        return "-"
    return ",".join(tag(rng, tables, ids) for _ in range(many))


def random_lines(rng, capacity, lines):
    """Few keys, stamps near the processed one, sets of few tags."""
    keys = max(2, rng.choice([capacity // 4, capacity // 2, capacity, 2 * capacity]))
    tables, ids = rng.choice([1, 2, 16]), rng.choice([2, 5, 50])
    reach = rng.choice([3, 10, 100])
    event_share = rng.choice([0.02, 0.1, 0.3])
    insert_share = rng.choice([0.2, 0.4])
    processed = 0
    for _ in range(lines):
        kind = rng.random()
        key = f"f{rng.randrange(3)}({rng.randrange(keys)})"
        if kind < event_share:
            stamp = processed + 1 if rng.random() < 0.97 else rng.randrange(processed + 3)
            yield f"event {stamp} {tags(rng, tables, ids, 3)}"
            if stamp == processed + 1:
                processed = stamp
        elif kind < event_share + insert_share:
            low = max(0, processed - rng.randrange(reach))
            known = low + rng.randrange(reach) - (1 if rng.random() < 0.02 else 0)
            known = max(0, known)
            still = "still" if rng.random() < 0.7 else "closed"
            value = "".join(rng.choice("0123456789abcdef") for _ in range(2 * rng.randrange(1, 4)))
            yield f"insert {key} {low} {known} {still} {tags(rng, tables, ids, 4)} {value}"
        elif kind < 0.995:
            low = max(0, processed - rng.randrange(reach))
            high = low + rng.randrange(reach) - (1 if rng.random() < 0.05 else 0)
            yield f"lookup {key} {low} {max(0, high)}"
        else:
            yield f"sweep {max(0, processed - rng.randrange(reach))}"


def filled(rng, capacity):
    for i in range(capacity):
        yield f"insert f1({i}) 0 0 still t1:id={i},t1:grp={i % 97} {i:08x}"


def hits(rng, capacity, lines):
    yield from filled(rng, capacity)
    for _ in range(lines - capacity):
        yield f"lookup f1({rng.randrange(capacity)}) 0 9"


def evictions(rng, capacity, lines):
    for i in range(lines):
        table = 1 + i % 7
        yield f"insert f1({i}) 0 0 still t{table}:id={i},t{table}:grp={i % 997} {i:08x}"


def events(rng, capacity, lines):
    yield from filled(rng, capacity)
    processed = 0
    for i in range((lines - capacity) // 2):
        processed += 1
        row = rng.randrange(capacity)
        yield f"event {processed} t1:id={row}"
        yield f"insert f1({row}) {processed} {processed} still t1:id={row},t1:grp={row % 97} {i:08x}"


def wildcards(rng, capacity, lines):
    processed, row = 0, 0
    while True:
        for _ in range(63):
            row += 1
            table = row % 16
            yield f"insert f1({row}) {processed} {processed} still t{table}:id={row},t{table}:grp={row % 97} {row:08x}"
        processed += 1
        yield f"event {processed} t{rng.randrange(16)}:?"


def mixed(rng, capacity, lines):
    yield from filled(rng, capacity)
    processed, begins = 0, {}
    while True:
        kind = rng.random()
        row = min(int(rng.paretovariate(0.6)), 2 * capacity)
        if kind < 0.70:
            low = max(0, processed - 5)
            yield f"lookup f1({row}) {low} {processed}"
        elif kind < 0.92:
            yield f"insert f1({row}) {processed} {processed} still t1:id={row},t1:grp={row % 97} {row:08x}"
        elif kind < 0.999:
            processed += 1
            yield f"event {processed} t1:id={row},t1:grp={rng.randrange(97)}" if kind < 0.93 else f"event {processed} t1:id={row}"
        else:
            yield f"sweep {max(0, processed - 1000)}"


KINDS = {
    "random": random_lines,
    "hits": hits,
    "evictions": evictions,
    "events": events,
    "wildcards": wildcards,
    "mixed": mixed,
}


def main():
    kind, capacity, lines, seed = sys.argv[1], int(sys.argv[2]), int(sys.argv[3]), int(sys.argv[4])
    rng = random.Random(f"{kind} {capacity} {lines} {seed}")
    written = 0
    out = []
    for line in KINDS[kind](rng, capacity, lines):
        out.append(line)
        written += 1
        if written == lines:
            break
    print("\n".join(out))


if __name__ == "__main__":
    main()
