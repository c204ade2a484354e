#!/usr/bin/env python3
"""Counts what one call through a client takes, in mode batch with one worker: instructions by callgrind, and blocks by the allocator of
scripts/refuse.c.

usage: bench/calls.py PROGRAM [--jobs N] [--top N]      PROGRAM: txcache as `rt run` built it in crates/txcache

Each job is one transaction. A call is the difference of jobs of sixteen calls and of eight, so many (200) of each, over eight:
a job's line and reply hold it. Begin and commit are what is left of a job, with its line. For each come the functions in which
most of the instructions are.
"""

import argparse
import os
import tempfile

from world import Costs, made_refuse, show

SETTINGS = "workers = 1\ncapacity = 1024\nrow_cap = 1048576"
FEW, MANY = 8, 16


def rows(dead):
    """Eight rows, of which so many were changed once, and a pin."""
    puts = [f"put 1 {id} {id // 2} v{id:07}" for id in range(8)]
    return [*puts, *[f"put 1 {id} {id // 2} w{id:07}" for id in range(dead)], "pin 1000"]


def hits(jobs, calls):
    """Calls of the eight rows, which the node has after the first job."""
    first = "job 1000 0 " + " ".join(f"f0({id})" for id in range(8))
    return [*rows(0), first, *[f"job 1000 0 {' '.join(f'f0({call % 8})' for call in range(calls))}"] * jobs]


def misses(jobs, calls, dead=0):
    """Calls of one query each, of keys of their own: no row has these ids."""
    keys = lambda job: " ".join(f"f0({8 + job * MANY + call})" for call in range(calls))
    return [*rows(dead), *[f"job 1000 0 {keys(job)}" for job in range(jobs)]]


KINDS = {
    "a hit": hits,
    "a miss with one query, where nothing has died": misses,
    "a miss with one query, where a version has died": lambda jobs, calls: misses(jobs, calls, 1),
}


def taken(one, other, part):
    """Returns the time that the one takes more than the other, divided by a count."""
    (functions, blocks), (less, fewer) = one, other
    return {it: (functions.get(it, 0) - less.get(it, 0)) / part for it in {*functions, *less}}, (blocks - fewer) / part


def main():
    words = argparse.ArgumentParser(usage=__doc__.partition("usage: ")[2].partition("\n")[0])
    words.add_argument("program")
    words.add_argument("--jobs", type=int, default=200)
    words.add_argument("--top", type=int, default=10)
    options = words.parse_args()
    with tempfile.TemporaryDirectory() as room:
        costs = Costs(os.path.abspath(options.program), made_refuse(room), room, "batch", SETTINGS)
        for name, make in KINDS.items():
            few, many = (costs.of(lambda jobs: make(jobs, calls), options.jobs) for calls in (FEW, MANY))
            call = taken(many, few, MANY - FEW)
            show(name, call, 1, options.top)
            if make is hits:
                functions, blocks = call
                show("begin and commit", taken(few, ({it: FEW * count for it, count in functions.items()}, FEW * blocks), 1), 1, options.top)


if __name__ == "__main__":
    main()
