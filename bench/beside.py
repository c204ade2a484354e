#!/usr/bin/env python3
"""Times seven threads' pages of four hits at one site beside an eighth thread whose functions sleep, in Rust and in Python.

usage: bench/beside.py [FOLDER [SECONDS [ROUNDS]]]
  FOLDER   of the library, by default bindings/out
  SECONDS  how long each run takes, by default 4
  ROUNDS   how many times each is run, in turn, by default 5; the best of each counts

It prints a table in markdown: pages of the seven by themselves, and the share of them beside functions of 1, 10 and 100 ms. With --kind NAME (PyDLL or CDLL)
before the FOLDER, the Python one alone, whose calls keep the interpreter's lock or let go of it.
"""

import ctypes
import os
import subprocess
import sys
import tempfile
import threading
import time

ROOT = os.path.dirname(os.path.dirname(os.path.abspath(__file__)))
SLEEPS = (0, 1, 10, 100)
READERS = 7


def in_python(kind, seconds, sleep):
    """Returns the number of pages that the seven made, in this process."""
    sys.path.insert(0, f"{ROOT}/bindings/python")
    from txcache import _library

    if kind:
        load = _library.load
        _library.load = lambda _=None: load(getattr(ctypes, kind))
    from txcache.site import Query, Site, cacheable

    @cacheable(0)
    def first(call, item):
        return call.rows(Query.group(1, item))[0].body

    @cacheable(1)
    def slow(call, number):
        body = call.rows(Query.group(1, number % 4))[0].body
        time.sleep(sleep / 1000)
        return body

    def show():
        with site.read(now=1000, staleness=30_000) as page:
            for item in range(4):
                page(first, item)

    def read(at):
        while not is_over.is_set():
            show()
            counts[at] += 1

    def compute():
        number = 0
        while not is_over.is_set():
            with site.read(now=1000, staleness=30_000) as page:
                page(slow, number)
            number += 1

    site, counts, is_over = Site(), [0] * READERS, threading.Event()
    with site.write() as write:
        for item in range(4):
            write.put(1, item, item, b"110")
    show()
    threads = [threading.Thread(target=read, args=(at,)) for at in range(READERS)] + [threading.Thread(target=compute)] * bool(sleep)
    for it in threads:
        it.start()
    time.sleep(seconds)
    is_over.set()
    for it in threads:
        it.join()
    return sum(counts)


def ran(words, where):
    return int(subprocess.run(words, stdout=subprocess.PIPE, stderr=subprocess.DEVNULL, text=True, check=True, env=where).stdout.split()[-1])


def row(name, words, where, seconds, rounds):
    best = {}
    for _ in range(rounds):
        for sleep in SLEEPS:
            best[sleep] = max(best.get(sleep, 0), ran([*words, str(seconds), str(sleep)], where))
    shares = [f"{best[it] / best[0]:.2f}" for it in SLEEPS[1:]]
    print(f"| {name} | {best[0] / seconds:,.0f} | {' | '.join(shares)} |", flush=True)


def main():
    words = sys.argv[1:]
    if words[:1] == ["--run"]:
        print(in_python(words[1], float(words[2]), float(words[3])))
        return
    kind = words[1] if words[:1] == ["--kind"] else ""
    given = words[2:] if kind else words
    folder, seconds, rounds = [*given, *[f"{ROOT}/bindings/out", "4", "5"][len(given):]]
    where = {**os.environ, "TXC_LIBRARY": os.path.abspath(folder)}
    print("| | Pages a second | 1 ms | 10 ms | 100 ms |\n|---|---|---|---|---|")
    if not kind:
        with tempfile.TemporaryDirectory(prefix="beside-") as target:
            build = ["cargo", "--quiet", "build", "--release", "--offline", "--example", "beside", "--target-dir", target]
            subprocess.run(build, check=True, cwd=f"{ROOT}/bindings/rust", env=where)
            row("Rust", [f"{target}/release/examples/beside"], where, int(seconds), int(rounds))
    row(f"Python{' ' * bool(kind)}{kind}", [sys.executable, __file__, "--run", kind], where, int(seconds), int(rounds))


if __name__ == "__main__":
    main()
