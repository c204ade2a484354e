#!/usr/bin/env python3
"""Checks that a node whose history is not stored answers its three-millionth lookup as its first, in a process of a fixed size. `make soak`
runs it, beside the gate.

usage: soak.py [LOOKUPS]      LOOKUPS: how many the node must have counted at least, by default 3,000,000

The program's source lies in bench/soak; it is compiled with no proof, with a plain evaluator of tests/ that judges each page by the
database's history alone. This script asks it for pages, and after each line of them reads the most memory that the process ever
had (VmHWM of /proc/PID/status). It fails where a page was not explained, where the process had more than MOST_KB, or where it
grew by more than GROWTH_KB after the first line; and it ends after TIME seconds.
"""
import os
import shutil
import subprocess
import sys
import tempfile
import threading
import time

import unproved
import with_tests

ROOT = with_tests.ROOT
LIBRARIES = """txc_stamp txc_tags txc_node txc_rows txc_stream txc_db txc_app txc_call_permits txc_cushion txc_shared txc_call_registry txcache_functions
    txc_txn_ports txc_txn txc_txn_client txc_players anyhow"""
PAGES = 10_000
MOST_PAGES = 1_000_000
MOST_KB = 8_192
GROWTH_KB = 512
TIME = 600


def built(room):
    """The program, in the folder, which gets a copy of the repository too."""
    copy, crate = f"{room}/copy", f"{room}/copy/crates/soak"
    os.makedirs(copy)
    with_tests.copy(copy)
    shutil.copytree(f"{ROOT}/bench/soak", crate, copy_function=lambda at, to: shutil.copy2(at, to.removesuffix(".in")))
    shutil.copy(f"{ROOT}/tests/txc_tests/src/explained.rt.in", f"{crate}/src/explained.rt")
    with open(f"{copy}/crates.txt", "a", encoding="utf-8") as it:
        it.write(f"soak: {' '.join(LIBRARIES.split())}\n")
    said = unproved.build(crate, f"{room}/soak", ["--steps", "1"])
    if said:
        sys.exit(f"{said[-3000:]}\nsoak.py: the program was not compiled")
    return f"{room}/soak"


def size(process):
    """The most memory that the process ever had, in KB."""
    with open(f"/proc/{process.pid}/status", encoding="utf-8") as it:
        return next(int(line.split()[1]) for line in it if line.startswith("VmHWM:"))


def soak(program, wanted):
    process = subprocess.Popen([program], stdin=subprocess.PIPE, stdout=subprocess.PIPE, text=True)
    clock = threading.Timer(TIME, process.kill)
    clock.start()
    first, begun = None, time.time()
    try:
        for _ in range(0, MOST_PAGES, PAGES):
            process.stdin.write(f"{PAGES}\n")
            process.stdin.flush()
            answer = process.stdout.readline().split()
            if len(answer) != 4:
                sys.exit("soak.py: the program ended")
            pages, explained, lookups, hits = map(int, answer)
            most = size(process)
            first = first or most
            if explained != pages or most > MOST_KB or most > first + GROWTH_KB:
                sys.exit(f"soak.py: {pages} pages, {explained} explained, {lookups} lookups, {first} KB at first and {most} KB now")
            if lookups >= wanted:
                return f"{pages:,} pages explained, {lookups:,} lookups, {hits:,} hits: {first:,} KB at first, {most:,} KB at most, {time.time() - begun:.0f} s"
        sys.exit(f"soak.py: {lookups} lookups of {MOST_PAGES} pages")
    finally:
        clock.cancel()
        process.kill()
        process.wait()


if __name__ == "__main__":
    with tempfile.TemporaryDirectory() as room:
        print(soak(built(room), int(sys.argv[1].replace(",", "")) if sys.argv[1:] else 3_000_000))
