#!/usr/bin/env python3
"""The gate: what scripts make of the tree is what is committed; `rt ci` proves every crate from nothing, and runs each program
as two compilers make it; the tests run, with no proof (scripts/test.py); the wrong bodies that are marked `(gate)` are tried over
the libraries that `rt ci` made; and the proved program prints for each of examples/ what stands beside it, and answers as the
library for callers in C does (scripts/boundary.py).

usage: [RT_JOBS=N] [SEED=TEXT] scripts/prove.py [--table FILE]
  FILE     is written with the rows of the table, for docs/GATE.md and scripts/chain.py
  RT_JOBS  how many checks `rt ci` runs at once, by default as many as there are cores and as memory holds
  SEED     what random scripts are made of, by default the hash of the committed tree

Tests begin at once, and wrong bodies as soon as `rt ci` says that their crate is proved: with the least weight, so that they take
what proofs leave free. Behind each proof it says how many there are, and at the end what took longest, and a table of all (scripts/cpu.py).

A failure is: a command that fails, or whose last line counts none or another number than there are tests or wrong bodies; a crate
that is not said to be proved. The last line is `N passed, M failed`, of all of these together. The exit status is 0 only if M is 0.
"""

import dataclasses
import glob
import os
import queue
import re
import shutil
import signal
import subprocess
import sys
import tempfile
import threading
import time
import traceback

import cpu
import processes
import run
import with_tests
from edits import named

ENDING = re.compile(r"(\d+) (?:passed|refused), (\d+) (?:failed|proved)(?:, (\d+) bad)?")
PROVED = re.compile(r"rt: (\w+) (?:proved$|is kept: )")
# What `rt ci` says of a crate that it counts as a failure itself.
NOT_PROVED = re.compile(r"rt: (\w+) NOT PROVED")
# The memory of a check in GB: checks took 2 to 5.1, and the largest four that may run at once some 3.7 each.
GB_OF_A_CHECK = 3.7
# So many commands run beside `rt ci`, each with one job; after it one a core. The tests took 4.5 GB, and wrong bodies up to 2.7.
BESIDE, GB_BESIDE = 2, 7
# How often what runs beside is looked at, to lower its weight.
PAUSE = 0.5


def lanes(cores: int, free: float) -> int:
    """How many checks `rt ci` may run at once on so many cores, with so many GB of free memory."""
    return max(1, min(cores, int((free - GB_BESIDE) / GB_OF_A_CHECK)))


@dataclasses.dataclass
class Command:
    """A command, and the number that its last line has to count: any but none, where it has no number."""

    words: list[str]
    expected: int | None = None

    def name(self) -> str:
        return " ".join([os.path.basename(self.words[0]), *(it for it in self.words[1:] if not it.startswith(("-", "/")))])


class Beside:
    """Commands that run beside `rt ci`, and what all of it came to."""

    def __init__(self) -> None:
        self.waiting, self.lock, self.workers = queue.Queue[Command | None](), threading.Lock(), list[threading.Thread]()
        self.running = set[subprocess.Popen[str]]()
        self.passed = self.failed = 0
        threading.Thread(target=self.lower, daemon=True).start()

    def lower(self) -> None:
        """Lowers the weight of every process below these commands, as it appears: `rt try` begins a session of its own, which has full weight."""
        while True:
            for pid in processes.below([it.pid for it in [*self.running]]):
                processes.lower(pid)
            time.sleep(PAUSE)

    def start(self, workers: int) -> None:
        for _ in range(workers):
            self.workers.append(threading.Thread(target=self.work, daemon=True))
            self.workers[-1].start()

    def work(self) -> None:
        while command := self.waiting.get():
            self.try_one(command)

    def try_one(self, command: Command) -> None:
        """Runs a command to its end, in a session of its own."""
        ran = subprocess.Popen(command.words, stdout=subprocess.PIPE, stderr=subprocess.STDOUT, text=True, errors="replace",
                               start_new_session=True, env={"JOBS": "1", **os.environ})
        self.running.add(ran)
        said = ran.communicate()[0]
        self.running.discard(ran)
        self.count(command, said, ran.returncode)

    def count(self, command: Command, said: str, status: int) -> None:
        """Prints what a command said, its last line behind its name, and adds up the counts of that line."""
        before, _, last = said.rstrip("\n").rpartition("\n")
        counts = ENDING.fullmatch(last)
        passed, *bad = [int(it or 0) for it in counts.groups()] if counts else [0]
        with self.lock:
            print(f"{before}\n{command.name()}: {last}" if before else f"{command.name()}: {last}", flush=True)
            self.passed += passed
            self.failed += sum(bad)
            count = passed + sum(bad)
            if command.expected is None and not count:
                self.fail(f"{command.name()}: its last line counts nothing")
            elif command.expected not in (None, count):
                self.fail(f"{command.name()}: {count} of {command.expected} were tried")
            elif status and not sum(bad):
                self.fail(f"{command.name()}: ended with status {status}")

    def fail(self, said: str) -> None:
        print(f"FAILED: {said}", flush=True)
        self.failed += 1

    def end(self) -> None:
        """Waits until all commands have ended, with one worker a core."""
        self.start(processes.cores() - len(self.workers))
        for _ in self.workers:
            self.waiting.put(None)
        for it in self.workers:
            it.join()

    def stop(self) -> None:
        for it in [*self.running]:
            os.killpg(it.pid, signal.SIGTERM)


def crates() -> set[str]:
    """The crates of crates.txt, and those that have a folder."""
    return {os.path.basename(os.path.dirname(it)) for it in glob.glob("crates/*/src")} | {*run.lines()}


def prove(beside: Beside) -> None:
    """Runs `rt ci`, says how far it is, and has the wrong bodies of each crate tried as soon as it is proved."""
    bodies = [it.partition("/")[0] for it in named(".", [])]
    left, whole, begun = crates(), len(crates()), time.time()
    at_once = os.environ.get("RT_JOBS") or str(lanes(processes.cores(), processes.free()))
    print(f"prove: checks at once: {at_once}; {processes.cores()} cores, {processes.free():.1f} GB free", flush=True)
    ran = subprocess.Popen(["rt", "ci"], stdout=subprocess.PIPE, text=True, errors="replace", env={**os.environ, "RT_JOBS": at_once})
    said, counted = "", set[str]()
    for line in ran.stdout or []:
        print(said, end="", flush=True)
        said = line
        is_proved, is_counted = PROVED.match(line), NOT_PROVED.match(line)
        if is_counted:
            counted.add(is_counted[1])
        if is_proved and is_proved[1] in left:
            left.discard(is_proved[1])
            print(f"prove: {whole - len(left)} of {whole} crates, minute {(time.time() - begun) / 60:.0f}", flush=True)
            if is_proved[1] in bodies:
                beside.waiting.put(Command(["scripts/edits.py", "--named", is_proved[1]], bodies.count(is_proved[1])))
    beside.count(Command(["rt", "ci"]), said, ran.wait())
    for crate in sorted(left - counted):
        beside.fail(f"{crate} is not proved")
    for crate in sorted({*bodies} - (crates() - left)):
        beside.fail(f"{crate}: its {bodies.count(crate)} wrong bodies of the gate were not tried")


def gate(room: str) -> Beside:
    """Proves and tries all, with files of its own in the room."""
    beside = Beside()
    # `rt ci` gives a checkout back the libraries that its own checks had built, and the edits are tried over those of the gate
    for built in glob.glob("crates/*/out/rlib"):
        shutil.rmtree(built)
    try:
        beside.waiting.put(Command(["scripts/test.py", "--gate"], with_tests.count()))
        beside.waiting.put(Command(["scripts/library.py", "--try", f"{room}/library"], 0))
        beside.start(BESIDE)
        prove(beside)
        beside.end()
        os.environ["TXCACHE"] = os.path.abspath(run.PROGRAM)
        beside.try_one(Command(["scripts/boundary.py", "--library", f"{room}/library"]))
        examples = subprocess.run(["scripts/run_examples.sh"], check=False).returncode
    except BaseException:
        beside.stop()
        raise
    if examples:
        beside.fail("run_examples.sh: the program prints other replies")
    beside.passed += not examples
    return beside


def main() -> None:
    table = os.path.abspath(sys.argv[2]) if sys.argv[1:2] == ["--table"] else None
    os.chdir(f"{os.path.dirname(os.path.abspath(__file__))}/..")
    signal.signal(signal.SIGTERM, lambda *_: sys.exit(143))
    for words in (["scripts/edits.py", "--check"], ["scripts/docs.py", "--check"], ["scripts/examples.py", "--check"]):
        if subprocess.run(words, check=False).returncode:
            print("0 passed, 1 failed")
            sys.exit(1)
    with tempfile.TemporaryDirectory(prefix="gate-") as room, cpu.Watcher(os.getpid()) as watcher:
        try:
            beside = gate(room)
        except Exception:
            # nothing can be told of the rest
            traceback.print_exc()
            print("0 passed, 1 failed")
            sys.exit(1)
    rows = watcher.rows()
    if table:
        cpu.write(rows, table)
    print(cpu.table(rows, processes.cores()))
    print(f"{beside.passed} passed, {beside.failed} failed")
    sys.exit(int(beside.failed > 0))


if __name__ == "__main__":
    main()
