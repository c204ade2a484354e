#!/usr/bin/env python3
"""Runs the tests of tests/: those in Rattle by `rt try --test`, with no proof, compiled with checks of the toolchain's own; those of the
scripts, in Python, as `scripts`. Beside them it tries the library for callers in C (scripts/boundary.py), as `bindings`.

usage: [JOBS=N] scripts/test.py [--all] [CRATE..]
       [JOBS=N] scripts/test.py --gate | --proved [CRATE..]
       scripts/test.py --fmt
  CRATE     runs the tests of these crates alone
  SEED      (of the environment) what the random scripts are made of, by default the hash of the committed tree: it is printed
  JOBS      how many crates are compiled and run side by side, by default one a core (3.5 GB each, and to prove 8)
  --all     tries the library for callers in all ways, and not in those alone for which the gate has time. Where all passes, and no
            crate is named, that is written down (scripts/callers.py)
  --gate    leaves out `bindings`: the gate tries it once it has the proved program
  --proved  runs no test, and proves these crates over the libraries that `rt ci` (so `make prove`) has left in crates/*/out: a
            test that calls against a `requires` is not proved
  --fmt     does for the files of tests/ what `rt fmt` does for those of a crate, and nothing else

A test that stands in the files and does not run, or runs and is not found there, is a failure. It prints each file that is not so
laid out, a line for each crate, what failed, and last `N passed, M failed`. The exit status is 0 only if M is 0.
"""

import glob
import os
import re
import shutil
import subprocess
import sys
import tempfile
import time
from concurrent.futures import ThreadPoolExecutor, as_completed
from typing import Callable

import callers
import processes
import unproved
import with_tests
from check import check_words

# Each test may take so long; the compiled run alone is wanted, and no step of the toolchain's interpreter before it.
LIMITS = ["--seconds", "600", "--steps", "1"]
# What a crate came to: how many tests passed, those that failed, and all that was said.
Came = tuple[int, list[str], str]

# In the place of clang, whose optimiser a try leaves out: with it the tests run in a twentieth of the time, and clang takes less memory.
OPTIMISES = """#!/bin/sh
for it; do shift; [ "$it" = -O0 ] && it=-O1; set -- "$@" "$it"; done
exec '{kit}/toolchain/bin/clang' "$@"
"""


def told(words: list[str], folder: str) -> subprocess.CompletedProcess[str]:
    return subprocess.run(words, cwd=folder, stdout=subprocess.PIPE, stderr=subprocess.STDOUT, text=True, errors="replace", check=False)


def laid_out(room: str, flag: str) -> tuple[list[str], list[str]]:
    """The files of the tests in the copy, which `rattle fmt` is to look at or to write, and what it says of them."""
    files = [it for crate in with_tests.lines() for it in glob.glob(f"{room}/crates/{crate}/**/*.*t", recursive=True)]
    return files, told(["rattle", "fmt", flag, *files], room).stdout.replace(f"{room}/crates", "tests").splitlines()


def judged(ends: dict[str, str], wanted: list[str], well: str, ran: subprocess.CompletedProcess[str]) -> Came:
    """What tests came to that ended so, of those that the files have."""
    failed = [it for it in wanted if ends.get(it) != well]
    failed += [f"{it} (it is not found in the files)" for it in ends if it not in wanted]
    if ran.returncode and not failed:
        failed.append("(they did not run to their end)")
    return sum(ends.get(it) == well for it in wanted), failed, ran.stdout


def run(room: str, crate: str) -> Came:
    """What the tests of a crate came to."""
    ran = told([f"{room}/kit/bin/rt", "try", "--test", *LIMITS], f"{room}/crates/{crate}")
    ends = dict(re.findall(r"^test (\S+) \.\.\. (.*)$", ran.stdout, re.M))
    return judged(ends, with_tests.named_tests(crate), "ok", ran)


def run_scripts(_: str, __: str) -> Came:
    """The same of the tests of the scripts."""
    ran = told([sys.executable, "-m", "unittest", "discover", "--verbose", "--start-directory", "tests"], with_tests.ROOT)
    ends = {f"{file}.{name}": end for name, file, end in re.findall(r"^(\w+) \((\w+)\.[^)]*\)(?:\n.*)? \.\.\. (.*)$", ran.stdout, re.M)}
    return judged(ends, with_tests.named_in_python(), "ok", ran)


def try_bindings(room: str, _: str) -> Came:
    """The same of the library for callers in C, and of what is over it."""
    words = ["--all"] if "--all" in sys.argv[1:] else []
    ran = told([sys.executable, f"{with_tests.ROOT}/scripts/boundary.py", *words], room)
    counts = re.search(r"^(\d+) passed, (\d+) failed$", ran.stdout, re.M)
    failed = re.findall(r"^FAILED: (.*)$", ran.stdout, re.M) or ["(they did not run to their end)"] * bool(ran.returncode)
    print("".join(f"{it}\n" for it in re.findall(r"^skipped: .*$", ran.stdout, re.M)), end="")
    return int(counts[1]) if counts else 0, failed, ran.stdout


def prove(room: str, crate: str) -> Came:
    """Whether it is proved, as `run` tells it."""
    ran = told(["rattle", "check", *check_words(room, crate), "--test"], f"{room}/crates/{crate}")
    return int(not ran.returncode), [crate] * bool(ran.returncode), ran.stdout


def prepare_proofs(room: str, crates: list[str]) -> None:
    """Has in the copy the libraries of these crates: those that `rt ci` has left, and then those of tests/."""
    with_tests.leave_out_unproved(room)
    for crate in os.listdir(f"{with_tests.ROOT}/crates"):
        if os.path.isdir(f"{with_tests.ROOT}/crates/{crate}/out"):
            os.symlink(f"{with_tests.ROOT}/crates/{crate}/out", f"{room}/crates/{crate}/out")
    lines = with_tests.lines()
    for crate in lines:
        if any(crate in lines[it].split() for it in crates):
            os.makedirs(f"{room}/crates/{crate}/out/rlib")
            ran = told(["rattle", "build", *check_words(room, crate), "-o", f"out/rlib/{crate}.rlib"], f"{room}/crates/{crate}")
            if ran.returncode:
                sys.exit(f"{ran.stdout[-3000:]}{crate} is not proved")


def tried(room: str, ways: dict[str, Callable[[str, str], Came]]) -> tuple[int, int]:
    """Tries each crate in its way, side by side, and prints what each came to: how many passed, and how many failed."""
    begun, passed, failures = time.time(), 0, 0
    with ThreadPoolExecutor(int(os.environ.get("JOBS", processes.cores()))) as pool:
        running = {pool.submit(way, room, it): it for it, way in ways.items()}
        for done in as_completed(running):
            well, failed, said = done.result()
            passed, failures = passed + well, failures + len(failed)
            print(f"{running[done]}: {well} passed, {len(failed)} failed, after {time.time() - begun:.0f} s", flush=True)
            if failed:
                print("".join(f"  {it}\n" for it in failed) + said[-3000:])
    return passed, failures


def ways(flags: list[str], crates: list[str]) -> dict[str, Callable[[str, str], Came]]:
    """How each crate is tried."""
    if "--proved" in flags:
        return dict.fromkeys(crates or with_tests.test_crates(), prove)
    known: dict[str, Callable[[str, str], Came]] = {**dict.fromkeys(with_tests.test_crates(), run), "scripts": run_scripts, "bindings": try_bindings}
    unknown = [it for it in crates if it not in known]
    if unknown:
        sys.exit(f"test.py: there are no tests {unknown[0]}: there are {', '.join(known)}")
    wanted = crates or [it for it in known if it != "bindings" or "--gate" not in flags]
    return {it: known[it] for it in wanted}


def main() -> None:
    flags, crates = [it for it in sys.argv[1:] if it.startswith("--")], [it for it in sys.argv[1:] if not it.startswith("--")]
    with tempfile.TemporaryDirectory(prefix="tests-") as room:
        with_tests.copy(room, has_main="--fmt" in flags)
        if "--fmt" in flags:
            for file in laid_out(room, "--write")[0]:
                shutil.copyfile(file, file.replace(f"{room}/crates", f"{with_tests.ROOT}/tests") + ".in")
            return
        wanted, wrong = ways(flags, crates), laid_out(room, "--check")[1]
        print("".join(f"{it}\n" for it in wrong), end="")
        if "--proved" in flags:
            prepare_proofs(room, [*wanted])
        else:
            seed = with_tests.seed()
            print(f"seed: {seed}", flush=True)
            with_tests.draw(room, seed)
            unproved.copy_of_kit(f"{room}/kit", OPTIMISES.format(kit=unproved.kit()))
        passed, failures = tried(room, wanted)
        failures += len(wrong)
    if "--all" in flags and not crates and not failures:
        callers.note_passed()
    print(f"{passed} passed, {failures} failed")
    sys.exit(int(failures > 0))


if __name__ == "__main__":
    main()
