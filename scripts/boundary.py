#!/usr/bin/env python3
"""Tries the library for callers in C, and its header, from outside: scripts/test.py runs it, with no proof.

usage: scripts/boundary.py [--all] [--proved | --library FOLDER] [--rows FOLDER] [COUNT]
  --all      by each compiler of C that the machine has, and not by the first one alone; and once more under the sanitizers of addresses,
             leaks and undefined behaviour, and under that of threads, where the library is not given
  --proved   of the proved library, by `make library`; else of one that is compiled for it with no proof
  --library  of the one that scripts/library.py has made in this folder
  --rows     plays also NAME.in of this folder for each NAME.mode that is node or report, whose replies are NAME.out
  COUNT      how many random scripts of a node are played, and how many of a site (scripts/worlds.py), by default 200, with --all 2000
  SEED       (of the environment) what they are made of, by default the hash of the committed tree: it is printed
  TXCACHE    (of the environment) the program that they are compared with; else the proved one, where it stands, and else one that is
             compiled for it with no proof

The header's sizes, places and numbers are those of the sources; the examples, and the random scripts, are answered byte for byte as
`txcache` does; the same with every allocation refused in its turn; odd uses; values of up to 1 MiB, many asks and trims; two sites, one over each
store of rows, that are told the same; threads that share a site, beside a plain model; work done again and again, in memory that does not grow.
Then the tests of the bindings for Rust and Python. The last line is `N passed, M failed`; what the machine lacks is skipped by its name, and with
CI=true in the environment it has failed.
"""

import argparse
import glob
import os
import random
import re
import shutil
import subprocess
import sys
import tempfile

import exports
import extension
import library
import run
import unproved
import with_tests
import worlds

ROOT = os.path.dirname(os.path.dirname(os.path.abspath(__file__)))
C = f"{ROOT}/bindings/c"
SANITIZERS = ["-fsanitize=address,undefined", "-fno-sanitize-recover=all", "-g", "-O1"]
OF_THREADS = ["-fsanitize=thread", "-g", "-O1"]
WARNINGS = ["-std=c11", "-Wall", "-Wextra", "-Werror"]
COMPILERS = ("gcc", "clang")
# The functions of the allocator in whose place a program has its own.
WRAPPED = {
    "tests/play.c": ("malloc", "realloc"),
    "tests/odd_site.c": ("malloc", "realloc"),
    "tests/odd_many.c": ("malloc", "realloc"),
    "tests/long.c": ("malloc", "realloc"),
    "tests/stores.c": ("malloc", "realloc"),
    "tests/flat.c": ("malloc", "realloc", "free"),
}
# How many random scripts of each kind are played, by default and with --all.
SCRIPTS, ALL_SCRIPTS = 200, 2000
# The programs in C.
PROGRAMS = ("tests/play.c", "tests/play_site.c", "tests/odd.c", "tests/odd_site.c", "tests/odd_many.c", "tests/long.c", "tests/threads_site.c",
            "tests/stores.c", "tests/flat.c", "example.c", "page.c", "threads.c")
# The stores of a site's rows, by their numbers.
STORES = ("over SQLite", "over ordered maps")
# The least share of a site's acts that are between another's call and its end.
BETWEEN = 1 / 3


class Trial:
    """What was tried, and what came of it."""

    def __init__(self):
        self.passed = self.failed = 0

    def note(self, what, is_right, said=""):
        self.passed += is_right
        self.failed += not is_right
        print(f"{'passed' if is_right else 'FAILED'}: {what}" + ("" if is_right else f"\n{said[-2000:]}"), flush=True)
        return is_right

    def skip(self, what):
        """Says what the machine lacks. With CI=true nothing may be skipped."""
        if os.environ.get("CI") == "true":
            self.note(what, False, "nothing is skipped where CI=true")
        else:
            print(f"skipped: {what}", flush=True)

    def ran(self, what, words, **how):
        """Runs a command, which is to end well."""
        ran = subprocess.run(words, stdout=subprocess.PIPE, stderr=subprocess.STDOUT, text=True, errors="replace", **how)
        last = ran.stdout.rstrip().rpartition("\n")[2]
        self.note(f"{what}: {last}" if last else what, not ran.returncode, ran.stdout)
        return ran


# ---- scripts


def random_key(rng):
    args = ",".join(str(rng.choice([0, 1, 2, 4294967295])) for _ in range(rng.choice([0, 1, 1, 1, 2, 4])))
    return f"f{rng.choice([0, 1, 1, 2, 63])}({args})"


def random_tags(rng):
    tags = [rng.choice(["t{}:id={}", "t{}:grp={}", "{}/id/{}", "{}/grp/{}", "t{}:?", "{}/?"]).format(rng.choice([0, 1, 1, 15]), rng.randrange(4))
            for _ in range(rng.choice([0, 1, 1, 2, 3]))]
    if rng.random() < 0.05:
        tags += [f"t1:id={it}" for it in range(rng.randrange(14, 20))]
    return ",".join(tags) or "-"


def random_line(rng, stamp):
    """A line of mode node, most often well formed, and the stamp of the last event if the node takes it."""
    low = lambda: max(0, stamp + rng.choice([-3, -2, -1, 0, 0, 0, 1]))
    kind = rng.random()
    if kind < 0.35:
        lo = low()
        value = "-" if rng.random() < 0.1 else rng.randbytes(rng.choice([1, 1, 2, 16, 1024, 1025]) if rng.random() < 0.2 else 2).hex()
        reach = rng.choice(["still", "still", "closed"])
        return f"insert {random_key(rng)} {lo} {max(0, lo + rng.choice([-1, 0, 0, 1, 2]))} {reach} {random_tags(rng)} {value}", stamp
    if kind < 0.7:
        lo = low()
        return f"lookup {random_key(rng)} {lo} {max(0, lo + rng.choice([-1, 0, 1, 5]))}", stamp
    if kind < 0.93:
        if rng.random() < 0.9:
            return f"event {stamp + 1} {random_tags(rng)}", stamp + 1
        return f"event {rng.choice([0, stamp, stamp + 2, 1048576])} {random_tags(rng)}", stamp
    if kind < 0.98:
        return f"sweep {low()}", stamp
    return rng.choice(["", "# a comment", "#  two  blanks"]), stamp


def broken(rng, line):
    """The line with a byte more, less or another."""
    at = rng.randrange(len(line) + 1)
    byte = rng.choice(" 0f,():-tx\t~\x7f")
    return rng.choice([line[:at] + byte + line[at:], line[:at] + line[at + 1:], line + " 0", " " + line, line + "0" * 4096])


def random_script(rng):
    lines, stamp = [], 0
    for _ in range(rng.randrange(5, 80)):
        line, stamp = random_line(rng, stamp)
        lines.append(broken(rng, line) if rng.random() < 0.003 else line)
    return "\n".join(lines) + rng.choice(["\n", "\n", ""])


def plays(room, count, seed, rows):
    """What is played, each a capacity, a number of events, a mode and a file, with its wanted text where it has one."""
    found = []
    for file in sorted(glob.glob(f"{ROOT}/examples/*.txc")):
        wanted = {"node": f"{file[:-4]}.out", "report": f"{file[:-4]}.report"}
        found += [(1024, 64, mode, file, open(it, encoding="utf-8").read()) for mode, it in wanted.items() if os.path.exists(it)]
    for file in sorted(glob.glob(f"{rows}/*.in")) if rows else []:
        mode = open(f"{file[:-3]}.mode", encoding="utf-8").read().strip()
        if mode in ("node", "report"):
            settings = f"{file[:-3]}.settings"
            text = open(settings, encoding="utf-8").read() if os.path.exists(settings) else ""
            sizes = [int(it[1]) if (it := re.search(rf"{key} = (\d+)", text)) else most for key, most in (("capacity", 1024), ("recent", 64))]
            found.append((*sizes, mode, file, open(f"{file[:-3]}.out", encoding="utf-8").read()))
    rng = random.Random(seed)
    for number in range(count):
        file = f"{room}/{number:05}"
        with open(file, "w", encoding="utf-8") as it:
            it.write(random_script(rng))
        found.append((rng.choice([1, 2, 3, 4, 8, 65536]), rng.choice([1, 2, 4, 4096]), "report" if rng.random() < 0.2 else "node", file, None))
    return found


def reference(room):
    """The program `txcache`."""
    if os.environ.get("TXCACHE"):
        return os.environ["TXCACHE"]
    if run.is_fresh():
        return run.PROGRAM
    lines = run.crates()
    os.makedirs(f"{room}/program")
    with open(f"{room}/program/crates.txt", "w", encoding="utf-8") as it:
        it.writelines(lines.values())
    shutil.copy(f"{ROOT}/HANDLES", f"{room}/program")
    for name in lines:
        shutil.copytree(f"{ROOT}/crates/{name}", f"{room}/program/crates/{name}", ignore=shutil.ignore_patterns("out", "wrong-bodies"))
    said = unproved.build(f"{room}/program/crates/txcache", f"{room}/txcache", ["--steps", "1"])
    if said:
        sys.exit(f"{said[-3000:]}boundary: `txcache` does not compile")
    return f"{room}/txcache"


def replies(program, capacity, recent, mode, file):
    """What `txcache` prints, and then its status."""
    with open(file, "rb") as it:
        ran = subprocess.run([program, mode, "--settings", f"capacity = {capacity}\nrecent = {recent}"], stdin=it, stdout=subprocess.PIPE,
                             stderr=subprocess.DEVNULL)
    return f"{ran.stdout.decode()}status {ran.returncode}\n"


# ---- C


def libraries(given, room):
    """The library's archives, by the names of what watches them: "" of nothing; and with --all, where it is compiled here, those for the sanitizers."""
    if given.library:
        return {"": f"{given.library}/lib{library.CRATE}.a"}
    if given.proved:
        return {"": library.library(False, f"{room}/library")[0]}
    os.makedirs(f"{room}/compiled")
    text = library.exported(f"{room}/compiled")
    archives = {"": library.make([library.object_of(text, f"{room}/plain.o")], f"{room}/library")[0]}
    if given.all:
        # what the toolchain compiles for the sanitizer of addresses is compiled for that of threads
        with open(text, encoding="utf-8") as it, open(f"{text}.threads.ll", "w", encoding="utf-8") as to:
            to.write(it.read().replace("sanitize_address", "sanitize_thread"))
        for name, of, flags in (("addresses", text, "-fsanitize=address"), ("threads", f"{text}.threads.ll", "-fsanitize=thread")):
            watched = library.object_of(of, f"{room}/{name}.o", ["-O1", flags])
            # a folder of its own: programs are built in the room by the names of their sources
            archives[name] = library.make([watched], f"{room}/watched/{name}", is_shared=False)[0]
    return archives


def try_worlds(trial, what, room, store, said_before, program, played):
    """Plays a site's scripts over a store, and compares what it says with what `txcache` replies. Where a site said the same before, it is not asked again."""
    ran = subprocess.run([f"{room}/play_site", f"{room}/worlds", str(store)], stdout=subprocess.PIPE, stderr=subprocess.PIPE, text=True)
    got = dict(re.findall(r"^== (\S+)\n(.*?)(?=^== |\Z)", ran.stdout, re.M | re.S))
    acts, between = map(int, re.findall(r"\d+", got.pop("acts", "acts 0 between 0")))
    trial.note(f"{what}: {between} of {acts} acts between another's call and its end", between >= BETWEEN * acts > 0)
    for it in played:
        if said_before.get(it[-1], ("",))[0] != got.get(it[-1], ""):
            said_before[it[-1]] = got.get(it[-1], ""), worlds.unlike(program, it, got.get(it[-1], ""))
    other = [f"{file}: {said_before[file][1]}" for *_, file in played if file not in said_before or said_before[file][1]]
    lines = sum(it.count("\n") for it in got.values())
    trial.note(f"{what}: {len(played)} scripts of a site, {lines} lines, {len(other)} with other replies", not ran.returncode and lines > 0 and not other,
               ran.stderr + "\n".join(other[:3]))


def build_c(trial, room, compiler, name, flags, archive):
    """Builds each program in C over the archive, and returns whether all were built."""
    for file in PROGRAMS:
        wrap = [f"-Wl,--wrap={it}" for it in WRAPPED.get(file, ())]
        words = [compiler, *WARNINGS, *flags, "-pthread", "-I", C, f"{C}/{file}", archive, *wrap, "-o", f"{room}/{os.path.basename(file)[:-2]}"]
        if trial.ran(f"{compiler}: {file}{name}", words).returncode:
            return False
    return True


def try_threads(trial, room, compiler, archive):
    """Has eight threads share a site under the sanitizer of threads: nothing is to be found; and without their lock, something."""
    program = f"{room}/threads_watched"
    words = [compiler, *WARNINGS, *OF_THREADS, "-pthread", "-I", C, f"{C}/tests/threads_site.c", f"{C}/tests/watched.c", archive, "-o", program]
    if not trial.ran(f"{compiler}: tests/threads_site.c under the sanitizer of threads", words).returncode:
        trial.ran(f"{compiler} under the sanitizer of threads", [program])
        # without the lock it may never end: the first report is enough
        once = {**os.environ, "TSAN_OPTIONS": "halt_on_error=1"}
        ran = subprocess.run([program, "--no-lock"], stdout=subprocess.PIPE, stderr=subprocess.STDOUT, text=True, errors="replace", timeout=600, env=once)
        trial.note(f"{compiler} under the sanitizer of threads: without the lock it is reported", "WARNING: ThreadSanitizer: data race" in ran.stdout, ran.stdout)


def try_refusals(trial, room, name, played):
    """Plays the shorter ones of these, each as often as it allocates, with one allocation refused."""
    with open(f"{room}/refused", "w", encoding="utf-8") as it:
        it.writelines(f"{capacity} {recent} {mode} {file}\n" for capacity, recent, mode, file, _ in played if os.path.getsize(file) < 20_000)
    ran = subprocess.run([f"{room}/play", "--refuse", f"{room}/refused"], stdout=subprocess.PIPE, stderr=subprocess.STDOUT, text=True)
    total = sum(map(int, re.findall(r": (\d+) allocations refused$", ran.stdout, re.M)))
    trial.note(f"{name}: {total} allocations, each refused in its turn", not ran.returncode and total > 0, ran.stdout)


def try_c(trial, room, compiler, archives, played, wanted, of_sites):
    """All that is tried of the library by a compiler, plain and, where there is an archive for them, under the sanitizers. Of sites it is
    what `try_worlds` plays."""
    with open(f"{room}/asserts.c", "w", encoding="utf-8") as it:
        it.write(exports.asserts())
    count = exports.asserts().count("_Static_assert")
    trial.ran(f"{compiler}: {count} sizes, places and numbers of the header", [compiler, *WARNINGS, "-I", C, "-fsyntax-only", f"{room}/asserts.c"])
    with open(f"{room}/list", "w", encoding="utf-8") as it:
        it.writelines(f"{capacity} {recent} {mode} {file}\n" for capacity, recent, mode, file, _ in played)
    for name, flags, archive in (("", ["-O2"], archives[""]), (" under sanitizers", SANITIZERS, archives.get("addresses"))):
        if not archive or not build_c(trial, room, compiler, name, flags, archive):
            continue
        for program in ("odd", "odd_site", "odd_many", "long", "threads_site", "flat"):
            trial.ran(f"{compiler}{name}", [f"{room}/{program}"])
        trial.ran(f"{compiler}{name}", [f"{room}/stores", str(random.Random(with_tests.seed()).randrange(2**32))])
        for program in ("example", "page", "threads"):
            trial.ran(f"{compiler}: the example {program}{name}", [f"{room}/{program}"])
        ran = subprocess.run([f"{room}/play", f"{room}/list"], stdout=subprocess.PIPE, stderr=subprocess.PIPE, text=True, errors="replace")
        got = dict(re.findall(r"^== (\w+ \S+)\n(.*?)(?=^== |\Z)", ran.stdout, re.M | re.S))
        other = [it for *_, mode, file, _ in played if got.get(it := f"{mode} {file}") != wanted[it]]
        trial.note(f"{compiler}{name}: {len(played)} scripts, {len(other)} with other replies", not ran.returncode and not other,
                   ran.stderr + "".join(f"{it}: {got.get(it)!r}, wanted {wanted[it]!r}\n" for it in other[:3]))
        for number, store in enumerate(STORES):
            try_worlds(trial, f"{compiler}{name}, {store}", room, number, *of_sites)
        # under the sanitizers a tenth of them
        try_refusals(trial, room, f"{compiler}{name}", played[::10 if name else 1])
    if "threads" in archives:
        try_threads(trial, room, compiler, archives["threads"])


def python_of_tests():
    """The Python that runs the tests of its bindings: the first of these that has a driver of PostgreSQL, else this one."""
    has_driver = "import importlib.util as it, sys; sys.exit(not (it.find_spec('psycopg') or it.find_spec('psycopg2')))"
    found = [it for it in ("python3", "/usr/bin/python3") if shutil.which(it) and not subprocess.run([it, "-c", has_driver]).returncode]
    return (found or [sys.executable])[0]


def try_bindings(trial, folder, is_all):
    """The tests and examples of the bindings, and the blocks of commands that pages show, over the library of a folder. With --all Python's random tests go on
    for longer."""
    longer = {"TXC_HISTORIES": "500", "TXC_SECONDS": "60"} if is_all else {}
    where = {**longer, **os.environ, "TXC_LIBRARY": folder}
    if os.path.exists(f"{folder}/libtxc_c.so"):
        python = python_of_tests()
        ran = trial.ran("Python: tests", [python, "-m", "unittest", "-q"], cwd=f"{ROOT}/bindings/python", env=where)
        print("".join(f"{it}\n" for it in sorted(set(re.findall(r"^skipped: .*$", ran.stdout, re.M)))), end="")
        # Rust's tests, and the examples of all languages
        ran = trial.ran("pages: blocks of commands", [python, f"{ROOT}/scripts/blocks.py", "--library", folder])
        print("".join(f"{it}\n" for it in re.findall(r"^(?:skipped|passed): .*$", ran.stdout, re.M)), end="")
    else:
        trial.skip("Python, Rust and the blocks of pages, since there is no libtxc_c.so")


def try_extension(trial, folder, room):
    """Tries the extension of Python's package: each compiler takes it with no warning; and under the sanitizers of addresses and of undefined behaviour
    its tests and those of pages pass."""
    for compiler in filter(shutil.which, COMPILERS):
        words = extension.words_of(room, compiler)
        if words is None:
            return trial.skip("the extension of Python's package, since there is no Python.h")
        trial.ran(f"{compiler}: the extension of Python's package", words)
    by = next(filter(shutil.which, COMPILERS), None)
    runtime = subprocess.run([by, "-print-file-name=libasan.so"], stdout=subprocess.PIPE, text=True).stdout.strip() if by == "gcc" else ""
    if not os.path.isabs(runtime):
        return trial.skip("the extension under sanitizers, since gcc has no libasan.so")
    os.makedirs(f"{room}/extension")
    os.symlink(f"{folder}/libtxc_c.so", f"{room}/extension/libtxc_c.so")
    if trial.ran(f"{by}: the extension under sanitizers", extension.words_of(f"{room}/extension", by, SANITIZERS)).returncode:
        return None
    # the interpreter itself keeps memory until it ends; its own allocator would hide what is used after it was freed
    where = {**os.environ, "TXC_LIBRARY": f"{room}/extension", "LD_PRELOAD": runtime, "PYTHONMALLOC": "malloc", "ASAN_OPTIONS": "detect_leaks=0"}
    tests = [f"tests.{it}" for it in ("test_fast", "test_pages", "test_calls", "test_values")]
    of_sites = ["-k", "test_fast", "-k", "OfSqlite.test_"]
    trial.ran("Python: the extension's tests under sanitizers", [python_of_tests(), "-m", "unittest", "-q", *of_sites, *tests], cwd=f"{ROOT}/bindings/python", env=where)
    return None


def compilers(trial, is_all):
    """The compilers of C that the library is tried by; says which are not there."""
    there = [it for it in COMPILERS if shutil.which(it)]
    for it in COMPILERS:
        if it not in there and (is_all or not there):
            trial.skip(f"{it}, which is not there")
    return there if is_all else there[:1]


def try_all(trial, given, room):
    """Tries the library and its bindings, with files of its own in the room."""
    of, count = with_tests.seed(), given.count or (ALL_SCRIPTS if given.all else SCRIPTS)
    print(f"seed: {of}")
    archives = libraries(given, room)
    played = plays(room, count, of, given.rows)
    program = reference(room)
    wanted = {f"{mode} {file}": replies(program, capacity, recent, mode, file) for capacity, recent, mode, file, _ in played}
    unlike = [f"{mode} {file}" for *_, mode, file, text in played if text is not None and not wanted[f"{mode} {file}"].startswith(text)]
    trial.note(f"txcache: the {sum(text is not None for *_, text in played)} examples and rows", not unlike, "\n".join(unlike))
    sites = worlds.plays(room, count, random.Random(of))
    with open(f"{room}/worlds", "w", encoding="utf-8") as it:
        it.writelines(f"{events} {capacity} {recent} {renew} {file}\n" for events, capacity, recent, renew, file in sites)
    of_sites = {}, program, sites
    for compiler in compilers(trial, given.all):
        try_c(trial, room, compiler, archives, played, wanted, of_sites)
    folder = given.library or f"{room}/library"
    if os.path.exists(f"{folder}/libtxc_c.so"):
        extension.make(folder)
    try_bindings(trial, folder, given.all)
    if given.all and os.path.exists(f"{folder}/libtxc_c.so"):
        try_extension(trial, folder, room)


def main():
    words = argparse.ArgumentParser(usage=__doc__.partition("usage: ")[2].partition("\n")[0])
    for flag in ("--all", "--proved"):
        words.add_argument(flag, action="store_true")
    words.add_argument("--library", type=os.path.abspath)
    words.add_argument("--rows", default="")
    words.add_argument("count", nargs="?", type=int)
    given, trial = words.parse_args(), Trial()
    unlike = list(exports.differences())
    trial.note(f"the header: {len(exports.exports())} functions", not unlike, "\n".join(unlike))
    with tempfile.TemporaryDirectory(prefix="boundary-") as room:
        try_all(trial, given, room)
    print(f"{trial.passed} passed, {trial.failed} failed")
    sys.exit(int(trial.failed > 0))


if __name__ == "__main__":
    main()
