#!/usr/bin/env python3
"""Runs the blocks of commands that pages show, and compares what they print with what is shown.

usage: scripts/blocks.py [--library FOLDER] [PAGE..]
       scripts/blocks.py --check
  --library  the folder of libtxc_c.so and libtxc_c.a, by default bindings/out, or bindings/out/unproved if that is not there
  PAGE       a path from the top of the repository, by default all of PAGES
  --check    runs nothing: each block says how it is run, and each command of LONG is shown somewhere

Above a block, of indented lines or between fences, stands a comment `<!-- KIND -->`:

  run         commands of bash, each of which has to end with 0. A page is one session: what a block sets stays for the next
  prints      what the `run` above it printed; `..` stands for any text, and a line of it for any lines
  file: NAME  is stored as this file, in the folder in which the session is
  edit: NAME  each of its lines replaces the line of that file that is most like it
  sql: DSN    goes to psql
  part: PATH  lines that all stand in this file of the repository, which a test runs, but for comments behind them
  text        a drawing, a form or an excerpt: it is not run

A session begins in a copy of the repository without crates/, with the library in bindings/out and in bindings/out/unproved. It has
no network, and a PostgreSQL server of its own if it has `createdb`, `sql:` or psql. The last line is `N passed, M failed`, of pages.
"""

from __future__ import annotations

import argparse
import difflib
import importlib.util
import os
import re
import shlex
import shutil
import signal
import subprocess
import sys
import tempfile
import time
import unittest
from concurrent.futures import ThreadPoolExecutor
from dataclasses import dataclass
from pathlib import Path
from typing import Iterator, List, Optional

ROOT = Path(__file__).resolve().parent.parent
PAGES = ("README.md", "docs/PYTHON.md", "docs/OPERATIONS.md", "docs/BINDINGS.md", "bindings/c/README.md", "bindings/python/README.md", "bindings/rust/README.md")
# Commands that a session passes over, by how they begin, and why: they take more than four minutes, or don't end.
LONG = {
    "make try-library": "some four minutes of one core; the session has the library that `make test` compiled by the same script",
    "make library": "hours, if nothing is proved yet; the session has a library",
    "make demo": "goes on until Ctrl-C; bindings/python/tests/test_shop.py runs the shop",
    "python3 -m unittest": "several minutes; scripts/boundary.py runs it over the same library",
    "python3 tests/wrong_bodies.py": "runs tests of the package some 150 times",
}
# The examples that a block of a page has to run, as scripts/boundary.py runs those in C. build_wheel.py and beside.rs are none.
EXAMPLES = ("bindings/python/[!b]*.py", "bindings/rust/examples/[!b]*.rs")
KIND = re.compile(r"<!-- (run|prints|text|(?:file|edit|sql|part): .+?) -->\s*")
# A session may take so long, also beside proofs; alone it takes less than one.
SECONDS = 900
# What a session needs if it has one of these commands, and how its lack is called.
NEEDS = {"cargo": "Rust", "cc": "C"}
# What stands between the parts of a session's output.
MARK = "@@ block"
# How many sessions run at once.
AT_ONCE = 3
# What of the machine's packages a session does not see.
HIDDEN = re.compile(r"(?:pip|setuptools|wheel|pkg_resources|_distutils|distutils|txcache|easy_install|__pycache__|.*\.pth$)")


class Unusable(Exception):
    """A page can't be run as it is; its text says why."""


@dataclass
class Block:
    """A block of a page: the line of its first line, its kind and word, and its lines."""

    line: int
    kind: str
    word: str
    lines: List[str]


def blocks(text: str) -> Iterator[Block]:
    """Yields the blocks of a page, with an empty kind if no comment says one."""
    lines, at, kind, is_in_list = text.split("\n"), 0, "", False
    while at < len(lines):
        line = lines[at]
        said = KIND.fullmatch(line)
        begun, end = at, at
        is_in_list = is_in_list and not said and not line.startswith("```")
        if said:
            kind = said[1]
        elif line.startswith("```"):
            end = next(n for n in range(at + 1, len(lines)) if lines[n].startswith("```"))
            found = lines[at + 1:end]
        elif line.startswith("    ") and not is_in_list:
            end = next((n for n in range(at, len(lines)) if lines[n].strip() and not lines[n].startswith("    ")), len(lines)) - 1
            found = "\n".join(it[4:] for it in lines[at:end + 1]).rstrip("\n").split("\n")
        elif line.strip():
            kind, is_in_list = "", bool(re.match(r"\s*(?:-|\d+\.) ", line)) or is_in_list and line.startswith(" ")
        if not said and (line.startswith("```") or line.startswith("    ") and not is_in_list):
            name, _, word = kind.partition(": ")
            yield Block(begun + 1, name, word, found)
            kind = ""
        at = end + 1


def command(line: str) -> str:
    """Returns a line without the comment at its end."""
    return re.sub(r"\s+#.*$", "", line) if line.count("'") % 2 == 0 else line


def why_passed_over(line: str) -> Optional[str]:
    """Returns why a command is passed over, if it is: by the word of LONG with which it begins."""
    return next((why for begin, why in LONG.items() if command(line).startswith(begin)), None)


def faults(text: str) -> Iterator[str]:
    """Yields what is wrong with the blocks of a page, before any is run."""
    has_run = False
    for it in blocks(text):
        if not it.kind:
            yield f"has a block at line {it.line} with no comment that says how it is run (scripts/blocks.py): {it.lines[0] if it.lines else ''}"
        if it.kind == "prints" and not has_run:
            yield f"has a block `prints` at line {it.line}, and no block `run` above it"
        if it.kind == "part" and (missing := missing_lines(it)):
            yield f"shows a line that {it.word} does not have: {missing[0]}"
        has_run = has_run or it.kind == "run"


def missing_lines(block: Block) -> List[str]:
    """Returns the lines of a part that its file does not have."""
    path = ROOT / block.word
    there = {command(line).strip() for line in path.read_text(encoding="utf-8").split("\n")} if path.is_file() else set()
    return [it.strip() for it in block.lines if command(it).strip() and command(it).strip() not in there]


# A session of bash.


def given_to(words: str, lines: List[str]) -> str:
    """Returns a command that gets these lines as its input."""
    return f"{words} <<'TXC_END'\n" + "".join(f"{it}\n" for it in lines) + "TXC_END\n"


CHECKED = "__status=$?; [ $__status = 0 ] || exit $__status\n"


def script_of(text: str) -> str:
    """Returns the blocks of a page as one script, which prints a mark before each one that it runs."""
    own, made = f"{shlex.quote(sys.executable)} {shlex.quote(os.path.abspath(__file__))}", ""
    for number, it in enumerate(blocks(text)):
        made += f"echo; echo '{MARK} {number}'\n"
        if it.kind == "file":
            made += given_to(f"cat > {shlex.quote(it.word)}", it.lines)
        elif it.kind == "edit":
            made += given_to(f"{own} --edit {shlex.quote(it.word)}", it.lines) + CHECKED
        elif it.kind == "sql":
            made += given_to(f"psql -qX -v ON_ERROR_STOP=1 {shlex.quote(it.word)}", it.lines) + CHECKED
        elif it.kind == "run":
            for line in it.lines:
                if not why_passed_over(line):
                    made += f"{line}\n" + ("" if line.endswith("\\") else CHECKED)
    return made + f"echo; echo '{MARK} end'\n"


def edit(path: Path, lines: List[str]) -> None:
    """Replaces in a file, for each of these lines, the line that is most like it."""
    text = path.read_text(encoding="utf-8").split("\n")
    for line in filter(str.strip, lines):
        alike = max(range(len(text)), key=lambda at: difflib.SequenceMatcher(None, text[at], line).ratio())
        text[alike] = line
    path.write_text("\n".join(text), encoding="utf-8")


def packages(room: str) -> str:
    """Makes a folder of links to the machine's Python packages, but for pip and its kind, so that a bare venv finds drivers and frameworks."""
    folder = f"{room}/packages"
    os.mkdir(folder)
    spec = next(filter(None, map(importlib.util.find_spec, ("psycopg", "psycopg2", "flask"))), None)
    for name in os.listdir(os.path.dirname(os.path.dirname(spec.origin))) if spec and spec.origin else ():
        if not HIDDEN.match(name):
            os.symlink(f"{os.path.dirname(os.path.dirname(spec.origin))}/{name}", f"{folder}/{name}")
    return folder


def copy(room: str, library: str) -> str:
    """Makes the copy of the repository in which a session begins, and returns its path."""
    names = subprocess.run(["git", "ls-files", "--cached", "--others", "--exclude-standard"], cwd=ROOT, stdout=subprocess.PIPE, text=True, check=True).stdout.splitlines()
    for name in names:
        if not name.startswith(("crates/", "tests/", "bench/")) and (ROOT / name).is_file():
            os.makedirs(os.path.dirname(f"{room}/txcache/{name}"), exist_ok=True)
            shutil.copy(ROOT / name, f"{room}/txcache/{name}")
    for place in ("out", "out/unproved"):
        os.makedirs(f"{room}/txcache/bindings/{place}")
        for name in ("libtxc_c.so", "libtxc_c.a", "_fast_c.abi3.so", "txc.h"):
            if os.path.exists(f"{library}/{name}"):
                shutil.copy(f"{library}/{name}", f"{room}/txcache/bindings/{place}/{name}")
    return f"{room}/txcache"


def environment(room: str, script: str) -> "dict[str, str]":
    """Returns the environment of a session: of the server, if it needs one, and with no network."""
    env = {key: it for key, it in os.environ.items() if not key.startswith(("PIP_", "PYTHON", "TXC_", "PG", "VIRTUAL_ENV"))}
    env.update(HOME=room, PATH=f"{os.path.dirname(sys.executable)}:{env['PATH']}", PYTHONPATH=packages(room), PIP_INDEX_URL="http://127.0.0.1:1/simple", PIP_RETRIES="0",
               PIP_DISABLE_PIP_VERSION_CHECK="1", CARGO_NET_OFFLINE="true", CARGO_TERM_QUIET="true", CARGO_HOME=os.environ.get("CARGO_HOME") or os.path.expanduser("~/.cargo"), RUSTUP_HOME=os.environ.get("RUSTUP_HOME") or os.path.expanduser("~/.rustup"))
    if re.search(r"\b(?:createdb|psql)\b", script):
        server = database_server()
        env.update(PGHOST=server.folder, PGUSER="txc", PATH=f"{env['PATH']}:{server.programs}")
    return env


def database_server():
    """Returns a new PostgreSQL server. Fails with `SkipTest` if there can be none."""
    sys.path.insert(0, str(ROOT / "bindings/python"))
    from tests import server

    made = server.another()
    made.programs = made._programs
    return made


def skip(what: str, why: str) -> None:
    """Says what the machine lacks, and ends the session. With CI=true it has failed."""
    said = f"skipped: {what}, since {why}"
    if os.environ.get("CI") == "true":
        raise AssertionError(said)
    print(said, flush=True)
    raise unittest.SkipTest(said)


def like(shown: List[str], printed: List[str]) -> bool:
    """Returns whether what is shown is what was printed, where `..` stands for any text."""
    pattern = "".join(r"(?:.*\n)*?" if it.strip() == ".." else ".*".join(map(re.escape, it.rstrip().split(".."))) + r"\n" for it in shown)
    return re.fullmatch(pattern, "".join(f"{it.rstrip()}\n" for it in printed)) is not None


def judged(page: str, text: str, output: str, status: int) -> Optional[str]:
    """Returns what went wrong in a session, if anything did."""
    parts = dict(re.findall(rf"^\n?{MARK} (\w+)\n(.*?)(?=^\n?{MARK} |\Z)", output, re.M | re.S))
    printed: List[str] = []
    for number, it in enumerate(blocks(text)):
        said = parts.get(str(number))
        is_last = str(number + 1) not in parts and "end" not in parts
        if said is None:
            break
        if is_last and status:
            return f"{page}:{it.line}: ended with {status}: {it.lines[0]}\n{said[-2000:]}"
        if it.kind == "run":
            printed = said.strip("\n").split("\n")
        if it.kind == "prints" and not like(it.lines, printed):
            wanted = "\n".join(difflib.unified_diff(it.lines, printed, "shown", "printed", lineterm=""))
            return f"{page}:{it.line}: another output than is shown\n{wanted}"
    return None if "end" in parts else f"{page}: the session did not come to its end\n{output[-2000:]}"


def has_processes(group: int) -> bool:
    """Returns whether a group of processes has one yet."""
    try:
        os.killpg(group, 0)
    except ProcessLookupError:
        return False
    return True


def run(page: str, library: str) -> Optional[str]:
    """Runs the session of a page, and returns what went wrong, if anything did."""
    text = (ROOT / page).read_text(encoding="utf-8")
    if found := list(faults(text)):
        return "\n".join(f"{page} {it}" for it in found)
    if not any(it.kind in ("run", "sql") for it in blocks(text)):
        return None
    with tempfile.TemporaryDirectory(prefix="blocks-", dir="/tmp") as room:
        script = script_of(text)
        for program, what in NEEDS.items():
            if re.search(rf"^{program} ", script, re.M) and not shutil.which(program):
                skip(what, f"there is no {program}")
        with open(f"{room}/session", "w", encoding="utf-8") as file:
            file.write(script)
        # into a file, since what the session leaves running would keep a pipe open
        with open(f"{room}/printed", "w+", encoding="utf-8", errors="replace") as printed:
            ran = subprocess.Popen(["bash", f"{room}/session"], cwd=copy(room, library), env=environment(room, script), stdin=subprocess.DEVNULL, stdout=printed,
                                   stderr=subprocess.STDOUT, start_new_session=True)
            try:
                ran.wait(SECONDS)
            except subprocess.TimeoutExpired:
                pass
            finally:
                if has_processes(ran.pid):
                    os.killpg(ran.pid, signal.SIGKILL)
                ran.wait()
            printed.seek(0)
            output = printed.read()
        return judged(page, text, output, ran.returncode)


def check() -> Iterator["tuple[str, str]"]:
    """Yields each file in which something is wrong with the blocks of all pages or with LONG, and what, before any is run."""
    texts = {page: (ROOT / page).read_text(encoding="utf-8") for page in PAGES}
    for page, text in texts.items():
        for said in faults(text):
            yield page, said
    commands = [command(line) for text in texts.values() for it in blocks(text) if it.kind == "run" for line in it.lines]
    for it in LONG:
        if not any(line.startswith(it) for line in commands):
            yield "scripts/blocks.py", f"has `{it}` in LONG, which no block shows"
    for path in [path for place in EXAMPLES for path in sorted(ROOT.glob(place))]:
        name = path.stem if path.suffix == ".rs" else path.name
        if not any(re.search(rf"(?<![\w.]){re.escape(name)}\b", line) for line in commands):
            yield path.relative_to(ROOT).as_posix(), "is an example that no block of a page runs"


def main() -> int:
    words = argparse.ArgumentParser(usage=__doc__.partition("usage: ")[2].partition("\n  --library")[0])
    words.add_argument("--library", type=os.path.abspath)
    words.add_argument("--check", action="store_true")
    words.add_argument("--edit", type=Path)
    words.add_argument("pages", nargs="*", default=PAGES)
    given = words.parse_args()
    if given.edit:
        edit(given.edit, sys.stdin.read().split("\n"))
        return 0
    if given.check:
        found = [f"{file} {said}" for file, said in check()]
        print("".join(f"{it}\n" for it in found), end="")
        return int(bool(found))
    library = given.library or next((it for it in (f"{ROOT}/bindings/out", f"{ROOT}/bindings/out/unproved") if os.path.exists(f"{it}/libtxc_c.so")), None)
    if not library:
        raise Unusable("there is no libtxc_c.so in bindings/out: make try-library first")
    # the tests of the package, by which a server is made, load it
    os.environ["TXC_LIBRARY"] = library
    failed = 0

    def timed(page: str) -> "tuple[str, Optional[str], float]":
        begun = time.monotonic()
        try:
            fault = run(page, library)
        except unittest.SkipTest:
            # what is lacking was printed
            fault = None
        except (AssertionError, OSError) as error:
            fault = f"{type(error).__name__}: {error}"
        return page, fault, time.monotonic() - begun

    with ThreadPoolExecutor(AT_ONCE) as pool:
        for page, fault, seconds in pool.map(timed, given.pages):
            failed += fault is not None
            print(f"{'FAILED' if fault else 'passed'}: the blocks of {page}, {seconds:.0f} s" + (f"\n{fault}" if fault else ""), flush=True)
    print(f"{len(given.pages) - failed} passed, {failed} failed")
    return int(failed > 0)


if __name__ == "__main__":
    try:
        sys.exit(main())
    except Unusable as error:
        sys.exit(f"blocks.py: {error}")
