#!/usr/bin/env python3
"""Applies one wrong body in a copy of its crate, and shows what the verifier says: the clause that is false of it.

usage: scripts/mutant.py [--kept] NAME
  NAME    that of a wrong body, or CRATE/NAME if several crates have one of this name; `make docs` lists all in docs/out/WRONG_BODIES.md
  --kept  takes the libraries in crates/*/out as they are

The libraries of the crates below are proved and built first, if they are missing or older than their sources; it says how long that
takes. The exit status is 0 if the verifier rejects the body, 1 if it proves it, and 2 if nothing was tried: there is no such name, which
is answered with the nearest ones, or no such library.
"""

from __future__ import annotations

import argparse
import difflib
import re
import sys
import tempfile
from pathlib import Path
from typing import Iterator

import changed_since
import cpu
import edits
import wrong_bodies
from edits import CannotTry, Trial
from wrong_bodies import WrongBody

ROOT = Path(__file__).resolve().parent.parent
# How many names are shown in answer to one that does not exist.
MOST_NEAREST = 5
# How many characters are shown of one message of the verifier.
MOST_OF_A_MESSAGE = 400


def named(root: Path, name: str) -> WrongBody:
    """Returns the wrong body of this name. Fails with `CannotTry` if there is none or if there are several."""
    if not name:
        raise CannotTry("a name is missing: make mutant NAME=..; `make docs` lists all in docs/out/WRONG_BODIES.md")
    known = wrong_bodies.read(root)
    found = [it for it in known if name in (it.name, it.label)]
    if len(found) == 1:
        return found[0]
    if found:
        raise CannotTry(f"{len(found)} crates have a wrong body {name}: NAME={' or NAME='.join(it.label for it in found)}")
    raise CannotTry(f"there is no wrong body {name}; " + nearest(name, known))


def nearest(name: str, known: list[WrongBody]) -> str:
    """Returns a line of the names that are most like this one."""
    labels = {it.name: it.label for it in known}
    own = name.partition("/")[2] or name
    found = difflib.get_close_matches(own, labels, MOST_NEAREST, cutoff=0.4) or [it for it in labels if own in it][:MOST_NEAREST]
    return "the nearest are " + ", ".join(labels[it] for it in found) if found else "`make docs` lists all in docs/out/WRONG_BODIES.md"


def shown(body: WrongBody) -> Iterator[str]:
    """Yields the lines of the change: where, and what stands in which place."""
    for change in body.changes:
        yield f"crates/{body.crate}/{change.file}"
        for line in difflib.unified_diff(change.old.split("\n"), change.new.split("\n"), lineterm="", n=1):
            if not line.startswith(("---", "+++", "@@")):
                yield f"  {line}"


def minutes_of_libraries(root: Path, crate: str) -> float:
    """Returns how many minutes of one core the libraries below a crate took that are missing or older than their sources, by docs/gate.tsv."""
    missing = {it.parents[2].parent.name for it, changed in edits.libraries(root, crate) if not it.exists() or changed > it.stat().st_mtime}
    return sum(it.cpu for it in cpu.read(root / "docs/gate.tsv") if it.crate in missing and it.kind in ("proof", "build")) / 60


def contract(body: WrongBody, trial: Trial) -> Iterator[str]:
    """Yields the heads of the functions of a wrong body, with their clauses."""
    lines = (ROOT / "crates" / body.crate / body.source).read_text(encoding="utf-8").split("\n")
    for it in trial.functions:
        yield from lines[it.first:it.body]


def counterexample(message: str) -> str:
    """Returns a message about a goal that may be false, with the values of arguments and results alone of all that it lists."""
    values = re.findall(r"`c\.((?:args|[\w-]+)(?:\.\w+)*)` = `(true|false|\d+)`", message)
    shown = ", ".join(f"{name.removeprefix('args.')} = {value}" for name, value in values)
    return f"It is false, for example, for {shown}." if shown else message[:MOST_OF_A_MESSAGE]


def messages(trial: Trial, said: str) -> Iterator[str]:
    """Yields what the verifier says of the functions of a wrong body: the clause that is not proved, the goal, values at which it is false, and the verdict."""
    folders = [f"proofs/{it.proof_folder}/" for it in trial.functions]
    names = [re.compile(rf"fn {it.pattern}(?:<.*>)?: ") for it in trial.functions]
    files = {change.file for change in trial.body.changes}
    for it in edits.messages(said.split("\n")):
        is_of_goal = any(folder in it for folder in folders)
        if "it is not proved that" in it and any(f"{file}:" in it for file in files):
            yield it.removeprefix("note: ").partition("; the facts known")[0]
        elif is_of_goal and "must prove: " in it:
            yield f"The goal: {it.partition('must prove: ')[2].partition(' names you can use')[0]}"
        elif is_of_goal and "may be false: " in it:
            yield counterexample(it)
        elif is_of_goal and "error" in it or any(name.match(it) for name in names):
            yield it[:MOST_OF_A_MESSAGE]


def run(given: argparse.Namespace) -> int:
    body = named(ROOT, given.name)
    trial = Trial(body, body.functions(ROOT))
    print(f"{body.label}: the function {', '.join(it.end for it in trial.functions) or 'that a proof names'}", *shown(body), sep="\n")
    print("Its contract:", *(f"  {it}" for it in contract(body, trial)), sep="\n", flush=True)
    if given.kept:
        edits.look_for_libraries(ROOT, [body.crate])
    else:
        minutes = minutes_of_libraries(ROOT, body.crate)
        if minutes:
            print(f"The libraries below {body.crate} are proved and built first: some {minutes:.0f} minutes of one core.", flush=True)
        edits.build_libraries(ROOT, [body.crate])
    print("The verifier says:", flush=True)
    with tempfile.TemporaryDirectory(prefix="mutant-") as seen:
        said = edits.check(ROOT, [trial], seen)
    lines = said.split("\n")
    edits.judge(trial, lines)
    print("".join(f"  {it}\n" for it in list(messages(trial, said)) or [it for it in lines if it][-3:]), end="")
    if trial.verdict == "refused":
        print(f"{body.label} is rejected.")
        return 0
    is_proved = trial.said_of(lines) and all(map(edits.PROVED.match, trial.said_of(lines)))
    print(f"{body.label} is {'proved: its contract has a gap' if is_proved else 'neither rejected nor proved'}.")
    return 1


def main() -> int:
    words = argparse.ArgumentParser(usage=__doc__.partition("usage: ")[2].partition("\n  NAME")[0])
    words.add_argument("--kept", action="store_true")
    words.add_argument("name")
    try:
        return run(words.parse_args())
    except (CannotTry, wrong_bodies.BadFiles, changed_since.NoSuchCommit) as error:
        print(f"mutant.py: {error}", file=sys.stderr)
        return 2


if __name__ == "__main__":
    sys.exit(main())
