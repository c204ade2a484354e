#!/usr/bin/env python3
"""Tries the wrong bodies of crates/CRATE/wrong-bodies/ (scripts/wrong_bodies.py says what stands there): the prover has to refuse each.

usage: [JOBS=N] scripts/edits.py [CRATE | CRATE/NAME]..
       [JOBS=N] scripts/edits.py --kept [CRATE | CRATE/NAME]..
       [JOBS=N] scripts/edits.py --named [CRATE]..
       [JOBS=N] scripts/edits.py --since COMMIT [CRATE]..
       scripts/edits.py --bare [CRATE]..
       scripts/edits.py --check
  JOBS     how many checks run side by side, by default one a core (up to 2.7 GB each)
  --kept   takes the libraries of crates/*/out as they lie there, as `rt ci` (so `make prove`) has left them, and so does what follows.
           Without it those below a crate are proved and built anew if one is not there, or is older than its sources
  --named  tries those that are marked `(gate)`, as the gate does
  --since  tries those that are due since a commit: their own text has changed, or the contract or the body of their function, or a
           definition that the contract rests on
  --bare   lists the public functions that no wrong body changes, and tries nothing
  --check  looks at the files alone, and tries nothing

No CRATE means all of them. Each wrong body is applied to a copy of its crate, and of the function that it changes the prover is to say that
a goal is not proved. If it only says that a proof names what is gone, the verdict begins with `names:`: that shows no clause. A contract is
all that the proofs of others know of a function, so wrong bodies of several functions are tried in one check; one whose function only waits
for another is tried again, alone. The checks of a crate share what they saw of functions that stayed the same.

It prints each wrong body with its verdict, how many were refused by a name alone, and last `N refused, M proved`, with `, K bad` if some
could not be tried. The exit status is 0 only if M and K are 0. It is 2, and nothing was tried, if there is no such crate, name, commit or
library, or if a file of wrong bodies has a fault; each is named with its file and line.
"""

from __future__ import annotations

import argparse
import os
import queue
import re
import shutil
import signal
import subprocess
import sys
import tempfile
import threading
from collections import defaultdict
from collections.abc import Iterable, Iterator, Sequence
from concurrent.futures import ThreadPoolExecutor
from dataclasses import dataclass
from pathlib import Path

import changed_since
import wrong_bodies
from check import check_words
from wrong_bodies import Function, WrongBody

ROOT = Path(__file__).resolve().parent.parent
# A check of so many wrong bodies still fits the memory and ends in some minutes.
MOST_TOGETHER = 24
# How many characters of what the prover said of a wrong body are printed.
MOST_SAID = 200
# How many characters of what was said are printed if a crate is not proved.
MOST_SAID_OF_A_BUILD = 3000
# What is said where a proof names what the wrong body took away: that shows little of a contract.
NAMES = re.compile(r"has no field|\(nearest: |is not in scope|has no `|was not admitted")
# How the text of a verdict begins that rests on such names alone.
BY_NAMES = "names: "
# How a message of the prover begins. A line that begins otherwise continues the message before it.
HEAD = re.compile(r"\S+:\d+:\d+: |fn |note: |help: |error\b|warning\b|by-macro:|statements |logic=")
# What is said of a function of which only a callee is not proved.
WAITS = re.compile(r"not proved; it waits|(?:no proof:|not proved;) it calls `.*`, which (?:is|are) not proved$"
                   r"|no proof: the borrow checker's part in its proof is not made yet: a call of .*, which has no proof")
# What is said of a function whose goals are all proved, also of one that may wait, or whose callers owe it something.
PROVED = re.compile(r"proved(?:$|,| where )")
# What is said of a function on which the prover gave up.
GAVE_UP = re.compile(r"could not tell")
# What the prover says of a name that it is asked to check, if it has none or several such, before it checks anything.
UNKNOWN = re.compile(r"(?:has no function|several functions are named) `([^`]*)`.*")
# Set once the command is to end: no check begins any more.
IS_OVER = threading.Event()


class CannotTry(Exception):
    """Nothing can be tried: what was asked for is not there."""


@dataclass
class Trial:
    """A wrong body with its functions, and the verdict on it: `refused`, `proved` or `bad`, and none before it is judged."""

    body: WrongBody
    functions: list[Function]
    verdict: str = ""
    said: str = ""

    def end(self, verdict: str, said: str) -> None:
        self.verdict, self.said = verdict, said

    def said_of(self, lines: Iterable[str]) -> list[str]:
        """Returns what a check says of its functions."""
        names = [re.compile(rf"fn {it.pattern}(?:<.*>)?: (.*)") for it in self.functions]
        return [found[1] for line in lines for name in names if (found := name.match(line))]


# What is tried.


def chosen(root: Path, words: Sequence[str]) -> list[WrongBody]:
    """Returns the wrong bodies of the crates among the words, and those that are said as CRATE/NAME; with no word, all."""
    known = wrong_bodies.crates_with_wrong_bodies(root)
    crates = list(dict.fromkeys(it.partition("/")[0] for it in words))
    if missing := [it for it in crates if it not in known]:
        raise CannotTry(f"no wrong body is of {', '.join(missing)}")
    found = wrong_bodies.read(root, crates)
    wanted = set(words)
    if missing := wanted - {*crates} - {it.label for it in found}:
        raise CannotTry(f"there is no wrong body {', '.join(sorted(missing))}")
    return [it for it in found if not words or it.crate in wanted or it.label in wanted]


def named(root: str | Path, crates: Sequence[str]) -> list[str]:
    """Returns the wrong bodies of these crates, or of all, that the gate tries, as CRATE/NAME."""
    known = wrong_bodies.crates_with_wrong_bodies(Path(root))
    return [it.label for crate in known if not crates or crate in crates for it in wrong_bodies.read(Path(root), [crate]) if it.is_in_gate]


def rounds(root: Path, trials: Iterable[Trial]) -> list[list[Trial]]:
    """Returns lists of trials of one crate of which no two change one function. What changes more than functions stands alone."""
    made: list[list[Trial]] = []
    open_rounds: list[list[Trial]] = []
    for trial in trials:
        if not trial.body.is_within_functions(root):
            made.append([trial])
            continue
        ends = {it.end for it in trial.functions}
        fits = (it for it in open_rounds if len(it) < MOST_TOGETHER and not any(ends & {f.end for f in other.functions} for other in it))
        taken = next(fits, None)
        if taken is None:
            taken = []
            open_rounds.append(taken)
        taken.append(trial)
    return made + open_rounds


# How it is tried.


def apply(trials: Iterable[Trial], folder: str) -> None:
    """Makes the changes of all trials in a copy of their crate, from the end of each file, so that the places before stay where they are."""
    by_file = defaultdict(list)
    for trial in trials:
        for change in trial.body.changes:
            by_file[change.file].append(change)
    for file, changes in by_file.items():
        path = Path(folder, file)
        text = path.read_text(encoding="utf-8")
        places = sorted(((text.index(it.old), it) for it in changes), key=lambda it: it[0], reverse=True)
        for at, change in places:
            text = text[:at] + change.new + text[at + len(change.old):]
        path.write_text(text, encoding="utf-8")


def check(root: Path, trials: list[Trial], seen: str) -> str:
    """Checks in a copy of the crate the functions that these trials change, and returns what the prover says."""
    crate = trials[0].body.crate
    if IS_OVER.is_set():
        raise CannotTry("the command was stopped")
    # cpu.py knows the checks of wrong bodies by the name of this folder
    with tempfile.TemporaryDirectory(prefix="round-") as room:
        for part in ("src", "specs", "proofs"):
            if (root / "crates" / crate / part).is_dir():
                shutil.copytree(root / "crates" / crate / part, Path(room, part))
        apply(trials, room)
        ends = sorted({it.end for trial in trials for it in trial.functions})
        ran = subprocess.run(["rattle", "check", *check_words(str(root), crate), "--incremental", seen, *(it for end in ends for it in ("--only", end))],
                             cwd=room, stdout=subprocess.PIPE, stderr=subprocess.STDOUT, errors="replace", text=True, check=False)
        return ran.stdout


def try_together(root: Path, trials: list[Trial], seen: str) -> None:
    """Gives those of these trials a verdict of which one check says enough."""
    said = check(root, trials, seen)
    unknown = UNKNOWN.search(said)
    strangers = [trial for trial in trials if unknown and unknown[1] in {it.end for it in trial.functions}]
    if unknown and strangers:
        for trial in strangers:
            trial.end("bad", unknown[0])
        if left := [trial for trial in trials if not trial.verdict]:
            try_together(root, left, seen)
        return
    lines = said.split("\n")
    for trial in trials:
        judge(trial, lines)
        if not trial.verdict and len(trials) == 1:
            own = trial.said_of(lines)
            trial.end("proved" if own and all(map(PROVED.match, own)) else "bad", " | ".join(own or [it for it in lines if it][-3:]))


def judge(trial: Trial, lines: list[str]) -> None:
    """Gives a trial its verdict if the check says of its own functions why they are not proved."""
    own = trial.said_of(lines)
    failing = [it for it in own if not any(kind.match(it) for kind in (PROVED, WAITS, GAVE_UP))]
    uncovered = [it for it in failing if "the borrow checker does not cover" in it]
    if uncovered:
        trial.end("bad", uncovered[0])
    elif failing:
        folders = [re.compile(f"proofs/{it.proof_folder}/") for it in trial.functions]
        errors = [it for it in messages(lines) if ": error" in it and any(folder.search(it) for folder in folders)]
        by_names = errors and all(map(NAMES.search, errors)) and not any("it is not proved that" in it for it in own)
        trial.end("refused", f"{BY_NAMES}{errors[0]}" if by_names else failing[0])


def messages(lines: Iterable[str]) -> list[str]:
    """Returns the messages of a check, each in one line: the prover breaks long ones."""
    found: list[str] = []
    for line in lines:
        if found and not HEAD.match(line):
            found[-1] += f" {line.strip()}"
        else:
            found.append(line)
    return found


def try_crate(root: Path, trials: list[Trial], jobs: int) -> None:
    """Gives each of these trials of one crate its verdict, and prints it: so many checks at a time, each of which goes on in a folder from
    what one before it saw."""
    with tempfile.TemporaryDirectory(prefix="seen-") as room, ThreadPoolExecutor(jobs) as pool:
        folders: queue.SimpleQueue[str] = queue.SimpleQueue()
        for _ in range(jobs):
            folders.put(tempfile.mkdtemp(dir=room))

        def run(together: list[Trial]) -> None:
            seen = folders.get()
            try:
                try_together(root, together, seen)
            finally:
                folders.put(seen)
            for trial in together:
                if trial.verdict:
                    print(f"{trial.body.label}: {trial.verdict}: {trial.said[:MOST_SAID]}", flush=True)

        list(pool.map(run, sorted(rounds(root, trials), key=len, reverse=True)))
        # one whose function waits for that of another was not judged beside it
        list(pool.map(run, [[it] for it in trials if not it.verdict]))


def try_all(root: Path, bodies: list[WrongBody]) -> int:
    """Tries the wrong bodies over the libraries of crates/*/out, prints the verdicts, and returns the exit status."""
    by_crate = defaultdict(list)
    for body in bodies:
        by_crate[body.crate].append(Trial(body, body.functions(root)))
    jobs = int(os.environ.get("JOBS") or os.cpu_count() or 1)
    with ThreadPoolExecutor(jobs) as pool:
        list(pool.map(lambda own: try_crate(root, own, max(1, jobs // len(by_crate))), sorted(by_crate.values(), key=len, reverse=True)))
    trials = [it for own in by_crate.values() for it in own]
    count = {verdict: sum(it.verdict == verdict for it in trials) for verdict in ("refused", "proved", "bad")}
    by_names = sum(it.verdict == "refused" and it.said.startswith(BY_NAMES) for it in trials)
    if by_names:
        print(f"refused by a name alone: {by_names}")
    print(f"{count['refused']} refused, {count['proved']} proved" + (f", {count['bad']} bad" if count["bad"] else ""))
    return int(count["refused"] != len(trials))


# The libraries below.


def newest(folder: Path) -> float:
    """Returns when a file below a folder was changed last, or 0 if it has none."""
    return max((it.stat().st_mtime for it in folder.rglob("*") if it.is_file()), default=0)


def libraries(root: Path, crate: str) -> Iterator[tuple[Path, float]]:
    """Yields a file of each library that a check of a crate takes, with when its sources were changed last."""
    below = changed_since.Tree(root).below[crate] - {crate}
    for it in sorted(below):
        sources = [newest(root / "crates" / it / part) for part in ("src", "specs", "proofs")]
        yield root / "crates" / it / "out" / "rlib" / f"{it}.rlib" / "format", max(sources)


def look_for_libraries(root: Path, crates: Iterable[str]) -> None:
    """Fails if a library is not there that a check of these crates takes."""
    for crate in crates:
        if missing := next((it for it, _ in libraries(root, crate) if not it.exists()), None):
            raise CannotTry(f"a check of {crate} takes {missing.parent}, which is not there: `rt ci {crate}` makes it")


def build_libraries(root: Path, crates: Iterable[str]) -> None:
    """Proves and builds the libraries below each of these crates of which one is not there, or is older than its sources."""
    for crate in crates:
        if all(it.exists() and changed < it.stat().st_mtime for it, changed in libraries(root, crate)):
            continue
        ran = subprocess.run(["rt", "lib", "--jobs", os.environ.get("JOBS") or str(os.cpu_count())], cwd=root / "crates" / crate,
                             stdout=subprocess.PIPE, stderr=subprocess.STDOUT, text=True, errors="replace", check=False)
        if ran.returncode:
            raise CannotTry(f"{ran.stdout[-MOST_SAID_OF_A_BUILD:]}{crate} is not proved")


# The command line.


def print_bare(root: Path, words: Sequence[str]) -> int:
    found, count = [], 0
    for crate in words or sorted(it.name for it in (root / "crates").iterdir() if (it / "src").is_dir()):
        if not (root / "crates" / crate / "src").is_dir():
            raise CannotTry(f"there is no crate {crate}")
        own, public = wrong_bodies.bare(root, crate)
        found, count = found + own, count + public
    print("".join(f"{it}\n" for it in found) + f"{len(found)} of {count} public functions have no wrong body")
    return 0


def run(given: argparse.Namespace) -> int:
    if given.check:
        if found := wrong_bodies.faults(ROOT):
            raise wrong_bodies.BadFiles(found)
        return 0
    if given.bare:
        return print_bare(ROOT, given.words)
    bodies = chosen(ROOT, given.words)
    if given.named:
        bodies = [it for it in bodies if it.is_in_gate]
    if given.since:
        bodies = changed_since.due(ROOT, given.since, bodies)
        print(f"{len(bodies)} wrong bodies are due since {given.since}", file=sys.stderr)
    crates = dict.fromkeys(it.crate for it in bodies)
    if given.kept or given.named or given.since:
        look_for_libraries(ROOT, crates)
    else:
        build_libraries(ROOT, crates)
    return try_all(ROOT, bodies)


def main() -> int:
    words = argparse.ArgumentParser(usage=__doc__.partition("usage: ")[2].partition("\n  JOBS")[0])
    how = words.add_mutually_exclusive_group()
    for flag in ("--kept", "--named", "--bare", "--check"):
        how.add_argument(flag, action="store_true")
    how.add_argument("--since", metavar="COMMIT")
    words.add_argument("words", nargs="*")
    try:
        return run(words.parse_args())
    except (CannotTry, wrong_bodies.BadFiles, changed_since.NoSuchCommit) as error:
        print(error, file=sys.stderr)
        return 2


def stop(number: int, _: object) -> None:
    IS_OVER.set()
    sys.exit(128 + number)


if __name__ == "__main__":
    for it in (signal.SIGINT, signal.SIGTERM):
        signal.signal(it, stop)
    sys.exit(main())
