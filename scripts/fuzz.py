"""Runs the program over changed scripts and settings. fuzz.sh says how it is called, and what it prints.

usage: python3 scripts/fuzz.py PROGRAM SEED SECONDS    at the top of the repository
"""

import collections
import glob
import os
import re
import subprocess
import sys
import tempfile
import time
from random import Random
from typing import NamedTuple

from script_files import MODES

# How many scripts `rt try` is given for each second.
RATE = 20
TIMEOUT = 60

KEYS = ["capacity", "nodes", "permits", "recent", "renew_after", "row_cap", "workers"]
# Numbers at the ends of what a word, a stamp, a setting or a moment may be, and words that are no numbers.
NUMBERS = "0 1 2 3 4 5 7 8 9 15 16 31 32 63 64 65 255 256 1000 1024 1025 2000 4096 4097 65536 65537 1048575 1048576 1048577 "
NUMBERS += "4294967295 4294967296 18446744073709551615 18446744073709551616 99999999999999999999999 00 01 -1 +1 1.5 0x1"
NUMBERS = NUMBERS.split()
BYTES = [0, 9, 10, 13, 31, 32, 33, 34, 35, 44, 45, 48, 57, 58, 61, 63, 102, 126, 127, 128, 195, 255]


class Run(NamedTuple):
    """What the program is run on. Its words are the mode and then the settings, if there are any."""

    words: list[str]
    script: bytes


class Ended(NamedTuple):
    """How a run ended: its status is negative after a signal, and None where it had to be stopped. What it printed is None
    where that is not known."""

    status: int | None
    out: bytes | None
    why: str


class Maker:
    """Makes scripts and settings. It counts the lines, and those that were left as they are in an example.

    Settings of several keys have several lines, which `rt try` does not hand on."""

    def __init__(self, seed: int, takes_lines: bool):
        self.random = Random(seed)
        self.takes_lines = takes_lines
        self.lines, self.left = 0, 0
        self.scripts = {}
        for ending, modes in MODES.items():
            files = sorted(glob.glob(f"examples/**/*{ending}", recursive=True))
            texts = []
            for file in files:
                with open(file, "rb") as it:
                    texts.append(it.read().split(b"\n"))
            for mode in modes:
                self.scripts[mode] = texts
        self.scripts = {mode: texts for mode, texts in self.scripts.items() if texts}

    def changed_by_bytes(self, line: bytes) -> bytes:
        """A byte more, less or another; or the line twice, or very long."""
        at = self.random.randrange(len(line) + 1)
        byte = bytes([self.random.choice(BYTES) if self.random.random() < 0.7 else self.random.randrange(256)])
        ways = [
            line[:at] + byte + line[at:],
            line[:at] + line[at + 1 :],
            line[:at] + byte + line[at + 1 :],
            line[:at],
            line + b" " + line,
            line + byte * self.random.choice([1, 255, 256, 257, 4096 - len(line) % 4096, 4097 - len(line) % 4096]),
            b"#" + line,
        ]
        return self.random.choice(ways)

    def changed_by_words(self, line: bytes, others: list[bytes]) -> bytes:
        """A word more, less or another: a number, or a word of another line. The numbers within a word count as words."""
        if self.random.random() < 0.4:
            parts = re.split(rb"(\d+)", line)
            places = range(1, len(parts), 2)
            if places:
                parts[self.random.choice(places)] = self.random.choice(NUMBERS).encode()
                return b"".join(parts)
        words = line.split(b" ")
        other = self.random.choice(self.random.choice(others).split(b" "))
        word = self.random.choice([other, self.random.choice(NUMBERS).encode()])
        at = self.random.randrange(len(words))
        kind = self.random.random()
        if kind < 0.6:
            words[at] = word
        elif kind < 0.8:
            words.insert(at, word)
        else:
            del words[at]
        return b" ".join(words)

    def script(self, mode: str) -> bytes:
        """Lines of one example or of several, of which some are changed: many of them in a script, a few, or none."""
        texts = self.scripts[mode]
        lines = list(self.random.choice(texts))
        if len(lines) > 400:
            from_line = self.random.randrange(len(lines) - 200)
            lines = lines[from_line : from_line + 200]
        for _ in range(self.random.choice([0, 0, 1, 4, 20])):
            lines.insert(self.random.randrange(len(lines) + 1), self.random.choice(self.random.choice(texts)))
        if self.random.random() < 0.2:
            self.random.shuffle(lines)
        rate = self.random.choice([0.02, 0.1, 0.3, 0.5, 1, 1])
        # A line whose words are other ones of the same form is most often well formed still, so that the run goes on.
        by_words = self.random.choice([0, 0.5, 1, 1])
        made = []
        for line in lines:
            self.lines += 1
            if self.random.random() >= rate:
                self.left += 1
            elif self.random.random() < by_words:
                line = self.changed_by_words(line, lines)
            else:
                line = self.changed_by_bytes(line)
            made.append(line)
        return b"\n".join(made)

    def settings(self) -> list[str]:
        if self.random.random() < 0.4:
            return []
        lines = []
        for key in self.random.sample(KEYS, self.random.randrange(1, 4) if self.takes_lines else 1):
            number = self.random.choice(NUMBERS[: 12 if self.random.random() < 0.8 else None])
            lines.append(f"{key} = {number}")
        text = "\n".join(lines).encode()
        if self.random.random() < 0.1:
            text = self.changed_by_bytes(text)
        # a program's words hold no zero byte
        unfit = r"\0" if self.takes_lines else r"[\0\n\r]"
        return ["--settings=" + re.sub(unfit, " ", text.decode(errors="replace"))[:4000]]

    def run(self) -> Run:
        mode = self.random.choice(sorted(self.scripts))
        return Run([mode, *self.settings()], self.script(mode))


def ran(program: str, run: Run) -> Ended:
    try:
        ended = subprocess.run([program, *run.words], input=run.script, capture_output=True, timeout=TIMEOUT)
        return Ended(ended.returncode, ended.stdout, ended.stderr.decode(errors="replace").strip()[-300:])
    except subprocess.TimeoutExpired:
        return Ended(None, None, f"had not ended after {TIMEOUT} seconds")


def break_streams(program: str, maker: Maker) -> int:
    """Runs each mode where the first read fails, of a folder, and where the first write fails, to a full device. Returns in
    how many runs something was wrong: the status is 4, and why is said."""
    wrong = 0
    for mode, texts in maker.scripts.items():
        script = b"\n".join(texts[0])
        folder = os.open(".", os.O_RDONLY)
        with open("/dev/full", "wb") as full:
            read = subprocess.run([program, mode], stdin=folder, capture_output=True, timeout=TIMEOUT)
            write = subprocess.run([program, mode], input=script, stdout=full, stderr=subprocess.PIPE, timeout=TIMEOUT)
        os.close(folder)
        for what, ended in ("reader", read), ("writer", write):
            if ended.returncode != 4 or not ended.stderr:
                wrong += 1
                print(f"{mode}, a {what} that fails: status {ended.returncode}, {ended.stderr!r}", flush=True)
    return wrong


def run_for(program: str, maker: Maker, seconds: float):
    """Runs the built program until the time is over."""
    until = time.monotonic() + seconds
    while time.monotonic() < until:
        run = maker.run()
        yield run, ran(program, run)


def try_for(maker: Maker, seconds: float):
    """Gives `rt try` scripts for so many seconds."""
    runs = [maker.run() for _ in range(max(1, int(seconds * RATE)))]
    with tempfile.TemporaryDirectory(prefix="fuzz-") as room:
        for number, run in enumerate(runs):
            with open(f"{room}/{number:06}", "wb") as it:
                it.write(run.script)
            with open(f"{room}/{number:06}.args", "w", encoding="utf-8") as it:
                it.write("\n".join(run.words) + "\n")
        tried = subprocess.run(["rt", "try", "--cases", room], cwd="crates/txcache", stdout=subprocess.PIPE, stderr=subprocess.STDOUT)
    said = tried.stdout.decode(errors="replace")
    ends = {int(number): rest for number, rest in re.findall(r"^case=(\d{6}) (.*)$", said, re.M)}
    if not ends:
        sys.exit(f"fuzz.py: `rt try` ran nothing: {said[-2000:]}")
    for number, run in enumerate(runs):
        end = ends.get(number, "it was not run")
        status = re.match(r"run=ended status=(\d+)", end)
        yield run, Ended(int(status[1]) if status else None, None, end)


def wrong_of(ended: Ended) -> str | None:
    """What is wrong with the end of a run."""
    if ended.status not in range(6):
        return f"status {ended.status}: {ended.why}"
    if ended.out is None:
        return None
    if ended.out and not ended.out.endswith(b"\n"):
        return "what it printed does not end with a line"
    if not re.fullmatch(rb"[\n\x20-\x7e]*", ended.out):
        return "it printed a byte that no reply has"
    is_refused = re.search(rb"(^|[a-z0-9] )refused |^line \d+: malformed$", ended.out, re.M)
    if ended.status == 0 and is_refused:
        return "status 0, but a line was refused"
    if ended.status in (2, 3, 4) and not ended.why:
        return f"status {ended.status}, and nothing is said"
    return None


def keep(run: Run, why: str, number: int):
    os.makedirs("fuzz-found", exist_ok=True)
    with open(f"fuzz-found/{number}", "wb") as it:
        it.write(run.script)
    with open(f"fuzz-found/{number}.why", "w", encoding="utf-8") as it:
        it.write("\n".join([why, *run.words]) + "\n")
    print(f"fuzz-found/{number}: {why}", flush=True)


def main() -> int:
    program, seed, seconds = sys.argv[1], int(sys.argv[2]), float(sys.argv[3])
    is_built = os.access(program, os.X_OK)
    maker = Maker(seed, is_built)
    counts = collections.Counter()
    wrong = break_streams(os.path.abspath(program), maker) if is_built else 0
    for run, ended in run_for(os.path.abspath(program), maker, seconds) if is_built else try_for(maker, seconds):
        counts[run.words[0], ended.status] += 1
        if why := wrong_of(ended):
            wrong += 1
            keep(run, why, wrong)
    for mode in sorted(maker.scripts):
        ends = sorted((status, count) for (of, status), count in counts.items() if of == mode and status is not None)
        print(f"{mode}: " + ", ".join(f"{count} with status {status}" for status, count in ends))
    share = 100 * maker.left // max(1, maker.lines)
    how = "the built program" if is_built else "`rt try`"
    print(f"seed {seed}, {how}: {sum(counts.values())} runs, {maker.lines} lines ({share} % unchanged), {wrong} wrong")
    return 1 if wrong else 0


if __name__ == "__main__":
    sys.exit(main())
