"""Reads the wrong bodies of crates/CRATE/wrong-bodies/ and finds the functions that they change; it needs no prover.

The file wrong-bodies/PATH.edits holds those of src/PATH.rt, in the order of the source:

    == a_member_is_lost (gate)
    old:         self.members.push(pin);
    new:         drop(pin);

Each begins with `== NAME`, or `== NAME (gate)` if the gate tries it. An `old:` is a text that stands once in the source, and the `new:`
behind it comes in its place. A text goes on over the lines that follow, up to one that begins with a word of this format or with `==`.
More pairs may follow: of the same file, or of the file that a line `file: PATH` names, as a file of proofs/ that makes a clause refuse the
body, and not a name that is gone. A line `function: NAME` names the function that is to be refused, by its name or the end of it: a
change of a constant lies in none.
"""

from __future__ import annotations

import os
import re
from collections.abc import Iterable, Iterator
from dataclasses import dataclass, field
from functools import cache
from itertools import accumulate, pairwise
from pathlib import Path

HEAD = re.compile(r"== (\w+)( \(gate\))?")
WORD = re.compile(r"(file|function|old|new):(?: (.*))?")
FN = re.compile(r'( *)(?:(pub(?:\([^)]*\))?) )?(?:const )?(?:unsafe )?(?:extern "C" )?fn (\w+)')
# How many lines the head of an `impl` takes at most.
LINES_OF_A_HEAD = 8


@dataclass(frozen=True)
class Fault:
    """A line of a file of wrong bodies that cannot be taken as it is, and why."""

    path: Path
    line: int
    why: str

    def __str__(self) -> str:
        return f"{self.path}:{self.line}: {self.why}"


class BadFiles(Exception):
    """Files of wrong bodies have faults; its text has a line for each."""

    def __init__(self, faults: Iterable[Fault]) -> None:
        super().__init__("\n".join(map(str, faults)))


@dataclass(frozen=True)
class Function:
    """A function of a source file.

    `pattern` fits the name by which the prover reports it, and `end` is what the prover takes to find it. Lines count from 0; the contract
    lies between `first` and `body`. `head` is the head of the `impl` that holds it.
    """

    pattern: str
    end: str
    first: int = 0
    body: int = 0
    last: int = 0
    head: str = ""
    is_public: bool = False

    @property
    def proof_folder(self) -> str:
        """A pattern of the folder of its proof, below proofs/."""
        return self.pattern.partition("::")[2].replace("::", "/")


@dataclass(frozen=True)
class Change:
    """A text of a file of the crate, and the text that comes in its place; `line` is that of its `old:`."""

    line: int
    file: str
    old: str
    new: str


@dataclass
class WrongBody:
    """A change of a crate's code that the prover has to refuse."""

    crate: str
    name: str
    is_in_gate: bool
    path: Path
    line: int
    source: str
    changes: list[Change] = field(default_factory=list)
    named: str | None = None

    @property
    def label(self) -> str:
        return f"{self.crate}/{self.name}"

    def functions(self, root: Path) -> list[Function]:
        """Returns the function that it names, or those that it changes; none if it changes what is no function, and names none."""
        if self.named:
            return [Function(rf"{self.crate}::(?:\w+::)*{re.escape(self.named)}", self.named)]
        found = [holder(root, self.crate, change) for change in self.changes if change.file.startswith("src/")]
        return [] if None in found else list(dict.fromkeys(it for it in found if it))

    def is_within_functions(self, root: Path) -> bool:
        """Returns whether nothing but its functions and their proofs changes: no constant, no lemma of others."""
        if self.named:
            return False
        proofs = [re.compile(f"proofs/{it.proof_folder}/") for it in self.functions(root)]
        return all(it.file.startswith("src/") or any(proof.match(it.file) for proof in proofs) for it in self.changes)


@cache
def text_of(path: Path) -> str | None:
    """Returns the text of a file, or None if there is none."""
    return path.read_text(encoding="utf-8") if path.is_file() else None


def holder(root: Path, crate: str, change: Change) -> Function | None:
    """Returns the function that a change of a source lies in."""
    text = text_of(root / "crates" / crate / change.file) or ""
    first = text[: max(text.find(change.old), 0)].count("\n")
    last = first + change.old.count("\n")
    inside = [it for it in functions(root, crate, change.file) if it.first <= first and last <= it.last]
    return inside[-1] if inside else None


# Functions of a source, by their text as `rt fmt` lays it out.


@cache
def functions(root: Path, crate: str, file: str) -> list[Function]:
    """Returns the functions of a file of src/ that have a body."""
    lines = (text_of(root / "crates" / crate / file) or "").split("\n")
    module = [it for it in file.removeprefix("src/").removesuffix(".rt").split("/") if it not in ("lib", "main")]
    head, found = "", []
    for at, line in enumerate(lines):
        if re.match(r"(?:unsafe )?impl\b", line):
            head = "" if line.endswith("{}") else head_of(lines, at)
        elif line.startswith("}"):
            head = ""
        fn = FN.match(line)
        if not fn or not (fn[1] == "" or head and fn[1] == "    "):
            continue
        last = at if line.endswith("}") else next((n for n in range(at, len(lines)) if lines[n] == fn[1] + "}"), at)
        body = next((n for n in range(at, last) if begins_body(lines[n], fn[1], n == at)), at)
        names = [owner(head), fn[3]] if head else [*module, fn[3]]
        # a method is named by the module of its type, wherever its `impl` stands
        pattern = rf"{crate}::(?:\w+::)*{re.escape(names[0])}::{fn[3]}" if head else "::".join([crate, *names])
        found.append(Function(pattern, "::".join(names), at, body, last, head, fn[2] == "pub" and " for " not in head))
    return found


def begins_body(line: str, indent: str, is_first: bool) -> bool:
    """Returns whether the body of a function with this indent begins at a line."""
    return line == indent + "{" or line.endswith(" {") and (is_first or line.startswith(indent + ")"))


def head_of(lines: list[str], at: int) -> str:
    """Returns the head of the `impl` that begins at a line, up to its brace."""
    return " ".join(lines[at:at + LINES_OF_A_HEAD]).partition("{")[0].removeprefix("unsafe ").strip()


def owner(head: str) -> str:
    """Returns the prover's name of an `impl`: that of its type and that of its trait, each with its type arguments."""
    head, own = re.split(r"\bwhere\b", head)[0].removeprefix("impl").strip(), []
    if head.startswith("<"):
        depths = list(accumulate((c == "<") - (c == ">") for c in head))
        end = depths.index(0) + 1
        own, head = re.findall(r"[<,] *(\w+)", head[:end]), head[end:]
    trait, _, kind = head.partition(" for ")
    if not kind:
        return "+".join(it for it in joined(trait, own) if it)
    return "".join(joined(kind, own) + joined(trait, own))


def joined(path: str, own: list[str]) -> list[str]:
    """Returns the last word of a path, and its type arguments joined, without the type parameters `own`."""
    path, _, arguments = path.strip().partition("<")
    words = [it for it in re.findall(r"\(\)|&|\[|(?<!')\b\w+", arguments) if it not in {"std", "crate", *own}]
    signs = {"()": "Unit", "&": "Ref", "[": "Slice"}
    return [path.split("::")[-1].strip(), "".join(signs.get(it, it[0].upper() + it[1:]) for it in words)]


# The files of wrong bodies.


def crates_with_wrong_bodies(root: Path) -> list[str]:
    return sorted(it.parent.name for it in root.glob("crates/*/wrong-bodies"))


def read(root: Path, crates: Iterable[str] = ()) -> list[WrongBody]:
    """Returns the wrong bodies of these crates, or of all, each of which can be applied. Fails with `BadFiles` if any has a fault."""
    found, bad = [], []
    for crate in crates or crates_with_wrong_bodies(root):
        bodies, faults_of_crate = read_crate(root, crate)
        found += bodies
        bad += faults_of_crate
    if bad:
        raise BadFiles(bad)
    return found


def faults(root: Path) -> list[Fault]:
    """Returns all faults of the wrong bodies of the repository."""
    return [it for crate in crates_with_wrong_bodies(root) for it in read_crate(root, crate)[1]]


def read_crate(root: Path, crate: str) -> tuple[list[WrongBody], list[Fault]]:
    """Reads the wrong bodies of a crate, in the order of its files, with what is wrong with them."""
    top = root / "crates" / crate / "wrong-bodies"
    bodies, found, seen = [], [], {}
    for path in sorted(it for it in top.rglob("*") if it.is_file()):
        of_file, bad = read_file(root, crate, path.relative_to(top))
        bodies += of_file
        found += bad
    for body in bodies:
        first = seen.setdefault(body.name, body)
        if first is not body:
            found.append(Fault(body.path, body.line, f"the name `{body.name}` stands at {first.path}:{first.line} too"))
        found += misfits(root, body)
    return bodies, found


def read_file(root: Path, crate: str, name: Path) -> tuple[list[WrongBody], list[Fault]]:
    """Reads a file of wrong-bodies/, with what is wrong with it by its own text."""
    path = Path("crates", crate, "wrong-bodies", name)
    source = f"src/{name.with_suffix('.rt')}"
    if name.suffix != ".edits" or not (root / "crates" / crate / source).is_file():
        return [], [Fault(path, 1, "no source has this file: wrong-bodies/PATH.edits is of src/PATH.rt")]
    try:
        lines = (root / path).read_text(encoding="utf-8").split("\n")
    except UnicodeDecodeError as error:
        return [], [Fault(path, 1, f"it is no UTF-8: {error}")]
    heads = [n for n, line in enumerate(lines) if line.startswith("==")]
    before = next((n for n, line in enumerate(lines[:(heads or [len(lines)])[0]]) if line.strip()), None)
    found = [] if before is None else [Fault(path, before + 1, "this text stands before the first `== NAME`")]
    bodies = []
    for start, end in pairwise([*heads, len(lines)]):
        reader = EntryReader(root, crate, path, source)
        bodies += reader.read(start, "\n".join(lines[start:end]).rstrip("\n").split("\n"))
        found += reader.faults
    return bodies, found


class EntryReader:
    """Reads one wrong body, line by line, and keeps its faults."""

    def __init__(self, root: Path, crate: str, path: Path, source: str) -> None:
        self.root, self.crate, self.path, self.source = root, crate, path, source
        self.faults: list[Fault] = []
        self.file = source
        # an `old:` that waits for its `new:`, with its line; and the text that a line without a word goes on with
        self.old: tuple[int, list[str]] | None = None
        self.text: list[str] | None = None
        self.pairs: list[tuple[int, str, list[str], list[str]]] = []
        self.named: str | None = None

    def fail(self, at: int, why: str) -> None:
        self.faults.append(Fault(self.path, at + 1, why))

    def read(self, start: int, lines: list[str]) -> list[WrongBody]:
        """Returns the wrong body whose lines begin at `start`, or nothing if its first line is no `== NAME`."""
        head = HEAD.fullmatch(lines[0])
        if not head:
            self.fail(start, f"`{lines[0]}` is neither `== NAME` nor `== NAME (gate)`")
            return []
        for at, line in enumerate(lines[1:], start + 1):
            word = WORD.fullmatch(line)
            if word:
                self.take_word(at, word[1], word[2] or "")
            elif self.text is not None:
                self.text.append(line)
            elif line.strip():
                self.fail(at, "this line belongs to no `old:` and to no `new:`")
        self.end_old()
        if not self.pairs:
            self.fail(start, "it changes nothing: it has no `old:` with a `new:`")
        changes = [Change(at + 1, file, "\n".join(old), "\n".join(new)) for at, file, old, new in self.pairs]
        return [WrongBody(self.crate, head[1], bool(head[2]), self.path, start + 1, self.source, changes, self.named)]

    def take_word(self, at: int, word: str, rest: str) -> None:
        if word == "new":
            self.take_new(at, rest)
            return
        self.end_old()
        self.text = None
        if word == "old":
            self.text = [rest]
            self.old = at, self.text
        elif word == "file":
            self.file = rest.strip()
            if not (self.root / "crates" / self.crate / self.file).is_file():
                self.fail(at, f"there is no file crates/{self.crate}/{self.file}")
        elif self.named or not rest.strip():
            self.fail(at, "`function:` names one function, once")
        else:
            self.named = rest.strip()

    def take_new(self, at: int, rest: str) -> None:
        self.text = [rest]
        if self.old is None:
            self.fail(at, "this `new:` has no `old:` before it")
            return
        line, old = self.old
        self.pairs.append((line, self.file, old, self.text))
        self.old = None

    def end_old(self) -> None:
        """Notes an `old:` that got no `new:`."""
        if self.old is not None:
            self.fail(self.old[0], "this `old:` has no `new:` behind it")
            self.old = None


def misfits(root: Path, body: WrongBody) -> Iterator[Fault]:
    """Yields what is wrong with a wrong body over the sources of now."""
    ends: dict[str, list[tuple[int, int]]] = {}
    fits = True
    for change in body.changes:
        text = text_of(root / "crates" / body.crate / change.file)
        if text is None:
            fits = False
            continue
        count = text.count(change.old) if change.old else 0
        if count != 1:
            fits = False
            yield Fault(body.path, change.line, f"this `old:` has to stand once in {change.file}, and stands there {count} times")
            continue
        at = text.index(change.old)
        if any(at < end and start < at + len(change.old) for start, end in ends.setdefault(change.file, [])):
            yield Fault(body.path, change.line, "this `old:` overlaps another one of the same wrong body")
        if change.old == change.new:
            yield Fault(body.path, change.line, "this `new:` is the same as its `old:`")
        ends[change.file].append((at, at + len(change.old)))
    if body.changes and all(it.file != body.source for it in body.changes):
        yield Fault(body.path, body.line, f"it changes nothing of {body.source}")
    elif fits and body.changes and not body.functions(root):
        yield Fault(body.path, body.line, "it changes what is no function, and has no `function:`")


# What no wrong body changes.


def bare(root: Path, crate: str) -> tuple[list[str], int]:
    """Lists the public functions of a crate that no wrong body changes or names, as FILE:LINE: NAME, and counts all public ones."""
    bodies = read(root, [crate])
    changed = {(change.file, holder(root, crate, change)) for body in bodies for change in body.changes}
    named = [it.functions(root)[0].pattern for it in bodies if it.named]
    found, count = [], 0
    source = root / "crates" / crate / "src"
    for path in sorted(source.rglob("*.rt")):
        file = os.path.relpath(path, source.parent)
        for it in functions(root, crate, file):
            if not it.is_public:
                continue
            count += 1
            full = "::".join([crate, it.end])
            if (file, it) not in changed and not any(re.fullmatch(name, full) for name in named):
                found.append(f"crates/{crate}/{file}:{it.first + 1}: {it.end}")
    return found, count
