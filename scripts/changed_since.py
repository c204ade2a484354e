"""Finds the wrong bodies that a change of the repository makes due: those whose own text has changed since a commit, or whose function's
contract or body, or a definition by which the contract means something else. Comments count for nothing.

A definition is one of specs/, a constant of src/, or the model of a type; the contract names it, or a definition does that the contract
names. A name of specs/ is looked up in the modules that its file takes in; that of a constant or a type in its crate and all below it, so
of two with one name both count.
"""

from __future__ import annotations

import hashlib
import io
import re
import subprocess
import tarfile
import tempfile
from collections import defaultdict
from dataclasses import dataclass
from functools import cached_property
from pathlib import Path

import wrong_bodies
from wrong_bodies import Function, WrongBody, text_of

# A text or a character in quotes, which may hold what looks like a comment; or a comment.
QUOTED_OR_COMMENT = re.compile(r"""("(?:\\.|[^"\\])*"|'(?:\\.|[^'\\])')|//[^\n]*""")
NAME = re.compile(r"[^\W\d]\w*")
SPEC_ITEM = re.compile(r"(?:(?:abbrev|unfoldable|pub|record|data)\b ?)+([^\s:{(]+)")
CONSTANT = re.compile(r"^ *(?:pub(?:\([^)]*\))? )?(?:const|static) (\w+):", re.M)
MODEL = re.compile(r"^impl.*? Model for (\w+)", re.M)
# A module of specs/, as a file that takes it in names it; and one that it hands on.
MODULE = re.compile(r"\bRattle\.(\w+)\.specs\.(\w+)")
HANDED_ON = re.compile(r"^pub use Rattle\.(\w+)\.specs\.(\w+)", re.M)


class NoSuchCommit(Exception):
    """The repository has no such commit."""


def without_comments(text: str) -> str:
    """Returns a text of Rattle without comments, and without the room around its lines."""
    lines = (line.strip() for line in QUOTED_OR_COMMENT.sub(lambda it: it[1] or "", text).split("\n"))
    return "\n".join(line for line in lines if line)


def spec_without_comments(text: str) -> str:
    """The same of a text of specs/."""
    lines = (re.sub(r"(?:^|\s)--.*", "", line).rstrip() for line in text.split("\n"))
    return "\n".join(line for line in lines if line)


@dataclass(frozen=True)
class Definition:
    """A definition of specs/, a constant, or the model of a type, which has the type's name; `path` is that of its file below the root."""

    path: Path
    name: str
    text: str

    @property
    def crate(self) -> str:
        return self.path.parts[1]

    @property
    def module(self) -> tuple[str, str] | None:
        """Its crate and its module, if it is of specs/."""
        return (self.crate, self.path.parts[3].removesuffix(".antt")) if self.path.parts[2] == "specs" else None


class Tree:
    """The sources of one state of the repository."""

    def __init__(self, root: Path) -> None:
        self.root = root
        self.functions: dict[str, list[tuple[Path, Function]]] = {}
        self.modules: dict[Path, set[tuple[str, str]]] = {}
        self.named: dict[Definition, set[Definition]] = {}

    @cached_property
    def below(self) -> dict[str, set[str]]:
        """Each crate beside those that it uses, those that they use, and itself."""
        found: dict[str, set[str]] = {}
        rows = [line.partition("#")[0].partition(":") for line in (self.root / "crates.txt").read_text(encoding="utf-8").split("\n")]
        used = {head.split()[0]: names.split() for head, colon, names in rows if colon}

        def reach(crate: str) -> set[str]:
            if crate not in found:
                found[crate] = {crate}.union(*(reach(it) for it in used[crate] if it in used))
            return found[crate]

        for crate in used:
            reach(crate)
        return found

    @cached_property
    def definitions(self) -> dict[str, list[Definition]]:
        """The definitions by name."""
        found = defaultdict(list)
        for pattern, items in (("crates/*/specs/**/*.antt", spec_items), ("crates/*/src/**/*.rt", source_items)):
            for path in sorted(self.root.glob(pattern)):
                for name, text in items(text_of(path) or ""):
                    found[name].append(Definition(path.relative_to(self.root), name, text))
        return dict(found)

    def taken_in(self, path: Path) -> set[tuple[str, str]]:
        """Returns the modules of specs/ whose names a file may use: its own, those that it takes in, and what these hand on."""
        if path not in self.modules:
            found = {*MODULE.findall(text_of(self.root / path) or "")}
            if path.parts[2] == "specs":
                found.add((path.parts[1], path.parts[3].removesuffix(".antt")))
            left = [*found]
            while left:
                crate, module = left.pop()
                handed_on = {*HANDED_ON.findall(text_of(self.root / "crates" / crate / "specs" / f"{module}.antt") or "")} - found
                found |= handed_on
                left += handed_on
            self.modules[path] = found
        return self.modules[path]

    def names(self, path: Path, text: str) -> set[Definition]:
        """Returns the definitions that a text of a file names."""
        modules, below = self.taken_in(path), self.below.get(path.parts[1], {path.parts[1]})
        known = (it for name in {*NAME.findall(text)} for it in self.definitions.get(name, []))
        return {it for it in known if (it.module in modules if it.module else it.crate in below)}

    def meaning(self, path: Path, text: str) -> list[str]:
        """Returns the texts of the definitions that a text of a file rests on."""
        found: set[Definition] = set()
        left = self.names(path, text)
        while left:
            it = left.pop()
            found.add(it)
            if it not in self.named:
                self.named[it] = self.names(it.path, it.text)
            left |= self.named[it] - found
        return sorted(f"{it.name}: {it.text}" for it in found)

    def functions_in(self, crate: str) -> list[tuple[Path, Function]]:
        """Returns the functions of a crate, each with its file."""
        if crate not in self.functions:
            paths = [it.relative_to(self.root) for it in sorted((self.root / "crates" / crate).glob("src/**/*.rt"))]
            self.functions[crate] = [(path, it) for path in paths
                                     for it in wrong_bodies.functions(self.root, crate, str(path.relative_to("crates", crate)))]
        return self.functions[crate]

    def functions_of(self, body: WrongBody) -> list[tuple[Path, Function]]:
        """Returns the functions of a wrong body, each with its file."""
        wanted = [re.compile(it.pattern) for it in body.functions(self.root)]
        return [(path, it) for path, it in self.functions_in(body.crate) if any(pattern.fullmatch(f"{body.crate}::{it.end}") for pattern in wanted)]

    def print_of(self, body: WrongBody) -> str:
        """Returns a sum that differs if the wrong body is due again."""
        kept = hashlib.sha256(repr((body.named, [(it.file, it.old, it.new) for it in body.changes])).encode())
        for path, function in self.functions_of(body):
            lines = (text_of(self.root / path) or "").split("\n")
            contract = without_comments("\n".join([function.head, *lines[function.first:function.body]]))
            code = without_comments("\n".join(lines[function.body:function.last + 1]))
            kept.update("\0".join([contract, code, *self.meaning(path, contract)]).encode())
        return kept.hexdigest()


def spec_items(text: str) -> list[tuple[str, str]]:
    """Returns the definitions of a file of specs/, each with its text."""
    lines = spec_without_comments(text).split("\n")
    starts = [n for n, line in enumerate(lines) if SPEC_ITEM.match(line)]
    return [(SPEC_ITEM.match(lines[start])[1], "\n".join(lines[start:end])) for start, end in zip(starts, [*starts[1:], len(lines)])]


def source_items(text: str) -> list[tuple[str, str]]:
    """Returns the constants and the models of a file of src/, each with its text; a model has its type's name."""
    found = []
    for kind, end in ((CONSTANT, ";\n"), (MODEL, "\n}\n")):
        for item in kind.finditer(text):
            stop = text.find(end, item.end())
            found.append((item[1], without_comments(text[item.start():stop if stop >= 0 else len(text)])))
    return found


def due(root: Path, commit: str, bodies: list[WrongBody]) -> list[WrongBody]:
    """Returns those of the wrong bodies that are due since a commit. Fails with `NoSuchCommit`."""
    ran = subprocess.run(["git", "-C", str(root), "archive", commit, "--", "crates", "crates.txt"], capture_output=True, check=False)
    if ran.returncode:
        raise NoSuchCommit(f"{commit}: {ran.stderr.decode(errors='replace').strip()}")
    with tempfile.TemporaryDirectory(prefix="since-") as room:
        with tarfile.open(fileobj=io.BytesIO(ran.stdout)) as kept:
            # no proof counts
            kept.extractall(room, [it for it in kept if "/proofs/" not in it.name], filter="data")
        before, now = Tree(Path(room)), Tree(root)
        crates = sorted({it.crate for it in bodies})
        prints = {it.label: before.print_of(it) for crate in crates for it in wrong_bodies.read_crate(before.root, crate)[0]}
        return [it for it in bodies if prints.get(it.label) != now.print_of(it)]
