#!/usr/bin/env python3
"""Finds words that have a plainer one: each row of scripts/words.tsv has a pattern, what to write instead, where it counts, and why.

usage: scripts/words.py [documents | bindings | CRATE]..      prints each place, of all if none is named; the exit status is 1 if there is one

`documents` are the pages that are written by hand, `bindings` the comments and docstrings below bindings/, a CRATE the comments of its
public items and the texts of its errors. Code, names in backticks and quotations don't count. scripts/claims.py refuses what it finds in
documents and bindings, and counts the rest until `ARE_CRATES_CHECKED` is set.
"""

from __future__ import annotations

import ast
import re
import sys
from collections import Counter
from dataclasses import dataclass
from functools import lru_cache
from pathlib import Path
from typing import Iterable, Iterator

ROOT = Path(__file__).resolve().parent.parent
# Documents in which what is found is only counted, until they are rewritten.
COUNTED_DOCUMENTS = ("CHANGELOG.md",)
# Whether what is found in comments and error texts of crates is a fault; else it is counted.
ARE_CRATES_CHECKED = True
# How much of a sentence is shown that begins badly.
MOST_SHOWN = 60


@dataclass(frozen=True)
class Row:
    """A row of scripts/words.tsv: a pattern that a sentence may not have, what to write instead, where, and why."""

    pattern: re.Pattern[str]
    instead: str
    where: frozenset[str]
    why: str


@lru_cache(None)
def rows_of_words() -> tuple[Row, ...]:
    """Returns the rows of scripts/words.tsv below its head."""
    lines = (ROOT / "scripts/words.tsv").read_text(encoding="utf-8").splitlines()[1:]
    return tuple(Row(re.compile(pattern), instead, frozenset(where.split()), why) for pattern, instead, where, why in (it.split("\t") for it in lines))


def said_badly(place: str, sentences: Iterable[str]) -> Iterator[tuple[str, Row]]:
    """Yields each text of these sentences that a row fits at this place, one of `documents`, `items`, `errors` and `bindings`: of a sentence
    that begins badly its beginning."""
    rows = [it for it in rows_of_words() if place in it.where]
    for sentence in sentences:
        plain = re.sub(r"`[^`]*`|\"[^\"]*\"", "x", sentence)
        for row in rows:
            if found := row.pattern.search(plain):
                yield plain[:MOST_SHOWN] if row.pattern.pattern.startswith("^") else found[0], row


def comments_of_items(text: str) -> Iterator[str]:
    """Yields the sentences of comments above public items, and those that head a file."""
    for block in re.finditer(r"((?:^ *//[/!] ?.*\n)+)(?=( *#\[.*\]\n)* *(?P<next>.*))", text, re.M):
        if block[1].lstrip().startswith("//!") or block["next"].startswith(("pub ", "ghost pub", "abbrev pub")):
            yield from split_sentences(re.sub(r"(?m)^ *//[/!] ?", "", block[1]))


def error_texts(text: str) -> Iterator[str]:
    """Yields the texts of errors."""
    return iter(re.findall(r'#\[error\("((?:[^"\\]|\\.)*)"', text))


def comments_of_bindings(path: Path) -> Iterator[str]:
    """Yields the sentences of comments and docstrings of a file of bindings/."""
    text = path.read_text(encoding="utf-8")
    if path.suffix == ".py":
        nodes = [it for it in ast.walk(ast.parse(text)) if isinstance(it, (ast.Module, ast.ClassDef, ast.FunctionDef))]
        found = [ast.get_docstring(it) or "" for it in nodes] + re.findall(r"(?m)((?:^ *# .*\n)+)", text)
    else:
        found = re.findall(r"(?m)((?:^ *//[/!]? ?.*\n)+)", text) + re.findall(r"(?s)/\*(.*?)\*/", text)
    for it in found:
        yield from split_sentences(re.sub(r"(?m)^ *(?:# |//[/!]? ?|\* ?)?", "", it))


def split_sentences(text: str) -> Iterator[str]:
    """Yields the sentences of a comment without its signs."""
    for block in re.split(r"\n\s*\n|\n\s*(?=- |\d+\. )", text):
        yield from re.split(r"(?<=[.?!:])\s+(?=[A-Z`(\[])", " ".join(block.split()))


def sources() -> Iterator[tuple[str, Path, Iterable[str]]]:
    """Yields each source whose words are looked at, with the kind of its place and its sentences."""
    for pattern in ("c/*.[ch]", "rust/src/**/*.rs", "rust/examples/*.rs", "python/*.py", "python/txcache/**/*.py", "python/txcache/*.c", "python/examples/**/*.py"):
        for path in sorted((ROOT / "bindings").glob(pattern)):
            yield "bindings", path, comments_of_bindings(path)
    for path in sorted(ROOT.glob("crates/*/src/**/*.rt")):
        text = path.read_text(encoding="utf-8")
        yield "items", path, comments_of_items(text)
        yield "errors", path, error_texts(text)


def found(documents: Iterable[tuple[Path, Iterable[str]]]) -> Iterator[tuple[str, Path, str]]:
    """Yields each place that a row fits: its kind, its file, and what is said of it."""
    for place, path, said in [*(("documents", path, said) for path, said in documents), *sources()]:
        for text, row in said_badly(place, said):
            yield place, path, f"says `{text}`: {row.instead} ({row.why}; scripts/words.tsv)"


def faults(documents: Iterable[tuple[Path, Iterable[str]]]) -> Iterator[tuple[Path, str]]:
    """Yields what is wrong in documents and bindings. What is found in crates, unless they are checked, is counted on standard error."""
    counted: Counter[str] = Counter()
    for place, path, said in found(documents):
        if place in ("items", "errors") and not ARE_CRATES_CHECKED:
            counted[f"{'comments of public items' if place == 'items' else 'error texts'} of crates"] += 1
        elif path.relative_to(ROOT).as_posix() in COUNTED_DOCUMENTS:
            counted[path.name] += 1
        else:
            yield path, said
    print("".join(f"words.tsv: {count} in {name}, not refused yet\n" for name, count in counted.items()), end="", file=sys.stderr)


def main() -> None:
    import claims

    wanted, count = sys.argv[1:], 0
    for place, path, said in found(claims.hand_written()):
        kind = path.parts[path.parts.index("crates") + 1] if place in ("items", "errors") else place
        if not wanted or kind in wanted:
            count += 1
            print(f"{path.relative_to(ROOT)} {said}")
    print(f"{count} found")
    sys.exit(int(count > 0))


if __name__ == "__main__":
    main()
