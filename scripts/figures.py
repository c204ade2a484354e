#!/usr/bin/env python3
"""Keeps the results of measurements: bench/results/NAME.tsv has one table, and docs/FIGURES.md shows it. A file begins with lines
`# KEY: VALUE` of what it is: date, commit, command, machine, load, proved, and a unit if all cells have one.

usage: COMMAND | scripts/figures.py [--commit COMMIT] [--command TEXT] [--proved]
  COMMAND    prints tables in markdown. A line above a table that begins with `Measured` says when and by what it was made, as
             `bench/client.sh --figures` prints it; else it was now, by the command TEXT
  --commit   the commit that was measured, by default the newest of this clone
  --proved   the program was proved

Each table is stored in the file whose columns are the same; standard error names a table that has no such file, which is begun by
hand. Then `make docs` puts it into FIGURES, where a line `<!-- result: NAME -->` says so; `<!-- result: NAME 1 3 -->` shows only
rows 1 and 3. It prints its input.
"""

from __future__ import annotations

import argparse
import os
import re
import subprocess
import sys
import time
from dataclasses import dataclass
from pathlib import Path
from typing import Iterator

ROOT = Path(__file__).resolve().parent.parent
FIGURES = ROOT / "docs/FIGURES.md"
RESULTS = ROOT / "bench/results"
# The lines with which a file begins, in this order; the last is left out if each column has a unit of its own.
KEYS = ("date", "commit", "command", "machine", "load", "proved", "unit")
OPTIONAL = {"unit"}
# The machine that FIGURES names at its head.
MACHINE = "4 cores at 2.5 GHz"
# A table in markdown, below the line that says when, where and by what it was made.
TABLE = re.compile(r"^(?:Measured (?P<said>.*)\n\n)?(?P<rows>(?:\|.*\n)+)", re.M)
MEASURED = re.compile(r"on (?P<date>\d{4}-\d\d-\d\d) by `(?P<command>.*)`(?: .*)?, on (?P<machine>\d+ cores[^,;]*)(?:, load (?P<load>[\d. to]+))?"
                      r"(?:, (?P<proved>not proved|proved))?(?:[;:] (?P<unit>.*?))?\.?$")
# A place of FIGURES that shows a result: its name, the rows, and what stands there now.
PLACE = re.compile(r"^<!-- result: (?P<name>[\w-]+)(?P<rows>(?: \d+)*) -->\n(?:\n\*[^\n]*\*\n)?(?:\n(?:\|.*\n)+)?", re.M)
NUMBER = re.compile(r"\d[\d,]*(?:\.\d+)?")


class BadResult(Exception):
    """A file of results can't be taken as it is; its text says why."""


@dataclass(frozen=True)
class Result:
    """A table with its head: the values of `KEYS`, the names of the columns, and the rows."""

    name: str
    head: dict[str, str]
    columns: list[str]
    rows: list[list[str]]

    def row(self, name: str) -> list[str] | None:
        """Returns the row of this name: the text of its first cell, or of the first two if several rows begin alike."""
        found = [it for it in self.rows if name in (it[0], ", ".join(it[:2]))]
        return found[0] if len(found) == 1 else None

    def cell(self, row: str, column: str) -> str:
        """Returns a cell. Fails if there is no such row or column."""
        found = self.row(row)
        if found is None:
            raise BadResult(f"bench/results/{self.name}.tsv has not exactly one row `{row}`")
        if self.columns.count(column) != 1:
            raise BadResult(f"bench/results/{self.name}.tsv has not exactly one column `{column}`")
        return found[self.columns.index(column)]

    def markdown(self, wanted: list[int]) -> str:
        """Returns the table, of these rows or of all, below a line of its head."""
        it = self.head
        load = it["load"] if it["load"] == "quiet" else f"load {it['load']}"
        machine = [] if it["machine"] == MACHINE else [it["machine"]]
        link = f"[`{it['command']}`](../bench/results/{self.name}.tsv)"
        said = ", ".join([it["date"], link, *machine, load, "proved" if it["proved"] == "yes" else "not proved"]) + (f"; {it['unit']}" if "unit" in it else "")
        rows = [self.rows[at - 1] for at in wanted] or self.rows
        cells = [self.columns, ["---"] * len(self.columns), *rows]
        lines = "".join(f"| {' | '.join(row)} |\n" for row in cells).replace("| --- ", "|---").replace("|--- |", "|---|").replace("|  |", "| |")
        return f"*{said}*\n\n{lines}"


def parse(name: str, text: str) -> Result:
    """Returns the result of this text. Fails if a line of its head is missing, or if a row has another number of cells than the first."""
    lines = [it for it in text.split("\n") if it.strip()]
    head = dict(it[2:].split(": ", 1) for it in lines if it.startswith("# ") and ": " in it)
    table = [it.split("\t") for it in lines if not it.startswith("#")]
    where = f"bench/results/{name}.tsv"
    if missing := [it for it in KEYS if it not in head and it not in OPTIONAL]:
        raise BadResult(f"{where} has no line `# {missing[0]}: ..`")
    if unknown := [it for it in head if it not in KEYS]:
        raise BadResult(f"{where} has a line `# {unknown[0]}: ..`, which is none of {', '.join(KEYS)}")
    if len(table) < 2:
        raise BadResult(f"{where} has no row")
    if uneven := [it for it in table if len(it) != len(table[0])]:
        raise BadResult(f"{where} has a row of {len(uneven[0])} cells, and its head has {len(table[0])}: {uneven[0][0]}")
    if not re.fullmatch(r"\d{4}-\d\d-\d\d", head["date"]) or head["proved"] not in ("yes", "no"):
        raise BadResult(f"{where} has another date than YEAR-MONTH-DAY, or says neither `proved: yes` nor `proved: no`")
    return Result(name, head, table[0], table[1:])


def read(name: str) -> Result:
    path = RESULTS / f"{name}.tsv"
    if not path.is_file():
        raise BadResult(f"there is no bench/results/{name}.tsv")
    return parse(name, path.read_text(encoding="utf-8"))


def names() -> list[str]:
    return sorted(it.stem for it in RESULTS.glob("*.tsv"))


def text_of(result: Result) -> str:
    head = "".join(f"# {key}: {result.head[key]}\n" for key in KEYS if key in result.head)
    return head + "".join("\t".join(row) + "\n" for row in [result.columns, *result.rows])


def fill(text: str) -> str:
    """Returns FIGURES with the table of each result in its place."""
    def shown(place: re.Match[str]) -> str:
        comment = f"<!-- result: {place['name']}{place['rows']} -->\n"
        return f"{comment}\n{read(place['name']).markdown([int(it) for it in place['rows'].split()])}"

    return PLACE.sub(shown, text)


def unnamed(text: str) -> list[str]:
    """Returns the results that the text neither shows nor links to."""
    return [it for it in names() if f"results/{it}.tsv" not in text]


def quoted(text: str) -> Iterator[tuple[str, str]]:
    """Yields each comment of a page that names a cell, with what stands before it in its line: back to a bar, or to another comment."""
    for found in re.finditer(r"([^|\n]*?)<!-- figure: (.*?) -->", text):
        yield found[2], found[1]


def fault(comment: str, before: str) -> str | None:
    """Returns what is wrong with a figure that a comment `TABLE / ROW / COLUMN` follows, if anything is: the last number before it is
    the first number of that cell."""
    parts = comment.split(" / ")
    if len(parts) != 3:
        return f"has a comment `figure: {comment}`, which is not TABLE / ROW / COLUMN"
    shown = NUMBER.findall(before)
    try:
        wanted = NUMBER.findall(read(parts[0]).cell(parts[1], parts[2]))
    except BadResult as error:
        return f"names a figure that is not there: {error}"
    if not shown or not wanted or shown[-1] != wanted[0]:
        return f"says {shown[-1] if shown else 'no number'} for {comment}, and the result is {wanted[0] if wanted else 'none'}"
    return None


# What a command prints becomes a file.


def head_of(said: str | None, options: argparse.Namespace) -> dict[str, str] | None:
    """Returns the head of a table: from the line above it, or from the options and this machine if it has none."""
    head = {"date": time.strftime("%Y-%m-%d"), "commit": options.commit, "command": options.command, "machine": f"{os.cpu_count()} cores",
            "load": f"{os.getloadavg()[0]:.0f}", "proved": "yes" if options.proved else "no"}
    if said is None:
        return head if options.command else None
    found = MEASURED.match(said)
    if not found:
        return None
    head.update({key: it for key, it in found.groupdict().items() if it})
    head["proved"] = "yes" if found["proved"] == "proved" else "no"
    return {key: it.strip() for key, it in head.items()}


def given(text: str, options: argparse.Namespace) -> Iterator[Result]:
    """Yields the tables of a text, each for the file whose columns are the same."""
    known = {tuple(it.columns): it for it in map(read, names())}
    for table in TABLE.finditer(text):
        rows = [[it.strip() for it in row.strip().strip("|").split("|")] for row in table["rows"].splitlines()]
        old, head = known.get(tuple(rows[0])), head_of(table["said"], options)
        if not old or not head:
            why = "no file of bench/results has the columns" if head else "no line `Measured` and no --command says what made the columns"
            print(f"figures.py: {why} {', '.join(rows[0])}", file=sys.stderr)
            continue
        yield Result(old.name, {**({"unit": old.head["unit"]} if "unit" in old.head else {}), **head}, rows[0], rows[2:])


def main() -> None:
    words = argparse.ArgumentParser(usage=__doc__.partition("usage: ")[2].partition("\n")[0])
    head = subprocess.run(["git", "rev-parse", "--short=8", "HEAD"], cwd=ROOT, stdout=subprocess.PIPE, text=True, check=True).stdout.strip()
    words.add_argument("--commit", default=head)
    words.add_argument("--command", default="")
    words.add_argument("--proved", action="store_true")
    options, text = words.parse_args(), sys.stdin.read()
    for it in given(text, options):
        (RESULTS / f"{it.name}.tsv").write_text(text_of(it), encoding="utf-8")
    FIGURES.write_text(fill(FIGURES.read_text(encoding="utf-8")), encoding="utf-8")
    print(text, end="")


if __name__ == "__main__":
    main()
