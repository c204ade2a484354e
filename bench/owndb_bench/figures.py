"""The tables of what a cache beside PostgreSQL buys and costs, in one run."""

import os
import time
from typing import Callable, Dict, Iterator, Sequence

from owndb import Room

from . import following, pages, server_load, torn

TABLES: Dict[str, Callable[[Room, float], Iterator[str]]] = {
    "torn": torn.lines, "pages": pages.page_lines, "threads": pages.thread_lines, "commits": server_load.commit_lines, "processes": server_load.process_lines,
    "snapshots": server_load.snapshot_lines, "following": following.lines}
SHORT = 0.15  # of the seconds of a whole run


def lines(room: Room, words: Sequence[str]) -> Iterator[str]:
    """Yields the tables that are named, or all; `short` makes a run that only shows that they are made."""
    scale = SHORT if "short" in words else 1.0
    chosen = [it for it in TABLES if it in words] or list(TABLES)
    for name in chosen:
        begun, load = time.monotonic(), os.getloadavg()[0]
        yield f"### {name}\n"
        yield from TABLES[name](room, scale)
        yield f"\n{time.strftime('%Y-%m-%d')}, {os.cpu_count()} cores, load {load:.1f} before it; {time.monotonic() - begun:.0f} s.\n"
