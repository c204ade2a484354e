"""Installs, checks, purges or uninstalls the triggers of a store from a shell.

usage: python -m txcache install|check|purge|uninstall MODULE:CACHE [--dsn DSN] [--reader ROLE]
"""

import argparse
import importlib
import os
import sys
from typing import Any, List

from .errors import NotInstalled, TxCacheError


def found(place: str) -> Any:
    """Returns the store that MODULE:NAME names, or that of the cache that it names."""
    module, _, name = place.partition(":")
    if not name:
        raise SystemExit(f"txcache: {place!r} is not MODULE:CACHE")
    it = importlib.import_module(module)
    for part in name.split("."):
        it = getattr(it, part)
    return getattr(it, "store", it)


def lines_of(command: str, store: Any, reader: str) -> List[str]:
    """Returns what a command says: a line for each table, or for each fault."""
    if command == "install":
        return store.install(reader)
    if command == "purge":
        return [f"{store.purge()} notes deleted"]
    if command == "uninstall":
        return store.uninstall()
    faults = store.check(reader)
    if faults:
        raise NotInstalled(faults)
    return ["all triggers stand"]


def main() -> int:
    parser = argparse.ArgumentParser(prog="python -m txcache", description="The triggers of a store, and whether they stand.")
    parser.add_argument("command", choices=["install", "check", "purge", "uninstall"])
    parser.add_argument("cache", metavar="MODULE:CACHE", help="a TxCache, or its store")
    parser.add_argument("--dsn", help="another connection string, as of the tables' owner")
    parser.add_argument("--reader", metavar="ROLE", help="the role of the services: install has it alone read the notes, and check looks whether it may")
    words = parser.parse_args()
    sys.path.insert(0, os.getcwd())
    store = found(words.cache)
    if words.dsn and not hasattr(store, "dsn"):
        raise SystemExit("txcache: this store has no connection string, so --dsn names none")
    if words.dsn:
        store.dsn = words.dsn
    try:
        print(*lines_of(words.command, store, words.reader), sep="\n")
        return 0
    except NotInstalled as error:
        print(*error.lines, sep="\n")
        return 1
    except TxCacheError as error:
        print(error)
        return 1


if __name__ == "__main__":
    sys.exit(main())
