"""The parts of keys beside arguments: the level of each function, and the tables that each query was found to read.

The reads of a key's call never change. So where a function's level rises, or its query is found to read another table, its keys are new, and those of all that
are known to call it. A `Forms` never changes: one outermost call uses one throughout."""

import threading
from typing import Any, Dict, FrozenSet, Hashable, Mapping, Set

LAST_LEVEL = 63


class Forms:
    """The levels, the numbers in keys, and the tables of queries by their texts, or by the functions whose cursors ask them, as of one time."""

    def __init__(self, levels: Mapping[Hashable, int], numbers: Mapping[Hashable, int], tables: Mapping[Hashable, FrozenSet[str]]):
        self._levels, self._numbers, self._tables = levels, numbers, tables

    def level(self, function: Hashable) -> int:
        return self._levels.get(function, 1)

    def number(self, function: Hashable) -> int:
        return self._numbers.get(function, 0)

    def tables(self, query: Hashable) -> FrozenSet[str]:
        return self._tables.get(query, frozenset())


class Growth:
    """The newest forms, and who calls whom."""

    def __init__(self) -> None:
        self.forms = Forms({}, {}, {})
        self._callers: Dict[Any, Set[Any]] = {}
        self._users: Dict[Hashable, Set[Any]] = {}
        self._lock = threading.Lock()

    def has_called(self, caller: Any, function: Any) -> None:
        self._note(self._callers, function, caller)

    def has_asked(self, function: Any, query: Hashable) -> None:
        self._note(self._users, query, function)

    def _note(self, known: Dict[Any, Set[Any]], at: Any, it: Any) -> None:
        if it not in known.get(at, ()):
            with self._lock:
                known.setdefault(at, set()).add(it)

    def raise_level(self, function: Any, level: int) -> None:
        """Puts a function above what it calls. Fails with RecursionError if there is no such level."""
        if level > LAST_LEVEL:
            raise RecursionError(f"{function} calls itself, or more than {LAST_LEVEL} functions deep")
        with self._lock:
            now = self.forms
            if now.level(function) < level:
                self.forms = Forms({**now._levels, function: level}, self._renewed({function}), now._tables)

    def add_tables(self, query: Hashable, tables: FrozenSet[str]) -> None:
        """Has a query ask of these tables too before it runs."""
        with self._lock:
            now = self.forms
            if tables - now.tables(query):
                self.forms = Forms(now._levels, self._renewed(self._users.get(query, set())), {**now._tables, query: now.tables(query) | tables})

    def renew(self, function: Any) -> None:
        """Has the keys of a function be new, and those of its callers."""
        with self._lock:
            now = self.forms
            self.forms = Forms(now._levels, self._renewed({function}), now._tables)

    def _renewed(self, functions: Set[Any]) -> Dict[Any, int]:
        """Returns the numbers in keys, with new ones for these functions and for all that call them."""
        numbers, found, left = dict(self.forms._numbers), set(), list(functions)
        while left:
            it = left.pop()
            if it not in found:
                found.add(it)
                numbers[it] = numbers.get(it, 0) + 1
                left += self._callers.get(it, ())
        return numbers
