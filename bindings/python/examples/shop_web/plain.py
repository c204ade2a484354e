"""A plain cache: each value by itself has some seconds to live."""

import time
from typing import Any, Callable, Dict, List, Tuple

from shop import Database


class Queries:
    """The reads of a function, each a query of its own."""

    def __init__(self, database: Database):
        self._database = database

    def rows(self, table: str, **where: Any) -> List[Dict[str, Any]]:
        wanted = " AND ".join(f"{name} = %s" for name in where)
        with self._database.cursor() as cursor:
            return self._database.ask(cursor, f"SELECT * FROM {table}{' WHERE ' if where else ''}{wanted} ORDER BY id", tuple(where.values()))

    def row(self, table: str, **where: Any) -> Dict[str, Any]:
        return self.rows(table, **where)[0]


class Plain:
    """Values by their function and arguments, each for `lifetime` seconds."""

    def __init__(self, database: Database, lifetime: float):
        self._db, self._lifetime = Queries(database), lifetime
        self._values: Dict[Any, Tuple[float, Any]] = {}

    def get(self, function: Callable[..., Any], *args: Any) -> Tuple[Any, bool]:
        """Returns a value, and whether it was a hit."""
        until, value = self._values.get((function, args), (0.0, None))
        if time.monotonic() < until:
            return value, True
        value = function(self._db, *args)
        self._values[function, args] = time.monotonic() + self._lifetime, value
        return value, False
