"""The store of a PostgreSQL server whose settings Django has."""

from typing import Any, Optional

from .._cursor import Source
from ..postgres import PostgresStore
from ._cache import OfServer, parameters_of


class ServerStore(PostgresStore):
    """The server of an alias, as its settings name it now: a test's runner changes them."""

    def __init__(self, of: str, tables: Any):
        self.of, self._given = of, None
        super().__init__("", tables)

    @property
    def dsn(self) -> str:
        from psycopg2.extensions import make_dsn

        return self._given or make_dsn(**parameters_of(self.of))

    @dsn.setter
    def dsn(self, dsn: Optional[str]) -> None:
        self._given = dsn

    def source(self) -> Source:
        return OfServer(self.of)
