"""The router: over an alias of this package Django may read, in a function, and do nothing else."""

from typing import Any, Optional

from ..errors import OutsideSnapshot
from ._cache import is_ours, of_alias


class Router:
    """Allows no write and no migration."""

    def db_for_write(self, model: Any, instance: Any = None, **hints: Any) -> Optional[str]:
        """Fails with OutsideSnapshot if a row that a cacheable function read is to be written: it may be some seconds old."""
        alias = instance._state.db if instance is not None else None
        if is_ours(alias):
            of = of_alias(alias)
            raise OutsideSnapshot(f"a row of {model.__name__} was read by the alias {alias!r}, and may be old: read it again by .using({of!r}) before it is written, "
                                  "or give its key alone to what refers to it")
        return None

    def allow_migrate(self, db: str, app_label: str, **hints: Any) -> Optional[bool]:
        return False if is_ours(db) else None
