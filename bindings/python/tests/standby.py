"""A primary of a test's own and a hot standby that follows it by streaming."""

import atexit
import os
import tempfile
from typing import Any, Tuple

from txcache import _driver

from . import until
from .server import Server, another

MORE = "hot_standby_feedback = off\nmax_standby_streaming_delay = 30s\nwal_receiver_status_interval = 1s\nwal_retrieve_retry_interval = 200ms\n"


class Standby(Server):
    """A hot standby of a server."""

    def __init__(self, primary: Server):
        self._programs, self._account, self.folder = primary._programs, primary._account, tempfile.mkdtemp(prefix="txcache-standby-", dir="/tmp")
        if self._account:
            os.chown(self.folder, self._account.pw_uid, self._account.pw_gid)
        atexit.register(self.remove)
        self.run("pg_basebackup", "-h", primary.folder, "-U", "txc", "-D", f"{self.folder}/data", "-R", "-X", "stream", "-c", "fast", "--no-sync")
        with open(f"{self.folder}/data/postgresql.conf", "a", encoding="utf-8") as file:
            file.write(f"unix_socket_directories = '{self.folder}'\n{MORE}")
        self.start()

    def promote(self) -> None:
        self.run("pg_ctl", "-D", f"{self.folder}/data", "-w", "promote")


def pair() -> Tuple[Server, Standby]:
    """Returns a primary and its standby, which are running."""
    primary = another()
    return primary, Standby(primary)


def follows(primary: Any, standby: Any, seconds: float = 60.0) -> bool:
    """Waits until a standby has replayed all that is committed now, by a link to each. Returns False if it did not."""
    (place,), = primary.ask("SELECT pg_current_wal_flush_lsn()::text")
    return until(lambda: standby.ask("SELECT pg_last_wal_replay_lsn() >= %s::pg_lsn", (place,))[0][0], seconds)


def link(server: Server, base: str = "postgres") -> Any:
    return _driver.Link(server.dsn(base))
