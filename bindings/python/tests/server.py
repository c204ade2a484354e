"""A PostgreSQL server of a test's own: a folder, a unix socket, and a user who is not root."""

import atexit
import glob
import os
import pwd
import shutil
import subprocess
import tempfile
from typing import Optional

from . import skipped

_SETTINGS = """
listen_addresses = ''
unix_socket_directories = '{folder}'
port = 5432
max_connections = 60
max_prepared_transactions = 10
wal_level = logical
timezone = 'UTC'
fsync = off
"""


class Server:
    """A server that ends with the process. `stop` and `start` are for tests of faults."""

    def __init__(self, programs: str):
        self._programs, self.folder = programs, tempfile.mkdtemp(prefix="txcache-pg-", dir="/tmp")
        self._account = None
        if os.geteuid() == 0:
            self._account = next(filter(None, map(_account, ("postgres", "nobody"))))
            os.chown(self.folder, self._account.pw_uid, self._account.pw_gid)
        atexit.register(self.remove)
        self.run("initdb", "--no-sync", "-D", f"{self.folder}/data", "-A", "trust", "-U", "txc", "--locale=C.UTF-8", "-E", "UTF8")
        with open(f"{self.folder}/data/postgresql.conf", "a", encoding="utf-8") as file:
            file.write(_SETTINGS.format(folder=self.folder))
        self.start()

    def run(self, program: str, *words: str) -> None:
        how = {"user": self._account.pw_uid, "group": self._account.pw_gid, "extra_groups": []} if self._account else {}
        ran = subprocess.run([f"{self._programs}/{program}", *words], stdout=subprocess.PIPE, stderr=subprocess.STDOUT, stdin=subprocess.DEVNULL,
                             text=True, cwd=self.folder, env={**os.environ, "HOME": self.folder}, **how)
        if ran.returncode:
            raise AssertionError(f"{program}: {ran.stdout[-2000:]}")

    def start(self) -> None:
        self.run("pg_ctl", "-D", f"{self.folder}/data", "-w", "-l", f"{self.folder}/log", "start")

    def stop(self, how: str = "fast") -> None:
        self.run("pg_ctl", "-D", f"{self.folder}/data", "-w", "-m", how, "stop")

    def dsn(self, name: str, user: str = "txc") -> str:
        return f"host={self.folder} dbname={name} user={user}"

    def remove(self) -> None:
        try:
            self.stop("immediate")
        except (AssertionError, OSError):
            pass
        shutil.rmtree(self.folder, ignore_errors=True)


def _account(name: str) -> Optional[pwd.struct_passwd]:
    try:
        return pwd.getpwnam(name)
    except KeyError:
        return None


_SERVERS = []


def server() -> Server:
    """Returns the one server of this process; fails, or says what is skipped, if there can be none."""
    if not _SERVERS:
        _SERVERS.append(another())
    return _SERVERS[0]


def another() -> Server:
    """Returns a new server; fails, or says what is skipped, if there can be none."""
    import unittest

    from txcache import _driver

    if not _driver.drivers():
        raise unittest.SkipTest(skipped("PostgreSQL", "there is no driver"))
    found = sorted(glob.glob("/usr/lib/postgresql/*/bin/initdb"), key=lambda it: float(it.split("/")[4]))
    initdb = found[-1] if found else shutil.which("initdb")
    if not initdb:
        raise unittest.SkipTest(skipped("PostgreSQL", "there is no initdb"))
    return Server(os.path.dirname(os.path.realpath(initdb)))
