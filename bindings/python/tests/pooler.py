"""A pgbouncer of a test's own, in transaction mode: each transaction has another connection of the server."""

import os
import shutil
import subprocess
import tempfile
import unittest

from txcache import _driver

from . import skipped, until
from .server import Server

_SETTINGS = """
[databases]
* = host={server} port=5432
[pgbouncer]
unix_socket_dir = {folder}
listen_port = 6432
auth_type = trust
auth_file = {folder}/users
admin_users = txc
pool_mode = transaction
default_pool_size = {pool}
max_client_conn = 400
logfile = {folder}/log
pidfile = {folder}/pid
"""


class Pooler:
    """It stands between a server and who asks, and ends by `close`."""

    def __init__(self, server: Server, pool: int = 40):
        program = shutil.which("pgbouncer", path=f"{os.environ.get('PATH', '')}:/usr/sbin:/sbin")
        if not program:
            raise unittest.SkipTest(skipped("pgbouncer", "it is not installed"))
        self.folder, account = tempfile.mkdtemp(prefix="txcache-pool-", dir="/tmp"), server._account
        for name, text in (("users", '"txc" ""\n'), ("settings.ini", _SETTINGS.format(server=server.folder, folder=self.folder, pool=pool))):
            with open(f"{self.folder}/{name}", "w", encoding="utf-8") as file:
                file.write(text)
        how = {"user": account.pw_uid, "group": account.pw_gid, "extra_groups": []} if account else {}
        if account:
            for name in ("", "users", "settings.ini"):
                os.chown(f"{self.folder}/{name}", account.pw_uid, account.pw_gid)
        self.process = subprocess.Popen([program, f"{self.folder}/settings.ini"], stdout=subprocess.DEVNULL, stderr=subprocess.DEVNULL, cwd=self.folder, **how)
        if not until(lambda: os.path.exists(f"{self.folder}/.s.PGSQL.6432") or self.process.poll() is not None, 20.0) or self.process.poll() is not None:
            self.close()
            raise AssertionError(f"pgbouncer does not run: {self.process.returncode}")

    def dsn(self, name: str) -> str:
        return f"host={self.folder} port=6432 dbname={name} user=txc"

    def told(self, what: str) -> "list[dict]":
        """Returns the rows of SHOW."""
        link = _driver.Link(self.dsn("pgbouncer"))
        try:
            names, rows = link.named(f"SHOW {what}")
            return [dict(zip(names, row)) for row in rows]
        finally:
            link.close()

    def close(self) -> None:
        self.process.terminate()
        self.process.wait()
        shutil.rmtree(self.folder, ignore_errors=True)
