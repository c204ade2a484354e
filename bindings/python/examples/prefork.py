"""A web service of several worker processes that take turns at one port, each with a cache of its own, as prefork servers have them.

usage: prefork.py DSN [PORT [WORKERS]]    /ITEM shows an item, /ITEM?max_age=0 as it is now

The cache is made, and used, before the workers are forked. Each begins cold, with connections of its own; one that ends is replaced by another. The tables are made
if they don't exist. It prints its port and its workers.
"""

import json
import os
import signal
import socket
import sys
from http.server import BaseHTTPRequestHandler, HTTPServer
from urllib.parse import parse_qs, urlsplit

from txcache import SnapshotLost, TxCache, _driver
from txcache.postgres import PostgresStore

TABLES = """CREATE TABLE IF NOT EXISTS items (id integer PRIMARY KEY, top integer NOT NULL);
CREATE TABLE IF NOT EXISTS bids (id integer PRIMARY KEY, item integer NOT NULL, price integer NOT NULL);
INSERT INTO items SELECT it, 10 FROM generate_series(0, 9) AS it ON CONFLICT DO NOTHING;
INSERT INTO bids SELECT it, it / 3, 10 FROM generate_series(0, 29) AS it ON CONFLICT DO NOTHING"""

cache = TxCache(PostgresStore(sys.argv[1], tables={"items": ["id"], "bids": ["item"]}))


@cache.cacheable
def top(db, item):
    return db.row("items", id=item)["top"]


@cache.cacheable
def bids(db, item):
    return [row["price"] for row in db.rows("bids", item=item)]


def shown(item, max_age):
    with cache.read(max_age) as page:
        found = {"top": top(item), "bids": bids(item)}
    return {**found, "age": page.receipt.age, "hits": page.receipt.hits, "worker": os.getpid(), "stats": cache.stats()}


class Pages(BaseHTTPRequestHandler):
    def do_GET(self):
        parts = urlsplit(self.path)
        try:
            status, body = 200, shown(int(parts.path[1:]), float(parse_qs(parts.query).get("max_age", ["5"])[0]))
        except SnapshotLost as error:
            status, body = 503, {"error": str(error), "worker": os.getpid()}
        data = json.dumps(body).encode()
        self.send_response(status)
        self.send_header("Content-Length", str(len(data)))
        self.end_headers()
        self.wfile.write(data)

    def log_message(self, *words):
        pass


def forked(listening):
    """Returns the number of a new worker."""
    worker = os.fork()
    if not worker:
        try:
            signal.signal(signal.SIGTERM, signal.SIG_DFL)
            server = HTTPServer(listening.getsockname(), Pages, bind_and_activate=False)
            server.socket = listening
            server.serve_forever()
        finally:
            os._exit(1)
    print("worker", worker, flush=True)
    return worker


def main():
    link = _driver.Link(sys.argv[1])
    link.ask(TABLES)
    link.close()
    cache.store.install()
    listening = socket.create_server(("127.0.0.1", int(sys.argv[2]) if sys.argv[2:] else 8080), backlog=64)
    print("port", listening.getsockname()[1], flush=True)
    shown(0, 5.0)
    signal.signal(signal.SIGTERM, lambda *_: sys.exit(0))
    workers = {forked(listening) for _ in range(int(sys.argv[3]) if sys.argv[3:] else 4)}
    try:
        while True:
            ended, _ = os.wait()
            workers.remove(ended)
            workers.add(forked(listening))
    finally:
        for it in workers:
            os.kill(it, signal.SIGTERM)


if __name__ == "__main__":
    main()
