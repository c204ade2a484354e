"""A small web shop whose page shows the same parts twice: by TxCache, all of one moment, and by a plain cache, whose parts are each of their own.

It serves http://127.0.0.1:PORT/ by the standard library's server with threads; /page.json has the same as numbers. `--help` lists the options.
"""

import argparse
import contextlib
import json
import random
import tempfile
import threading
from http.cookies import SimpleCookie
from http.server import BaseHTTPRequestHandler, ThreadingHTTPServer
from typing import Any, Dict, List, Optional

import look
from plain import Plain
from shop import PARTS, PRODUCTS, Database, Shown, buy, keep_buying
from txcache import NotSeen, SnapshotLost, TxCache

MAX_AGE = 2.0  # seconds


class Shop:
    """Both caches over one database, and how many pages each has shown."""

    def __init__(self, where: str, customers: int, pause: float):
        self.database, self.customers = Database(where), customers
        self.database.prepare()
        self.cache = TxCache(self.database.store())
        self.cached = {part: self.cache.cacheable(part) for part in dict(PARTS)}
        self.plain = Plain(self.database, MAX_AGE)
        self.pages, self.torn = 0, {"txcache": 0, "plain": 0}
        self._turn, self._has_ended = threading.Lock(), threading.Event()
        for seed in range(customers):
            threading.Thread(target=keep_buying, args=(self.database, self.cache.store, self.look_at, seed, self._has_ended, pause), daemon=True).start()

    def look_at(self, *parts: Any) -> None:
        """A smaller page, by both caches, of which nothing is shown: so parts are computed at different times, as they are in a shop of many pages."""
        with contextlib.suppress(SnapshotLost), self.cache.read(max_age=MAX_AGE):
            for part, args in parts:
                self.cached[part](*args)
        for part, args in parts:
            self.plain.get(part, *args)

    def shown_by_txcache(self, after: Optional[str]) -> Shown:
        values, hits = [], []
        with self.cache.read(max_age=MAX_AGE, after=after) as page:
            for part, args in PARTS:
                before = page.hits
                values.append(self.cached[part](*args))
                hits.append(page.hits > before)
        return Shown(values, hits, page.receipt.moment, page.receipt.age)

    def shown_plainly(self) -> Shown:
        values, hits = zip(*(self.plain.get(part, *args) for part, args in PARTS))
        return Shown(list(values), list(hits))

    def halves(self, after: Optional[str]) -> Dict[str, Shown]:
        """Makes both pages, and counts those that are torn."""
        shown = {"txcache": self.shown_by_txcache(after), "plain": self.shown_plainly()}
        with self._turn:
            self.pages += 1
            for name, it in shown.items():
                self.torn[name] += bool(it.faults())
        return shown

    def page(self, after: Optional[str]) -> str:
        titles = {"txcache": "By TxCache", "plain": f"By a plain cache: each part for {MAX_AGE:.0f} seconds"}
        return look.page([look.half(name, titles[name], it, self.pages, self.torn[name]) for name, it in self.halves(after).items()], self.customers)

    def numbers(self, after: Optional[str]) -> Dict[str, Any]:
        shown = self.halves(after)
        return {"pages": self.pages, **{name: {**it._asdict(), "faults": it.faults(), "torn": self.torn[name]} for name, it in shown.items()}}

    def close(self) -> None:
        self._has_ended.set()
        self.cache.close()


class Handler(BaseHTTPRequestHandler):
    """One request, in a thread of its own."""

    shop: Shop

    def do_GET(self) -> None:
        makers = {"/": (self.shop.page, "text/html; charset=utf-8"), "/page.json": (lambda after: json.dumps(self.shop.numbers(after)), "application/json")}
        if self.path not in makers:
            self.send_error(404)
            return
        make, kind = makers[self.path]
        try:
            body = make(self._token()).encode()
        except (NotSeen, ValueError):  # a cookie of another database, or of no token
            body = make(None).encode()
        self.answer(200, body, [("Content-Type", kind)])

    def do_POST(self) -> None:
        """A purchase. Its token goes into a cookie, so that the next page of this customer sees it."""
        product = self.path.rpartition("/")[2]
        if not self.path.startswith("/buy/") or product not in map(str, PRODUCTS):
            self.send_error(404)
            return
        token = buy(self.shop.database, self.shop.cache.store, int(product), random.Random())
        self.answer(303, b"", [("Location", "/"), ("Set-Cookie", f"token={token}; Path=/; Max-Age={MAX_AGE:.0f}; SameSite=Lax")])

    def answer(self, status: int, body: bytes, headers: List[Any]) -> None:
        self.send_response(status)
        for name, value in [*headers, ("Content-Length", str(len(body)))]:
            self.send_header(name, value)
        self.end_headers()
        self.wfile.write(body)

    def _token(self) -> Optional[str]:
        found = SimpleCookie(self.headers.get("Cookie", "")).get("token")
        return found.value if found else None

    def log_message(self, *words: Any) -> None:
        pass


def main() -> None:
    words = argparse.ArgumentParser(prog="python3 examples/shop_web", description=__doc__.partition("\n")[0],
                                    epilog="It counts the pages that were loaded; a browser loads the page again each second.")
    words.add_argument("--postgres", metavar="DSN", help="connection string of a database, in which it makes the tables demo_products, demo_orders and demo_till; else a SQLite file")
    words.add_argument("--file", help="path of the SQLite file; else one in a new folder, which is deleted at the end")
    words.add_argument("--port", type=int, default=8000, help="port on 127.0.0.1 (%(default)s; 0: a free one)")
    words.add_argument("--customers", type=int, default=4, metavar="COUNT", help="threads that buy and return (%(default)s)")
    words.add_argument("--pause", type=float, default=0.5, metavar="SECONDS", help="about how long each of them waits between two purchases (%(default)s)")
    given = words.parse_args()
    with contextlib.ExitStack() as stack:
        where = given.postgres or given.file or f"{stack.enter_context(tempfile.TemporaryDirectory(prefix='shop-'))}/shop.db"
        Handler.shop = Shop(where, given.customers, given.pause)
        stack.callback(Handler.shop.close)
        server = stack.enter_context(ThreadingHTTPServer(("127.0.0.1", given.port), Handler))
        print(f"http://127.0.0.1:{server.server_address[1]}/  (Ctrl-C ends it)", flush=True)
        with contextlib.suppress(KeyboardInterrupt):
            server.serve_forever()


if __name__ == "__main__":
    main()
