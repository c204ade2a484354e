"""A page for each request: by the standard library alone, Flask and Django; and pages of coroutines."""

import asyncio
import importlib.util
import json
import os
import subprocess
import sys
import threading
import unittest
from wsgiref.validate import validator

from txcache.errors import SnapshotLost
from txcache.wsgi import Pages

from . import skipped
from .cases import Case, OfSqlite
from .web import ask

PYTHON = os.path.dirname(os.path.dirname(os.path.abspath(__file__)))
MAY_LACK = {"starlette"}  # also with CI=true


class Frameworks(unittest.TestCase):
    def said(self, kind):
        words = [sys.executable, f"{PYTHON}/tests/web.py", kind]
        ran = subprocess.run(words, stdout=subprocess.PIPE, stderr=subprocess.PIPE, text=True, cwd=PYTHON, env={**os.environ, "PYTHONPATH": PYTHON})
        self.assertEqual(ran.returncode, 0, ran.stderr)
        return json.loads(ran.stdout.splitlines()[-1])

    def look(self, kind, error):
        if kind != "bare" and not importlib.util.find_spec(kind):
            self.skipTest(skipped(f"python3-{kind}", "it is not installed"))
        said = self.said(kind)
        self.assertEqual((said["first"], said["second"], said["computed"]), (["200", "100 150"], ["200", "100 150"], 1))
        self.assertEqual((said["head"], said["post"][0]), ("200", "200"))
        self.assertTrue(said["post"][1].startswith("no page: "), said["post"])
        self.assertEqual((said["lost once"], said["made"]), (["200", "100 150"], 2))
        self.assertEqual((said["lost twice"], said["made then"], said["after"]), (error, 2, ["200", "100 150"]))

    def test_the_standard_library(self):
        self.look("bare", "the snapshot is gone")

    def test_flask(self):
        self.look("flask", "500")

    def test_django(self):
        self.look("django", "500")


class Requests(OfSqlite, Case):
    """Applications of a test, by their use of `start_response`."""

    def app(self, body):
        self.open()
        self.made, self.losses = 0, 0

        def counted(environ, start_response):
            self.made += 1
            return body(environ, start_response)

        return Pages(counted, self.cache, max_age=60.0)

    def functions(self, cache):
        super().functions(cache)

        @cache.cacheable
        def shaky(db):
            if self.losses:
                self.losses -= 1
                raise SnapshotLost("the snapshot is gone")
            return db.row("accounts", id=3)["balance"]

        self.shaky = shaky

    def show(self):
        return f"{self.balance(0)} {self.shaky()}".encode()

    def test_nothing_is_made_again_once_its_response_has_begun(self):
        def body(environ, start_response):
            write = start_response("200 OK", [])
            write(b"begun: ")
            return [self.show()]

        app = self.app(body)
        self.assertEqual(self.written(app), ["200 OK", b"begun: ", b"100 100"])
        self.shaky.cache_clear()
        self.losses = self.made = 1
        self.assertRaises(SnapshotLost, self.written, app)
        self.assertEqual((self.made, self.seen), (2, ["200 OK", b"begun: "]))

    def written(self, app):
        self.seen = []

        def start_response(status, headers, exc_info=None):
            self.seen.append(status)
            return self.seen.append

        self.seen += app({"REQUEST_METHOD": "GET"}, start_response)
        return self.seen

    def test_a_response_that_was_made_of_the_error_is_closed_and_made_again(self):
        closed = []

        class Body(list):
            def close(self):
                closed.append(list(self))

        def body(environ, start_response):
            environ["tries"] = environ.get("tries", 0) + 1
            try:
                text, status = self.show(), "200 OK"
            except SnapshotLost as error:
                text, status = str(error).encode(), "500 NO"
            start_response(status, [])
            return Body([text, b" %d" % environ["tries"]])

        app = self.app(body)
        self.losses = 1
        self.assertEqual(self.written(app), ["200 OK", b"100 100", b" 1"])
        self.assertEqual((self.made, closed), (2, [[b"the snapshot is gone", b" 1"]]))

    def test_a_request_with_a_body_is_made_once(self):
        def body(environ, start_response):
            text = environ["wsgi.input"].read(3) + self.show()
            start_response("200 OK", [])
            return [text]

        app = self.app(body)
        self.losses = 1
        import io

        self.assertRaises(SnapshotLost, ask, app, CONTENT_LENGTH="3", **{"wsgi.input": io.BytesIO(b"abc")})
        self.assertEqual(self.made, 1)
        self.assertEqual(ask(app, CONTENT_LENGTH="3", **{"wsgi.input": io.BytesIO(b"abc")}), ("200", "abc100 100"))

    def test_no_page_for_what_changes_something(self):
        def body(environ, start_response):
            start_response("200 OK", [])
            try:
                return [b"%d" % self.balance(0)]
            except RuntimeError as error:
                return [str(error)[-64:].encode()]

        app = self.app(body)
        self.assertEqual(ask(app), ("200", "100"))
        self.assertEqual(ask(app, "HEAD"), ("200", "100"))
        for method in ("POST", "PUT", "DELETE", "PATCH", "OPTIONS", "get"):
            self.assertEqual(ask(app, method), ("200", "is made after its request's page has ended, and opens one of its own"[-64:]), method)

    def test_a_streamed_body_that_calls_a_function_is_told_what_to_do(self):
        def body(environ, start_response):
            start_response("200 OK", [])
            return (b"%d" % self.balance(number) for number in range(2))

        app = self.app(body)
        self.assertRaisesRegex(RuntimeError, "balance is called outside of a page .* a response that is streamed .* opens one of its own", ask, app)

        def own(environ, start_response):
            start_response("200 OK", [])
            for number in range(2):
                with self.cache.read():
                    text = b"%d" % self.balance(number)
                yield text

        self.assertEqual(ask(Pages(own, self.cache)), ("200", "100100"))

    def test_the_response_of_a_body_that_begins_it_late(self):
        def body(environ, start_response):
            start_response("200 OK", [("Content-Type", "text/plain")])
            yield b"late"

        self.assertEqual(ask(self.app(body)), ("200", "late"))

    def test_it_keeps_the_rules_of_wsgi(self):
        def body(environ, start_response):
            text = self.show()
            start_response("200 OK", [("Content-Type", "text/plain"), ("Content-Length", str(len(text)))])
            return [text]

        app = validator(Pages(validator(body), self.open(), max_age=60.0))
        self.losses = 1
        self.assertEqual(ask(app, QUERY_STRING=""), ("200", "100 100"))

    def test_start_response_twice(self):
        def body(environ, start_response):
            start_response("200 OK", [])
            start_response("500 NO", [], (RuntimeError, RuntimeError("no"), None))
            return [b"no"]

        self.assertEqual(ask(self.app(body)), ("500", "no"))

        def twice(environ, start_response):
            start_response("200 OK", [])
            start_response("200 OK", [])

        self.assertRaisesRegex(AssertionError, "was called before", ask, self.app(twice))


class Coroutines(OfSqlite, Case):
    losses = 0

    def functions(self, cache):
        super().functions(cache)

        @cache.cacheable
        def slow(db, number):
            if self.losses:
                self.losses -= 1
                raise SnapshotLost("the snapshot is gone")
            self.began.set()
            self.assertTrue(self.goes_on.wait(60))
            return db.row("accounts", id=number)["balance"]

        self.slow, self.began, self.goes_on = slow, threading.Event(), threading.Event()

    def test_a_page_in_a_thread_stops_no_other_coroutine(self):
        cache = self.open()

        async def main():
            computing = asyncio.ensure_future(cache.arun(lambda: (self.slow(0), threading.get_ident()), max_age=60.0))
            while not self.began.is_set():
                await asyncio.sleep(0.001)
            with cache.read(60.0):
                shown = self.balance(1)
            self.goes_on.set()
            value, thread = await computing
            return shown, value, thread != threading.get_ident()

        self.assertEqual(asyncio.run(main()), (100, 100, True))

    def test_it_is_made_again_once(self):
        cache = self.open()
        self.goes_on.set()
        self.losses = 1

        def view(number, named):
            return self.balance(number), self.slow(named)

        self.assertEqual(asyncio.run(cache.arun(view, 0, named=1, max_age=60.0)), (100, 100))

    def test_tasks_have_pages_of_their_own_and_none_has_one_that_ended(self):
        cache = self.open()

        async def part(number, goes_on):
            with cache.read(60.0) as page:
                first = self.balance(number)
                await goes_on.wait()
                shown = first, self.balance(number + 1)
            return shown, page.receipt.hits + page.receipt.computed

        async def late(goes_on):
            await goes_on.wait()
            return self.balance(0)

        async def main():
            goes_on = asyncio.Event()
            parts = [asyncio.ensure_future(part(number, goes_on)) for number in range(3)]
            await asyncio.sleep(0)
            with cache.read(60.0):
                self.balance(0)
                child = asyncio.ensure_future(late(goes_on))
            goes_on.set()
            with self.assertRaisesRegex(RuntimeError, "the page has ended, within which this task .* a page of its own"):
                await child
            return await asyncio.gather(*parts)

        self.assertEqual(asyncio.run(main()), [((100, 100), 2)] * 3)

    def test_starlette(self):
        if not importlib.util.find_spec("starlette"):
            print("skipped: python3-starlette, since it is not installed", flush=True)
            self.skipTest("starlette is not installed")
        from starlette.applications import Starlette
        from starlette.responses import PlainTextResponse
        from starlette.routing import Route

        cache = self.open()

        def in_a_thread(request):
            with cache.read(60.0):
                return PlainTextResponse(f"{self.balance(0)} {self.bids(7)}")

        async def by_a_coroutine(request):
            return PlainTextResponse(await cache.arun(lambda: f"{self.balance(0)} {self.pair(0)}", max_age=60.0))

        async def of_hits(request):
            with cache.read(60.0):
                return PlainTextResponse(f"{self.balance(0)} {self.pair(0)}")

        app = Starlette(routes=[Route(f"/{it.__name__}", it) for it in (in_a_thread, by_a_coroutine, of_hits)])

        async def get(path):
            sent = []

            async def receive():
                return {"type": "http.request", "body": b"", "more_body": False}

            async def send(message):
                sent.append(message)

            scope = {"type": "http", "asgi": {"version": "3.0"}, "http_version": "1.1", "method": "GET", "path": path, "raw_path": path.encode(), "query_string": b"",
                     "headers": [], "root_path": "", "scheme": "http", "server": ("test", 80), "client": ("test", 1)}
            await app(scope, receive, send)
            return sent[0]["status"], b"".join(it.get("body", b"") for it in sent[1:])

        async def main():
            return [await get(f"/{it}") for it in ("in_a_thread", "by_a_coroutine", "of_hits")]

        self.assertEqual(asyncio.run(main()), [(200, b"100 [110, 90]"), (200, b"100 200"), (200, b"100 200")])
        self.assertEqual((self.balance.cache_info().hits, self.balance.cache_info().computed), (2, 1))


if __name__ == "__main__":
    unittest.main()
