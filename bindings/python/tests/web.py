"""A small application, three times: by the standard library alone, by Flask and by Django. `python web.py KIND` has its requests answered under a page each,
and prints what they said; tests/test_wsgi.py runs that in a process of its own, since Django has settings of a whole process."""

import json
import sys

from txcache.errors import SnapshotLost


class Views:
    """The views of each application. `lost` says how often the next calls of `shaky` lose their snapshot."""

    def __init__(self, cache):
        self.cache, self.lost, self.made, self.computed = cache, 0, 0, 0

        @cache.cacheable
        def balance(db, number):
            self.computed += 1
            return db.row("accounts", id=number)["balance"]

        @cache.cacheable
        def shaky(db):
            if self.lost:
                self.lost -= 1
                raise SnapshotLost("the snapshot is gone")
            return sum(row["balance"] for row in db.rows("accounts"))

        self.balance, self.shaky = balance, shaky

    def shown(self):
        """GET: two parts of one moment."""
        self.made += 1
        return f"{self.balance(0)} {self.shaky()}"

    def changed(self):
        """POST: no page is open."""
        self.made += 1
        try:
            return f"a page is open: {self.balance(0)}"
        except RuntimeError as error:
            return f"no page: {error}"

    def of(self, method):
        return self.changed() if method == "POST" else self.shown()


def bare(views):
    def app(environ, start_response):
        text = views.of(environ["REQUEST_METHOD"]).encode()
        start_response("200 OK", [("Content-Length", str(len(text)))])
        return [text] if environ["REQUEST_METHOD"] != "HEAD" else []

    return app


def flask(views):
    import flask

    app = flask.Flask("shop")
    app.logger.disabled = True
    app.add_url_rule("/", "shown", lambda: views.of(flask.request.method), methods=["GET", "POST"])
    return app.wsgi_app


def django(views):
    import django
    from django.conf import settings

    settings.configure(DEBUG=False, ALLOWED_HOSTS=["*"], ROOT_URLCONF="web", SECRET_KEY="of no use", MIDDLEWARE=[], LOGGING_CONFIG=None)
    django.setup()
    from django.core.handlers.wsgi import WSGIHandler
    from django.http import HttpResponse
    from django.urls import path

    sys.modules["web"].urlpatterns = [path("", lambda request: HttpResponse(views.of(request.method)))]
    return WSGIHandler()


def ask(app, method="GET", **more):
    """Returns the status and the text of a response."""
    from wsgiref.util import setup_testing_defaults

    environ = {"REQUEST_METHOD": method, "SCRIPT_NAME": "", "PATH_INFO": "/", **more}
    setup_testing_defaults(environ)
    begun = []
    body = app(environ, lambda status, headers, exc_info=None: begun.append(status))
    text = b"".join(body).decode()
    if hasattr(body, "close"):
        body.close()
    return begun[-1].split()[0], text


def answers(kind, cache):
    """Returns what an application says, request by request."""
    from txcache.wsgi import Pages

    views = Views(cache)
    app, said = Pages(globals()[kind](views), cache, max_age=60.0), {}
    said["first"], said["second"], said["computed"] = ask(app), ask(app), views.computed
    said["head"], said["post"] = ask(app, "HEAD")[0], ask(app, "POST")
    views.shaky.cache_clear()
    views.lost, views.made = 1, 0
    said["lost once"], said["made"] = ask(app), views.made
    views.shaky.cache_clear()
    views.lost, views.made = 2, 0
    try:
        said["lost twice"] = ask(app)[0]
    except SnapshotLost as error:
        said["lost twice"] = str(error)
    said["made then"], said["after"] = views.made, ask(app)
    return said


def main():
    import logging
    import sqlite3
    import tempfile

    from txcache import TxCache
    from txcache.sqlite import SqliteStore

    logging.getLogger("txcache").setLevel(logging.CRITICAL)
    sys.modules["web"] = sys.modules["__main__"]
    with tempfile.TemporaryDirectory() as room:
        link = sqlite3.connect(f"{room}/a.db", isolation_level=None)
        link.execute("CREATE TABLE accounts (id INTEGER PRIMARY KEY, balance INTEGER)")
        link.execute("INSERT INTO accounts VALUES (0, 100), (1, 50)")
        store = SqliteStore(f"{room}/a.db", {"accounts": ["id"]})
        store.install()
        cache = TxCache(store)
        print(json.dumps(answers(sys.argv[1], cache)))
        cache.close()


if __name__ == "__main__":
    main()
