"""A Flask page of an auction: its list of bids and its highest bid are of one moment, however bids come in between.

usage: flask_page.py [FILE]      a SQLite file, by default one in a folder of its own
"""

import sqlite3
import sys
import tempfile

from flask import Flask, make_response, request

from txcache import TxCache
from txcache.sqlite import SqliteStore  # or: from txcache.postgres import PostgresStore
from txcache.wsgi import Pages

FILE = sys.argv[1] if sys.argv[1:] else tempfile.mkdtemp() + "/auction.db"
cache = TxCache(SqliteStore(FILE, tables={"bids": ["id", "item"]}))
app = Flask(__name__)
app.wsgi_app = Pages(app.wsgi_app, cache, max_age=5.0)  # a page for each GET and HEAD, and none for what changes something


@cache.cacheable
def bids(db, item):
    return [row["price"] for row in db.rows("bids", item=item)]


@cache.cacheable
def highest(db, item):
    return max(bids(item), default=None)


@app.get("/items/<int:item>")
def show(item):
    return {"bids": bids(item), "highest": highest(item)}


@app.post("/items/<int:item>/bids")
def bid(item):
    link = sqlite3.connect(FILE, isolation_level=None)
    link.execute("INSERT INTO bids (item, price) VALUES (?, ?)", (item, int(request.form["price"])))
    link.close()
    return make_response("", 201)


if __name__ == "__main__":
    sqlite3.connect(FILE).execute("CREATE TABLE bids (id INTEGER PRIMARY KEY, item INTEGER, price INTEGER)")
    cache.store.install()  # of a service: python -m txcache install flask_page:cache
    client = app.test_client()
    for price in (90, 110):
        client.post("/items/7/bids", data={"price": price})
        with cache.read(max_age=0.0):
            bids(7)  # a page of now: else the next could be of up to 5 seconds ago
        print(client.get("/items/7").get_json())
    print(bids.cache_info().hits, "hits,", bids.cache_info().computed, "computed")
    cache.close()
