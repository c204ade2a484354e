"""A page of an auction by SQLAlchemy's sessions: its list of bids and its highest bid are of one moment, however bids come in between.

usage: sqlalchemy_page.py [FILE]      a SQLite file, by default one in a folder of its own
"""

import sys
import tempfile

from sqlalchemy import Column, ForeignKey, Integer, String, create_engine
from sqlalchemy.orm import Session, declarative_base, joinedload, relationship

from txcache import TxCache
from txcache.sqlalchemy import session
from txcache.sqlite import SqliteStore  # or: from txcache.postgres import PostgresStore

FILE = sys.argv[1] if sys.argv[1:] else tempfile.mkdtemp() + "/auction.db"
Base = declarative_base()


class Item(Base):
    __tablename__ = "items"
    id, name = Column(Integer, primary_key=True), Column(String)
    bids = relationship("Bid", order_by="Bid.id", back_populates="item")


class Bid(Base):
    __tablename__ = "bids"
    id, price, item_id = Column(Integer, primary_key=True), Column(Integer), Column(ForeignKey("items.id"))
    item = relationship(Item, back_populates="bids")


cache = TxCache(SqliteStore(FILE, tables={"items": ["id"], "bids": ["id", "item_id"]}))


@cache.cacheable
def item(db, number):
    return session(db).query(Item).options(joinedload(Item.bids)).filter_by(id=number).one()  # what the page shows of it is loaded here


@cache.cacheable
def highest(db, number):
    db.reads(("bids", "item_id", number))  # named by hand: the bids of other items change nothing here
    return max(bid.price for bid in session(db).query(Bid).filter_by(item_id=number))


engine = create_engine(f"sqlite:///{FILE}")  # the service's own, which writes
Base.metadata.create_all(engine)
with Session(engine) as writing, writing.begin():
    writing.add(Item(id=7, name="a lamp", bids=[Bid(price=90), Bid(price=110)]))
cache.store.install()  # or: python -m txcache install MODULE:cache

for new in ([], [Bid(item_id=7, price=120)], [Bid(item_id=8, price=1)]):
    with Session(engine) as writing, writing.begin():
        writing.add_all(new)
    with cache.read(max_age=0.0) as page:
        shown = item(7)
        print(shown.name, [bid.price for bid in shown.bids], "highest", highest(7), end="; ")
    print(page.receipt.hits, "hits,", page.receipt.computed, "computed")
cache.close()
