"""The shop: its tables, what its page shows, what must agree in it, and its customers.

Each commit changes three tables: a sale takes from the stock, adds an order and fills the till; a return undoes one. So at each moment, of each product, the stock
and what was sold are `SHIPPED` together, and the till has what the orders paid."""

import contextlib
import queue
import random
import sqlite3
import threading
from typing import Any, Callable, Dict, Iterator, List, NamedTuple, Optional, Sequence, Tuple

PRODUCTS = {1: ("Teapot", 24), 2: ("Kettle", 45), 3: ("Cup", 8), 4: ("Tray", 15), 5: ("Spoon", 3), 6: ("Honey", 11)}
SHIPPED = 60  # of each product
MAX_OPEN_ORDERS = 12  # orders of a product; then one is returned
TOLD = {"demo_products": ["id"], "demo_orders": ["id", "product"], "demo_till": []}
TABLES = ["CREATE TABLE IF NOT EXISTS demo_products (id integer PRIMARY KEY, stock integer NOT NULL)",
          "CREATE TABLE IF NOT EXISTS demo_orders (id integer PRIMARY KEY, product integer NOT NULL, quantity integer NOT NULL, paid integer NOT NULL)",
          "CREATE TABLE IF NOT EXISTS demo_till (id integer PRIMARY KEY, amount integer NOT NULL)"]


# ---- what a page shows: functions that a cache remembers


def stock(db: Any, product: int) -> int:
    return db.row("demo_products", id=product)["stock"]


def orders(db: Any, product: int) -> List[Tuple[int, int, int]]:
    return [(it["id"], it["quantity"], it["paid"]) for it in db.rows("demo_orders", product=product)]


def till(db: Any) -> int:
    return sum(it["amount"] for it in db.rows("demo_till"))


PARTS = [*((part, (product,)) for product in PRODUCTS for part in (stock, orders)), (till, ())]


class Shown(NamedTuple):
    """A page: its parts in the order of `PARTS`, and which were hits. It has a `moment` and an `age` if the cache knows them."""

    values: List[Any]
    hits: List[bool]
    moment: Optional[float] = None
    age: Optional[float] = None

    def faults(self) -> List[str]:
        """Returns what does not agree; nothing, if the page is of one moment."""
        found, values = [], dict(zip(((part.__name__, *args) for part, args in PARTS), self.values))
        for product, (name, _) in PRODUCTS.items():
            left, sold = values["stock", product], sum(quantity for _, quantity, _ in values["orders", product])
            if left + sold != SHIPPED:
                found.append(f"{name}: {left} in stock and {sold} sold are {left + sold}, and not {SHIPPED}")
        paid = sum(it for product in PRODUCTS for _, _, it in values["orders", product])
        if paid != values["till",]:
            found.append(f"the orders paid {paid}, and the till has {values['till',]}")
        return found


# ---- its database


class Database:
    """A SQLite file, or PostgreSQL by its connection string."""

    def __init__(self, where: str):
        self.where, self.is_file, self._spare = where, "=" not in where and "://" not in where, queue.LifoQueue()

    def _connect(self) -> Any:
        if self.is_file:
            link = sqlite3.connect(self.where, isolation_level=None, timeout=60, check_same_thread=False)
            link.execute("PRAGMA journal_mode = WAL")
            link.execute("PRAGMA synchronous = NORMAL")
            return link
        try:
            import psycopg as driver
        except ImportError:
            import psycopg2 as driver
        link = driver.connect(self.where)
        link.autocommit = True
        return link

    @contextlib.contextmanager
    def cursor(self) -> Iterator[Any]:
        """Lends a cursor over a connection that no other thread uses meanwhile."""
        try:
            link = self._spare.get(block=False)
        except queue.Empty:
            link = self._connect()
        cursor = link.cursor()
        yield cursor  # a connection whose block failed is not lent again
        cursor.close()
        self._spare.put(link)

    def ask(self, cursor: Any, text: str, args: Sequence[Any] = ()) -> List[Dict[str, Any]]:
        cursor.execute(text.replace("%s", "?") if self.is_file else text, tuple(args))
        names = [it[0] for it in cursor.description or ()]
        return [dict(zip(names, row)) for row in cursor.fetchall()] if names else []

    def store(self) -> Any:
        """Returns what the cache follows."""
        if self.is_file:
            from txcache.sqlite import SqliteStore

            return SqliteStore(self.where, tables=TOLD)
        from txcache.postgres import PostgresStore

        return PostgresStore(self.where, tables=TOLD)

    def prepare(self) -> None:
        """Makes the tables, if there are none, and installs the triggers."""
        with self.cursor() as cursor:
            for text in TABLES:
                self.ask(cursor, text)
            if not self.ask(cursor, "SELECT id FROM demo_till"):
                self.ask(cursor, "BEGIN")
                for product in PRODUCTS:
                    self.ask(cursor, "INSERT INTO demo_products VALUES (%s, %s)", (product, SHIPPED))
                self.ask(cursor, "INSERT INTO demo_till VALUES (1, 0)")
                self.ask(cursor, "COMMIT")
        self.store().install()


# ---- its customers


def trade(database: Database, cursor: Any, product: int, rand: random.Random) -> None:
    """Within a transaction: sells one to three of a product; if there are many orders of it, takes the oldest back."""
    ask = database.ask
    ask(cursor, "UPDATE demo_till SET amount = amount WHERE id = 1")  # customers take turns, and so nobody waits in a circle
    open_orders = ask(cursor, "SELECT id, quantity, paid FROM demo_orders WHERE product = %s ORDER BY id", (product,))
    if len(open_orders) >= MAX_OPEN_ORDERS:
        oldest = open_orders[0]
        quantity, paid = -oldest["quantity"], -oldest["paid"]
        ask(cursor, "DELETE FROM demo_orders WHERE id = %s", (oldest["id"],))
    else:
        quantity = rand.randint(1, 3)
        paid = quantity * PRODUCTS[product][1]
        ask(cursor, "INSERT INTO demo_orders SELECT coalesce(max(id), 0) + 1, %s, %s, %s FROM demo_orders", (product, quantity, paid))
    ask(cursor, "UPDATE demo_products SET stock = stock - %s WHERE id = %s", (quantity, product))
    ask(cursor, "UPDATE demo_till SET amount = amount + %s WHERE id = 1", (paid,))


def buy(database: Database, store: Any, product: int, rand: random.Random) -> str:
    """Trades in a transaction of its own. Returns its token: who reads a page after it sees it."""
    with database.cursor() as cursor:
        database.ask(cursor, "BEGIN IMMEDIATE" if database.is_file else "BEGIN")
        trade(database, cursor, product, rand)
        token = store.token(cursor)
        database.ask(cursor, "COMMIT")
        return token


def keep_buying(database: Database, store: Any, look_at: Callable[..., None], seed: int, has_ended: threading.Event, pause: float) -> None:
    """A customer, who each `pause` seconds, about, looks at a product, or at the till, and buys something."""
    rand = random.Random(seed)
    while not has_ended.wait(rand.uniform(0, 2 * pause)):
        product = rand.choice(list(PRODUCTS))
        look_at(*rand.choice([((stock, (product,)), (orders, (product,))), ((till, ()),)]))
        buy(database, store, product, rand)
