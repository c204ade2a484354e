"""Wrong bodies of cursors, SQLAlchemy and Django, for wrong_bodies.py: a name, a file, a text of it, what is put in its place, and the test that is to fail."""

FALLBACK = """        from django.db import connections
        try:
            hand = running_hand(self.alias)
        except OutsideSnapshot:
            return connections[self.of].cursor()
        source ="""

BY_HAND = [
    ("a cursor that reads after a rollback", "_cursor.py", "    if not _READS.match(plain):\n", "    if False:\n", "tests.test_cursor -k test_what_would_leave"),
    ("a cursor that takes two statements", "_cursor.py", "    if re.search(r\";\\s*\\S\", plain):\n", "    if False:\n", "tests.test_cursor -k test_what_would_leave"),
    ("a cursor beyond its function", "_hand.py", "        if self.is_over:\n", "        if False:\n", "tests.test_cursor -k test_it_ends_with"),
    ("a cursor in another function", "_page.py", "if not self._frames or self._frames[-1] is not frame:", "if not self._frames:", "tests.test_cursor -k test_it_is_of_one_function"),
    ("a cursor whose failure is forgotten", "_page.py", "                return read()\n            except BaseException as error:\n                self._failed = self._failed or error\n",
     "                return read()\n            except BaseException as error:\n", "tests.test_cursor -k test_a_failed_query"),
    ("a cursor that joined nothing", "postgres.py", "            result = reader.link.run(statement)\n", "            reader.link.ask(\"ROLLBACK\")\n            reader.link.ask(\"BEGIN\")\n            result = reader.link.run(statement)\n",
     "tests.test_cursor -k test_it_reads_in"),
    ("a cursor that does not ask whether its snapshot stands", "postgres.py", "for it, in reader.link.ask(_LOCKED)])\n                snapshot.check()\n", "for it, in reader.link.ask(_LOCKED)])\n",
     "tests.test_cursor -k test_a_holder_that_dies"),
    ("what a cursor reads is not asked", "_hand.py", "        page._ask(self._frame, tables, tables)\n", "", "tests.test_cursor -k test_what_it_reads"),
    ("what a cursor reads is not remembered", "_hand.py", "        if touched.difference(tables):\n", "        if False:\n", "tests.test_cursor -k test_what_it_reads"),
    ("what is named is not asked", "_hand.py", "        self._ask(tags)\n", "", "tests.test_cursor -k test_what_is_named"),
    ("a connection of one source is lent to another", "postgres.py", "fit = [it for it in self._free if it.source is source]", "fit = list(self._free)", "tests.test_sqlalchemy -k test_types_of_the_server"),
    ("a source that opens more connections than there may be", "postgres.py", "other = None if found or self._count < self.limit else self._free[0]", "other = None",
     "tests.test_sqlalchemy -k test_types_of_the_server"),
    ("a session that reads by a connection of its own pool", "sqlalchemy.py", "self._connection = engine.of_snapshots.connect()", "self._connection = engine._opening.connect()",
     "tests.test_sqlalchemy -k test_what_would_leave"),
    ("a session that flushes", "sqlalchemy.py", "        if not self._is_clean():\n", "        if False:\n", "tests.test_sqlalchemy -k test_what_would_leave"),
    ("a session beyond its function", "sqlalchemy.py", "self._hand.refuse_if_over(\"the session\")", "pass", "tests.test_sqlalchemy -k test_it_ends_with"),
    ("rows that stay with their session", "sqlalchemy.py", "    hand.at_end(found.end)\n", "", "tests.test_sqlalchemy -k test_it_ends_with"),
    ("an alias that falls back to default", "django/base.py", "        hand = running_hand(self.alias)\n        source =", FALLBACK, "tests.test_django -k test_outside",
     (("    def ensure_connection(self) -> None:\n        running_hand(self.alias)\n", "    def ensure_connection(self) -> None:\n        pass\n"),)),
    ("an alias in a function of another cache", "django/_cache.py", "    if hand.store is not the_cache().store:\n", "    if False:\n", "tests.test_django -k test_outside"),
    ("an atomic block over the alias", "django/base.py", "        if not autocommit:\n", "        if False:\n", "tests.test_django -k test_what_would_leave"),
    ("an old row is saved", "django/router.py", "        if is_ours(alias):\n", "        if False:\n", "tests.test_django -k test_the_router"),
    ("connections without the alias's time zone", "django/_cache.py", "        self.settings = f\"SET LOCAL", "        self.zone = f\"SET LOCAL", "tests.test_django -k test_types"),
    ("a file without Django's functions", "django/_cache.py", "        wrapper_of(self.of).get_new_connection({", "        dict({", "tests.test_django -k test_types"),
]
