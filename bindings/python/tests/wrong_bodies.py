#!/usr/bin/env python3
"""Breaks the package in ways that would break a cache, one at a time in a copy, and sees that the test which is named fails.

usage: tests/wrong_bodies.py [WORD..]    at bindings/python; with words those alone whose name has one
The last line is `N passed, M failed`. It is run by hand: it takes some minutes.
"""

import os
import shutil
import subprocess
import sys
import tempfile
from typing import NamedTuple, Tuple

PYTHON = os.path.dirname(os.path.dirname(os.path.abspath(__file__)))
sys.path[:0] = [os.path.dirname(os.path.abspath(__file__)), os.path.normpath(f"{PYTHON}/../../scripts")]

import extension  # noqa: E402
from wrong_by_hand import BY_HAND  # noqa: E402
from wrong_fast import FAST  # noqa: E402


class Wrong(NamedTuple):
    """A text of a file, what is put in its place, and the test that is to fail."""

    name: str
    file: str
    text: str
    put: str
    test: str
    more: Tuple[Tuple[str, str], ...] = ()  # other texts, and what is put in their places


def of_each_store(test: str) -> str:
    return f"tests.test_pages tests.test_calls tests.test_values tests.test_threads tests.test_keeping -k {test}"


def of_many(name: str, text: str, put: str, test: str, file: str = "site.py") -> Wrong:
    return Wrong(name, file, text, put, f"tests.test_many -k {test}")


def of_standby(name: str, text: str, put: str, test: str, more: Tuple[Tuple[str, str], ...] = ()) -> Wrong:
    return Wrong(name, "_standby.py", text, put, f"tests.test_standby -k {test}", more)


WRONG = [
    of_many("a finaliser that waits", "self._site._forgotten.append(self._number)", "self._abort()", "test_a_finaliser"),
    of_many("what is collected stays open", "self._site._forgotten.append(self._number)", "pass", "test_what_is_collected"),
    of_many("a child that uses its parent's site", "return self._born == _forks", "return True", "test_a_forked_child"),
    of_many("another thread asks in mid-call", "if self._thread != threading.get_ident():", "if False:", "test_another_thread"),
    of_many("a function asks on that was given up", "            if self._is_given_up:\n", "            if False:\n", "test_no_function_asks"),
    of_many("a refused call gives nothing up", "if self._depth and number != BAD_ARGUMENT:", "if False:", "test_no_function_asks"),
    of_many("a bad argument gives all up", "if self._depth and number != BAD_ARGUMENT:", "if self._depth:", "test_a_bad_argument"),
    of_many("a function asks on that has ended", "            asking._transaction = None\n", "", "test_a_function_that_has_ended"),
    of_many("a block that fails stays open", "            self._abort()\n            return\n        stamp =", "            return\n        stamp =", "test_what_ends_by_an_exception"),
    of_many("a commit that fails stays open", "            self._abort()\n            raise\n", "            raise\n", "test_writers_within_writers"),
    of_many("a lock that is held beside a function", "            given = bytes(function(asking, *args))\n", "            with self._site._lock:\n                given = bytes(function(asking, *args))\n",
            "test_nobody_waits"),
    of_many("a library of another header", "if number != ABI:", "if False:", "Abi", "_library.py"),
    Wrong("followed from xmax alone", "postgres.py", "\",\".join(map(str, last.running)))", "\"\")",
          "tests.test_postgres -k test_a_transaction_that_was_open_at_the_last_look_follows_once"),
    Wrong("a snapshot before its lock", "postgres.py", "READ ONLY; {self.settings}{lock}", "READ ONLY; SELECT 1; {self.settings}{lock}",
          "tests.test_postgres -k test_the_lock_comes_before_the_snapshot"),
    of_standby("a standby followed by pg_visible_in_snapshot", "NOT EXISTS (SELECT FROM unnest('{{{seen}}}'::xid8[]) AS s WHERE s = n.xact)",
               "NOT pg_visible_in_snapshot(n.xact, '{xmin}:{xmax}:')", "test_a_transaction_that_was_open", (("xmin=last.xmin, seen=", "xmin=last.xmin, xmax=last.xmax, seen="),)),
    of_standby("a standby followed from xmax alone", "xmin=last.xmin, seen=", "xmin=last.xmax, seen=", "test_a_transaction_that_was_open"),
    of_standby("a standby's numbers are those of one look", "before.seen.union(numbers)", "frozenset(numbers)", "test_a_transaction_that_was_open -k test_random_transactions"),
    of_standby("a standby's numbers are cut", "    if len(last.seen or ()) > MAX_SEEN:\n", "    if False:\n", "test_more_numbers"),
    Wrong("a token that a standby's list sees", "postgres.py", "        if self.seen is not None:\n            return", "        if False:\n            return",
          "tests.test_standby -k test_a_token_of_what"),
    Wrong("a promotion that is not seen", "postgres.py", "            if last.seen is not None and delay is None:\n", "            if False:\n", "tests.test_standby -k test_a_promotion"),
    of_standby("a promotion within a look that is not seen", "    if not is_standby:\n", "    if False:\n", "test_a_promotion"),
    Wrong("a delay not counted", "_follower.py", "self._shown = moment - found.delay if found.tags is None else max(self._shown, moment - found.delay)", "self._shown = moment",
          "tests.test_standby -k test_the_delay"),
    of_standby("a standby that lost its primary is young", "if first.is_standby and first.is_connected:", "if first.is_standby:", "test_a_standby_that_has_lost"),
    of_standby("what was received counts as replayed", "if place <= found.replayed", "if True", "test_the_delay"),
    of_standby("a primary that is idle makes pages old", "min(by_place, NEVER if found.since is None else found.since)", "NEVER if found.since is None else found.since", "test_a_primary_that_is_idle"),
    Wrong("a query that recovery cancels is the page's own error", "postgres.py", "if _state_of(error)[:2] == _ROLLED_BACK:", "if False:", "tests.test_standby -k test_a_snapshot_that_recovery"),
    Wrong("purge by age", "_postgres_schema.py", "INTO upon FROM txcache.purges p WHERE p.made <= clock_timestamp() - make_interval(secs => age)",
          "INTO upon FROM (SELECT pg_snapshot_xmax(pg_current_snapshot()) AS below) p", "tests.test_postgres -k test_by_numbers"),
    Wrong("a purge that says nothing of itself", "_postgres_schema.py", "UPDATE txcache.state SET upto = upon;", "", "tests.test_postgres -k test_by_numbers"),
    Wrong("plans of a look that are compiled", "_postgres_schema.py", " SET jit = off", "", "tests.test_postgres -k test_a_look_goes_by"),
    Wrong("a fingerprint without classes", "_postgres_schema.py", "concat(oid, ' ', relfilenode, ' ', xmin)", "''",
          "tests.test_postgres -k test_the_fingerprint -k test_each_change_of_a_partition_begins_cold"),
    Wrong("a fingerprint without triggers", "_postgres_schema.py", "FROM pg_trigger WHERE tgrelid = ANY (them)", "FROM pg_trigger WHERE false",
          "tests.test_postgres -k test_a_trigger_that_was_off_for_a_while"),
    Wrong("a fingerprint without functions", "_postgres_schema.py", "FROM pg_proc WHERE oid >= 16384),", "FROM pg_proc WHERE false),", "tests.test_postgres -k test_the_fingerprint"),
    Wrong("a fingerprint without views", "_postgres_schema.py", "WHERE r.oid >= 16384 AND", "WHERE false AND", "tests.test_postgres -k test_the_fingerprint"),
    Wrong("a fingerprint without enums", "_postgres_schema.py", "FROM pg_enum WHERE oid >= 16384", "FROM pg_enum WHERE false", "tests.test_postgres -k test_the_fingerprint"),
    Wrong("a fingerprint without policies", "_postgres_schema.py", "FROM pg_policy WHERE polrelid = ANY (them)", "FROM pg_policy WHERE false",
          "tests.test_postgres -k test_each_part_of_the_fingerprint"),
    Wrong("a fingerprint without columns", "_postgres_schema.py", "FROM pg_attribute WHERE attrelid = ANY (them)", "FROM pg_attribute WHERE false",
          "tests.test_postgres -k test_each_part_of_the_fingerprint"),
    Wrong("a row that is equal is a row that stays as it was", "_postgres_schema.py", "OLD *= NEW", "OLD IS NOT DISTINCT FROM NEW",
          "tests.test_postgres -k test_a_row_of_types_with_no_equality"),
    Wrong("a trigger that a replica does not fire", "_postgres_schema.py", "ENABLE ALWAYS TRIGGER {name}", "ENABLE TRIGGER {name}", "tests.test_postgres -k test_a_replica_and_a_superuser"),
    Wrong("only the row as it is", "_postgres_schema.py", "coalesce(old_keys, '{{}}') || coalesce(new_keys, '{{}}')", "coalesce(new_keys, old_keys)", "tests.test_postgres -k test_each_kind"),
    Wrong("a reader that does not ask whether the snapshot stands", "postgres.py", "            snapshot.check()\n        return dicts", "        return dicts",
          "tests.test_postgres -k test_a_holder_that_dies_while_a_query_runs"),
    Wrong("a server's start time alone", "_postgres_schema.py", "(SELECT min(pid) FROM pg_stat_get_activity(NULL) WHERE datid IS NULL AND usesysid IS NULL)", "''",
          "tests.test_postgres -k test_a_killed_server_process_begins_cold"),
    Wrong("a token that its own snapshot sees", "postgres.py", "xact < self.xmax and xact not in self.running", "xact < self.xmax", "tests.test_postgres -k test_a_snapshot_sees_a_token_or_not"),
    Wrong("a value by its own text", "_layout.py", "if kind is Kind.INTEGER and isinstance(value, int) and not isinstance(value, bool):", "if kind is Kind.INTEGER:",
          "tests.test_layout -k test_another_type"),
    Wrong("a uuid by its own text", "_layout.py", "text = str(value if isinstance(value, uuid.UUID) else uuid.UUID(value))", "text = str(value)", "tests.test_layout -k test_one_text"),
    Wrong("replaced rows of SQLite are not noted", "sqlite.py", "    if in_the_way:\n", "    if False:\n", "tests.test_sqlite -k test_replace -k test_random_histories"),
    Wrong("an update of SQLite that replaces a row does not note it", "sqlite.py", "{it}{is_other};", "{it} AND 0;", "tests.test_sqlite -k test_replace -k test_an_update"),
    Wrong("a collation of SQLite is not looked at", "sqlite.py", "return count == 3", "return True", "tests.test_sqlite -k test_what_is_refused"),
    Wrong("a file of SQLite that was changed for another", "sqlite.py", "if self._probe is None or self._file != self._identity():", "if self._probe is None:",
          "tests.test_sqlite -k test_another_file"),
    Wrong("the number of a file's changes by another connection", "sqlite.py", "            self._probes += 1\n", "",
          "tests.test_sqlite -k test_the_number_of_a_files_changes"),
    Wrong("a connection of the former file", "sqlite.py", "len(self._spare) < 2 and file == self._file:", "len(self._spare) < 2:", "tests.test_each_store -k test_another_file_at"),
    Wrong("the schema of SQLite is not looked at", "sqlite.py", "if mark.shape != last.shape:", "if False:", "tests.test_sqlite -k test_what_changes_the_schema"),
    Wrong("a key without types", "_keys.py", "return all(map(operator.is_, map(type, one), map(type, other)))", "return True", "tests.test_keys -k test_exact_types"),
    Wrong("a key without types, whole", "_keys.py", "    bool: lambda it: b\"T\" if it else b\"F\",", "    bool: lambda it: b\"i%x;\" % it,", "tests.test_keys -k test_each_value"),
    Wrong("the look that fails forgets where it stood", "_follower.py", "            except SnapshotRefused as error:\n                self.let_go()\n", "            except SnapshotRefused as error:\n                self.forget('')\n",
          "tests.test_follower -k test_a_lock_that_is_waited_for"),
    Wrong("the fault of a look that failed is not the reason of the cold begin", "_follower.py", "reason=self._forgotten or found.reason", "reason=found.reason",
          "tests.test_follower -k test_a_cold_begin_after"),
    Wrong("a moment after its snapshot", "_follower.py", "self._shown = moment - found.delay if", "self._shown = self._clock() - found.delay if", "tests.test_follower -k test_the_moment"),
    Wrong("a snapshot that is held for ever", "_follower.py", "            self._let_old_go()\n", "", "tests.test_follower -k test_none_is_held"),
    Wrong("a snapshot that was lost is kept", "_follower.py", "not before.snapshot.is_lost and ", "", "tests.test_follower tests.test_each_store -k test_one_that_was_lost -k test_killed_connections_of"),
    Wrong("a connection that was lost says nothing of its snapshot", "postgres.py", "                    snapshot.check()  # it may be lost too", "                    pass  # it may be lost too",
          "tests.test_each_store -k test_killed_connections_of"),
    Wrong("nobody is told that a snapshot was lost", "postgres.py", "            self.is_lost = True\n", "", "tests.test_each_store -k test_killed_connections_of"),
    Wrong("a shared value", "_values.py", "return pickle.loads(data)", "return globals().setdefault('_known', {}).setdefault(data, pickle.loads(data))",
          "tests.test_keys -k test_no_two_get_one_object"),
    Wrong("a snapshot closed that a page may read", "cache.py", "self._least = state, oldest, max(state.first, found)", "self._least = state, oldest, state.first",
          of_each_store("test_a_page_begins_where")),
    Wrong("a pin within a step", "cache.py",
          "        self._versions.touch(self._places.changed(step.tags), step.number)\n        stamp = self._versions.pin(_us(step.moment))\n",
          "        stamp = self._versions.pin(_us(step.moment))\n        self._versions.touch(self._places.changed(step.tags), step.number)\n", of_each_store("test_hits_and_changes")),
    Wrong("a tag of a step is forgotten", "cache.py", "self._places.changed(step.tags)", "self._places.changed(sorted(step.tags)[:-1])", of_each_store("test_hits_and_changes")),
    Wrong("what asks nothing is computed on each page", "_page.py", "        if not frame.asks:\n", "        if False:\n", of_each_store("test_functions_and_their_levels")),
    Wrong("a query in the newest snapshot", "cache.py", "        number = self._numbers.get(stamp) if stamp is not None else None\n",
          "        number = max(self._follower.numbers, default=None)\n", of_each_store("test_a_page_is_of_one_moment")),
    Wrong("after= by the newest held", "cache.py", "found = next((it.stamp for it in self._state.pins if self.store.sees(it.mark, token)), None)",
          "found = self._state.pins[-1].stamp",
          of_each_store("test_tokens")),
    Wrong("a wait for a snapshot that one may not read", "_computing.py", "and may_read(it.stamp)), None)", "), None)", of_each_store("test_nobody_waits")),
    Wrong("nobody waits", "_computing.py", "            with found.turn:\n                pass", "            pass", of_each_store("test_who_asks")),
    Wrong("an audit in another snapshot", "_page.py", "self.cache._follower.snapshot(self.receipt.snapshot)", "self.cache._follower.snapshot(self.cache._follower.numbers[-1])",
          of_each_store("test_an_audit_is_of_the_receipts_snapshot")),
    Wrong("places above their count", "_versions.py", "return hash(tag) % self.count", "return hash(tag) % (2 * self.count)", "tests.test_places -k test_places"),
    Wrong("a tag changes another place than that which is asked", "_versions.py", "sorted({hash(it) % self.count for it in tags})", "sorted({hash(it) // 2 % self.count for it in tags})",
          "tests.test_places -k test_the_length"),
    Wrong("each change is counted", "_versions.py", "            if not self._changed[place]:\n", "            if True:\n", "tests.test_places -k test_the_length"),
    Wrong("the place that never changes is that of a tag", "_versions.py", "UNCHANGING_PLACE = MAX_PLACES", "UNCHANGING_PLACE = 0", "tests.test_places -k test_places"),
    Wrong("places that a cache does not bound", "cache.py", "Works(), Places(self._max_places)", "Works(), Places()", of_each_store("test_places")),
    Wrong("an event of more rows of a table than the library keeps apart", "_versions.py", "_ROWS_OF_A_TABLE = 15 ", "_ROWS_OF_A_TABLE = 16 ", "tests.test_places -k test_a_step_of_many"),
    Wrong("events of places in their order", "_versions.py", "for layer in _layers(places):", "for layer in [list(places)]:", "tests.test_places -k test_a_step_of_many"),
    Wrong("the last layer of a step is forgotten", "_versions.py", "for layer in _layers(places):", "for layer in _layers(places)[:-1] or _layers(places):", "tests.test_places -k test_a_step_of_many"),
    Wrong("versions in the store of SQL", "_versions.py", "_EVER, 0, _calls.STORE_PLAIN)", "_EVER, 0, _calls.STORE_SQL)", "tests.test_versions -k test_its_rows"),
    Wrong("a store without a name", "site.py", "        if store not in _STORES:\n", "        if False:\n", "tests.test_site -k test_a_store_has"),
    Wrong("each thread waits for the lock of a table by itself", "cache.py", "if failure is not None and failure is not known:", "if False:", "tests.test_threads -k test_a_lock_of"),
    Wrong("a failure that stays", "cache.py", "            self._failure = None\n            self._is_to_be_cold = True", "            self._is_to_be_cold = True", "tests.test_threads -k test_a_failure_is_over"),
    Wrong("a page of hits waits for the lock of a table each time", "cache.py", "self._failure, self._last_try = type(error)(*error.args), time.monotonic()", "self._failure = type(error)(*error.args)",
          "tests.test_threads -k test_a_page_of_hits_waits"),
    Wrong("the log is copied though a page is open", "_follower.py", "self.store.wants_air(self._is_read())", "self.store.wants_air(False)", "tests.test_follower -k test_air_waits"),
    Wrong("no page counts as open", "_versions.py", "return count.value > 0", "return False", "tests.test_keeping -k test_the_log_is_copied"),
    Wrong("a log that can't begin anew ends each snapshot", "sqlite.py", "self._aired, self._left = time.monotonic(), self._log_size()", "self._aired = time.monotonic()",
          "tests.test_sqlite -k test_a_log_that_cannot"),
    Wrong("a log that has begun anew counts as long", "sqlite.py", "        self._left = min(self._left, size)\n", "", "tests.test_sqlite -k test_a_log_that_began"),
    Wrong("check does not ask who may read the tables", "postgres.py", " + catalog.faults_of_reading(reader)", "", "tests.test_postgres -k test_check_names"),
    Wrong("check asks for its own role alone", "_postgres_schema.py", "        found.append(_Role(literal(reader), f\"the role {reader}\"))\n", "        pass\n", "tests.test_postgres -k test_check_names"),
    Wrong("check does not ask for the schema of a table", "_postgres_schema.py", " AND has_schema_privilege({role}, c.relnamespace, 'USAGE'))", ")", "tests.test_postgres -k test_check_names"),
    Wrong("uninstall goes on after each table", "_postgres_schema.py", "DROP FUNCTION {it.function}\" for standing", "DROP FUNCTION {it.function}; COMMIT; BEGIN; {self._limit.rstrip('; ')}\" for standing",
          "tests.test_postgres -k test_uninstall_is"),
    Wrong("a page at the present", "_versions.py", "        if number == DONE:\n            return txn\n", "        return txn\n",
          of_each_store("test_no_page_is_at_the_present")),
    Wrong("a site that renews pins by itself", "_versions.py", "_EVER = 2**64 - 1", "_EVER = 1", of_each_store("test_a_miss_is_read_at")),
    Wrong("a query after its transaction has ended", "postgres.py", "            if reader.link.is_idle:\n", "            if False:\n", of_each_store("test_a_query_that_ends")),
    Wrong("a query after its transaction has ended, of SQLite", "sqlite.py", "if self.is_open and not self._link.in_transaction:", "if False:", of_each_store("test_a_query_that_ends")),
    Wrong("a query that begins anew", "_layout.py", "        refuse_all_but_one_query(query)\n", "", of_each_store("test_a_query_that_ends")),
    Wrong("a snapshot that was let go is read", "postgres.py", "            if not snapshot.is_open:\n                raise SnapshotLost(\"the snapshot was let go\")\n        except",
          "        except", of_each_store("test_a_snapshot_that_was_let_go"), (("        if not self.is_open:\n            raise SnapshotLost(\"the snapshot was let go\")\n        try:", "        try:"),)),
    Wrong("a snapshot that becomes too old before the next look", "_follower.py", "limit = self._clock() - self.hold + self._every", "limit = self._clock() - self.hold", "tests.test_follower -k test_none_becomes"),
    Wrong("a page that goes on in a snapshot it had before a hit", "_page.py", "        self._stamp = self._snapshot = None  # it may hold in fewer of them\n        if data", "        if data",
          of_each_store("test_a_page_is_of_one_moment")),
    Wrong("a foreign partition is installed", "postgres.py", "                refused[table] += catalog.faults_of_partitions(table, standing[table])\n", "",
          "tests.test_postgres -k test_a_foreign_table"),
    Wrong("a snapshot closed in which a page computes", "_follower.py", "if not self._uses.get(it)]", "if True]", of_each_store("test_a_snapshot_in_which")),
    Wrong("a page that begins where a snapshot between is closed", "_follower.py", "            if number != after - 1:\n", "            if False:\n", "tests.test_follower -k test_what_is_used"),
    Wrong("a page of a parent's", "_page.py", "around is not None and around._process == _process", "around is not None", of_each_store("test_a_child_of_a_page")),
    Wrong("nothing is ever purged", "cache.py", "if now - self._last_purge > PURGE_EVERY:", "if False:", of_each_store("test_notes_are_purged")),
    Wrong("an audit that leaves the cache warm", "_page.py", "        self.cache.clear()\n", "", of_each_store("test_audit")),
    Wrong("a page that is older than it may be", "cache.py", "int(oldest * 1e6) if oldest > 0 else 0", "max(0, int((oldest - 60.0) * 1e6))", of_each_store("test_hits_and_changes")),
    Wrong("a failed step goes on", "cache.py", "            self._is_to_be_cold = True  # until", "            self._is_to_be_cold = False  # until", of_each_store("test_a_step_that_fails_midway")),
    Wrong("an error that was shown is forgotten", "_page.py", "                        self._has_shown = True  # its error", "                        pass  # its error", of_each_store("test_an_error_shown")),
    Wrong("a caught failure goes on", "_page.py", "        if self._failed is not None:\n", "        if False:\n", of_each_store("test_errors")),
    Wrong("keys of callers stay", "_forms.py", "                left += self._callers.get(it, ())\n", "", of_each_store("test_what_a_key_asks -k test_clearing")),
    Wrong("the tables of a query stay", "_page.py", "        if touched - tables:\n", "        if False:\n", of_each_store("test_tables_of_a_query")),
    Wrong("a cold begin under the same number", "cache.py", "State((), self._state.era + 1)", "State((), self._state.era)", of_each_store("test_cold_leaves_nothing_behind")),
    Wrong("a cold step's pin before its number", "cache.py", "            self._state = State((), self._state.era + 1)\n        self._versions.touch(self._places.changed(step.tags), step.number)\n"
          "        stamp = self._versions.pin(_us(step.moment))\n", "            pass\n        self._versions.touch(self._places.changed(step.tags), step.number)\n"
          "        stamp = self._versions.pin(_us(step.moment))\n        self._state = State((), self._state.era + 1) if step.cold else self._state\n",
          of_each_store("test_a_page_that_begins_within_a_cold_step")),
    Wrong("a page of a number that is no more", "cache.py", "if txn is not None and self._state.era == state.era:", "if txn is not None:", of_each_store("test_a_page_is_not_begun_under")),
    Wrong("a mark in the place of a value is shown", "_page.py", "        if data == TOO_LONG:\n", "        if False:\n", of_each_store("test_values_that_are_too_long")),
    Wrong("a value that is too long is of the newest snapshot", "_page.py", "self._direct = self._snapshot_now()",
          "self._direct = self.cache._follower.snapshot(self.cache._follower.numbers[-1])", of_each_store("test_values_that_are_too_long")),
    Wrong("two threads' answers in one room", "_versions.py", "            room = self._free.pop()\n        except IndexError:\n            room = _Room()\n        number = _CALL",
          "            room = self._free[-1]\n        except IndexError:\n            room = _Room()\n        number = _CALL", "tests.test_versions -k test_a_hit_is_read"),
    Wrong("a lock that is held in mid-hit", "_versions.py", "        number = _CALL(", "        with _TURN:\n            number = _CALL(",
          "tests.test_versions -k test_a_thread_that_stops", (("_AS_KEY = struct", "_TURN = threading.Lock()\n_AS_KEY = struct"),)),
    Wrong("a room of a call that failed is used again", "_versions.py", "        number = _CALL(", "        self._free.append(room)\n        number = _CALL(",
          "tests.test_versions -k test_a_room_of"),
    Wrong("calls side by side without the interpreter's lock", "_calls.py", "            with lock:\n                return call(*words)", "            return call(*words)",
          "tests.test_versions -k test_without"),
    Wrong("a long value is cut", "_versions.py", "number = self._told_once_more(txn, room)", "number = DONE", of_each_store("test_long_values")),
    Wrong("a call that runs out of asks is not made again", "_page.py", "if self._tries < MAX_TRIES and (", "if False and (", of_each_store("test_as_many_calls")),
    Wrong("the call that ran out of asks is not made by itself", "_page.py", "            if self._ahead is not None:\n", "            if False:\n", of_each_store("test_as_many_calls")),
    Wrong("a budget of bytes that nobody keeps", "cache.py", "self._versions.trim(self._max_bytes)", "pass", of_each_store("test_a_budget")),
    Wrong("a child that goes on with its parent's", "cache.py", "os.register_at_fork(after_in_child=_after_fork_in_child)", "", of_each_store("test_after_a_fork")),
    *[Wrong(*it) for it in (*BY_HAND, *FAST)],
]


def fails(wrong: Wrong, room: str) -> str:
    """Returns an empty text if the test fails with the wrong body; else what is the matter."""
    path = f"{room}/txcache/{wrong.file}"
    with open(path, encoding="utf-8") as file:
        right = file.read()
    body = right
    for text, put in ((wrong.text, wrong.put), *wrong.more):
        if right.count(text) != 1:
            return f"its text stands {right.count(text)} times in {wrong.file}: {text!r}"
        body = body.replace(text, put)
    try:
        with open(path, "w", encoding="utf-8") as file:
            file.write(body)
        try:
            env = {**os.environ, "TXC_LIBRARY": built(path, room)} if path.endswith(".c") else None
            ran = subprocess.run([sys.executable, "-m", "unittest", "-q", "-f", *wrong.test.split()], cwd=room, env=env, stdout=subprocess.PIPE, stderr=subprocess.STDOUT, text=True, timeout=400)
        except subprocess.TimeoutExpired:
            print(f"{wrong.name}: its test did not end", flush=True)
            return ""  # that is seen too
        if "_FailedTest" in ran.stdout or "\nImportError" in ran.stdout:
            return f"its test was not loaded: {ran.stdout[-300:]}"
        # what the extension does wrong may end the process
        return "" if "\nFAILED (" in ran.stdout or ran.returncode < 0 else f"its test passes: {ran.stdout[-300:]}"
    finally:
        with open(path, "w", encoding="utf-8") as file:
            file.write(right)


def built(source: str, room: str) -> str:
    """Compiles the extension. Returns its folder, in which the library lies too."""
    folder = f"{room}/built"
    os.makedirs(folder, exist_ok=True)
    if not os.path.exists(f"{folder}/libtxc_c.so"):
        os.symlink(os.path.abspath(f"{os.environ['TXC_LIBRARY']}/libtxc_c.so"), f"{folder}/libtxc_c.so")
    subprocess.run([it for it in extension.words_of(folder, source=source) if it != "-Werror"], check=True)
    return folder


def main() -> None:
    chosen = [it for it in WRONG if not sys.argv[1:] or any(word in it.name for word in sys.argv[1:])]
    failed = 0
    os.environ.setdefault("TXC_LIBRARY", os.path.normpath(f"{PYTHON}/../out"))
    with tempfile.TemporaryDirectory(prefix="txcache-wrong-") as room:
        for folder in ("txcache", "tests"):
            shutil.copytree(f"{PYTHON}/{folder}", f"{room}/{folder}", ignore=shutil.ignore_patterns("__pycache__"))
        for it in chosen:
            said = fails(it, room)
            failed += bool(said)
            print(f"FAILED: {it.name}: {said}" if said else f"passed: {it.name}", flush=True)
    print(f"{len(chosen) - failed} passed, {failed} failed")
    sys.exit(int(failed > 0))


if __name__ == "__main__":
    main()
