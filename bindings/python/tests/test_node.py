"""A node's calls, each once, and its refusals."""

import threading
import unittest

from txcache.node import LAST_STAMP, MAX_CAPACITY, MAX_VALUE_LEN, Counts, Hit, Key, Node, OutOfOrder, Reach, Refused, Stored, Tag, Totals


class NodeTests(unittest.TestCase):
    def test_each_call(self):
        with Node(2, 4) as node:
            self.assertEqual(node.insert(Key(1, 2), Reach(0, 0), [Tag.id(1, 2)], b"\x0a"), Stored(Reach(0, 0), None))
            self.assertEqual(node.event(1, [Tag.id(1, 3)]), 0)
            self.assertEqual(node.lookup(Key(1, 2), 0, 9), Hit(Reach(0, 1), b"\x0a"))
            self.assertEqual(node.event(2, [Tag.id(1, 2)]), 1)
            self.assertIsNone(node.lookup(Key(1, 2), 2, 9))
            self.assertIsNone(node.insert(Key(1, 2), Reach(0, 1, False), [], b""))
            node.insert(Key(1, 3), Reach(2, 2), [Tag.group(1, 9)], b"")
            third = node.insert(Key(1, 4), Reach(0, 0), [Tag.all(2)], bytes(MAX_VALUE_LEN))
            self.assertEqual(third, Stored(Reach(0, 2), (Key(1, 2), 0)))
            self.assertEqual(node.lookup(Key(1, 4), 0, 0).value, bytes(MAX_VALUE_LEN))
            self.assertEqual(node.event(3, [Tag.group(1, 9)]), 1)
            self.assertEqual(node.sweep(3), 1)
            self.assertEqual(node.counts(1), Counts(4, 3, 3, 1, 1))
            self.assertEqual(node.totals(), Totals(1, MAX_VALUE_LEN, 0))
            self.assertEqual(node.trim(MAX_VALUE_LEN), 0)
            self.assertEqual(node.trim(MAX_VALUE_LEN - 1), 1)
            self.assertEqual(node.totals(), Totals(0, 0, 1))

    def test_late_stamps_and_a_wide_node(self):
        self.assertRaisesRegex(Refused, "a call has at most 4 arguments, and was given 5", Key, 1, 2, 3, 4, 5, 6)
        self.assertRaisesRegex(Refused, "a capacity is from 1 to 1,048,576", Node, 0, 4)
        with Node(MAX_CAPACITY, 4) as node:
            node.insert(Key(1), Reach(LAST_STAMP - 1, LAST_STAMP), [Tag.id(1, 2)], b"late")
            self.assertEqual(node.lookup(Key(1), 1_048_577, LAST_STAMP), Hit(Reach(LAST_STAMP - 1, LAST_STAMP), b"late"))
            self.assertIsNone(node.lookup(Key(1), 0, LAST_STAMP - 2))
            self.assertEqual(node.sweep(LAST_STAMP), 0)

    def test_refusals(self):
        with Node(2, 4) as node:
            wrong = [
                lambda: Node(0, 4), lambda: Node(4, 4097), lambda: Node(MAX_CAPACITY + 1, 4), lambda: Key(64), lambda: Key(1, 1, 2, 3, 4, 5), lambda: Key(1, 2**32), lambda: Tag.all(16),
                lambda: node.lookup(Key(1), 5, 4), lambda: node.lookup(Key(1), 0, LAST_STAMP + 1), lambda: node.lookup(Key(1), -1, 0),
                lambda: node.insert(Key(1), Reach(3, 2), [], b""), lambda: node.insert(Key(1), Reach(0, 0), [], bytes(MAX_VALUE_LEN + 1)),
                lambda: node.insert(Key(1), Reach(0, 0), [Tag(1, 3, 0)], b""), lambda: node.sweep(LAST_STAMP + 1), lambda: node.counts(64),
                lambda: node.trim(-1),
            ]
            for call in wrong:
                self.assertRaises(Refused, call)
            with self.assertRaises(OutOfOrder) as refused:
                node.event(5, [])
            self.assertEqual(refused.exception.processed, 0)

    def test_closed(self):
        node = Node(2, 4)
        node.close()
        node.close()
        for call in (lambda: node.lookup(Key(1), 0, 0), lambda: node.trim(0), node.totals):
            self.assertRaises(Refused, call)

    def test_threads_share_one_by_a_lock(self):
        hits, lock = [0] * 4, threading.Lock()
        with Node(64, 4) as node:
            def look(number):
                with lock:
                    node.insert(Key(1, number), Reach(0, 0), [], b"x")
                for _ in range(1000):
                    with lock:
                        hits[number] += node.lookup(Key(1, number), 0, 0) is not None
            threads = [threading.Thread(target=look, args=(number,)) for number in range(4)]
            for it in threads:
                it.start()
            for it in threads:
                it.join()
        self.assertEqual(hits, [1000] * 4)
