"""The places of tags, and the events in which their versions change."""

import random
import unittest
from collections import Counter

from txcache._fast import FASTEST
from txcache._versions import MAX_PLACES, PLACES, UNCHANGING_PLACE, Places, Versions, _layers


class Numbers(unittest.TestCase):
    def test_places_are_within_their_count(self):
        places, tags = Places(1000), [f"t:{n}" for n in range(5000)]
        found = [places.of(it) for it in tags]
        self.assertEqual(found, [places.of(it) for it in tags])
        self.assertEqual((min(found) >= 0, max(found) < 1000), (True, True))
        self.assertGreater(len(set(found)), 900)  # of 5,000 tags nearly each place is that of some
        self.assertEqual(UNCHANGING_PLACE, MAX_PLACES)  # above each of them
        self.assertEqual(Places().count, PLACES)

    def test_the_length_is_how_many_have_changed(self):
        places = Places(4)
        places.of("t:1")
        self.assertEqual(len(places), 0)
        changed = places.changed({"t:1", "t:2", "t:3"})
        self.assertEqual(changed, sorted({places.of(it) for it in ("t:1", "t:2", "t:3")}))
        self.assertEqual((len(places), places.changed({"t:1"})), (len(changed), [places.of("t:1")]))
        places.changed(f"x:{n}" for n in range(1000))
        self.assertEqual(len(places), 4)

    def test_tags_have_few_collisions(self):
        places = Places()
        self.assertGreater(len({places.of(f"public.items:id={n}") for n in range(10_000)}), 9900)


class Events(unittest.TestCase):
    def test_layers_have_each_place_once_and_few_of_each_table(self):
        rand = random.Random(3)
        for places in ([], [7], list(range(16)), list(range(0, 16 * 40, 16)), sorted(rand.sample(range(PLACES), 3000))):
            layers = _layers(places)
            self.assertEqual(sorted(it for layer in layers for it in layer), places)
            self.assertTrue(all(layers))
            for layer in layers:
                self.assertLessEqual(max(Counter(it % 16 for it in layer).values()), 15)

    def test_a_step_of_many_places_leaves_what_depends_on_others(self):
        """An event with more rows of a table than the library keeps apart would close all that depends on that table."""
        for kind in dict.fromkeys((Versions, FASTEST)):
            versions, rand = kind(1024), random.Random(7)
            self.addCleanup(versions.close)
            places = rand.sample(range(PLACES), 3300)
            versions.touch(sorted(places), 1)
            versions.pin(1)
            txn = versions.begin(1, 1, 0)
            keys = [(versions.key(1, place.to_bytes(16, "big")), place) for place in places[:300]]
            for key, place in keys:
                self.assertIsNone(versions.call(txn, key))
                versions.ask(txn, place)
                versions.finish(txn, b"%d" % place)
            versions.commit(txn)
            versions.touch(sorted(places[300:]), 2)
            versions.pin(2)
            txn = versions.begin(2, 0, 0)
            self.assertEqual([versions.call(txn, key) for key, _ in keys], [b"%d" % place for _, place in keys])
            versions.commit(txn)
            versions.touch(sorted(places[:300]), 3)
            versions.pin(3)
            txn = versions.begin(3, 0, 0)
            for key, _ in keys:
                self.assertIsNone(versions.call(txn, key))
                versions.give_up(txn)
            versions.abort(txn)


if __name__ == "__main__":
    unittest.main()
