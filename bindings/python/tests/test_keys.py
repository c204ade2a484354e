"""Keys of calls, and values as bytes."""

import datetime
import decimal
import enum
import json
import math
import unittest
import uuid
import zoneinfo

from txcache import _keys, _values


class Color(enum.Enum):
    RED = 1


class Level(enum.IntEnum):
    LOW = 1


class Way(enum.Flag):
    IN = 1
    OUT = 2


class Thing:
    def __init__(self, number):
        self.number = number

    def __repr__(self):
        return "thing"


def arguments(body, key=None):
    return _keys.Arguments("shop.f", body, key)


class Encoding(unittest.TestCase):
    def test_each_value_has_a_text_of_its_own(self):
        moment = datetime.datetime(2026, 11, 1, 1, 30)
        values = [None, True, False, 0, 1, -1, 2**80, 0.0, -0.0, 1.0, math.inf, "", "1", "i1;", "\ud800", b"", b"1", decimal.Decimal("1"), decimal.Decimal("1.0"),
                  decimal.Decimal("-0"), datetime.date(2026, 11, 1), moment, moment.replace(fold=1), moment.replace(tzinfo=datetime.timezone.utc),
                  moment.replace(tzinfo=datetime.timezone(datetime.timedelta(0), "Z")), moment.replace(tzinfo=zoneinfo.ZoneInfo("Etc/UTC")), datetime.time(1, 30),
                  datetime.time(1, 30, fold=1), datetime.time(1, 30, tzinfo=datetime.timezone.utc), uuid.UUID(int=1), Color.RED, Level.LOW, Way.IN, Way.IN | Way.OUT, (), (1,), ((1,),),
                  (1, 2), ((1,), 2), ((1, 2),), ("a", "b"), ("ab",), ("a", "", "b"), (None,)]
        texts = [_keys.encode(it) for it in values]
        self.assertEqual(len(set(texts)), len(values))
        self.assertEqual(texts, [_keys.encode(it) for it in values])
        self.assertEqual(_keys.encode(math.nan), _keys.encode(float("nan")))

    def test_what_is_no_plain_data(self):
        class Sub(int):
            pass

        class Zone(datetime.tzinfo):
            pass

        for it in ([1], {1: 2}, {1}, Thing(1), Sub(1), bytearray(b""), object, (1, [2]), datetime.datetime(2026, 1, 1, tzinfo=Zone())):
            self.assertRaises(_keys.NotPlain, _keys.encode, it)


class Calls(unittest.TestCase):
    def test_by_position_by_name_and_by_default_are_one(self):
        def body(db, item, order="asc", *, limit=10):
            pass

        it = arguments(body)
        texts = {it.encoded((7,), {}), it.encoded((7, "asc"), {}), it.encoded((), {"order": "asc", "item": 7}), it.encoded((7,), {"limit": 10})}
        self.assertEqual(len(texts), 1)
        self.assertNotEqual(it.encoded((7,), {"limit": 11}), it.encoded((7,), {}))

    def test_exact_types(self):
        it = arguments(lambda db, n: None)
        self.assertEqual(len({it.encoded((n,), {}) for n in (1, True, 1.0, "1", b"1", decimal.Decimal(1))}), 6)
        self.assertEqual(len({it.encoded((n,), {}) for n in ((1,), (True,), (1.0,))}), 3)
        self.assertTrue(all(it.stand_for_themselves((n,), {}) for n in (1, True, "1", b"1", None)))
        self.assertFalse(any(it.stand_for_themselves(args, named) for args, named in (((1.0,), {}), (((1,),), {}), ((), {"n": 1}), ((1, 2), {}), (([1],), {}))))
        self.assertEqual([_keys.are_of_one_type((1, "a"), other) for other in ((1, "a"), (True, "a"))], [True, False])

    def test_many_arguments(self):
        it = arguments(lambda db, *items, **more: None)
        self.assertNotEqual(it.encoded((1, 2), {}), it.encoded(((1, 2),), {}))
        self.assertEqual(it.encoded((1,), {"a": 1, "b": 2}), it.encoded((1,), {"b": 2, "a": 1}))

    def test_errors_name_the_function_and_the_argument(self):
        it = arguments(lambda db, item, things=(): None)
        with self.assertRaisesRegex(TypeError, "shop.f: the argument things has a value of type builtins.list"):
            it.encoded((7, [1]), {})
        with self.assertRaisesRegex(TypeError, "shop.f: .*item"):
            it.encoded((), {})
        self.assertRaisesRegex(TypeError, "shop.f takes no db", arguments, lambda: None)
        self.assertRaisesRegex(TypeError, "shop.f takes no db", arguments, lambda *args: None)

    def test_a_key_of_ones_own(self):
        it = arguments(lambda db, thing, more=0: None, key=lambda thing, more=0: (thing.number, more))
        self.assertEqual(it.encoded((Thing(1),), {}), it.encoded((Thing(1),), {"more": 0}))
        self.assertNotEqual(it.encoded((Thing(1),), {}), it.encoded((Thing(2),), {}))
        self.assertRaisesRegex(TypeError, "the argument key has", arguments(lambda db, n: None, key=lambda n: [n]).encoded, (1,), {})

    def test_digests(self):
        self.assertEqual(len(_keys.digest(b"a")), 16)
        self.assertNotEqual(_keys.digest(b"a"), _keys.digest(b"b"))
        self.assertNotEqual(_keys.prefix(b"a", b"b"), _keys.prefix(b"ab", b""))


class Values(unittest.TestCase):
    def test_each_comes_back(self):
        for it in (b"", b"p", "", "é\ud800", None, [1, {"a": (2,)}], Thing):
            self.assertEqual(_values.decode(_values.encode(it)), it)

    def test_no_two_get_one_object(self):
        value = [1]
        data = _values.encode(value)
        first = _values.decode(data)
        first.append(2)
        self.assertEqual((_values.decode(data), value), ([1], [1]))

    def test_a_codec(self):
        codec = (lambda it: json.dumps(it).encode(), json.loads)
        self.assertEqual(_values.decode(_values.encode({"a": [1]}, codec), codec), {"a": [1]})
        self.assertRaisesRegex(TypeError, "gave a str", _values.encode, 1, (str, int))
        self.assertRaises(ValueError, _values.decode, _values.encode(1, codec))

    def test_what_is_no_value(self):
        self.assertRaisesRegex(TypeError, "there is no codec", _values.encode, (it for it in ()))
        self.assertRaises(ValueError, _values.decode, b"")


if __name__ == "__main__":
    unittest.main()
