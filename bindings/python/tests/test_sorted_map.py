"""What a SortedMap does beyond a mapping: order, ranges, prefixes, refused keys, and when values are dropped."""

import importlib.metadata
import os
import subprocess
import sys
import unittest
import weakref

import verified_art
from verified_art import SortedMap

METALS = {"tin": 50, "gold": 79, "silver": 47, "titanium": 22, "tin\0ore": 1050, "": 0}


class Value:
    """What a weak reference can be made of."""


class Order(unittest.TestCase):
    def test_strings_are_in_order_of_their_code_points(self):
        words = ["", "\0", "a", "a\0", "aa", "b", "\x7f", "\x80", "\u07ff", "\ud800", "\udfff", "\uffff", "\U00010000", "\U0010ffff"]
        made = SortedMap.fromkeys(reversed(words))
        self.assertEqual(list(made), sorted(words))
        self.assertEqual(list(reversed(made)), sorted(words, reverse=True))

    def test_any_bytes_are_a_key(self):
        keys = [b"", b"\0", b"\0\0", b"\0\xff", b"\0\xff\0", b"\xff", b"\xff\xff", bytes(range(256)), b"x" * 1000]
        made = SortedMap.fromkeys(keys)
        self.assertEqual(list(made), sorted(keys))
        self.assertEqual(list(reversed(made)), sorted(keys, reverse=True))

    def test_numbers_have_a_sign_and_64_bits(self):
        numbers = [0, -1, 1, 255, 256, -256, 2**63 - 1, -(2**63), True + 1]
        made = SortedMap.fromkeys(numbers)
        self.assertEqual(list(made), sorted(numbers))
        for outside in (2**63, -(2**63) - 1, 10**30):
            self.assertNotIn(outside, made)
            self.assertRaises(KeyError, made.__getitem__, outside)
            self.assertRaises(KeyError, made.pop, outside)
            self.assertRaises(OverflowError, made.__setitem__, outside, 1)
        self.assertEqual(len(made), 9)

    def test_views_go_both_ways(self):
        made = SortedMap(METALS)
        due = sorted(METALS.items())
        self.assertEqual(list(made.items()), due)
        self.assertEqual(list(reversed(made.items())), due[::-1])
        self.assertEqual(list(reversed(made.keys())), [key for key, _ in due[::-1]])
        self.assertEqual(list(reversed(made.values())), [value for _, value in due[::-1]])
        self.assertEqual(made.keys() & {"tin", "iron"}, {"tin"})
        self.assertIn(("tin", 50), made.items())
        self.assertIn(1050, made.values())


class Types(unittest.TestCase):
    def test_the_first_key_says_the_type_of_all(self):
        for key, others in (("tin", (b"tin", 5)), (b"tin", ("tin", 5)), (5, ("5", b"5"))):
            made = SortedMap({key: 1})
            for other in others:
                for call in (made.__getitem__, made.__contains__, made.get, made.pop, made.irange, made.prefix):
                    self.assertRaises(TypeError, call, other)
                self.assertRaises(TypeError, made.__setitem__, other, 2)
            made.clear()
            made[others[0]] = 3
            self.assertEqual(made, {others[0]: 3})

    def test_other_types_are_no_keys(self):
        for key in (None, 1j, ["a"], ("a", None), bytearray(b"a"), object()):
            for made in (SortedMap(), SortedMap(a=1)):
                self.assertRaises(TypeError, made.__getitem__, key)
                self.assertRaises(TypeError, made.__setitem__, key, 1)
                self.assertRaises(TypeError, made.pop, key, 1)

    def test_a_key_of_a_subclass_is_what_it_holds(self):
        class Bytes(bytes):
            def __len__(self):
                return 4000

            def __bytes__(self):
                return b"other"

            def __getitem__(self, index):
                return b"other"

            def rstrip(self, *_):
                return "no bytes"

        class Str(str):
            def __len__(self):
                return 4000

            def encode(self, *_):
                return b"other"

        class Int(int):
            def __sub__(self, other):
                return 2**70

            def __lt__(self, other):
                raise AssertionError

        for plain, kind in ((b"tin", Bytes), ("tin", Str), (5, Int)):
            made = SortedMap()
            made[kind(plain)] = 1
            self.assertEqual((list(made), made[kind(plain)], made[plain]), ([plain], 1, 1))
            self.assertIs(type(made.peekitem()[0]), type(plain))
            self.assertEqual(list(made.irange(kind(plain), kind(plain))), [plain])
            self.assertEqual(made.pop(kind(plain)), 1)
        with_prefix = SortedMap.fromkeys([b"t", b"tin", b"tin\xff", b"tit"])
        self.assertEqual(list(with_prefix.prefix(Bytes(b"tin"))), [b"tin", b"tin\xff"])
        self.assertEqual(with_prefix.count_prefix(Bytes(b"tin")), 2)
        self.assertEqual(list(SortedMap({5: 1}).irange(Int(-(2**80)), Int(2**80))), [5])

    def test_what_only_says_that_it_is_a_key_is_none(self):
        class Liar:
            __class__ = bytes

        self.assertRaises(TypeError, SortedMap().__setitem__, Liar(), 1)
        self.assertRaises(TypeError, SortedMap({b"a": 1}).__getitem__, Liar())

    def test_a_type_may_have_any_name(self):
        class Named(type):
            __name__ = property(lambda it: 5)

        class Key(metaclass=Named):
            pass

        self.assertRaisesRegex(TypeError, "not 5", SortedMap().__setitem__, Key(), 1)

    def test_bounds_are_keys_in_an_empty_map_too(self):
        made = SortedMap()
        for bounds in ((1j,), (None, 1j), ("a", 1.5), ("a", 5), (b"a", "b"), (None, bytearray()), (1, None, 3), (("a",), (1, 1)), ("a", ("a",)), ((1,), 1)):
            self.assertRaises(TypeError, made.irange, *bounds)
        for bounds in ((), ("a",), (None, 5), (b"a", b"b"), (2**70, -(2**70)), ("\ud800", "b"), (("a",), ("b", 1)), (("b", 1), ()), (None, ("a",))):
            for reverse in (False, True):
                self.assertEqual(list(made.irange(*bounds, reverse=reverse)), [])
        made["a"] = 1
        self.assertEqual(made, {"a": 1})

    def test_what_is_no_argument_is_named(self):
        for wrong in (True, None, (True,), (True, True, True), 5):
            self.assertRaisesRegex(TypeError, "^inclusive is a pair of booleans", SortedMap(a=1).irange, "a", "b", wrong)
        for wrong in (32, None, 1.5):
            self.assertRaisesRegex(TypeError, f"^a SortedMap is made of .*, and not of {type(wrong).__name__}$", SortedMap, wrong)

    def test_an_int_has_no_prefix(self):
        self.assertRaises(TypeError, SortedMap({1: 2}).prefix, 1)
        self.assertRaises(TypeError, SortedMap({1: 2}).count_prefix, 1)


class Ranges(unittest.TestCase):
    def test_ranges_are_those_of_a_sorted_list(self):
        keys = [-(2**63), -5, 0, 1, 7, 300, 2**63 - 1]
        made = SortedMap.fromkeys(keys)
        bounds = [None, -(2**70), *keys, -6, 2, 2**70]
        for low in bounds:
            for high in bounds:
                for inclusive in ((True, True), (True, False), (False, True), (False, False)):
                    due = [
                        key
                        for key in keys
                        if (low is None or low < key or inclusive[0] and low == key)
                        and (high is None or key < high or inclusive[1] and high == key)
                    ]
                    self.assertEqual(list(made.irange(low, high, inclusive)), due)
                    self.assertEqual(list(made.irange(low, high, inclusive, reverse=True)), due[::-1])

    def test_prefixes(self):
        made = SortedMap(METALS)
        self.assertEqual(list(made.prefix("ti")), ["tin", "tin\0ore", "titanium"])
        self.assertEqual(list(made.prefix("tin", reverse=True)), ["tin\0ore", "tin"])
        self.assertEqual((made.count_prefix("ti"), made.count_prefix(""), made.count_prefix("x")), (3, 6, 0))
        self.assertEqual(list(SortedMap().prefix("a")), [])
        bytes_of_255 = SortedMap.fromkeys([b"\xfe", b"\xff", b"\xff\xff\xff", b"a\xff", b"a\xffb", b"b"])
        self.assertEqual(list(bytes_of_255.prefix(b"\xff")), [b"\xff", b"\xff\xff\xff"])
        self.assertEqual(list(bytes_of_255.prefix(b"a\xff")), [b"a\xff", b"a\xffb"])

    def test_ends(self):
        made = SortedMap(METALS)
        self.assertEqual((made.peekitem(), made.peekitem(0), made.peekitem(2)), (("titanium", 22), ("", 0), ("silver", 47)))
        self.assertEqual((made.peekitem(-6), made.peekitem(5)), (("", 0), ("titanium", 22)))
        self.assertRaises(IndexError, made.peekitem, 6)
        self.assertRaises(IndexError, made.peekitem, -7)
        self.assertRaises(IndexError, made.peekitem, 2**70)
        self.assertRaises(IndexError, SortedMap().peekitem)
        self.assertEqual((made.popitem(), made.popitem(last=False)), (("titanium", 22), ("", 0)))
        self.assertEqual(len(made), 4)


class Changes(unittest.TestCase):
    def test_an_entry_added_or_removed_ends_an_iteration(self):
        def add(made):
            made[1000] = 0

        changes = [add, lambda made: made.pop(99), SortedMap.popitem, SortedMap.clear]
        walks = [iter, reversed, SortedMap.irange, lambda made: iter(made.items()), lambda made: iter(made.values())]
        for change in changes:
            for walk in walks:
                made = SortedMap.fromkeys(range(100))
                steps = walk(made)
                next(steps)
                change(made)
                self.assertRaises(RuntimeError, next, steps)

    def test_a_change_before_the_first_step_ends_an_iteration(self):
        for made in (SortedMap({1: 2}), SortedMap()):
            for walk in (iter, reversed, lambda made: iter(made.items())):
                steps = walk(made)
                made[len(made) + 5] = 0
                self.assertRaises(RuntimeError, next, steps)

    def test_values_may_be_set_during_an_iteration(self):
        made = SortedMap.fromkeys(range(1000), 1)
        for key in made:
            made[key] += key
        self.assertEqual(list(made.values()), [1 + key for key in range(1000)])

    def test_unions(self):
        made = SortedMap({1: "a", 3: "c"})
        self.assertEqual(made | {2: "b", 3: "d"}, {1: "a", 2: "b", 3: "d"})
        self.assertEqual({2: "b", 3: "d"} | made, {1: "a", 2: "b", 3: "c"})
        self.assertIsInstance({2: "b"} | made, SortedMap)
        made |= [(9, "z")]
        self.assertEqual(list(made), [1, 3, 9])
        with self.assertRaises(TypeError):
            made | [(1, 2)]

    def test_places_are_used_again(self):
        made = SortedMap()
        sizes = []
        for turn in range(50):
            for key in range(20):
                made[key] = turn
            for key in range(20):
                del made[key]
            sizes.append(sys.getsizeof(made))
        self.assertEqual((len(made), sizes[1:]), (0, sizes[:-1]))


class Drops(unittest.TestCase):
    def dropped(self, change):
        """Whether a change of a map drops the value at "tin"."""
        made = SortedMap(gold=Value(), tin=Value(), silver=Value())
        value = weakref.ref(made["tin"])
        change(made)
        return value() is None

    def test_a_value_is_dropped_where_its_entry_is(self):
        self.assertTrue(self.dropped(lambda made: made.__delitem__("tin")))
        self.assertTrue(self.dropped(lambda made: made.__setitem__("tin", 1)))
        self.assertTrue(self.dropped(lambda made: made.pop("tin")))
        self.assertTrue(self.dropped(SortedMap.popitem))
        self.assertTrue(self.dropped(SortedMap.clear))
        self.assertFalse(self.dropped(lambda made: made.pop("gold")))

    def test_the_values_are_dropped_with_the_map(self):
        made = SortedMap(tin=Value())
        value = weakref.ref(made["tin"])
        del made
        self.assertIsNone(value())

    def test_a_value_that_uses_the_map_when_it_is_dropped(self):
        made = SortedMap()

        class Reentrant:
            def __del__(self):
                made["dropped"] = len(made)

        made["tin"] = Reentrant()
        made["tin"] = 50
        self.assertEqual(made, {"tin": 50, "dropped": 1})
        made["gold"] = Reentrant()
        made.clear()
        self.assertEqual(made, {"dropped": 0})


REFUSED = """
import resource
from verified_art import SortedMap

made = SortedMap({b"tin": 50})
long = bytes(1 << 28)
pages = int(open("/proc/self/statm").read().split()[0])
resource.setrlimit(resource.RLIMIT_AS, (pages * 4096 + (1 << 26), resource.RLIM_INFINITY))
try:
    made[long] = 1
except MemoryError:
    pass
else:
    raise SystemExit("no MemoryError")
assert made.get(long) is None and made.pop(long, 5) == 5
made[b"gold"] = 79
assert made == {b"tin": 50, b"gold": 79} and len(made) == 2, made
"""


class Version(unittest.TestCase):
    def test_it_is_that_of_the_wheel(self):
        self.assertEqual(verified_art.__version__, importlib.metadata.version("verified_art"))


@unittest.skipUnless(sys.platform == "linux", "the limit of memory is read from /proc")
class Refusals(unittest.TestCase):
    def test_refused_memory_changes_nothing(self):
        run = subprocess.run([sys.executable, "-c", REFUSED], env={**os.environ, "PYTHONPATH": os.pathsep.join(sys.path)}, check=False)
        self.assertEqual(run.returncode, 0)


if __name__ == "__main__":
    unittest.main()
