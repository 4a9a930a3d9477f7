"""The kinds of keys: each beside a dict and its sorted keys, at random and at the ends of what it has; and what is no key."""

import ipaddress
import math
import random
import struct
import sys
import unittest
from collections import namedtuple
from ipaddress import IPv4Address, IPv4Interface, IPv6Address, IPv6Interface

import test_random
from test_random import any_bytes, any_int, any_str
from verified_art import SortedMap, SortedSet

NAN, INFINITY = float("nan"), float("inf")
FLOATS = [-INFINITY, -sys.float_info.max, -1.5, -1.0, -sys.float_info.min, -5e-324, 0.0, 5e-324, sys.float_info.min, 1.0, 1.0 + 2**-52, 1e300, INFINITY]
INTS = [-(2**63), -(2**63) + 1, -(2**32), -256, -1, 0, 1, 255, 256, 2**32, 2**63 - 2, 2**63 - 1]
STRS = ["", "\0", "\0\0", "a", "a\0", "a\0b", "aa", "\x7f", "\x80", "ä", "\u07ff", "\ud800", "\uffff", "\U00010000", "\U0010ffff", "a" * 8, "a" * 100]
BYTES = [b"", b"\0", b"\0" * 7, b"\0" * 8, b"\0" * 9, b"\0\xff", b"a", b"a\0", b"\xff" * 7, b"\xff" * 8, b"\xff" * 9, b"\xff" * 16, b"\xff" * 17, b"a" * 300]
IPV4 = [IPv4Address(number) for number in (0, 1, 255, 256, 2**31 - 1, 2**31, 2**32 - 1)]
IPV6 = [IPv6Address(number) for number in (0, 1, 2**64 - 1, 2**64, 2**127, 2**128 - 1)]


def any_float(choose):
    match choose.randrange(4):
        case 0:
            return choose.choice(FLOATS)
        case 1:
            return float(choose.randrange(-8, 8))
        case _:
            number = struct.unpack("d", choose.randbytes(8))[0]
            return 0.5 if math.isnan(number) else number


def any_ipv4(choose):
    return IPv4Address(choose.getrandbits(choose.choice((3, 16, 32))))


def any_ipv6(choose):
    return IPv6Address(choose.getrandbits(choose.choice((3, 64, 128))) << choose.choice((0, 0, 1)) & 2**128 - 1)


def of_parts(*any_part):
    """What makes tuples of such parts, with few values for each, so that keys begin alike."""

    def any_tuple(choose):
        return tuple(it(choose) if choose.random() < 0.2 else it(random.Random(choose.randrange(4))) for it in any_part)

    return any_tuple


KINDS = {
    "float": any_float,
    "IPv4Address": any_ipv4,
    "IPv6Address": any_ipv6,
    "tuple[str, int]": of_parts(any_str, any_int),
    "tuple[bytes, bytes]": of_parts(any_bytes, any_bytes),
    "tuple[str, str, str]": of_parts(any_str, any_str, any_str),
    "tuple[float, IPv4Address, IPv6Address]": of_parts(any_float, any_ipv4, any_ipv6),
    "tuple[tuple[int, bytes], str]": of_parts(of_parts(any_int, any_bytes), any_str),
    "tuple[tuple[tuple[()]], int]": of_parts(lambda _: ((),), any_int),
    "tuple[()]": lambda _: (),
}
ENDS = {"float": FLOATS, "int": INTS, "str": STRS, "bytes": BYTES, "IPv4Address": IPV4, "IPv6Address": IPV6}


class RandomCalls(test_random.Beside):
    test_ints = test_bytes = test_strs = test_prefixes = None

    def test_each_kind(self):
        for seed, (name, any_key) in enumerate(KINDS.items()):
            with self.subTest(name):
                self.run_beside(any_key, seed, 1500)

    def test_many_at_once(self):
        choose = random.Random(7)
        kinds = {**KINDS, "int": any_int, "str": any_str, "bytes": any_bytes}
        kinds["str with a long beginning"] = lambda choose: "https://www.example.org/" + str(choose.randrange(10**9))
        kinds["str with many beginnings"] = lambda choose: choose.choice("ab") + "x" * 20 + str(choose.randrange(500))
        for name, any_key in kinds.items():
            for before, count in ((0, 40), (0, 3000), (500, 400), (50, 2000)):
                with self.subTest(name, before=before, count=count):
                    due = {any_key(choose): at for at in range(before)}
                    ours = SortedMap(due)
                    pairs = [(any_key(choose), -at) for at in range(count)]
                    ours.update(pairs)
                    due.update(pairs)
                    self.assertEqual((len(ours), list(ours.items())), (len(due), sorted(due.items())))
                    self.assertEqual(SortedMap(ours), due)
                    for key in choose.sample(sorted(due), min(50, len(due))):
                        self.assertEqual((ours.index(key), ours.pop(key)), (sorted(due).index(key), due.pop(key)))
                    self.assertEqual(list(ours), sorted(due))


class Ends(unittest.TestCase):
    """The first and the last key of each kind, and those beside them, also as parts of tuples."""

    def assert_sorted(self, keys):
        due = sorted(set(keys))
        for made in (SortedMap.fromkeys(random.Random(3).sample(keys, len(keys))), SortedMap((key, None) for key in reversed(due))):
            one_by_one = SortedMap()
            for key in made:
                one_by_one[key] = None
            for it in (made, one_by_one):
                self.assertEqual((list(it), list(reversed(it))), (due, due[::-1]))
            for at, key in enumerate(due):
                self.assertEqual((key in made, made.index(key), made.bisect(key), made.bisect_left(key)), (True, at, at + 1, at))
            for low in due[::3]:
                for high in due[::4]:
                    self.assertEqual(list(made.irange(low, high)), [key for key in due if low <= key <= high])
                    self.assertEqual(list(made.irange(low, high, (False, False), True)), [key for key in due[::-1] if low < key < high])

    def test_each_kind(self):
        for keys in ENDS.values():
            self.assert_sorted(keys)

    def test_pairs(self):
        for first in ENDS.values():
            for second in ENDS.values():
                self.assert_sorted([(one, other) for one in first[::2] for other in second[::3]])

    def test_nested(self):
        self.assert_sorted([((one,), other) for one in BYTES for other in STRS])


class Numbers(unittest.TestCase):
    def test_zero_is_one_key_with_either_sign(self):
        made, due = SortedMap(), {}
        for it in (made, due):
            it[-0.0] = "negative"
            it[0.0] = "positive"
        self.assertEqual((list(made.items()), str(list(made))), (list(due.items()), "[-0.0]"))
        self.assertEqual((made[0.0], made[-0.0], made.index(0.0), len(made)), ("positive", "positive", 0, 1))
        self.assertEqual(list(SortedMap({(0.0, 1): 1, (-0.0, 2): 2}).prefix((-0.0,))), [(0.0, 1), (-0.0, 2)])
        self.assertEqual(made.pop(0.0), "positive")

    def test_not_a_number_is_no_key(self):
        for made, key in ((SortedMap({1.5: 1}), NAN), (SortedMap({("a", 1.5): 1}), ("a", NAN)), (SortedMap(), NAN)):
            before = dict(made)
            self.assertRaisesRegex(ValueError, "NaN", made.__setitem__, key, 1)
            self.assertRaisesRegex(ValueError, "NaN", made.update, {key: 1})
            self.assertRaises(ValueError, made.setdefault, key, 1)
            self.assertEqual((key in made, made.get(key, 2), made.pop(key, 3)), (False, 2, 3))
            self.assertRaises(KeyError, made.__getitem__, key)
            self.assertRaises(KeyError, made.__delitem__, key)
            for call in (made.irange, made.bisect, made.bisect_left, made.index):
                self.assertRaises(ValueError, call, key)
            self.assertRaises(ValueError, made.irange, None, key)
            self.assertEqual(made, before)
        self.assertRaises(ValueError, SortedSet, [1.0, NAN])

    def test_equal_numbers_of_other_types(self):
        of_ints, of_floats = SortedMap({1: "int"}), SortedMap({1.0: "float"})
        # A bool is an int, as everywhere in Python: one key with it, and kept as the int.
        of_ints[True] = "bool"
        of_ints[False] = "no"
        self.assertEqual([(type(key), key) for key in of_ints], [(int, 0), (int, 1)])
        self.assertEqual((of_ints[1], of_ints[True]), ("bool", "bool"))
        # An int is no float, though it may be equal to one.
        for made, other in ((of_ints, 1.0), (of_floats, 1), (of_floats, True)):
            for call in (made.__getitem__, made.__contains__, made.get, made.pop, made.irange, made.bisect, made.index):
                self.assertRaises(TypeError, call, other)
            self.assertRaises(TypeError, made.__setitem__, other, 1)
        # Maps and sets are compared as those of Python are.
        self.assertEqual((of_floats, SortedMap({1: 1})), ({1: "float"}, {1.0: 1}))
        self.assertEqual((SortedSet([1, 2]), SortedSet([1, 2])), (SortedSet([1.0, 2.0]), {True, 2.0}))

    def test_an_int_beyond_64_bits_in_a_tuple(self):
        keys = [("a", -(2**63)), ("a", 0), ("a", 2**63 - 1), ("b", -(2**63)), ("b", 2**63 - 1), ("", 5)]
        made, due = SortedMap.fromkeys(keys), sorted(keys)
        bounds = [("a", 2**63), ("a", -(2**63) - 1), ("b", 10**30), ("b", -(10**30)), ("", 2**70), ("c", 2**70), *keys, ("a",), ("b",), ()]
        for low in bounds:
            self.assertEqual((made.bisect_left(low), made.bisect_right(low)), (sum(key < low for key in keys), sum(key <= low for key in keys)))
            for high in bounds:
                self.assertEqual(list(made.irange(low, high)), [key for key in due if low <= key <= high])
                self.assertEqual(list(made.irange(low, high, (False, False))), [key for key in due if low < key < high])
        for key in bounds[:6]:
            self.assertRaises(OverflowError, made.__setitem__, key, 1)
            self.assertEqual((key in made, made.get(key), list(made.prefix(key)), made.count_prefix(key)), (False, None, [], 0))
        self.assertRaises(TypeError, made.__contains__, (2**70, "a"))
        self.assertRaises(TypeError, made.__contains__, ("a", 2**70, 1))


class Forms(unittest.TestCase):
    ONE_OF_EACH = {
        "str": "a",
        "bytes": b"a",
        "int": 1,
        "float": 1.5,
        "IPv4Address": IPV4[1],
        "IPv6Address": IPV6[1],
        "tuple[()]": (),
        "tuple[str]": ("a",),
        "tuple[str, int]": ("a", 1),
        "tuple[tuple[str], int]": (("a",), 1),
        "tuple[str, tuple[int]]": ("a", (1,)),
    }

    def test_a_key_of_another_form_is_an_error_that_names_both(self):
        for form, key in self.ONE_OF_EACH.items():
            made = SortedMap({key: 1})
            for other, wrong in self.ONE_OF_EACH.items():
                if wrong == key:
                    continue
                text = f"^a key of {form} is needed here, as those that are there, and not of {other}$".replace("[", r"\[").replace("(", r"\(").replace(")", r"\)")
                for call in (made.__getitem__, made.__contains__, made.get, made.pop, made.setdefault, made.index, made.__delitem__):
                    self.assertRaisesRegex(TypeError, text, call, wrong)
                self.assertRaisesRegex(TypeError, text, made.__setitem__, wrong, 1)
                self.assertRaisesRegex(TypeError, text, made.update, {wrong: 1})
                self.assertRaisesRegex(TypeError, text, made.update, {key: 1} | {wrong: 1})
                self.assertRaisesRegex(TypeError, text, SortedSet([key]).add, wrong)
                self.assertEqual(made, {key: 1})
            del made[key]
            self.assertRaises(TypeError, made.__setitem__, None, 1)
            made.clear()
            made["any"] = 1
            self.assertEqual(made, {"any": 1})

    def test_first_parts_are_bounds_and_prefixes(self):
        keys = [(one, two, three) for one in ("", "a", "ab") for two in (-1, 0, 7) for three in (b"", b"\0", b"\xff")]
        made, due = SortedMap.fromkeys(random.Random(2).sample(keys, len(keys))), sorted(keys)
        bounds = [(), *((key[:count]) for key in keys for count in (1, 2, 3)), ("a", 3), ("b",), ("\0",)]
        for low in bounds:
            self.assertEqual(list(made.prefix(low)), [key for key in due if key[: len(low)] == low])
            self.assertEqual(list(made.prefix(low, reverse=True)), [key for key in due[::-1] if key[: len(low)] == low])
            self.assertEqual(made.count_prefix(low), sum(key[: len(low)] == low for key in keys))
            self.assertEqual(made.bisect_left(low), sum(key < low for key in keys))
            for high in bounds[::5]:
                self.assertEqual(list(made.irange(low, high)), [key for key in due if low <= key <= high])
        for wrong in ((1,), ("a", "b"), ("a", 1, b"", 1), "a"):
            for call in (made.prefix, made.irange, made.bisect, made.count_prefix):
                self.assertRaises(TypeError, call, wrong)
        for part in (("a",), ("a", 1), ()):
            self.assertRaises(TypeError, made.__contains__, part)

    def test_only_str_bytes_and_tuples_have_prefixes(self):
        for key in (1, 1.5, IPV4[1], IPV6[1]):
            for made in (SortedMap(), SortedMap({key: 1})):
                self.assertRaises(TypeError, made.prefix, key)
                self.assertRaises(TypeError, made.count_prefix, key)

    def test_a_tuple_may_have_62_parts_and_no_deeper_ones(self):
        SortedMap({(1,) * 60: 1})
        for key in ((1,) * 61, (1,) * 10_000, tuple((1,) for _ in range(21))):
            self.assertRaisesRegex(TypeError, "at most 62 parts", SortedMap().__setitem__, key, 1)
            self.assertRaises(TypeError, SortedMap({(1,): 1}).__contains__, key)
        deep, deeper = (), ()
        for _ in range(30):
            deep = (deep,)
        made = SortedMap({deep: 1})
        self.assertEqual((made[deep], list(made)), (1, [deep]))
        for _ in range(1_000_000):
            deeper = (deeper,)
        self.assertRaises(TypeError, made.__contains__, deeper)
        self.assertRaises(TypeError, SortedMap().__setitem__, deeper, 1)
        self.assertRaises(TypeError, SortedMap().__setitem__, (deeper, 1), 1)
        self.assertRaises(TypeError, SortedMap().update, [(deeper, 1)] * 20)
        self.assertRaises(TypeError, SortedSet([deep]).update, [deeper] * 20)
        while deeper:
            (deeper,) = deeper


class Subclasses(unittest.TestCase):
    def test_a_key_of_a_subclass_is_what_it_holds(self):
        class Float(float):
            def __float__(self):
                return 2.0

            def __lt__(self, other):
                raise AssertionError

        class Str(str):
            pass

        Pair = namedtuple("Pair", "word number")

        class Liar(tuple):
            def __len__(self):
                return 4000

            def __getitem__(self, index):
                return "other"

            def __iter__(self):
                raise AssertionError

        for plain, key in ((1.5, Float(1.5)), (("a", 1), Pair("a", 1)), (("a", 1), Liar(("a", True))), ((("a",), 1.5), (Liar((Str("a"),)), Float(1.5)))):
            for made in (SortedMap(), SortedMap({plain: 0})):
                made[key] = 1
                made.update([(key, 1)] * 20)
                self.assertEqual((list(made), made[key], made[plain]), ([plain], 1, 1))
                self.assertIs(type(made.peekitem()[0]), type(plain))
                self.assertEqual(repr(list(made)), repr([plain]))
                self.assertEqual(list(made.irange(key, key)), [plain])
                self.assertEqual(made.pop(key), 1)
        self.assertEqual(list(SortedMap.fromkeys([Pair("a", at) for at in range(40)])), [("a", at) for at in range(40)])

        class Wide(int):
            pass

        self.assertRaises(OverflowError, SortedMap().__setitem__, ("a", Wide(2**70)), 1)

    def test_of_addresses_only_these_very_types_are_keys(self):
        class Own(IPv4Address):
            pass

        for key in (Own("10.0.0.1"), IPv4Interface("10.0.0.1/8"), IPv6Interface("::1/8"), ipaddress.ip_network("10.0.0.0/8")):
            for made in (SortedMap(), SortedMap({IPV4[0]: 1})):
                self.assertRaises(TypeError, made.__setitem__, key, 1)
                self.assertRaises(TypeError, made.__contains__, key)

    def test_scopes_of_addresses(self):
        texts = ["fe80::1", "fe80::1%0", "fe80::1%eth0", "fe80::1%eth1", "fe80::1%ä", "fe80::2", "fe80::2%a"]
        keys = [IPv6Address(text) for text in texts]
        for made in (SortedMap.fromkeys(keys[::-1]), SortedMap.fromkeys((key, at) for at, key in enumerate(keys[::-1]))):
            self.assertEqual([str(key[0] if isinstance(key, tuple) else key) for key in made], texts)
        made = SortedMap({key: str(key) for key in keys})
        for key in keys:
            self.assertEqual((made[key], made[IPv6Address(str(key))]), (str(key),) * 2)

    def test_an_address_that_was_changed_harms_nothing(self):
        for kind, numbers in ((IPv4Address, (-1, 2**32, 2**40, None, "a", 1.5)), (IPv6Address, (-1, 2**128, 2**200, None, "a", 1.5))):
            for number in numbers:
                made, key = SortedMap({kind(1): 1}), kind(5)
                key._ip = number
                for call in (made.__contains__, made.get, lambda key, made=made: made.__setitem__(key, 1), lambda key, made=made: made.update([(key, 1)] * 20)):
                    self.assertRaises((ValueError, OverflowError, TypeError), call, key)
                self.assertEqual(made, {kind(1): 1})
        keys = [IPv4Address(at) for at in range(40)]
        made = SortedMap.fromkeys(keys)
        for key in keys[::3]:
            key._ip += 1000
        self.assertEqual(len(list(made)), 40)
        made.copy(), made.update(made), SortedSet(made) & SortedSet(keys)
        for call in (made.popitem, lambda: made.popitem(0), lambda: made.pop(keys[0])):
            for _ in range(40):
                try:
                    call()
                except (KeyError, RuntimeError):
                    pass
        self.assertEqual(len(list(made)), len(made))


class Reentrant(unittest.TestCase):
    """The class of addresses, which is Python's own, is given code that changes the map."""

    def test_code_that_runs_where_an_address_is_read(self):
        changes = (lambda made: made.clear(), lambda made: (made.clear(), made.update({"a": 1})), lambda made: made.update({IPv4Address(999): 1}), lambda made: made.popitem())
        reads = (
            lambda made, key: made[key],
            lambda made, key: made.__setitem__(key, 1),
            lambda made, key: made.update({IPv4Address(1000 + at): key for at in range(50)}),
            lambda made, key: made.pop(key, None),
            lambda made, key: list(made.irange(key, key)),
            lambda made, key: made.bisect(key),
            lambda made, key: made.popitem(),
            lambda made, key: made.copy(),
        )
        slot = IPv4Address._ip
        for change in changes:
            for read in reads:
                made, busy = SortedMap({IPv4Address(at): at for at in range(40)}), []

                def number(address, made=made, busy=busy, change=change):
                    if not busy and len(made) and type(next(iter(made))) is IPv4Address:
                        busy.append(1)
                        change(made)
                    return slot.__get__(address)

                IPv4Address._ip = property(number, slot.__set__)
                try:
                    read(made, IPv4Address(7))
                except (RuntimeError, TypeError, KeyError):
                    pass
                finally:
                    IPv4Address._ip = slot
                self.assertEqual(len(list(made)), len(made))
                for key in made:
                    made[key] = "after"
                self.assertEqual(set(made.values()), {"after"} if len(made) else set())


if __name__ == "__main__":
    unittest.main()
