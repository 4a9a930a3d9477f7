"""A SortedSet beside a set and its sorted keys: what each call returns or raises, and the keys afterwards."""

import collections.abc
import copy
import gc
import pickle
import random
import sys
import threading
import unittest
from bisect import bisect_left, bisect_right

from test_keys import KINDS
from test_random import any_bytes, any_int, any_str, outcome
from verified_art import SortedMap, SortedSet

ALL_KINDS = {**KINDS, "int": any_int, "str": any_str, "bytes": any_bytes}


class Whole(unittest.TestCase):
    def assert_whole(self, ours, theirs):
        due = sorted(theirs)
        self.assertEqual((len(ours), list(ours), list(reversed(ours)), ours[:]), (len(due), due, due[::-1], due))
        for at in range(0, len(due), 1 + len(due) // 10):
            self.assertEqual((due[at] in ours, ours.index(due[at]), ours[at], ours.count(due[at])), (True, at, due[at], 1))


class Beside(Whole):
    def test_one_key_after_another(self):
        for seed, (name, any_key) in enumerate(ALL_KINDS.items()):
            choose, ours, theirs = random.Random(seed), SortedSet(), set()
            for _ in range(1500):
                key = any_key(choose)
                match choose.randrange(8):
                    case 0 | 1 | 2:
                        self.assertIsNone(ours.add(key))
                        theirs.add(key)
                    case 3:
                        self.assertEqual(key in ours, key in theirs)
                    case 4:
                        self.assertIsNone(ours.discard(key))
                        theirs.discard(key)
                    case 5:
                        self.assertEqual(outcome(lambda: ours.remove(key)), outcome(lambda: theirs.remove(key)))
                    case 6:
                        due, at = sorted(theirs), choose.randrange(-4, 4)
                        self.assertEqual(outcome(lambda: ours[at]), outcome(lambda: due[at]))
                        self.assertEqual((ours.bisect_left(key), ours.bisect(key)), (bisect_left(due, key), bisect_right(due, key)))
                        self.assertEqual(list(ours.irange(key)), [it for it in due if it >= key])
                        self.assertEqual(list(ours.islice(at, reverse=True)), due[at:][::-1])
                    case _:
                        if theirs and choose.random() < 0.3:
                            due, at = sorted(theirs), choose.randrange(-len(theirs), len(theirs))
                            self.assertEqual(ours.pop(at), due[at])
                            theirs.remove(due[at])
                self.assertEqual(len(ours), len(theirs), name)
            self.assert_whole(ours, theirs)

    def test_many_at_once(self):
        choose = random.Random(8)
        for any_key in ALL_KINDS.values():
            for before in (0, 10, 300):
                keys = [any_key(choose) for _ in range(before)]
                more = [any_key(choose) for _ in range(200)]
                for kind in (list, tuple, set, frozenset, iter, dict.fromkeys, SortedSet, SortedMap.fromkeys, lambda it: (key for key in it)):
                    ours = SortedSet(kind(keys))
                    self.assertIsNone(ours.update(kind(more), kind(keys), kind([])))
                    self.assert_whole(ours, {*keys, *more})

    def sets(self):
        """Pairs of sets and what they are beside."""
        choose = random.Random(9)
        for any_key in ALL_KINDS.values():
            for size in (0, 1, 5, 60):
                keys = [any_key(choose) for _ in range(size)]
                for other in (keys, keys[::2], [*keys[::2], *(any_key(choose) for _ in range(30))], []):
                    yield SortedSet(keys), set(keys), set(other)

    KINDS_OF_OTHER = (SortedSet, set, frozenset, list, iter, lambda it: dict.fromkeys(it).keys())

    def test_methods(self):
        calls = ("union", "intersection", "difference", "symmetric_difference", "isdisjoint", "issubset", "issuperset")
        for ours, theirs, other in self.sets():
            for kind in self.KINDS_OF_OTHER:
                for call in calls:
                    found, due = getattr(ours, call)(kind(other)), getattr(theirs, call)(other)
                    if isinstance(due, set):
                        self.assertIsInstance(found, SortedSet)
                        self.assertIsNot(found, ours)
                        self.assertEqual((list(found), list(ours)), (sorted(due), sorted(theirs)))
                    else:
                        self.assertIs(found, due, (call, ours, other))
                for call in ("update", "intersection_update", "difference_update", "symmetric_difference_update"):
                    changed, due = ours.copy(), theirs.copy()
                    self.assertIsNone(getattr(changed, call)(kind(other)))
                    getattr(due, call)(other)
                    self.assert_whole(changed, due)

    def test_methods_of_several(self):
        ours, theirs = SortedSet(range(20)), set(range(20))
        for others in ((), (range(5),), (range(0, 20, 2), range(0, 20, 3)), ([30], range(3), set(range(9))), (SortedSet(range(4, 9)), [5, 4])):
            for call in ("union", "intersection", "difference"):
                found = getattr(ours, call)(*others)
                self.assertIsNot(found, ours)
                self.assert_whole(found, getattr(theirs, call)(*others))
            for call in ("update", "intersection_update", "difference_update"):
                changed, due = ours.copy(), theirs.copy()
                getattr(changed, call)(*others), getattr(due, call)(*others)
                self.assert_whole(changed, due)

    def test_operators(self):
        operators = {
            "|": lambda one, other: one | other,
            "&": lambda one, other: one & other,
            "-": lambda one, other: one - other,
            "^": lambda one, other: one ^ other,
        }
        comparisons = [
            lambda one, other: one == other,
            lambda one, other: one != other,
            lambda one, other: one <= other,
            lambda one, other: one < other,
            lambda one, other: one >= other,
            lambda one, other: one > other,
        ]
        for ours, theirs, other in self.sets():
            for kind in (SortedSet, set, frozenset, lambda it: dict.fromkeys(it).keys()):
                for name, call in operators.items():
                    # Of the keys of a dict Python makes a set.
                    for found, due in ((call(ours, kind(other)), call(theirs, other)), (call(kind(other), ours), call(other, theirs))):
                        self.assertEqual(set(found), due, name)
                    self.assertIsInstance(call(ours, kind(other)), SortedSet)
                for call in comparisons:
                    self.assertEqual(call(ours, kind(other)), call(theirs, other))
                    self.assertEqual(call(kind(other), ours), call(other, theirs))
                for change in ("__ior__", "__iand__", "__isub__", "__ixor__"):
                    changed, due = ours.copy(), theirs.copy()
                    self.assertIs(getattr(changed, change)(kind(other)), changed)
                    getattr(due, change)(other)
                    self.assert_whole(changed, due)

    def test_a_set_with_itself(self):
        for change, due in (("update", [1, 2]), ("intersection_update", [1, 2]), ("difference_update", []), ("symmetric_difference_update", [])):
            ours = SortedSet([1, 2])
            getattr(ours, change)(ours)
            self.assertEqual(list(ours), due)
        ours = SortedSet([1, 2])
        ours -= ours
        self.assertEqual((len(ours), ours <= ours, ours == ours), (0, True, True))


class Forms(Whole):
    def test_sets_of_two_forms_have_no_key_in_common(self):
        ours = SortedSet([1, 2])
        for other in (SortedSet("ab"), {"a", "b"}, SortedSet([("a", 1)]), {None, object()}, SortedSet([b"a"])):
            self.assertEqual((ours & other, ours - other, ours.isdisjoint(other)), (SortedSet(), ours, True))
            self.assertEqual((ours == other, ours <= other, ours >= other, ours < other, other <= ours), (False,) * 5)
            for call in (lambda: ours | other, lambda: ours ^ other):
                self.assertRaises(TypeError, call)
            self.assertEqual(ours, {1, 2})
        # As of Python's sets, where 1 and 1.0 are one key.
        self.assertEqual((ours & {1.0}, ours & SortedSet([1.0, 3.0]), ours == SortedSet([1.0, 2.0])), ({1}, {1}, True))

    def test_what_is_no_set(self):
        ours = SortedSet([1, 2])
        for other in ([1], "a", 5, None):
            for name in ("or", "and", "sub", "xor", "ior", "iand", "isub", "ixor", "le", "lt", "ge", "gt", "ror", "rand", "rsub", "rxor"):
                self.assertIs(getattr(ours, f"__{name}__")(other), NotImplemented)
            self.assertNotEqual(ours, other)
        for wrong in (5, None, 1.5):
            self.assertRaisesRegex(TypeError, f"^a SortedSet is made of .*{type(wrong).__name__}$", SortedSet, wrong)
            self.assertRaises(TypeError, ours.update, wrong)
            self.assertRaises(TypeError, ours.intersection, wrong)
        self.assertRaises(TypeError, hash, ours)
        self.assertRaises(TypeError, SortedSet, [1], [2])

    def test_those_before_a_refused_one_are_there(self):
        def keys():
            yield from (3, 1)
            raise ZeroDivisionError

        ours = SortedSet([2])
        self.assertRaises(ZeroDivisionError, ours.update, keys())
        self.assert_whole(ours, {1, 2, 3})
        for refused, error in (("a", TypeError), (2**63, OverflowError), (None, TypeError)):
            ours = SortedSet([2])
            self.assertRaises(error, ours.update, [3, 1, refused, 5])
            self.assert_whole(ours, {1, 2, 3})
            self.assertRaises(error, ours.update, [*range(100), refused, 500])
            self.assert_whole(ours, set(range(100)))

    def test_it_is_a_set_and_a_sequence(self):
        ours = SortedSet([1, 2, 3])
        for kind in (collections.abc.MutableSet, collections.abc.Set, collections.abc.Sequence, collections.abc.Reversible):
            self.assertIsInstance(ours, kind)
        match ours:
            case [first, *_]:
                self.assertEqual(first, 1)
        self.assertEqual((min(ours), max(ours), sum(ours), ours[-1], ours[::-2]), (1, 3, 6, 3, [3, 1]))

    def test_pop_and_index(self):
        ours = SortedSet("gold")
        self.assertEqual((ours.pop(), ours.pop(0), ours.pop(-1), ours.pop(index=0)), ("o", "d", "l", "g"))
        self.assertRaises(KeyError, ours.pop)
        self.assertRaises(IndexError, ours.pop, 0)
        ours.update("silver")
        for index in (6, -7, 2**70):
            self.assertRaises(IndexError, ours.pop, index)
            self.assertRaises(IndexError, ours.__getitem__, index)
            self.assertRaises(IndexError, ours.__delitem__, index)
        for index in ("0", 1.0, None):
            self.assertRaises(TypeError, ours.__getitem__, index)
            self.assertRaises(TypeError, ours.pop, index)
        self.assertRaises(ValueError, ours.index, "x")
        self.assertRaises(ValueError, ours.index, "e", 1)
        del ours[0], ours[1:3]
        self.assertEqual(ours, {"i", "s", "v"})
        self.assertRaises(KeyError, ours.remove, "x")

    def test_prefixes(self):
        ours = SortedSet(["tin", "titanium", "gold", "tin ore"])
        self.assertEqual((list(ours.prefix("tin")), list(ours.prefix("ti", reverse=True)), ours.count_prefix("ti")), (["tin", "tin ore"], ["titanium", "tin ore", "tin"], 3))

    def test_copies(self):
        class Named(SortedSet):
            pass

        made = Named([b"tin", b""])
        made.name = "metals"
        for other in (copy.copy(made), copy.deepcopy(made), made.copy(), pickle.loads(pickle.dumps(SortedSet(made)))):
            self.assertEqual((other, list(other)), ({b"tin", b""}, [b"", b"tin"]))
        self.assertEqual((type(copy.copy(made)), copy.copy(made).name, type(made | {b"a"})), (Named, "metals", Named))
        self.assertEqual((repr(SortedSet("ab")), repr(SortedSet()), repr(made)), ("SortedSet(['a', 'b'])", "SortedSet([])", "Named([b'', b'tin'])"))

    def test_a_subclass_adds_each_itself(self):
        class Lower(SortedSet):
            def add(self, key):
                super().add(key.lower())

        ours = Lower(["A", "b"])
        ours.update(["C"], "D")
        self.assertEqual(ours, set("abcd"))


class Entries(Whole):
    def test_no_reference_is_kept_or_lost(self):
        key, other = "".join(["a", "key"]), "".join(["an", "other"])
        held = [sys.getrefcount(it) for it in (key, other, None)]
        ours = SortedSet()
        for _ in range(300):
            ours.add(key), ours.add(key), ours.update([key, other] * 20), ours.discard(other), ours.discard(other)
            list(ours), ours[0], ours[:], ours.index(key), ours.copy(), ours | {other}, ours & {key, other}, ours ^ SortedSet([other])
            ours.pop(), ours.add(key), ours.remove(key), ours.update([other]), ours.clear()
            self.assertRaises(TypeError, ours.__contains__, None)
            self.assertRaises(TypeError, ours.update, [key, None])
            ours.clear()
        gc.collect()
        self.assertEqual([sys.getrefcount(it) for it in (key, other)], held[:2])
        if sys.version_info < (3, 12):  # Later ones count no references to None.
            self.assertLess(sys.getrefcount(None) - held[2], 200)

    def test_a_key_added_or_removed_ends_an_iteration(self):
        for change in (lambda ours: ours.add(1000), SortedSet.pop, SortedSet.clear, lambda ours: ours.update(range(500))):
            for walk in (iter, reversed, SortedSet.irange, SortedSet.islice):
                ours = SortedSet(range(100))
                steps = walk(ours)
                next(steps)
                change(ours)
                self.assertRaises(RuntimeError, next, steps)

    def test_keys_of_another_set_that_change_this_one_when_they_are_compared(self):
        class Odd:
            def __init__(self, ours, change):
                self.ours, self.change = ours, change

            def __hash__(self):
                return 7

            def __eq__(self, other):
                self.change(self.ours)
                return False

        for change in (SortedSet.clear, lambda ours: ours.update(range(300)), lambda ours: ours.discard(7)):
            for call in ("intersection", "difference", "issubset", "issuperset", "isdisjoint", "symmetric_difference"):
                ours = SortedSet(range(200))
                with self.assertRaises((RuntimeError, TypeError)):
                    getattr(ours, call)({Odd(ours, change)})
                    raise RuntimeError
                self.assert_whole(ours, set(ours))

    def test_the_base_has_no_objects_of_its_own(self):
        self.assertRaisesRegex(TypeError, "no objects of its own", SortedSet.__base__)

    def test_a_cycle_is_collected(self):
        class Named(SortedSet):
            pass

        gc.collect()
        for _ in range(3):
            ours = Named([1])
            ours.itself, ours.walk = ours, iter(ours)
        del ours
        self.assertGreaterEqual(gc.collect(), 3)

    def test_threads_leave_the_set_whole(self):
        self.addCleanup(sys.setswitchinterval, sys.getswitchinterval())
        sys.setswitchinterval(1e-6)
        ours, faults = SortedSet(), []

        def change(mine):
            choose, due = random.Random(mine), set()
            try:
                for _ in range(1500):
                    key = 4 * choose.randrange(100) + mine
                    if choose.random() < 0.6:
                        ours.add(key), due.add(key)
                    else:
                        ours.discard(key), due.discard(key)
                    ours.update([key for key in due if key % 8 == mine])
                    if len(ours) > 5:
                        ours[choose.randrange(5)]
                if {key for key in ours.copy() if key % 4 == mine} != due:
                    raise AssertionError(mine)
            except BaseException as fault:
                faults.append(fault)

        threads = [threading.Thread(target=change, args=(mine,)) for mine in range(4)]
        for thread in threads:
            thread.start()
        for thread in threads:
            thread.join()
        self.assertEqual(faults, [])
        self.assert_whole(ours, set(ours))


if __name__ == "__main__":
    unittest.main()
