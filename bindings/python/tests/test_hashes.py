"""Look-ups by the hash of their keys, and maps and sets that are compared."""

import gc
import random
import sys
import unittest

import test_entries
from test_entries import Value, set_nomemory
from verified_art import SortedMap, SortedSet

# What the hash of an int is multiplied by.
FACTOR = 0x9E3779B97F4A7C15


def with_one_slot(count):
    """So many ints whose products have the same upper bits, and so begin their search at one slot."""
    inverse, found, low = pow(FACTOR, -1, 2**64), [], 0
    while len(found) < count:
        key = low * inverse % 2**64
        if key < 2**61 - 1:
            found.append(key)
        low += 1
    return found


class Hashes(test_entries.Whole):
    """Look-ups, after so many that a map has the hashes of its keys."""

    def test_a_key_that_went_is_found_no_more(self):
        choose = random.Random(12)
        of_kinds = (
            lambda number: f"key {number}",
            lambda number: number * 2**31 - 2**40,
            lambda number: number / 3 - 50,
            lambda number: b"%d" % number,
            lambda number: (number, "a"),
        )
        for key_of in of_kinds:
            made, due = SortedMap(), {}
            for turn in range(60):
                for _ in range(30):
                    number = choose.randrange(400)
                    made[key_of(number)] = due[key_of(number)] = turn
                for _ in range(3):
                    for number in range(400):
                        self.assertEqual((made.get(key_of(number)), key_of(number) in made), (due.get(key_of(number)), key_of(number) in due))
                for number in choose.sample(range(400), 60):
                    self.assertEqual(made.pop(key_of(number), None), due.pop(key_of(number), None))
                if turn % 20 == 19:
                    made.update({key_of(number): -turn for number in range(0, 400, 3)})
                    due.update({key_of(number): -turn for number in range(0, 400, 3)})
                if turn == 50:
                    made.clear(), due.clear()
            self.assert_whole(made, due)

    def test_an_equal_key_of_a_subclass_is_found(self):
        class Odd(str):
            def __hash__(self):
                return 5

            def __eq__(self, other):
                raise AssertionError

        made = SortedMap({"tin": 1, "gold": 2})
        for _ in range(200):
            self.assertEqual((made["tin"], made["".join("tin")], made[Odd("tin")], made.get(Odd("iron"))), (1, 1, 1, None))

    def test_a_map_that_grows_and_shrinks(self):
        choose, made, due = random.Random(13), SortedMap(), {}
        for turn in range(12):
            for key in choose.sample(range(100_000), 2000):
                made[key] = due[key] = turn
                self.assertEqual(made.get(key + 1), due.get(key + 1))
            for key in choose.sample(sorted(due), len(due) // (1 + turn % 3)):
                del made[key], due[key]
                self.assertNotIn(key, made)
            self.assert_whole(made, due)
            self.assertEqual([made.get(key) for key in range(100_000)], [due.get(key) for key in range(100_000)])

    def test_keys_whose_hashes_are_alike(self):
        keys = with_one_slot(3000)
        for few in (900, 3000):
            made, due = SortedMap.fromkeys(keys[:few:2], 1), dict.fromkeys(keys[:few:2], 1)
            for turn in range(2):
                self.assertEqual([made.get(key) for key in keys[:few]], [due.get(key) for key in keys[:few]])
                for key in keys[1:few:2]:
                    made[key] = due[key] = turn
                self.assertEqual([made.get(key) for key in keys], [due.get(key) for key in keys])
                for key in keys[1:few:4]:
                    self.assertEqual(made.pop(key), due.pop(key))
            self.assert_whole(made, due)

    @unittest.skipUnless(set_nomemory, "Python's module for tests of its interface is absent")
    def test_refused_memory_for_hashes_is_no_error(self):
        # So few that a number below them is an object already.
        keys = [f"key {number}" for number in range(200)]
        for refused in range(3):
            made, found, numbers = SortedMap.fromkeys(keys[::2], 1), [None] * len(keys), iter(range(len(keys)))
            before = sys.getsizeof(made)
            set_nomemory(0, refused)
            try:
                for at in numbers:
                    found[at] = keys[at] in made
            finally:
                test_entries.remove_mem_hooks()
            self.assertEqual(found, [True, False] * 100)
            self.assertEqual(sys.getsizeof(made) == before, refused == 0)
            self.assertEqual([key in made for key in keys], found)

    @unittest.skipUnless(set_nomemory, "Python's module for tests of its interface is absent")
    def test_refused_memory_where_hashes_need_more(self):
        for count in (*range(30, 40), 200):
            due = {f"key {number}": number for number in range(count)}
            made, texts = SortedMap(due), ("new", "newer")
            for key in due:
                made[key]
            for first in range(12):
                for refused in (1, 100):
                    set_nomemory(first, first + refused)
                    try:
                        made["new"] = 1
                    except MemoryError:
                        pass
                    finally:
                        test_entries.remove_mem_hooks()
                    self.assertEqual([text in made for text in texts], [len(made) > count, False])
                    made.pop("new", None)
                    self.assert_whole(made, due)
                    self.assertEqual([made[key] for key in due], list(due.values()))

    def test_hashes_are_counted_as_memory(self):
        made = SortedMap.fromkeys(range(1000))
        before = sys.getsizeof(made)
        for _ in range(3):
            for key in range(1000):
                made[key]
        self.assertGreater(sys.getsizeof(made), before)
        made.clear()
        self.assertLess(sys.getsizeof(made), before)

    def test_references_stay_as_they_are(self):
        keys, value = ["".join(("key ", str(number))) for number in range(200)], Value()
        made = SortedMap.fromkeys(keys, value)
        held = [sys.getrefcount(it) for it in (keys[0], keys[-1], value)]
        for _ in range(5):
            for key in keys:
                made[key], made.get(key), key in made, made.setdefault(key, 5)
                made[key] = value
        del key
        self.assertEqual([sys.getrefcount(it) for it in (keys[0], keys[-1], value)], held)


class Comparisons(test_entries.Whole):
    def test_large_maps_are_compared_as_dicts(self):
        of_kinds = (str, lambda number: number, lambda number: number / 7, lambda number: b"%d" % number, lambda number: (number, "a"))
        for key_of in of_kinds:
            for count in (3, 100, 10_000):
                due = {key_of(number): number for number in range(count)}
                last = key_of(count - 1)
                less = {key: value for key, value in due.items() if key != last}
                others = due, {**due, last: -1}, {**due, last: Value()}, {**due, last: float(count - 1)}, {**less, key_of(count): 1}, {**less, "more": 1}
                for looked_up in (False, True):
                    made = SortedMap(due)
                    for key in due if looked_up else ():
                        made[key]
                    for other in others:
                        self.assertIs(made == other, due == other)
                        self.assertIs(other == made, due == other)
                    for other in (SortedMap(due), SortedMap({**due, last: -1}), SortedMap({**less, key_of(count): 1}), SortedMap()):
                        self.assertIs(made == other, due == dict(other))

    def test_sets_are_compared_as_those_of_python(self):
        of_kinds = (str, lambda number: number, lambda number: number / 7, lambda number: b"%d" % number, lambda number: (number, "a"))
        for key_of in of_kinds:
            for count in (3, 100, 10_000):
                due = {key_of(number) for number in range(count)}
                others = [{key_of(number) for number in range(*it)} for it in ((count,), (count + 1,), (1, count), (1, count + 1), (count, 2 * count), (0,), (2,))]
                others += [due | {"more"}, {"more"}, (due - {key_of(0)}) | {"more"}, {0.0}, {True}, {0.0, 1.0}]
                for other in others:
                    for looked_up in (False, True):
                        made = SortedSet(due)
                        for key in due if looked_up else ():
                            self.assertIn(key, made)
                        for kind in (set, frozenset) + ((SortedSet,) if len(set(map(type, other))) < 2 else ()):
                            its = kind(other)
                            found = made == its, made <= its, made < its, made >= its, made > its, made.isdisjoint(its)
                            self.assertEqual(found, (due == other, due <= other, due < other, due >= other, due > other, due.isdisjoint(other)))

    def test_a_map_is_compared_as_a_dict(self):
        cases = [{}, {1: 1}, {1: 2}, {1: 1, 2: 2}, {1.0: 1, 2.0: 2}, {"a": 1}, {True: 1, 2: 2}]
        for one in cases:
            for other in cases:
                self.assertIs(SortedMap(one) == other, one == other)
                self.assertIs(SortedMap(one) == SortedMap(other), one == other)
                self.assertIs(other != SortedMap(one), one != other)
        self.assertFalse(SortedMap() == [] or SortedMap() == set() or SortedMap({1: 1}) == 1)

    def test_a_value_that_changes_the_map_when_it_is_compared(self):
        class Changes:
            def __init__(self, change):
                self.change = change

            def __eq__(self, other):
                self.change()
                return True

        for change in (SortedMap.clear, lambda made: made.update({"x": 1}), SortedMap.popitem, lambda made: [made.pop(key) for key in list(made)]):
            made = SortedMap(a=1, c=2)
            made["b"] = Changes(lambda made=made, change=change: change(made))
            try:
                self.assertIn(made == {"a": 1, "b": 5, "c": 2}, (True, False))
            except RuntimeError:
                pass
            self.assert_whole(made, dict(made.items()))

    def test_a_value_that_changes_the_map_and_raises(self):
        class Raises:
            def __eq__(self, other):
                made.clear()
                gc.collect()
                raise ZeroDivisionError

        for count in (3, 10_000):
            for looked_up in (False, True):
                due = {number: Raises() for number in range(count)}
                made = SortedMap.fromkeys(due, 1)
                for key in due if looked_up else ():
                    made[key]
                with self.assertRaises(ZeroDivisionError):
                    made == due
                self.assert_whole(made, {})


if __name__ == "__main__":
    unittest.main()
