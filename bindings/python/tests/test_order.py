"""The calls that count entries, as sortedcontainers has them: beside a list that is kept sorted by bisect."""

import random
import unittest
from bisect import bisect_left, bisect_right

from test_random import any_bytes, any_int, any_str
from verified_art import SortedMap

OUTSIDE = (None, -(2**70), -1000, 1000, 2**70)


def outcome(call):
    """What a call returns, or the type of what it raises."""
    try:
        return call()
    except (IndexError, KeyError, ValueError) as error:
        return type(error)


class BesideAList(unittest.TestCase):
    def setUp(self):
        self.choose = random.Random(5)

    def maps(self):
        """Maps of each type, with their sorted keys."""
        for any_key in (any_int, any_bytes, any_str):
            for size in (0, 1, 2, 7, 40):
                keys = [any_key(self.choose) for _ in range(size)]
                yield any_key, SortedMap((key, str(key)) for key in keys), sorted(set(keys))

    def bounds(self, keys):
        return [*OUTSIDE, *(self.choose.randrange(-len(keys) - 2, len(keys) + 3) for _ in range(3))]

    def test_islice(self):
        for _, made, keys in self.maps():
            for start in self.bounds(keys):
                for stop in self.bounds(keys):
                    due = keys[start:stop]
                    self.assertEqual(list(made.islice(start, stop)), due)
                    self.assertEqual(list(made.islice(start, stop, reverse=True)), due[::-1])

    def test_bisect(self):
        for any_key, made, keys in self.maps():
            for key in keys + [any_key(self.choose) for _ in range(50)]:
                self.assertEqual(made.bisect_left(key), bisect_left(keys, key))
                self.assertEqual((made.bisect_right(key), made.bisect(key)), (bisect_right(keys, key),) * 2)

    def test_index(self):
        for any_key, made, keys in self.maps():
            for key in keys[:20] + [any_key(self.choose) for _ in range(20)]:
                self.assertEqual(outcome(lambda: made.index(key)), outcome(lambda: keys.index(key)))
                for start in self.bounds(keys):
                    for stop in self.bounds(keys)[:8]:
                        due = outcome(lambda: keys.index(key, *slice(start, stop).indices(len(keys))[:2]))
                        self.assertEqual(outcome(lambda: made.index(key, start, stop)), due)
                        self.assertEqual(outcome(lambda: made.keys().index(key, start, stop)), due)
                        self.assertEqual(outcome(lambda: made.values().index(str(key), start, stop)), due)
                        self.assertEqual(outcome(lambda: made.items().index((key, str(key)), start, stop)), due)

    def test_views_by_index(self):
        for _, made, keys in self.maps():
            values = list(map(str, keys))
            views = ((made.keys(), keys), (made.values(), values), (made.items(), list(zip(keys, values))))
            for view, due in views:
                for at in range(-len(due) - 2, len(due) + 2):
                    self.assertEqual(outcome(lambda: view[at]), outcome(lambda: due[at]))
                for _ in range(50):
                    start, stop, step = self.choose.choice(self.bounds(keys)), self.choose.choice(self.bounds(keys)), self.choose.choice((None, 1, 2, 7, -1, -3))
                    self.assertEqual(view[start:stop:step], due[start:stop:step])
                self.assertEqual((list(view), list(reversed(view)), len(view)), (due, due[::-1], len(due)))
                self.assertRaises(TypeError, view.__getitem__, "1")
                self.assertRaises(ValueError, view.__getitem__, slice(None, None, 0))
                for it in due[:5]:
                    self.assertEqual((it in view, view.count(it)), (True, 1))
                self.assertEqual(view.count(object()) if due is values else 0, 0)

    def test_views_are_those_of_a_dict(self):
        made, due = SortedMap({"a": 1, "b": 2}), {"a": 1, "b": 2}
        self.assertEqual((made.keys(), made.items()), (due.keys(), due.items()))
        self.assertEqual((made.keys() | {"c"}, made.items() & {("a", 1)}), ({"a", "b", "c"}, {("a", 1)}))
        self.assertNotIn(("a", 2), made.items())
        self.assertNotIn(("c", 2), made.items())

    def test_entries_are_removed_by_index(self):
        for _, made, keys in self.maps():
            self.assertEqual(outcome(lambda: made.popitem(len(keys))), IndexError if keys else KeyError)
            while keys:
                at = self.choose.randrange(-len(keys), len(keys))
                key = keys.pop(at)
                self.assertEqual(made.popitem(at), (key, str(key)))
                self.assertEqual(made.peekitem(0)[0] if keys else None, keys[0] if keys else None)
            self.assertRaises(KeyError, made.popitem)
            self.assertEqual(len(made), 0)

    def test_entries_are_deleted_by_a_view(self):
        for _, made, keys in self.maps():
            for index in (slice(1, 3), slice(None, None, 3), *((0, -1) if len(keys) > 10 else ())):
                del keys[index]
                del made.keys()[index]
                self.assertEqual(list(made), keys)
            self.assertRaises(IndexError, made.values().__delitem__, len(keys))

    def test_an_index_is_a_number(self):
        made = SortedMap(a=1)
        for index in ("0", 1.0, None):
            self.assertRaises(TypeError, made.peekitem, index)
            self.assertRaises(TypeError, made.popitem, index)
        self.assertEqual(made, {"a": 1})


if __name__ == "__main__":
    unittest.main()
