"""Random calls beside a dict and its sorted keys: what each returns or raises, and the entries afterwards."""

import random
import unittest

from verified_art import SortedMap

CALLS = 10_000


def any_int(choose):
    return choose.choice((1, -1)) * choose.getrandbits(choose.choice((3, 8, 16, 62)))


def any_bytes(choose):
    return bytes(choose.choice(b"\0\1ab\xff") for _ in range(choose.choice((0, 1, 2, 3, 4, 5, 90))))


def any_str(choose):
    return "".join(choose.choice("\0aä\ud800\uffff\U0001f600") for _ in range(choose.randrange(5)))


def outcome(call):
    """What a call returns, or the type of what it raises."""
    try:
        return call()
    except (KeyError, IndexError) as error:
        return type(error)


class Beside(unittest.TestCase):
    def run_beside(self, any_key, seed, calls=CALLS):
        choose, ours, theirs = random.Random(seed), SortedMap(), {}
        for number in range(calls):
            key, other = any_key(choose), any_key(choose)
            match choose.randrange(12):
                case 0 | 1 | 2 | 3:
                    ours[key] = theirs[key] = number
                case 4:
                    self.assertEqual(outcome(lambda: ours[key]), outcome(lambda: theirs[key]))
                case 5:
                    self.assertEqual((key in ours, ours.get(key, -1)), (key in theirs, theirs.get(key, -1)))
                case 6:
                    key = min((it for it in theirs if it >= key), default=key)
                    self.assertEqual(outcome(lambda: ours.pop(key)), outcome(lambda: theirs.pop(key)))
                case 7:
                    self.assertEqual(outcome(lambda: ours.__delitem__(key)), outcome(lambda: theirs.__delitem__(key)))
                case 8:
                    self.assertEqual(ours.setdefault(key, number), theirs.setdefault(key, number))
                case 9:
                    low, high = min(key, other), max(key, other)
                    due = sorted(it for it in theirs if low <= it < high)
                    reverse = choose.random() < 0.5
                    found = list(ours.irange(low, high, (True, False), reverse))
                    self.assertEqual(found, due[::-1] if reverse else due)
                case 10:
                    at = choose.randrange(-4, 4)
                    due = outcome(lambda: (sorted(theirs)[at], theirs[sorted(theirs)[at]]))
                    self.assertEqual(outcome(lambda: ours.peekitem(at)), due)
                case _:
                    if choose.random() < 0.1 and theirs:
                        last = choose.random() < 0.5
                        due = max(theirs) if last else min(theirs)
                        self.assertEqual(ours.popitem(last=last), (due, theirs.pop(due)))
                    elif choose.random() < 0.002:
                        ours.clear()
                        theirs.clear()
            self.assertEqual(len(ours), len(theirs))
        self.assertEqual(list(ours.items()), sorted(theirs.items()))
        self.assertEqual(list(reversed(ours.items())), sorted(theirs.items(), reverse=True))
        self.assertEqual(ours, theirs)

    def test_ints(self):
        self.run_beside(any_int, 1)

    def test_bytes(self):
        self.run_beside(any_bytes, 2)

    def test_strs(self):
        self.run_beside(any_str, 3)

    def test_prefixes(self):
        choose = random.Random(4)
        ours = SortedMap.fromkeys(any_bytes(choose) for _ in range(500))
        for _ in range(500):
            prefix = any_bytes(choose)[: choose.randrange(4)]
            due = [key for key in ours if key.startswith(prefix)]
            self.assertEqual(list(ours.prefix(prefix)), due)
            self.assertEqual(list(ours.prefix(prefix, reverse=True)), due[::-1])
            self.assertEqual(ours.count_prefix(prefix), len(due))


if __name__ == "__main__":
    unittest.main()
