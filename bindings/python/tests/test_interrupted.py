"""A signal handler that raises, as that of Ctrl-C does, in the middle of calls: each is done or not, and what is left is whole.

INTERRUPTIONS says how many times a map, and how many times a table, is interrupted."""

import ipaddress
import os
import random
import signal
import unittest

from verified_art import RouteTable, SortedMap

INTERRUPTIONS = int(os.environ.get("INTERRUPTIONS", 1000))


class Interrupted(BaseException):
    """As KeyboardInterrupt, but of these tests alone."""


def interrupt(_signal, _frame):
    raise Interrupted


@unittest.skipUnless(hasattr(signal, "setitimer"), "there is no timer that sends a signal")
class Signals(unittest.TestCase):
    """Calls that change something, each beside the same one of a dict, until a signal comes. A call that is made twice changes
    no more than one that is made once: so what is there then is what the dict has, or has with the last call."""

    def setUp(self):
        self.addCleanup(signal.signal, signal.SIGALRM, signal.signal(signal.SIGALRM, interrupt))
        self.addCleanup(signal.setitimer, signal.ITIMER_REAL, 0)
        self.choose = random.Random(13)

    def until_interrupted(self, ours, theirs, calls):
        """Makes the calls again and again, until the signal comes. Returns the last one, if there was any."""
        change = None
        try:
            signal.setitimer(signal.ITIMER_REAL, self.choose.uniform(2e-6, 2e-4))
            # So many are not made before it comes.
            for change, look in calls * 1000:
                look(ours)
                change(ours)
                change(theirs)
        except Interrupted:
            pass
        return change

    def run_interrupted(self, ours, theirs, calls_of, assert_whole):
        for _ in range(INTERRUPTIONS):
            last = self.until_interrupted(ours, theirs, calls_of())
            if last and sorted(ours.items()) != sorted(theirs.items()):
                last(theirs)
            assert_whole(ours, theirs)


class Maps(Signals):
    def calls_of(self, any_key):
        """Some calls, of which each changes a map, and one of which looks at it."""
        keys = [any_key() for _ in range(20)]
        pairs = [(key, self.choose.random()) for key in keys]
        few = pairs[:4]
        changes = [
            lambda it: it.__setitem__(*few[0]),
            lambda it: it.update([few[1]]),
            lambda it: it.pop(few[2][0], None),
            lambda it: it.pop(few[3][0]) if few[3][0] in it else None,
            lambda it: it.setdefault(*pairs[4]),
            lambda it: it.__delitem__(keys[5]) if keys[5] in it else None,
            *[lambda it: it.clear()] * (self.choose.random() < 0.1),
        ]
        low, high = sorted(keys[:2])
        looks = [
            list,
            lambda it: list(it.items()),
            lambda it: list(it.irange(low, high)),
            lambda it: list(reversed(it)),
            lambda it: (it.get(low), it.bisect(high), high in it),
            lambda it: it.copy(),
            lambda it: it.peekitem() if it else None,
        ]
        return [(self.choose.choice(changes), self.choose.choice(looks)) for _ in range(10)]

    def assert_whole(self, ours, theirs):
        due = sorted(theirs.items())
        keys = [key for key, _ in due]
        self.assertEqual((len(ours), list(ours.items())), (len(due), due))
        self.assertEqual((list(ours), list(reversed(ours))), (keys, keys[::-1]))
        for at in range(0, len(keys), 7):
            self.assertEqual((ours[keys[at]], ours.bisect_left(keys[at])), (theirs[keys[at]], at))

    def test_a_map_of_numbers(self):
        self.run_interrupted(SortedMap(), {}, lambda: self.calls_of(lambda: self.choose.randrange(60)), self.assert_whole)

    def test_a_map_of_bytes(self):
        def some_bytes():
            return bytes(self.choose.choice(b"\0ab\xff") for _ in range(self.choose.choice((0, 1, 2, 3, 300))))

        self.run_interrupted(SortedMap(), {}, lambda: self.calls_of(some_bytes), self.assert_whole)

    def test_an_update_that_is_interrupted_sets_the_first_ones(self):
        for _ in range(INTERRUPTIONS // 10):
            pairs = [(self.choose.randrange(500), self.choose.random()) for _ in range(300)]
            ours, before = SortedMap({7: 7}), {7: 7}
            try:
                signal.setitimer(signal.ITIMER_REAL, self.choose.uniform(2e-6, 2e-4))
                for _ in range(1000):
                    ours.clear()
                    ours.update(before)
                    ours.update((key, value) for key, value in pairs)
            except Interrupted:
                pass
            firsts = [{}, before, *({**before, **dict(pairs[:count])} for count in range(len(pairs) + 1))]
            due = next(it for it in firsts if len(it) == len(ours) and it == dict(ours.items()))
            self.assert_whole(ours, due)


class Tables(Signals):
    def some_network(self):
        return f"10.{self.choose.randrange(8)}.0.0/{self.choose.choice((13, 14, 15, 16, 24))}"

    def calls_of(self):
        networks = [str(ipaddress.ip_network(self.some_network(), strict=False)) for _ in range(5)]
        value = self.choose.random()
        changes = [
            lambda it: it.__setitem__(networks[0], value),
            lambda it: it.update({networks[1]: value}),
            lambda it: it.pop(networks[2], None),
            *[lambda it: it.clear()] * (self.choose.random() < 0.1),
        ]
        looks = [
            lambda it: it.get("10.3.0.1"),
            lambda it: it.get_many(["10.1.0.1"] * 9),
            lambda it: it.items(),
            lambda it: it.children("10.0.0.0/8"),
            lambda it: (it.parent(networks[3]), it.get_key(networks[4])),
        ]
        return [(self.choose.choice(changes), self.choose.choice(looks)) for _ in range(10)]

    def assert_whole(self, ours, theirs):
        due = sorted(theirs.items(), key=lambda item: ipaddress.ip_network(item[0]))
        self.assertEqual((len(ours), ours.items()), (len(due), due))
        for network in theirs:
            self.assertEqual((ours[network], ours.has_key(network)), (theirs[network], True))

    def test_a_table(self):
        self.run_interrupted(RouteTable(), {}, self.calls_of, self.assert_whole)


if __name__ == "__main__":
    unittest.main()
