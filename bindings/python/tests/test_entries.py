"""What holds the entries: references, cycles, code that runs in the middle of a call, threads, refused memory."""

import gc
import ipaddress
import os
import random
import subprocess
import sys
import threading
import unittest
import weakref

from verified_art import RouteTable, SortedMap

try:
    from _testcapi import remove_mem_hooks, set_nomemory
except ImportError:
    set_nomemory = None


class Value:
    """What a weak reference can be made of."""


class OnEnd:
    """Runs a call where it is dropped."""

    def __init__(self, call):
        self.call = call

    def __del__(self):
        self.call()


class Whole(unittest.TestCase):
    def assert_whole(self, made, due):
        """The map has exactly these entries, by each of its calls."""
        keys = sorted(due)
        self.assertEqual((len(made), list(made), list(reversed(made))), (len(due), keys, keys[::-1]))
        self.assertEqual(list(made.items()), [(key, due[key]) for key in keys])
        for at in range(0, len(keys), 1 + len(keys) // 10):
            self.assertEqual((made[keys[at]], made.bisect_left(keys[at]), made.keys()[at]), (due[keys[at]], at, keys[at]))


class Many(Whole):
    def test_many_entries_come_and_go(self):
        choose = random.Random(9)
        shuffled = choose.sample(range(1500), 1500)
        orders = (range(1500), range(1499, -1, -1), shuffled)
        for added in orders:
            for removed in orders:
                made = SortedMap((key, -key) for key in added)
                self.assert_whole(made, {key: -key for key in range(1500)})
                for at, key in enumerate(removed):
                    del made[key]
                    if at in (500, 1300, 1490):
                        self.assert_whole(made, {left: -left for left in removed[at + 1 :]})
                self.assert_whole(made, {})

    def test_entries_come_where_others_went(self):
        choose = random.Random(10)
        made, due = SortedMap(), {}
        for turn in range(20):
            for _ in range(400):
                key = choose.randrange(10_000)
                made[key] = due[key] = turn
            for key in choose.sample(sorted(due), len(due) * (turn % 4) // 4):
                self.assertEqual(made.pop(key), due.pop(key))
            self.assert_whole(made, due)
            start, stop = sorted(choose.sample(range(10_000), 2))
            self.assertEqual(list(made.irange(start, stop)), [key for key in sorted(due) if start <= key <= stop])


class ManyAtOnce(Whole):
    """Entries that are set by one call: those of a list, a tuple, a dict or a map, which go to the library together."""

    KEYS = (
        ["", "a", "a\0", "b", "ä", "\ud800", "\uffff", "\U0001f600", *map(str, range(300))],
        [b"", b"\0", b"\0\xff", b"a" * 400, *(bytes([number, 255 - number]) for number in range(1, 256))],
        [-(2**63), -1, 0, 1, 2**63 - 1, *range(1000, 1400, 3)],
        [float("-inf"), -1.5, 0.0, 1e300, float("inf"), *(number / 7 for number in range(1, 100))],
        [ipaddress.IPv6Address(number << 100) for number in range(200)],
        [(word, number) for word in ("", "a", "ab", "b") for number in range(-20, 20)],
    )

    def orders(self, keys):
        choose = random.Random(11)
        return sorted(keys), sorted(keys, reverse=True), choose.sample(keys, len(keys)), choose.choices(keys, k=3 * len(keys)), keys[:1], []

    def test_they_are_those_of_a_dict(self):
        kinds = (list, tuple, dict, SortedMap, iter, lambda pairs: (pair for pair in pairs), lambda pairs: map(list, pairs))
        for keys in self.KEYS:
            for before in ({}, {keys[3]: "before", keys[0]: "before"}):
                for order in self.orders(keys):
                    pairs = [(key, at) for at, key in enumerate(order)]
                    for kind in kinds:
                        made = SortedMap(before)
                        made.update(kind(pairs))
                        due = before | dict(pairs)
                        self.assertEqual((len(made), list(made.items())), (len(due), sorted(due.items(), key=lambda item: item[0])))
                        made[keys[1]] = due[keys[1]] = "after"
                        self.assertEqual((made.pop(keys[0], None), made.pop(keys[1])), (due.pop(keys[0], None), due.pop(keys[1])))
                        self.assertEqual((len(made), list(reversed(made))), (len(due), sorted(due, reverse=True)))
                    self.assert_whole(made, due)

    def test_a_map_whose_entries_went_keeps_its_type(self):
        for keys, other in zip(self.KEYS, ([1], ["a"], [b"a"], [1], [1], [1])):
            made = SortedMap.fromkeys(keys)
            for key in keys:
                del made[key]
            self.assertRaises(TypeError, made.update, [(key, 1) for key in other])
            self.assert_whole(made, {})
            made.update([(key, str(key)) for key in sorted(keys)])
            self.assert_whole(made, {key: str(key) for key in keys})

    def test_those_before_a_refused_one_are_set(self):
        class Unread:
            def __iter__(self):
                raise ZeroDivisionError

        for first, second, third, wrong in (("a", "b", "c", 5), (b"a", b"b", b"c", "b"), (1, 2, 3, b"1"), (1, 2, 3, 2**63), (1.5, 2.5, 3.5, 1), (("a", 1), ("b", 1), ("c", 1), ("d",))):
            for bad, refusal in (((wrong, 1), (TypeError, OverflowError)), ((third, 1, 1), ValueError), (7, TypeError), (Unread(), ZeroDivisionError)):
                for before in ({}, {second: "before"}, {third: "before"}):
                    for kind in (list, tuple, iter):
                        made = SortedMap(before)
                        pairs = [(first, "first"), (second, "second"), bad, (third, "third")]
                        self.assertRaises(refusal, made.update, kind(pairs))
                        self.assert_whole(made, before | {first: "first", second: "second"})
                        self.assertRaises(refusal, made.update, kind(pairs[2:]))
                        self.assert_whole(made, before | {first: "first", second: "second"})

    def test_equal_keys_are_one(self):
        for keys in self.KEYS:
            for count in (1, 2, 128, 129):
                firsts = keys[:count]
                made, due = SortedMap([(key, at) for at, key in enumerate(firsts * 30)]), {key: at for at, key in enumerate(firsts * 30)}
                self.assert_whole(made, due)
                for key in keys:
                    made[key] = due[key] = "after"
                self.assert_whole(made, due)

    def test_a_first_key_that_is_refused_leaves_no_type(self):
        for bad in ((None, 1), (2**63, 1), ("a", 1, 2)):
            made = SortedMap()
            self.assertRaises((TypeError, OverflowError, ValueError), made.update, [bad, (5, 6)])
            made.update([(b"any", 1)])
            self.assert_whole(made, {b"any": 1})

    def test_a_subclass_sets_each_itself(self):
        class Doubled(SortedMap):
            def __setitem__(self, key, value):
                super().__setitem__(key, 2 * value)

        self.assert_whole(Doubled([(1, 1), (2, 2)], ), {1: 2, 2: 4})
        self.assert_whole(Doubled({"a": 3}, b=4), {"a": 6, "b": 8})

    def test_values_that_change_the_map_when_they_are_dropped(self):
        changes = (
            lambda made: made.clear(),
            lambda made: made.__setitem__("new", 1),
            lambda made: (made.clear(), made.__setitem__(5, 6)),
            lambda made: made.update([("a", 7), ("z", 8)]),
            lambda made: [made.pop(key) for key in list(made)],
        )
        for change in changes:
            for pairs in ([("a", 1), ("b", 2), ("c", 3)], [("c", 1), ("a", 2), ("c", 3)]):
                made = SortedMap(b=0)
                made["a"], made["c"] = (OnEnd(lambda made=made, change=change: change(made)) for _ in "ac")
                try:
                    made.update(pairs)
                except TypeError:
                    self.assertIs(type(next(iter(made))), int)
                self.assert_whole(made, dict(made.items()))

    def test_pairs_that_change_the_map_when_they_are_read(self):
        class Pair:
            def __init__(self, change):
                self.change = change

            def __iter__(self):
                self.change()
                return iter(("b", "pair"))

        for before in ({}, {"a": 1, "b": 2, "z": 3}):
            for change in (lambda made: made.clear(), lambda made: made.update({"y": 1}), lambda made: (made.clear(), made.update({5: 6}))):
                made = SortedMap(before)
                try:
                    made.update([("a", "first"), Pair(lambda made=made, change=change: change(made)), ("c", "last")])
                except TypeError:
                    self.assertEqual(list(made), [5])
                self.assert_whole(made, dict(made.items()))

    def test_no_reference_is_kept_or_lost(self):
        value = Value()
        pairs = [(key, value) for key in "abc"]
        for many in (pairs, pairs[::-1], pairs + pairs, [*pairs, (1, value)]):
            made, held = SortedMap(), sys.getrefcount(value)
            for _ in range(3):
                try:
                    made.update(many)
                except TypeError:
                    pass
            self.assertEqual(sys.getrefcount(value), held + 3)
            del made
            self.assertEqual(sys.getrefcount(value), held)


class References(Whole):
    def test_no_reference_is_kept_or_lost(self):
        key, value, default = "".join(["a", "key"]), Value(), Value()
        held = [sys.getrefcount(it) for it in (key, value, default)]
        made = SortedMap()
        for _ in range(50):
            made[key] = value
            made[key] = value
            made.get(key), made.get("other", default), made.get(key, default=default)
            list(made), list(made.values()), list(made.items()), list(made.irange(key, key)), list(made.prefix("a"))
            next(iter(made.items())), next(reversed(made)), made.peekitem(), made.keys()[0], key in made
            made.index(key), made.bisect(key), made.count_prefix("a"), list(made.islice(0, 1)), repr(made.keys())
            made.copy().popitem()
            self.assertRaises(TypeError, made.__setitem__, b"key", value)
            self.assertRaises(TypeError, made.pop, 5, default)
            made.pop(key), made.pop(key, default)
            made[key] = value
            del made[key]
            made[key] = value
            made.clear()
        self.assertEqual([sys.getrefcount(it) for it in (key, value, default)], held)

    def test_errors_keep_no_reference(self):
        made, value = SortedMap(), Value()
        held = sys.getrefcount(value)
        for _ in range(50):
            self.assertRaises(OverflowError, made.__setitem__, 2**70, value)
            self.assertRaises(TypeError, made.__setitem__, 1j, value)
            self.assertRaises(TypeError, made.__setitem__, ("a", 1j), value)
            self.assertRaises(ValueError, made.__setitem__, float("nan"), value)
            self.assertRaises(OverflowError, made.__setitem__, ("a", 2**70), value)
            self.assertRaises(TypeError, made.get)
            self.assertRaises(TypeError, made.get, 1, value, value)
            self.assertRaises(TypeError, made.pop)
            self.assertRaises(TypeError, made.pop, 1, value, value)
            self.assertRaises(TypeError, made.prefix, 1)
        self.assertEqual((sys.getrefcount(value), made), (held, {}))
        made[b"a"] = 1
        self.assertEqual(made, {b"a": 1})

    def test_a_cycle_is_collected(self):
        made, value = SortedMap(), Value()
        made["self"], made["value"] = made, value
        made["walk"] = iter(made.items())
        seen = weakref.ref(made), weakref.ref(value)
        del made, value
        gc.collect()
        self.assertEqual([it() for it in seen], [None, None])

    def test_a_long_chain_of_maps_is_dropped(self):
        class OfItsBase(SortedMap.__base__):
            pass

        for kind in (SortedMap, OfItsBase):
            made = kind()
            for _ in range(300_000):
                outer = kind()
                outer["inner"], made = made, outer
            del made, outer

    def test_the_bases_have_no_objects_of_their_own(self):
        # Python's own dealloc, which such an object would not have, drops a long chain without a deep stack.
        for kind in (SortedMap, RouteTable):
            self.assertRaisesRegex(TypeError, "no objects of its own", kind.__base__)
            self.assertRaisesRegex(TypeError, "no objects of its own", kind.__base__.__new__, kind.__base__)

    def test_a_walk_keeps_its_map(self):
        walk = iter(SortedMap.fromkeys(range(100), 1).items())
        gc.collect()
        self.assertEqual(list(walk), [(key, 1) for key in range(100)])
        self.assertEqual(list(walk), [])


# In what `update` calls, the error of a key with a lone surrogate runs the collector, which drops that key. What is freed is
# overwritten, as PYTHONMALLOC=debug says.
EMPTIED = """
import gc
from verified_art import SortedMap

class Empties:
    def __del__(self):
        pairs.clear()

gc.set_threshold(0)
for threshold in range(1, 40):
    pairs = [(f"{number}\\ud800", number) for number in range(9)]
    made = SortedMap()
    gc.collect()
    garbage = Empties()
    garbage.itself = garbage
    del garbage
    gc.set_threshold(threshold)
    made._set_each(pairs)
    gc.set_threshold(0)
    gc.collect()
    assert not pairs and list(made) == [f"{number}\\ud800" for number in range(len(made))], made
"""


class CodeInTheMiddle(Whole):
    def test_a_value_that_changes_the_map_when_it_is_dropped(self):
        ends = (
            lambda made: made.__setitem__("k", 1),
            lambda made: made.__delitem__("k"),
            lambda made: made.pop("k") and None,
            lambda made: made.clear(),
            lambda made: made.popitem() and None,
            lambda made: made.update({"k": 2, "l": 3}),
        )
        changes = (
            lambda made: made.__setitem__("new", 1),
            lambda made: made.clear(),
            lambda made: made.update((str(number), number) for number in range(100)),
            lambda made: (made.clear(), made.__setitem__(5, 6)),
            lambda made: [made.pop(key) for key in list(made)],
        )
        for end in ends:
            for change in changes:
                made = SortedMap(a=0)
                made["k"] = OnEnd(lambda made=made, change=change: change(made))
                try:
                    end(made)
                except TypeError:
                    self.assertIs(type(next(iter(made))), int)
                self.assert_whole(made, dict(made.items()))

    def test_a_collector_that_changes_the_map(self):
        self.addCleanup(gc.set_threshold, *gc.get_threshold())
        choose = random.Random(6)
        made = SortedMap()

        def change():
            made.pop(choose.randrange(50), None)
            made[choose.randrange(50)] = 1

        def leave_garbage():
            cycle = [OnEnd(change)]
            cycle.append(cycle)

        for number in range(3000):
            gc.set_threshold(1 + number % 5)
            leave_garbage()
            made[number % 50] = 2
            try:
                for call in (made.items(), made.irange(10, 40), reversed(made)):
                    for _ in call:
                        pass
                made.popitem(), made.pop(number % 50, None), made.copy(), made.bisect(3)
            except (RuntimeError, KeyError, StopIteration):
                pass
        gc.set_threshold(0)
        self.assert_whole(made, dict(made.items()))

    def test_a_collector_that_sets_an_entry_as_the_first_key_is_refused(self):
        self.addCleanup(gc.set_threshold, *gc.get_threshold())
        made = SortedMap()

        def leave_garbage():
            cycle = [OnEnd(lambda: made.__setitem__(1, "late"))]
            cycle.append(cycle)

        gc.collect()
        gc.set_threshold(0)
        try:
            raise ZeroDivisionError
        except ZeroDivisionError:
            for _ in range(5):
                leave_garbage()
            # Here an error is an object at once, since it has another one as its context: so the collector runs.
            gc.set_threshold(1)
            try:
                made[2**70] = 1
            except OverflowError:
                pass
        gc.set_threshold(0)
        gc.collect()
        self.assert_whole(made, {1: "late"})
        self.assertRaises(TypeError, made.__setitem__, b"a", 1)

    def test_a_collector_that_empties_the_list_of_an_update(self):
        environment = {**os.environ, "PYTHONPATH": os.pathsep.join(sys.path), "PYTHONMALLOC": "debug"}
        run = subprocess.run([sys.executable, "-c", EMPTIED], env=environment, check=False)
        self.assertEqual(run.returncode, 0)

    def test_an_update_that_stops_keeps_what_it_did(self):
        def pairs():
            yield "b", 1
            yield "a", 2
            raise ZeroDivisionError

        made = SortedMap(c=3)
        self.assertRaises(ZeroDivisionError, made.update, pairs())
        self.assert_whole(made, {"a": 2, "b": 1, "c": 3})
        self.assertRaises(TypeError, made.update, {"d": 4, 5: 5})
        self.assert_whole(made, {"a": 2, "b": 1, "c": 3, "d": 4})


class Threads(Whole):
    def test_threads_leave_the_map_whole(self):
        self.addCleanup(sys.setswitchinterval, sys.getswitchinterval())
        sys.setswitchinterval(1e-6)
        made, dues, faults = SortedMap(), [{} for _ in range(4)], []

        def change(mine, due):
            choose = random.Random(mine)
            try:
                for number in range(3000):
                    key = 4 * choose.randrange(200) + mine
                    if choose.random() < 0.6:
                        made[key] = due[key] = number
                    elif made.pop(key, None) != due.pop(key, None):
                        raise AssertionError(key)
                    made.get(choose.randrange(800))
                    try:
                        for _ in made.irange(key):
                            break
                    except RuntimeError:
                        pass
            except BaseException as fault:
                faults.append(fault)

        threads = [threading.Thread(target=change, args=(mine, due)) for mine, due in enumerate(dues)]
        for thread in threads:
            thread.start()
        for thread in threads:
            thread.join()
        self.assertEqual(faults, [])
        self.assert_whole(made, {key: value for due in dues for key, value in due.items()})


@unittest.skipUnless(set_nomemory, "Python's module for tests of its interface is absent")
class RefusedMemory(Whole):
    def refused_in_turn(self, call):
        """Runs a call with its first allocation refused, with its second, and so on, up to a run that meets no refusal."""
        for at in range(200):
            set_nomemory(at, at + 1)
            try:
                call()
                done = True
            except MemoryError:
                done = False
            finally:
                remove_mem_hooks()
            yield
            if done and at > 50:
                return

    def test_refused_objects_change_nothing(self):
        class Bytes(bytes):
            pass

        addresses = [ipaddress.ip_address(text) for text in ("::", "fe80::1%eth0", "ffff::1")]
        tuples = [("tin", 1), (Bytes(b"tin"), 1, "\ud800"), (1.5, addresses[0], b"tin" * 40)]
        for keys in (["tin", "gold", "ä", "\ud800"], [Bytes(b"tin"), b"gold"], [-1, 2**40, True], [1.5, 2.5], addresses, *([it, it[:-1] + (it[-1] * 2,)] for it in tuples[:2])):
            for key in keys:
                due = {it: 1 for it in keys if it != key}
                made = SortedMap(due)
                for _ in self.refused_in_turn(lambda made=made, key=key: made.__setitem__(key, 1)):
                    self.assertIn(len(made), (len(due), len(due) + 1))
                    if key in made:
                        del made[key]
                    self.assert_whole(made, due)
                for call in (made.items, made.copy, lambda made=made: list(made.items()), lambda made=made: list(made.irange())):
                    for _ in self.refused_in_turn(call):
                        self.assert_whole(made, due)

    def test_refused_objects_change_no_route(self):
        class Address:
            packed = b"\x0a\0\0\1"

        class Network:
            network_address, prefixlen = Address(), 31

        table = RouteTable((f"10.0.{at}.0/24", at) for at in range(8))
        due, keys = table.items(), ("11.0.0.0/8", "::/0", bytes(4), Address(), ipaddress.ip_network("12.0.0.0/8"))
        for key in keys:
            for _ in self.refused_in_turn(lambda key=key: table.__setitem__(key, "new")):
                self.assertIn(len(table), (8, 9))
                table.pop(key, None)
                self.assertEqual(table.items(), due)
        many = [Address(), "10.0.1.1"] * 20
        for call in (table.items, table.copy, lambda: table.children("10.0.0.0/8"), lambda: table.get_many(many)):
            for _ in self.refused_in_turn(call):
                self.assertEqual(table.items(), due)
        for key in ("\u0661", "\ud800", "10.0.0.1/8", Network()):
            outcomes = set()

            def insert(key=key, outcomes=outcomes):
                try:
                    table[key] = "new"
                except (ValueError, MemoryError) as error:
                    outcomes.add(type(error))
                    raise MemoryError from error

            for _ in zip(self.refused_in_turn(insert), range(50)):
                self.assertEqual(table.items(), due)
            self.assertEqual(outcomes, {ValueError, MemoryError})

    def test_a_refused_load_sets_the_first_ones_or_none(self):
        words = [f"key {number:03}" for number in range(300)]
        for keys in (words, [b"%03d" % number for number in range(300)], list(range(300)), [(word, len(word)) for word in words], [f"{word}\ud800" for word in words]):
            pairs = [(key, key) for key in keys]
            made = SortedMap()
            for _ in self.refused_in_turn(lambda made=made, pairs=pairs: made.update(pairs)):
                self.assert_whole(made, dict(pairs[: len(made)]))
                made.clear()


if __name__ == "__main__":
    unittest.main()
