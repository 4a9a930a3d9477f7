"""Route tables: random calls beside a list of networks of `ipaddress`, and beside python3-radix where it is there.

ROUTE_CALLS says how many random calls are made."""

import copy
import gc
import ipaddress
import os
import pickle
import random
import unittest
import weakref

from verified_art import RouteTable

try:
    import radix
except ImportError:
    radix = None
CALLS = int(os.environ.get("ROUTE_CALLS", 20000))


def some_address(rng):
    """Few bytes that often are the same."""
    width = rng.choice((4, 16))
    octets = bytearray([rng.choice((0, 255))] * width)
    for _ in range(rng.randrange(6)):
        octets[rng.randrange(width)] = rng.choice((0, 1, 10, 128, 255))
    return ipaddress.ip_address(bytes(octets))


def some_network(rng, there):
    if there and rng.randrange(4) == 0:
        return rng.choice(there)
    address = some_address(rng)
    return ipaddress.ip_network((address, rng.randrange(address.max_prefixlen + 1)), strict=False)


def place(network):
    """Where a network stands in the order."""
    return network.version, network.network_address, network.prefixlen


def given(rng, network):
    """A network or an address, as a caller may have it."""
    if isinstance(network, (ipaddress.IPv4Network, ipaddress.IPv6Network)):
        return rng.choice((network, str(network), (given(rng, network.network_address), network.prefixlen)))
    return rng.choice((network, str(network), network.packed))


def read(text):
    return None if text is None else ipaddress.ip_network(text)


def around(networks, inner):
    """The networks that cover another one, the longest first."""
    if not isinstance(inner, (ipaddress.IPv4Network, ipaddress.IPv6Network)):
        inner = ipaddress.ip_network(inner)
    found = [it for it in networks if it.version == inner.version and inner.subnet_of(it)]
    return sorted(found, key=lambda it: -it.prefixlen)


class RandomCalls(unittest.TestCase):
    def same_calls(self, seed, calls):
        rng = random.Random(seed)
        table, model = RouteTable(), {}
        for call in range(calls):
            there = list(model)
            network = some_network(rng, there)
            key, kind = given(rng, network), rng.randrange(16)
            if kind < 3 and len(model) < 60:
                table[key] = model[network] = call
            elif kind < 5:
                self.assertEqual(table.pop(key, None), model.pop(network, None))
            elif kind == 5:
                self.assertEqual(table.has_key(key), network in model)
                longest = around(there, network)
                self.assertEqual(table.get(key, "none"), model[longest[0]] if longest else "none")
                self.assertEqual(key in table, bool(longest))
            elif kind == 6:
                shorter = [it for it in around(there, network) if it != network]
                self.assertEqual(read(table.parent(key)), shorter[0] if shorter else None)
            elif kind == 7:
                inside = sorted((it for it in there if network in around([network], it) and it != network), key=place)
                self.assertEqual([read(it) for it in table.children(key)], inside)
            elif kind < 10:
                address = some_address(rng)
                key, longest = given(rng, address), around(there, address)
                self.assertEqual(read(table.get_key(key)), longest[0] if longest else None)
                if longest:
                    self.assertEqual(table[key], model[longest[0]])
                else:
                    self.assertRaises(KeyError, table.__getitem__, key)
            elif kind == 10:
                addresses = [some_address(rng) for _ in range(rng.randrange(12))]
                due = [model[longest[0]] if longest else -1 for longest in (around(there, it) for it in addresses)]
                self.assertEqual(table.get_many([given(rng, it) for it in addresses], -1), due)
            elif kind == 11:
                inside = [it for it in there if network in around([network], it) and it != network]
                direct = sorted((it for it in inside if around(inside, it) == [it]), key=place)
                self.assertEqual([read(it) for it in table.direct_children(key)], direct)
            elif kind == 14:
                self.assertEqual(table.setdefault(key, call), model.setdefault(network, call))
            elif kind == 15:
                self.assertEqual([read(it) for it in reversed(table)], sorted(there, key=place, reverse=True))
                if there and rng.randrange(4) == 0:
                    last = max(there, key=place)
                    self.assertEqual(table.popitem(), (str(last), model.pop(last)))
            elif kind == 12 and rng.randrange(10) == 0:
                inside = [it for it in there if network in around([network], it)]
                self.assertEqual(table.remove_covered(key), len(inside))
                for it in inside:
                    del model[it]
            elif rng.randrange(100) == 0:
                table.clear()
                model.clear()
            else:
                ordered = sorted(there, key=place)
                self.assertEqual([(read(it), value) for it, value in table.items()], [(it, model[it]) for it in ordered])
                self.assertEqual([read(it) for it in table], ordered)
                self.assertEqual(table.values(), [model[it] for it in ordered])
            self.assertEqual(len(table), len(model))

    def test_calls_do_what_a_list_does(self):
        self.same_calls(20261130, CALLS)


class Aggregates(unittest.TestCase):
    """Values that are equal, and not one object: so are those of `str` that are made while this runs."""

    def some_table(self, rng, values):
        networks = [some_network(rng, []) for _ in range(rng.randrange(30))]
        # Halves of one network, and of halves of it.
        for whole in networks[: rng.randrange(8)]:
            if whole.prefixlen + 2 <= whole.max_prefixlen:
                networks += rng.sample(list(whole.subnets(2)), rng.randrange(5))
        return {it: rng.choice(values) for it in networks}

    def test_one_value_is_collapsed_as_by_ipaddress(self):
        rng = random.Random(41)
        for _ in range(CALLS // 100):
            model = self.some_table(rng, [7])
            table = RouteTable(model)
            table.aggregate()
            due = [ipaddress.collapse_addresses(it for it in model if it.version == version) for version in (4, 6)]
            self.assertEqual([read(it) for it in table], [*due[0], *due[1]])
            self.assertEqual(set(table.values()), {7} if model else set())

    def test_each_address_has_its_value(self):
        rng = random.Random(42)
        for _ in range(CALLS // 100):
            model = self.some_table(rng, [1000, 2000, 3000])
            table = RouteTable({it: str(value) for it, value in model.items()})
            table.aggregate()
            left = {read(it): value for it, value in table.items()}
            self.assertEqual(len(table), len(left))
            for it in model:
                for ends in (int(it.network_address), int(it.broadcast_address)):
                    for near in (ends - 1, ends, ends + 1):
                        if 0 <= near < 2**it.max_prefixlen:
                            address = type(it.network_address)(near)
                            longest = around(model, address)
                            self.assertEqual(table.get(address), str(model[longest[0]]) if longest else None)
            for it, value in left.items():
                outer = around(left, it)[1:]
                self.assertTrue(not outer or left[outer[0]] != value)
                if it.prefixlen:
                    halves = list(it.supernet().subnets())
                    self.assertFalse(all(left.get(half) == value for half in halves))

    def test_values_stay_alive_once(self):
        class Value:
            def __init__(self, number):
                self.number = number

            def __eq__(self, other):
                return self.number == other.number

            def __hash__(self):
                return self.number

        table = RouteTable({"10.0.0.0/9": Value(1), "10.128.0.0/9": Value(1), "10.1.0.0/16": Value(2), "::/0": Value(2)})
        values = [weakref.ref(value) for value in table.values()]
        table.aggregate()
        gc.collect()
        self.assertEqual([(it, value.number) for it, value in table.items()], [("10.0.0.0/8", 1), ("10.1.0.0/16", 2), ("::/0", 2)])
        self.assertEqual(table.remove_covered("0.0.0.0/0"), 2)
        gc.collect()
        self.assertEqual([it() is None for it in values], [True, True, True, False])

    def test_values_that_have_no_hash(self):
        table = RouteTable({"10.0.0.0/8": [], "10.1.0.0/16": []})
        self.assertRaises(TypeError, table.aggregate)
        self.assertEqual(len(table), 2)

    def test_none_and_wrong_numbers(self):
        table = RouteTable()
        table.aggregate()
        self.assertEqual((len(table), table.remove_covered("::/0"), table.direct_children("0.0.0.0/0")), (0, 0, []))
        table["10.0.0.0/8"] = 1
        for numbers in ((), (1, 2)):
            self.assertRaises(RuntimeError, table._aggregated, numbers)
        self.assertRaises(TypeError, table._aggregated, ("1",))
        self.assertRaises(OverflowError, table._aggregated, (-1,))
        self.assertRaises(ValueError, table.remove_covered, "10.0.0.1/8")
        self.assertRaises(ValueError, table.direct_children, "10.0.0.1/8")
        self.assertEqual(table.items(), [("10.0.0.0/8", 1)])


def below(bits, base, length):
    """The networks of a length that are inside the last so many addresses of the one with the base."""
    return list(ipaddress.ip_network((base, ipaddress.ip_address(base).max_prefixlen - bits)).subnets(new_prefix=length))


class FreeNetworks(unittest.TestCase):
    """Beside a scan of all networks of at most six bits behind one address."""

    BASES = ("10.0.0.0", "255.255.255.192", "0.0.0.0", "2001:db8::", "::", "ffff:ffff:ffff:ffff:ffff:ffff:ffff:ffc0")

    def test_free_networks_are_those_that_a_scan_finds(self):
        rng = random.Random(6)
        for _ in range(CALLS // 100):
            base = rng.choice(self.BASES)
            bits = ipaddress.ip_address(base).max_prefixlen
            all_of = {length: below(6, base, length) for length in range(bits - 6, bits + 1)}
            taken = [rng.choice(all_of[rng.randrange(bits - rng.randrange(1, 7), bits + 1)]) for _ in range(rng.randrange(8))]
            table = RouteTable({it: 1 for it in taken})
            network = rng.choice(all_of[rng.randrange(bits - 6, bits + 1)])
            for length in range(bits - 6, bits + 1):
                due = [str(it) for it in all_of[length] if it.subnet_of(network) and not any(it.overlaps(other) for other in taken)]
                self.assertEqual(list(table.free(given(rng, network), length)), due)

    def test_networks_that_are_taken_between_two_steps(self):
        table = RouteTable({"10.0.0.0/30": 0})
        given_out = []
        for network in table.free("10.0.0.0/28", 31):
            given_out.append(network)
            if network == "10.0.0.4/31":
                table["10.0.0.6/31"] = table["10.0.0.8/30"] = 1
            if network == "10.0.0.12/31":
                del table["10.0.0.0/30"]
        self.assertEqual(given_out, ["10.0.0.4/31", "10.0.0.12/31", "10.0.0.14/31"])
        # The next one that is free, each time anew.
        for due in ("10.0.0.0/31", "10.0.0.2/31", "10.0.0.4/31"):
            network = next(table.free("10.0.0.0/28", 31))
            table[network] = 2
            self.assertEqual(network, due)

    def test_many_are_found_one_by_one(self):
        walk = RouteTable({"::/65": 1}).free("::/0", 128)
        self.assertEqual([next(walk), next(walk)], ["::8000:0:0:0/128", "::8000:0:0:1/128"])
        self.assertEqual(len(list(RouteTable().free("10.0.0.0/16", 28))), 4096)

    def test_what_is_no_network_and_no_length(self):
        table = RouteTable()
        for length in (-1, 33, 128):
            self.assertRaisesRegex(ValueError, f"32 bits has no length {length}", table.free, "10.0.0.0/8", length)
        self.assertRaises(ValueError, table.free, "10.0.0.1/8", 16)
        self.assertRaises(TypeError, table.free, "10.0.0.0/8", "16")
        self.assertRaises(TypeError, table.free, "10.0.0.0/8")
        self.assertRaises(OverflowError, table.free, "10.0.0.0/8", 2**70)
        self.assertEqual(list(table.free("10.0.0.0/8", 7)), [])
        self.assertEqual(list(table.free(network="10.0.0.1", length=32)), ["10.0.0.1/32"])

    def test_a_walk_keeps_its_table(self):
        table = RouteTable({"10.0.0.0/9": 1})
        walk, seen = table.free("10.0.0.0/8", 9), weakref.ref(table)
        del table
        self.assertEqual((list(walk), list(walk)), (["10.128.0.0/9"], []))
        gc.collect()
        self.assertIsNone(seen())


class Differences(unittest.TestCase):
    def test_differences_are_those_of_two_dicts(self):
        rng = random.Random(7)
        for _ in range(CALLS // 20):
            old = {}
            for _ in range(rng.randrange(12)):
                old[some_network(rng, list(old))] = rng.randrange(3)
            new = dict(old)
            for _ in range(rng.randrange(8)):
                network = some_network(rng, list(new))
                if rng.randrange(2):
                    new.pop(network, None)
                else:
                    new[network] = rng.randrange(3)
            due = []
            for it in sorted(old.keys() | new.keys(), key=place):
                if it not in new:
                    due.append(("remove", str(it), old[it]))
                elif it not in old:
                    due.append(("insert", str(it), new[it]))
                elif old[it] != new[it]:
                    due.append(("replace", str(it), new[it]))
            table, other = RouteTable(old), RouteTable(new)
            changes = table.difference(other)
            self.assertEqual([(change, str(read(it)), value) for change, it, value in changes], due)
            for change, network, value in changes:
                if change == "remove":
                    self.assertEqual(table.pop(network), value)
                else:
                    self.assertEqual(table.has_key(network), change == "replace")
                    table[network] = value
            self.assertEqual((table, table.difference(other)), (other, []))

    def test_values_that_are_one_or_equal(self):
        nan = float("nan")
        table = RouteTable({"10.0.0.0/8": nan, "10.0.0.0/9": [1], "::/0": None})
        self.assertEqual(table.difference(RouteTable({"10.0.0.0/8": nan, "10.0.0.0/9": [1], "::/0": None})), [])
        self.assertEqual(table.difference(RouteTable({"::/0": 0})), [("remove", "10.0.0.0/8", nan), ("remove", "10.0.0.0/9", [1]), ("replace", "::/0", 0)])
        self.assertEqual(table.difference(table), [])
        for other in (None, {}, {"10.0.0.0/8": 1}, []):
            self.assertRaisesRegex(TypeError, "the new one is a RouteTable", table.difference, other)

    def test_a_value_that_changes_the_tables_as_it_is_compared(self):
        table, other = RouteTable(), RouteTable()

        class Value:
            def __eq__(self, _):
                table.clear()
                other.update({"::/0": 1})
                return False

        for at in range(5):
            table[f"10.{at}.0.0/16"], other[f"10.{at}.0.0/16"] = Value(), at
        self.assertEqual(table.difference(other), [("replace", f"10.{at}.0.0/16", at) for at in range(5)])
        self.assertEqual((len(table), len(other)), (0, 6))

    def test_a_collector_that_changes_the_tables(self):
        self.addCleanup(gc.set_threshold, *gc.get_threshold())
        rng, tables = random.Random(13), (RouteTable(), RouteTable())

        class Garbage:
            def __init__(self):
                self.itself = self

            def __del__(self):
                for table in tables:
                    table.pop(some_network(rng, table.keys()), None)
                    table.setdefault(some_network(rng, ()), object())

        for number in range(500):
            gc.set_threshold(1 + number % 5)
            Garbage()
            tables[0].difference(tables[1])
            list(reversed(tables[0])), list(zip(range(9), tables[1].free("10.0.0.0/8", 16)))
        gc.set_threshold(0)
        gc.collect()
        for table in tables:
            self.assertEqual(list(reversed(table)), table.keys()[::-1])
            self.assertEqual(len(table), len(table.values()))


@unittest.skipIf(radix is None, "there is no python3-radix")
class BesideRadix(unittest.TestCase):
    def test_calls_do_what_radix_does(self):
        rng = random.Random(68)
        table, tree, there, added = RouteTable(), radix.Radix(), set(), []
        for call in range(CALLS):
            network = some_network(rng, added[-50:])
            text, kind = str(network), rng.randrange(8)
            if kind < 3:
                table[text] = call
                tree.add(text).data["value"] = call
                there.add(network)
                added.append(network)
            elif kind == 3:
                self.assertEqual(table.pop(text, None) is not None, network in there)
                if network in there:
                    tree.delete(text)
                    there.remove(network)
            else:
                address = str(some_address(rng))
                best, worst = tree.search_best(address), tree.search_worst(address)
                self.assertEqual(table.get(address), best and best.data["value"])
                self.assertEqual(read(table.get_key(address)), best and ipaddress.ip_network(best.prefix))
                if best is not worst:
                    self.assertLess(worst.prefixlen, best.prefixlen)
        self.assertEqual(sorted(map(str, map(read, table))), sorted(str(ipaddress.ip_network(it)) for it in tree.prefixes()))


class Calls(unittest.TestCase):
    def test_it_has_the_names_of_pytricia(self):
        for name in "children delete get get_key has_key insert keys parent __contains__ __delitem__ __getitem__ __iter__ __len__ __setitem__".split():
            self.assertTrue(callable(getattr(RouteTable, name)))
        table = RouteTable()
        for number, key in enumerate(("10.0.0.0/16", ("10.1.0.0", 16), ipaddress.ip_network("10.2.0.0/16"), (ipaddress.ip_address("10.3.0.0"), 16), (b"\x0a\4\0\0", 16))):
            table[key] = number
            self.assertEqual((table[key], table.get_key(key), table.has_key(key), key in table), (number, f"10.{number}.0.0/16", True, True))
        self.assertRaises(TypeError, table.get, 0x0A000000)

    def test_worked_rows(self):
        table = RouteTable({"10.0.0.0/8": "office", "10.1.0.0/16": "lab"})
        table[ipaddress.ip_network("2001:db8::/32")] = "guests"
        self.assertEqual((table["10.1.2.3"], table["10.2.2.3"], table.get("11.0.0.1")), ("lab", "office", None))
        self.assertEqual(table.get_key("10.1.2.3"), "10.1.0.0/16")
        self.assertEqual((table.parent("10.1.0.0/16"), table.parent("10.0.0.0/8")), ("10.0.0.0/8", None))
        self.assertEqual(table.children("10.0.0.0/8"), ["10.1.0.0/16"])
        self.assertEqual(table.children("0.0.0.0/0"), ["10.0.0.0/8", "10.1.0.0/16"])
        self.assertEqual(list(table), ["10.0.0.0/8", "10.1.0.0/16", "2001:db8::/32"])
        self.assertTrue("10.9.9.9" in table and "::1" not in table and not table.has_key("10.9.9.9"))
        table.delete("10.1.0.0/16")
        self.assertEqual(table["10.1.2.3"], "office")
        self.assertRaises(KeyError, table.delete, "10.1.0.0/16")
        table.insert("10.1.0.0/16", "lab")
        table.insert(network="10.1.0.0/16", value="other")
        self.assertEqual((table["10.1.2.3"], len(table)), ("other", 3))
        table.insert("10.1.0.0", 16, "by its length")
        table.insert(ipaddress.ip_address("10.1.0.0"), 16, None)
        self.assertEqual((table["10.1.2.3"], len(table), table.has_key((bytes([10, 1, 0, 0]), 16))), (None, 3, True))
        self.assertRaises(ValueError, table.insert, "10.1.0.0/16", 16, 1)
        del table["10.1.0.0/16"]
        self.assertEqual(table["10.1.2.3"], "office")
        self.assertRaises(KeyError, table.__delitem__, "10.1.0.0/16")
        self.assertRaises(KeyError, table.pop, "10.1.0.0/16")

    def test_calls_of_a_dict(self):
        table = RouteTable({"10.0.0.0/8": 8, "::/0": 6})
        self.assertEqual((table.setdefault("10.0.0.0/8", 1), table.setdefault("10.1.0.0/16", 16), table.setdefault("11.0.0.0/8")), (8, 16, None))
        self.assertEqual(list(reversed(table)), ["::/0", "11.0.0.0/8", "10.1.0.0/16", "10.0.0.0/8"])
        table.update()
        self.assertEqual([table.popitem() for _ in range(4)], [("::/0", 6), ("11.0.0.0/8", None), ("10.1.0.0/16", 16), ("10.0.0.0/8", 8)])
        self.assertRaises(KeyError, table.popitem)
        for arguments in ((), ("::/0", 1, 2)):
            self.assertRaises(TypeError, table.setdefault, *arguments)
        self.assertRaises(ValueError, table.setdefault, "10.0.0.1/8", 1)
        self.assertEqual((len(table), list(reversed(table))), (0, []))

    def test_a_default_that_is_set_is_held_once(self):
        class Value:
            pass

        table, values = RouteTable(), [Value(), Value()]
        seen = [weakref.ref(it) for it in values]
        for value in values:
            self.assertIs(table.setdefault("::/0", value), values[0])
        del values, value
        self.assertEqual([it() is None for it in seen], [False, True])
        table.clear()
        self.assertIsNone(seen[0]())

    def test_the_families_never_match_each_other(self):
        table = RouteTable([("0.0.0.0/0", 4)])
        self.assertIsNone(table.get("::ffff:10.0.0.1"))
        table["::/0"] = 6
        self.assertEqual((table["::ffff:10.0.0.1"], table["10.0.0.1"]), (6, 4))

    def test_what_is_no_network_is_a_value_error(self):
        bad = ["", "x", "10", "10.0.0", "10.0.0.0/", "10.0.0.0/33", "10.0.0.1/8", "10.0.0.0/+8", "10.0.0.0/-1", "10.0.0.0/8/8"]
        bad += ["::/129", "::1/64", "1::2::3", "10.0.0.0\0", "10.0.0.0/8\0", "10.0.0.0/1000", "\ud800", "1" * 90, b"abc", b""]
        bad += [(), ("10.0.0.0",), ("10.0.0.0", 8, 1), ("10.0.0.0", 33), ("10.0.0.1", 8), ("10.0.0.0", -1), ("10.0.0.0", "8"), ("10.0.0.0", None)]
        bad += [("10.0.0.0/8", 8), (("10.0.0.0", 32), 32), ("x", 8), (b"abc", 8), ("::", 129), ("::", 2**70)]
        bad += ["10.0.0.256", "010.0.0.0", "::1%eth0", " 10.0.0.0", "10.0.0.0/8 "]
        table = RouteTable({"10.0.0.0/8": 1})
        calls = [table.__getitem__, table.get, table.has_key, table.get_key, table.pop, table.parent, table.children]
        calls += [table.__contains__, table.__delitem__, lambda key: table.__setitem__(key, 1), lambda key: table.get_many([key])]
        calls += [lambda key: table.free(key, 32), lambda key: table.setdefault(key, 1)]
        for key in bad:
            for call in calls:
                self.assertRaises(ValueError, call, key)
        for network in ("10.0.0.0/8", ipaddress.ip_network("10.0.0.0/8")):
            self.assertRaisesRegex(ValueError, "an address is needed", table.get_many, ["10.0.0.1", network])
        for key in (5, None, 1.5, (10, 8), ["10.0.0.0", 8]):
            for call in calls:
                self.assertRaises(TypeError, call, key)
        self.assertEqual(table.items(), [("10.0.0.0/8", 1)])

    def test_what_is_no_table_is_named(self):
        for other in (32, None, 1.5):
            self.assertRaisesRegex(TypeError, f"^a RouteTable is made of .*, and not of {type(other).__name__}$", RouteTable, other)
        table = RouteTable()
        for other in (["10.0.0.0/8"], [("10.0.0.0/8", 1, 2)], "10.0.0.0/8", [5], {"10.0.0.0/8"}):
            self.assertRaisesRegex(ValueError, "^a pair of a network and a value is needed, and not ", table.update, other)
        self.assertEqual(len(table), 0)

    def test_texts_are_those_of_ipaddress(self):
        for text in ("::/0", "1::/16", "1:0:0:2::/64", "1:0:2::/48", "0:0:1::/48", "::1/128", "1:2:3:4:5:6:7:8/128", "fe80::/10"):
            self.assertEqual(list(RouteTable({text: 1})), [str(ipaddress.ip_network(text))])
        self.assertEqual(list(RouteTable({"1:0:0:2:0:0:0:3": 1})), ["1:0:0:2::3/128"])
        self.assertEqual(list(RouteTable({"0:1:0:1:0:1:0:1": 1})), ["0:1:0:1:0:1:0:1/128"])

    def test_a_table_is_copied_compared_and_shown(self):
        table = RouteTable({"10.0.0.0/8": [1]})
        for other in (table.copy(), copy.copy(table), pickle.loads(pickle.dumps(table)), RouteTable(table.items())):
            self.assertEqual(other, table)
            other["::/0"] = 2
            self.assertNotEqual(other, table)
        class Named(RouteTable):
            pass

        made = Named(table)
        made.name = "office"
        for other in (copy.copy(made), copy.deepcopy(made)):
            self.assertEqual((type(other), other.name, other), (Named, "office", table))
        self.assertEqual(repr(table), "RouteTable({'10.0.0.0/8': [1]})")
        self.assertRaises(TypeError, hash, table)

    def test_a_network_without_a_route_has_children_and_a_parent(self):
        table = RouteTable({"10.0.0.0/8": 1, "10.1.1.0/24": 2})
        self.assertEqual((table.children("10.1.0.0/16"), table.parent("10.1.0.0/16")), (["10.1.1.0/24"], "10.0.0.0/8"))
        self.assertEqual((table.children("11.0.0.0/8"), table.parent("11.0.0.0/8")), ([], None))

    def test_routes_may_change_during_an_iteration(self):
        table = RouteTable((f"10.{at}.0.0/16", at) for at in range(9))
        for network in table:
            del table[network]
            table["11.0.0.0/8"] = 0
        self.assertEqual(list(table), ["11.0.0.0/8"])

    def test_values_are_let_go(self):
        class Value:
            pass

        table, values = RouteTable(), [Value() for _ in range(5)]
        seen = [weakref.ref(it) for it in values]
        for at, value in enumerate(values):
            table[f"10.0.0.{at}"] = value
        del values, value
        self.assertTrue(all(it() for it in seen))
        table["10.0.0.0"] = 1
        del table["10.0.0.1"]
        table.pop("10.0.0.2")
        self.assertEqual([it() is None for it in seen], [True, True, True, False, False])
        table.clear()
        self.assertTrue(all(it() is None for it in seen))
        cycle = Value()
        cycle.table, seen = table, weakref.ref(cycle)
        table["::/0"] = cycle
        del cycle, table
        gc.collect()
        self.assertIsNone(seen())

    def test_a_value_may_use_the_table_as_it_goes(self):
        table = RouteTable()

        class Value:
            def __del__(self):
                table["10.0.0.0/8"] = len(table)

        table["10.0.0.0/8"] = Value()
        table["10.0.0.0/8"] = 1
        self.assertEqual(table.items(), [("10.0.0.0/8", 1)])
        table["::/0"] = Value()
        table.clear()
        self.assertEqual(table.items(), [("10.0.0.0/8", 0)])


def calls_of(table):
    """The calls that take one key."""
    calls = [table.__getitem__, table.get, table.has_key, table.get_key, table.pop, table.delete, table.parent, table.children]
    calls += [table.__contains__, lambda key: table.insert(key, "new"), lambda key: table.get_many(["10.9.9.9", key])]
    return [*calls, lambda key: table.setdefault(key, "new"), lambda key: list(table.free(key, 8))]


CHANGES = (
    lambda table: table.clear(),
    lambda table: table.update({"12.0.0.0/8": 12, "10.0.0.0/8": 10}),
    lambda table: (table.clear(), table.update((f"13.{at}.0.0/16", at) for at in range(20))),
    lambda table: [table.pop(network) for network in table],
)


class KeysOfOtherClasses(unittest.TestCase):
    BEFORE = {"10.0.0.0/8": 1, "11.0.0.0/8": 2, "::/0": 3}

    def assert_whole(self, table, due):
        """The table has these routes, and takes more."""
        for _ in range(2):
            self.assertEqual(table.items(), due.items())
            self.assertEqual((len(table), [table[it] for it in due]), (len(due), due.values()))
            for at in range(12):
                table[f"14.0.0.{at}"] = due[f"14.0.0.{at}"] = at

    def test_a_key_that_changes_the_table_as_it_is_shown(self):
        for change in CHANGES:
            due = RouteTable(self.BEFORE)
            change(due)
            for at in range(len(calls_of(due))):
                table = RouteTable(self.BEFORE)

                class Shown(str):
                    def __repr__(self):
                        change(table)
                        return "shown"

                for text in ("10.0.0.1/8", "no network"):
                    self.assertRaisesRegex(ValueError, "shown", calls_of(table)[at], Shown(text))
                self.assert_whole(table, due.copy())

    def test_a_key_that_changes_the_table_as_it_is_read(self):
        for change in CHANGES:
            for base, text in ((ipaddress.IPv4Network, "11.0.0.0/8"), (ipaddress.IPv4Address, "11.0.0.1")):
                for at in range(len(calls_of(RouteTable()))):
                    table, due = RouteTable(self.BEFORE), RouteTable(self.BEFORE)
                    change(due)

                    class Read(base):
                        @property
                        def prefixlen(self):
                            change(table)
                            return 8

                        @property
                        def packed(self):
                            change(table)
                            return base(text).packed

                    outcomes = []
                    for it, key in ((table, Read(text)), (due, text)):
                        try:
                            outcomes.append(calls_of(it)[at](key))
                        except (KeyError, ValueError) as error:
                            outcomes.append(type(error))
                    self.assertEqual(*outcomes)
                    self.assert_whole(table, due)

    def test_a_collector_that_changes_the_table(self):
        self.addCleanup(gc.set_threshold, *gc.get_threshold())
        rng, table = random.Random(12), RouteTable()

        def change():
            table.pop(some_network(rng, table.keys()), None)
            table.insert(some_network(rng, ()), 1)

        class Garbage:
            def __init__(self):
                self.itself = self

            def __del__(self):
                change()

        for number in range(2000):
            gc.set_threshold(1 + number % 5)
            Garbage()
            key = some_network(rng, ())
            table[key] = number
            table.items(), table.copy(), table.children(key), table.get_many(["10.0.0.1", "::1"] * 9)
            try:
                table.insert("10.0.0.1/8", 1)
            except ValueError:
                table.pop(key, None)
        gc.set_threshold(0)
        gc.collect()
        self.assert_whole(table, table.copy())

    def test_a_long_chain_of_tables_is_dropped(self):
        table = RouteTable()
        for _ in range(150_000):
            table = RouteTable({"::/0": table})
            table["10.0.0.0/8"] = iter(table.get("::1"))
        del table

    def test_a_key_that_changes_what_holds_it(self):
        class Address:
            @property
            def packed(self):
                for holder in gc.get_referrers(self):
                    if type(holder) is list:
                        holder.clear()
                return bytes([10, 0, 0, 1])

        table = RouteTable(self.BEFORE)
        self.assertEqual(table.get_many([Address(), "11.0.0.1", Address(), "12.0.0.1"]), [1, 2, 1, None])

    def test_a_key_of_a_subclass_is_what_it_holds(self):
        class Bytes(bytes):
            def __len__(self):
                return 16

            def __getitem__(self, index):
                return b"other"

            def __bytes__(self):
                return bytes(16)

        class Str(str):
            def partition(self, _):
                return "12.0.0.0", "/", "8"

            def __contains__(self, _):
                return True

            def __str__(self):
                return "12.0.0.0/8"

        class Int(int):
            def __lt__(self, other):
                return False

            __le__ = __gt__ = __ge__ = lambda self, other: True

            def __index__(self):
                return 3

        class Address(ipaddress.IPv4Address):
            packed = Bytes(b"\x0a\0\0\0")

        class Network(ipaddress.IPv4Network):
            network_address = Address("1.2.3.4")
            prefixlen = Int(8)

            def __init__(self):
                pass

        keys = {Bytes(b"\x0a\0\0\0"): "10.0.0.0/32", Address(7): "10.0.0.0/32", Str("10.0.0.0/9"): "10.0.0.0/9"}
        for key, text in [*keys.items(), (Network(), "10.0.0.0/8")]:
            table = RouteTable([(key, 1)])
            self.assertEqual((table.items(), table[key], table.get_key(key)), ([(text, 1)], 1, text))
            self.assertEqual((table.has_key(key), table.children(key), table.parent(key), table.pop(key)), (True, [], None, 1))
        table = RouteTable({"10.0.0.0/8": 1})
        self.assertEqual(table.get_many([Bytes(b"\x0a\0\0\0"), Address(7), Str("10.1.1.1")]), [1, 1, 1])
        wrong = Network()
        wrong.__class__.prefixlen = Int(33)
        for call in calls_of(table):
            self.assertRaises(ValueError, call, wrong)

    def test_what_only_says_that_it_is_a_key_is_none(self):
        for base in (str, bytes):

            class Liar:
                __class__ = base

            for call in calls_of(RouteTable(self.BEFORE)):
                self.assertRaises(TypeError, call, Liar())

    def test_attributes_that_are_none_of_a_network(self):
        class Named(type):
            def __repr__(self):
                return "named"

        class Parts(metaclass=Named):
            def __init__(self, packed, *prefixlen):
                self.packed = packed
                if prefixlen:
                    self.network_address, self.prefixlen = self, *prefixlen

        class Raises:
            def __index__(self):
                raise ZeroDivisionError

            network_address = packed = property(__index__)

        address = bytes([10, 0, 0, 0])
        table = RouteTable(self.BEFORE)
        self.assertEqual((table.has_key(Parts(address, 8)), table.get(Parts(address))), (True, 1))
        without_length = Parts(address, 8)
        del without_length.prefixlen
        for call in calls_of(table):
            for prefixlen in (264, 33, -1, 2**70, -(2**70), None, "8", 8.0):
                self.assertRaises(ValueError, call, Parts(address, prefixlen))
            for packed in ("abcd", bytearray(4), None, b"abc", b"", [1, 2, 3, 4]):
                self.assertRaises(ValueError, call, Parts(packed))
                self.assertRaises(ValueError, call, Parts(packed, 0))
            self.assertRaises(ZeroDivisionError, call, Parts(address, Raises()))
            self.assertRaises(ZeroDivisionError, call, Raises())
            self.assertRaisesRegex(TypeError, "not named", call, without_length)
        self.assert_whole(table, RouteTable(self.BEFORE))


if __name__ == "__main__":
    unittest.main()
