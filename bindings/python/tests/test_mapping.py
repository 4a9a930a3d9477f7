"""The tests that Python has for its own mappings."""

import copy
import ipaddress
import pickle
import unittest

from verified_art import SortedMap

try:
    from test import mapping_tests
except ImportError as error:
    raise unittest.SkipTest("Python's own tests are absent (Debian: libpython3-testsuite)") from error


class SortedMapProtocol(mapping_tests.TestMappingProtocol):
    """All tests of `BasicTestMappingProtocol` and of `TestMappingProtocol`. Of that of popitem one line is left out, by which
    it takes no argument: here it takes an index."""

    type2test = SortedMap

    def test_popitem(self):
        made = self._full_mapping(self.reference)
        self.assertEqual(dict(made.popitem() for _ in range(len(made))), self.reference)
        self.assertRaises(KeyError, made.popitem)


def protocol_of(keys):
    """All these tests with three other keys, which the maps of the tests have."""

    class OfKeys(SortedMapProtocol):
        def _reference(self):
            return dict(zip(keys, ("2", "value1", (1, 2, 3))))

    return OfKeys


BytesProtocol = protocol_of((b"1", b"key1", b"key2"))
IntProtocol = protocol_of((-1, 0, 2**40))
FloatProtocol = protocol_of((-1.5, 0.0, float("inf")))
IPv4Protocol = protocol_of(tuple(map(ipaddress.IPv4Address, (0, 1, 2**32 - 1))))
IPv6Protocol = protocol_of(tuple(map(ipaddress.IPv6Address, (0, 1, 2**128 - 1))))
TupleProtocol = protocol_of((("1", 1), ("key1", 1), ("key2", -5)))
NestedProtocol = protocol_of((((b"1",), 1.5), ((b"key1",), 1.5), ((b"key2",), 0.0)))


class SortedMapIteration(unittest.TestCase):
    """The two tests of `TestHashMappingProtocol` that speak of any mapping. Skipped are its tests of getitem, pop, setdefault
    and eq, which have keys with a hash of their own; and that of repr, which wants the text of a dict."""

    type2test = SortedMap
    _empty_mapping = mapping_tests.BasicTestMappingProtocol._empty_mapping
    test_mutatingiteration = mapping_tests.TestHashMappingProtocol.test_mutatingiteration
    test_repr_deep = mapping_tests.TestHashMappingProtocol.test_repr_deep


class Copies(unittest.TestCase):
    def test_copies_have_the_entries_and_the_class(self):
        class Named(SortedMap):
            pass

        made = Named({b"tin": [50], b"": None})
        made.name = "metals"
        for other in (copy.copy(made), copy.deepcopy(made), pickle.loads(pickle.dumps(SortedMap(made)))):
            self.assertEqual(other, {b"tin": [50], b"": None})
        self.assertIs(copy.copy(made)[b"tin"], made[b"tin"])
        self.assertIsNot(copy.deepcopy(made)[b"tin"], made[b"tin"])
        self.assertEqual((type(copy.copy(made)), copy.copy(made).name), (Named, "metals"))


if __name__ == "__main__":
    unittest.main()
