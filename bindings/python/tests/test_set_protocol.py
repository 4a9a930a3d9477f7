"""The tests that Python has for its own sets."""

import unittest

from verified_art import SortedSet

try:
    from test import test_set
except ImportError as error:
    raise unittest.SkipTest("Python's own tests are absent (Debian: libpython3-testsuite)") from error


class Named(SortedSet):
    """A class with attributes, as the test of pickling sets one."""


class SetProtocol(test_set.TestSet):
    """All tests of `TestJointOps` and of `TestSet`, but for those whose keys are sets or of classes of their own, which are no keys
    here; for that of `__init__`, which adds here where it is called again, as that of dict; and for that of iterators that are
    pickled."""

    thetype = basetype = Named

    test_badcmp = test_contains = test_cyclical_repr = test_deepcopy = test_discard = test_remove = None
    test_remove_keyerror_set = test_remove_keyerror_unpacking = test_setOfFrozensets = None
    test_init = test_iterator_pickling = None


if __name__ == "__main__":
    unittest.main()
