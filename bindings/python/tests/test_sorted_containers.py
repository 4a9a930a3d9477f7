"""The examples in the documentation of `sortedcontainers`, run with the classes of this module in the place of its own."""

import doctest
import unittest

from verified_art import SortedMap, SortedSet

try:
    import sortedcontainers
except ImportError as error:
    raise unittest.SkipTest("sortedcontainers is absent (Debian: python3-sortedcontainers)") from error

# A function that sorts, which is none of the arguments here.
LEFT_OUT = {"SortedSet.__init__"}


class Checker(doctest.OutputChecker):
    def check_output(self, want, got, flags):
        return super().check_output(want, got.replace("SortedMap", "SortedDict"), flags)


class Examples(unittest.TestCase):
    def test_they_print_what_they_say(self):
        finder, runner = doctest.DocTestFinder(), doctest.DocTestRunner(Checker(), False, doctest.IGNORE_EXCEPTION_DETAIL)
        names = {"SortedDict": SortedMap, "SortedSet": SortedSet}
        for kind in (sortedcontainers.SortedDict, sortedcontainers.SortedSet):
            for test in finder.find(kind, globs=names):
                said = []
                if test.name not in LEFT_OUT:
                    self.assertEqual(runner.run(test, out=said.append).failed, 0, f"{test.name}: {''.join(said)}")
        self.assertGreater(runner.summarize(False).attempted, 50)


if __name__ == "__main__":
    unittest.main()
