"""The example of the README."""

import doctest
import unittest
from pathlib import Path


def load_tests(_loader, tests, _pattern):
    tests.addTests(doctest.DocFileSuite(str(Path(__file__).parent.parent / "README.md"), module_relative=False))
    return tests


if __name__ == "__main__":
    unittest.main()
