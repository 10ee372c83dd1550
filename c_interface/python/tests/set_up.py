"""The setup that all tests import first. With --without-numpy, the module is tested as if numpy were not installed."""

import sys
import unittest

if "--without-numpy" in sys.argv:
    sys.argv.remove("--without-numpy")
    sys.modules["numpy"] = None

try:
    import numpy
except ImportError:
    numpy = None


def main():
    """Runs the tests of the program. The exit status states whether all of them passed."""
    result = unittest.main(exit=False, verbosity=0).result
    print(f"{result.testsRun} tests, {len(result.skipped)} skipped")
    sys.exit(not result.wasSuccessful())
