"""Runs the examples in the documentation of the module. Each public call has one: test_documentation.py [--without-numpy]"""

import set_up

import ast
import doctest
import importlib
import inspect
import pathlib
import pkgutil
import unittest

import v_frame
from v_frame import y4m

#: Names that need no example, because they are not called.
WITHOUT = {"Part", "Statistics", "PairStatistics", "Frames", "Greatest"}


class Documentation(unittest.TestCase):
    def test_the_examples(self):
        names = {name: getattr(module, name) for module in (v_frame, y4m) for name in module.__all__}
        ran = 0
        for found in pkgutil.iter_modules(v_frame.__path__):
            module = importlib.import_module(f"v_frame.{found.name}")
            result = doctest.testmod(module, extraglobs=names)
            self.assertEqual(result.failed, 0)
            ran += result.attempted
        self.assertEqual(doctest.testmod(v_frame, extraglobs=names).failed, 0)
        self.assertGreater(ran, 60)

    def test_the_language_is_that_of_the_version_that_is_stated(self):
        for folder in v_frame.__path__:
            for name in pathlib.Path(folder).glob("*.py"):
                ast.parse(name.read_text(), feature_version=(3, 10))

    def test_each_call_has_one(self):
        for module in (v_frame, y4m):
            for name in module.__all__:
                it = getattr(module, name)
                if not callable(it) or name in WITHOUT:
                    continue
                self.assertTrue(inspect.getdoc(it), name)
                is_error = inspect.isclass(it) and issubclass(it, v_frame.Error)
                self.assertTrue(is_error or ">>> " in it.__doc__, name)


if __name__ == "__main__":
    set_up.main()
