"""The examples in the documentation: docstrings and README.md."""

from __future__ import annotations

import doctest
import importlib
import unittest
from pathlib import Path

import interpolator

README = Path(__file__).resolve().parent.parent / "README.md"


class Examples(unittest.TestCase):
    def test_docstrings(self) -> None:
        attempted = 0
        # not the library, whose name is that of a module too
        names = [path.stem for path in Path(interpolator.__file__).parent.glob("_[!_]*.py")]
        for name in ["interpolator", *(f"interpolator.{name}" for name in names)]:
            result = doctest.testmod(importlib.import_module(name))
            self.assertEqual(0, result.failed, name)
            attempted += result.attempted
        self.assertGreaterEqual(attempted, 30)

    def test_readme(self) -> None:
        result = doctest.testfile(str(README), module_relative=False)
        self.assertEqual(0, result.failed)
        self.assertGreaterEqual(result.attempted, 10)


if __name__ == "__main__":
    unittest.main()
