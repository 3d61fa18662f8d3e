"""The examples of the docstrings and of the README, run as they stand."""

from __future__ import annotations

import doctest
import importlib
import unittest
from pathlib import Path

import sel
from cases import numpy

README = Path(__file__).resolve().parents[1] / "README.md"


def _examples() -> list[doctest.DocTest]:
    """Returns the examples of each module, which may use `sel`, and those of the README, which import what they use."""
    finder, found = doctest.DocTestFinder(exclude_empty=True), []
    for path in sorted(Path(sel.__file__).parent.glob("*.py")):
        module = sel if path.stem == "__init__" else importlib.import_module(f"sel.{path.stem}")
        found += finder.find(module, extraglobs={"sel": sel})
    if README.exists():
        found.append(doctest.DocTestParser().get_doctest(README.read_text(), {}, README.name, str(README), 0))
    return [each for each in found if each.examples and (numpy is not None or not any("numpy" in example.source for example in each.examples))]


class Examples(unittest.TestCase):
    def test_public_names_have_one(self) -> None:
        """Each public function and method has an example, and each public class a docstring."""
        with_examples = {each.name.rpartition(".")[2] for each in _examples()} if numpy is not None else set()
        for name in sel.__all__:
            value = getattr(sel, name)
            self.assertTrue(value.__doc__, name)
            if not isinstance(value, type):
                self.assertIn(name, with_examples or [name])
        for name, value in vars(sel.Column).items():
            if callable(value) or isinstance(value, (property, staticmethod)):
                self.assertTrue(value.__doc__ or name.startswith("_"), name)
                if not name.startswith("_"):
                    self.assertIn(name, with_examples or [name])


def load_tests(loader: unittest.TestLoader, tests: unittest.TestSuite, pattern: str | None) -> unittest.TestSuite:
    """Adds the examples to the tests of this module."""
    tests.addTests(doctest.DocTestCase(each) for each in _examples())
    return tests


if __name__ == "__main__":
    unittest.main()
