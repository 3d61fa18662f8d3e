"""The exceptions: their classes and attributes, and that they survive pickles, copies and other processes."""

from __future__ import annotations

import copy
import multiprocessing
import pickle
import unittest
from collections.abc import Callable
from concurrent.futures import ProcessPoolExecutor
from typing import Any

import sel
from cases import table
from sel import Column, SelError, _errors, _statuses
from sel._errors import error_of

PROTOCOLS = range(2, pickle.HIGHEST_PROTOCOL + 1)

# A call for each class of exceptions; OutOfMemory is made without a call.
FAILING: dict[type[SelError], Callable[[], Any]] = {
    sel.WrongArgument: lambda: Column([1]).filter([True, False]),
    sel.OutOfBounds: lambda: Column([1]).take([1]),
    sel.LimitPassed: lambda: Column.parse("fixed<4294967296,i8>", "[]"),
    sel.BrokenRule: lambda: Column([2**127 - 1], "i128").__arrow_c_array__(),
    sel.BrokenText: lambda: Column.parse("i7", "[]"),
    sel.OutOfMemory: lambda: throw(error_of(1, "out of memory")),
}


class OfACaller(sel.OutOfBounds):
    """An exception of a user of the package, with an attribute and a method of its own."""

    def __init__(self, table: str) -> None:
        super().__init__(6, f"index out of bounds in {table}")
        self.table = table


def throw(error: Exception) -> None:
    raise error


def raised_by(kind: type[SelError]) -> SelError:
    """Returns the exception of a call."""
    try:
        FAILING[kind]()
    except SelError as error:
        return error
    raise AssertionError("no exception")


def fail(name: str) -> None:
    """Raises an exception in another process."""
    raise raised_by(getattr(sel, name))


class Errors(unittest.TestCase):
    def check(self, found: Any, error: SelError) -> None:
        self.assertIs(type(found), type(error))
        self.assertIsNot(found, error)
        self.assertEqual((str(found), repr(found), found.args, found.__dict__), (str(error), repr(error), error.args, error.__dict__))

    def test_classes(self) -> None:
        self.assertEqual({kind.__name__ for kind in FAILING}, set(_statuses.EXCEPTIONS.values()))
        for kind in FAILING:
            error = raised_by(kind)
            self.assertIs(type(error), kind)
            self.assertEqual(_statuses.EXCEPTIONS[error.status], kind.__name__)
            self.assertTrue(error.text)
            self.assertIn(error.text, str(error))
        for number, name in _statuses.EXCEPTIONS.items():
            self.assertTrue(issubclass(getattr(_errors, name), SelError), number)

    def test_pickles_and_copies(self) -> None:
        own: Any = raised_by(sel.OutOfBounds)
        own.note = ["of the caller"]
        for error in table(*map(raised_by, FAILING), SelError(99, "unknown status"), OfACaller("prices"), own):
            for protocol in PROTOCOLS:
                self.check(pickle.loads(pickle.dumps(error, protocol)), error)
            self.check(copy.copy(error), error)
            self.check(copy.deepcopy(error), error)
            self.check(pickle.loads(pickle.dumps({"error": error}))["error"], error)

    def test_the_place_in_a_text(self) -> None:
        found = pickle.loads(pickle.dumps(raised_by(sel.BrokenText)))
        self.assertEqual((found.status, found.place), (32, 1))

    def test_of_another_process(self) -> None:
        with ProcessPoolExecutor(1, mp_context=multiprocessing.get_context("spawn")) as pool:
            for kind in FAILING:
                with self.assertRaises(kind) as caught:
                    pool.submit(fail, kind.__name__).result(timeout=120)
                error = raised_by(kind)
                self.assertEqual((str(caught.exception), caught.exception.__dict__["status"]), (str(error), error.status))


if __name__ == "__main__":
    unittest.main()
