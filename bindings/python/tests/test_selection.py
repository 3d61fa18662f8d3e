"""Masks that are prepared once, compared with filters by the masks."""

from __future__ import annotations

import copy
import pickle
import random
import unittest
from collections.abc import Callable
from typing import Any

import model
import sel
from cases import numpy, table
from sel import Column, Selection, Table


class Selections(unittest.TestCase):
    def test_a_filter_by_a_prepared_mask(self) -> None:
        """Columns of each type, filtered by one selection, have the rows that the model keeps."""
        draw = random.Random(11)
        masks: list[list[bool | None]] = [
            [True] * 200, [False] * 200, [50 <= row < 90 for row in range(200)], [draw.choice([True, False, None]) for _ in range(200)], []]
        for mask in masks:
            selection, count = Selection(mask), len(mask)
            kept = sum(value is True for value in mask)
            self.assertEqual((len(selection), selection.count, repr(selection)), (count, kept, f"Selection({kept} of {count} rows)"))
            for kind, rows in table(("i64", list(range(count))), ("utf8", [f"row {row} of some length" for row in range(count)]),
                                    ("list<i8>", [[row % 100] * (row % 3) for row in range(count)]), ("bool", [row % 3 == 0 for row in range(count)]),
                                    ("struct<i64,utf8>", [None if row % 5 == 0 else (row, "x") for row in range(count)])):
                column = Column(rows, kind)
                self.assertEqual(column.filter(selection).to_pylist(), model.kept(rows, mask), kind)
                self.assertEqual(str(column.filter(selection).type), str(column.type))

    def test_what_a_mask_may_be(self) -> None:
        rows = Column([10, 20, 30])
        masks: list[Any] = [[True, None, True], iter([True, False, True]), Column([True, None, True]), Column([False, True, None, True]).sliced(1, 3)]
        if numpy is not None:
            masks.append(numpy.array([True, False, True]))
        for mask in masks:
            self.assertEqual(rows.filter(Selection(mask)).to_pylist(), [10, 30])

    def test_a_mask_lives_as_long_as_its_selection(self) -> None:
        mask = Column([row % 2 == 0 for row in range(1_000)])
        selection = Selection(mask)
        del mask
        again = [copy.copy(selection), copy.deepcopy(selection)]
        self.assertTrue(all(one is selection for one in again))
        self.assertEqual(Column(range(1_000)).filter(again[0]).to_pylist(), list(range(0, 1_000, 2)))

    def test_tables(self) -> None:
        rows = Table({"a": [1, 2, 3], "b": ["x", None, "z"]})
        self.assertEqual(rows.filter(Selection([True, False, True])).to_pydict(), {"a": [1, 3], "b": ["x", "z"]})
        self.assertEqual(len(Table({}).filter(Selection([]))), 0)

    def test_errors(self) -> None:
        faults: list[tuple[type[Exception], Callable[[], Any]]] = [
            (TypeError, lambda: Selection([1, 0])), (sel.WrongArgument, lambda: Selection(Column([1, 0]))), (TypeError, lambda: Selection(None)),  # type: ignore[arg-type,list-item]
            (sel.WrongArgument, lambda: Column([1]).filter(Selection([True, False]))), (sel.WrongArgument, lambda: Table({"a": [1]}).filter(Selection([]))),
            (sel.WrongArgument, lambda: Table({}).filter(Selection([True]))), (TypeError, lambda: pickle.dumps(Selection([True]))),
            (TypeError, lambda: Column([1]).take(Selection([True]))),  # type: ignore[arg-type]
        ]
        for fault, use in faults:
            with self.assertRaises(fault):
                use()


if __name__ == "__main__":
    unittest.main()
