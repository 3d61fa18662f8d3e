"""Columns made by `Column(..)`, and their copies by `copy` and `pickle`."""

from __future__ import annotations

import copy
import pickle
import random
import unittest
from typing import Any

import model
import sel
from cases import table
from notation import KINDS, rows_of_types
from sel import Column, Type, parse_type

CASES = 400
PROTOCOLS = range(2, pickle.HIGHEST_PROTOCOL + 1)


class Constructor(unittest.TestCase):
    def test_of_values(self) -> None:
        for column, wanted, rows in table(
            (Column([1, 2, None]), "i64", [1, 2, None]), (Column([1, None], "i8"), "i8", [1, None]), (Column(iter(["a"])), "utf8", ["a"]),
            (Column([], "list<bool>"), "list<bool>", []), (Column([(1, "x"), None]), "struct<i64,utf8>", [(1, "x"), None]),
            (Column([2], Type("u16")), "u16", [2]), (Column([]), "null", []), (Column(values=[True], type="bool"), "bool", [True]),
        ):
            self.assertEqual((str(column.type), column.to_pylist()), (wanted, rows))
            self.assertIs(type(column), Column)

    def test_of_a_column(self) -> None:
        """A column keeps its type, also one that its rows do not tell."""
        for wanted, rows in table(("u8", [1, None]), ("list<i8>", [[], None]), ("binary", [b"a"])):
            column = Column(rows, wanted)
            self.assertEqual((str(Column(column).type), Column(column).to_pylist()), (wanted, rows))
        self.assertEqual(str(Column(Column([1], "u8"), "i16").type), "i16")

    def test_errors(self) -> None:
        make: Any = Column
        for error, use in table(
            (TypeError, lambda: make()), (TypeError, lambda: make(5)), (TypeError, lambda: make([1, "a"])), (TypeError, lambda: make([1], 5)),
            (OverflowError, lambda: make([128], "i8")), (ValueError, lambda: make([1], "i7")), (TypeError, lambda: make([1], "i64", 3)),
        ):
            with self.assertRaises(error):
                use()


class Copies(unittest.TestCase):
    def check(self, column: Column, wanted: Type, rows: list[Any]) -> None:
        copies = [pickle.loads(pickle.dumps(column, protocol)) for protocol in PROTOCOLS] + [copy.copy(column), copy.deepcopy(column)]
        for other in copies:
            self.assertIs(type(other), Column)
            self.assertIsNot(other, column)
            self.assertEqual((other.type, other.to_pylist(), len(other), other.null_count), (wanted, rows, len(rows), sum(row is None for row in rows)))
            self.assertTrue(other.equals(column))
            self.assertEqual(str(other), str(column))

    @unittest.skipUnless(KINDS.exists(), f"{KINDS} is not there: its types are not tested")
    def test_every_type(self) -> None:
        rng, types = random.Random(1), rows_of_types()
        self.assertGreater(len(types), 15)
        for wanted, rows in types:
            self.check(Column(rows, wanted), wanted, rows)
            self.check(Column([], wanted), wanted, [])
            self.check(Column(rows, wanted)[2:6], wanted, rows[2:6])
            self.check(model.laid_out(rng, rows, wanted), wanted, rows)

    def test_random_columns(self) -> None:
        rng = random.Random(2)
        for _ in range(CASES):
            wanted, rows, column = model.random_column(rng, 3, range(12))
            self.check(column, wanted, rows)

    def test_types_at_the_ends(self) -> None:
        for wanted, rows in table(("struct<>", [(), None]), ("fixed<0,i8>", [[], None, []]), ("fixed<4294967295,null>", [None]), ("null", [None] * 3),
                                  ("i128", [-(2**127), 2**127 - 1, None]), ("u128", [2**128 - 1]), ("utf8", ["\0\"\\\u00e9\U0001f600", None, ""]),
                                  ("list<" * 70 + "i8" + ">" * 70, [None, []])):
            self.check(Column(rows, wanted), parse_type(wanted), rows)

    def test_inside_of_other_values(self) -> None:
        column = Column([1, None])
        for again in (pickle.loads(pickle.dumps({"a": [column, column]})), copy.deepcopy({"a": [column, column]})):
            self.assertIs(again["a"][0], again["a"][1])
            self.assertEqual(again["a"][0].to_pylist(), [1, None])
        self.assertEqual(pickle.loads(pickle.dumps(parse_type("fixed<2,list<i8>>"))), parse_type("fixed<2,list<i8>>"))

    def test_a_pickle_of_a_slice_has_its_rows_alone(self) -> None:
        for wanted, rows in table(("i64", list(range(10**5, 2 * 10**5))), ("utf8", [f"{number:030}" for number in range(20_000)]),
                                  ("list<binary>", [[b"x" * 40, b""]] * 20_000)):
            column = Column(rows, wanted)
            self.assertLess(len(pickle.dumps(column[100:102])), 300, wanted)
            self.assertEqual(pickle.loads(pickle.dumps(column[100:102])).to_pylist(), rows[100:102])

    def test_pickles_are_linear(self) -> None:
        sizes = [len(pickle.dumps(Column([[f"{number:020}"] for number in range(count)]))) for count in (1_000, 2_000, 4_000)]
        self.assertLess(sizes[2], 2.2 * sizes[1])
        self.assertLess(sizes[1], 2.2 * sizes[0])


class Aliases(unittest.TestCase):
    def test_if_else(self) -> None:
        column, other = Column([1, None, 3]), Column([7, 8, 9])
        self.assertEqual(sel.if_else([True, False, None], column, other).to_pylist(), [1, 8, 9])
        self.assertEqual(sel.if_else([True, False, None], 0, other).to_pylist(), [0, 8, 9])
        self.assertEqual(sel.if_else(Column([False, True, True]), column, 5).to_pylist(), [5, None, 3])
        self.assertEqual(sel.if_else([True, False], "a", "b").to_pylist(), ["a", "b"])

    def test_list_element(self) -> None:
        self.assertEqual(Column([[1, 2], [], None, [3]]).list_element(0).to_pylist(), [1, None, None, 3])
        self.assertEqual(Column([[1, 2], [], None, [3]]).list_element(-1).to_pylist(), [2, None, None, 3])
        self.assertEqual(Column([["a", None], None], "fixed<2,utf8>").list_element(0).to_pylist(), ["a", None])
        self.assertEqual(Column([["a", "b"], None], "fixed<2,utf8>").list_element(-1).to_pylist(), ["b", None])
        self.assertEqual(Column([["a", "b"], None], "fixed<2,utf8>").list_element(2).to_pylist(), [None, None])
        with self.assertRaises(sel.WrongArgument):
            Column([1]).list_element(0)

    def test_concat(self) -> None:
        first, second, none = Column([1, None]), Column([3, 4, 5])[1:], Column([], "i64")
        self.assertEqual(sel.concat([first, second]).to_pylist(), [1, None, 4, 5])
        self.assertEqual(sel.concat(iter((none, first, none, first))).to_pylist(), [1, None, 1, None])
        self.assertEqual((sel.concat([none, none]).to_pylist(), str(sel.concat([none]).type)), ([], "i64"))
        self.assertEqual(sel.concat([Column([["a"], None]), Column([[None, "b"]], "list<utf8>")]).to_pylist(), [["a"], None, [None, "b"]])
        self.assertEqual(sel.concat([Column([None]), Column([None, None])]).to_pylist(), [None] * 3)
        self.assertEqual(first.to_pylist(), [1, None])
        for error, columns in table((ValueError, []), (TypeError, [first, [1]]), (sel.WrongArgument, [first, Column(["a"])])):
            with self.assertRaises(error, msg=columns) as caught:
                sel.concat(columns)
            self.assertIn("columns", str(caught.exception))
        with self.assertRaises(sel.WrongArgument):
            sel.concat([first, Column([], "i32")])

    def test_drop_null(self) -> None:
        for rows, wanted, expected in table(([1, None, 3], "i8", [1, 3]), ([None, None], "null", []), ([1, 2], "u64", [1, 2]), ([], "utf8", []), ([None], "utf8", []),
                                            ([[None], None, []], "list<i8>", [[None], []]), ([(None,), None], "struct<bool>", [(None,)])):
            found = Column(rows, wanted).drop_null()
            self.assertEqual((str(found.type), found.to_pylist()), (wanted, expected))
        self.assertEqual(Column([None, 1, None, 2, None, 3])[1:5].drop_null().to_pylist(), [1, 2])

    def test_fill_null(self) -> None:
        for rows, wanted, value, expected in table(
            ([1, None, 3], "i8", 0, [1, 0, 3]), ([None, "b"], "utf8", "longer than twelve", ["longer than twelve", "b"]), ([True, None], "bool", False, [True, False]),
            ([[1], None], "list<i64>", [2, None], [[1], [2, None]]), ([None, (1, "a")], "struct<i64,utf8>", (2, None), [(2, None), (1, "a")]),
            ([None, 1], "u128", 2**128 - 1, [2**128 - 1, 1]), ([1, 2], "i64", 7, [1, 2]), ([], "i64", 7, []), ([None], "i64", None, [None]),
            ([None], "null", None, [None]), ([None, b"x"], "binary", b"", [b"", b"x"]),
        ):
            found = Column(rows, wanted).fill_null(value)
            self.assertEqual((str(found.type), found.to_pylist()), (wanted, expected))
        self.assertEqual(Column([None, 1, None, 2, None, 3])[1:5].fill_null(9).to_pylist(), [1, 9, 2, 9])
        for error, rows, wanted, value in table((OverflowError, [None], "i8", 128), (TypeError, [None], "i8", "a"), (TypeError, [1], "i8", 1.0), (TypeError, [None], "null", 1),
                                                (TypeError, [None], "i64", True), (TypeError, [None], "i64", Column([1]))):
            with self.assertRaisesRegex(error, "value"):
                Column(rows, wanted).fill_null(value)

    def test_random_columns(self) -> None:
        rng = random.Random(3)
        for _ in range(CASES):
            wanted, rows, column = model.random_column(rng, 2, range(12))
            value = model.plain_value(rng, wanted)
            self.assertEqual(column.drop_null().to_pylist(), [row for row in rows if row is not None])
            self.assertEqual(column.fill_null(value).to_pylist(), [value if row is None else row for row in rows])
            self.assertEqual(sel.concat([column, column[:1], column]).to_pylist(), rows + rows[:1] + rows)


if __name__ == "__main__":
    unittest.main()
