"""`column[key]`: integers, slices of any step, sequences of integers, and masks, beside Python's and numpy's own indexing."""

from __future__ import annotations

import random
import unittest
from array import array
from collections import deque
from typing import Any

import model
import sel
from cases import Index, numpy, table
from sel import Column, Type

CASES = 400
LETTERS: Any = Column.from_pylist(["a", "b", "c", None])
EMPTY: Any = Column.from_pylist([], "i64")


class numpy_bool:
    """Stands for a numpy.bool_, of which the name and the module of its type are known."""

    def __init__(self, value: bool) -> None:
        self.value = value

    def __bool__(self) -> bool:
        return self.value


numpy_bool.__name__, numpy_bool.__module__ = "bool_", "numpy"
newer_bool = type("bool", (numpy_bool,), {"__module__": "numpy"})
other_bool = type("bool_", (numpy_bool,), {"__module__": "other"})


class Slices(unittest.TestCase):
    def test_steps(self) -> None:
        column = Column.from_pylist([10, 11, 12, 13, 14])
        for place, expected in (
            (slice(None, None, -1), [14, 13, 12, 11, 10]), (slice(None, None, 2), [10, 12, 14]), (slice(1, None, 3), [11, 14]),
            (slice(3, 0, -2), [13, 11]), (slice(None, None, 100), [10]), (slice(2, 2, -1), []), (slice(1, 4), [11, 12, 13]), (slice(4, 1), []),
        ):
            self.assertEqual(column[place].to_pylist(), expected, place)
        with self.assertRaises(ValueError):
            column[::0]

    def test_random_slices(self) -> None:
        rng = random.Random(1)
        for _ in range(CASES):
            wanted, rows, column = model.random_column(rng, 2, range(8))
            start, stop = (rng.choice((None, rng.randrange(-10, 10))) for _ in range(2))
            place = slice(start, stop, rng.choice((None, -3, -2, -1, 1, 2, 3)))
            self.assertEqual(column[place].to_pylist(), rows[place], (rows, place))
            self.assertEqual(column[place].type, wanted)


class Sequences(unittest.TestCase):
    def test_integers(self) -> None:
        for key in ([2, 0, -1, 2], (2, 0, -1, 2), deque([2, 0, -1, 2]), array("b", [2, 0, -1, 2]), [Index(2), 0, Index(-1), 2], Column([2, 0, -1, 2]),
                    Column([2, 0, -1, 2], "i8"), Column([2, 0, 3, 2], "u64")):
            self.assertEqual(LETTERS[key].to_pylist(), ["c", "a", None, "c"], key)
        self.assertEqual(LETTERS[range(3, 0, -1)].to_pylist(), [None, "c", "b"])
        self.assertEqual(LETTERS[Column([1, None, -4])].to_pylist(), ["b", None, "a"])
        for column in (LETTERS, EMPTY):
            for empty in table([], (), range(0), Column([], "i64"), Column([], "u8")):
                self.assertEqual((column[empty].to_pylist(), column[empty].type), ([], column.type), empty)

    def test_out_of_range(self) -> None:
        for key, place, value in table(([0, 4], 1, 4), ([-5], 0, -5), ([0, 2**32], 1, 2**32), ([-(2**64)], 0, -(2**64)), ((3, Index(4)), 1, 4), (range(3, 6), 1, 4),
                                       (Column([0, -5]), 1, -5), (Column([None, 2**100], "i128"), 1, 2**100), (Column([255], "u8"), 0, 255)):
            with self.assertRaises(sel.OutOfBounds, msg=key) as caught:
                LETTERS[key]
            self.assertEqual(str(caught.exception), f"index[{place}]: {value} is out of bounds of 4 rows")
        for key in table([0], [-1], Column([0])):
            with self.assertRaisesRegex(IndexError, "is out of bounds of 0 rows"):
                EMPTY[key]

    def test_masks(self) -> None:
        for key in table([True, False, False, True], (True, False, False, True), Column([True, False, None, True]),
                         [numpy_bool(True), False, newer_bool(False), newer_bool(True)]):
            self.assertEqual(LETTERS[key].to_pylist(), ["a", None], key)
        self.assertEqual(LETTERS[Column([True] * 4)].to_pylist(), LETTERS.to_pylist())
        self.assertEqual(EMPTY[Column([], "bool")].to_pylist(), [])
        flags: Any = Column([True, False, None])
        self.assertEqual(flags[flags].to_pylist(), [True])

    def test_masks_of_another_length(self) -> None:
        for key, count in table(([True], 1), ([False] * 5, 5), (Column([], "bool"), 0), (Column([None, True]), 2), ((True,) * 3, 3)):
            with self.assertRaises(ValueError, msg=key) as caught:
                LETTERS[key]
            self.assertEqual(str(caught.exception), f"index: a mask of {count} booleans for 4 rows")

    def test_other_keys(self) -> None:
        for key, text in table(
            ([0, True], "index[1]: True"), ([True, 0, True, True], "index[1]: 0"), ([0, None], "index[1]: None"), ([True, None, True, True], "index[1]: None"),
            ([None, None], "index[0]: None"), ([1.0], "index[0]: 1.0"), ([[0]], "index[0]: [0]"), ("a", "index: 'a'"), (b"\0", "index: b'\\x00'"),
            (bytearray(1), "index: bytearray"), (memoryview(b"\0"), "index: <memory"), ({0}, "index: {0}"), ({0: 1}, "index: {0: 1}"), (iter([0]), "index: <list_itera"),
            (None, "index: None"), (True, "index: True"), (numpy_bool(True), "index: "), ([0, numpy_bool(True)], "index[1]: "), ([other_bool(True)], "index[0]: "),
            (LETTERS, "index: a column of type utf8"), (Column([None]), "index: a column of type null"),
        ):
            with self.assertRaises(TypeError, msg=key) as caught:
                LETTERS[key]
            self.assertIn(text, str(caught.exception))

    def test_random_keys(self) -> None:
        rng = random.Random(2)
        for _ in range(CASES):
            wanted, count = model.random_type(rng, 2), rng.randrange(1, 8)
            rows = model.random_rows(rng, wanted, count)
            column = model.laid_out(rng, rows, wanted)
            indices = [rng.randrange(-count, count) for _ in range(rng.randrange(9))]
            self.assertEqual(column[indices].to_pylist(), [rows[index] for index in indices])
            mask: Any = [rng.random() < 0.5 for _ in rows]
            self.assertEqual(column[mask].to_pylist(), model.kept(rows, mask))
            self.assertEqual(column[model.laid_out(rng, mask, Type("bool"))].to_pylist(), model.kept(rows, mask))
            self.assertEqual(column[model.laid_out(rng, indices, Type("i16"))].to_pylist(), [rows[index] for index in indices])


class Booleans(unittest.TestCase):
    """Booleans of numpy are known without numpy, and are no integers."""

    def test_where_a_boolean_is_needed(self) -> None:
        for kind in table(numpy_bool, newer_bool):
            self.assertEqual(Column([kind(True), None, kind(False)]).to_pylist(), [True, None, False])
            self.assertEqual(Column([1, 2]).filter([kind(False), kind(True)]).to_pylist(), [2])
            self.assertEqual(Column([[1]], "fixed<1,i64>").fixed_get(1, kind(True)).to_pylist(), [None])
            for use in table(lambda value: LETTERS.take([value]), lambda value: Column([value], "i64"), lambda value: LETTERS[value]):
                with self.assertRaises(TypeError):
                    use(kind(True))

    def test_other_types_of_that_name(self) -> None:
        for value in table(other_bool(True), type("bool_", (), {"__module__": "numpy"})(), type("bool8", (numpy_bool,), {"__module__": "numpy"})(True)):
            with self.assertRaises(TypeError):
                Column([value], "bool")


@unittest.skipIf(numpy is None, "numpy is not installed: its arrays are not tested as keys")
class Arrays(unittest.TestCase):
    def test_integers(self) -> None:
        for kind in ("int8", "int16", "int32", "int64", ">i4"):
            self.assertEqual(LETTERS[numpy.array([2, 0, -1], dtype=kind)].to_pylist(), ["c", "a", None])
            with self.assertRaisesRegex(IndexError, r"index\[1\]: -5 is out of bounds of 4 rows"):
                LETTERS[numpy.array([0, -5], dtype=kind)]
        for kind in ("uint8", "uint16", "uint32", "uint64"):
            self.assertEqual(LETTERS[numpy.array([2, 0, 3], dtype=kind)].to_pylist(), ["c", "a", None])
            most = int(numpy.iinfo(kind).max)
            with self.assertRaisesRegex(IndexError, rf"index\[1\]: {most} is out of bounds of 4 rows"):
                LETTERS[numpy.array([0, most], dtype=kind)]
        self.assertEqual(LETTERS[numpy.array([1, -4], dtype=object)].to_pylist(), ["b", "a"])
        self.assertEqual(LETTERS[numpy.ma.array([1, 100, -1], mask=[False, True, False])].to_pylist(), ["b", None, None])
        self.assertEqual(LETTERS[[numpy.int8(-2), numpy.uint64(1)]].to_pylist(), ["c", "b"])
        self.assertEqual(LETTERS[numpy.int64(-2)], "c")
        for least in (-(2**63), -(2**63) + 1, 2**63 - 1):
            with self.assertRaises(IndexError):
                LETTERS[numpy.array([least])]

    def test_masks(self) -> None:
        mask = numpy.array([True, False, True, False])
        self.assertEqual(LETTERS[mask].to_pylist(), ["a", "c"])
        self.assertEqual(LETTERS[list(mask)].to_pylist(), ["a", "c"])
        self.assertEqual(LETTERS[mask.astype(object)].to_pylist(), ["a", "c"])
        self.assertEqual(LETTERS[numpy.ma.array(mask, mask=[True, False, False, False])].to_pylist(), ["c"])
        with self.assertRaisesRegex(ValueError, "index: a mask of 3 booleans for 4 rows"):
            LETTERS[mask[:3]]

    def test_others(self) -> None:
        for key in table(numpy.array([1.0]), numpy.array([]), numpy.array(["a"]), numpy.array([[0]]), numpy.array(True), numpy.bool_(True),
                         numpy.ma.masked, numpy.array([True, None, True, True], dtype=object), [numpy.bool_(True), 1, 2, 3], [1, numpy.bool_(True)]):
            with self.assertRaisesRegex(TypeError, "index", msg=key):
                LETTERS[key]

    def test_as_numpy_does(self) -> None:
        rng = random.Random(3)
        for _ in range(CASES):
            values = [rng.randrange(-100, 100) for _ in range(rng.randrange(1, 9))]
            column, plain = Column.from_numpy(numpy.array(values)), numpy.array(values)
            indices = [rng.randrange(-len(values) - 1, len(values) + 1) for _ in range(rng.randrange(1, 5))]
            for key in table(indices, numpy.array(indices), [numpy.int8(index) for index in indices]):
                try:
                    expected = plain[key].tolist()
                except IndexError:
                    with self.assertRaises(IndexError):
                        column[key]
                else:
                    self.assertEqual(column[key].to_pylist(), expected)


if __name__ == "__main__":
    unittest.main()
