"""Columns as indices and as masks: dictionaries are decoded, and other logical types refused. Arrow data of other libraries."""

from __future__ import annotations

import datetime
import random
import unittest
from collections.abc import Callable
from decimal import Decimal
from typing import Any
from unittest.mock import patch

import model
import sel
from cases import numpy, table
from sel import Column, Selection, Table, Type, _arguments, _indexing
from sel._logical import coded_type
from sel._makers import made_of
from sel._types import NUMBERS

LETTERS = Column(["a", "b", "c", "d"])
PAIRS = Column([[1, 2], [3, 4]], "fixed<2,i64>")


def coded(keys: list[Any], values: Column, kind: str = "i32", format: str = "i") -> Column:
    """Returns a column of keys with a dictionary."""
    return Column._owning(made_of(keys, Type(kind)), coded_type(format, values, values._logical))


class Both:
    """Arrow data of another library whose protocol of numpy makes NaN of nulls."""

    def __init__(self, column: Column) -> None:
        self.column = column

    def __array__(self, dtype: Any = None, copy: Any = None) -> Any:
        return numpy.array([numpy.nan if value is None else value for value in self.column.to_pylist()], dtype=float)

    def __arrow_c_array__(self, requested_schema: object = None) -> tuple[object, object]:
        return self.column.__arrow_c_array__()


class BothAsStream(Both):
    """The same as a stream alone, as a Series of polars."""

    __arrow_c_array__ = property()  # type: ignore[assignment]

    def __arrow_c_stream__(self, requested_schema: object = None) -> object:
        return self.column.__arrow_c_stream__()


class WithoutModule(Both):
    """Arrow data that needs a module which is not there, as a Series of pandas needs pyarrow."""

    def __arrow_c_array__(self, requested_schema: object = None) -> tuple[object, object]:
        raise ImportError("there is no pyarrow")


class Keys(unittest.TestCase):
    def test_dictionaries_are_decoded(self) -> None:
        self.assertEqual(LETTERS[coded([0, 1, None], Column([3, -2]))].to_pylist(), ["d", "c", None])
        self.assertEqual(LETTERS.take(coded([0, 1], Column([3, 2], "u32"), "u32", "I")).to_pylist(), ["d", "c"])
        flags = coded([0, 1, 1, 0], Column([True, False]), "i8", "c")
        for found in (LETTERS[flags], LETTERS.filter(flags), LETTERS.filter(Selection(flags)), Table({"x": LETTERS}).filter(flags)["x"], Table({"x": LETTERS})[flags]["x"]):
            self.assertEqual(found.to_pylist(), ["a", "d"])
        self.assertEqual(sel.choose(flags, LETTERS, "z").to_pylist(), ["a", "z", "z", "d"])
        self.assertEqual(PAIRS.fixed_get(coded([1, 0], Column([0, -1]), "u8", "C")).to_pylist(), [2, 3])
        keys, values = sel.propagate_dictionary(coded([1, 0], Column([0, 1], "u32"), "u32", "I"), coded([0, None], Column(["a"])))
        self.assertEqual((keys.to_pylist(), values.to_pylist()), ([None, 0], ["a"]))

    def test_other_types_are_refused(self) -> None:
        for key in table(Column([0.0]), Column([0.0], "float"), Column([Decimal("0.02")], "decimal32(9, 2)"), Column([datetime.timedelta(microseconds=2)]), Column([datetime.date(1970, 1, 2)]),
                         coded([0], Column([0.5])), coded([0], Column([1], "timestamp[s]"))):
            uses: list[Any] = [lambda: LETTERS[key], lambda: LETTERS.take(key), lambda: LETTERS[:1].filter(key), lambda: Selection(key), lambda: PAIRS[:1].fixed_get(key),
                               lambda: sel.choose(key, 1, 2), lambda: Table({"x": LETTERS}).take(key), lambda: sel.propagate_dictionary(key, LETTERS)]
            for number, use in enumerate(uses):
                with self.assertRaisesRegex(TypeError, "a column of type .*, where integers or booleans are needed", msg=(key, number)):
                    use()

    def test_kinds_that_a_call_does_not_take(self) -> None:
        """The message says which kind is needed; values without any value but None have the kind null."""
        for use, keys, needed in table(
            (LETTERS.take, (Column(["a"]), Column([True]), Column([[0]]), Column([(0,)])), "integers are"), (Table({"x": LETTERS}).take, (Column([True]),), "integers are"),
            (LETTERS.filter, (Column([1, 0, 1, 0]), Column(["a"] * 4), Column([None] * 4), Column([])), "bool is"), (Selection, (Column([1]), Column([])), "bool is"),
            (lambda key: sel.choose(key, 1, 2), (Column([1]), Column([])), "bool is"), (PAIRS.fixed_get, (Column([True, False]), Column(["a", "b"])), "integers are"),
            (lambda key: sel.propagate_dictionary(key, LETTERS), (Column([True]), Column(["a"])), "integers are"),
        ):
            for key in keys:
                for given in (key, Both(key)) if needed == "bool is" else (key,):
                    with self.assertRaisesRegex(sel.WrongArgument, f"a column of type {key.type.kind}, where {needed} needed") as caught:
                        use(given)
                    self.assertEqual(caught.exception.status, 3)
                    self.assertEqual("give its type" in str(caught.exception), str(key.type) == "null")

    def test_names_do_not_matter(self) -> None:
        named = Column.from_arrow(Table({"i": Column([2, None], "u32"), "f": [True, False]}))
        self.assertEqual((LETTERS[named.field("i")].to_pylist(), LETTERS.take(named.field("i")).to_pylist()), (["c", None], ["c", None]))
        self.assertEqual(LETTERS[:2][named.field("f")].to_pylist(), ["a"])


def limits_of(kind: str) -> tuple[int, int]:
    """Returns the least and the greatest integer of a kind."""
    bits = NUMBERS[kind][1]
    return (-(1 << (-bits - 1)), (1 << (-bits - 1)) - 1) if bits < 0 else (0, (1 << bits) - 1)


def integers_near(kind: str, count: int) -> list[int]:
    """Returns the integers of a kind at the ends of each number of bits, and near 0 and a number of rows."""
    least, most = limits_of(kind)
    ends = [sign * (1 << bits) + step for bits in (7, 8, 15, 16, 31, 32, 63, 64, 127, 128) for sign in (1, -1) for step in (-1, 0, 1, 2)]
    return [number for number in (*ends, *range(-count - 2, count + 2)) if least <= number <= most]


class Indices(unittest.TestCase):
    """Columns of indices of every integer type and of type null, beside plain lists."""

    def test_rows(self) -> None:
        for kind in NUMBERS:
            for indices in table([], [0], [3, 0, 3, 1], [3, None, 0], [None], [None] * 9, [1] * 100):
                key, expected = Column(indices, kind), model.taken(LETTERS.to_pylist(), indices)
                for given in table(key, Both(key), BothAsStream(key)):
                    for found in (LETTERS.take(given), Table({"x": LETTERS}).take(given)["x"], LETTERS[given]):
                        self.assertEqual(found.to_pylist(), expected, (kind, indices))

    def test_random_indices(self) -> None:
        """With any integers of the type, and other ones in null slots: a row for each index, or an error that names the first one that does not fit."""
        rng = random.Random(4)
        for number in range(600):
            kind, rows = rng.choice(list(NUMBERS)), [*range(rng.randrange(1, 6))]
            good = [index for index in integers_near(kind, len(rows)) if 0 <= index < len(rows)]
            indices: list[Any] = [rng.choice((None, *good)) for _ in range(rng.randrange(12))]
            if number % 3 == 0:
                indices.insert(rng.randrange(len(indices) + 1), rng.choice(integers_near(kind, len(rows))))
            column, key = Column(rows, "i64"), model.laid_out(rng, indices, Type(kind))
            outside = [(place, index) for place, index in enumerate(indices) if index is not None and not 0 <= index < 2**32]
            if all(index is None or 0 <= index < len(rows) for index in indices):
                self.assertEqual(column.take(key).to_pylist(), model.taken(rows, indices), (kind, indices))
                continue
            with self.assertRaises(sel.OutOfBounds, msg=(kind, indices)) as caught:
                column.take(key)
            text = f"indices[{outside[0][0]}]: {outside[0][1]} is outside [0, 4294967295]" if outside else "index out of bounds"
            self.assertTrue(str(caught.exception).startswith(text), (kind, indices, caught.exception))

    def test_out_of_bounds(self) -> None:
        """No bit of an integer is lost, and none is wrapped."""
        for key, text in table(
            (Column([0, -1]), "indices[1]: -1 is outside [0, 4294967295]; negative indices are not supported"), (Column([None, 2**32]), "indices[1]: 4294967296 is outside"),
            (Column([2**32 + 1]), "indices[0]: 4294967297 is outside"), (Column([2**63 + 1], "u64"), f"indices[0]: {2**63 + 1} is outside"), (Column([2**64 - 1], "u64"), f"indices[0]: {2**64 - 1} is outside"),
            (Column([0, 2**127 + 1], "u128"), f"indices[1]: {2**127 + 1} is outside"), (Column([-(2**127)], "i128"), f"indices[0]: {-(2**127)} is outside"), (Column([-128], "i8"), "indices[0]: -128 is outside"),
            (Column([4]), "index out of bounds"), (Column([2**31], "i64"), "index out of bounds"), (Column([2**32 - 1], "u64"), "index out of bounds"), (Column([255], "u8"), "index out of bounds"),
        ):
            for use in table(LETTERS.take, Table({"x": LETTERS}).take):
                for given in table(key) if key.type == Type("i128") else table(key, Both(key)):
                    with self.assertRaises(sel.OutOfBounds, msg=key) as caught:
                        use(given)
                    self.assertEqual(caught.exception.status, 6)
                    self.assertIn(text, str(caught.exception))
            with self.assertRaises(sel.OutOfBounds):
                sel.propagate_dictionary(key, LETTERS)

    def test_nulls(self) -> None:
        """A column of type null has null indices. As a key in brackets it could also be a mask."""
        for count in (0, 1, 9, 100):
            for key in table(Column([None] * count), Both(Column([None] * count))):
                for found in (LETTERS.take(key), Table({"x": LETTERS}).take(key)["x"]):
                    self.assertEqual((found.to_pylist(), found.type), ([None] * count, LETTERS.type))
            keys, _ = sel.propagate_dictionary(Column([None] * count), LETTERS)
            self.assertEqual((keys.to_pylist(), keys.type), ([None] * count, Type("u32")))
        self.assertEqual(PAIRS.fixed_get(Column([None, None])).to_pylist(), [None, None])
        with self.assertRaises(sel.OutOfBounds):
            PAIRS.fixed_get(Column([None, None]), null_on_oob=False)
        self.assertEqual(len(Table({}).take(Column([None]))), 1)
        for key in table(Column([]), Column([None] * 4), Both(Column([None] * 4))):
            with self.assertRaisesRegex(TypeError, "a column of type null, where integers or booleans are needed"):
                LETTERS[key]

    def test_elements_of_lists(self) -> None:
        """Negative indices count from the end of each list; an index outside the 64-bit integers raises IndexError, whatever `null_on_oob` is."""
        rng = random.Random(5)
        for _ in range(600):
            kind, count, width = rng.choice(list(NUMBERS)), rng.randrange(8), rng.randrange(4)
            lists: list[Any] = [None if rng.random() < 0.2 else [rng.randrange(100) for _ in range(width)] for _ in range(count)]
            near = integers_near(kind, width)
            indices: list[Any] = [rng.choice((None, *[index for index in near if -(2**63) <= index < 2**63])) for _ in range(count)]
            if count > 0 and rng.random() < 0.3:
                indices[rng.randrange(count)] = rng.choice(near)
            column, key = model.laid_out(rng, lists, Type("fixed", (Type("i64"),), width)), model.laid_out(rng, indices, Type(kind))
            outside = [(place, index) for place, index in enumerate(indices) if index is not None and not -(2**63) <= index < 2**63]
            if outside:
                with self.assertRaises(sel.OutOfBounds, msg=(kind, indices)) as caught:
                    column.fixed_get(key)
                self.assertIn(f"index[{outside[0][0]}]: {outside[0][1]} is outside", str(caught.exception))
            else:
                expected = [None if index is None else model.element(row, index) for row, index in zip(lists, indices)]
                self.assertEqual(column.fixed_get(key).to_pylist(), expected, (kind, indices))

    def test_keys_of_strings(self) -> None:
        words = ["a", None, "c", "d"]
        for kind in NUMBERS:
            for indices in table([], [0, 1, 2, None], [3, 3], [1]):
                keys, values = sel.propagate_dictionary(Column(indices, kind), Column(words))
                self.assertEqual((keys.to_pylist(), values.to_pylist()), model.handed_on(indices, words))
                self.assertEqual(keys.type, Type("u32"))

    def test_no_row_is_read_in_python(self) -> None:
        """Indices are converted without a loop over the rows, unless one is negative or too large."""
        uses: list[Callable[[Any], Any]] = [LETTERS.take, Table({"x": LETTERS}).take, lambda key: LETTERS[key], lambda key: sel.propagate_dictionary(key, LETTERS)]
        with patch.object(_arguments, "rows_of", side_effect=AssertionError), patch.object(_indexing, "rows_of", side_effect=AssertionError):
            for kind in NUMBERS:
                for use in uses:
                    use(Column([3, None, 0], kind))
                PAIRS.fixed_get(Column([1, None], kind))


class OtherLibraries(unittest.TestCase):
    def test_nulls_stay_nulls(self) -> None:
        for kind in table(Both, BothAsStream):
            source = kind(Column([1, None, 3]))
            for column in (Table({"a": source})["a"], Column(source), Column(source, "i64")):
                self.assertEqual((column.type, column.to_pylist()), (Type("i64"), [1, None, 3]))
            self.assertEqual(LETTERS.take(source).to_pylist(), ["b", None, "d"])
            self.assertEqual(Table({"x": LETTERS}).take(source)["x"].to_pylist(), ["b", None, "d"])
            self.assertEqual(LETTERS[source].to_pylist(), ["b", None, "d"])
            mask = kind(Column([True, None, False, True]))
            for found in (LETTERS.filter(mask), LETTERS[mask], LETTERS.filter(Selection(mask))):
                self.assertEqual(found.to_pylist(), ["a", "d"])
            self.assertEqual(str(Table({"a": kind(Column([0.5, None]))})["a"].type), "double")
            for wrong in (Column([0.5]), Column(["a"]), Column([-1]), Column([4], "i8")):
                with self.assertRaises((TypeError, IndexError)):
                    LETTERS.take(kind(wrong))
            self.assertEqual(LETTERS.take(kind(coded([0, 0], Column([2])))).to_pylist(), ["c", "c"])

    def test_without_numpy(self) -> None:
        import unittest.mock

        sources: list[Any] = [Both(Column([1, None], "i16")), Both(Column([None, True]))]
        with unittest.mock.patch.dict("sys.modules", {"numpy": None}):
            self.assertEqual(LETTERS.take(sources[0]).to_pylist(), ["b", None])
            self.assertEqual(LETTERS[:2].filter(sources[1]).to_pylist(), ["b"])

    @unittest.skipIf(numpy is None, "numpy is not installed: its protocol is not tested")
    def test_arrow_data_that_needs_a_module(self) -> None:
        self.assertEqual(Table({"a": WithoutModule(Column([1, 3]))})["a"].to_pylist(), [1.0, 3.0])
        self.assertEqual(LETTERS.take(numpy.array([1, 3])).to_pylist(), ["b", "d"])


if __name__ == "__main__":
    unittest.main()
