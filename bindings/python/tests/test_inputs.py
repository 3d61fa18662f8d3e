"""What columns and tables are made of: times that say more than their type holds, iterables that are no rows, and columns of another type."""

from __future__ import annotations

import datetime
import unittest
from collections.abc import Callable, Iterator
from decimal import Decimal
from typing import Any

import sel
from cases import numpy, table
from sel import Column, Table, Type, parse_type
from sel._logical import coded_type, of_format
from sel._readers import rows_of

DAY, UTC = datetime.date(2024, 2, 29), datetime.timezone.utc
NOON = datetime.datetime(2024, 2, 29, 12)
MIDNIGHT = datetime.datetime(2024, 2, 29)


class Nanoseconds(datetime.datetime):
    """Stands for a Timestamp of pandas, which has nanoseconds beyond the microseconds."""

    nanosecond = 1


class Missing(datetime.datetime):
    """Stands for NaT of pandas, which is an instance of datetime and not equal to itself."""

    __hash__ = None  # type: ignore[assignment]

    def __eq__(self, other: object) -> bool:
        return False

    def __ne__(self, other: object) -> bool:
        return True


class Times(unittest.TestCase):
    def test_not_a_time(self) -> None:
        for text in table(None, "timestamp[s]", "timestamp[ns]", "date32", "date64"):
            with self.assertRaisesRegex(ValueError, r"values\[1\]: .* is no time"):
                Column([None, Missing(2024, 2, 29)], text)

    def test_floats_that_are_too_large(self) -> None:
        for text, value in table(("float", 1e300), ("halffloat", 65520.0), ("double", 10**400)):
            with self.assertRaisesRegex(OverflowError, r"values\[1\]: .* too large for a float of"):
                Column([0.5, value], text)

    def test_a_datetime_is_a_date_only_at_midnight(self) -> None:
        """A datetime is an instance of date: its time of day must not be lost."""
        for text in ("date32", "date64"):
            self.assertEqual(Column([DAY, MIDNIGHT], text).to_pylist(), [DAY, DAY])
            for value in table(NOON, MIDNIGHT.replace(microsecond=1), MIDNIGHT.replace(tzinfo=UTC), Nanoseconds(2024, 2, 29)):
                with self.assertRaisesRegex(ValueError, r"values\[1\]: .* time of day or a time zone"):
                    Column([DAY, value], text)
        with self.assertRaises(ValueError):
            Column([DAY, NOON])

    def test_times_with_a_zone(self) -> None:
        zone = datetime.timezone(datetime.timedelta(hours=5))
        for text in table(None, "time64[us]", "time32[s]"):
            with self.assertRaisesRegex(ValueError, r"values\[0\]: .* time zone"):
                Column([datetime.time(1, tzinfo=zone)], text)

    def test_counts(self) -> None:
        """An integer is a count of the unit, also one of numpy or another object with `__index__`; a boolean is none."""
        counts = [5] if numpy is None else [5, numpy.int64(5), numpy.uint8(5)]
        for text in ("timestamp[s]", "date32", "duration[ms]", "time32[s]", "decimal128(9, 0)"):
            for count in counts:
                self.assertEqual(rows_of(Column([count, None], text)), [5, None])
            with self.assertRaises(TypeError):
                Column([True], text)

    def test_intervals(self) -> None:
        """The tuples that `to_pylist` gives: each part is a signed integer of 32 or 64 bits, the first one in the lowest bits."""
        for text, value, number in table(
            ("day_time_interval", (1, 2), (2 << 32) + 1), ("day_time_interval", (-1, 0), 0xFFFFFFFF), ("day_time_interval", (0, -1), -(1 << 32)),
            ("month_day_nano_interval", (1, 2, 3), (3 << 64) + (2 << 32) + 1), ("month_day_nano_interval", (-1, -1, -1), (1 << 128) - 1),
            ("month_day_nano_interval", (0, 0, -(1 << 63)), 1 << 127),
        ):
            column = Column([value, None], text)
            self.assertEqual((rows_of(column), column.to_pylist()), ([number, None], [value, None]))
            self.assertEqual(column.fill_null(value).to_pylist(), [value, value])
            self.assertEqual(Column([number], text).to_pylist(), [value])
        for text, value, error in table(("day_time_interval", (1, 2, 3), TypeError), ("day_time_interval", [1, 2], TypeError), ("month_day_nano_interval", (1, 2), TypeError),
                                        ("day_time_interval", (1 << 31, 0), OverflowError), ("month_day_nano_interval", (0, 0, 1 << 63), OverflowError),
                                        ("month_day_nano_interval", (0, 1.5, 0), TypeError), ("day_time_interval", (True, 0), TypeError)):
            with self.assertRaises(error):
                Column([value], text)


class Conversions(unittest.TestCase):
    """`Column(column, type)`: the rows are those of the column, or an error is raised."""

    def test_units_of_times(self) -> None:
        """What Python has no value for is an integer in its own unit, and must not be read as a count of the new one."""
        for before, counts, after, expected in table(
            ("timestamp[ns]", [1_000_000_001, None, 10**9], "timestamp[ns]", [1_000_000_001, None, 10**9]), ("timestamp[s]", [10**14], "timestamp[ms]", [10**17]),
            ("timestamp[s, tz=UTC]", [10**14], "timestamp[ms, tz=Europe/Paris]", [10**17]), ("timestamp[us]", [10**18], "timestamp[s]", [10**12]),
            ("duration[s]", [10**15], "duration[ms]", [10**18]), ("duration[us]", [9 * 10**18], "duration[ms]", [9 * 10**15]), ("date32", [2**31 - 1], "date64", [(2**31 - 1) * 86_400_000]),
            ("date64", [-(2**31) * 86_400_000], "date32", [-(2**31)]), ("time64[ns]", [86_400_000_000_000], "time32[s]", [86_400]), ("time32[s]", [-1], "time64[us]", [-1_000_000]),
            ("list<timestamp[s]>", [[10**14, None], None], "list<timestamp[ms]>", [[10**17, None], None]),
        ):
            for source in table(Column(counts, before), Column.from_arrow(Column(counts, before))):
                self.assertEqual(rows_of(Column(source, after)), expected)
        for before, count, after, error in table(
            ("date64", 1, "date32", ValueError), ("date64", -86_399_999, "date32", ValueError), ("timestamp[ns]", 1, "timestamp[s]", ValueError), ("timestamp[ns]", 1, "timestamp[us]", ValueError), ("duration[ns]", 7, "duration[s]", ValueError),
            ("time64[ns]", 1, "time64[us]", ValueError), ("timestamp[s]", 10**17, "timestamp[ms]", OverflowError), ("timestamp[s]", 10**14, "timestamp[s, tz=UTC]", TypeError),
            ("timestamp[ns]", 1, "duration[ns]", TypeError), ("timestamp[ns]", 1, "i64", TypeError), ("duration[ns]", 1, "double", TypeError), ("duration[s]", 10**15, "time64[ns]", TypeError),
        ):
            with self.assertRaises(error, msg=(before, after)):
                Column(Column([count], before), after)

    def test_the_same_type(self) -> None:
        """The rows are shared, also what Python has no value for; two dictionaries are of one type and have other values."""
        for text, rows in table(("timestamp[ns]", [1, None]), ("date64", [1, 86_400_001]), ("i64", [1, 2]), ("list<double>", [[0.5], None]), ("month_day_nano_interval", [5, None])):
            column = Column(rows, text)
            self.assertEqual(rows_of(Column(column, text)), rows_of(column))
            self.assertEqual(rows_of(Column(column, column.type)), rows_of(column))
            self.assertEqual(Column(column, text).type, column.type)
        words = Column(["a", "b"])
        first, second = coded_type("i", words), coded_type("i", words.reverse())
        column = Column(["a", "a", "b"], first)
        self.assertEqual(first, second)
        self.assertEqual((rows_of(Column(column, second)), Column(column, second).to_pylist()), ([1, 1, 0], ["a", "a", "b"]))
        self.assertEqual(Column(Column([column.to_pylist()], of_format("+L", [first])), of_format("+L", [second])).to_pylist(), [["a", "a", "b"]])


class Iterables(unittest.TestCase):
    def test_what_is_no_list_of_rows(self) -> None:
        """The characters of a text, the keys of a dict and the items of a set in any order are no rows."""
        uses: list[Callable[[Any], Any]] = [Column, lambda values: Column(values, "i64"), Column.from_pylist, Column([1, 2, 3]).filter, Column([1, 2, 3]).take, sel.Selection,
                                            lambda values: sel.flatten([Column([1])], values, 1), lambda values: sel.collect_rows([Column([1])], values), lambda values: Table({"a": values})]
        for values in table("abc", "", b"abc", bytearray(b"ab"), {"a": 1}, {}, {1, 2}, frozenset(), 5, None, 1.5):
            for use in uses:
                with self.assertRaisesRegex(TypeError, "not a list or another iterable of rows"):
                    use(values)
        for values in table([1, 2], (1, 2), range(1, 3), iter([1, 2]), (number for number in (1, 2)), {1: 0, 2: 0}.keys(), {0: 1, 1: 2}.values(), memoryview(b"\1\2")):
            self.assertEqual(Column(values).to_pylist(), [1, 2])

    def test_what_has_several_dimensions(self) -> None:
        """The items of a data frame are the names of its columns, and those of an array of two dimensions are arrays."""
        class Frame:
            ndim = 2

            def __iter__(self) -> Iterator[str]:
                return iter(["id", "price"])

        values = table(Frame(), memoryview(bytes(4)).cast("B", (2, 2)))
        if numpy is not None:
            values += [numpy.zeros((2, 2), dtype="int64"), numpy.zeros((0, 2), dtype="int64"), numpy.array(5)]
        for each in values:
            for text in table(None, "utf8", "i64"):
                with self.assertRaisesRegex(TypeError, "not a list or another iterable of rows"):
                    Column(each, text)

    def test_values_that_do_not_fit_the_first_one(self) -> None:
        for values in table([[1], 2], [[1], "ab"], [[1], (1,)], [(1,), 5], [(1,), {"a": 1}], [(1,), [1]], [(1,), "a"]):
            with self.assertRaisesRegex(TypeError, r"values\[1\]: .* not (list|tuple)"):
                Column(values)
        with self.assertRaisesRegex(TypeError, "struct<id"):
            Column([{"id": 1}])
        with self.assertRaisesRegex(TypeError, "decimal128"):
            Column([Decimal(1)])
        if numpy is not None:
            with self.assertRaisesRegex(TypeError, "from_numpy"):
                Column(numpy.zeros(1, dtype="float32"))

    def test_half_a_surrogate_pair(self) -> None:
        for values, text in table((["a", "b\ud800"], None), ([None, "\udfff"], "utf8"), ([[], ["\ud800"]], None), (["", "\ud800"], of_format("u"))):
            with self.assertRaisesRegex(ValueError, "half a surrogate pair"):
                Column(values, text)
        with self.assertRaisesRegex(ValueError, r"values\[1\].*character 1"):
            Column(["a", "b\ud800"])
        with self.assertRaisesRegex(ValueError, "half a surrogate pair"):
            Column.parse("utf8", '["\ud800"]')
        self.assertEqual(Column(["\U0001f600"]).to_pylist(), ["\U0001f600"])

    def test_arguments_of_parse(self) -> None:
        for type, rows in table((5, "[]"), (None, "[]"), ("i8", 5), ("i8", b"[]"), (Type("i8"), None)):
            with self.assertRaises(TypeError):
                Column.parse(type, rows)


class Representations(unittest.TestCase):
    def test_rows_of_any_length_are_cut_off(self) -> None:
        """`repr` has the first rows, and of their text at most 1,000 characters."""
        digits = ",".join(["0"] * 2000)
        for column, text in table((Column(["a" * 998]), '["' + "a" * 998 + "..."), (Column([[0] * 2000]), f"[[{digits}"[:1000] + "..."), (Column([[0.5] * 1000]), ("[[" + "0.5," * 1000)[:1000] + "..."),
                                  (Column(["\u00e9" * 1000] * 20), '["' + "\u00e9" * 998 + "..."), (Column(["\U0001f600" * 2000]), '["' + "\U0001f600" * 998 + "...")):
            self.assertEqual(repr(column), f"Column({column.type}, {text} of {len(column)} rows)")
            self.assertEqual(repr(Table({"a": column})), f"Table of {len(column)} rows\na: {column.type} {text}")
        for column, text in table((Column(["a" * 996]), '["' + "a" * 996 + '"]'), (Column([]), "[]"), (Column([0.5] * 13), "[" + "0.5," * 11 + "0.5, ... 1 more]"), (Column([1] * 13), "[" + "1," * 11 + "1, ... 1 more]")):
            self.assertEqual(repr(column), f"Column({column.type}, {text})")


class Nulls(unittest.TestCase):
    def test_where_the_type_has_none(self) -> None:
        """A null is refused when the column is made; the export would refuse it. What is below a null row does not count."""
        for rows, text in table(([{"a": None}], "struct<a: i64 not null>"), ([[1.5, None]], "list<item: double not null>"), ([[None]], "fixed_size_list<item: double not null>[1]"),
                                ([[{"a": None}]], "list<struct<a: i64 not null>>")):
            with self.assertRaisesRegex(ValueError, "not null"):
                Column(rows, text)
        for rows, text in table(([{"a": 1}, None], "struct<a: i64 not null>"), ([[1.5], None, []], "list<item: double not null>"), ([[1.5], None], "fixed_size_list<item: double not null>[1]")):
            column = Column(rows, text)
            self.assertEqual((column.to_pylist(), Column.from_arrow(column).to_pylist()), (rows, rows))
        field = parse_type("struct<a: double not null>").children[0]
        self.assertEqual(Column([0.5], field).to_pylist(), [0.5])
        for values in table([0.5, None], Column([None], "double")):
            with self.assertRaisesRegex(ValueError, "not null"):
                Column(values, field)


class Tables(unittest.TestCase):
    def test_names_and_rows(self) -> None:
        table_of_two = Table({"a": [1, 2], "b": ["x", None]})
        self.assertTrue("a" in table_of_two and "b" in table_of_two)
        for name in table("c", "", 0, None, {"a": 1, "b": "x"}, ["a"]):
            self.assertNotIn(name, table_of_two)
        self.assertEqual(list(table_of_two), [{"a": 1, "b": "x"}, {"a": 2, "b": None}])
        self.assertEqual(list(Table({})), [])

    @unittest.skipIf(numpy is None, "numpy is not installed: its arrays are not tested")
    def test_arrays_of_values(self) -> None:
        """Arrays of texts and of objects, such as those of a data frame, are read as lists; what is masked is null."""
        for array, rows, text in table((numpy.array(["a", "bc"]), ["a", "bc"], "utf8"), (numpy.array([b"a", b"bc"]), [b"a", b"bc"], "binview"),
                                       (numpy.array([None, 1.5], dtype=object), [None, 1.5], "double"), (numpy.ma.array(["a", "b"], mask=[True, False]), [None, "b"], "utf8"),
                                       (numpy.array([], dtype="U1"), [], "null"), (numpy.array([1, 2], dtype="int16"), [1, 2], "i16")):
            column = Table({"a": array})["a"]
            self.assertEqual((column.to_pylist(), str(column.type)), (rows, text))
        with self.assertRaisesRegex(TypeError, "one by one"):
            Column.from_numpy(numpy.array(["a"]))
        for array in table(numpy.array("a"), numpy.array([["a"]]), numpy.zeros((1, 1))):
            with self.assertRaises(ValueError):
                Table({"a": array})

    def test_what_is_no_table(self) -> None:
        for values in table([("a", [1])], [1], "a", None, Table({"a": [1]}), Column([1])):
            with self.assertRaisesRegex(TypeError, "not a mapping"):
                Table(values)
        for other in table({"a": [1]}, None, Column([1])):
            with self.assertRaisesRegex(TypeError, "other: .* not a table"):
                Table({"a": [1]}).if_else([True], other)
        with self.assertRaisesRegex(TypeError, "not a table"):
            sel.Stream(table(1)).__arrow_c_stream__()
        stream = sel.Stream.from_arrow(sel.Stream(table(Table({"a": [1]}), 5)))
        with self.assertRaises(ValueError) as caught:
            list(stream)
        self.assertIsInstance(caught.exception.__cause__, TypeError)


if __name__ == "__main__":
    unittest.main()
