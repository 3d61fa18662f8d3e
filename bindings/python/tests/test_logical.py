"""Logical types: Arrow types beside the storage, their Python values, and the kernels that keep them."""

from __future__ import annotations

import copy
import datetime
import math
import pickle
import random
import struct
import unittest
from collections.abc import Callable
from decimal import Decimal
from typing import Any

import sel
from cases import table
from sel import Column, Table, Type, parse_type
from sel._logical import as_logical_of, coded_type, of_format
from sel._makers import made_of
from sel._readers import rows_of

UTC = datetime.timezone.utc
DAY, MOMENT = datetime.date(2024, 2, 29), datetime.datetime(2024, 2, 29, 13, 14, 15, 16)

# The text of a type, its storage, two values of it, and their values in the storage.
VALUES: list[tuple[str, str, list[Any], list[Any]]] = [
    ("halffloat", "u16", [1.5, -0.0], [0x3E00, 0x8000]),
    ("float", "u32", [0.25, -2.0], [0x3E800000, 0xC0000000]),
    ("double", "u64", [0.1, 1e300], [0x3FB999999999999A, 0x7E37E43C8800759C]),
    ("date32[day]", "i32", [DAY, datetime.date(1, 1, 1)], [19782, -719162]),
    ("date64[ms]", "i64", [DAY, datetime.date(9999, 12, 31)], [19782 * 86_400_000, 2932896 * 86_400_000]),
    ("time32[s]", "i32", [datetime.time(0, 0, 1), datetime.time(23, 59, 59)], [1, 86399]),
    ("time32[ms]", "i32", [datetime.time(0, 0, 0, 1000), datetime.time(1)], [1, 3_600_000]),
    ("time64[us]", "i64", [datetime.time(0, 0, 0, 1), datetime.time(1)], [1, 3_600_000_000]),
    ("time64[ns]", "i64", [datetime.time(0, 0, 0, 1), datetime.time(1)], [1000, 3_600_000_000_000]),
    ("timestamp[s]", "i64", [MOMENT.replace(microsecond=0), datetime.datetime(1, 1, 1)], [1709212455, -62135596800]),
    ("timestamp[ms, tz=UTC]", "i64", [MOMENT.replace(microsecond=16000, tzinfo=UTC), datetime.datetime(1970, 1, 1, tzinfo=UTC)], [1709212455016, 0]),
    ("timestamp[us, tz=+02:00]", "i64", [MOMENT.replace(tzinfo=UTC), datetime.datetime(1969, 12, 31, 23, 59, 59, tzinfo=UTC)], [1709212455000016, -1000000]),
    ("timestamp[ns]", "i64", [MOMENT, datetime.datetime(1970, 1, 1)], [1709212455000016000, 0]),
    ("duration[s]", "i64", [datetime.timedelta(days=-1), datetime.timedelta(seconds=5)], [-86400, 5]),
    ("duration[ns]", "i64", [datetime.timedelta(microseconds=1), datetime.timedelta(0)], [1000, 0]),
    ("decimal32(9, 2)", "i32", [Decimal("-1.25"), Decimal("9999999.99")], [-125, 999999999]),
    ("decimal64(18, 0)", "i64", [Decimal(7), Decimal(-8)], [7, -8]),
    ("decimal128(38, 10)", "i128", [Decimal("1234567890123456789012345678.0123456789"), Decimal(0)], [12345678901234567890123456780123456789, 0]),
    ("decimal128(5, -2)", "i128", [Decimal("1200"), Decimal(-100)], [12, -1]),
    ("decimal256(76, 1)", "fixed<32,u8>", [Decimal("-0.1"), Decimal("1" + "0" * 74)], [[255] * 32, list((10**75).to_bytes(32, "little"))]),
    ("fixed_size_binary[3]", "fixed<3,u8>", [b"abc", b"\0\xff\0"], [[97, 98, 99], [0, 255, 0]]),
    ("month_interval", "i32", [14, -1], [14, -1]),
]


class Values(unittest.TestCase):
    def test_values_of_each_type(self) -> None:
        """The storage of the values is given above, and an Arrow library would give it the same."""
        for text, storage, values, plain in VALUES:
            column = Column([*values, None], text)
            self.assertEqual((str(column.type), str(column.storage)), (text, storage))
            self.assertEqual(rows_of(column), [*plain, None], text)
            found = column.to_pylist()
            self.assertEqual(found, [*values, None], text)
            self.assertEqual([type(value) for value in found[:2]], [type(value) for value in values], text)
            self.assertEqual(column.null_count, 1)

    def test_types_of_values(self) -> None:
        for values, text in table(([1.5], "double"), ([DAY], "date32[day]"), ([MOMENT], "timestamp[us]"), ([MOMENT.replace(tzinfo=UTC)], "timestamp[us, tz=UTC]"),
                                  ([datetime.time(1)], "time64[us]"), ([datetime.timedelta(1)], "duration[us]"), ([[1.5], None], "large_list<item: double>"),
                                  ([(1.5, "a")], "struct<0: double, 1: string_view>")):
            column = Column(values)
            self.assertEqual(str(column.type), text)

    def test_values_that_python_has_none_for(self) -> None:
        for text, value in table(("timestamp[ns]", 1), ("timestamp[s]", 10**17), ("time64[ns]", 1), ("date64[ms]", 10**17), ("date64[ms]", 1), ("date64[ms]", -86_399_999), ("duration[s]", 10**17), ("duration[ns]", 7),
                                 ("time32[s]", -1)):
            self.assertEqual(Column([value], text).to_pylist(), [value])

    def test_errors(self) -> None:
        for text, value, error in table(("double", "a", TypeError), ("double", True, TypeError), ("date32[day]", 1.5, TypeError), ("timestamp[s]", MOMENT, ValueError),
                                        ("timestamp[s, tz=UTC]", MOMENT, ValueError), ("timestamp[s]", MOMENT.replace(tzinfo=UTC), ValueError), ("time32[s]", DAY, TypeError),
                                        ("duration[s]", datetime.timedelta(microseconds=1), ValueError), ("decimal128(3, 1)", Decimal("0.25"), ValueError),
                                        ("decimal128(3, 1)", Decimal(100), OverflowError), ("decimal128(3, 1)", Decimal("nan"), ValueError), ("decimal128(3, 1)", 0.5, TypeError),
                                        ("fixed_size_binary[2]", b"abc", ValueError), ("fixed_size_binary[2]", "ab", TypeError), ("halffloat", 1e6, OverflowError)):
            with self.assertRaises(error, msg=(text, value)) as caught:
                Column([None, value], text)
            self.assertNotIsInstance(caught.exception, sel.SelError)
        for text in ("timestamp", "timestamp[h]", "time32[us]", "decimal128(3)", "fixed_size_binary", "duration"):
            with self.assertRaises(ValueError, msg=text):
                parse_type(text)

    def test_floats_keep_their_bits(self) -> None:
        payload = struct.unpack("<d", struct.pack("<Q", 0x7FF8_0000_DEAD_BEEF))[0]
        column = Column([payload, math.inf, -0.0])
        again = Column.from_arrow(column).take([0, 1, 2])
        self.assertEqual(struct.pack("<d", again.to_pylist()[0]), struct.pack("<d", payload))
        self.assertEqual(str(again), "[nan,inf,-0.0]")


class Kernels(unittest.TestCase):
    def test_results_have_the_type(self) -> None:
        for text, _, values, _ in VALUES:
            column, two = Column([*values, None], text), values[1]
            for found, rows in table((column.filter([True, False, True]), [values[0], None]), (column.take([1, 1, None]), [two, two, None]), (column[1:], [two, None]),
                                     (column[[0]], [values[0]]), (column.share(), [*values, None]), (column.drop_null(), values), (column.fill_null(two), [*values, two]),
                                     (sel.if_else([True, False, True], column, column), [*values, None]), (sel.if_else([True, False, False], two, column), [two, two, None]),
                                     (sel.concat([column, column]), [*values, None] * 2), (sel.flatten([column], [3], 1), [*values, None]),
                                     (sel.collect_rows([column, column], [(1, 1), None]), [two, None]), (column.unit_list().list_element(0), [*values, None]),
                                     (Column.from_arrow(column), [*values, None]), (copy.copy(column), [*values, None]), (pickle.loads(pickle.dumps(column)), [*values, None]),
                                     (Column(column), [*values, None])):
                self.assertEqual((str(found.type), found.to_pylist()), (text, rows))
            self.assertTrue(column.equals(column.take([0, 1, 2])), text)
            self.assertFalse(column.equals(column.take([1, 0, 2])), text)

    def test_types_that_do_not_join(self) -> None:
        for first, second in table(("double", "u64"), ("timestamp[ms]", "timestamp[ms, tz=UTC]"), ("timestamp[ms]", "i64"), ("decimal128(5, 2)", "decimal128(5, 3)")):
            one, two = Column([None], first), Column([None], second)
            calls: list[Callable[[], Column]] = [
                lambda: sel.if_else([True], one, two), lambda: sel.concat([one, two]), lambda: sel.collect_rows([one, two], [(0, 0)])]
            for call in calls:
                with self.assertRaises(sel.WrongArgument) as caught:
                    call()
                self.assertEqual(caught.exception.status, 4)

    def test_nested_types(self) -> None:
        lists = Column([[0.5, None], [], None], "list<double>")
        self.assertEqual((str(lists.type), lists.to_pylist()), ("large_list<item: double>", [[0.5, None], [], None]))
        self.assertEqual((str(lists.list_element(0).type), lists.list_element(0).to_pylist()), ("double", [0.5, None, None]))
        self.assertEqual(str(lists), "[[0.5,null],[],null]")
        fixed = Column([[DAY, None], None], "fixed<2,date32>")
        self.assertEqual((str(fixed.type), fixed.to_pylist()), ("fixed_size_list<item: date32[day]>[2]", [[DAY, None], None]))
        again = pickle.loads(pickle.dumps(fixed))
        self.assertEqual((again.type, again.to_pylist()), (fixed.type, [[DAY, None], None]))

    def test_128_levels(self) -> None:
        value: Any = 0.5
        for _ in range(128):
            value = [value]
        column = Column([value, None])
        self.assertEqual((column.to_pylist(), str(column.storage)), ([value, None], "list<" * 128 + "u64" + ">" * 128))
        for found in (column[::-1], Column.from_arrow(column)[::-1], pickle.loads(pickle.dumps(column))[::-1], column.decoded()[::-1]):
            self.assertEqual(found.to_pylist(), [None, value])
        self.assertEqual(str(column), "[" * 129 + "0.5" + "]" * 128 + ",null]")
        with self.assertRaises(sel.LimitPassed):
            column.unit_list()

    def test_equality_of_types(self) -> None:
        self.assertEqual(parse_type("timestamp[ms]"), parse_type("timestamp[ms]"))
        self.assertNotEqual(parse_type("timestamp[ms]"), parse_type("timestamp[us]"))
        self.assertNotEqual(parse_type("double"), parse_type("u64"))
        self.assertEqual(len({parse_type("double"), parse_type("float64"), parse_type("float")}), 2)
        self.assertEqual(repr(parse_type("date32")), "<ArrowType date32[day]>")


class Dictionaries(unittest.TestCase):
    def coded(self, words: list[Any], keys: list[Any]) -> Column:
        """Returns a column of keys with a dictionary."""
        return Column._owning(made_of(keys, parse_type("u32")), coded_type("I", Column(words)))

    def test_dictionaries_are_kept(self) -> None:
        column = self.coded(["a", None, "fourteen chars"], [2, 0, None, 1])
        rows = ["fourteen chars", "a", None, None]
        self.assertEqual((str(column.type), column.to_pylist()), ("dictionary<u32, string_view>", rows))
        for found, wanted in table((column.filter([True, False, True, True]), [rows[0], None, None]), (column.take([1, None]), ["a", None]), (column[::-1], rows[::-1]),
                                   (Column.from_arrow(column), rows), (pickle.loads(pickle.dumps(column)), rows), (sel.concat([column, column]), rows * 2),
                                   (sel.if_else([True, False, True, False], column, "a"), [rows[0], "a", None, "a"]), (column.fill_null("a"), [*rows[:2], "a", None])):
            self.assertEqual((str(found.type), found.to_pylist()), ("dictionary<u32, string_view>", wanted))
        decoded = column.decoded()
        self.assertEqual((str(decoded.type), decoded.to_pylist()), ("utf8", rows))
        with self.assertRaises(ValueError):
            sel.if_else([True] * 4, column, "no word of the dictionary")

    def test_joins(self) -> None:
        """The same dictionary and one with equal rows are kept; another one is decoded, as is a column without one."""
        column, equal, other = self.coded(["a", "b"], [1, 0]), self.coded(["a", "b"], [0, 0]), self.coded(["x", "b"], [0, 1])
        for two, text, rows in table((equal, "dictionary<u32, string_view>", ["b", "a", "a", "a"]), (other, "utf8", ["b", "a", "x", "b"]),
                                     (Column(["p", None]), "utf8", ["b", "a", "p", None])):
            for found in (sel.collect_rows([column, two], [(0, 0), (0, 1), (1, 0), (1, 1)]),):
                self.assertEqual((str(found.type), found.to_pylist()), (text, rows))
            self.assertEqual(sel.if_else([True, False], column, two).to_pylist(), [rows[0], rows[3]])
            for found in table(sel.concat([column, two]), sel.flatten([column, two], [2, 2], 1)):
                self.assertEqual((str(found.type), found.to_pylist()), (text, rows))
        self.assertTrue(column.equals(Column(["b", "a"])))
        self.assertFalse(column.equals(other))


class Random(unittest.TestCase):
    """Random columns of logical types, nested and with dictionaries, against definitions over lists of Python values."""

    def random_type(self, rng: random.Random, levels: int) -> Type:
        kind = rng.randrange(6) if levels else 5
        if kind == 0:
            return of_format("+l" if rng.random() < 0.5 else "+L", [self.random_type(rng, levels - 1)])
        if kind == 1:
            return of_format(f"+w:{rng.randrange(3)}", [self.random_type(rng, levels - 1)])
        if kind == 2:
            count = 1 + rng.randrange(3)
            return of_format("+s", [self.random_type(rng, levels - 1) for _ in range(count)], [f"field {number}" for number in range(count)])
        if kind == 3:
            words = Column([f"word {number} of a dictionary" if number % 3 else None for number in range(1, 6)])
            return coded_type(rng.choice("cCsSiIlL"), words)
        if kind == 4:
            return of_format(rng.choice(("u", "U", "vu")))
        return parse_type(rng.choice([text for text, *_ in VALUES if text != "month_interval"]))

    def random_value(self, rng: random.Random, wanted: Type) -> Any:
        assert isinstance(wanted, sel.ArrowType)
        if rng.random() < 0.2:
            return None
        if wanted.format == "+s":
            return {field.name: self.random_value(rng, field) for field in wanted.fields}
        if wanted.format.startswith("+"):
            count = int(wanted.format[3:]) if wanted.format.startswith("+w") else rng.randrange(4)
            return [self.random_value(rng, wanted.fields[0]) for _ in range(count)]
        if wanted.is_dictionary:
            return f"word {rng.choice((1, 2, 4, 5))} of a dictionary"
        if wanted.kind == "utf8":
            return "a text of some length"[: rng.randrange(21)]
        return rng.choice(next(values for text, _, values, _ in VALUES if text == str(wanted)))

    def test_kernels(self) -> None:
        rng = random.Random(52)
        for _ in range(150):
            wanted, count = self.random_type(rng, 3), rng.randrange(1, 9)
            rows, others = ([self.random_value(rng, wanted) for _ in range(count)] for _ in range(2))
            column, other = Column.from_arrow(Column(rows, wanted)), Column(others, wanted)
            mask = [rng.choice((True, False, None)) for _ in rows]
            places = [rng.choice((None, rng.randrange(count))) for _ in range(rng.randrange(6))]
            start = rng.randrange(count)
            for found, expected in table(
                (column, rows), (column.filter(mask), [row for row, is_kept in zip(rows, mask) if is_kept]), (column[start:], rows[start:]),
                (column.take(places), [None if place is None else rows[place] for place in places]), (sel.concat([column, other]), rows + others),
                (sel.if_else(mask, column, other), [row if is_true else one for row, one, is_true in zip(rows, others, mask)]),
                (column.unit_list().list_element(0), rows), (pickle.loads(pickle.dumps(column[start:])), rows[start:]),
                (Table.from_arrow(Table({"column": column}))["column"], rows), (Column.from_arrow(column[start:]), rows[start:]),
            ):
                self.assertEqual(found.to_pylist(), expected, str(wanted))
                self.assertEqual(str(as_logical_of(found, found._logical)), str(as_logical_of(column, column._logical)))
                self.assertEqual(Column.from_arrow(found).to_pylist(), expected)
            self.assertEqual(column.decoded().to_pylist(), rows)
            self.assertEqual(column.equals(other), rows == others)


class Fields(unittest.TestCase):
    def test_fields_and_children(self) -> None:
        column = Column.from_arrow(Table({"id": [1, 2], "when": [DAY, None]}))
        self.assertEqual((str(column.field("when").type), column.field("when").to_pylist()), ("date32[day]", [DAY, None]))
        self.assertEqual(column.field(0).to_pylist(), [1, 2])
        for error, key in table((KeyError, "other"), (IndexError, 2), (IndexError, -1), (TypeError, 1.0)):
            with self.assertRaises(error):
                column.field(key)
        with self.assertRaisesRegex(KeyError, "fields have no names"):
            Column([(1,)]).field("0")
        self.assertEqual(Column([[DAY], [], None, [DAY, None]]).child().to_pylist(), [DAY, DAY, None])
        with self.assertRaises(sel.WrongArgument):
            column.child()


class Numpy(unittest.TestCase):
    def test_arrays(self) -> None:
        try:
            import numpy
        except ImportError:
            self.skipTest("numpy is not there")
        for text, dtype, kind in table(("halffloat", "float16", "f"), ("float", "float32", "f"), ("double", "float64", "f"), ("date32[day]", "datetime64[D]", "M"),
                                       ("timestamp[s]", "datetime64[s]", "M"), ("timestamp[ms]", "datetime64[ms]", "M"), ("timestamp[us]", "datetime64[us]", "M"),
                                       ("timestamp[ns]", "datetime64[ns]", "M"), ("duration[s]", "timedelta64[s]", "m"), ("duration[ns]", "timedelta64[ns]", "m")):
            values = numpy.array([5, 0, -3]).astype(dtype)
            column = Column.from_numpy(values)
            self.assertEqual(str(column.type), text)
            again = column.to_numpy()
            self.assertEqual((again.dtype, again.tolist()), (values.dtype, values.tolist()))
            self.assertEqual(numpy.asarray(column.take([2, 0])).tolist(), values[[2, 0]].tolist())
            masked: Any = Column.from_numpy(values, valid=[True, False, True]).to_numpy()
            self.assertEqual(masked.mask.tolist(), [False, True, False])
            if kind != "f":
                values[1] = "NaT"
                self.assertEqual(Column.from_numpy(values).valid(), [True, False, True])
        for dtype in ("datetime64[h]", "datetime64[10s]", "complex128", "timedelta64[D]", "longdouble"):
            if numpy.dtype(dtype).name != "float64":
                with self.assertRaises(TypeError, msg=dtype):
                    Column.from_numpy(numpy.zeros(2, dtype=dtype))
        with self.assertRaises(TypeError):
            Column([Decimal(1)], "decimal128(5, 2)").to_numpy()
        words = Column([0.5, 1.5])
        coded = Column._owning(made_of([1, 0, 1], parse_type("u8")), coded_type("C", words, as_logical_of(words, words._logical)))
        self.assertEqual((str(coded.type), coded.to_numpy().tolist()), ("dictionary<u8, double>", [1.5, 0.5, 1.5]))
        self.assertEqual(Table({"a": numpy.array([0.5, 1.5])}).to_pydict(), {"a": [0.5, 1.5]})


if __name__ == "__main__":
    unittest.main()
