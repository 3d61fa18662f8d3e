"""What columns take as Python values: numbers, times with nanoseconds, decimals, and the values of dictionaries."""

from __future__ import annotations

import datetime
import importlib
import unittest
from decimal import Decimal
from fractions import Fraction
from typing import Any

from cases import numpy, table
from sel import Column, Type
from sel._logical import coded_type
from sel._makers import made_of

NAN = float("nan")


def coded(values: Column) -> Column:
    """Returns a null row, and a row of each value, with a dictionary of the values."""
    return Column._owning(made_of([None, *range(len(values))], Type("i32")), coded_type("i", values, values._logical))


class Number:
    """An object that is a number by `__float__` alone."""

    def __float__(self) -> float:
        return 0.25


class Array(Number):
    """An array of one item, which `float` converts."""

    def __array__(self, dtype: Any = None, copy: Any = None) -> Any:
        return numpy.array([0.25])


class Moment(datetime.datetime):
    """Stands for a Timestamp of pandas, which has nanoseconds beyond the microseconds."""

    nanosecond = 999


class Span(datetime.timedelta):
    """Stands for a Timedelta of pandas."""

    nanoseconds = 999


class Floats(unittest.TestCase):
    def test_numbers(self) -> None:
        self.assertEqual(Column([1.5, 2, Fraction(1, 4), Decimal("0.5"), Number(), None]).to_pylist(), [1.5, 2.0, 0.25, 0.5, 0.25, None])
        for value in table(True, "2.5", b"2.5", 1j, Array(), datetime.timedelta(1)):
            for text in table("double", "float", "halffloat"):
                with self.assertRaisesRegex(TypeError, r"values\[1\]: .* not a number"):
                    Column([1.5, value], text)

    def test_finite_numbers_beyond_the_floats(self) -> None:
        """`float` makes an infinity of them, which a column must not have in their place."""
        values = table(Decimal("1E+400"), Decimal("-1E+400"), 10**400)
        if numpy is not None and float(numpy.finfo("longdouble").max) == float("inf"):
            values += [numpy.finfo("longdouble").max, numpy.finfo("longdouble").min]
        for value in values:
            for text in table("double", "float", "halffloat"):
                with self.assertRaisesRegex(OverflowError, r"values\[1\]: .* too large for a float of"):
                    Column([1.5, value], text)
        infinite = table(Decimal("Infinity"), Decimal("-Infinity"), float("inf"), *([] if numpy is None else [numpy.longdouble("inf"), numpy.float16("-inf")]))
        for text in table("double", "float", "halffloat"):
            self.assertEqual(Column(infinite, text).to_pylist(), [float(value) for value in infinite])

    @unittest.skipIf(numpy is None, "numpy is not installed: its values are not tested")
    def test_values_of_numpy(self) -> None:
        self.assertEqual(Column([1.5, numpy.float32(0.5), numpy.int8(3), numpy.float64(2), numpy.float16(0.25)]).to_pylist(), [1.5, 0.5, 3.0, 2.0, 0.25])
        for value in table(numpy.bool_(True), numpy.str_("2.5"), numpy.bytes_(b"2.5"), numpy.complex128(1 + 2j), numpy.complex64(1), numpy.ma.masked, numpy.array([2.0]), numpy.array(2.0),
                           numpy.array([[3.0]]), numpy.timedelta64(5, "s"), numpy.datetime64("2020-01-01")):
            with self.assertRaises(TypeError, msg=repr(value)):
                Column([1.5, value])
            with self.assertRaises(TypeError, msg=repr(value)):
                Column([1.5, None]).fill_null(value)
        with self.assertRaises(TypeError):
            Column(list(numpy.ma.array([1.5, 2.5], mask=[False, True])))


class Times(unittest.TestCase):
    def test_nanoseconds(self) -> None:
        moment, span = Moment(1970, 1, 1), Span(0)
        self.assertEqual(Column([moment, moment.replace(tzinfo=None)], "timestamp[ns]")[0], 999)
        self.assertEqual(Column([span], "duration[ns]")[0], 999)
        for value, text in table((moment, "timestamp[us]"), (moment, "timestamp[ms]"), (moment, "timestamp[s]"), (span, "duration[us]"), (span, "duration[s]"), (moment, None), (span, None)):
            with self.assertRaisesRegex(ValueError, "not a whole number of the unit"):
                Column([value], text)

    def test_pandas(self) -> None:
        try:
            pandas = importlib.import_module("pandas")
        except ImportError:
            self.skipTest("pandas is not installed: its times are not tested")
        for nanoseconds in (1, 1999, 2000, -1, 10**18 + 7):
            self.assertEqual(Column([pandas.Timestamp(nanoseconds)], "timestamp[ns]").to_numpy().view("int64").tolist(), [nanoseconds])
            self.assertEqual(Column([pandas.Timestamp(nanoseconds, tz="UTC")], "timestamp[ns, tz=UTC]").to_numpy().view("int64").tolist(), [nanoseconds])
            self.assertEqual(Column([pandas.Timedelta(nanoseconds)], "duration[ns]").to_numpy().view("int64").tolist(), [nanoseconds])
        self.assertEqual(Column([pandas.Timestamp(2000)]).to_pylist(), [datetime.datetime(1970, 1, 1, 0, 0, 0, 2)])
        for value in table(pandas.Timestamp(1), pandas.Timedelta(1)):
            with self.assertRaises(ValueError):
                Column([value])
        with self.assertRaises(TypeError):
            Column([1.5, pandas.NaT])
        for text in table(None, "timestamp[ns]", "date32"):
            with self.assertRaisesRegex(ValueError, "NaT is no time"):
                Column([pandas.NaT], text)
        self.assertEqual(Column([pandas.Timestamp(2020, 1, 2)], "date32").to_pylist(), [datetime.date(2020, 1, 2)])
        with self.assertRaises(ValueError):
            Column([pandas.Timestamp(1)], "date32")

    def test_zones_that_there_are_not(self) -> None:
        for zone in ("+99:99", "+ab:cd", "-24:00", "+0a:00", "no/zone", "+5"):
            self.assertEqual(Column([0], f"timestamp[s, tz={zone}]").to_pylist(), [datetime.datetime(1970, 1, 1, tzinfo=datetime.timezone.utc)], zone)
        self.assertEqual(Column([0], "timestamp[s, tz=-23:59]")[0].utcoffset(), -datetime.timedelta(hours=23, minutes=59))


class Decimals(unittest.TestCase):
    def test_exponents(self) -> None:
        for value, error in table((Decimal("1E-100000000"), ValueError), (Decimal("-12E-4000000"), ValueError), (Decimal("1E+4000000"), OverflowError), (Decimal("1.001"), ValueError)):
            with self.assertRaises(error):
                Column([value], "decimal128(9, 2)")
        for value, expected in table((Decimal("0E-100000000"), 0), (Decimal("0E+4000000"), 0), (Decimal("1.50000"), Decimal("1.50")), (Decimal("1." + "0" * 5000), 1), (Decimal("-0.0100"), Decimal("-0.01")),
                                     (Decimal("12E2"), 1200)):
            self.assertEqual(Column([value], "decimal128(9, 2)").to_pylist(), [expected])


class Dictionaries(unittest.TestCase):
    def test_values_are_converted(self) -> None:
        for values, value, expected in table((Column([7, 1]), 1, 1), (Column([0.5, NAN]), NAN, None), (Column([0.5, 0.0]), -0.0, 0.0), (Column([1.0]), 1, 1.0), (Column([[1], [2, None]]), [2, None], [2, None]),
                                             (Column([(1, [0.5])]), (1, [0.5]), {"0": 1, "1": [0.5]}), (Column(["a", None]), "a", "a")):
            found = coded(values).fill_null(value)
            self.assertEqual(str(found.type), str(coded(values).type))
            if value == value:
                self.assertEqual(found.to_pylist()[0], expected)
            else:
                self.assertNotEqual(found.to_pylist()[0], found.to_pylist()[0])
        for values, value in table((Column([1]), True), (Column([1]), 1.0), (Column(["a"]), 1), (Column([True]), 1)):
            with self.assertRaises(TypeError):
                coded(values).fill_null(value)
        for values, value in table((Column([1]), 2), (Column([[1]]), [1, 1]), (Column([0.5]), NAN)):
            with self.assertRaisesRegex(ValueError, "the dictionary does not have"):
                coded(values).fill_null(value)


if __name__ == "__main__":
    unittest.main()
