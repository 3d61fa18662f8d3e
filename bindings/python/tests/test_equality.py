"""`equals`, over columns of one type and of several."""

from __future__ import annotations

import datetime
import math
import unittest
from typing import Any

import sel
from cases import table
from sel import Column, Type
from sel._logical import coded_type
from sel._makers import made_of

NAN = float("nan")


def coded(keys: list[Any], values: Column) -> Column:
    """Returns a column of keys with a dictionary."""
    return Column._owning(made_of(keys, Type("i32")), coded_type("i", values, values._logical))


class Equality(unittest.TestCase):
    def test_floats(self) -> None:
        other_nan = Column.from_arrow(Column([0x7FF8_0000_DEAD_BEEF], "u64"))
        bits = Column._owning(other_nan, sel._logical.as_logical_of(Column([]), Column([0.5])._logical))
        self.assertTrue(math.isnan(bits.to_pylist()[0]))
        for one, two, expected in table(
            (Column([0.0]), Column([-0.0]), True), (Column([0.0]), Column([-0.0], "float"), True), (Column([NAN]), Column([NAN], "float"), True), (Column([NAN]), bits, True),
            (Column([[0.0], None]), Column([[-0.0], None]), True), (Column([(0.0, "a")]), Column([(-0.0, "a")]), True), (Column([(0.0, "a")]), Column([(-0.0, "b")]), False),
            (Column([0.5, None]), Column([0.5, 0.0]), False), (Column([1.0]), Column([1]), True), (Column([NAN]), Column([1.0]), False),
            (coded([0, 1], Column([0.0, NAN])), Column([-0.0, NAN]), True), (coded([0, 1, 0], Column(["a", "a"])), coded([1, 1, 0], Column(["a", "a"])), True),
        ):
            self.assertEqual((one == two, two == one), (expected, expected), (one, two))

    def test_times_and_numbers(self) -> None:
        for text, number in table(("timestamp[ns]", 1), ("timestamp[ns]", 1000), ("timestamp[s]", 10**17), ("date32", 1), ("date64", 86_400_000), ("time32[s]", 1), ("time64[ns]", 1),
                                  ("duration[us]", 1), ("duration[ns]", 1), ("month_interval", 1)):
            times = Column([number, None], text)
            for other in (Column([number, None]), Column([float(number), None]), Column([number, None], "i128")):
                self.assertFalse(times == other, (text, number))
                self.assertFalse(other == times, (text, number))
            self.assertTrue(times == Column([number, None], text))
        for one, two, expected in table(
            (Column([1000], "timestamp[ns]"), Column([1], "timestamp[us]"), True), (Column([1], "timestamp[s, tz=UTC]"), Column([1], "timestamp[s, tz=+01:00]"), True),
            (Column([1], "timestamp[s, tz=UTC]"), Column([1], "timestamp[s]"), False), (Column([1], "date32"), Column([86_400_000], "date64"), True),
            (Column([10**17 + 1], "timestamp[ns]"), Column([10**17 + 1], "timestamp[s]"), False), (Column([1], "duration[s]"), Column([1], "time32[s]"), False),
            (Column([datetime.timedelta(1)]), Column([86_400], "duration[s]"), True), (Column([True]), Column([1.0]), False), (Column([True]), Column([1]), False),
        ):
            self.assertEqual((one == two, two == one), (expected, expected), (one, two))


if __name__ == "__main__":
    unittest.main()
