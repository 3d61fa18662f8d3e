"""Every Arrow format from the bytes of a producer: the type, the values in Python, and the same again through the library."""

from __future__ import annotations

import datetime
import unittest
from array import array
from decimal import Decimal
from struct import pack
from typing import Any

import sel
from arrays import Piece
from cases import table
from sel import Column

UTC = datetime.timezone.utc
VALID = b"\x0d"  # row 1 is null


def numbers(code: str, *values: Any) -> bytes:
    return array(code, values).tobytes()


def wide(*values: int) -> bytes:
    return b"".join(value.to_bytes(16, "little", signed=True) for value in values)


def strings(format: str = "u") -> Piece:
    offsets = numbers("i" if format in "uz" else "q", 0, 1, 1, 4, 18)
    return Piece(format, 4, [VALID, offsets, b"abcdfourteen chars"])


VIEWS = pack("<I12s", 1, b"a") + bytes(16) + pack("<I12s", 3, b"bcd") + pack("<I4sII", 14, b"four", 0, 0)
LEAVES: list[tuple[str, list[bytes | None], str, list[Any]]] = [
    ("n", [], "null", [None] * 4),
    ("b", [VALID, b"\x09"], "bool", [True, None, False, True]),
    ("c", [VALID, numbers("b", 1, 9, -3, 4)], "i8", [1, None, -3, 4]),
    ("C", [VALID, numbers("B", 1, 9, 200, 4)], "u8", [1, None, 200, 4]),
    ("s", [VALID, numbers("h", 1, 9, -3, 4)], "i16", [1, None, -3, 4]),
    ("S", [VALID, numbers("H", 1, 9, 3, 4)], "u16", [1, None, 3, 4]),
    ("i", [VALID, numbers("i", 1, 9, -3, 4)], "i32", [1, None, -3, 4]),
    ("I", [VALID, numbers("I", 1, 9, 3, 4)], "u32", [1, None, 3, 4]),
    ("l", [VALID, numbers("q", 1, 9, -3, 4)], "i64", [1, None, -3, 4]),
    ("L", [VALID, numbers("Q", 1, 9, 2**63, 4)], "u64", [1, None, 2**63, 4]),
    ("e", [VALID, pack("<4e", 0.5, 9, -2, 65504)], "halffloat", [0.5, None, -2.0, 65504.0]),
    ("f", [VALID, pack("<4f", 0.5, 9, -2, 1024)], "float", [0.5, None, -2.0, 1024.0]),
    ("g", [VALID, pack("<4d", 0.1, 9, -2, 1e300)], "double", [0.1, None, -2.0, 1e300]),
    ("tdD", [VALID, numbers("i", 0, 9, -1, 19782)], "date32[day]", [datetime.date(1970, 1, 1), None, datetime.date(1969, 12, 31), datetime.date(2024, 2, 29)]),
    ("tdm", [VALID, numbers("q", 0, 9, -86400000, 86400000)], "date64[ms]", [datetime.date(1970, 1, 1), None, datetime.date(1969, 12, 31), datetime.date(1970, 1, 2)]),
    ("tts", [VALID, numbers("i", 0, 9, 3600, 86399)], "time32[s]", [datetime.time(0), None, datetime.time(1), datetime.time(23, 59, 59)]),
    ("ttm", [VALID, numbers("i", 0, 9, 1, 1000)], "time32[ms]", [datetime.time(0), None, datetime.time(0, 0, 0, 1000), datetime.time(0, 0, 1)]),
    ("ttu", [VALID, numbers("q", 0, 9, 1, 1000)], "time64[us]", [datetime.time(0), None, datetime.time(0, 0, 0, 1), datetime.time(0, 0, 0, 1000)]),
    ("ttn", [VALID, numbers("q", 0, 9, 1000, 1)], "time64[ns]", [datetime.time(0), None, datetime.time(0, 0, 0, 1), 1]),
    ("tss:", [VALID, numbers("q", 0, 9, -1, 86400)], "timestamp[s]", [datetime.datetime(1970, 1, 1), None, datetime.datetime(1969, 12, 31, 23, 59, 59), datetime.datetime(1970, 1, 2)]),
    ("tsm:UTC", [VALID, numbers("q", 0, 9, -1, 1)], "timestamp[ms, tz=UTC]",
     [datetime.datetime(1970, 1, 1, tzinfo=UTC), None, datetime.datetime(1969, 12, 31, 23, 59, 59, 999000, UTC), datetime.datetime(1970, 1, 1, 0, 0, 0, 1000, UTC)]),
    ("tsu:-01:30", [VALID, numbers("q", 0, 9, 0, 0)], "timestamp[us, tz=-01:30]", [datetime.datetime(1970, 1, 1, tzinfo=UTC), None, *[datetime.datetime(1970, 1, 1, tzinfo=UTC)] * 2]),
    ("tsn:", [VALID, numbers("q", 0, 9, 1000, 1)], "timestamp[ns]", [datetime.datetime(1970, 1, 1), None, datetime.datetime(1970, 1, 1, 0, 0, 0, 1), 1]),
    ("tDs", [VALID, numbers("q", 0, 9, -1, 1)], "duration[s]", [datetime.timedelta(0), None, datetime.timedelta(seconds=-1), datetime.timedelta(seconds=1)]),
    ("tDm", [VALID, numbers("q", 0, 9, -1, 1)], "duration[ms]", [datetime.timedelta(0), None, datetime.timedelta(milliseconds=-1), datetime.timedelta(milliseconds=1)]),
    ("tDu", [VALID, numbers("q", 0, 9, -1, 1)], "duration[us]", [datetime.timedelta(0), None, datetime.timedelta(microseconds=-1), datetime.timedelta(microseconds=1)]),
    ("tDn", [VALID, numbers("q", 0, 9, -1000, 1)], "duration[ns]", [datetime.timedelta(0), None, datetime.timedelta(microseconds=-1), 1]),
    ("tiM", [VALID, numbers("i", 0, 9, -1, 14)], "month_interval", [0, None, -1, 14]),
    ("tiD", [VALID, pack("<8i", 0, 0, 9, 9, -1, 5, 7, -8)], "day_time_interval", [(0, 0), None, (-1, 5), (7, -8)]),
    ("tin", [VALID, pack("<iiqiiqiiqiiq", 0, 0, 0, 9, 9, 9, -1, 2, -3, 4, -5, 6)], "month_day_nano_interval", [(0, 0, 0), None, (-1, 2, -3), (4, -5, 6)]),
    ("d:9,2,32", [VALID, numbers("i", 125, 9, -1, 0)], "decimal32(9, 2)", [Decimal("1.25"), None, Decimal("-0.01"), Decimal("0.00")]),
    ("d:18,-2,64", [VALID, numbers("q", 125, 9, -1, 0)], "decimal64(18, -2)", [Decimal(12500), None, Decimal(-100), Decimal(0)]),
    ("d:38,37", [VALID, wide(10**37, 9, -(10**38) + 1, 0)], "decimal128(38, 37)", [Decimal(1), None, Decimal("-9." + "9" * 37), Decimal(0)]),
    ("d:76,0,256", [VALID, b"".join(value.to_bytes(32, "little", signed=True) for value in (1, 9, -(10**75), 10**75))], "decimal256(76, 0)",
     [Decimal(1), None, Decimal(-(10**75)), Decimal(10**75)]),
    ("w:3", [VALID, b"abcxyz\0\xff\0def"], "fixed_size_binary[3]", [b"abc", None, b"\0\xff\0", b"def"]),
    ("z", [VALID, numbers("i", 0, 1, 1, 4, 18), b"abcdfourteen chars"], "binary", [b"a", None, b"bcd", b"fourteen chars"]),
    ("Z", [VALID, numbers("q", 0, 1, 1, 4, 18), b"abcdfourteen chars"], "large_binary", [b"a", None, b"bcd", b"fourteen chars"]),
    ("u", [VALID, numbers("i", 0, 1, 1, 4, 18), b"abcdfourteen chars"], "string", ["a", None, "bcd", "fourteen chars"]),
    ("U", [VALID, numbers("q", 0, 1, 1, 4, 18), b"abcdfourteen chars"], "large_string", ["a", None, "bcd", "fourteen chars"]),
    ("vz", [VALID, VIEWS, b"fourteen chars", numbers("q", 14)], "binary_view", [b"a", None, b"bcd", b"fourteen chars"]),
    ("vu", [VALID, VIEWS, b"fourteen chars", numbers("q", 14)], "string_view", ["a", None, "bcd", "fourteen chars"]),
]


class Formats(unittest.TestCase):
    def check(self, piece: Piece, text: str, rows: list[Any], format: str) -> None:
        """Imports a piece, compares its type and rows, and those of what the library exports of it and of its kernels."""
        column = Column.from_arrow(piece)
        self.assertEqual((str(sel._logical.as_logical_of(column, column._logical)), column.to_pylist()), (text, rows))
        again = Column.from_arrow(column)
        self.assertEqual((again.type, again.to_pylist()), (column.type, rows))
        self.assertEqual(sel._logical.as_logical_of(again, again._logical).format, format)
        for found, wanted in table((column.take([3, None, 0]), [rows[3], None, rows[0]]), (column.filter([True, True, False, True]), [rows[0], rows[1], rows[3]]), (column[1:3], rows[1:3])):
            self.assertEqual(Column.from_arrow(found).to_pylist(), wanted)

    def test_formats_without_children(self) -> None:
        seen = set()
        for format, buffers, text, rows in LEAVES:
            self.check(Piece(format, 4, buffers), text, rows, format)
            column = Column.from_arrow(Piece(format, 2, buffers, offset=2, name="name", flags=0 if format == "n" else 2, metadata=b"\1\0\0\0\1\0\0\0k\1\0\0\0v"))
            self.assertEqual((column.to_pylist(), column.type.name if isinstance(column.type, sel.ArrowType) else ""), (rows[2:], "name"))
            self.assertEqual(Column.from_arrow(column).type, column.type)
            seen.add(format[:2])
        self.assertEqual(len(seen), len({format[:2] for format, *_ in LEAVES}))

    def test_nested_formats(self) -> None:
        for format, buffers, text, values in LEAVES:
            item, key, values_of_runs = (Piece(format, 4, buffers, name=name) for name in ("item", "key", "values"))
            lists = [values[:1], None, values[1:3], values[3:]]
            for code, kind, word in table(("+l", "i", "list"), ("+L", "q", "large_list")):
                self.check(Piece(code, 4, [VALID, numbers(kind, 0, 1, 1, 3, 4)], [item]), f"{word}<item: {text}>", lists, code)
            for code, kind, word, out in table(("+vl", "i", "list", "+l"), ("+vL", "q", "large_list", "+L")):
                views = Piece(code, 4, [VALID, numbers(kind, 2, -7, 1, 0), numbers(kind, 2, 99, 0, 4)], [item])
                self.check(views, f"{word}<item: {text}>", [values[2:], None, [], values], out)
            self.check(Piece("+w:1", 4, [VALID], [item]), f"fixed_size_list<item: {text}>[1]", [values[:1], None, values[2:3], values[3:]], "+w:1")
            record = Piece("+s", 4, [None], [key, Piece("l", 4, [None, numbers("q", 5, 6, 7, 8)], name="value", flags=0)])
            dicts = [{"key": value, "value": number} for value, number in zip(values, (5, 6, 7, 8))]
            self.check(record, f"struct<key: {text}, value: i64 not null>", dicts, "+s")
            pairs = [(row["key"], row["value"]) for row in dicts]
            self.check(Piece("+m", 4, [VALID, numbers("i", 0, 1, 1, 3, 4)], [record]), f"map<{text}, i64>", [pairs[:1], None, pairs[1:3], pairs[3:]], "+m")
            for code, kind in table(("s", "h"), ("i", "i"), ("l", "q")):
                runs = Piece("+r", 4, [], [Piece(code, 3, [None, numbers(kind, 1, 3, 9)], flags=0), values_of_runs])
                self.check(runs, text, [values[0], values[1], values[1], values[2]], format)

    def test_dictionaries(self) -> None:
        for code, kind, word in table(("c", "b", "i8"), ("C", "B", "u8"), ("s", "h", "i16"), ("S", "H", "u16"), ("i", "i", "i32"), ("I", "I", "u32"), ("l", "q", "i64"), ("L", "Q", "u64")):
            for format, buffers, text, values in LEAVES:
                keys = Piece(code, 4, [VALID, numbers(kind, 3, 99, 1, 0)], dictionary=Piece(format, 4, buffers))
                self.check(keys, f"dictionary<{word}, {text}>", [values[3], None, values[1], values[0]], code)
        with self.assertRaises(IndexError):
            Column.from_arrow(Piece("C", 1, [None, b"\4"], dictionary=strings()))

    def test_unions_are_errors(self) -> None:
        for format in table("+us:0,1", "+ud:0,1"):
            with self.assertRaisesRegex(sel.BrokenRule, f"unsupported Arrow format '\\{format}'"):
                Column.from_arrow(Piece("+l", 1, [None, numbers("i", 0, 1)], [Piece(format, 1, [b"\0"], [strings(), strings("z")])]))

    def test_unsigned_128_bit_integers(self) -> None:
        metadata = pack("<II20sI11s", 1, 20, b"ARROW:extension:name", 11, b"sel.uint128")
        column = Column.from_arrow(Piece("w:16", 3, [b"\5", (2**128 - 1).to_bytes(16, "little") * 3], metadata=metadata))
        self.assertEqual((str(column.type), column.to_pylist()), ("u128", [2**128 - 1, None, 2**128 - 1]))
        self.assertEqual(Column.from_arrow(Column([2**128 - 1, None], "u128")).to_pylist(), [2**128 - 1, None])


if __name__ == "__main__":
    unittest.main()
