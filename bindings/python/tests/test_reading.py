"""What reads cost: the bytes that they copy are in proportion to the rows that are read, not to the buffers behind them."""

from __future__ import annotations

import random
import unittest
from array import array
from collections.abc import Callable
from ctypes import byref
from typing import Any
from unittest.mock import patch

import model
from cases import table
from sel import Column, Type, _library, _makers, _readers, parse_type
from sel._logical import coded_type
from sel._makers import made_of
from sel._memory import Memory, validity_of, words
from sel._owner import Owner


class CountedBytes(bytes):
    """Bytes that count what is copied of them."""

    copied = 0

    def __getitem__(self, place: Any) -> Any:
        part: Any = bytes.__getitem__(self, place)
        CountedBytes.copied += len(part) if isinstance(place, slice) else 1
        return part


class CountedArray(array):  # type: ignore[type-arg]
    """An array that counts the bytes that are copied of it."""

    def _copied(self, items: int) -> None:
        CountedBytes.copied += items * self.itemsize

    def __getitem__(self, place: Any) -> Any:
        self._copied(len(range(*place.indices(len(self)))) if isinstance(place, slice) else 1)
        return array.__getitem__(self, place)

    def __bytes__(self) -> bytes:
        return self.tobytes()

    def tobytes(self) -> bytes:
        self._copied(len(self))
        return CountedBytes(array.tobytes(self))

    def tolist(self) -> list[Any]:
        self._copied(len(self))
        return array.tolist(self)


def counted_room(code: str, count: int) -> Memory:
    items = CountedArray(code, bytes(count * array(code).itemsize))
    return Memory(items, items.buffer_info()[0] if count else 0)


class Copied:
    """Counts, while it is entered, the calls of the library, the bytes of all memory that they read or write, and the bytes
    that Python copies out of that memory."""

    def __enter__(self) -> Copied:
        self.asked, self.calls, CountedBytes.copied = 0, 0, 0
        attempt = _library.attempt

        def counted(name: str, *arguments: Any) -> int:
            self.calls += 1
            self.asked += sum(argument.size() for argument in arguments if isinstance(argument, Memory))
            return attempt(name, *arguments)

        self.patches: list[Any] = [patch.object(_library, "attempt", counted), patch.object(_readers, "room", counted_room)]
        for each in self.patches:
            each.start()
        return self

    def __exit__(self, *error: object) -> None:
        for each in self.patches:
            each.stop()
        self.copied = CountedBytes.copied


def size_of(rows: list[Any], wanted: Type) -> int:
    """Returns the bytes that rows need: a word or a view for each row at each level, and what they have."""
    there = [row for row in rows if row is not None]
    total = 16 * len(rows)
    if wanted.kind in ("list", "fixed"):
        return total + size_of([item for row in there for item in row], wanted.children[0])
    if wanted.kind == "struct":
        return total + sum(size_of([row[place] for row in there], child) for place, child in enumerate(wanted.children))
    if wanted.kind in ("utf8", "binview", "binary"):
        return total + sum(len(row.encode() if isinstance(row, str) else row) for row in there)
    return total


# Rows by their number: all of a kind have nearly the same size.
KINDS: dict[str, Callable[[int], Any]] = {
    "null": lambda number: None,
    "bool": lambda number: number % 3 == 0,
    "i8": lambda number: number % 100,
    "i64": lambda number: number,
    "u128": lambda number: number << 90,
    "binary": lambda number: number.to_bytes(4, "big") * 25,
    "binview": lambda number: number.to_bytes(4, "big") * 25,
    "utf8": lambda number: f"{number:010}" * 10,
    "list<i64>": lambda number: [number] * (number % 4),
    "list<utf8>": lambda number: [f"{number:030}", "short"],
    "list<list<binary>>": lambda number: [[number.to_bytes(30, "big")], []],
    "fixed<3,binview>": lambda number: [number.to_bytes(20, "big")] * 3,
    "struct<i8,utf8,list<i64>>": lambda number: (number % 100, f"{number:050}", [number] * 3),
}


class Costs(unittest.TestCase):
    def check(self, column: Column, rows: list[Any], wanted: Type, what: Any) -> None:
        """Reads a column, whose rows these are, and checks the rows and the bytes that were copied."""
        with Copied() as read:
            found = column.to_pylist()
        self.assertEqual(found, rows, what)
        bound = 8 * size_of(rows, wanted) + 1024
        self.assertLess(read.asked, bound, what)
        self.assertLess(read.copied, bound, what)

    def test_one_row_of_many(self) -> None:
        for kind, row in KINDS.items():
            wanted = parse_type(kind)
            for count in (100, 10_000):
                for nulls in (False, True):
                    rows = [None if nulls and number % 5 == 0 else row(number) for number in range(count)]
                    column = Column.from_pylist(rows, wanted)
                    for place in (0, 1, count // 2, count - 1):
                        with Copied() as read:
                            self.assertEqual(column[place], rows[place], (kind, count, place))
                        bound = 8 * size_of([rows[place]], wanted) + 1024
                        self.assertLess(read.asked, bound, (kind, count, place))
                        self.assertLess(read.copied, bound, (kind, count, place))
                        self.assertLess(read.calls, 60, (kind, count, place))

    def test_slices(self) -> None:
        for kind, row in KINDS.items():
            wanted = parse_type(kind)
            rows = [None if number % 7 == 0 else row(number) for number in range(5_000)]
            column = Column.from_pylist(rows, wanted)
            for start, stop, step in ((0, 0, 1), (0, 2, 1), (70, 100, 1), (2_500, 3_500, 1), (4_990, 5_000, 1), (0, 5_000, 1), (10, 4_000, 100), (4_999, 0, -999)):
                self.check(column[start:stop:step], rows[start:stop:step], wanted, (kind, start, stop, step))

    def test_whole_columns(self) -> None:
        for kind, row in KINDS.items():
            wanted = parse_type(kind)
            for count in (0, 1, 10, 3_000):
                rows = [row(number) for number in range(count)]
                self.check(Column.from_pylist(rows, wanted), rows, wanted, (kind, count))

    def test_values_of_null_slots_are_not_read(self) -> None:
        big, valid = 200_000, [True, False, True]
        for kind, values in table(
            ("binary", [b"a", bytes(big), b"b"]),
            ("binview", [b"a", bytes(big), b"b" * 20]),
            ("utf8", ["a", "x" * big, "b" * 20]),
            ("list<i8>", [[1], [2] * big, [3, None]]),
            ("list<utf8>", [["a"], ["x"] * big, ["b"]]),
            ("struct<utf8>", [("a",), ("x" * big,), ("b",)]),
            ("struct<list<i8>,bool>", [([1], True), ([2] * big, True), ([3], None)]),
            ("list<struct<binview>>", [[(b"a",)], [(b"x" * big,)] * 3, []]),
        ):
            wanted = parse_type(kind)
            column = Column._owning(made_of(values, wanted, valid=valid))
            rows = [value if is_valid else None for value, is_valid in zip(values, valid)]
            self.check(column, rows, wanted, kind)
            for place in range(3):
                self.check(column.sliced(place, 1), rows[place : place + 1], wanted, (kind, place))

    def test_fixed_size_lists_of_null_slots_are_not_read(self) -> None:
        big, made = 200_000, Owner()
        child = made_of([1] * (3 * big), Type("i8"))
        _library.call("sel_fixed_size_list_new", big, 3, *validity_of([False, False, False]), child, byref(made._handle))
        self.check(Column._owning(made), [None, None, None], Type("fixed", (Type("i8"),), big), "fixed")

    def test_rows_outside_of_lists_are_not_read(self) -> None:
        for kind, items in table(("i64", list(range(50_000))), ("utf8", [f"{number:030}" for number in range(50_000)])):
            made, child, offsets = Owner(), made_of(items, Type(kind)), words("q", (20_000, 20_000, 20_002, 20_003))
            _library.call("sel_list_new", offsets, 4, *validity_of([True] * 3), child, byref(made._handle))
            wanted = Type("list", (Type(kind),))
            self.check(Column._owning(made), [[], items[20_000:20_002], items[20_002:20_003]], wanted, kind)

    def test_dictionaries(self) -> None:
        """Of a large dictionary only the values of the rows are read, at every depth."""
        for kind in ("utf8", "binary", "i64", "list<utf8>", "fixed<3,binview>"):
            wanted = parse_type(kind)
            values = [None if number % 7 == 0 else KINDS[kind](number) for number in range(10_000)]
            for format, storage in (("I", "u32"), ("l", "i64")):
                coded = coded_type(format, Column(values, kind))
                for keys in table([], [5_000], [9_999, None, 0, 3, 3], list(range(0, 10_000, 500))):
                    rows = [None if key is None else values[key] for key in keys]
                    column = Column._owning(made_of(keys, Type(storage)), coded)
                    self.check(column, rows, wanted, (kind, keys))
                    self.check(column.unit_list(), [[row] for row in rows], Type("list", (wanted,)), (kind, keys))
                all_keys = [None, *range(9_999, -1, -1), 5]
                self.assertEqual(Column._owning(made_of(all_keys, Type(storage)), coded).to_pylist(), [None, *values[::-1], values[5]])

    def test_rows_that_were_taken_or_filtered(self) -> None:
        for kind, row in KINDS.items():
            wanted = parse_type(kind)
            rows = [row(number) for number in range(2_000)]
            column = Column.from_pylist(rows, wanted)
            for indices in table([7] * 100, [1_999, None, 0], list(range(0, 2_000, 500))):
                self.check(column.take(indices), model.taken(rows, indices), wanted, (kind, indices))
            mask: list[bool | None] = [number % 300 == 5 for number in range(2_000)]
            self.check(column.filter(mask), model.kept(rows, mask), wanted, kind)

    def test_only_the_data_buffers_that_rows_refer_to_are_read(self) -> None:
        rows = [f"{number:040}" for number in range(1_000)]
        with patch.object(_makers, "_BUFFER_BYTES", 100):
            column = Column.from_pylist(rows)
        self.assertEqual(column._size("sel_buffer_count"), 500)
        self.assertEqual(column.to_pylist(), rows)
        with Copied() as read:
            self.assertEqual(column[613], rows[613])
        self.assertLess(read.calls, 20)
        self.assertLess(read.asked, 1_000)

    def test_text_that_is_read_from_print(self) -> None:
        """Each character and each byte is read back from a few rows of a large column, which are read by printing them."""
        letters = [chr(code) for code in (*range(0x180), 0x7FF, 0x800, 0x2028, 0xD7FF, 0xE000, 0xFFFD, 0xFFFF, 0x10000, 0x1F600, 0x10FFFF)]
        texts = ["".join(letters), *[letter * 13 for letter in letters], "", '","', "\\\",\\\"", "[null]", "null"]
        pieces = [bytes(range(256)), *[bytes([byte]) * 13 for byte in range(256)], b"", b'",h"']
        for rows, filler in table((texts, "x" * 100_000), (pieces, b"x" * 100_000)):
            column = Column.from_pylist([*rows, filler])
            with patch.object(_readers, "_buffer", side_effect=AssertionError("a data buffer was read")):
                self.assertEqual(column[: len(rows)].to_pylist(), rows)
            self.assertEqual(column.to_pylist(), [*rows, filler])

    def test_random_columns_row_by_row(self) -> None:
        rng = random.Random(21)
        for _ in range(150):
            _, rows, column = model.random_column(rng, 3, range(1, 9))
            self.assertEqual([column[place] for place in range(len(rows))], rows)
            self.assertEqual([column[place - len(rows)] for place in range(len(rows))], rows)
            self.assertEqual(list(column), rows)
            with patch.object(_readers, "_SPARE_BYTES", -(2**40)):
                self.assertEqual(column.to_pylist(), rows, "by copies and by printing")
            with patch.object(_readers, "_SPARE_BYTES", 2**40):
                self.assertEqual(column.to_pylist(), rows, "by whole buffers")


if __name__ == "__main__":
    unittest.main()
