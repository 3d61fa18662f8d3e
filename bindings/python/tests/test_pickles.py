"""Pickles of columns and tables: of each protocol, in band and out of band, with the addresses of their buffers."""

from __future__ import annotations

import gc
import importlib
import pickle
import random
import unittest
import weakref
from array import array
from ctypes import addressof, c_char
from typing import Any

import model
import sel
from arrays import Piece
from cases import numpy, table
from notation import KINDS, rows_of_types
from sel import ArrowType, Column, Table, parse_type
from sel._lending import _KEPT, Pinned
from sel._logical import coded_type
from sel._makers import made_of

PROTOCOLS = range(2, pickle.HIGHEST_PROTOCOL + 1)
LONG = "a string that is longer than twelve bytes, {}"


def out_of_band(value: object) -> tuple[bytes, list[Any]]:
    """Returns a pickle and its buffers."""
    buffers: list[Any] = []
    return pickle.dumps(value, 5, buffer_callback=buffers.append), buffers


def addresses(column: Column) -> list[int]:
    """Returns the addresses of the buffers that a column is pickled with."""
    return [Pinned(buffer).address for buffer in out_of_band(column)[1]]


def sizes(column: Column) -> list[int]:
    return [Pinned(buffer).size for buffer in out_of_band(column)[1]]


def wrong_layouts(level: Any) -> list[Any]:
    """Returns the layout with other rows or other buffers, at each level."""
    format, metadata, length, null_count, sizes, children = level
    found: list[Any] = [(format, metadata, count, null_count, sizes, children) for count in (length + 8, 1 << 20, 1 << 62, -1)]
    found += [(format, metadata, length, null_count, wrong, children) for wrong in (sizes[:-1], (*sizes, None), (*sizes, 0), (None, *sizes)) if wrong != sizes]
    for number, child in enumerate(children):
        found += [(*level[:5], (*children[:number], wrong, *children[number + 1 :])) for wrong in wrong_layouts(child)]
    return found


class Protocols(unittest.TestCase):
    def check(self, column: Column) -> None:
        """Checks the column of a pickle of each protocol, in band and out of band, over read-only and over writable buffers."""
        rows, data, buffers = column.to_pylist(), *out_of_band(column)
        found = [pickle.loads(pickle.dumps(column, protocol)) for protocol in PROTOCOLS]
        found += [pickle.loads(data, buffers=buffers), pickle.loads(data, buffers=[bytearray(buffer) for buffer in buffers]), pickle.loads(data, buffers=[bytes(buffer) for buffer in buffers])]
        for other in found:
            self.assertIs(type(other), Column)
            self.assertEqual((other.type, other.storage, other.to_pylist(), other.null_count), (column.type, column.storage, rows, column.null_count))
            self.assertTrue(other.equals(column))

    @unittest.skipUnless(KINDS.exists(), f"{KINDS} is not there: its types are not tested")
    def test_every_type(self) -> None:
        rng, types = random.Random(1), rows_of_types()
        self.assertGreater(len(types), 15)
        for wanted, rows in types:
            for column in (Column(rows, wanted), Column([], wanted), Column(rows, wanted)[2:6], model.laid_out(rng, rows, wanted), Column(rows * 9, wanted)[7:]):
                self.check(column)

    def test_random_columns(self) -> None:
        rng = random.Random(2)
        for _ in range(300):
            _, rows, column = model.random_column(rng, 3, range(20))
            self.check(column)
            self.check(column[rng.randrange(len(rows) + 1) :])

    def test_types_at_the_ends(self) -> None:
        for wanted, rows in table(("struct<>", [(), None]), ("fixed<0,i8>", [[], None, []]), ("fixed<4294967295,null>", [None]), ("null", [None] * 3), ("bool", [True, None] * 9),
                                  ("i128", [-(2**127), 2**127 - 1, None]), ("list<i128>", [[10**38], None]), ("i128", [10**38 - 1, -1]), ("u128", [2**128 - 1]),
                                  ("utf8", ["\0\"\\\u00e9\U0001f600", None, ""]), ("list<" * 70 + "i8" + ">" * 70, [None, []])):
            self.check(Column(rows, wanted))
            self.check(Column(rows, wanted)[1:])

    def test_logical_types(self) -> None:
        import datetime

        day, words = datetime.date(2024, 2, 29), Column(["a", None, LONG.format(0)])
        coded = Column._owning(made_of([2, 0, None] * 5, parse_type("u8")), coded_type("C", words))
        for column in (Column([0.5, None, 1.5]), Column([day, None]), Column([[day], None, []]), Column([(0.5, "a"), None]), Column([1.5], "halffloat"), coded, coded[3:7],
                       Column([datetime.datetime(2024, 2, 29, tzinfo=datetime.timezone.utc)]), Column.from_arrow(Table({"id": [1, 2], "price": [0.5, None]})),
                       Column.from_arrow(Piece("d:10,2", 2, [None, bytes(32)], name="price", metadata=b"\1\0\0\0\1\0\0\0k\3\0\0\0\0v\0")), Column([b"abcd"], "fixed_size_binary[4]")):
            self.check(column)
            self.assertIsInstance(pickle.loads(pickle.dumps(column, 5)).type, ArrowType)
        self.assertEqual(pickle.loads(pickle.dumps(coded, 5)).to_pylist()[:3], [LONG.format(0), "a", None])

    def test_tables(self) -> None:
        whole = Table({"id": [1, 2, None], "name": ["a", None, LONG.format(1)], "price": [0.5, None, 2.0], "tags": [[1], None, []]})
        for given in (whole, whole[1:], whole[:0], whole.take([2, None]), Table({}), Table({"": [None]})):
            data, buffers = out_of_band(given)
            for other in (*[pickle.loads(pickle.dumps(given, protocol)) for protocol in PROTOCOLS], pickle.loads(data, buffers=buffers)):
                self.assertIs(type(other), Table)
                self.assertEqual((other.column_names, other.to_pydict(), len(other)), (given.column_names, given.to_pydict(), len(given)))
                self.assertEqual([column.type for column in other.columns], [column.type for column in given.columns])


class Buffers(unittest.TestCase):
    def test_counts_and_sizes(self) -> None:
        """The validity is there if a row is null, and the values of 8 bytes or less are as long as the rows need."""
        texts = Column([LONG.format(number) for number in range(10)])
        data = sum(len(LONG.format(number)) for number in range(10))
        for column, wanted in table(
            (Column([1, 2, 3]), [24]), (Column([1, None, 3]), [1, 24]), (Column([1, 2] * 10, "u16")[3:], [34]), (Column([None, 1, 2])[1:], [16]), (Column([True] * 9), [2]),
            (Column([]), []), (Column([], "i64"), [0]), (Column([b"abc", None, b"d"], "binary"), [1, 32, 4]), (Column(["a", "b"]), [32]), (texts, [160, data]),
            (Column([[1, 2], [3]]), [24, 24]), (Column([[1, 2], None], "fixed<2,i32>"), [1, 1, 16]), (Column([(1, True), (2, None)]), [16, 1, 1]), (Column([0.5]), [8]),
            (Column([1], "u128"), [16]),
        ):
            self.assertEqual(sizes(column), wanted, column)

    def test_columns_are_not_copied(self) -> None:
        """A pickle has the column's memory, and the column that is read has that of the buffers."""
        for column in (Column(list(range(1000))), Column([1, None, 3] * 100), Column([[number, None] for number in range(100)]), Column([LONG.format(number) for number in range(100)]),
                       Column([b"abc" * 9, None] * 50, "binary"), Column([(number, LONG.format(number)) for number in range(50)]), Column([0.5, None] * 50)):
            data, buffers = out_of_band(column)
            again = pickle.loads(data, buffers=buffers)
            self.assertEqual(addresses(again), addresses(column))
            self.assertLess(len(data), 700)
            self.assertTrue(all(memoryview(buffer).readonly for buffer in buffers))
        numbers = Column(list(range(1000)))
        self.assertEqual(addresses(numbers[7:]), [addresses(numbers)[0] + 56])

    def test_buffers_of_the_receiver(self) -> None:
        """Buffers that are aligned are read where they are, others are copied; read-only and writable ones alike."""
        column = Column(list(range(100)))
        data, (buffer,) = out_of_band(column)
        for shift in range(9):
            room = bytearray(900)
            start = -addressof(c_char.from_buffer(room)) % 16 + shift
            room[start : start + 800] = bytes(buffer)
            for part in (memoryview(room)[start : start + 800], memoryview(room)[start : start + 800].toreadonly()):
                again = pickle.loads(data, buffers=[part])
                self.assertEqual((again.to_pylist(), addresses(again) == [Pinned(part).address]), (list(range(100)), shift % 8 == 0))
        in_band = pickle.loads(pickle.dumps(column, 5))
        self.assertEqual(addresses(in_band), [_KEPT[max(_KEPT)][0][0].address])
        self.assertEqual(in_band.to_pylist(), list(range(100)))

    def test_lifetimes(self) -> None:
        """The buffers are pinned until the last column that reads them is gone, and those of a pickle keep their column's memory."""
        column = Column(list(range(100)))
        data, buffers = out_of_band(column)
        del column
        gc.collect()
        received = bytearray(buffers[0])
        self.assertEqual(received, array("q", range(100)).tobytes())
        again = pickle.loads(data, buffers=[received])
        part = again[5:]
        del again
        with self.assertRaises(BufferError):
            received.append(0)
        self.assertEqual(part[0], 5)
        del part
        gc.collect()
        received.append(0)

    @unittest.skipIf(numpy is None, "numpy is not installed: arrays are not tested")
    def test_arrays_of_numpy(self) -> None:
        """The memory of an array goes through a column and a pickle into a column and an array, and is freed once."""
        values = numpy.arange(1000)
        freed: list[bool] = []
        address = values.ctypes.data
        weakref.finalize(values, freed.append, True)
        data, buffers = out_of_band(Table({"a": Column.from_numpy(values), "b": Column.from_numpy(values)[10:1000].take(numpy.arange(1000) % 990)}))
        del values
        again = pickle.loads(data, buffers=buffers)
        del buffers, data
        view = again["a"].to_numpy(zero_copy_only=True)
        self.assertEqual((view.ctypes.data, view[999], freed), (address, 999, []))
        del again
        self.assertEqual((view[5], freed), (5, []))
        del view
        gc.collect()
        self.assertEqual(freed, [True])

    def test_frames_of_dask(self) -> None:
        """Dask passes the column's memory on, and the table that is read has that of the frames."""
        try:
            protocol: Any = importlib.import_module("distributed.protocol")
        except ImportError:
            self.skipTest("distributed is not installed")
        given = Table({"a": Column(list(range(1000))), "b": Column(["a", None] * 500)})
        header, frames = protocol.serialize(given)
        wanted = [address for column in given.columns for address in addresses(column)]
        self.assertEqual([Pinned(frame).address for frame in frames[1:]], wanted)
        again = protocol.deserialize(header, frames)
        self.assertEqual([address for column in again.columns for address in addresses(column)], wanted)
        self.assertEqual(again.to_pydict(), given.to_pydict())

    def test_wrong_buffers(self) -> None:
        before = len(_KEPT)
        for column in (Column([1, 2, 3]), Column(["a", None]), Column([[1], []])):
            data, buffers = out_of_band(column)
            for wrong in ([bytes(buffer)[:-1] for buffer in buffers], [bytes(buffer) + b"a" for buffer in buffers]):
                with self.assertRaisesRegex(ValueError, "bytes, not"):
                    pickle.loads(data, buffers=wrong)
            with self.assertRaises(pickle.UnpicklingError):
                pickle.loads(data, buffers=[])
        strings, parts = out_of_band(Column([LONG.format(number) for number in range(3)]))
        with self.assertRaises(sel.BrokenRule):
            pickle.loads(strings, buffers=[parts[0], b"\xff" * Pinned(parts[1]).size])
        del parts, buffers, column
        gc.collect()
        self.assertEqual(len(_KEPT), before)


    def test_wrong_layouts(self) -> None:
        """A layout is refused if it needs more bytes than its buffers have, or other buffers: the library would read behind them."""
        before = len(_KEPT)
        for wanted, rows in table(("i64", [1, 2, 3]), ("i8", [1, None]), ("bool", [True, None] * 9), ("u128", [1]), ("utf8", ["a", LONG.format(0)]), ("binview", [b"a", None]), ("binary", [b"abc", b""]),
                                  ("list<i8>", [[1], []]), ("fixed<2,i32>", [[1, 2], None]), ("struct<i64,bool>", [(1, True), None]), ("list<struct<binary>>", [[(b"a",)], None])):
            again, (logical, level, *buffers) = Column(rows, wanted).__reduce_ex__(5)
            self.assertEqual(again(logical, level, *buffers).to_pylist(), rows)
            for wrong in wrong_layouts(level):
                with self.assertRaises(ValueError, msg=(level, wrong)):
                    again(logical, wrong, *buffers)
            with self.assertRaisesRegex(ValueError, "too few buffers"):
                again(logical, level, *buffers[:-1])
            with self.assertRaisesRegex(ValueError, "too many buffers"):
                again(logical, level, *buffers, b"")
        again, (logical, level, offsets, data) = Column([b"abc", b""], "binary").__reduce_ex__(5)
        for end in (4, 1 << 40, -1):
            with self.assertRaises(ValueError):
                again(logical, level, bytes(offsets)[:16] + end.to_bytes(8, "little", signed=True), data)
        gc.collect()
        self.assertEqual(len(_KEPT), before)


class Slices(unittest.TestCase):
    """A pickle of a slice or of a filtered column has its rows alone."""

    def test_sizes(self) -> None:
        texts, strings = [f"{number:030}" for number in range(20_000)], [f"{number:030}".encode() for number in range(20_000)]
        for wanted, rows in table(("i64", list(range(20_000))), ("utf8", texts), ("binary", strings), ("binview", strings), ("list<binary>", [[b"x" * 40, b""]] * 20_000),
                                  ("list<utf8>", [[text] for text in texts]), ("list<list<i64>>", [[[number], []] for number in range(20_000)]),
                                  ("struct<i8,utf8>", [(1, text) for text in texts]), ("fixed<1,binview>", [[string] for string in strings])):
            column = Column(rows, wanted)
            for part, expected in table((column[10_000:10_002], rows[10_000:10_002]), (column.filter([number % 5_000 == 0 for number in range(20_000)]), rows[::5_000]), (column[20_000:], [])):
                data, buffers = out_of_band(part)
                self.assertLess(len(data) + sum(Pinned(buffer).size for buffer in buffers), 1_000, wanted)
                self.assertLess(len(pickle.dumps(part, 5)), 1_000, wanted)
                for again in (pickle.loads(data, buffers=buffers), pickle.loads(pickle.dumps(part, 5))):
                    self.assertEqual((again.to_pylist(), again.type), (expected, column.type), wanted)
            half = column[10_000:]
            data, buffers = out_of_band(half)
            self.assertLess(sum(Pinned(buffer).size for buffer in buffers), 0.7 * sum(sizes(column)) if wanted == "i64" else 1.01 * sum(sizes(column)), wanted)
            self.assertEqual(pickle.loads(data, buffers=buffers).to_pylist(), rows[10_000:], wanted)

    def test_without_numpy(self) -> None:
        import unittest.mock

        column = Column([f"{number:030}" for number in range(1_000)])[:3]
        wanted = sizes(column)
        with unittest.mock.patch.dict("sys.modules", {"numpy": None}):
            self.assertEqual(sizes(column), wanted)
        self.assertEqual(wanted, [32, 90])

    def test_pickles_are_linear(self) -> None:
        lengths = [len(pickle.dumps(Column([[f"{number:020}"] for number in range(count)]), 5)) for count in (1_000, 2_000, 4_000)]
        self.assertLess(lengths[2], 2.2 * lengths[1])
        self.assertLess(lengths[1], 2.2 * lengths[0])


if __name__ == "__main__":
    unittest.main()
