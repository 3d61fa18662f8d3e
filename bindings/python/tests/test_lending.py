"""Memory without a copy: arrays of numpy that columns read, and arrays and buffers over the memory of columns."""

from __future__ import annotations

import gc
import itertools
import sys
import threading
import unittest
import weakref
from typing import Any

import sel
from cases import numpy, table
from sel import Column, Table
from sel._lending import _KEPT

INTEGERS = ("int8", "int16", "int32", "int64", "uint8", "uint16", "uint32", "uint64")
FLOATS = ("float16", "float32", "float64")
TIMES = tuple(f"{kind}64[{unit}]" for kind in ("datetime", "timedelta") for unit in ("s", "ms", "us", "ns"))
OFFSETS = (0, 1, 7, 64)
ROWS = 100


def address_of(column: Column) -> int:
    """Returns the address of the first value that a column reads."""
    return int(numpy.frombuffer(column.values_buffer(), dtype="u1").ctypes.data)


def array_of(name: str) -> Any:
    return numpy.arange(ROWS).astype("int64" if name in TIMES else name).astype(name)


class Watched:
    """Arrays that are watched: how many of them are freed."""

    def __init__(self) -> None:
        self.freed = 0

    def __call__(self, array: Any) -> Any:
        weakref.finalize(array, self._count)
        return array

    def _count(self) -> None:
        self.freed += 1


@unittest.skipIf(numpy is None, "numpy is not installed: arrays are not tested")
class FromNumpy(unittest.TestCase):
    def test_addresses(self) -> None:
        """A column reads the values of the array where they are, whatever part of an array it is."""
        for name in (*INTEGERS, *FLOATS, *TIMES):
            whole = array_of(name)
            for first in OFFSETS:
                part = whole[first:]
                for copy in (None, False):
                    column = Column.from_numpy(part, copy=copy)
                    self.assertEqual((len(column), address_of(column)), (ROWS - first, part.ctypes.data), (name, first))
                    numpy.testing.assert_array_equal(column.to_numpy(), part)
                    self.assertEqual(column.to_numpy().dtype, whole.dtype)
                    for start in OFFSETS[:3]:
                        self.assertEqual(address_of(column[start:]), part[start:].ctypes.data)
                    self.assertEqual(column[5:5].to_pylist(), [])
                copied = Column.from_numpy(part, copy=True)
                self.assertNotEqual(address_of(copied), part.ctypes.data)
                numpy.testing.assert_array_equal(copied.to_numpy(), part)

    def test_types(self) -> None:
        for name, wanted in table(("int64", "i64"), ("uint8", "u8"), ("float16", "halffloat"), ("float64", "double"), ("datetime64[ms]", "timestamp[ms]"), ("timedelta64[ns]", "duration[ns]")):
            for copy in (None, True):
                self.assertEqual(str(Column.from_numpy(array_of(name), copy=copy).type), wanted)
                self.assertEqual(str(Column.from_numpy(array_of(name)[:0], copy=copy).type), wanted)

    def test_arrays_that_are_copied(self) -> None:
        shifted = numpy.frombuffer(bytes(1 + 8 * ROWS), dtype="int64", offset=1)
        for array, reason in table(
            (array_of("int64")[::2], "next to each other"), (array_of("int64")[::-1], "next to each other"), (array_of("float32")[1::3], "next to each other"),
            (array_of("int32").astype(">i4"), "another order"), (array_of("float64").astype(">f8"), "another order"), (shifted, "not aligned"),
            (array_of("int64") % 2 == 0, "booleans are bits"), (array_of("int64").astype("datetime64[D]"), "days have 32 bits"),
            (numpy.zeros(4, dtype="bool"), "booleans are bits"), (numpy.zeros((5, 3), dtype="int64")[:, 1], "next to each other"),
        ):
            column = Column.from_numpy(array)
            numpy.testing.assert_array_equal(column.to_numpy(), array)
            with self.assertRaisesRegex(ValueError, f"values: the array has to be copied.*{reason}"):
                Column.from_numpy(array, copy=False)
            if column.storage.kind != "bool":
                self.assertNotEqual(address_of(column), array.ctypes.data)
        for array in table(numpy.array([1, None]), numpy.array(["a"]), numpy.array([1j])):
            with self.assertRaises(TypeError, msg=array.dtype):
                Column.from_numpy(array, copy=False)
        for copy in table(1, 0, "a", [], numpy.array([True])):
            with self.assertRaisesRegex(TypeError, "copy"):
                Column.from_numpy(array_of("int64"), copy=copy)
        self.assertEqual(Column.from_numpy(array_of("int8"), copy=numpy.bool_(True))[:2].to_pylist(), [0, 1])

    def test_nulls(self) -> None:
        """Masks, `valid` and NaT are null; the values are read where they are."""
        values = numpy.arange(20, dtype="int32")
        mask = values % 3 == 0
        masked, valid = numpy.ma.array(values, mask=mask), values % 2 == 0
        for column, nulls in table((Column.from_numpy(masked), mask), (Column.from_numpy(values, valid), ~valid), (Column.from_numpy(masked, valid=list(valid)), mask | ~valid),
                                   (Column.from_numpy(values, valid=[True] * 20), values < 0), (Column.from_numpy(numpy.ma.array(values, mask=False)), values < 0)):
            self.assertEqual(column.to_pylist(), [None if is_null else value for value, is_null in zip(values.tolist(), nulls)])
            self.assertEqual((column.null_count, address_of(column)), (nulls.sum(), values.ctypes.data))
            self.assertEqual(column[3:].to_pylist(), column.to_pylist()[3:])
        for name in ("datetime64[us]", "timedelta64[s]"):
            times = numpy.array([0, "NaT", 2], dtype=name)
            self.assertEqual(Column.from_numpy(times).valid(), [True, False, True])
            self.assertEqual(Column.from_numpy(times, valid=[False, True, True]).valid(), [False, False, True])
            self.assertEqual(address_of(Column.from_numpy(times, copy=False)), times.ctypes.data)
            self.assertEqual(Column.from_numpy(times).to_pylist(), Column.from_numpy(times, copy=True).to_pylist())

    def test_empty_arrays(self) -> None:
        for name in (*INTEGERS, *FLOATS, *TIMES):
            watched = Watched()
            column = Column.from_numpy(watched(numpy.empty(0, dtype=name)), copy=False)
            self.assertEqual((len(column), column.to_numpy().dtype, column.to_numpy(zero_copy_only=True).tolist()), (0, numpy.dtype(name), []))
            self.assertEqual(watched.freed, 1)

    def test_objects_with_arrays(self) -> None:
        class Series:
            """An object with numpy's protocol, which has an array."""

            def __init__(self, values: Any) -> None:
                self.values = values

            def __array__(self, dtype: Any = None, copy: Any = None) -> Any:
                return self.values

        values = numpy.arange(5)
        series: Any = Series(values)
        self.assertEqual(address_of(Column.from_numpy(series)), values.ctypes.data)
        table = Table({"a": values, "b": values.astype("float64")})
        self.assertEqual(address_of(table.column("a")), values.ctypes.data)
        self.assertEqual(table.to_pydict(), {"a": [0, 1, 2, 3, 4], "b": [0.0, 1.0, 2.0, 3.0, 4.0]})

    def test_arguments_are_copied(self) -> None:
        """Indices and masks are read twice by a call, so another thread must not be able to change them."""
        indices = numpy.arange(3, dtype="uint32")
        before = len(_KEPT)
        self.assertEqual(Column([1, 2, 3]).take(indices).to_pylist(), [1, 2, 3])
        self.assertEqual(len(_KEPT), before)


@unittest.skipIf(numpy is None, "numpy is not installed: arrays are not tested")
class Lifetimes(unittest.TestCase):
    def test_an_array_is_kept_until_the_last_column_is_gone(self) -> None:
        for name in (*INTEGERS, *FLOATS, *TIMES):
            watched = Watched()
            column = Column.from_numpy(watched(array_of(name)))
            wanted = column.to_pylist()
            gc.collect()
            self.assertEqual((watched.freed, column.to_pylist()), (0, wanted))
            del column
            self.assertEqual(watched.freed, 1, name)

    def test_every_order_of_owners(self) -> None:
        """A column, a slice, a kernel's result that shares memory, an array over the column, an exported array, and a buffer."""
        for order in itertools.permutations(range(6)):
            watched = Watched()
            column = Column.from_numpy(watched(numpy.arange(ROWS)))
            exported = column[2:].__arrow_c_array__()
            owners: list[Any] = [column, column[5:], column.filter(numpy.ones(ROWS, dtype=bool)), column.to_numpy(zero_copy_only=True), exported, column.values_buffer()]
            del column, exported
            for left, place in enumerate(order):
                self.assertEqual(watched.freed, 0, order[:left])
                owners[place] = None
            self.assertEqual(watched.freed, 1, order)

    def test_results_without_the_memory_do_not_keep_it(self) -> None:
        watched = Watched()
        column = Column.from_numpy(watched(numpy.arange(ROWS)))
        results = [column.filter(numpy.arange(ROWS) % 2 == 0), column.take([3, 1]), sel.concat([column, column]), sel.if_else([True] * ROWS, column, 0)]
        array, rows = column.to_numpy(), [result.to_pylist() for result in results]
        del column
        gc.collect()
        self.assertEqual((watched.freed, [result.to_pylist() for result in results], array[3]), (1, rows, 3))

    def test_nested_columns(self) -> None:
        watched = Watched()
        lists = Column.from_numpy(watched(numpy.arange(ROWS))).unit_list()
        self.assertEqual((watched.freed, lists[7:9].to_pylist()), (0, [[7], [8]]))
        child = lists.child()
        del lists
        self.assertEqual((watched.freed, child[9]), (0, 9))
        del child
        self.assertEqual(watched.freed, 1)

    def test_exports_have_the_memory(self) -> None:
        watched = Watched()
        array = watched(numpy.arange(ROWS))
        address = array.ctypes.data
        column = Column.from_arrow(Column.from_arrow(Column.from_numpy(array)))
        del array
        self.assertEqual((watched.freed, address_of(column)), (0, address))
        del column
        self.assertEqual(watched.freed, 1)

    def test_errors_keep_nothing(self) -> None:
        before = len(_KEPT)
        for arguments in table({"valid": [True]}, {"valid": [1] * ROWS}, {"copy": 1}):
            watched = Watched()
            with self.assertRaises((ValueError, TypeError)):
                Column.from_numpy(watched(numpy.arange(ROWS)), **arguments)
            gc.collect()
            self.assertEqual((watched.freed, len(_KEPT)), (1, before))

    def test_many_columns(self) -> None:
        """With more than 64 lent arrays one may be freed by a later column."""
        watched = Watched()
        columns = [Column.from_numpy(watched(numpy.arange(3) + number)) for number in range(500)]
        self.assertEqual([column[0] for column in columns], list(range(500)))
        self.assertEqual(watched.freed, 0)
        del columns
        for _ in range(64):
            Column([1]).share()
        self.assertEqual(watched.freed, 500)

    def test_threads(self) -> None:
        """Threads read, filter and slice one lent array, make and free columns of their own, and the last one frees the array."""
        watched, errors, rounds = Watched(), [], 30
        arrays = [watched(numpy.arange(1_000) + number) for number in range(8)]
        shared = [Column.from_numpy(array) for array in arrays]
        addresses = [array.ctypes.data for array in arrays]
        del arrays
        start = threading.Barrier(8)

        def work(columns: list[Column]) -> None:
            try:
                start.wait()
                for turn in range(rounds):
                    for number, column in enumerate(columns):
                        part = column[turn:]
                        array = part.to_numpy(zero_copy_only=True)
                        if address_of(column) != addresses[number] or array[0] != number + turn or part.filter(array % 2 == 0).to_numpy().sum() != array[array % 2 == 0].sum():
                            raise AssertionError((turn, number))
                        own = Column.from_numpy(watched(array + 1))
                        if own[-1] != number + 1_000:
                            raise AssertionError((turn, number))
                columns.clear()
            except BaseException as error:
                errors.append(error)

        threads = [threading.Thread(target=work, args=([column.share() for column in shared],)) for _ in range(8)]
        for thread in threads:
            thread.start()
        del shared
        for thread in threads:
            thread.join()
        del threads
        gc.collect()
        Column([1]).share()
        self.assertEqual(errors, [])
        self.assertEqual(watched.freed, 8 + 8 * 8 * rounds)

    def test_at_exit(self) -> None:
        """Columns that are alive when Python ends are freed or not, and nothing fails."""
        import subprocess

        text = ("import numpy, sel, sys\n"
                "class Cycle: pass\n"
                "cycle = Cycle()\n"
                "cycle.self, cycle.column = cycle, sel.Column.from_numpy(numpy.arange(1000))\n"
                "sys.kept, numpy.kept = sel.Column.from_numpy(numpy.arange(9)), cycle.column.to_numpy(zero_copy_only=True)\n"
                "held = [sel.Column.from_numpy(numpy.arange(10)) for _ in range(200)]\n"
                "print(cycle.column[999])\n")
        done = subprocess.run([sys.executable, "-c", text], capture_output=True, text=True, check=False)
        self.assertEqual((done.returncode, done.stdout, done.stderr), (0, "999\n", ""))


@unittest.skipIf(numpy is None, "numpy is not installed: arrays are not tested")
class ToNumpy(unittest.TestCase):
    def test_views(self) -> None:
        for name in (*INTEGERS, *FLOATS, *TIMES):
            values = array_of(name)
            for first in OFFSETS:
                for column in (Column.from_numpy(values)[first:], Column.from_numpy(values, copy=True)[first:]):
                    for view in (column.to_numpy(zero_copy_only=True), column.to_numpy(writable=False), column.to_numpy(zero_copy_only=True, writable=False),
                                 numpy.asarray(column), column.__array__(copy=False), column.__array__(values.dtype, copy=False)):
                        self.assertEqual((view.ctypes.data, view.dtype, view.flags.writeable), (address_of(column), values.dtype, False))
                        numpy.testing.assert_array_equal(view, values[first:])
                        with self.assertRaises(ValueError):
                            view[0] = view[1]
                        with self.assertRaises(ValueError):
                            view.flags.writeable = True

    def test_copies(self) -> None:
        """By default an array is a copy that can be written, and so is one that `numpy.array` makes."""
        for column in (Column([1, 2, 3]), Column([0.5, 1.5, 2.5]), Column.from_numpy(array_of("datetime64[s]"))):
            before = column.to_pylist()
            for copy in (column.to_numpy(), column.to_numpy(writable=True), column.to_numpy(False, True), numpy.array(column), column.__array__(copy=True)):
                self.assertNotEqual(copy.ctypes.data, address_of(column))
                copy[0] = copy[1]
                self.assertEqual(column.to_pylist(), before)

    def test_arrays_that_have_to_be_copies(self) -> None:
        day = numpy.array(["2024-02-29"], dtype="datetime64[D]")
        for column, reason in table((Column([1, None]), "nulls"), (Column([True]), "booleans"), (Column.from_numpy(day), "days"), (Column([0.5, None]), "nulls")):
            with self.assertRaisesRegex(ValueError, reason):
                column.to_numpy(zero_copy_only=True)
            with self.assertRaises(ValueError):
                column.__array__(copy=False)
            numpy.testing.assert_array_equal(column.to_numpy(writable=False), column.to_numpy())
        self.assertEqual(numpy.asarray(Column.from_numpy(day)).tolist(), day.tolist())
        self.assertEqual(Column([1, None])[:1].to_numpy(zero_copy_only=True).tolist(), [1])
        with self.assertRaisesRegex(ValueError, "writable"):
            Column([1]).to_numpy(zero_copy_only=True, writable=True)
        for arguments in table({"zero_copy_only": 1}, {"writable": 0}, {"zero_copy_only": None}):
            with self.assertRaises(TypeError):
                Column([1]).to_numpy(**arguments)
        for column in (Column(["a"]), Column([[1]]), Column([1], "i128"), Column([None])):
            for arguments in table({}, {"zero_copy_only": True}, {"writable": False}):
                with self.assertRaisesRegex(TypeError, "no array has values of type"):
                    column.to_numpy(**arguments)

    def test_other_types_of_arrays(self) -> None:
        column = Column([1, 2])
        self.assertEqual(numpy.asarray(column, dtype="float64").tolist(), [1.0, 2.0])
        self.assertEqual(column.__array__("int8").dtype, numpy.dtype("int8"))
        self.assertEqual(column.__array__("int64", copy=False).ctypes.data, address_of(column))
        with self.assertRaisesRegex(ValueError, "int8"):
            column.__array__("int8", copy=False)
        for copy in table(False, numpy.bool_(False)):
            self.assertEqual(column.__array__(copy=copy).ctypes.data, address_of(column))
            for other in (Column([True]), Column.from_numpy(numpy.array(["2024-02-29"], dtype="datetime64[D]"))):
                with self.assertRaisesRegex(ValueError, "is a copy"):
                    other.__array__(copy=copy)
        self.assertTrue(column.__array__(copy=numpy.bool_(True)).flags.writeable)
        for copy in table(0, 1, "no", []):
            with self.assertRaisesRegex(TypeError, "copy: .* not a boolean"):
                column.__array__(copy=copy)

    def test_views_keep_the_memory(self) -> None:
        watched = Watched()
        column = Column.from_numpy(watched(numpy.arange(ROWS)))
        views = [column.to_numpy(zero_copy_only=True), numpy.asarray(column[3:]), numpy.asarray(column.to_numpy(zero_copy_only=True)[5:].view("uint64"))]
        del column
        gc.collect()
        self.assertEqual((watched.freed, [int(view[1]) for view in views]), (0, [1, 4, 6]))
        del views
        self.assertEqual(watched.freed, 1)
        taken = Column([7, 8, 9]).take([2, 0]).to_numpy(zero_copy_only=True)
        gc.collect()
        self.assertEqual(taken.tolist(), [9, 7])


class Buffers(unittest.TestCase):
    def test_formats(self) -> None:
        for kind, code in table(("i8", "b"), ("i16", "h"), ("i32", "i"), ("i64", "q"), ("u8", "B"), ("u16", "H"), ("u32", "I"), ("u64", "Q")):
            column = Column([1, None, 3, 0], kind)
            for part, values in table((column[2:], [3, 0]), (column[3:], [0]), (column[:0], [])):
                view = part.values_buffer()
                self.assertEqual((view.format, view.tolist(), view.readonly, view.ndim), (code, values, True, 1))
                self.assertEqual(part.__buffer__(0).tolist(), values)
            self.assertEqual([value for value, valid in zip(column.values_buffer(), column.valid()) if valid], [1, 3, 0])
            with self.assertRaises(TypeError):
                column.values_buffer()[0] = 5
            with self.assertRaisesRegex(BufferError, "nulls"):
                column.__buffer__(0)
        self.assertEqual((Column([1.5]).values_buffer().format, Column([1.5]).__buffer__(0).tolist()), ("d", [1.5]))
        self.assertEqual((Column([1.5], "float").values_buffer().format, Column([1.5], "float").values_buffer().tolist()), ("f", [1.5]))
        self.assertEqual((Column([1.5], "halffloat").values_buffer().format, Column([1.5], "halffloat").values_buffer().tolist()), ("H", [0x3E00]))
        self.assertEqual(Column([3], "date32").values_buffer().tolist(), [3])

    def test_other_types(self) -> None:
        for rows, kind in table(([True], "bool"), (["a"], "utf8"), ([b"a"], "binary"), ([None], "null"), ([1], "i128"), ([1], "u128"), ([[1]], "list<i64>"), ([(1,)], "struct<i64>")):
            with self.assertRaisesRegex(TypeError, "in its memory"):
                Column(rows, kind).values_buffer()
            with self.assertRaises(BufferError):
                Column(rows, kind).__buffer__(0)
        for rows, kind in table(([3], "date32"), ([3], "timestamp[ms]"), ([1.5], "halffloat")):
            with self.assertRaises(BufferError):
                Column(rows, kind).__buffer__(0)

    def test_a_buffer_keeps_the_memory(self) -> None:
        column = Column(list(range(1000)))
        view = column.values_buffer()[10:]
        del column
        gc.collect()
        others = [Column([5] * 1000) for _ in range(50)]
        self.assertEqual((view[0], view[-1], others[0][0]), (10, 999, 5))

    @unittest.skipIf(sys.version_info < (3, 12), "Python has no __buffer__ before 3.12")
    def test_memoryview(self) -> None:
        views: Any = memoryview
        self.assertEqual((views(Column([1, 2])).tolist(), views(Column([1, 2])).readonly), ([1, 2], True))
        with self.assertRaises(BufferError):
            views(Column([1, None]))


if __name__ == "__main__":
    unittest.main()
