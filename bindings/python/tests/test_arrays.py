"""Arrays of numpy: as columns, indices, masks, widths, picks and validities, with no value changed silently."""

from __future__ import annotations

import unittest
from typing import Any
from unittest.mock import patch

import sel
from cases import numpy, table
from sel import Column, _library
from sel._library import attempt
from sel._memory import Memory

NUMBERS: Any = Column.from_pylist([10, 20, 30])
INTEGERS = ("int8", "int16", "int32", "int64", "uint8", "uint16", "uint32", "uint64")
FLOATS = ("float16", "float32", "float64", "longdouble", "complex64", "complex128")
OTHERS = (*FLOATS, "datetime64[s]", "timedelta64[s]", "U3", "S3", "V3")


@unittest.skipIf(numpy is None, "numpy is not installed: arrays are not tested")
class Values(unittest.TestCase):
    def test_in_and_out(self) -> None:
        for name in (*INTEGERS, "bool"):
            values = numpy.array([1, 0, 1, 1, 0, 1, 0, 0, 1], dtype=name)
            column = Column.from_numpy(values)
            numpy.testing.assert_array_equal(column.to_numpy(), values)
            self.assertEqual(column.to_numpy().dtype, values.dtype)
            masked = Column.from_numpy(values, valid=values == 1)
            self.assertEqual(masked.to_pylist(), [value if value == 1 else None for value in values.tolist()])
            numpy.testing.assert_array_equal(numpy.ma.getmaskarray(masked.to_numpy()), values != 1)
            numpy.testing.assert_array_equal(column.filter(values == 1).to_numpy(), values[values == 1])
            numpy.testing.assert_array_equal(Column.from_numpy(values[::2]).to_numpy(), values[::2])
            numpy.testing.assert_array_equal(Column.from_numpy(values[::-1]).to_numpy(), values[::-1])
        self.assertEqual(Column.from_numpy(numpy.array([], dtype="int64")).to_pylist(), [])
        self.assertEqual(Column.from_numpy(numpy.array([], dtype="bool"), valid=[]).to_numpy().tolist(), [])

    def test_asarray(self) -> None:
        """numpy makes an array of a column without nulls, of the rows that `to_numpy` has."""
        for name in (*INTEGERS, "bool"):
            values = numpy.array([1, 0, 1, 1], dtype=name)
            column = Column.from_numpy(values)
            for found in (numpy.asarray(column), numpy.array(column), column.__array__(), column.__array__(None, True), numpy.asarray(column[::-1])[::-1]):
                numpy.testing.assert_array_equal(found, values)
                self.assertEqual((type(found), found.dtype), (numpy.ndarray, values.dtype))
            for other in ("float64", "int64", "object"):
                numpy.testing.assert_array_equal(numpy.asarray(column, dtype=other), values.astype(other))
                self.assertEqual(numpy.asarray(column, dtype=other).dtype, other)
            self.assertEqual((numpy.sum(column), numpy.add(column, 1).tolist()), (3, [2, 1, 2, 2]))
            self.assertEqual(numpy.asarray(Column([1, None, 0] if name != "bool" else [True, None, False], "bool" if name == "bool" else name).drop_null()).tolist(), [1, 0])
            self.assertEqual(numpy.asarray(Column([], "bool" if name == "bool" else name)).dtype, values.dtype)

    def test_asarray_of_nulls_and_other_types(self) -> None:
        for column in (Column([1, None]), Column([None, True]), Column([None], "u8")):
            for use in table(numpy.asarray, numpy.ma.asarray, numpy.sum, lambda column: column.__array__()):
                with self.assertRaisesRegex(ValueError, r"to_numpy\(\).*fill_null"):
                    use(column)
        self.assertEqual([(each == numpy.array([10, 0, 30])).tolist() for each in table(NUMBERS)], [[True, False, True]])
        for rows, kind in table((["a"], "utf8"), ([b"a"], "binary"), ([None], "null"), ([1], "i128"), ([[1]], "list<i64>"), ([[1]], "fixed<1,i64>"), ([(1,)], "struct<i64>")):
            with self.assertRaisesRegex(TypeError, "no array has values of type"):
                numpy.asarray(Column(rows, kind))
        self.assertEqual([each.flags.writeable for each in (NUMBERS.__array__(copy=False), NUMBERS.__array__(), NUMBERS.__array__(copy=True))], [False, False, True])
        with self.assertRaises(TypeError):
            Column.from_numpy(NUMBERS)
        self.assertEqual(Column.from_numpy(numpy.array([1, 2]), valid=Column([True, False])).to_pylist(), [1, None])

    def test_both_byte_orders(self) -> None:
        for name in INTEGERS:
            info = numpy.iinfo(name)
            values = [int(info.min), 0, 1, 2, int(info.max)]
            for order in "<>=":
                array = numpy.array(values, dtype=numpy.dtype(name).newbyteorder(order))
                column = Column.from_numpy(array)
                self.assertEqual(column.to_pylist(), values, (name, order))
                self.assertEqual(column.to_numpy().tolist(), values)
                self.assertEqual(NUMBERS.take(array[2:4]).to_pylist(), [20, 30], (name, order))

    def test_arrays_that_are_not_aligned(self) -> None:
        for name in INTEGERS:
            array = numpy.frombuffer(b"\0" + numpy.array([1, 2, 0], dtype=name).tobytes(), dtype=name, offset=1)
            with patch.object(_library, "attempt", self.attempt_aligned):
                self.assertEqual(Column.from_numpy(array).to_pylist(), [1, 2, 0])
                self.assertEqual(NUMBERS.take(array).to_pylist(), [20, 30, 10])
                self.assertEqual(sel.collect_rows([NUMBERS], numpy.zeros((2, 2), dtype=name)).to_pylist(), [10, 10])

    def attempt_aligned(self, name: str, *arguments: Any) -> int:
        """Makes a call of the library whose arrays must lie at addresses for their items."""
        for argument in arguments:
            if isinstance(argument, Memory):
                self.assertEqual(argument._as_parameter_.value % argument.items.itemsize, 0, name)
        return attempt(name, *arguments)

    def test_types_without_a_column(self) -> None:
        for name in ("complex64", "complex128", "datetime64[h]", "timedelta64[D]", "U3", "S3", "V3"):
            with self.assertRaises(TypeError, msg=name):
                Column.from_numpy(numpy.zeros(2, dtype=name))
        for array in table(numpy.array([1, None]), numpy.array([2**64]), numpy.zeros(2, dtype=[("a", "i4")])):
            with self.assertRaises(TypeError, msg=array.dtype):
                Column.from_numpy(array)
        for values in table([1, 2], [True, 2], (1,), 5, "a", None):
            with self.assertRaises(TypeError, msg=values):
                Column.from_numpy(values)

    def test_dimensions(self) -> None:
        for array in table(numpy.array(5), numpy.int64(5), numpy.array([[1, 2]]), numpy.zeros((0, 2), dtype="int64")):
            with self.assertRaises(ValueError, msg=array) as caught:
                Column.from_numpy(array)
            self.assertIn("values", str(caught.exception))

    def test_validities(self) -> None:
        values = numpy.array([1, 2, 3])
        masked = numpy.ma.array(values, mask=[True, False, False])
        self.assertEqual(Column.from_numpy(masked).to_pylist(), [None, 2, 3])
        self.assertEqual(Column.from_numpy(masked, valid=[True, True, False]).to_pylist(), [None, 2, None])
        self.assertEqual(Column.from_numpy(values, valid=iter([True, False, numpy.bool_(True)])).to_pylist(), [1, None, 3])
        self.assertEqual(Column.from_numpy(values, valid=numpy.array([True, False, True], dtype=object)).to_pylist(), [1, None, 3])
        self.assertEqual(Column.from_numpy(masked > 0, valid=[True, True, False]).to_pylist(), [None, True, None])
        for valid in table([1, 0, 1], [True, None, True], [True, 1.0, True], numpy.array([1, 0, 1]), numpy.array([1.0, 0, 1]),
                      numpy.ma.array([True, True, True], mask=[True, False, False]), numpy.array([True, 1, True], dtype=object)):
            with self.assertRaises(TypeError, msg=valid) as caught:
                Column.from_numpy(values, valid=valid)
            self.assertIn("valid", str(caught.exception))
        for valid in table({True, False}, {True: 1, False: 2, None: 3}, frozenset([True]), "abc", b"abc", 5):
            with self.assertRaisesRegex(TypeError, "valid: .* not a list or another iterable of rows"):
                Column.from_numpy(values, valid=valid)
        for valid in table([], [True], [True] * 4, numpy.array([True] * 2), numpy.array([[True, True, True]]), numpy.array(True)):
            with self.assertRaises(ValueError, msg=valid) as refused:
                Column.from_numpy(values, valid=valid)
            self.assertIn("valid", str(refused.exception))


@unittest.skipIf(numpy is None, "numpy is not installed: arrays are not tested")
class Arguments(unittest.TestCase):
    def test_indices(self) -> None:
        for name in INTEGERS:
            self.assertEqual(NUMBERS.take(numpy.array([2, 0, 2], dtype=name)).to_pylist(), [30, 10, 30])
            masked = numpy.ma.array(numpy.array([2, 0, 100], dtype=name), mask=[False, True, True])
            self.assertEqual(NUMBERS.take(masked).to_pylist(), [30, None, None])
        self.assertEqual(NUMBERS.take(numpy.arange(6, dtype="int64")[::2][:2]).to_pylist(), [10, 30])
        self.assertEqual(NUMBERS.take(numpy.array([], dtype="int64")).to_pylist(), [])
        self.assertEqual(NUMBERS.take(numpy.array([2, None, 0], dtype=object)).to_pylist(), [30, None, 10])
        self.assertEqual(NUMBERS.take(numpy.ma.array([2, 1, 0], mask=[False, True, False], dtype=object)).to_pylist(), [30, None, 10])
        hidden = numpy.ma.array([-1, 1, 2**40], mask=[True, False, True])
        self.assertEqual(NUMBERS.take(hidden).to_pylist(), [None, 20, None])

    def test_indices_outside_their_range(self) -> None:
        for values, name, position in table(
            ([0, -1, -2], "int8", 1), ([0, -1], "int16", 1), ([-(2**31)], "int32", 0), ([1, 2**32, -1], "int64", 1), ([0, -1, 2**32], "int64", 1),
            ([2**32 + 2, -(2**32) + 1], "int64", 0), ([0, 1, -(2**63)], "int64", 2), ([2**32], "uint64", 0), ([0, 2**64 - 1], "uint64", 1),
            ([0, 2**32], ">i8", 1), ([0, -1], ">i2", 1), ([2**64], object, 0), ([0, -1], object, 1),
        ):
            for array in (numpy.array(values, dtype=name), numpy.ma.array(values, dtype=name, mask=False)):
                with self.assertRaises(IndexError, msg=(values, name)) as caught:
                    NUMBERS.take(array)
                self.assertIn(f"indices[{position}]: {values[position]} is outside [0, 4294967295]", str(caught.exception))
        for name in ("uint32", "uint64", "int64"):
            with self.assertRaises(sel.OutOfBounds) as refused:
                NUMBERS.take(numpy.array([2**32 - 1], dtype=name))
            self.assertNotIn(" is outside [", str(refused.exception))

    def test_indices_of_other_types(self) -> None:
        for name in (*OTHERS, "bool"):
            for array in (numpy.zeros(2, dtype=name), numpy.zeros(0, dtype=name)):
                with self.assertRaises(TypeError, msg=name) as caught:
                    NUMBERS.take(array)
                self.assertNotIsInstance(caught.exception, sel.SelError)
        for value in (True, 1.0, "a", numpy.float64(1), numpy.bool_(True)):
            with self.assertRaises(TypeError, msg=value):
                NUMBERS.take(numpy.array([0, value], dtype=object))

    def test_masks(self) -> None:
        mask = numpy.array([True, False, True])
        self.assertEqual(NUMBERS.filter(mask).to_pylist(), [10, 30])
        self.assertEqual(NUMBERS.filter(numpy.ma.array(mask, mask=[True, False, False])).to_pylist(), [30])
        self.assertEqual(NUMBERS.filter(numpy.array([True, None, numpy.bool_(True)], dtype=object)).to_pylist(), [10, 30])
        self.assertEqual(sel.choose(mask, 1, NUMBERS).to_pylist(), [1, 20, 1])
        self.assertEqual(sel.choose(list(mask), NUMBERS, NUMBERS).to_pylist(), [10, 20, 30])
        for name in (*INTEGERS, *OTHERS):
            for use in (NUMBERS.filter, lambda array: sel.choose(array, NUMBERS, NUMBERS)):
                with self.assertRaises(TypeError, msg=name) as caught:
                    use(numpy.zeros(3, dtype=name))
                self.assertNotIsInstance(caught.exception, sel.SelError)

    def test_picks(self) -> None:
        columns = [NUMBERS, Column.from_pylist([1])]
        for name in INTEGERS:
            array = numpy.array([[0, 2], [1, 0], [0, 0]], dtype=name)
            self.assertEqual(sel.collect_rows(columns, array).to_pylist(), [30, 1, 10])
            self.assertEqual(sel.collect_rows(columns, list(array)).to_pylist(), [30, 1, 10])
            self.assertEqual(sel.collect_rows(columns, numpy.asfortranarray(array)[::-1]).to_pylist(), [10, 1, 30])
            masked = numpy.ma.array(array, mask=[[False, False], [True, False], [False, True]])
            self.assertEqual(sel.collect_rows(columns, masked).to_pylist(), [30, None, None])
        self.assertEqual(sel.collect_rows(columns, numpy.array([[0, 2]], dtype=object)).to_pylist(), [30])
        self.assertEqual(sel.collect_rows(columns, numpy.zeros((0, 2), dtype="int64")).to_pylist(), [])
        for values, place, value in table(([[0, 0], [0, 2**32]], "[1][1]", 2**32), ([[2**32, 0]], "[0][0]", 2**32), ([[0, -1], [-1, 0]], "[0][1]", -1)):
            for picks in (values, numpy.array(values), numpy.array(values, dtype=object)):
                with self.assertRaises(IndexError) as caught:
                    sel.collect_rows(columns, picks)
                self.assertIn(f"picks{place}: {value} ", str(caught.exception))
        for array in (numpy.array([0, 0]), numpy.zeros((2, 3), dtype="int64"), numpy.zeros((2, 1), dtype="int64"), numpy.zeros((1, 2, 2), dtype="int64"), numpy.array(0)):
            with self.assertRaises(ValueError, msg=array) as refused:
                sel.collect_rows(columns, array)
            self.assertIn("picks", str(refused.exception))
        for name in (*OTHERS, "bool"):
            with self.assertRaises(TypeError, msg=name):
                sel.collect_rows(columns, numpy.zeros((2, 2), dtype=name))

    def test_widths(self) -> None:
        for name in INTEGERS:
            self.assertEqual(sel.flatten([NUMBERS, NUMBERS], numpy.array([3, 3], dtype=name), 1).to_pylist(), [10, 20, 30] * 2)
        for array, error in table((numpy.array([-1]), OverflowError), (numpy.array([2**64], dtype=object), OverflowError), (numpy.array([3.0]), TypeError),
                             (numpy.array([True]), TypeError), (numpy.array([[3]]), ValueError), (numpy.ma.array([3], mask=[True]), TypeError)):
            with self.assertRaises(error, msg=array) as caught:
                sel.flatten([NUMBERS], array, 1)
            self.assertIn("widths", str(caught.exception))

    def test_dimensions(self) -> None:
        for use, dtype in table((NUMBERS.take, "int64"), (NUMBERS.filter, "bool"), (lambda array: sel.choose(array, NUMBERS, NUMBERS), "bool"),
                           (NUMBERS.take, "object"), (NUMBERS.filter, "object"), (lambda array: sel.flatten([NUMBERS], array, 1), "object")):
            for array in (numpy.zeros((1, 3), dtype=dtype), numpy.zeros((3, 1), dtype=dtype), numpy.zeros((), dtype=dtype)):
                with self.assertRaises(ValueError, msg=array) as caught:
                    use(array)
                self.assertIn("dimensions", str(caught.exception))

    def test_objects_that_become_arrays(self) -> None:
        class Series:
            """An object with numpy's protocol, as the columns of other libraries have it."""

            def __init__(self, values: Any) -> None:
                self.values = numpy.asarray(values)

            def __array__(self, dtype: Any = None, copy: Any = None) -> Any:
                return self.values if dtype is None else self.values.astype(dtype)

        series: Any = Series([1, 2])
        self.assertEqual(Column.from_numpy(series).to_pylist(), [1, 2])
        self.assertEqual(NUMBERS.take(Series([1, 2])).to_pylist(), [20, 30])
        self.assertEqual(NUMBERS.filter(Series([True, False, True])).to_pylist(), [10, 30])
        for use, values in table((Column.from_numpy, [1j]), (NUMBERS.take, [1.0]), (NUMBERS.take, [True]), (NUMBERS.filter, [1, 0, 1])):
            with self.assertRaises(TypeError):
                use(Series(values))


if __name__ == "__main__":
    unittest.main()
