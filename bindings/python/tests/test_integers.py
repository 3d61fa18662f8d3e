"""Every integer and boolean that callers pass: at the ends of its range, beyond them, and values of other types.

A new parameter of the package is a new line of `PARAMETERS`; `test_every_parameter_has_a_line` fails until it is there.
"""

from __future__ import annotations

import enum
import inspect
import unittest
from collections.abc import Callable
from decimal import Decimal
from fractions import Fraction
from typing import Any, NamedTuple
from unittest.mock import patch

import sel
from cases import Index, numpy, table
from sel import Column, Type, _makers
from sel._checks import Limits

U32, U64, I64 = 2**32 - 1, 2**64 - 1, 2**63 - 1

NUMBERS: Any = Column.from_pylist([10, 20, 30])
LISTS: Any = Column.from_pylist([[1, 2], None])
PAIRS: Any = Column.from_pylist([[1, 2], None], "fixed<2,i64>")
STRUCTS: Any = Column.from_pylist([(1, "a", True)])
BYTE = Column.from_pylist([1], "u8")


def row_at(value: Any) -> Any:
    return NUMBERS[value]


class Parameter(NamedTuple):
    """An integer parameter: of which call, its name in messages, a use of it, its range, what the ends of it give, and the
    exception outside of it. `nulls` says that `None` is a null there."""

    call: str
    name: str
    use: Callable[[Any], Any]
    least: int
    most: int
    at_least: Any
    at_most: Any
    outside: type[Exception]
    nulls: bool = False


def _number(kind: str, least: int, most: int) -> Parameter:
    return Parameter("Column.from_pylist", "values", lambda value: Column.from_pylist([value], kind), least, most, [least], [most], OverflowError, True)


# An exception at an end of a range is one of the library itself, which has seen the very number.
PARAMETERS = [
    Parameter("Column.__getitem__", "index", row_at, -3, 2, 10, 30, IndexError),
    Parameter("Column.__getitem__", "index", lambda value: NUMBERS[[0, value]][1:], -3, 2, [10], [30], IndexError),
    Parameter("Column.list_element", "index", LISTS.list_element, -I64 - 1, I64, [None, None], [None, None], IndexError),
    Parameter("Column.list_element", "index", PAIRS.list_element, -I64 - 1, I64, [None, None], [None, None], IndexError),
    Parameter("Column.take", "indices", lambda value: NUMBERS.take([value]), 0, U32, [10], sel.OutOfBounds, IndexError, True),
    Parameter("Column.take", "indices", lambda value: NUMBERS.take(iter((0, value)))[1:], 0, U32, [10], sel.OutOfBounds, IndexError, True),
    Parameter("Column.sublist_get", "index", LISTS.sublist_get, -I64 - 1, I64, [None, None], [None, None], IndexError),
    Parameter("Column.index_is_oob", "index", LISTS.index_is_oob, -I64 - 1, I64, True, True, IndexError),
    Parameter("Column.fixed_get", "index", PAIRS.fixed_get, -I64 - 1, I64, [None, None], [None, None], IndexError),
    Parameter("Column.sliced", "offset", lambda value: NUMBERS.sliced(value, 1), 0, U64, [10], sel.OutOfBounds, IndexError),
    Parameter("Column.sliced", "length", lambda value: NUMBERS.sliced(0, value), 0, U64, [], sel.OutOfBounds, OverflowError),
    Parameter("Column.field", "field", STRUCTS.field, 0, U64, [1], sel.OutOfBounds, IndexError),
    Parameter("flatten", "widths", lambda value: sel.flatten([NUMBERS], [value], 1), 0, U64, sel.WrongArgument, sel.WrongArgument, OverflowError),
    Parameter("flatten", "height", lambda value: sel.flatten([NUMBERS], [3], value), 0, U64, [], sel.LimitPassed, OverflowError),
    Parameter("collect_rows", "picks", lambda value: sel.collect_rows([NUMBERS], [(value, 0)]), 0, U32, [10], sel.OutOfBounds, IndexError),
    Parameter("collect_rows", "picks", lambda value: sel.collect_rows([NUMBERS], [(0, value)]), 0, U32, [10], sel.OutOfBounds, IndexError),
    Parameter("Type", "width", lambda value: Type("fixed", (Type("i8"),), value).width, 0, U32, 0, U32, OverflowError),
    Parameter("if_else", "if_true", lambda value: sel.if_else([True], value, BYTE), 0, 255, [0], [255], OverflowError, True),
    Parameter("Column.fill_null", "value", lambda value: Column([None], "u8").fill_null(value), 0, 255, [0], [255], OverflowError, True),
    Parameter("Column", "values", lambda value: Column([value], "u8"), 0, 255, [0], [255], OverflowError, True),
    Parameter("choose", "if_true", lambda value: sel.choose([True], value, BYTE), 0, 255, [0], [255], OverflowError, True),
    Parameter("choose", "if_false", lambda value: sel.choose([False], BYTE, value), 0, 255, [0], [255], OverflowError, True),
    *[_number(f"i{bits}", -(1 << (bits - 1)), (1 << (bits - 1)) - 1) for bits in (8, 16, 32, 64, 128)],
    *[_number(f"u{bits}", 0, (1 << bits) - 1) for bits in (8, 16, 32, 64, 128)],
    Parameter("Column.from_pylist", "values", lambda value: Column.from_pylist([value]), -I64 - 1, I64, [-I64 - 1], [I64], OverflowError, True),
]


class Flag(NamedTuple):
    """A boolean parameter: of which call, its name in messages, and a use of it, which gives other results for true and false."""

    call: str
    name: str
    use: Callable[[Any], Any]
    if_true: Any
    if_false: Any
    nulls: bool = False


FLAGS = [
    Flag("Column.fixed_get", "null_on_oob", lambda value: PAIRS.fixed_get(2, value), [None, None], sel.OutOfBounds),
    Flag("Column.fixed_get", "null_on_oob", lambda value: PAIRS.fixed_get(Column.from_pylist([2, 0]), value), [None, None], sel.OutOfBounds),
    Flag("Column.filter", "mask", lambda value: NUMBERS.filter([True, value, False]), [10, 20], [10], True),
    Flag("Column.filter", "mask", lambda value: NUMBERS.filter(iter((value, True, False))), [10, 20], [20], True),
    Flag("Column.__getitem__", "index", lambda value: NUMBERS[[True, value, False]], [10, 20], [10]),
    Flag("if_else", "mask", lambda value: sel.if_else([value], 7, BYTE), [7], [1], True),
    Flag("choose", "mask", lambda value: sel.choose([value], 7, BYTE), [7], [1], True),
    Flag("Column.from_pylist", "values", lambda value: Column.from_pylist([value], "bool"), [True], [False], True),
]
if numpy is not None:
    FLAGS.extend([
        Flag("Column.from_numpy", "valid", lambda value: Column.from_numpy(numpy.array([5]), [value]), [5], [None]),
        Flag("Column.from_numpy", "copy", lambda value: Column.from_numpy(numpy.array([True, False]), copy=value), [True, False], ValueError, True),
        Flag("Column.to_numpy", "zero_copy_only", lambda value: Column([True, False]).to_numpy(zero_copy_only=value).tolist(), ValueError, [True, False]),
        Flag("Column.to_numpy", "writable", lambda value: NUMBERS.to_numpy(writable=value).flags.writeable, True, False, True),
    ])


class Numbered(enum.IntEnum):
    ONE = 1


def outcome(use: Callable[[Any], Any], value: Any) -> Any:
    """Returns the rows or the value that a use gives, or the exception with its text."""
    try:
        result = use(value)
    except Exception as error:
        return type(error), str(error)
    return result.to_pylist() if isinstance(result, Column) else result


NOT_NUMBERS: tuple[Any, ...] = (1.0, 1.9, float("nan"), float("inf"), 1j, Decimal(1), Decimal("1.9"), Fraction(1), "1", b"1", [1], (1,), {1: 1}, object(), ...)


class Integers(unittest.TestCase):
    def check_outcome(self, parameter: Parameter, value: int, expected: Any) -> None:
        found = outcome(parameter.use, value)
        if isinstance(expected, type):
            self.assertIs(found[0], expected, (parameter, value, found))
            self.assertNotIn(" is outside [", found[1], "the library itself has to see a number within its range")
        else:
            self.assertEqual(found, expected, (parameter, value))

    def test_ends_of_each_range(self) -> None:
        for parameter in PARAMETERS:
            self.check_outcome(parameter, parameter.least, parameter.at_least)
            self.check_outcome(parameter, parameter.most, parameter.at_most)
            self.assertEqual(outcome(parameter.use, Index(parameter.least)), outcome(parameter.use, parameter.least), parameter)
            self.assertEqual(outcome(parameter.use, Index(parameter.most)), outcome(parameter.use, parameter.most), parameter)
            self.assertEqual(outcome(parameter.use, Numbered.ONE), outcome(parameter.use, 1), parameter)

    def test_beyond_each_range(self) -> None:
        for parameter in PARAMETERS:
            wraps = [number + wrap for number in (0, 1, 2) for wrap in (2**8, -(2**8), 2**16, 2**32, -(2**32), 2**64, -(2**64), 2**128, -(2**128))]
            for value in (parameter.least - 1, parameter.most + 1, *wraps):
                if parameter.least <= value <= parameter.most:
                    continue
                for number in (value, Index(value)):
                    with self.assertRaises(parameter.outside, msg=(parameter, value)) as caught:
                        parameter.use(number)
                    self.assertIn(parameter.name, str(caught.exception), parameter)
                    self.assertIn(str(value), str(caught.exception), parameter)
            for value in (10**5000, -(10**5000)):
                with self.assertRaises(parameter.outside, msg=parameter) as caught:
                    parameter.use(value)
                self.assertIn(f"{parameter.name}", str(caught.exception))
                self.assertIn("an integer of 16610 bits", str(caught.exception))

    def test_values_that_are_not_integers(self) -> None:
        for parameter in PARAMETERS:
            inferred = parameter.call == "Column.from_pylist" and parameter is PARAMETERS[-1]
            for value in (True, False, *NOT_NUMBERS, *(() if parameter.nulls else (None,))):
                if inferred and isinstance(value, (bool, float, str, bytes, list, tuple)):
                    continue
                if parameter.use is row_at and isinstance(value, (list, tuple)):
                    continue
                if parameter.call == "Column.field" and isinstance(value, str):  # the name of a field
                    continue
                with self.assertRaises(TypeError, msg=(parameter, value)) as caught:
                    parameter.use(value)
                self.assertNotIsInstance(caught.exception, sel.SelError, parameter)
                if not inferred:
                    self.assertIn(parameter.name, str(caught.exception), (parameter, value))
                    self.assertIn(type(value).__name__, str(caught.exception), (parameter, value))

    def test_bounds_of_slices(self) -> None:
        self.assertEqual(NUMBERS[slice(Index(1), None)].to_pylist(), [20, 30])
        self.assertEqual(NUMBERS[slice(None, Index(-1))].to_pylist(), [10, 20])
        self.assertEqual(NUMBERS[slice(None, None, Index(2))].to_pylist(), [10, 30])
        self.assertEqual(NUMBERS[slice(None, None, Index(-1))].to_pylist(), [30, 20, 10])
        self.assertEqual(NUMBERS[-(2**70) : 2**70].to_pylist(), [10, 20, 30])
        self.assertEqual(NUMBERS[2**64 :].to_pylist(), [])
        for value in (True, *NOT_NUMBERS):
            for part, place in (("start", slice(value, None)), ("stop", slice(None, value)), ("step", slice(None, None, value))):
                with self.assertRaises(TypeError, msg=value) as caught:
                    NUMBERS[place]
                self.assertIn(f"slice {part}", str(caught.exception))

    def test_negative_indices_are_not_supported_in_take(self) -> None:
        for indices in table([-1], [0, -3], [None, -(2**32) + 1]):
            with self.assertRaises(IndexError) as caught:
                NUMBERS.take(indices)
            self.assertIn("negative indices are not supported", str(caught.exception))
            self.assertIn(f"indices[{len(indices) - 1}]: {indices[-1]} ", str(caught.exception))

    def test_list_sizes_of_types(self) -> None:
        self.assertEqual(sel.parse_type(f"fixed<{U32},i8>").width, U32)
        self.assertEqual(sel.parse_type("fixed<0000000000000000000000000002,i8>"), Type("fixed", (Type("i8"),), 2))
        for size in (U32 + 1, 2**64, 2**64 + 2, 99999999999999999999999):
            for use in table(sel.parse_type, lambda text: Column.from_pylist([], text), lambda text: Column.from_pylist([None], f"list<{text}>")):
                with self.assertRaises(OverflowError, msg=size) as caught:
                    use(f"fixed<{size},i8>")
                self.assertIn(f"list size: {size} ", str(caught.exception))
        with self.assertRaises(OverflowError) as caught:
            sel.parse_type(f"fixed<{'9' * 10000},i8>")
        self.assertIn("10000 digits", str(caught.exception))
        for digits in ("-1", "+1", "1.0", "1e3", "", "0x10", "\u0663", "\u00b2"):
            with self.assertRaises(ValueError, msg=digits):
                sel.parse_type(f"fixed<{digits},i8>")

    def test_lengths_of_views(self) -> None:
        """A value may be longer than a view can say, which takes 4 GiB: here the limit is made smaller."""
        with patch.object(_makers, "_VIEW_LENGTH", Limits(0, 20)):
            self.assertEqual(Column.from_pylist([b"x" * 20], "binview").to_pylist(), [b"x" * 20])
            for rows, kind in table((["", "x" * 21], "utf8"), ([b"", b"x" * 21], "binview")):
                with self.assertRaises(OverflowError) as caught:
                    Column.from_pylist(rows, kind)
                self.assertIn("length of values[1]: 21 is outside [0, 20]", str(caught.exception))

    def test_picks_are_pairs(self) -> None:
        for pick in table((), (0,), (0, 0, 0), [0], 5, 1.5, "abc", object(), "ab", b"\0\0", bytearray(2), {0, 1}, frozenset((0, 1)), {0: "column", 1: "row"}):
            with self.assertRaises(ValueError, msg=pick) as caught:
                sel.collect_rows([NUMBERS], [(0, 0), pick])
            self.assertIn("picks[1]", str(caught.exception))
        self.assertEqual(sel.collect_rows([NUMBERS], table((0, 2), None, [0, 1])).to_pylist(), [30, None, 20])
        self.assertEqual(sel.collect_rows(iter([NUMBERS]), iter([(0, 2)])).to_pylist(), [30])
        self.assertEqual(sel.collect_rows([NUMBERS], []).to_pylist(), [])

    def test_columns_are_columns(self) -> None:
        for use in table(lambda value: sel.flatten([NUMBERS, value], [3, 1], 1), lambda value: sel.collect_rows([NUMBERS, value], []),
                    lambda value: NUMBERS.equals(value), lambda value: sel.propagate_dictionary(value, NUMBERS),
                    lambda value: sel.propagate_dictionary(NUMBERS, value)):
            for value in (None, 1, [10], "a"):
                with self.assertRaises(TypeError):
                    use(value)

    def test_every_parameter_has_a_line(self) -> None:
        """Each public parameter that is annotated as an integer or a boolean is in the tables."""
        listed = {(line.call, line.name) for line in PARAMETERS} | {(flag.call, flag.name) for flag in FLAGS}
        calls = {name: getattr(sel, name) for name in sel.__all__ if inspect.isfunction(getattr(sel, name))}
        calls.update({f"Column.{name}": method for name, method in inspect.getmembers(Column, inspect.isfunction)
                      if method.__module__.startswith("sel.") and (not name.startswith("_") or name == "__getitem__")})
        found = set()
        for call, function in calls.items():
            for name, parameter in inspect.signature(function).parameters.items():
                if any(word in str(parameter.annotation) for word in ("SupportsIndex", "int", "Boolean", "bool")):
                    found.add((call, name))
        found = {("Column.__getitem__", "index") if call == "Column.__getitem__" else (call, name) for call, name in found}
        found |= {("Type", name) for name, parameter in inspect.signature(Type).parameters.items() if "int" in str(parameter.annotation)}
        self.assertGreater(len(found), 10)
        if numpy is None:
            found -= {("Column.from_numpy", "valid"), ("Column.from_numpy", "copy"), ("Column.to_numpy", "zero_copy_only"), ("Column.to_numpy", "writable")}
        self.assertEqual(found - listed, set())


class Booleans(unittest.TestCase):
    def test_true_and_false(self) -> None:
        for flag in FLAGS:
            for value, expected in ((True, flag.if_true), (False, flag.if_false)):
                found = outcome(flag.use, value)
                self.assertEqual(found[0] if isinstance(expected, type) else found, expected, flag)
                if numpy is not None:
                    self.assertEqual(outcome(flag.use, numpy.bool_(value)), found, flag)

    def test_values_that_are_not_booleans(self) -> None:
        numbers = [] if numpy is None else [kind(1) for kind in NUMPY_KINDS if kind is not numpy.bool_] + [numpy.array(True), numpy.array([True])]
        for flag in FLAGS:
            for value in (0, 1, 2, -1, *NOT_NUMBERS, Index(1), Numbered.ONE, *numbers, *(() if flag.nulls else (None,))):
                with self.assertRaises(TypeError, msg=(flag, value)) as caught:
                    flag.use(value)
                self.assertNotIsInstance(caught.exception, sel.SelError, flag)
                self.assertIn(flag.name, str(caught.exception), (flag, value))

    def test_masks_of_integers(self) -> None:
        for mask in table([1, 0, 1], [True, 1, False], [True, 0.0, False], (1, 1, 1), range(3), b"\1\0\1", "tft"):
            with self.assertRaises(TypeError, msg=mask):
                NUMBERS.filter(mask)
            with self.assertRaises(TypeError, msg=mask):
                sel.choose(mask, NUMBERS, NUMBERS)


class Examples(unittest.TestCase):
    """Calls that wrapped their integers, and so picked wrong rows without an error."""

    def test_indices(self) -> None:
        for indices in table([2**32 + 2, -(2**32) + 1], [1.9], [2**32], [-1]):
            with self.assertRaises((IndexError, TypeError), msg=indices):
                NUMBERS.take(indices)
            if numpy is not None:
                with self.assertRaises((IndexError, TypeError), msg=indices):
                    NUMBERS.take(numpy.array(indices))

    def test_calls(self) -> None:
        for error, use in table(
            (IndexError, lambda: LISTS.sublist_get(2**64)),
            (IndexError, lambda: LISTS.sublist_get(2**64 + 1)),
            (IndexError, lambda: LISTS.index_is_oob(2**64)),
            (IndexError, lambda: PAIRS.fixed_get(2**64)),
            (IndexError, lambda: PAIRS.fixed_get(-(2**64) - 1)),
            (TypeError, lambda: PAIRS.fixed_get(0, 2)),
            (TypeError, lambda: PAIRS.fixed_get(0, "no")),
            (IndexError, lambda: NUMBERS.sliced(2**64, 1)),
            (OverflowError, lambda: NUMBERS.sliced(0, 2**64 + 1)),
            (IndexError, lambda: STRUCTS.field(2**64)),
            (IndexError, lambda: sel.collect_rows([NUMBERS], [(0, 2**32)])),
            (IndexError, lambda: sel.collect_rows([NUMBERS], [(2**32, 0)])),
            (ValueError, lambda: sel.collect_rows([NUMBERS], table(()))),
            (OverflowError, lambda: sel.flatten([NUMBERS], [2**64 + 3], 1)),
            (OverflowError, lambda: sel.flatten([NUMBERS], [3], 2**64 + 1)),
            (OverflowError, lambda: Column.from_pylist([[]], f"fixed<{2**64},i8>")),
            (TypeError, lambda: NUMBERS[True]),
            (TypeError, lambda: NUMBERS[1.0]),
        ):
            with self.assertRaises(error):
                use()


NUMPY_KINDS: list[Any] = []
INTEGER_KINDS: list[Any] = []
if numpy is not None:
    INTEGER_KINDS = [numpy.int8, numpy.int16, numpy.int32, numpy.int64, numpy.uint8, numpy.uint16, numpy.uint32, numpy.uint64, numpy.intc, numpy.longlong, numpy.ulonglong]
    NUMPY_KINDS = [*INTEGER_KINDS, numpy.float16, numpy.float32, numpy.float64, numpy.longdouble, numpy.bool_, numpy.complex64, numpy.complex128,
                   lambda value: numpy.datetime64(value, "D"), lambda value: numpy.timedelta64(value, "s"), numpy.str_, numpy.bytes_, numpy.void]


@unittest.skipIf(numpy is None, "numpy is not installed: its scalars are not tested")
class NumpyScalars(unittest.TestCase):
    def test_integers_are_as_pythons_own(self) -> None:
        for parameter in PARAMETERS:
            for kind in INTEGER_KINDS:
                info = numpy.iinfo(kind)
                for value in (1, 0, int(info.min), int(info.max)):
                    expected = outcome(parameter.use, value)
                    self.assertEqual(outcome(parameter.use, kind(value)), expected, (parameter, kind, value))
                    # An array without dimensions is an integer: it has `__index__`.
                    self.assertEqual(outcome(parameter.use, numpy.array(value, dtype=kind)), expected, (parameter, kind, value))
                    self.assertEqual(outcome(parameter.use, numpy.array(value, dtype=numpy.dtype(kind).newbyteorder(">"))), expected)

    def test_others_are_not_integers(self) -> None:
        for parameter in PARAMETERS:
            inferred = parameter is PARAMETERS[-1]
            for kind in NUMPY_KINDS[len(INTEGER_KINDS) :]:
                value = kind(1)
                if inferred and isinstance(value, (numpy.bool_, numpy.str_, numpy.bytes_, numpy.float64)):
                    continue
                if parameter.call == "Column.field" and isinstance(value, str):
                    continue
                for scalar in (value, numpy.array(value)):
                    with self.assertRaises(TypeError, msg=(parameter, kind, scalar)) as caught:
                        parameter.use(scalar)
                    self.assertNotIsInstance(caught.exception, sel.SelError)
            for array in (numpy.array([1]), numpy.array([[1]]), numpy.ma.array(1, mask=True), numpy.ma.masked, numpy.array(1, dtype=object)):
                if parameter.use is row_at and array.ndim == 1:
                    continue
                with self.assertRaises(TypeError, msg=(parameter, array)):
                    parameter.use(array)

    def test_types_that_values_tell(self) -> None:
        for kind in INTEGER_KINDS:
            column = Column.from_pylist([None, kind(1), 2])
            self.assertEqual((column.type, column.to_pylist()), (Type("i64"), [None, 1, 2]))
        self.assertEqual(Column.from_pylist([numpy.bool_(True), None, False]).to_pylist(), [True, None, False])
        self.assertEqual(Column.from_pylist([numpy.array(7)]).to_pylist(), [7])
        self.assertEqual(Column.from_pylist([numpy.str_("a"), "b"]).to_pylist(), ["a", "b"])
        self.assertEqual(Column.from_pylist([numpy.bytes_(b"a"), b"b"]).to_pylist(), [b"a", b"b"])
        self.assertEqual(Column.from_pylist([[numpy.uint8(1)], [(2**63 - 1)]]).to_pylist(), [[1], [2**63 - 1]])
        for values in table([1, numpy.bool_(True)], [numpy.bool_(True), 1], [1, numpy.float64(1)], [1, numpy.float32(1)], [numpy.datetime64(1, "D")],
                       [1, True], [True, 1], [1, 1.0], [1.0, True], [numpy.timedelta64(1, "s")], [numpy.array(1.0)], [numpy.array(True)], [numpy.ma.masked]):
            with self.assertRaises(TypeError, msg=values):
                Column.from_pylist(values)
        self.assertEqual(str(Column.from_pylist([numpy.float64(1.5), 2]).type), "double")
        with self.assertRaises(OverflowError):
            Column.from_pylist([numpy.uint64(2**63)])
        self.assertEqual(Column.from_pylist([numpy.uint64(2**64 - 1)], "u64").to_pylist(), [2**64 - 1])


if __name__ == "__main__":
    unittest.main()
