"""Columns made of numpy's arrays, and arrays made of columns. Numpy is imported only if it is used."""

from __future__ import annotations

import importlib
from ctypes import byref
from typing import Any

from ._checks import ROW_INDEX, Limits, booleans, error_out_of_bounds, error_outside, listed
from ._lending import Piece, lent, values_of
from ._library import call, lib
from ._logical import ArrowType, decoded, of_format
from ._makers import CODES
from ._memory import NO_VALIDITY, Memory, room_for_bits
from ._owner import Owner
from ._readers import validity_bits
from ._types import NUMBERS

__all__ = ["array_of", "buffer_of", "checked", "is_array", "is_of_objects", "is_of_values", "made_of_array", "made_with_type", "opened", "picks_of_array", "plain_array_of", "positions_of_array"]


def _numpy() -> Any:
    return importlib.import_module("numpy")


def _memory_of(array: Any) -> Memory:
    return Memory(array, int(array.ctypes.data) if array.size else 0)


def _bits_of(flags: Any) -> Memory:
    return _memory_of(_numpy().packbits(flags, bitorder="little"))


def _validity_of(flags: Any) -> tuple[Memory, int, bool]:
    """Returns the three arguments of a validity."""
    if flags.all():
        return NO_VALIDITY
    bits = _bits_of(flags)
    return bits, bits.size(), True


def is_array(values: object) -> bool:
    """Returns whether the value is an array of numpy, or an object other than a column that numpy can make one of."""
    return hasattr(values, "__array__") and not isinstance(values, Owner)


def opened(values: Any, name: str, dimensions: int = 1) -> Any:
    """Returns an array as a masked array. Raises ValueError if it has another number of dimensions."""
    array = _numpy().ma.array(values, copy=False, subok=False)
    if array.ndim != dimensions:
        raise ValueError(f"{name}: an array of {array.ndim} dimensions, where {dimensions} is needed")
    return array


def checked(array: Any, name: str, kinds: str, limits: Limits | None = None) -> Any:
    """Returns a masked array after checks of its type, by numpy's letters for kinds, and of the range of what is not masked."""
    if array.dtype.kind not in kinds:
        raise TypeError(f"{name}: an array of type {array.dtype}, where {'booleans are' if kinds == 'b' else 'integers are'} needed")
    if limits is None:
        return array
    numpy = _numpy()
    values, info = numpy.ma.getdata(array), numpy.iinfo(array.dtype)
    outside = numpy.zeros(values.shape, dtype=bool)
    # A bound that the type of the array cannot hold is not compared: no value is beyond it.
    if info.min < limits.least:
        outside |= values < limits.least
    if info.max > limits.most:
        outside |= values > limits.most
    outside &= ~numpy.ma.getmaskarray(array)
    if outside.any():
        position = numpy.unravel_index(int(outside.argmax()), values.shape)
        raise error_outside(int(values[position]), name + "".join(f"[{int(place)}]" for place in position), limits)
    return array


def positions_of_array(array: Any, name: str, count: int) -> Any:
    """Returns a masked array of integers as row numbers of a column of `count` rows; negative integers count from the end.

    Raises IndexError for an integer that no row has. What is masked may be any integer, and stays masked.
    """
    numpy = _numpy()
    mask, values = numpy.ma.getmaskarray(array), numpy.ma.getdata(checked(array, name, "iu"))
    values = values.astype("int64" if values.dtype.kind == "i" else "uint64")
    outside = values >= count
    if values.dtype.kind == "i":
        outside |= values < -count
    outside &= ~mask
    if outside.any():
        position = int(outside.argmax())
        raise error_out_of_bounds(int(values[position]), f"{name}[{position}]", count)
    rows = numpy.where(values < 0, values + count, values) if values.dtype.kind == "i" else values
    return numpy.ma.array(numpy.where(mask, 0, rows).astype("uint32"), mask=mask)


def is_of_objects(values: Any) -> bool:
    """Returns whether an array holds Python objects, which are checked one by one as those of a list."""
    return bool(values.dtype.kind == "O")


def is_of_values(values: Any) -> bool:
    """Returns whether an array holds Python objects, texts or bytes, which no column has in its memory as they are."""
    return is_of_objects(values) or values.dtype.kind in "US"


def _valid_flags(valid: Any, name: str, count: int) -> Any:
    """Returns as an array of booleans which rows are valid, of an array or an iterable with one boolean for each row."""
    numpy = _numpy()
    array = opened(valid, name) if is_array(valid) else None
    if array is None or is_of_objects(array):
        flags = numpy.array(booleans(listed(valid, name) if array is None else array.tolist(), name), dtype=bool)
    else:
        checked(array, name, "b")
        if numpy.ma.getmaskarray(array).any():
            raise TypeError(f"{name}: a masked value is not a boolean")
        flags = numpy.ma.getdata(array)
    if len(flags) != count:
        raise ValueError(f"{name}: {len(flags)} booleans for {count} rows")
    return flags


def picks_of_array(array: Any, name: str) -> tuple[Memory, int, tuple[Memory, int, bool]]:
    """Returns the picks of a masked array with two integers in each row. A pick is null if one of its integers is masked."""
    numpy = _numpy()
    if array.shape[1] != 2:
        raise ValueError(f"{name}: an array of shape {array.shape}, where each row must be a column number and a row number")
    checked(array, name, "iu", ROW_INDEX)
    # A copy in any case: the call checks the picks before it reads rows, and another thread may write to the caller's array.
    numbers = numpy.array(numpy.ma.getdata(array), dtype=numpy.uint32, order="C")
    return _memory_of(numbers), len(array), _validity_of(~numpy.ma.getmaskarray(array).any(axis=1))


def made_of_array(array: Any, name: str, valid: Any = None) -> Owner:
    """Returns the column of a masked array of integers of 8 to 64 bits or booleans. Rows that are masked, or not valid, are null."""
    numpy, made, count = _numpy(), Owner(), len(array)
    kind, is_boolean = array.dtype, array.dtype.kind == "b"
    if not is_boolean and not (kind.kind in "iu" and kind.name in CODES):
        hint = "; Column(values) takes the values of such an array one by one" if is_of_values(array) else ""
        raise TypeError(f"{name}: no column has values of type {kind}{hint}")
    flags = ~numpy.ma.getmaskarray(array)
    if valid is not None:
        flags &= _valid_flags(valid, "valid", count)
    validity = _validity_of(flags)
    plain = numpy.ma.getdata(array)
    if is_boolean:
        values = _bits_of(plain)
        call("sel_boolean_new", values, values.size(), count, *validity, byref(made._handle))
    else:
        # The library reads aligned integers in the order of bytes of this machine.
        values = _memory_of(numpy.require(plain, kind.newbyteorder("="), ["C_CONTIGUOUS", "ALIGNED"]))
        call(f"sel_{kind.name}_new", values, count, *validity, byref(made._handle))
    return made


_UNITS = {"s": "s", "m": "ms", "u": "us", "n": "ns"}
_FLOAT_FORMATS = {"float16": "e", "float32": "f", "float64": "g"}


def _format_of(kind: Any) -> str | None:
    """Returns the Arrow format of numpy's floats, datetime64 and timedelta64."""
    if kind.kind == "f":
        return _FLOAT_FORMATS.get(kind.name)
    if kind.kind not in "mM":
        return None
    unit, count = _numpy().datetime_data(kind)
    if count != 1 or unit not in ("D", *_UNITS.values()):
        return None
    if unit == "D":
        return "tdD" if kind.kind == "M" else None
    letter = next(letter for letter, name in _UNITS.items() if name == unit)
    return f"ts{letter}:" if kind.kind == "M" else f"tD{letter}"


_INTEGER_FORMATS = {"int8": "c", "int16": "s", "int32": "i", "int64": "l", "uint8": "C", "uint16": "S", "uint32": "I", "uint64": "L"}


def _copied_with_type(array: Any, name: str, format: str | None, valid: Any) -> Owner:
    """Returns the column of a copy of a masked array. A datetime or timedelta that is NaT is null."""
    if format is None:
        return made_of_array(array, name, valid)
    numpy = _numpy()
    plain = numpy.ma.getdata(array).astype(array.dtype.newbyteorder("="), copy=False)
    mask = numpy.ma.getmaskarray(array)
    if format[0] == "t":
        mask = mask | numpy.isnat(plain)
        numbers = plain.astype("int64")
        numbers = numpy.where(mask, 0, numbers)
        if format == "tdD":
            checked(numpy.ma.array(numbers, mask=mask), name, "i", Limits(-(1 << 31), (1 << 31) - 1))
        bits = numbers.astype("int32" if format == "tdD" else "int64")
    else:
        bits = numpy.ascontiguousarray(plain).view(f"uint{8 * plain.dtype.itemsize}")
    return made_of_array(numpy.ma.array(bits, mask=mask), name, valid)


def _lent_with_type(array: Any, format: str, valid: Any) -> Owner:
    """Returns the column that reads the memory of a masked array, which it keeps. A datetime or timedelta that is NaT is null."""
    numpy, plain, mask = _numpy(), _numpy().ma.getdata(array), _numpy().ma.getmask(array)
    if format[0] == "t":
        mask = mask | numpy.isnat(plain)
    if valid is not None:
        mask = mask | ~_valid_flags(valid, "valid", len(plain))
    bits = numpy.packbits(~mask, bitorder="little") if numpy.any(mask) else None
    addresses = 0 if bits is None else int(bits.ctypes.data), int(plain.ctypes.data)
    return lent(Piece(format.encode(), len(plain), addresses, 0 if bits is None else -1), (plain, bits))


def _reason_to_copy(plain: Any, format: str | None) -> str | None:
    """Returns why the memory of an array cannot be that of a column; none if it can."""
    if format is None:
        return "booleans are bits in a column"
    if format == "tdD":
        return "days have 32 bits in a column"
    if not plain.dtype.isnative:
        return "the bytes of its values have another order"
    if not plain.flags.c_contiguous:
        return "its values are not next to each other"
    return None if plain.flags.aligned else "its values are not aligned"


def made_with_type(array: Any, name: str, valid: Any = None, copy: bool | None = None) -> tuple[Owner, ArrowType | None]:
    """Returns the column of a masked array and its logical type. A datetime or timedelta that is NaT is null.

    The column reads the memory of the array, unless it has to be copied or `copy` is true. Raises ValueError if it has to be and `copy` is false.
    """
    format, kind = _format_of(array.dtype), array.dtype
    layout = format or (_INTEGER_FORMATS.get(kind.name) if kind.kind in "iu" else None)
    if layout is None and kind.kind != "b":
        return made_of_array(array, name, valid), None
    reason = _reason_to_copy(_numpy().ma.getdata(array), layout)
    if copy is False and reason is not None:
        raise ValueError(f"{name}: the array has to be copied: {reason}")
    made = _copied_with_type(array, name, format, valid) if copy or reason is not None or layout is None else _lent_with_type(array, layout, valid)
    return made, None if format is None else of_format(format)


def _as_logical(values: Any, logical: ArrowType) -> Any:
    """Returns the values of the storage as those of a logical type. Raises TypeError if numpy has none."""
    format = logical.format
    if format in _FLOAT_FORMATS.values():
        return values.view(f"float{8 * values.dtype.itemsize}")
    if format == "tdD":
        return values.astype("datetime64[D]")
    if format == "tdm":
        return values.view("datetime64[ms]")
    if format.startswith("ts"):
        return values.view(f"datetime64[{_UNITS[format[2]]}]")
    if format.startswith("tD"):
        return values.view(f"timedelta64[{_UNITS[format[2]]}]")
    if format in ("b", "c", "C", "s", "S", "i", "I", "l", "L"):
        return values
    raise TypeError(f"no array has values of type {logical}")


def _unpacked(bits: Memory, count: int) -> Any:
    numpy = _numpy()
    return numpy.unpackbits(numpy.frombuffer(bits.items, dtype=numpy.uint8), count=count, bitorder="little").astype(numpy.bool_)


_VIEW_CODES = {"e": "H", "f": "f", "g": "d"}


def buffer_of(owner: Owner, logical: ArrowType | None) -> memoryview:
    """Returns a read-only view of the values of integers of 8 to 64 bits or floats, those of null slots too. Raises TypeError for another type."""
    kind = owner._kind()
    if kind not in NUMBERS or NUMBERS[kind][0] not in CODES:
        raise TypeError(f"a column of type {kind if logical is None else logical} has no values of one size in its memory")
    code = CODES[NUMBERS[kind][0]]
    return values_of(owner, code if logical is None else _VIEW_CODES.get(logical.format, code))


def _reason_of_copy(owner: Owner, logical: ArrowType | None) -> str | None:
    """Returns why the array of a column is a copy; none if it can be a view of the column's memory."""
    if logical is not None and logical.is_dictionary:
        return "its rows are keys of a dictionary"
    if owner._kind() == "bool":
        return "booleans are bits in a column"
    if logical is not None and logical.format == "tdD":
        return "days have 32 bits in a column"
    return "it has nulls" if lib.sel_null_count(owner) > 0 else None


def _viewed(owner: Owner, logical: ArrowType | None) -> Any:
    """Returns the values of a column without nulls as a read-only array over the column's memory, which keeps the column."""
    name = NUMBERS[owner._kind()][0]
    values = _numpy().frombuffer(values_of(owner, CODES[name]), dtype=name)
    return values if logical is None else _as_logical(values, logical)


def _check_type(owner: Owner, logical: ArrowType | None) -> None:
    """Raises TypeError if no array has the values of a column."""
    kind = owner._kind()
    if kind != "bool" and (kind not in NUMBERS or NUMBERS[kind][0] not in CODES):
        raise TypeError(f"no array has values of type {kind if logical is None else logical}")
    if logical is not None:
        _as_logical(_numpy().empty(0, dtype="bool" if kind == "bool" else NUMBERS[kind][0]), logical)


def array_of(owner: Owner, logical: ArrowType | None = None, zero_copy_only: bool = False, writable: bool = True) -> Any:
    """Returns the integers of 8 to 64 bits, booleans, floats, dates, timestamps or durations as an array, masked if some row is null.

    If it need not be writable, it is a read-only view of the column's memory where that is possible. Raises ValueError if a copy is needed and
    not allowed.
    """
    is_dictionary = logical is not None and logical.is_dictionary
    if not is_dictionary:
        _check_type(owner, logical)
    reason = _reason_of_copy(owner, logical)
    if zero_copy_only and reason is not None:
        raise ValueError(f"an array of this column is a copy: {reason}")
    if logical is not None and is_dictionary:
        return array_of(*decoded(owner, logical))
    return _copied(owner, logical) if writable or reason is not None else _viewed(owner, logical)


def _copied(owner: Owner, logical: ArrowType | None) -> Any:
    """Returns the rows of a column of a type that `_check_type` accepts, as a new array."""
    numpy, kind, count = _numpy(), owner._kind(), len(owner)
    if kind == "bool":
        bits = room_for_bits(count)
        call("sel_boolean_values", owner, bits, bits.size())
        values = _unpacked(bits, count)
    else:
        values = numpy.empty(count, dtype=NUMBERS[kind][0])
        call(f"sel_{NUMBERS[kind][0]}_values", owner, _memory_of(values), count)
    if logical is not None:
        values = _as_logical(values, logical)
    validity = validity_bits(owner)
    if validity is None:
        return values
    valid = _unpacked(validity, count)
    return values if valid.all() else numpy.ma.masked_array(values, mask=~valid)


def plain_array_of(owner: Owner, dtype: Any, copy: bool | None, logical: ArrowType | None = None) -> Any:
    """Returns the array of a column without nulls, of the type that numpy needs: a view if `copy` is not true and it can be one.

    Raises ValueError for a null, or if a copy is needed and `copy` is false.
    """
    if logical is None or not logical.is_dictionary:
        _check_type(owner, logical)
    if lib.sel_null_count(owner) > 0:
        raise ValueError("a column with nulls is no plain array: to_numpy() masks them, fill_null(value) replaces them")
    array = array_of(owner, logical, zero_copy_only=copy is False, writable=copy is True)
    if _numpy().ma.isMaskedArray(array):
        raise ValueError("a column with nulls in its dictionary is no plain array: to_numpy() masks them")
    if dtype is None or array.dtype == dtype:
        return array
    if copy is False:
        raise ValueError(f"an array of type {dtype} is a copy: the values of the column have type {array.dtype}")
    return array.astype(dtype)
