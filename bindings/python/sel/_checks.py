"""Checks of what callers pass: integers by their range, and booleans.

Every integer of a caller passes one of these checks before the library sees it, since ctypes wraps integers silently.
"""

from __future__ import annotations

import operator
import reprlib
import sys
from collections.abc import Iterable, Mapping
from datetime import date, timedelta
from typing import Any, NamedTuple

from ._errors import OutOfBounds
from ._statuses import INDEX_OUT_OF_BOUNDS

__all__ = ["FIELD_NUMBER", "LIST_INDEX", "LIST_SIZE", "NO_ROWS", "ROW_INDEX", "ROW_OFFSET", "SIZE", "Limits",
           "boolean", "booleans", "checked_name", "checked_text", "error_out_of_bounds", "error_outside", "integer", "integer_within", "integers_within", "is_boolean", "is_integer", "listed",
           "position_of", "real", "shown", "utf8_of"]


class Limits(NamedTuple):
    """The range of an integer argument, and whether it is an index: out of bounds (IndexError) if outside, else an overflow."""

    least: int
    most: int
    is_index: bool = False


# Numbers of rows and of columns in arrays of 32-bit words.
ROW_INDEX = Limits(0, (1 << 32) - 1, is_index=True)
ROW_OFFSET = Limits(0, (1 << 64) - 1, is_index=True)
FIELD_NUMBER = Limits(0, (1 << 64) - 1, is_index=True)
# A negative index counts from the end of the list. An index outside these limits is out of bounds of every list.
LIST_INDEX = Limits(-(1 << 63), (1 << 63) - 1, is_index=True)
LIST_SIZE = Limits(0, (1 << 32) - 1)
SIZE = Limits(0, (1 << 64) - 1)


def shown(value: object) -> str:
    """Returns the text of a value for a message, which is short whatever the value is."""
    if isinstance(value, int) and not isinstance(value, bool):
        # Python may refuse to write an integer of thousands of digits.
        return int.__repr__(value) if value.bit_length() <= 256 else f"an integer of {value.bit_length()} bits"
    try:
        return reprlib.repr(value)
    except Exception:
        return f"a value of type {type(value).__name__}"


# Iterables whose items are no rows: characters, bytes, names, or values without an order.
NO_ROWS = (str, bytes, bytearray, set, frozenset, Mapping)


def listed(values: Any, name: str) -> list[Any]:
    """Returns the items of an iterable as a list. Raises TypeError for a text, bytes, a dict, a set, or what has several dimensions, such as a
    data frame: their items are no rows, or have no order."""
    if not isinstance(values, NO_ROWS) and getattr(values, "ndim", 1) == 1:
        try:
            items = iter(values)
        except TypeError:
            pass
        else:
            return list(items)
    raise TypeError(f"{name}: {shown(values)} is of type {type(values).__name__}, not a list or another iterable of rows")


def _numpy() -> Any:
    """Returns numpy if some module has imported it. If none has, no value is of a type of numpy."""
    return sys.modules.get("numpy")


def checked_name(value: object, what: str) -> bytes:
    """Returns a name as UTF-8. Raises TypeError if it is not a str, and ValueError if Arrow cannot have it: for a zero, where C's texts end."""
    if not isinstance(value, str):
        raise TypeError(f"{what}: the name {shown(value)} is of type {type(value).__name__}, not str")
    return checked_text(value, what, "the name ")


def checked_text(value: str, name: str, what: str = "") -> bytes:
    """Returns a text as UTF-8. Raises ValueError if Arrow cannot have it: for a zero, where C's texts end, and for half a surrogate pair."""
    if "\0" in value:
        raise ValueError(f"{name}: {what}{shown(value)} has a zero character")
    return utf8_of(value, name, what)


def utf8_of(value: str, name: str, what: str = "") -> bytes:
    """Returns a text as UTF-8. Raises ValueError for half a surrogate pair, which is no character."""
    try:
        return value.encode()
    except UnicodeEncodeError as error:
        raise ValueError(f"{name}: {what}{shown(value)} has half a surrogate pair at character {error.start}, which UTF-8 cannot have") from None


def is_boolean(value: object) -> bool:
    """Returns whether the value is a Python bool or a numpy.bool_, which is known by its type's name and module.

    >>> is_boolean(True), is_boolean(1)
    (True, False)
    """
    kind = type(value)
    return isinstance(value, bool) or (kind.__module__ == "numpy" and kind.__name__ in ("bool_", "bool") and hasattr(kind, "__bool__"))


def _is_array_without_index(value: object) -> bool:
    """Returns whether the value is an array of one or more dimensions, or one of none whose value is masked."""
    numpy = _numpy()
    if numpy is None or not isinstance(value, numpy.ndarray):
        return False
    return bool(value.ndim > 0 or numpy.ma.getmaskarray(value).any())


def is_integer(value: object) -> bool:
    """Returns whether the value is an integer: it has `__index__` and is not a boolean."""
    if type(value) is int:
        return True
    if is_boolean(value) or _is_array_without_index(value):
        return False
    try:
        operator.index(value)  # type: ignore[arg-type]
    except TypeError:
        return False
    return True


def integer(value: object, name: str) -> int:
    """Returns the value as an int.

    Raises TypeError if it is a boolean or has no `__index__`, as is the case for floats, decimals and fractions.
    """
    if type(value) is int:
        return value
    if not is_integer(value):
        raise TypeError(f"{name}: {shown(value)} is of type {type(value).__name__}, not an integer")
    return int(operator.index(value))  # type: ignore[arg-type]


def _is_real(value: object) -> bool:
    """Returns whether `float` gives the value of a number: not for booleans, texts, complex numbers, times and arrays, which it converts, too."""
    if is_boolean(value) or isinstance(value, (str, bytes, bytearray, complex, date, timedelta)) or not hasattr(value, "__float__"):
        return False
    numpy = _numpy()
    if numpy is not None and isinstance(value, numpy.generic):
        return isinstance(value, (numpy.integer, numpy.floating)) and not isinstance(value, numpy.timedelta64)
    return not hasattr(value, "__array__")


def real(value: object, name: str) -> float:
    """Returns a number as a float.

    Raises TypeError if it is a boolean, a text, a complex number, an array or masked, or has no `__float__`.
    """
    if type(value) is float:
        return value
    if not _is_real(value):
        raise TypeError(f"{name}: {shown(value)} is of type {type(value).__name__}, not a number")
    return float(value)  # type: ignore[arg-type]


def error_outside(value: int, name: str, limits: Limits) -> Exception:
    """Returns the exception for an integer outside its range."""
    text = f"{name}: {shown(value)} is outside [{limits.least}, {limits.most}]"
    if not limits.is_index:
        return OverflowError(text)
    return OutOfBounds(INDEX_OUT_OF_BOUNDS, f"{text}; negative indices are not supported" if value < 0 == limits.least else text)


def error_out_of_bounds(value: int, name: str, count: int) -> OutOfBounds:
    """Returns the exception for an index that no row of a column has."""
    return OutOfBounds(INDEX_OUT_OF_BOUNDS, f"{name}: {shown(value)} is out of bounds of {count} rows")


def position_of(value: object, name: str, count: int) -> int:
    """Returns the row number that an index names in a column of `count` rows; a negative index counts from the end.

    Raises TypeError if it is not an integer, and IndexError if no row has it.

    >>> position_of(-1, "index", 3)
    2
    """
    number = integer(value, name)
    if not -count <= number < count:
        raise error_out_of_bounds(number, name, count)
    return number + count if number < 0 else number


def integer_within(value: object, name: str, limits: Limits) -> int:
    """Returns the value as an int within the limits.

    Raises TypeError if it is not an integer; if it is outside the limits, IndexError for an index and else OverflowError.
    """
    number = integer(value, name)
    if not limits.least <= number <= limits.most:
        raise error_outside(number, name, limits)
    return number


def integers_within(values: Iterable[object], name: str, limits: Limits, nulls: bool = False) -> list[Any]:
    """Returns the values as ints within the limits; `None` stays if nulls are allowed. Errors name the position."""
    least, most = limits.least, limits.most
    checked: list[Any] = []
    for position, value in enumerate(values):
        if not (type(value) is int and least <= value <= most) and not (nulls and value is None):
            value = integer_within(value, f"{name}[{position}]", limits)
        checked.append(value)
    return checked


def boolean(value: object, name: str) -> bool:
    """Returns the value as a bool. Raises TypeError if it is neither a bool nor a numpy.bool_."""
    if not is_boolean(value):
        raise TypeError(f"{name}: {shown(value)} is of type {type(value).__name__}, not a boolean")
    return bool(value)


def booleans(values: Iterable[object], name: str, nulls: bool = False) -> list[Any]:
    """Returns the values as bools; `None` stays if nulls are allowed. Errors name the position."""
    checked: list[Any] = []
    for position, value in enumerate(values):
        if value is not True and value is not False and not (nulls and value is None):
            value = boolean(value, f"{name}[{position}]")
        checked.append(value)
    return checked
