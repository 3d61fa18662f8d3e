"""Arguments of kernels, made of columns, arrays or iterables after their checks."""

from __future__ import annotations

from collections.abc import Iterable
from typing import Any

from . import _arrays
from ._arrow import Typed, imported_if_arrow
from ._checks import NO_ROWS, ROW_INDEX, SIZE, Limits, integers_within, listed, shown
from ._conversions import converted
from ._errors import WrongArgument
from ._logical import ArrowType, decoded
from ._makers import made_of
from ._memory import SIZE_CODE, Memory, validity_of, words
from ._owner import Owner
from ._readers import rows_of
from ._statuses import UNSUPPORTED_TYPE
from ._types import NUMBERS, Type

__all__ = ["column_of", "columns_of", "indices_of", "integers_of", "mask_of", "picks_of", "plain_column_of", "sizes_of"]

# The formats of booleans and of the integers that count: the storage of other types has other meanings.
_PLAIN_FORMATS = ("b", "c", "C", "s", "S", "i", "I", "l", "L")


def plain_column_of(column: Owner, logical: ArrowType | None, name: str) -> Owner:
    """Returns a column of indices or of booleans, decoded if it has a dictionary. Raises TypeError for another logical type."""
    if logical is not None and logical.is_dictionary:
        column, logical = decoded(column, logical)
    if logical is not None and logical.format not in _PLAIN_FORMATS:
        raise TypeError(f"{name}: a column of type {logical}, where integers or booleans are needed")
    return column


def _typed_of(values: Any) -> Typed | None:
    """Returns a column, or Arrow data of another library as one, and its type; none for other values."""
    return (values, getattr(values, "_logical", None)) if isinstance(values, Owner) else imported_if_arrow(values)


def integers_of(found: Typed, kind: str, limits: Limits, name: str) -> Owner:
    """Returns a column of integers of any type, or of nulls, as one of a kind, whose range the limits are. It is decoded if it has a dictionary.

    Raises IndexError for an integer outside the limits, TypeError for a logical type, and WrongArgument for another kind.
    """
    column = plain_column_of(*found, name)
    if column._kind() not in ("null", *NUMBERS):
        raise WrongArgument(UNSUPPORTED_TYPE, f"{name}: a column of type {column._kind()}, where integers are needed")
    made = converted(column, kind)
    # row by row for the error alone, which names the row that does not fit
    return made_of(integers_within(rows_of(column), name, limits, nulls=True), Type(kind), name) if made is None else made


def _array_or_list(values: Any, name: str, dimensions: int = 1) -> tuple[Any, Any]:
    """Returns either a masked array of numpy's own types, or a list of Python values."""
    if not _arrays.is_array(values):
        return None, listed(values, name)
    array = _arrays.opened(values, name, dimensions)
    return (None, array.tolist()) if _arrays.is_of_objects(array) else (array, None)


def indices_of(values: Any, name: str) -> Owner:
    """Returns the column of row indices; `None` and masked values are null."""
    found = _typed_of(values)
    if found is not None:
        return integers_of(found, "u32", ROW_INDEX, name)
    array, entries = _array_or_list(values, name)
    if array is None:
        return made_of(integers_within(entries, name, ROW_INDEX, nulls=True), Type("u32"), name)
    return _arrays.made_of_array(_arrays.checked(array, name, "iu", ROW_INDEX).astype("uint32"), name)


def mask_of(values: Any, name: str) -> Owner:
    """Returns the column of a mask of booleans, decoded if it has a dictionary; `None` and masked values are null."""
    found = _typed_of(values)
    if found is not None:
        column = plain_column_of(*found, name)
        kind = column._kind()
        if kind != "bool":
            hint = "; without any value but None, give its type, as in Column(values, 'bool')" if kind == "null" else ""
            raise WrongArgument(UNSUPPORTED_TYPE, f"{name}: a column of type {kind}, where bool is needed{hint}")
        return column
    array, entries = _array_or_list(values, name)
    if array is None:
        return made_of(entries, Type("bool"), name)
    return _arrays.made_of_array(_arrays.checked(array, name, "b"), name)


def sizes_of(values: Any, name: str) -> Memory:
    """Returns sizes as an array of size_t."""
    found = _typed_of(values)
    array, entries = _array_or_list(values if found is None else rows_of(plain_column_of(*found, name)), name)
    if array is not None:
        entries = _arrays.checked(array, name, "iu").tolist()
    return words(SIZE_CODE, integers_within(entries, name, SIZE))


def column_of(value: Any, name: str) -> Owner:
    """Returns the column. Raises TypeError for another value."""
    if not isinstance(value, Owner):
        raise TypeError(f"{name}: {shown(value)} is of type {type(value).__name__}, not a column")
    return value


def columns_of(values: Iterable[Any], name: str) -> list[Owner]:
    """Returns the columns as a list. Raises TypeError for a value that is not a column."""
    return [column_of(value, f"{name}[{position}]") for position, value in enumerate(values)]


def _pair(pick: Any, name: str) -> list[int]:
    """Returns a column number and a row number. Raises ValueError for what is not a pair of numbers in an order."""
    try:
        column, row = () if isinstance(pick, NO_ROWS) else pick
    except (TypeError, ValueError):
        raise ValueError(f"{name}: {shown(pick)} is not a pair of a column number and a row number") from None
    return integers_within((column, row), name, ROW_INDEX)


def picks_of(values: Any, name: str) -> tuple[Memory, int, tuple[Memory, int, bool]]:
    """Returns picks, two words each, their number, and their validity: `None` is null, and so is a pick with a masked number."""
    array, entries = _array_or_list(values, name, dimensions=2)
    if array is not None:
        return _arrays.picks_of_array(array, name)
    pairs = [None if pick is None else _pair(pick, f"{name}[{position}]") for position, pick in enumerate(entries)]
    numbers = words("I", [number for pair in pairs for number in pair or (0, 0)])
    return numbers, len(pairs), validity_of([pair is not None for pair in pairs])
