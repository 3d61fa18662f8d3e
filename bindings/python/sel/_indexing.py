"""Keys of `column[key]`: slices, indices that count from the end if they are negative, and masks."""

from __future__ import annotations

from array import array
from collections.abc import Sequence
from typing import Any

from . import _arrays
from ._arguments import plain_column_of
from ._arrow import Typed, imported_if_arrow
from ._checks import booleans, integer, is_boolean, position_of, shown
from ._conversions import converted
from ._errors import OutOfBounds
from ._makers import made_of
from ._memory import NO_VALIDITY, words
from ._owner import Owner, derived
from ._readers import rows_of
from ._types import NUMBERS, Type

__all__ = ["selected"]

_BYTES = (str, bytes, bytearray, memoryview)


def selected(column: Owner, key: Any, name: str) -> Owner:
    """Returns the rows that a key other than an integer selects: a slice, several indices, or a mask.

    Raises TypeError for another key, IndexError for an index that no row has, and ValueError for a mask of another length.
    """
    if isinstance(key, slice):
        return _sliced(column, key)
    found = (key, getattr(key, "_logical", None)) if isinstance(key, Owner) else imported_if_arrow(key)
    if found is not None:
        return _by_column(column, found, name)
    if _arrays.is_array(key):
        return _by_array(column, key, name)
    if isinstance(key, (Sequence, array)) and not isinstance(key, _BYTES):
        return _by_sequence(column, key, name)
    raise _error(key, name)


def _error(key: object, name: str) -> TypeError:
    return TypeError(f"{name}: {shown(key)} is of type {type(key).__name__}, not an integer, a slice, a sequence of integers or a mask")


def _rows_at(column: Owner, rows: Sequence[int]) -> Owner:
    """Returns the rows at row numbers that were checked."""
    return derived(column, "sel_take_rows", words("I", rows), len(rows), *NO_VALIDITY)


def _positions(values: Sequence[Any], name: str, count: int, nulls: bool = False) -> list[Any]:
    """Returns indices as row numbers of a column of `count` rows; `None` stays if nulls are allowed. Errors name the position."""
    return [value if type(value) is int and 0 <= value < count or (nulls and value is None) else position_of(value, f"{name}[{position}]", count)
            for position, value in enumerate(values)]


def _sliced(column: Owner, place: slice) -> Owner:
    """Returns a slice, which shares memory with the column if the step is 1. Bounds beyond the rows are cut off, as Python does."""
    parts = (("start", place.start), ("stop", place.stop), ("step", place.step))
    start, stop, step = slice(*[None if part is None else integer(part, f"slice {name}") for name, part in parts]).indices(len(column))
    if step == -1 and start - stop == len(column):
        return derived(column, "sel_reverse")
    if step != 1:
        return _rows_at(column, range(start, stop, step))
    return derived(column, "sel_slice", start, max(0, stop - start))


def _filtered(column: Owner, mask: Owner, name: str) -> Owner:
    if len(mask) != len(column):
        raise ValueError(f"{name}: a mask of {len(mask)} booleans for {len(column)} rows")
    return derived(column, "sel_filter", mask)


def _taken(column: Owner, rows: Owner) -> Owner:
    return derived(column, "sel_take", rows)


def _by_column(column: Owner, found: Typed, name: str) -> Owner:
    """Selects by a column of booleans or of integers. A null boolean counts as false; a null integer gives a null row."""
    key = plain_column_of(*found, name)
    kind = key._kind()
    if kind == "bool":
        return _filtered(column, key, name)
    if kind not in NUMBERS:
        raise TypeError(f"{name}: a column of type {kind}, where integers or booleans are needed")
    rows = converted(key, "u32")
    if rows is not None:
        try:
            return _taken(column, rows)
        except OutOfBounds:  # the loop below names the index
            pass
    return _taken(column, made_of(_positions(rows_of(key), name, len(column), nulls=True), Type("u32"), name))


def _by_array(column: Owner, key: Any, name: str) -> Owner:
    """Selects by an array of numpy of one dimension. A masked boolean counts as false; a masked integer gives a null row."""
    if getattr(key, "ndim", 1) != 1:
        raise _error(key, name)
    array = _arrays.opened(key, name)
    if _arrays.is_of_objects(array):
        return _by_sequence(column, array.tolist(), name)
    if array.dtype.kind == "b":
        return _filtered(column, _arrays.made_of_array(array, name), name)
    return _taken(column, _arrays.made_of_array(_arrays.positions_of_array(array, name, len(column)), name))


def _by_sequence(column: Owner, key: Sequence[Any], name: str) -> Owner:
    """Selects by booleans if the first item is one, and else by integers. `None` is neither."""
    if len(key) > 0 and is_boolean(key[0]):
        return _filtered(column, made_of(booleans(key, name), Type("bool"), name), name)
    return _rows_at(column, _positions(key, name, len(column)))
