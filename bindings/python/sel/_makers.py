"""Columns made of Python values, by kind."""

from __future__ import annotations

from collections.abc import Iterable, Sequence
from ctypes import byref, c_char_p, c_void_p, cast
from itertools import accumulate
from struct import unpack
from typing import Any

from ._checks import Limits, booleans, integer_within, integers_within, shown, utf8_of
from ._library import Slice, call
from ._logical import ArrowType, dictionary_of, storage_type
from ._memory import Memory, packed, validity_of, words
from ._owner import Owner, from_several
from ._types import NUMBERS, Type
from ._values import comparable_value, has_values, storage_values

__all__ = ["CODES", "made_of", "nulls"]

# The type codes of the module `array` for the integers of 8 to 64 bits.
CODES = {"int8": "b", "int16": "h", "int32": "i", "int64": "q", "uint8": "B", "uint16": "H", "uint32": "I", "uint64": "Q"}

# The length of a view is a 32-bit word. Its offset is, too, but a signed one in Arrow: data buffers stay below 2^31 bytes.
_VIEW_LENGTH = Limits(0, (1 << 32) - 1)
_BUFFER_BYTES = (1 << 31) - 1
_INLINE_BYTES = 12


def made_of(values: Sequence[Any], wanted: Type, name: str = "values", valid: Sequence[bool] | None = None) -> Owner:
    """Returns the column of the values, in which `None` is null; with `valid`, the rows that are not valid are null.

    The name is that of the values in the messages of errors.
    """
    flags = [value is not None for value in values] if valid is None else valid
    if isinstance(wanted, ArrowType):
        return _make_logical(values, wanted, name, flags)
    return _MAKERS.get(wanted.kind, _make_numbers)(values, wanted, name, flags)


def _make_logical(values: Sequence[Any], wanted: ArrowType, name: str, valid: Sequence[bool]) -> Owner:
    """Returns the column of the storage of a logical type."""
    if wanted.is_dictionary:
        return _make_keys(values, wanted, name, valid)
    if has_values(wanted):
        values = storage_values(values, wanted, name)
    if wanted.format == "+s":
        values = _without_names(values, [field.name for field in wanted.fields], name)
    return _MAKERS.get(wanted.kind, _make_numbers)(values, wanted, name, valid)


def _without_names(values: Sequence[Any], names: Sequence[str], name: str) -> list[Any]:
    """Returns dicts as tuples of the values of these fields, and other values as they are. Raises ValueError for other keys than the fields."""
    found: list[Any] = []
    for position, value in enumerate(values):
        if isinstance(value, dict):
            if len(set(names)) < len(names):
                raise ValueError(f"{name}[{position}]: a dict has no value for each of the fields {', '.join(map(repr, names))}, of which some have one name")
            if value.keys() != set(names):
                raise _error_of_keys(value, names, f"{name}[{position}]")
            value = tuple(value[field] for field in names)
        found.append(value)
    return found


def _error_of_keys(value: dict[Any, Any], names: Sequence[str], name: str) -> ValueError:
    missing, unknown = [field for field in names if field not in value], [key for key in value if key not in names]
    faults = [f"{text} {', '.join(map(shown, keys))}" for text, keys in (("has no", missing), ("has the unknown", unknown)) if keys]
    return ValueError(f"{name}: {shown(value)} {' and '.join(faults)}; the fields are {', '.join(map(repr, names))}")


def _key_of(row: Any) -> Any:
    """Returns a row as a value that can be hashed and is equal for equal rows of one type."""
    if isinstance(row, (list, tuple)):
        return tuple(map(_key_of, row))
    return tuple(map(_key_of, row.values())) if isinstance(row, dict) else row


def _make_keys(values: Sequence[Any], wanted: ArrowType, name: str, valid: Sequence[bool]) -> Owner:
    """Returns the keys of values that a dictionary has. The values are converted to its type, and then compared as rows."""
    from ._readers import rows_of

    dictionary, value_type = dictionary_of(wanted)
    made = made_of(values, storage_type(dictionary) if value_type is None else value_type, name)
    places = {_key_of(row): place for place, row in reversed(list(enumerate(rows_of(dictionary, value_type, comparable_value))))}
    keys: list[int | None] = []
    for position, (value, row) in enumerate(zip(values, rows_of(made, value_type, comparable_value))):
        key = None if value is None else places.get(_key_of(row))
        if key is None and value is not None:
            raise ValueError(f"{name}[{position}]: the dictionary does not have {shown(value)}")
        keys.append(key)
    return _make_numbers(keys, Type(wanted.kind), name, valid)


def nulls(count: int) -> Owner:
    """Returns a column of type null with so many rows."""
    made = Owner()
    call("sel_null_new", count, byref(made._handle))
    return made


def _make_null(values: Sequence[Any], wanted: Type, name: str, valid: Sequence[bool]) -> Owner:
    for position, value in enumerate(values):
        if value is not None:
            raise TypeError(f"{name}[{position}]: {shown(value)} is not None, and a column of type null has no values")
    return nulls(len(values))


def _make_numbers(values: Sequence[Any], wanted: Type, name: str, valid: Sequence[bool]) -> Owner:
    integer_name, bits = NUMBERS[wanted.kind]
    limits = Limits(-(1 << (-bits - 1)), (1 << (-bits - 1)) - 1) if bits < 0 else Limits(0, (1 << bits) - 1)
    numbers = [0 if value is None else value for value in integers_within(values, name, limits, nulls=True)]
    if abs(bits) == 128:
        low = (1 << 64) - 1
        items = words("Q", [word for number in numbers for word in (number & low, number >> 64 & low)])
    else:
        items = words(CODES[integer_name], numbers)
    made = Owner()
    call(f"sel_{integer_name}_new", items, len(numbers), *validity_of(valid), byref(made._handle))
    return made


def _make_booleans(values: Sequence[Any], wanted: Type, name: str, valid: Sequence[bool]) -> Owner:
    made, bits = Owner(), packed(booleans(values, name, nulls=True))
    call("sel_boolean_new", bits, bits.size(), len(values), *validity_of(valid), byref(made._handle))
    return made


def _pieces(values: Sequence[Any], wanted: Type, name: str) -> list[bytes]:
    """Returns the bytes of each value, and no bytes for `None`."""
    is_text = wanted.kind == "utf8"
    for position, value in enumerate(values):
        if value is not None and not isinstance(value, str if is_text else (bytes, bytearray)):
            raise TypeError(f"{name}[{position}]: {shown(value)} is of type {type(value).__name__}, not {'str' if is_text else 'bytes'}")
    try:
        return [b"" if value is None else value.encode() if is_text else bytes(value) for value in values]
    except UnicodeEncodeError:
        return [b"" if value is None else utf8_of(value, f"{name}[{position}]") for position, value in enumerate(values)]


def _offsets(lengths: Iterable[int]) -> Memory:
    return words("q", accumulate(lengths, initial=0))


def _make_bytes(values: Sequence[Any], wanted: Type, name: str, valid: Sequence[bool]) -> Owner:
    made, pieces = Owner(), _pieces(values, wanted, name)
    joined, offsets = b"".join(pieces), _offsets(map(len, pieces))
    call("sel_binary_new", offsets, len(pieces) + 1, joined, len(joined), *validity_of(valid), byref(made._handle))
    return made


def _views(pieces: Sequence[bytes], name: str) -> tuple[Memory, list[bytes]]:
    """Returns the views of the pieces, four words each, and their data buffers."""
    views: list[int] = []
    buffers: list[list[bytes]] = [[]]
    end = 0
    for position, piece in enumerate(pieces):
        length = integer_within(len(piece), f"length of {name}[{position}]", _VIEW_LENGTH)
        first, second, third = unpack("<3I", piece[:_INLINE_BYTES].ljust(_INLINE_BYTES, b"\0"))
        if length > _INLINE_BYTES:
            if end > 0 and end + length > _BUFFER_BYTES:
                buffers.append([])
                end = 0
            second, third = len(buffers) - 1, end
            buffers[-1].append(piece)
            end += length
        views += (length, first, second, third)
    return words("I", views), [b"".join(buffer) for buffer in buffers if buffer]


def _make_views(values: Sequence[Any], wanted: Type, name: str, valid: Sequence[bool]) -> Owner:
    made, maker = Owner(), "sel_string_view_new" if wanted.kind == "utf8" else "sel_binary_view_new"
    views, buffers = _views(_pieces(values, wanted, name), name)
    slices = (Slice * max(1, len(buffers)))(*[Slice(cast(c_char_p(buffer), c_void_p), len(buffer)) for buffer in buffers])
    call(maker, views, len(values), slices, len(buffers), *validity_of(valid), byref(made._handle))
    return made


def _check_rows(values: Sequence[Any], name: str, kind: type[list[Any]] | type[tuple[Any, ...]], length: int | None = None) -> None:
    """Raises TypeError for a value that is neither `None` nor of the kind, and ValueError for one of another length."""
    for position, value in enumerate(values):
        if value is None:
            continue
        if not isinstance(value, kind):
            hint = "; the fields of its type have no names" if isinstance(value, dict) and kind is tuple else ""
            raise TypeError(f"{name}[{position}]: {shown(value)} is of type {type(value).__name__}, not {kind.__name__}{hint}")
        if length is not None and len(value) != length:
            raise ValueError(f"{name}[{position}]: {shown(value)} has {len(value)} values, not {length}")


def _check_nulls(values: Iterable[Any], wanted: Type, name: str) -> None:
    """Raises ValueError for a null where a field of structs or an element of lists must not be null. Other types do not read the values."""
    if isinstance(wanted, ArrowType) and not wanted.is_nullable and any(value is None for value in values):
        raise ValueError(f"{name}: a value is None, and the type says that they are not null")


def _make_lists(values: Sequence[Any], wanted: Type, name: str, valid: Sequence[bool]) -> Owner:
    _check_rows(values, name, list)
    made, offsets = Owner(), _offsets(len(value or ()) for value in values)
    items, inner = [item for value in values for item in value or ()], f"elements of {name}"
    _check_nulls(items, wanted.children[0], inner)
    child = made_of(items, wanted.children[0], inner)
    call("sel_list_new", offsets, len(values) + 1, *validity_of(valid), child, byref(made._handle))
    return made


def _fixed_list_items(values: Sequence[Any], wanted: Type, name: str) -> Owner:
    """Returns the column of the elements, of which null lists have as many nulls as the others have elements."""
    inner = wanted.children[0]
    if inner.kind == "null":
        _make_null([item for value in values for item in value or ()], inner, name, ())
        return nulls(len(values) * wanted.width)
    empty = [None] * wanted.width if any(value is None for value in values) else []
    return made_of([item for value in values for item in (empty if value is None else value)], inner, name)


def _make_fixed_lists(values: Sequence[Any], wanted: Type, name: str, valid: Sequence[bool]) -> Owner:
    _check_rows(values, name, list, wanted.width)
    _check_nulls((item for value in values for item in value or ()), wanted.children[0], f"elements of {name}")
    made, child = Owner(), _fixed_list_items(values, wanted, f"elements of {name}")
    call("sel_fixed_size_list_new", wanted.width, len(values), *validity_of(valid), child, byref(made._handle))
    return made


def _make_structs(values: Sequence[Any], wanted: Type, name: str, valid: Sequence[bool]) -> Owner:
    count = len(wanted.children)
    _check_rows(values, name, tuple, count)
    for number, child in enumerate(wanted.children):
        _check_nulls((value[number] for value in values if value is not None), child, f"fields {number} of {name}")
    fields = [made_of([None if value is None else value[number] for value in values], child, f"fields {number} of {name}")
              for number, child in enumerate(wanted.children)]
    return from_several(fields, lambda handles, made: call(
        "sel_struct_new", len(values), *validity_of(valid), handles, count, byref(made._handle)))


_MAKERS = {"null": _make_null, "bool": _make_booleans, "binary": _make_bytes, "binview": _make_views, "utf8": _make_views,
           "list": _make_lists, "fixed": _make_fixed_lists, "struct": _make_structs}
