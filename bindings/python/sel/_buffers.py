"""Columns in pickles of protocol 5: the layout of the storage, and the buffers as they are in memory.

A slice shares whole buffers with its column. If most of what they hold belongs to no row, the rows are copied to buffers of their own first.
"""

from __future__ import annotations

import importlib
import pickle
from array import array
from collections.abc import Iterator, Sequence
from ctypes import addressof, byref, c_int64
from typing import Any, List, NamedTuple, Optional, Tuple

from ._errors import BrokenRule
from ._lending import Exported, Piece, Pinned, bytes_at, lent
from ._library import ArrowArray, ArrowSchema, call
from ._logical import ArrowType, TypeOwner, metadata_of, of_format, storage_type, type_parameter
from ._memory import _NOTHING, SIZE_CODE, words
from ._owner import Owner, from_several
from ._readers import compacted, is_mostly
from ._types import Type

__all__ = ["column_again", "reduced", "size_of_buffers"]

# The bytes of a value in the formats that have values of one size.
_WIDTHS = {b"c": 1, b"C": 1, b"s": 2, b"S": 2, b"i": 4, b"I": 4, b"l": 8, b"L": 8, b"d:38,0,128": 16, b"w:16": 16}
_VIEWS = (b"vz", b"vu")
_VIEW_BYTES, _INLINE_BYTES = 16, 12
_STRINGS = (b"Z", b"U")
_OFFSETS = (*_STRINGS, b"+L")
_NO_BUFFERS = b"n"

# A level in a pickle: its format and metadata, its rows and nulls, the bytes of each of its buffers, and its children.
Level = Tuple[bytes, Optional[bytes], int, int, Tuple[Optional[int], ...], Tuple[Any, ...]]


class _Level(NamedTuple):
    """A level of an exported array: the addresses and the bytes of its buffers; a missing one has none."""

    format: bytes
    metadata: bytes | None
    length: int
    null_count: int
    addresses: Sequence[int]
    sizes: Sequence[Optional[int]]
    children: Sequence[Any]

    def described(self) -> Level:
        """Returns the level for a pickle."""
        return self.format, self.metadata, self.length, self.null_count, tuple(self.sizes), tuple(child.described() for child in self.children)

    def buffers(self, keeps: object) -> Iterator[Any]:
        """Returns the buffers that are there, those of the children behind those of the level."""
        for address, size in zip(self.addresses, self.sizes):
            if size is not None:
                yield pickle.PickleBuffer(bytes_at(address, size, keeps))
        for child in self.children:
            yield from child.buffers(keeps)


def _offset(address: int, place: int) -> int:
    """Returns an offset of a buffer, or 0 if the buffer is missing."""
    return c_int64.from_address(address + 8 * place).value if address else 0


def _validity_size(count: int) -> int:
    return (count + 7) // 8


def _first_size(format: bytes, count: int) -> int | None:
    """Returns the bytes of the buffer behind the validity, of which the format has at most one more; none if there is none."""
    if format in _WIDTHS:
        return count * _WIDTHS[format]
    if format == b"b":
        return _validity_size(count)
    if format in _VIEWS:
        return count * _VIEW_BYTES
    return 8 * (count + 1) if format in _OFFSETS else None


def _sizes(format: bytes, count: int, addresses: Sequence[int], data: Sequence[int]) -> list[int]:
    """Returns the bytes of the buffers behind the validity, where the data buffers of views have these; offsets are read if there are any."""
    first = _first_size(format, count)
    if first is None:
        return []
    if format in _VIEWS:
        return [first, *data]
    return [first, _offset(addresses[1], count)] if format in _STRINGS else [first]


def _level(there: ArrowArray, schema: ArrowSchema) -> _Level:
    """Returns a level of an exported array, which has no offset."""
    format = bytes(schema.format)
    addresses = [int(there.buffers[number] or 0) for number in range(there.n_buffers)]
    children = [_level(there.children[number].contents, schema.children[number].contents) for number in range(there.n_children)]
    sizes: list[int | None] = []
    if addresses:
        data = [_offset(addresses[-1], number) for number in range(len(addresses) - 3)] if format in _VIEWS else []
        sizes = [_validity_size(there.length) if addresses[0] and there.null_count != 0 else None, *_sizes(format, there.length, addresses, data)]
    return _Level(format, metadata_of(schema), there.length, there.null_count, addresses[: len(sizes)], sizes, children)


def _bytes_of_views(level: _Level) -> int:
    """Returns how many bytes of data buffers the views refer to."""
    lengths: Any = bytes_at(level.addresses[1], level.length * _VIEW_BYTES, None).cast("I")[::4] if level.length else ()
    try:
        numpy = importlib.import_module("numpy")
    except ImportError:
        return sum(length for length in lengths if length > _INLINE_BYTES)
    all_lengths = numpy.asarray(lengths, dtype="uint32")
    return int(all_lengths[all_lengths > _INLINE_BYTES].sum(dtype="uint64"))


def _use(level: _Level) -> tuple[int, int, set[bytes]]:
    """Returns the bytes of all buffers, how many of them belong to no row, and the formats of views whose data buffers have such bytes."""
    whole, spare, formats = sum(size or 0 for size in level.sizes), 0, set()
    if level.format in _VIEWS:
        data = sum(size or 0 for size in level.sizes[2:])
        if not is_mostly(level.length * _VIEW_BYTES, data):
            used = _bytes_of_views(level)
            if not is_mostly(used, data):
                spare, formats = data - used, {level.format}
    elif level.format in _STRINGS:
        spare = _offset(level.addresses[1], 0)
    for child in level.children:
        below, spare_below, formats_below = _use(child)
        if level.format == b"+L" and child.length > 0:
            outside = _offset(level.addresses[1], 0)
            spare_below = max(spare_below, below * outside // child.length)
        whole, spare, formats = whole + below, spare + spare_below, formats | formats_below
    return whole, spare, formats


def size_of_buffers(column: Owner) -> int:
    """Returns the bytes of the buffers that the rows are in: of those that Arrow would read, at every level.

    A column with a 128-bit integer of 39 digits, which Arrow cannot represent, counts 16 bytes a row.
    """
    try:
        exported = Exported(column, TypeOwner())
    except BrokenRule:
        return 16 * len(column)
    return _size(_level(exported.array, exported.schema))


def _size(level: _Level) -> int:
    return sum(size or 0 for size in level.sizes) + sum(_size(child) for child in level.children)


def _with_offsets(wanted: Type) -> Type:
    """Returns the type with strings that have offsets."""
    if wanted.kind == "utf8":
        return of_format("U")
    if not wanted.children:
        return wanted
    format = {"list": "+L", "struct": "+s"}.get(wanted.kind, f"+w:{wanted.width}")
    return of_format(format, [_with_offsets(child) for child in wanted.children])


def _copied(column: Owner) -> Owner:
    """Returns the rows in buffers of their own, but for the data buffers of views."""
    count = len(column)
    if count == 0:
        return compacted(column)
    return from_several([column], lambda handles, made: call("sel_flatten", handles, 1, words(SIZE_CODE, [count]), 1, 1, byref(made._handle)))


def _exported(column: Owner) -> tuple[Exported, _Level] | None:
    """Returns the buffers of a column, or of a copy of its rows; none if only Python can copy them."""
    exported = Exported(column, TypeOwner())
    level = _level(exported.array, exported.schema)
    whole, spare, formats = _use(level)
    if is_mostly(whole - spare, whole):
        return exported, level
    if b"vz" in formats:
        return None
    wanted = _with_offsets(storage_type(column)) if b"vu" in formats else None
    exported = Exported(_copied(column), type_parameter(wanted if isinstance(wanted, ArrowType) else None))
    return exported, _level(exported.array, exported.schema)


def reduced(column: Owner) -> tuple[Any, ...] | None:
    """Returns the layout of a column and its buffers; none if it has to be pickled by its rows, such as a 128-bit integer of 39 digits."""
    try:
        found = _exported(column)
    except BrokenRule:
        return None
    if found is None:
        return None
    exported, level = found
    return level.described(), *level.buffers(exported)


def _pinned(size: int, buffers: Iterator[Any], keeps: List[Any]) -> int:
    """Returns the address of the buffer that comes next. Raises ValueError if it has another size, or if there is none."""
    buffer = next(buffers, None)
    if buffer is None:
        raise ValueError("the pickled column has too few buffers")
    pinned = Pinned(buffer)
    if pinned.size != size:
        raise ValueError(f"a buffer of the pickled column has {pinned.size} bytes, not {size}")
    keeps.append(pinned)
    return pinned.address if size > 0 else addressof(_NOTHING)


def _check_sizes(level: Level, addresses: Sequence[int]) -> None:
    """Raises ValueError if the buffers, which have the sizes of the level, are not those of its format and rows: the import reads as many bytes."""
    format, _, length, _, sizes, _ = level
    wanted: list[Optional[int]] = []
    if format != _NO_BUFFERS:
        validity, first = sizes[:1], _first_size(format, length)
        if validity not in ((None,), (_validity_size(length),)) or sizes[1:2] != (() if first is None else (first,)):
            raise ValueError(f"the buffers of the pickled column are not those of {length} rows")
        wanted = [*validity, *_sizes(format, length, addresses, [size or 0 for size in sizes[2:]])]
    if list(sizes) != wanted:
        raise ValueError(f"the buffers of the pickled column have {sizes} bytes, not {wanted}")


def _piece(level: Level, buffers: Iterator[Any], keeps: List[Any]) -> Piece:
    """Returns a level over the buffers that come next. Raises ValueError if they are not those of its format and rows."""
    format, metadata, length, null_count, sizes, children = level
    addresses = [0 if size is None else _pinned(size, buffers, keeps) for size in sizes]
    _check_sizes(level, addresses)
    if format in _VIEWS:
        lengths = array("q", [size or 0 for size in sizes[2:]] or [0])
        keeps.append(lengths)
        addresses.append(lengths.buffer_info()[0])
    below = tuple(_piece(child, buffers, keeps) for child in children)
    return Piece(format, length, tuple(addresses), null_count, below, metadata)


def column_again(logical: ArrowType | None, level: Level, *buffers: Any) -> Any:
    """Returns a column that was pickled, which reads the buffers where they are aligned for their type."""
    from ._column import Column

    keeps: list[Any] = []
    left = iter(buffers)
    piece = _piece(level, left, keeps)
    if next(left, None) is not None:
        raise ValueError("the pickled column has too many buffers")
    return Column._owning(lent(piece, keeps), logical)
