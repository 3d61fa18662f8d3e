"""Memory without a copy: columns that read the memory of Python objects, and views of the memory of columns.

An object whose memory is lent is kept until the library releases it, which is when the last column, slice, result or exported array that
reads it is gone.
"""

from __future__ import annotations

import ctypes
from array import array
from collections.abc import Sequence
from ctypes import POINTER, byref, c_char_p, c_int, c_size_t, c_ssize_t, c_ubyte, c_void_p, cast, py_object
from typing import Any, NamedTuple, Optional, Tuple

from ._callbacks import NO_RELEASE, Numbers, Release, callback
from ._library import ArrowArray, ArrowSchema, call
from ._logical import TypeOwner
from ._owner import Owner

__all__ = ["Exported", "Piece", "Pinned", "bytes_at", "lent", "values_of"]

# What the arrays that are not released refer to, by the number in their private data.
_KEPT: dict[int, tuple[Any, list[Any]]] = {}
_NUMBERS = Numbers()

_NULLABLE = 2


class Piece(NamedTuple):
    """A level of an array: its Arrow format, the number of its rows, the addresses of its buffers (0 for a missing one), and its children."""

    format: bytes
    length: int
    buffers: Tuple[int, ...]
    null_count: int = -1
    children: Tuple[Any, ...] = ()
    metadata: Optional[bytes] = None


# The defaults are what the function uses: a column may be freed after the names of this module are gone.
def _released(address: int, structure: Any = ArrowArray, kept: dict[int, tuple[Any, list[Any]]] = _KEPT) -> None:
    there = structure.from_address(address)
    there.release = None
    kept.pop(there.private_data, None)


_RELEASE = callback(Release, _released)


def _structures(piece: Piece, parts: list[Any]) -> tuple[ArrowSchema, ArrowArray]:
    """Returns the schema and the array of a piece. The parts keep what these refer to."""
    below = [_structures(child, parts) for child in piece.children]
    buffers = (c_void_p * max(1, len(piece.buffers)))(*[address or None for address in piece.buffers])
    schema = ArrowSchema(format=piece.format, metadata=piece.metadata, flags=_NULLABLE, n_children=len(below), release=cast(NO_RELEASE, c_void_p))
    there = ArrowArray(length=piece.length, null_count=piece.null_count, n_buffers=len(piece.buffers), buffers=buffers, n_children=len(below),
                       release=cast(NO_RELEASE, c_void_p))
    if below:
        schema.children = (POINTER(ArrowSchema) * len(below))(*[ctypes.pointer(one) for one, _ in below])
        there.children = (POINTER(ArrowArray) * len(below))(*[ctypes.pointer(one) for _, one in below])
    parts.append((below, buffers, schema, there, c_char_p(piece.metadata)))
    return schema, there


def lent(piece: Piece, keeps: object) -> Owner:
    """Returns the column of a piece, in the storage of its format. The object keeps the memory of the piece."""
    made, number = Owner(), _NUMBERS.next()
    parts: list[Any] = []
    schema, there = _structures(piece, parts)
    there.private_data, there.release = number, cast(_RELEASE, c_void_p)
    _KEPT[number] = keeps, parts
    try:
        call("sel_import", byref(there), byref(schema), byref(made._handle), None)
    finally:
        if there.release:
            _KEPT.pop(number)
    return made


class _PyBuffer(ctypes.Structure):
    """`Py_buffer`: a buffer that an object exports."""

    _fields_ = [("buf", c_void_p), ("obj", c_void_p), ("len", c_ssize_t), ("itemsize", c_ssize_t), ("readonly", c_int), ("ndim", c_int), ("format", c_void_p),
                ("shape", c_void_p), ("strides", c_void_p), ("suboffsets", c_void_p), ("internal", c_void_p)]


_get_buffer, _release_buffer = ctypes.pythonapi.PyObject_GetBuffer, ctypes.pythonapi.PyBuffer_Release
_get_buffer.restype, _get_buffer.argtypes = c_int, [py_object, POINTER(_PyBuffer), c_int]
_release_buffer.restype, _release_buffer.argtypes = None, [POINTER(_PyBuffer)]


class Pinned:
    """The contiguous bytes of an object with the buffer protocol, which stay where they are as long as this lives."""

    __slots__ = ("_buffer", "address", "size")

    def __init__(self, source: object) -> None:
        self._buffer = _PyBuffer()
        _get_buffer(source, byref(self._buffer), 0)
        self.address, self.size = int(self._buffer.buf or 0), int(self._buffer.len)

    def __del__(self, release: Any = _release_buffer, pointer: Any = byref) -> None:
        release(pointer(self._buffer))


class Exported:
    """An array of the buffers of a column in the storage of a type, or in that of its own, and its schema; both are released with it."""

    __slots__ = ("array", "schema")

    def __init__(self, column: Owner, type: TypeOwner) -> None:
        self.array, self.schema = ArrowArray(), ArrowSchema()
        call("sel_export", column, type, byref(self.array), byref(self.schema))

    def __del__(self, function: Any = Release, address: Any = ctypes.addressof) -> None:
        for there in (self.array, self.schema):
            if there.release:
                function(there.release)(address(there))


def bytes_at(address: int, size: int, keeps: object) -> memoryview:
    """Returns a read-only view of bytes of memory. It keeps the object."""
    if size == 0:
        return memoryview(b"")
    items: Any = (c_ubyte * size).from_address(address)
    items.keeps = keeps
    return memoryview(items).cast("B").toreadonly()


def values_of(owner: Owner, code: str) -> memoryview:
    """Returns a read-only view of the values of a column of integers, with a type code of their size. It keeps the column."""
    address, count = c_void_p(), c_size_t()
    call("sel_borrow_values", owner, byref(address), byref(count))
    empty: array[Any] = array(code)
    if count.value == 0:
        return memoryview(empty).toreadonly()
    return bytes_at(int(address.value or 0), count.value * empty.itemsize, owner).cast(code)
