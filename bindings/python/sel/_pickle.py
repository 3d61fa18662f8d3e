"""Logical types in pickles: as nested tuples, from which an Arrow schema and an array without rows are built again."""

from __future__ import annotations

import ctypes
from ctypes import POINTER, byref, c_char_p, c_void_p, cast
from typing import Any, Optional, Tuple

from ._callbacks import NO_RELEASE, Numbers, Release, callback
from ._library import ArrowArray, ArrowSchema, call
from ._logical import ArrowType, TypeOwner, dictionary_of, metadata_of
from ._owner import Owner

__all__ = ["described", "type_again"]

# A level: its format, name, metadata and flags, its children, and the rows and the type of its dictionary.
Level = Tuple[bytes, Optional[bytes], Optional[bytes], int, Tuple[Any, ...], Optional[Tuple[Any, ...]]]

# What imported arrays refer to, until they are released, by the number in their private data.
_kept: dict[int, list[Any]] = {}
_NUMBERS = Numbers()


# The defaults are what the function uses: a type may be freed after the names of this module are gone.
def _release_kept(address: int, kind: Any = ArrowArray, kept: dict[int, list[Any]] = _kept, function: Any = Release, address_of: Any = ctypes.addressof) -> None:
    array = kind.from_address(address)
    array.release = None
    for structures in kept.pop(array.private_data):
        for structure in structures if len(structures) == 2 else ():
            if structure.release:
                function(structure.release)(address_of(structure))


_RELEASE_KEPT = callback(Release, _release_kept)


def _described(type: ArrowType, schema: ArrowSchema) -> Level:
    children = tuple(_described(field, schema.children[number].contents) for number, field in enumerate(type.fields))
    dictionary = None
    if schema.dictionary:
        from ._column import Column

        values, value_type = dictionary_of(type)
        dictionary = (Column._owning(values, value_type),)
    return schema.format, schema.name, metadata_of(schema), schema.flags, children, dictionary


def described(owner: TypeOwner) -> Level:
    """Returns a type as nested tuples."""
    schema = ArrowSchema()
    call("sel_type_export", owner, byref(schema))
    try:
        return _described(ArrowType(owner), schema)
    finally:
        Release(schema.release)(ctypes.addressof(schema))


def _buffers(format: bytes) -> int:
    if format in (b"n", b"+r"):
        return 0
    return 1 if format[:2] in (b"+s", b"+w") else 3 if format[:1] in (b"z", b"Z", b"u", b"U", b"v") or format[:2] == b"+v" else 2


def _built(level: Level, kept: list[Any]) -> tuple[ArrowSchema, ArrowArray]:
    """Returns the schema of a level, and an array without rows."""
    format, name, metadata, flags, children, dictionary = level
    below = [_built(child, kept) for child in children]
    count = _buffers(format)
    schema = ArrowSchema(format=format, name=name, metadata=metadata, flags=flags, n_children=len(below), release=cast(NO_RELEASE, c_void_p))
    array = ArrowArray(n_buffers=count, buffers=(c_void_p * max(1, count))(), n_children=len(below), release=cast(NO_RELEASE, c_void_p))
    if below:
        schema.children = (POINTER(ArrowSchema) * len(below))(*[ctypes.pointer(one) for one, _ in below])
        array.children = (POINTER(ArrowArray) * len(below))(*[ctypes.pointer(one) for _, one in below])
    if dictionary is not None:
        values, (column,) = (ArrowSchema(), ArrowArray()), dictionary
        call("sel_export", column, TypeOwner() if column._logical is None else column._logical._owner, byref(values[1]), byref(values[0]))
        schema.dictionary, array.dictionary = ctypes.pointer(values[0]), ctypes.pointer(values[1])
        kept.append(values)
    kept.append((below, schema, array, c_char_p(metadata)))
    return schema, array


def type_again(level: Level) -> ArrowType:
    """Returns the type of nested tuples."""
    kept: list[Any] = []
    made, owner = Owner(), TypeOwner()
    number = _NUMBERS.next()
    _kept[number] = kept
    top = ArrowArray(private_data=number, release=cast(_RELEASE_KEPT, c_void_p))
    try:
        schema, array = _built(level, kept)
        array.private_data, array.release = top.private_data, top.release
        top = array
        call("sel_import", byref(array), byref(schema), byref(made._handle), byref(owner._handle))
    finally:
        if top.release:
            _release_kept(ctypes.addressof(top))
    return ArrowType(owner)
