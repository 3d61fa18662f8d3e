"""Arrow arrays in ctypes, made of bytes, for imports from a producer that is not the library."""

from __future__ import annotations

import ctypes
from collections.abc import Sequence
from ctypes import CFUNCTYPE, POINTER, c_char_p, c_void_p, cast, py_object
from typing import Any

from sel._library import ArrowArray, ArrowSchema

__all__ = ["Piece"]

_Release = CFUNCTYPE(None, c_void_p)
_new_capsule = ctypes.pythonapi.PyCapsule_New
_new_capsule.restype, _new_capsule.argtypes = py_object, [c_void_p, c_char_p, c_void_p]
_SCHEMA, _ARRAY = c_char_p(b"arrow_schema"), c_char_p(b"arrow_array")


# The pieces whose arrays were moved and are not released, by the number in their private data: the library reads their memory.
_lent: dict[int, Piece] = {}


def _release_array(address: int) -> None:
    array = ArrowArray.from_address(address)
    array.release = None
    _lent.pop(array.private_data or 0, None)


_RELEASE_ARRAY, _RELEASE_SCHEMA = _Release(_release_array), _Release(lambda address: None)


class Piece:
    """An array with its schema; `buffers` are bytes, or none where one is missing."""

    def __init__(self, format: str, length: int, buffers: Sequence[bytes | None], children: Sequence[Piece] = (), dictionary: Piece | None = None,
                 name: str = "", flags: int = 2, offset: int = 0, metadata: bytes | None = None) -> None:
        self.children, self.values = list(children), dictionary
        self.kept = [ctypes.create_string_buffer(part, len(part) + 16) if part is not None else None for part in buffers]
        addresses = [None if part is None else ctypes.addressof(part) for part in self.kept]
        self.schema = ArrowSchema(format=format.encode(), name=name.encode(), flags=flags, metadata=metadata, n_children=len(children), release=cast(_RELEASE_SCHEMA, c_void_p))
        self.array = ArrowArray(length=length, null_count=-1, offset=offset, n_buffers=len(buffers), n_children=len(children),
                                buffers=(c_void_p * max(1, len(buffers)))(*addresses), release=cast(_RELEASE_ARRAY, c_void_p))
        if children:
            self.schema.children = (POINTER(ArrowSchema) * len(children))(*[ctypes.pointer(child.schema) for child in children])
            self.array.children = (POINTER(ArrowArray) * len(children))(*[ctypes.pointer(child.array) for child in children])
        if dictionary is not None:
            self.schema.dictionary, self.array.dictionary = ctypes.pointer(dictionary.schema), ctypes.pointer(dictionary.array)

    def _restore(self) -> None:
        """Makes the array valid again after it was moved or released."""
        self.array.release = cast(_RELEASE_ARRAY, c_void_p)
        for part in (*self.children, *([self.values] if self.values else [])):
            part._restore()

    def __arrow_c_array__(self, requested_schema: object = None) -> tuple[Any, Any]:
        """Returns capsules of the schema and of the array, which the piece keeps."""
        self._restore()
        self.array.private_data = id(self)
        _lent[id(self)] = self
        return _new_capsule(ctypes.addressof(self.schema), _SCHEMA, None), _new_capsule(ctypes.addressof(self.array), _ARRAY, None)
