"""Producers of Arrow streams: one in ctypes, which counts the structures that it returns and those that are released, and one that has nothing but a stream."""

from __future__ import annotations

import ctypes
from collections import Counter
from collections.abc import Sequence
from ctypes import CFUNCTYPE, addressof, c_char_p, c_int, c_void_p, cast, memmove, py_object, sizeof
from typing import Any

from sel import Column
from sel._library import ArrowArray, ArrowArrayStream, ArrowSchema, call
from sel._logical import type_parameter

__all__ = ["Only", "Stream", "counted"]

_new_capsule = ctypes.pythonapi.PyCapsule_New
_new_capsule.restype, _new_capsule.argtypes = py_object, [c_void_p, c_char_p, c_void_p]
_NAME = c_char_p(b"arrow_array_stream")
_Get, _Error, _Release = CFUNCTYPE(c_int, c_void_p, c_void_p), CFUNCTYPE(c_void_p, c_void_p), CFUNCTYPE(None, c_void_p)


def counted(structure: Any, counts: Counter[str], name: str) -> Any:
    """Replaces the release function of an array or a schema by one that counts, too. Returns it: the caller keeps it alive."""
    original = structure.release

    def release(address: int) -> None:
        counts[name] += 1
        _Release(original)(address)

    function = _Release(release)
    structure.release = cast(function, c_void_p)
    return function


class Only:
    """An object that offers only a stream."""

    def __init__(self, source: Any) -> None:
        self.source = source

    def __arrow_c_stream__(self, requested_schema: object = None) -> object:
        return self.source.__arrow_c_stream__(requested_schema)


class Stream:
    """An object whose stream has the type of one column, and the rows of others in one array each.

    The stream fails with a code, and maybe a text, at the schema or at the array of a number. `format` replaces that of the schema.
    """

    def __init__(self, like: Column, chunks: Sequence[Column] = (), fails_at: int | str | None = None, code: int = 0, text: str | None = None,
                 format: bytes | None = None) -> None:
        self.like, self.fails_at, self.code, self.format = like, fails_at, code, format
        self.text = None if text is None else ctypes.create_string_buffer(text.encode())
        self.made, self.released = Counter({"stream": 1}), Counter[str]()
        self.kept: list[Any] = [_Get(self._get_schema), _Get(self._get_next), _Error(self._last_error), _Release(self._release)]
        self.stream = ArrowArrayStream(*[cast(function, c_void_p) for function in self.kept])
        self.waiting: list[Any] = []
        for column, kind in [(like, ArrowSchema), *[(chunk, ArrowArray) for chunk in chunks]]:
            self._export(column, kind)

    def __del__(self) -> None:
        for structure in self.waiting:
            _Release(structure.release)(addressof(structure))

    def __arrow_c_stream__(self, requested_schema: object = None) -> object:
        return _new_capsule(addressof(self.stream), _NAME, None)

    def _export(self, column: Column, kind: Any) -> None:
        array, schema = ArrowArray(), ArrowSchema()
        call("sel_export", column, type_parameter(column._logical), array, schema)
        wanted, other = (schema, array) if kind is ArrowSchema else (array, schema)
        _Release(other.release)(addressof(other))
        self.waiting.append(wanted)

    def _hand_out(self, name: str, address: int) -> None:
        """Moves the next structure to an address."""
        structure = self.waiting.pop(0)
        self.kept.append(counted(structure, self.released, name))
        memmove(address, addressof(structure), sizeof(structure))
        self.made[name] += 1

    def _get_schema(self, stream: int, address: int) -> int:
        if self.fails_at == "schema":
            return self.code
        self._hand_out("schema", address)
        if self.format is not None:
            ArrowSchema.from_address(address).format = self.format
        return 0

    def _get_next(self, stream: int, address: int) -> int:
        if self.fails_at == self.made["array"]:
            return self.code
        if self.waiting:
            self._hand_out("array", address)
        else:
            ArrowArray.from_address(address).release = None
        return 0

    def _last_error(self, stream: int) -> int | None:
        return None if self.text is None else addressof(self.text)

    def _release(self, stream: int) -> None:
        self.released["stream"] += 1
        ArrowArrayStream.from_address(stream).release = None
