"""Columns exported and imported by the Arrow PyCapsule interface: arrays, and streams of arrays."""

from __future__ import annotations

import ctypes
import errno
import os
import sys
import threading
from ctypes import CFUNCTYPE, POINTER, byref, c_char_p, c_int, c_void_p, py_object
from typing import Any, Iterator, Optional, Tuple

from ._callbacks import NO_RELEASE, Release, callback, lock_of_process
from ._checks import shown
from ._errors import BrokenRule, LimitPassed, WrongArgument, error_of
from ._library import ArrowArray, ArrowArrayStream, ArrowSchema, attempt, call, lib, status_of
from ._logical import ArrowType, TypeOwner, as_logical_of, common_type, logical_type, type_parameter
from ._owner import Owner, concatenated
from ._statuses import ARROW_FORMAT, ARROW_RELEASED, OK

__all__ = ["PASSED", "Typed", "batches", "export", "export_type", "imported", "imported_if_arrow", "new_stream"]

_api = ctypes.pythonapi
_api.PyCapsule_New.restype, _api.PyCapsule_New.argtypes = py_object, [c_void_p, c_char_p, c_void_p]
_api.PyCapsule_GetPointer.restype, _api.PyCapsule_GetPointer.argtypes = c_void_p, [py_object, c_char_p]
_address_in = ctypes.PYFUNCTYPE(c_void_p, c_void_p, c_char_p)(("PyCapsule_GetPointer", _api))
_take_memory = _api.PyMem_RawMalloc
_take_memory.restype, _take_memory.argtypes = c_void_p, [ctypes.c_size_t]
_give_back = _api.PyMem_RawFree
_give_back.restype, _give_back.argtypes = None, [c_void_p]

# A capsule keeps a pointer to its name.
_SCHEMA, _ARRAY, _STREAM = c_char_p(b"arrow_schema"), c_char_p(b"arrow_array"), c_char_p(b"arrow_array_stream")
_GetNext = CFUNCTYPE(c_int, c_void_p, c_void_p)
_GetLastError = CFUNCTYPE(c_char_p, c_void_p)


def _moved(there: Any) -> Any:
    """Moves a structure out of a capsule: its release is up to the caller, and no other thread can take it as well."""
    with lock_of_process():
        moved = type(there).from_buffer_copy(there)
        there.release = None
    return moved


# The defaults of the functions that capsules call are what they use: a capsule may be freed after the names of this module are gone.
def _release(there: Any, function: Any = Release, address_of: Any = ctypes.addressof) -> None:
    """Releases a structure, unless it is empty, was moved, or was released before."""
    if there.release:
        function(there.release)(address_of(there))


def _destructor(kind: Any, name: c_char_p) -> Any:
    """Returns the function that frees a capsule. See `_callbacks` for what an exception in flight does to it."""

    def destroy(capsule: int, address_in: Any = _address_in, release: Any = _release, give_back: Any = _give_back) -> None:
        address = address_in(capsule, name)
        release(kind.from_address(address))
        give_back(address)

    return callback(ctypes.PYFUNCTYPE(None, c_void_p), destroy)


_DESTROY_SCHEMA, _DESTROY_ARRAY = _destructor(ArrowSchema, _SCHEMA), _destructor(ArrowArray, _ARRAY)
_DESTROY_STREAM = _destructor(ArrowArrayStream, _STREAM)


def _room(kind: Any) -> int:
    address = _take_memory(ctypes.sizeof(kind))
    if not address:
        raise MemoryError("out of memory")
    ctypes.memset(address, 0, ctypes.sizeof(kind))
    return int(address)


def _new_capsule(kind: Any, name: c_char_p, destroy: Any) -> tuple[Any, object]:
    """Returns an empty structure, and the capsule that releases and frees it."""
    address = _room(kind)
    return kind.from_address(address), _api.PyCapsule_New(address, name, ctypes.cast(destroy, c_void_p))


def new_stream() -> tuple[Any, object]:
    """Returns an empty stream, and its capsule."""
    return _new_capsule(ArrowArrayStream, _STREAM, _DESTROY_STREAM)


def _requested(column: Owner, logical: ArrowType | None, schema: object) -> TypeOwner:
    """Returns the type to export with: the requested one if it has the same meaning and another layout, else the column's."""
    own = type_parameter(logical)
    if schema is None:
        return own
    there, wanted = ArrowSchema.from_address(_api.PyCapsule_GetPointer(schema, _SCHEMA)), TypeOwner()
    try:
        call("sel_type_import", byref(there), byref(wanted._handle))
        common_type((column, column), (ArrowType(wanted), as_logical_of(column, logical)))
        return wanted
    except (WrongArgument, BrokenRule, LimitPassed):
        return own


def export(column: Owner, logical: ArrowType | None, requested: object = None) -> tuple[object, object]:
    """Returns two capsules, of the type and of the rows, which share the buffers of the column."""
    wanted = _requested(column, logical, requested)
    schema, first = _new_capsule(ArrowSchema, _SCHEMA, _DESTROY_SCHEMA)
    array, second = _new_capsule(ArrowArray, _ARRAY, _DESTROY_ARRAY)
    try:
        call("sel_export", column, wanted, array, schema)
    except BrokenRule:  # such as a null, where the requested type has none
        if requested is None:
            raise
        call("sel_export", column, type_parameter(logical), array, schema)
    return first, second


def export_type(column: Owner, logical: ArrowType | None) -> object:
    """Returns a capsule of the type."""
    schema, capsule = _new_capsule(ArrowSchema, _SCHEMA, _DESTROY_SCHEMA)
    call("sel_type_export", as_logical_of(column, logical)._owner, schema)
    return capsule


def imported(source: Any) -> tuple[Owner, ArrowType | None]:
    """Returns the column of the array of a source, or else of the arrays of its stream, and the logical type."""
    if hasattr(source, "__arrow_c_array__"):
        return _import_array(*source.__arrow_c_array__())
    if hasattr(source, "__arrow_c_stream__"):
        return _import_stream(source.__arrow_c_stream__())
    raise TypeError(f"source: {shown(source)} is of type {type(source).__name__}, which has neither __arrow_c_array__ nor __arrow_c_stream__")


Typed = Tuple[Owner, Optional[ArrowType]]


def imported_if_arrow(values: Any) -> Typed | None:
    """Returns the column of values of another library that offer Arrow data, and its type; none if they do not, or are an array of numpy.

    Other protocols of such values may lose nulls: numpy's makes NaN of them. Where an object needs a module for the Arrow data that is not
    installed, and numpy can make an array of it, as of a Series of pandas, it is taken as if it offered none.
    """
    numpy = sys.modules.get("numpy")
    is_own = isinstance(values, Owner) or (numpy is not None and isinstance(values, numpy.ndarray))
    if is_own or not (hasattr(values, "__arrow_c_array__") or hasattr(values, "__arrow_c_stream__")):
        return None
    try:
        return imported(values)
    except ImportError:
        if not hasattr(values, "__array__"):
            raise
        return None


def _imported(array: ArrowArray, schema: ArrowSchema) -> Typed:
    """Returns the column of an array, which reads its buffers, and its logical type. Releases the array on an error."""
    made, found = Owner(), TypeOwner()
    try:
        _check_import(attempt("sel_import", byref(array), byref(schema), byref(made._handle), byref(found._handle)), schema)
    finally:
        _release(array)
    return made, logical_type(made, found)


def _check_import(status: int, schema: ArrowSchema) -> None:
    """Raises the exception of a status of the import of a schema, or of an array that has it; none for `SEL_OK`."""
    if status == ARROW_FORMAT:
        format = (lib.sel_unsupported_format(byref(schema)) or b"").decode(errors="replace")
        raise error_of(status, f"{status_of(status)} {format!r}")
    if status != OK:
        raise error_of(status, status_of(status))


def _check_schema(schema: ArrowSchema) -> None:
    """Raises the exception of a schema that no column has. Others have as many children as their formats, and do not contain themselves."""
    found = TypeOwner()
    _check_import(attempt("sel_type_import", byref(schema), byref(found._handle)), schema)


def _import_array(schema: object, array: object) -> Typed:
    """Returns the column of the array in a capsule."""
    there = ArrowSchema.from_address(_api.PyCapsule_GetPointer(schema, _SCHEMA))
    return _imported(_moved(ArrowArray.from_address(_api.PyCapsule_GetPointer(array, _ARRAY))), there)


def batches(capsule: object) -> Iterator[Typed]:
    """Returns an iterator over the columns of the arrays of the stream in a capsule; without an array, over one without rows.

    The stream is released at the end, after an error, and when the iterator is closed.
    """
    stream, schema = _moved(ArrowArrayStream.from_address(_api.PyCapsule_GetPointer(capsule, _STREAM))), ArrowSchema()
    del capsule  # else it might be freed while the StopIteration of this generator passes
    if not stream.release:
        raise error_of(ARROW_RELEASED, status_of(ARROW_RELEASED))
    try:
        _get(stream, stream.get_schema, schema)
        count = 0
        for batch in _chunks(stream, schema):
            count += 1
            yield batch
        if count == 0:
            _check_schema(schema)
            yield _imported(_empty_array(schema), schema)
    finally:
        _release(schema)
        _release(stream)


def _import_stream(capsule: object) -> Typed:
    """Returns the arrays of the stream in a capsule as one column, one after the other."""
    chunks = list(batches(capsule))
    owners, logical = common_type([owner for owner, _ in chunks], [logical for _, logical in chunks])
    return concatenated(owners), logical


class _Passed(threading.local):
    """The exceptions of streams of this package, of which C passes only a status: a list while this thread waits for one."""

    errors: list[BaseException] | None = None


PASSED = _Passed()


def _attempt_get(stream: ArrowArrayStream, function: int, out: ArrowArray | ArrowSchema) -> tuple[int, BaseException | None]:
    """Calls a function of a stream. Returns its code, and the last exception of a stream of this package that was behind it."""
    before, PASSED.errors = PASSED.errors, []
    try:
        code = _GetNext(function)(byref(stream), byref(out))
        return code, PASSED.errors[-1] if PASSED.errors else None
    finally:
        PASSED.errors = before


def _get(stream: ArrowArrayStream, function: int, out: ArrowArray | ArrowSchema) -> None:
    """Gets the schema or the next array of a stream by one of its functions, and raises the exception of the error that it returns."""
    code, cause = _attempt_get(stream, function, out)
    if code == 0:
        return
    if cause is not None and not isinstance(cause, Exception):
        raise cause
    text = _GetLastError(stream.get_last_error)(byref(stream))
    message = text.decode(errors="replace") if text else os.strerror(code)
    kinds: dict[int, type[Exception]] = {errno.ENOMEM: MemoryError, errno.EINVAL: ValueError, errno.ENOSYS: NotImplementedError}
    raise (kinds[code](message) if code in kinds else OSError(code, message)) from cause


def _chunks(stream: ArrowArrayStream, schema: ArrowSchema) -> Iterator[Typed]:
    """Returns an iterator over the columns of the arrays of a stream, up to the released array at its end."""
    while True:
        array = ArrowArray()
        _get(stream, stream.get_next, array)
        if not array.release:
            return
        yield _imported(array, schema)


def _empty_array(schema: ArrowSchema) -> ArrowArray:
    """Returns an array without rows, of a schema that `_check_schema` accepts. It has as many buffers as the format's layout."""
    name = schema.format
    buffers = 0 if name == b"+r" else 1 if name[:2] in (b"+s", b"+w") else 3 if name[:1] in (b"z", b"Z", b"u", b"U", b"v") or name[:2] == b"+v" else 2
    array = ArrowArray(n_buffers=buffers, buffers=(c_void_p * buffers)(), n_children=schema.n_children, release=ctypes.cast(NO_RELEASE, c_void_p))
    if schema.n_children > 0:
        children = [_empty_array(schema.children[number].contents) for number in range(schema.n_children)]
        array.children = (POINTER(ArrowArray) * len(children))(*[ctypes.pointer(child) for child in children])
    if schema.dictionary:
        array.dictionary = ctypes.pointer(_empty_array(schema.dictionary.contents))
    return array
