"""Streams of record batches out: what an iterator gives, exported batch by batch."""

from __future__ import annotations

from collections.abc import Iterator
from ctypes import CFUNCTYPE, POINTER, byref, c_uint32, c_void_p
from typing import Any, Dict

from ._arrow import PASSED, Typed, new_stream
from ._callbacks import Numbers, callback
from ._errors import SelError, error_of
from ._library import Handle, TypeHandle, call, lib, status_of
from ._logical import ArrowType, as_logical_of
from ._statuses import ARROW_STREAM, OK, OUT_OF_MEMORY

__all__ = ["stream_of"]

_Next = CFUNCTYPE(c_uint32, c_void_p, POINTER(Handle), POINTER(TypeHandle))
_Free = CFUNCTYPE(None, c_void_p)

# The iterators of the streams that are not released, by the number that the library passes back.
_OPEN: Dict[int, Iterator[Typed]] = {}
_NUMBERS = Numbers()


def _share_next(batches: Iterator[Typed], out: Any, type: Any) -> int:
    """Writes the next batch and its type, if there is one."""
    for column, logical in batches:
        call("sel_share", column, out)
        call("sel_type_share", as_logical_of(column, logical)._owner, type)
        break
    return OK


class _Failed:
    """What is left of an iterator after an exception: the exception again, and never the end."""

    __slots__ = ("_error",)

    def __init__(self, error: BaseException) -> None:
        self._error = error

    def __iter__(self) -> Iterator[Typed]:
        return self

    def __next__(self) -> Typed:
        raise self._error


# No exception can pass through the consumer, not even KeyboardInterrupt: where one leaves the function, ctypes returns any number, and 0
# would be the end of the stream. A consumer of this package gets the exception itself. The defaults are what the function uses: a stream may
# be read after the names of this module are gone.
def _next_batch(number: int, out: Any, type: Any, open: Dict[int, Iterator[Typed]] = _OPEN, share: Any = _share_next, passed: Any = PASSED,
                failed: Any = _Failed, statuses: Any = (SelError, MemoryError, OUT_OF_MEMORY, ARROW_STREAM)) -> int:
    try:
        return int(share(open[number], out, type))
    except BaseException as error:
        open[number] = failed(error)
        if passed.errors is not None:
            passed.errors.append(error)
        if isinstance(error, statuses[0]):
            return int(error.status)
        return int(statuses[2] if isinstance(error, statuses[1]) else statuses[3])


def _free_batches(number: int, open: Dict[int, Iterator[Typed]] = _OPEN) -> None:
    open.pop(number, None)


_NEXT, _FREE = callback(_Next, _next_batch), callback(_Free, _free_batches)


def stream_of(batches: Iterator[Typed], type: ArrowType) -> object:
    """Returns a capsule with a stream of columns of a type, which are taken from the iterator as the consumer asks for them.

    See `_callbacks` for what happens to an exception that passes while a consumer in C releases the stream.
    """
    number = _NUMBERS.next()
    stream, capsule = new_stream()
    _OPEN[number] = batches
    status = int(lib.sel_stream_export(byref(type._owner._handle), _NEXT, number, _FREE, byref(stream)))
    if status != OK:
        _free_batches(number)
        raise error_of(status, status_of(status))
    return capsule


lib.sel_stream_export.argtypes = [POINTER(TypeHandle), _Next, c_void_p, _Free, c_void_p]
lib.sel_stream_export.restype = c_uint32
