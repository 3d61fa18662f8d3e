"""The owner of a handle: it frees its column once nothing refers to it any more."""

from __future__ import annotations

from collections.abc import Callable, Sequence
from ctypes import byref, c_size_t
from typing import TYPE_CHECKING, Any

from ._library import Handle, call, lib
from ._memory import SIZE_CODE, words
from ._types import KINDS

if TYPE_CHECKING:
    from typing_extensions import Self

__all__ = ["HandleOwner", "Owner", "concatenated", "derived", "from_several"]


class HandleOwner:
    """Owns a handle of the library, which each subclass makes and frees."""

    __slots__ = ("_handle",)

    _handle: Any

    @property
    def _as_parameter_(self) -> Any:
        """The handle as an argument of a call."""
        return byref(self._handle)


class Owner(HandleOwner):
    """Owns a handle of the library, and the column that it holds. Several threads may use one owner at the same time.

    Most calls run without the interpreter's lock. They get the owner itself as their argument, so that it lives until the call
    has returned, and only read its handle. A handle is written before any other thread can have its owner: by the call that
    makes the column, and when it is moved into another new owner.
    """

    __slots__ = ()

    _handle: Handle

    def __new__(cls) -> Self:
        """Makes an owner without a column."""
        made = super().__new__(cls)
        made._handle = Handle()
        return made

    def __del__(self) -> None:
        if self._handle.at:
            lib.sel_free(byref(self._handle))

    def __len__(self) -> int:
        """Returns the number of rows."""
        return int(lib.sel_len(self))

    def _kind(self) -> str:
        """Returns the kind of the column as its type names it."""
        return KINDS[lib.sel_type_of(self)]

    def _size(self, name: str, *arguments: Any) -> int:
        """Returns the number that a call reports of the column."""
        size = c_size_t()
        call(name, self, *arguments, byref(size))
        return size.value


def derived(owner: Owner, name: str, *arguments: Any) -> Owner:
    """Returns what a call makes of a column and further arguments, among them owners."""
    made = Owner()
    call(name, owner, *arguments, byref(made._handle))
    return made


def from_several(columns: Sequence[Owner], make: Callable[[Any, Owner], None]) -> Owner:
    """Returns what `make` makes of an array of handles, which share the columns. It may take them or leave them."""
    handles, made = (Handle * max(1, len(columns)))(), Owner()
    try:
        for handle, column in zip(handles, columns):
            call("sel_share", column, byref(handle))
        make(handles, made)
    finally:
        for handle in handles:
            lib.sel_free(byref(handle))
    return made


def concatenated(columns: Sequence[Owner]) -> Owner:
    """Returns the rows of columns of one type, one column after the other. There is at least one column."""
    # flatten takes no items of a column without rows
    parts = [column for column in columns if len(column) > 0]
    if len(parts) < 2:
        return derived((parts or columns)[0], "sel_share")
    sizes = words(SIZE_CODE, map(len, parts))
    return from_several(parts, lambda handles, made: call(
        "sel_flatten", handles, len(parts), sizes, len(parts), 1, byref(made._handle)))
