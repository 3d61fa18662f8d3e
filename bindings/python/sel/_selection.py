"""Masks that are prepared once, to filter any number of columns."""

from __future__ import annotations

from collections.abc import Iterable
from ctypes import byref, c_size_t
from typing import TYPE_CHECKING, Any, NoReturn

from ._arguments import mask_of
from ._library import SelectionHandle, call, lib
from ._owner import HandleOwner, Owner

if TYPE_CHECKING:
    from typing import Union

    import numpy
    from typing_extensions import Self

    Boolean = Union[bool, numpy.bool_]
    Array = numpy.ndarray[Any, Any]

__all__ = ["Selection"]


class Selection(HandleOwner):
    """The rows that a mask selects, prepared once: `Column.filter` and `Table.filter` take it in place of the mask.

    The mask is a column of booleans, a numpy array of them or an iterable of Python values; a null counts as false. A selection
    never changes, and several threads may use it at the same time.

    >>> kept = sel.Selection([True, None, False, True])
    >>> kept
    Selection(2 of 4 rows)
    >>> sel.Column(["a", "b", "c", "d"]).filter(kept), sel.Column([1, 2, 3, 4]).filter(kept)
    (Column(utf8, ["a","d"]), Column(i64, [1,4]))
    """

    __slots__ = ()

    _handle: SelectionHandle

    # Not __init__: that can be called again, and would free a mask which another thread may be reading.
    def __new__(cls, mask: Owner | Iterable[Boolean | None] | Array) -> Self:
        """Prepares the mask. Raises TypeError for integers as a mask."""
        made = super().__new__(cls)
        made._handle = SelectionHandle()
        call("sel_selection_new", mask_of(mask, "mask"), byref(made._handle))
        return made

    def __del__(self) -> None:
        if self._handle.at:
            lib.sel_selection_free(byref(self._handle))

    def _number(self, name: str) -> int:
        """Returns the number that a call reports of the selection."""
        number = c_size_t()
        call(name, self, byref(number))
        return number.value

    def __len__(self) -> int:
        """Returns the number of rows of the mask, and of the columns that it can filter."""
        return self._number("sel_selection_len")

    @property
    def count(self) -> int:
        """The number of rows that are selected.

        >>> sel.Selection([True, None, True]).count
        2
        """
        return self._number("sel_selection_count")

    def __repr__(self) -> str:
        """Returns how many of how many rows are selected."""
        return f"Selection({self.count} of {len(self)} rows)"

    def __copy__(self) -> Self:
        """Returns this selection, which never changes."""
        return self

    def __deepcopy__(self, memo: dict[int, Any]) -> Self:
        """Returns this selection, which never changes."""
        return self

    def __reduce__(self) -> NoReturn:
        """Raises TypeError: a selection is not pickled, but its mask is."""
        raise TypeError("a selection cannot be pickled; pickle the mask that it was made of")
