"""The exceptions of the package, one class for each group of statuses of the library."""

from __future__ import annotations

from typing import Any

from ._statuses import EXCEPTIONS

__all__ = ["BrokenRule", "BrokenText", "LimitPassed", "OutOfBounds", "OutOfMemory", "SelError", "WrongArgument"]


class SelError(Exception):
    """An error of the library: `text` describes it, and `status` is its number in include/sel.h.

    Each class below is also a built-in exception, by which it can be caught. Exceptions can be pickled and copied, so an error of a
    worker process arrives as it was raised.
    """

    def __init__(self, status: int, text: str) -> None:
        super().__init__(text)
        self.status = status
        self.text = text

    def __reduce__(self) -> tuple[Any, ...]:
        """Returns what `pickle` and `copy` store. Without it, they would call the class with the message alone."""
        return _remade, (type(self), *self.args), dict(self.__dict__)


def _remade(kind: type[SelError], *arguments: Any) -> SelError:
    """Returns an exception with the arguments of another one, and without its attributes."""
    return Exception.__new__(kind, *arguments)


class OutOfMemory(SelError, MemoryError):
    """An allocation failed."""


class WrongArgument(SelError, TypeError):
    """A column has another kind, type or length than the call takes."""


class OutOfBounds(SelError, IndexError):
    """An index is out of bounds: there is no such row, column, field or list element.

    >>> try:
    ...     sel.Column([1, 2]).take([2])
    ... except IndexError as error:
    ...     print(repr(error), error.status)
    OutOfBounds('index out of bounds') 6
    """


class LimitPassed(SelError, OverflowError):
    """The result would exceed a size limit of columns: 4,294,967,295 rows, or 128 levels of lists and structs."""


class BrokenRule(SelError, ValueError):
    """The parts of a column break a rule of its layout, or an Arrow array has no column here."""


class BrokenText(SelError, ValueError):
    """A text is not a type or not rows, or it has a row that does not fit the type.

    `place` is the index of the first wrong character; it is the text's length if the text ends too soon.

    >>> try:
    ...     sel.Column.parse("i8", "[1, x]")
    ... except ValueError as error:
    ...     print(error, error.place)
    syntax error in the row text at character 4 4
    """

    def __init__(self, status: int, text: str, place: int, hint: str = "") -> None:
        super().__init__(status, f"{text} at character {place}{hint}")
        self.place = place


# The exception classes whose status and text say everything, by their names in _statuses.py; BrokenText also has a place.
_CLASSES: dict[str, type[SelError]] = {
    "OutOfMemory": OutOfMemory, "WrongArgument": WrongArgument, "OutOfBounds": OutOfBounds, "LimitPassed": LimitPassed, "BrokenRule": BrokenRule,
}


def error_of(status: int, text: str) -> SelError:
    """Returns the exception of a status that is not `SEL_OK`."""
    return _CLASSES.get(EXCEPTIONS.get(status, ""), BrokenRule)(status, text)
