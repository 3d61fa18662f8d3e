"""Whether two columns have the same rows, whatever their types."""

from __future__ import annotations

from ctypes import byref, c_bool

from ._arrow import Typed
from ._errors import WrongArgument
from ._library import call
from ._logical import ArrowType, common_type
from ._owner import Owner
from ._readers import rows_of
from ._values import comparable_value

__all__ = ["has_equal_rows"]


def _is_equal_in_storage(one: Owner, two: Owner) -> bool:
    answer = c_bool()
    call("sel_equal_rows", one, two, byref(answer))
    return answer.value


def _has_several_storages(type: ArrowType | None) -> bool:
    """Returns whether equal values may differ in the storage: floats, such as 0.0 and -0.0, and the keys of dictionaries, at any depth."""
    if type is None:
        return False
    return type.format in ("e", "f", "g") or type.is_dictionary or any(map(_has_several_storages, type.fields))


def has_equal_rows(one: Typed, two: Typed) -> bool:
    """Returns whether both columns have the same rows. Rows are compared one by one in Python where the storage does not say it."""
    if len(one[0]) != len(two[0]):
        return False
    if one[1] is None and two[1] is None:
        return _is_equal_in_storage(one[0], two[0])
    try:
        (first, second), logical = common_type((one[0], two[0]), (one[1], two[1]))
    except WrongArgument:
        return rows_of(*one, comparable_value) == rows_of(*two, comparable_value)
    if _is_equal_in_storage(first, second):
        return True
    return _has_several_storages(logical) and rows_of(*one, comparable_value) == rows_of(*two, comparable_value)
