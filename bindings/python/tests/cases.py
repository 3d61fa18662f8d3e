"""Helpers of the tests: tables of cases of any types, integers of other types, and modules that may be missing."""

from __future__ import annotations

import importlib
from typing import Any

__all__ = ["Index", "numpy", "table"]


def _optional(name: str) -> Any:
    try:
        return importlib.import_module(name)
    except ImportError:
        return None


numpy = _optional("numpy")


def table(*cases: Any) -> list[Any]:
    """Returns cases as a list; tests also pass values of types that the package does not take."""
    return list(cases)


class Index:
    """An integer that is known only by `__index__`, as one of numpy is."""

    def __init__(self, value: int) -> None:
        self.value = value

    def __index__(self) -> int:
        return self.value
