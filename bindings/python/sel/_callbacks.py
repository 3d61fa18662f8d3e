"""Functions of Python that C calls, and the numbers by which they find what they need.

C may call such a function after the names of its module are gone, when Python ends: what is alive then is freed late, or never. So the function
itself is never freed, and what it uses are defaults of its parameters, not names of its module.

ctypes calls the function with the exception that is in flight, if there is one, still set. Only an extension in C could put it aside: a
capsule, or an array or stream that C releases while an exception passes, may lose that exception, print it as one that was ignored, or keep
the memory. No column has wrong rows by it.
"""

from __future__ import annotations

import ctypes
import os
import threading
from ctypes import c_void_p, py_object
from itertools import count
from typing import Any

__all__ = ["NO_RELEASE", "Numbers", "Release", "callback", "lock_of_process"]


def callback(kind: Any, function: Any) -> Any:
    """Returns a function of Python as one of C, which is never freed."""
    made = kind(function)
    ctypes.pythonapi.Py_IncRef(py_object(made))
    return made


# The release of an array, a schema or a stream.
Release = ctypes.CFUNCTYPE(None, c_void_p)
NO_RELEASE = callback(Release, lambda address: None)


class _Locks:
    """The lock of this process. A finalizer may ask for it while its thread has it."""

    now = threading.RLock()


def lock_of_process() -> Any:
    """Returns the lock of this process. The child of a fork has another one than its parent: the thread that has the lock may not be in the child."""
    return _Locks.now


def _renew() -> None:
    _Locks.now = threading.RLock()


os.register_at_fork(after_in_child=_renew)


class Numbers:
    """The integers from 1 on, of which each is given once, to whichever thread asks for it."""

    def __init__(self) -> None:
        self._left = count(1)

    def next(self) -> int:
        """Returns the next integer."""
        with lock_of_process():
            return next(self._left)
