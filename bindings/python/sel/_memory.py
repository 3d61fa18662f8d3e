"""Memory that calls read and write: arrays of words, packed bits, and their addresses."""

from __future__ import annotations

from array import array
from collections.abc import Iterable, Sequence
from ctypes import addressof, c_size_t, c_uint64, c_void_p, sizeof
from typing import Any

__all__ = ["NO_VALIDITY", "SIZE_CODE", "Memory", "packed", "room", "room_for_bits", "unpacked", "validity_of", "words"]

# What an empty slice points to: a pointer is never null, and is aligned for every type.
_NOTHING = (c_uint64 * 2)()

# The type code of the module `array` for size_t.
SIZE_CODE = next(code for code in "QIL" if array(code).itemsize == sizeof(c_size_t))


class Memory:
    """An argument of a call that passes the address of some items, and keeps them alive as long as the call has it."""

    __slots__ = ("_as_parameter_", "items")

    def __init__(self, items: Any, address: int) -> None:
        self.items = items
        self._as_parameter_ = c_void_p(address or addressof(_NOTHING))

    def size(self) -> int:
        """Returns the number of bytes."""
        return len(self.items) * int(self.items.itemsize)


def words(code: str, values: Iterable[int]) -> Memory:
    """Returns an array of integers of a type code of the module `array`, which raises OverflowError where one does not fit."""
    return _memory_of(array(code, values))


def room(code: str, count: int) -> Memory:
    """Returns `count` zeros of a type code, for a call to write over."""
    return _memory_of(array(code, [0]) * count)


def _memory_of(items: array[int]) -> Memory:
    return Memory(items, items.buffer_info()[0] if items else 0)


def room_for_bits(count: int) -> Memory:
    """Returns the bytes of `count` bits, for a call to write over."""
    return room("B", (count + 7) // 8)


def packed(flags: Sequence[Any]) -> Memory:
    """Returns booleans as bits, the lowest bit of a byte first; `None` as 0."""
    items = array("B", bytes((len(flags) + 7) // 8))
    for position, flag in enumerate(flags):
        if flag:
            items[position >> 3] |= 1 << (position & 7)
    return _memory_of(items)


_FLAGS_OF_BYTE = [[bool(byte >> bit & 1) for bit in range(8)] for byte in range(256)]


def unpacked(bits: Memory, count: int) -> list[bool]:
    """Returns the first `count` bits as booleans."""
    return [flag for byte in bits.items for flag in _FLAGS_OF_BYTE[byte]][:count]


def validity_of(valid: Sequence[bool]) -> tuple[Memory, int, bool]:
    """Returns the three arguments of a validity: its bits, their number of bytes, and whether some row is null at all."""
    if all(valid):
        return NO_VALIDITY
    bits = packed(valid)
    return bits, bits.size(), True


NO_VALIDITY = (room("B", 0), 0, False)
