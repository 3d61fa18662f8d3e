"""Columns of integers as columns of another integer type, converted without a loop over the rows in Python."""

from __future__ import annotations

from array import array
from ctypes import byref

from ._lending import values_of
from ._library import call
from ._makers import CODES, made_of
from ._memory import NO_VALIDITY, Memory, room, room_for_bits
from ._owner import Owner, derived
from ._readers import validity_bits
from ._types import NUMBERS, Type

__all__ = ["converted", "filled"]

# The byte that continues an integer with this highest byte: that of its sign.
_SIGNS = bytes(128) + b"\xff" * 128


def filled(column: Owner, one: Owner, valid: Memory) -> Owner:
    """Returns the rows with the row of another column in place of each null, by the bits of the validity."""
    mask = Owner()
    call("sel_boolean_new", valid, valid.size(), len(column), *NO_VALIDITY, byref(mask._handle))
    return derived(mask, "sel_if_then_else_broadcast_false", column, one)


def _resized(values: bytes, bits: int, wanted: int) -> bytearray | None:
    """Returns little-endian integers of so many bits as others, where numbers of bits are negative for signed types; none if one does not fit."""
    size, new_size, is_signed, stays_signed = abs(bits) // 8, abs(wanted) // 8, bits < 0, wanted < 0
    count, kept = len(values) // size, min(size, new_size)
    tops = values[kept - 1 :: size]
    # where the highest bit that is kept has another meaning, it has to be 0
    if is_signed != stays_signed and (new_size >= size if is_signed else new_size <= size) and not tops.isascii():
        return None
    rest = tops.translate(_SIGNS) if is_signed and stays_signed else bytes(count)
    if any(values[place::size] != rest for place in range(kept, size)):
        return None
    made = bytearray(new_size * count)
    for place in range(new_size):
        made[place::new_size] = values[place::size] if place < kept else rest
    return made


def _bytes_of(column: Owner, name: str) -> bytes:
    """Returns the values of a column of integers, little-endian."""
    if name in CODES:
        return values_of(column, CODES[name]).tobytes()
    words = room("Q", 2 * len(column))
    call(f"sel_{name}_values", column, words, len(column))
    return bytes(words.items)


def converted(column: Owner, kind: str) -> Owner | None:
    """Returns a column of integers of any type, or of type null, as one of a kind of integers of 8 to 64 bits; none if a row does not fit.

    Null rows stay null, whatever their slots have.
    """
    found, count, (name, bits) = column._kind(), len(column), NUMBERS[kind]
    if found == kind:
        return column
    valid, values = validity_bits(column), bytearray(abs(bits) // 8 * count)
    if found == "null":
        valid = room_for_bits(count)
    else:
        plain = column if valid is None else filled(column, made_of([0], Type(found)), valid)
        resized = _resized(_bytes_of(plain, NUMBERS[found][0]), NUMBERS[found][1], bits)
        if resized is None:
            return None
        values = resized
    validity = NO_VALIDITY if valid is None else (valid, valid.size(), True)
    items, made = array(CODES[name]), Owner()
    items.frombytes(values)
    call(f"sel_{name}_new", Memory(items, items.buffer_info()[0] if items else 0), count, *validity, byref(made._handle))
    return made
