"""The rows of columns as Python values, by kind. The cost is in proportion to the rows, not to the buffers behind them.

A slice shares whole buffers with its column, and the calls that read a buffer copy all of it. So a buffer is read only if most
of it belongs to the rows; else the rows are copied to a column of their own, or printed. The values of null slots, which may be
of any size, are never read: a column whose values have no fixed size is read without its null rows.
"""

from __future__ import annotations

import json
from collections.abc import Callable, Sequence
from ctypes import byref, c_bool, c_size_t
from typing import Any

from ._library import call
from ._logical import ArrowType, dictionary_of
from ._makers import CODES, made_of
from ._memory import NO_VALIDITY, Memory, room, room_for_bits, unpacked, words
from ._owner import Owner, derived
from ._types import NUMBERS, Type
from ._values import Converters, python_value

__all__ = ["compacted", "is_mostly", "printed", "rows_of", "start_of_rows", "text_of", "validity_bits"]

# A buffer is read as a whole if it has at most so many times the bytes of the rows, or few bytes at all.
_SPARE_FACTOR = 2
_SPARE_BYTES = 256
_INLINE_BYTES = 12


def validity_bits(owner: Owner) -> Memory | None:
    """Returns the bits of the validity; none if every row is valid, and also for the kind null."""
    bits, has = room_for_bits(len(owner)), c_bool()
    call("sel_validity", owner, bits, bits.size(), byref(has))
    return bits if has.value else None


def rows_of(owner: Owner, logical: ArrowType | None = None, converters: Converters = python_value) -> list[Any]:
    """Returns the rows as Python values of the logical type, `None` for null. The converters are those of types without children."""
    if logical is not None and logical.is_dictionary:
        return _read_keys(owner, logical, converters)
    kind = owner._kind()
    if kind == "null":
        return [None] * len(owner)
    bits = validity_bits(owner)
    if bits is None:
        return _values_of(owner, kind, logical, converters)
    valid = unpacked(bits, len(owner))
    if kind not in _VARIABLE:
        return [value if is_valid else None for value, is_valid in zip(_values_of(owner, kind, logical, converters), valid)]
    values = iter(_values_of(derived(owner, "sel_filter_bits", bits, bits.size(), len(valid)), kind, logical, converters))
    return [next(values) if is_valid else None for is_valid in valid]


def _read_keys(owner: Owner, logical: ArrowType, converters: Converters) -> list[Any]:
    """Returns for each key the value of the dictionary that it names."""
    dictionary, value_type = dictionary_of(logical)
    keys = rows_of(owner)
    if len(keys) < len(dictionary):  # only these values are read
        return rows_of(derived(dictionary, "sel_take", made_of(keys, Type("u32"))), value_type, converters)
    values = rows_of(dictionary, value_type, converters)
    return [None if key is None else values[key] for key in keys]


def _values_of(owner: Owner, kind: str, logical: ArrowType | None, converters: Converters) -> list[Any]:
    """Returns the values of all rows, those of null slots too."""
    if kind in _NESTED and (logical is None or logical.format.startswith("+")):
        return _NESTED[kind](owner, logical, converters)
    reader = _READERS.get(kind)
    values = _NESTED[kind](owner, None, python_value) if kind in _NESTED else _read_numbers(owner, kind) if reader is None else reader(owner)
    convert = converters(logical, kind)
    return values if convert is None else list(map(convert, values))


def printed(owner: Owner, bytes_expected: int = 0) -> str:
    """Returns the rows as text. One call is enough if the text has at most the bytes that are expected."""
    count, text = c_size_t(), room("B", bytes_expected)
    call("sel_print", owner, text, text.size(), byref(count))
    if count.value > text.size():
        text = room("B", count.value)
        call("sel_print", owner, text, text.size(), byref(count))
    return bytes(text.items[: count.value]).decode()


def start_of_rows(owner: Owner, logical: ArrowType | None, most: int) -> str:
    """Returns the rows as text, of which more than so many characters are cut off, and replaced by three points."""
    if logical is None:
        # room for the characters of UTF-8; the text is counted beyond it, and not written
        count, room_of_text = c_size_t(), room("B", 4 * most)
        call("sel_print", owner, room_of_text, room_of_text.size(), byref(count))
        text, is_cut = bytes(room_of_text.items[: count.value]).decode(errors="ignore"), count.value > room_of_text.size()
    else:
        text, is_cut = text_of(rows_of(owner, logical)), False
    return text[:most] + "..." if is_cut or len(text) > most else text


def text_of(value: Any) -> str:
    """Returns Python values as text: strings as in JSON, bytes as in `h"00ff"`, dicts as in JSON."""
    if value is None or isinstance(value, (bool, str)):
        return json.dumps(value, ensure_ascii=False)
    if isinstance(value, bytes):
        return f'h"{value.hex()}"'
    if isinstance(value, (list, tuple)):
        inner = ",".join(map(text_of, value))
        return f"[{inner}]" if isinstance(value, list) else f"({inner})"
    if isinstance(value, dict):
        return "{" + ",".join(f"{text_of(name)}:{text_of(item)}" for name, item in value.items()) + "}"
    return str(value)


def _read_numbers(owner: Owner, kind: str) -> list[Any]:
    (name, bits), count = NUMBERS[kind], len(owner)
    if abs(bits) != 128:
        items = room(CODES[name], count)
        call(f"sel_{name}_values", owner, items, count)
        values: list[int] = items.items.tolist()
        return values
    items = room("Q", 2 * count)
    call(f"sel_{name}_values", owner, items, count)
    numbers = [high << 64 | low for low, high in zip(items.items[0::2], items.items[1::2])]
    return [number - (1 << 128) if bits < 0 and number >> 127 else number for number in numbers]


def _read_booleans(owner: Owner) -> list[Any]:
    bits = room_for_bits(len(owner))
    call("sel_boolean_values", owner, bits, bits.size())
    return unpacked(bits, len(owner))


def _offsets(owner: Owner) -> list[int]:
    count = len(owner) + 1
    offsets = room("q", count)
    call("sel_offsets", owner, offsets, count)
    values: list[int] = offsets.items.tolist()
    return values


def is_mostly(part: int, whole: int) -> bool:
    """Returns whether the bytes of the rows are most of a buffer, or the buffer is small."""
    return whole <= _SPARE_FACTOR * part + _SPARE_BYTES


def compacted(owner: Owner) -> Owner:
    """Returns the same rows in buffers of their own."""
    count = len(owner)
    return derived(owner, "sel_take_rows", words("I", range(count)), count, *NO_VALIDITY)


def _read_bytes(owner: Owner) -> list[Any]:
    offsets = _offsets(owner)
    if not is_mostly(offsets[-1] - offsets[0], owner._size("sel_bytes_len")):
        owner = compacted(owner)
        offsets = _offsets(owner)
    joined = room("B", owner._size("sel_bytes_len"))
    call("sel_bytes", owner, joined, joined.size())
    whole = bytes(joined.items)
    return [whole[start:end] for start, end in zip(offsets, offsets[1:])]


def _read_views(owner: Owner) -> list[Any]:
    """Returns the values that views refer to: from the data buffers if the rows are most of them, else from printed rows."""
    count, is_text = len(owner), owner._kind() == "utf8"
    views = room("I", 4 * count)
    call("sel_views", owner, views, count)
    lengths, numbers = views.items[0::4], views.items[2::4]
    used = {number for length, number in zip(lengths, numbers) if length > _INLINE_BYTES}
    sizes = {number: owner._size("sel_buffer_len", number) for number in used}
    if not is_mostly(sum(length for length in lengths if length > _INLINE_BYTES), sum(sizes.values())):
        return _printed_texts(owner, sum(lengths)) if is_text else _printed_bytes(owner, sum(lengths))
    pieces = _pieces(views, {number: _buffer(owner, number, size) for number, size in sizes.items()})
    return [piece.decode() for piece in pieces] if is_text else pieces


def _buffer(owner: Owner, number: int, size: int) -> bytes:
    """Returns a data buffer of a column of views."""
    buffer = room("B", size)
    call("sel_buffer", owner, number, buffer, size)
    return bytes(buffer.items)


def _pieces(views: Memory, buffers: dict[int, bytes]) -> list[bytes]:
    """Returns the bytes of each view: those in the view itself, or a part of a data buffer."""
    inline, pieces = bytes(views.items), []
    for position, (length, number, offset) in enumerate(zip(views.items[0::4], views.items[2::4], views.items[3::4])):
        whole, start = (inline, 16 * position + 4) if length <= _INLINE_BYTES else (buffers[number], offset)
        pieces.append(whole[start : start + length])
    return pieces


def _printed_texts(owner: Owner, size: int) -> list[Any]:
    """Returns strings by printing them: strings without null rows are printed as a JSON array of strings."""
    texts: list[Any] = json.loads(printed(owner, size + 3 * len(owner) + 2))
    return texts


def _printed_bytes(owner: Owner, size: int) -> list[Any]:
    """Returns bytes by printing them, as in `[h"00ff",h""]`."""
    text = printed(owner, 2 * size + 4 * len(owner) + 2)
    return [bytes.fromhex(piece[2:-1]) for piece in text[1:-1].split(",")]


def _read_lists(owner: Owner, logical: ArrowType | None, converters: Converters) -> list[Any]:
    offsets = _offsets(owner)
    first = offsets[0]
    part = derived(derived(owner, "sel_child"), "sel_slice", first, offsets[-1] - first)
    if logical is not None and logical.format == "+m":
        items: list[Any] = _tuples(part, logical.fields[0].fields, converters)
    else:
        items = rows_of(part, None if logical is None else logical.fields[0], converters)
    return [items[start - first : end - first] for start, end in zip(offsets, offsets[1:])]


def _read_fixed_lists(owner: Owner, logical: ArrowType | None, converters: Converters) -> list[Any]:
    width = owner._size("sel_fixed_size_list_size")
    items = rows_of(derived(owner, "sel_child"), None if logical is None else logical.fields[0], converters)
    return [items[position * width : (position + 1) * width] for position in range(len(owner))]


def _tuples(owner: Owner, fields: Sequence[ArrowType | None], converters: Converters) -> list[Any]:
    if not fields:
        return [()] * len(owner)
    return list(zip(*[rows_of(derived(owner, "sel_field", number), field, converters) for number, field in enumerate(fields)]))


def _read_structs(owner: Owner, logical: ArrowType | None, converters: Converters) -> list[Any]:
    """Returns structs as dicts if the names of their fields are known and distinct, else as tuples."""
    if logical is None:
        return _tuples(owner, [None] * owner._size("sel_field_count"), converters)
    names = [field.name for field in logical.fields]
    rows = _tuples(owner, logical.fields, converters)
    return [dict(zip(names, row)) for row in rows] if all(names) and len(set(names)) == len(names) else rows


_READERS = {"bool": _read_booleans, "binary": _read_bytes, "binview": _read_views, "utf8": _read_views}
_NESTED: dict[str, Callable[[Owner, ArrowType | None, Converters], list[Any]]] = {
    "list": _read_lists, "fixed": _read_fixed_lists, "struct": _read_structs}
_VARIABLE = ("binary", "binview", "utf8", "list", "fixed", "struct")
