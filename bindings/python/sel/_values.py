"""Python values of logical types: from the values of the storage, and to them.

A float is the bits of an integer in the storage, a date a number of days, a timestamp a count of its unit. What Python cannot represent,
such as nanoseconds in a datetime or a year beyond 9999, stays the integer of the storage.
"""

from __future__ import annotations

import datetime
import math
import re
import struct
from collections.abc import Callable, Sequence
from decimal import Decimal
from typing import Any, Optional

from ._checks import Limits, integer, integer_within, is_integer, real, shown
from ._logical import ArrowType

__all__ = ["Converters", "comparable_value", "counted_value", "has_values", "python_value", "storage_values"]

_FLOATS = {"e": ("<e", "<H"), "f": ("<f", "<I"), "g": ("<d", "<Q")}
_MICROSECONDS = {"s": 1_000_000, "m": 1_000, "u": 1}
_NANOSECONDS = {"s": 1_000_000_000, "m": 1_000_000, "u": 1_000, "n": 1}
_MILLISECONDS_OF_DAY = 86_400_000
_DAY = datetime.date(1970, 1, 1)
_EPOCH = datetime.datetime(1970, 1, 1)

Converter = Callable[[Any], Any]

# Returns the function from values of the storage, none of which is null, to others, for a logical type, if there is one, and the kind of the
# storage; none if they stay.
Converters = Callable[[Optional[ArrowType], str], Optional[Converter]]

_OFFSET = re.compile(r"[+-][0-9]{2}:[0-9]{2}")


def _zone(name: str) -> datetime.tzinfo | None:
    """Returns the time zone of a timestamp; UTC if this machine does not know it."""
    if not name:
        return None
    try:
        if _OFFSET.fullmatch(name):
            minutes = int(name[1:3]) * 60 + int(name[4:6])
            return datetime.timezone(datetime.timedelta(minutes=-minutes if name[0] == "-" else minutes))
        import zoneinfo

        return datetime.timezone.utc if name == "UTC" else zoneinfo.ZoneInfo(name)
    except (ImportError, KeyError, OSError, ValueError):
        return datetime.timezone.utc


def _microseconds(unit: str) -> Callable[[int], int | None]:
    """Returns a function of a count of the unit, which gives microseconds, or none if nanoseconds are left over."""
    if unit == "n":
        return lambda value: None if value % 1000 else value // 1000
    factor = _MICROSECONDS[unit]
    return lambda value: value * factor


def _or_storage(convert: Converter) -> Converter:
    """Returns a function that gives the value of the storage where Python has no value for it."""

    def converted(value: Any) -> Any:
        try:
            return convert(value)
        except (OverflowError, ValueError):
            return value

    return converted


def _timestamps(unit: str, zone: datetime.tzinfo | None) -> Converter:
    scale = _microseconds(unit)

    def convert(value: int) -> Any:
        micros = scale(value)
        if micros is None:
            return value
        naive = _EPOCH + datetime.timedelta(microseconds=micros)
        return naive if zone is None else naive.replace(tzinfo=datetime.timezone.utc).astimezone(zone)

    return _or_storage(convert)


def _times(unit: str) -> Converter:
    scale = _microseconds(unit)

    def convert(value: int) -> Any:
        micros = scale(value)
        if micros is None or not 0 <= micros < 86_400_000_000:
            return value
        return (_EPOCH + datetime.timedelta(microseconds=micros)).time()

    return convert


def _date_of_milliseconds(value: int) -> Any:
    """Returns the date of a count of milliseconds, or the count if it is not a whole number of days."""
    days, left = divmod(value, _MILLISECONDS_OF_DAY)
    return value if left else _DAY + datetime.timedelta(days=days)


def _durations(unit: str) -> Converter:
    scale = _microseconds(unit)

    def convert(value: int) -> Any:
        micros = scale(value)
        return value if micros is None else datetime.timedelta(microseconds=micros)

    return _or_storage(convert)


def _signed(value: int, bits: int) -> int:
    value &= (1 << bits) - 1
    return value - (1 << bits) if value >> (bits - 1) else value


def _decimals(scale: int, is_wide: bool) -> Converter:
    def convert(value: Any) -> Decimal:
        number = int.from_bytes(bytes(value), "little", signed=True) if is_wide else value
        return Decimal((1 if number < 0 else 0, tuple(map(int, str(abs(number)))), -scale))

    return convert


def _scale(format: str) -> int:
    return int(format[2:].split(",")[1])


def python_value(type: ArrowType | None, kind: str) -> Converter | None:
    """Returns the function from a value of the storage, which is not null, to its Python value; none if they are the same."""
    if type is None:
        return None
    format = type.format
    if format in _FLOATS:
        plain, bits = (struct.Struct(text) for text in _FLOATS[format])
        return lambda value: plain.unpack(bits.pack(value))[0]
    if format == "tdD":
        return _or_storage(lambda value: _DAY + datetime.timedelta(days=value))
    if format == "tdm":
        return _or_storage(_date_of_milliseconds)
    if format.startswith("ts"):
        return _timestamps(format[2], _zone(format[4:]))
    if format.startswith("tt"):
        return _times(format[2])
    if format.startswith("tD"):
        return _durations(format[2])
    if format == "tiD":
        return lambda value: (_signed(value, 32), _signed(value >> 32, 32))
    if format == "tin":
        return lambda value: (_signed(value, 32), _signed(value >> 32, 32), _signed(value >> 64, 64))
    if format.startswith("d:"):
        return _decimals(_scale(format), type.kind == "fixed")
    return bytes if format.startswith("w:") and type.kind == "fixed" else None


class Count:
    """A count of a unit for which Python has no value: the integer of the storage, and its type."""

    __slots__ = ("number", "type")

    def __init__(self, number: int, type: ArrowType) -> None:
        self.number, self.type = number, type

    def __repr__(self) -> str:
        return f"{self.number} of {self.type}"


# The formats of dates, times, timestamps and durations.
_COUNTED = ("td", "tt", "ts", "tD")


def counted_value(type: ArrowType | None, kind: str) -> Converter | None:
    """Returns the function from a value of the storage to its Python value, or to a `Count` where Python has none: it knows its unit."""
    plain = python_value(type, kind)
    if type is None or plain is None or type.format[:2] not in _COUNTED:
        return plain
    counts, convert = type, plain

    def counted(value: int) -> Any:
        found = convert(value)
        return Count(found, counts) if isinstance(found, int) else found

    return counted


# The value in place of NaN, and those beside the numbers of times and of booleans, so that they are equal to their own sort alone.
_NAN = object()
_SORTS = {name: object() for name in ("boolean", "date", "duration", "time", "timestamp", "timestamp of a zone", "tiM", "tiD", "tin")}


def _of_sort(name: str, factor: int = 1) -> Converter:
    sort = _SORTS[name]
    return lambda value: (sort, value * factor)


def _with_one_nan(plain: Converter) -> Converter:
    def convert(value: Any) -> Any:
        number = plain(value)
        return number if number == number else _NAN

    return convert


def comparable_value(type: ArrowType | None, kind: str) -> Converter | None:
    """Returns the function from a value of the storage to one by which rows of columns of any types are compared.

    NaN is equal to NaN. A time is equal to the same one in another unit, and to no number; a boolean is equal to a boolean alone.
    """
    format = "" if type is None else type.format
    plain = python_value(type, kind)
    if plain is not None and format in _FLOATS:
        return _with_one_nan(plain)
    if format in ("tdD", "tdm"):
        sort, parts = _SORTS["date"], 1 if format == "tdD" else _MILLISECONDS_OF_DAY
        return lambda value: (sort, *divmod(value, parts))
    if format.startswith("ts"):
        return _of_sort("timestamp of a zone" if format[4:] else "timestamp", _NANOSECONDS[format[2]])
    if format[:2] in ("tt", "tD"):
        return _of_sort("time" if format[1] == "t" else "duration", _NANOSECONDS[format[2]])
    if format in _SORTS:
        return _of_sort(format)
    return _of_sort("boolean") if kind == "bool" else plain


# ---- from Python values


def _is_finite(value: Any) -> bool:
    """Returns whether a number is between the infinities: `float` makes an infinity of a Decimal or a longdouble that it cannot hold."""
    try:
        return bool(-math.inf < value < math.inf)
    except TypeError:  # an object that is a number by `__float__` alone
        return False


def _number_of(format: str, value: Any, name: str) -> Any:
    plain, bits = _FLOATS[format]
    try:
        number = real(value, name)
        if math.isinf(number) and _is_finite(value):
            raise OverflowError
        return struct.unpack(bits, struct.pack(plain, number))[0]
    except OverflowError:
        raise OverflowError(f"{name}: {shown(value)} is too large for a float of {8 * struct.calcsize(plain)} bits") from None


def _counted(since: datetime.timedelta, nanos: int, unit: str, value: Any, name: str) -> int:
    """Returns a time and the nanoseconds beyond its last microsecond as a count of the unit. Raises ValueError if something is left over."""
    count, left = divmod(since // datetime.timedelta(microseconds=1) * 1000 + nanos, _NANOSECONDS[unit])
    if left:
        raise ValueError(f"{name}: {shown(value)} is not a whole number of the unit")
    return count


def _expected(value: Any, kinds: type | tuple[type, ...], name: str, what: str) -> None:
    if not isinstance(value, kinds):
        raise TypeError(f"{name}: {shown(value)} is of type {type(value).__name__}, not {what}")


def _timestamp_of(format: str, value: Any, name: str) -> int:
    _expected(value, datetime.datetime, name, "a datetime")
    _check_there(value, name)
    zone = _zone(format[4:])
    if (value.tzinfo is None) != (zone is None):
        raise ValueError(f"{name}: {shown(value)} {'needs a time zone' if zone else 'has a time zone'}")
    since = value - _EPOCH if zone is None else value - _EPOCH.replace(tzinfo=datetime.timezone.utc)
    # a Timestamp of pandas has nanoseconds beyond the microseconds of a datetime
    return _counted(since, getattr(value, "nanosecond", 0), format[2], value, name)


def _decimal_of(type: ArrowType, value: Any, name: str) -> Any:
    if not isinstance(value, Decimal) and not is_integer(value):
        raise TypeError(f"{name}: {shown(value)} is not a Decimal or an integer")
    value = value if isinstance(value, Decimal) else integer(value, name)
    precision, scale = int(type.format[2:].split(",")[0]), _scale(type.format)
    sign, digits, exponent = Decimal(value).as_tuple()
    if not isinstance(exponent, int):
        raise ValueError(f"{name}: {shown(value)} is not a finite number")
    # compared before a power is computed, since an exponent of millions would take minutes
    shift = exponent + scale if any(digits) else 0
    kept = max(0, len(digits) + min(0, shift))
    if len(digits) + shift > precision and any(digits):
        raise OverflowError(f"{name}: {shown(value)} has more than {precision} digits")
    if any(digits[kept:]):
        raise ValueError(f"{name}: {shown(value)} has more than {scale} digits behind the point")
    number = int("".join(map(str, digits[:kept])) or "0") * 10 ** max(0, shift)
    number = -number if sign else number
    return list(number.to_bytes(32, "little", signed=True)) if type.kind == "fixed" else number


# The nanoseconds of the units of counts, by the last letters of their formats; a date of `tdD` is a number of days.
_NANOSECONDS_OF_COUNT = {**_NANOSECONDS, "D": _MILLISECONDS_OF_DAY * 1_000_000}


def _count_of(type: ArrowType, value: Count, name: str) -> int:
    """Returns a count of another unit as one of the unit of a type. Raises ValueError if something is left over, TypeError for another sort of time."""
    before, after = value.type.format, type.format
    if before[:2] != after[:2] or (after[:2] == "ts" and bool(before[4:]) != bool(after[4:])):
        raise TypeError(f"{name}: {value} is no value of {type}")
    count, left = divmod(value.number * _NANOSECONDS_OF_COUNT[before[2]], _NANOSECONDS_OF_COUNT[after[2]])
    if left:
        raise ValueError(f"{name}: {value} is not a whole number of the unit of {type}")
    return count


def _check_there(value: datetime.date, name: str) -> None:
    """Raises ValueError for NaT of pandas, an instance of datetime that is not equal to itself."""
    if value != value:
        raise ValueError(f"{name}: {shown(value)} is no time; None is null")


def _check_date(value: datetime.date, name: str) -> None:
    """Raises ValueError for a datetime that says more than its date."""
    if isinstance(value, datetime.datetime) and (value.tzinfo is not None or value.time() != datetime.time() or getattr(value, "nanosecond", 0) > 0):
        raise ValueError(f"{name}: {shown(value)} has a time of day or a time zone, which a date has not")


# The bits of the parts of an interval, the lowest first.
_INTERVALS = {"tiD": (32, 32), "tin": (32, 32, 64)}


def _interval_of(format: str, value: Any, name: str) -> int:
    """Returns an interval, the tuple of its parts, as the integer of the storage."""
    sizes = _INTERVALS[format]
    if not isinstance(value, tuple) or len(value) != len(sizes):
        what = "days and milliseconds" if format == "tiD" else "months, days and nanoseconds"
        raise TypeError(f"{name}: {shown(value)} is not a tuple of {what}")
    number, start = 0, 0
    for place, (part, bits) in enumerate(zip(value, sizes)):
        most = 1 << (bits - 1)
        number |= (integer_within(part, f"{name}[{place}]", Limits(-most, most - 1)) & ((1 << bits) - 1)) << start
        start += bits
    return _signed(number, 64) if format == "tiD" else number


def _storage_value(type: ArrowType, value: Any, name: str) -> Any:
    format = type.format
    if format in _FLOATS:
        return _number_of(format, value, name)
    if isinstance(value, Count) and format[:2] in _COUNTED:
        return _count_of(type, value, name)
    if format in _INTERVALS:
        return _interval_of(format, value, name)
    if format in ("tdD", "tdm"):
        _expected(value, datetime.date, name, "a date")
        _check_there(value, name)
        _check_date(value, name)
        days = (datetime.date(value.year, value.month, value.day) - _DAY).days
        return days if format == "tdD" else days * _MILLISECONDS_OF_DAY
    if format.startswith("ts"):
        return _timestamp_of(format, value, name)
    if format.startswith("tt"):
        _expected(value, datetime.time, name, "a time")
        if value.tzinfo is not None:
            raise ValueError(f"{name}: {shown(value)} has a time zone, which a column of times has not")
        since = datetime.datetime.combine(_DAY, value.replace(tzinfo=None)) - _EPOCH
        return _counted(since, 0, format[2], value, name)
    if format.startswith("tD"):
        _expected(value, datetime.timedelta, name, "a timedelta")
        return _counted(value, getattr(value, "nanoseconds", 0), format[2], value, name)
    if format.startswith("d:"):
        return _decimal_of(type, value, name)
    _expected(value, (bytes, bytearray), name, "bytes")
    if len(value) != type.width:
        raise ValueError(f"{name}: {shown(value)} has {len(value)} bytes, not {type.width}")
    return list(value)


def has_values(type: ArrowType) -> bool:
    """Returns whether the Python values of a type differ from those of its storage."""
    return type.format in ("e", "f", "g") or type.format[:1] in ("t", "d") or (type.format.startswith("w:") and type.kind == "fixed")


def storage_values(values: Sequence[Any], type: ArrowType, name: str) -> list[Any]:
    """Returns the values of the storage for Python values; an integer of a time, a date or an interval is one already."""
    if type.format == "tiM" or not has_values(type):
        return list(values)
    is_count = type.format.startswith("t")
    return [value if value is None or (is_count and _is_count(value)) else _storage_value(type, value, f"{name}[{position}]")
            for position, value in enumerate(values)]


def _is_count(value: Any) -> bool:
    return type(value) is int or (not isinstance(value, (datetime.date, datetime.time, datetime.timedelta)) and is_integer(value))
