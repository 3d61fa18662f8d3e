"""Arrow's longer names of types, next to the short ones that the library reads: `int64` for `i64`, `list<item: string>` for `list<utf8>`."""

from __future__ import annotations

import datetime
import re
from typing import List, Tuple

__all__ = ["LOGICAL_NAMES", "LONG_NAMES", "SPACE", "VALID_NAMES", "end_of_word", "format_of_value", "logical_format", "short_names"]

# White space as in JSON.
SPACE = " \t\n\r"

# The short name of each longer one.
LONG_NAMES = {
    "boolean": "bool", **{f"int{bits}": f"i{bits}" for bits in (8, 16, 32, 64, 128)}, **{f"uint{bits}": f"u{bits}" for bits in (8, 16, 32, 64, 128)},
    "large_binary": "binary", "binary_view": "binview", "string": "utf8", "string_view": "utf8", "utf8_view": "utf8", "large_string": "utf8",
    "large_utf8": "utf8", "large_list": "list", "fixed_size_list": "fixed",
}

VALID_NAMES = ("the types are null, bool (boolean), i8 to i128 (int8 to int128), u8 to u128 (uint8 to uint128), binary (large_binary), "
               "binview (binary_view), utf8 (string, large_string, string_view), list<..> (large_list<..>), "
               "fixed<n,..> (fixed_size_list<..>[n]) and struct<..>")

# The Arrow formats of logical types, by their names.
_FORMATS = {
    "halffloat": "e", "float16": "e", "float": "f", "float32": "f", "double": "g", "float64": "g", "date32": "tdD", "date32[day]": "tdD",
    "date64": "tdm", "date64[ms]": "tdm", "time32[s]": "tts", "time32[ms]": "ttm", "time64[us]": "ttu", "time64[ns]": "ttn",
    **{f"duration[{unit}]": f"tD{unit[0]}" for unit in ("s", "ms", "us", "ns")}, "month_interval": "tiM", "day_time_interval": "tiD",
    "month_day_nano_interval": "tin",
}
_TIMESTAMP = re.compile(r"timestamp\[(s|ms|us|ns)(?:,(?:tz=|(?!tz=))([^\]]+))?\]")
_DECIMAL = re.compile(r"decimal(32|64|128|256)?\((\d+),(-?\d+)\)")
_FIXED_BINARY = re.compile(r"fixed_size_binary\[(\d+)\]")


def logical_format(word: str) -> str | None:
    """Returns the Arrow format of a logical type without children, which is named without spaces; none if there is no such type.

    >>> logical_format("timestamp[ms,tz=UTC]"), logical_format("decimal128(10,2)"), logical_format("i64")
    ('tsm:UTC', 'd:10,2', None)
    """
    if word in _FORMATS:
        return _FORMATS[word]
    if found := _TIMESTAMP.fullmatch(word):
        return f"ts{found[1][0]}:{found[2] or ''}"
    if found := _DECIMAL.fullmatch(word):
        return f"d:{found[2]},{found[3]}" + (f",{found[1]}" if found[1] not in (None, "128") else "")
    found = _FIXED_BINARY.fullmatch(word)
    return f"w:{found[1]}" if found else None


def format_of_value(value: object) -> str | None:
    """Returns the Arrow format of the type of a float, date, time, datetime or timedelta; none for other values."""
    if isinstance(value, float):
        return "g"
    if isinstance(value, datetime.datetime):
        return "tsu:" if value.tzinfo is None else "tsu:UTC"
    kinds = {datetime.date: "tdD", datetime.time: "ttu", datetime.timedelta: "tDu"}
    return next((format for kind, format in kinds.items() if isinstance(value, kind)), None)


LOGICAL_NAMES = ("logical types are halffloat, float, double, date32, date64, time32[s], time64[us], timestamp[ms], timestamp[ms, tz=UTC], duration[s], "
                 "decimal128(9, 2), fixed_size_binary[16] and the like")

_TOKEN = re.compile(r"[A-Za-z0-9_]+|.", re.DOTALL)
# A string in JSON up to its closing quote, or up to the first character that no string goes on with.
_QUOTED = re.compile(r'"(?:[^"\\\x00-\x1f]|\\(?:["\\/bfnrt]|u[0-9A-Fa-f]{4}))*')
_SPACES = re.compile(rf"[{SPACE}]*")
# `not null` behind a type, which is in the same word or before it.
_NOT_NULL, _NOT_NULL_ALONE = re.compile(rf"(?<=[^{SPACE}])[{SPACE}]+not null[{SPACE}]*\Z"), re.compile(rf"[{SPACE}]*not null[{SPACE}]*\Z")
# What no type has: it stands where one is missing, so that the library finds the place.
_MISSING = "?"

_Tokens = List[Tuple[str, int]]


def end_of_word(text: str, start: int, ends: str) -> int:
    """Returns the end of the word from a place on: at one of these characters, which belong to it within square or round brackets."""
    depth = 0
    for place in range(start, len(text)):
        letter = text[place]
        depth += {"[": 1, "(": 1, "]": -1, ")": -1}.get(letter, 0)
        if letter in "<>" or (letter in ends and depth <= 0):
            return place
    return len(text)


def short_names(text: str) -> tuple[str, list[int]]:
    """Returns the text of a type with short names, without names of fields and `not null`, and the place in `text` of each of its characters.

    There is one place more, the length of the text. What is no longer name stays as it is, also if it is wrong.

    >>> short_names("list<item: string>")[0], short_names('struct<"a, b": int8 not null, c: bool>')[0]
    ('list<utf8>', 'struct<i8,bool>')
    """
    tokens = _with_sizes_first(_tokens_of(text))
    short = [(LONG_NAMES.get(token, token), place) for token, place in tokens]
    places = [place + number if token == word else place
              for (word, place), (token, _) in zip(short, tokens) for number in range(len(word))]
    return "".join(word for word, _ in short), [*places, len(text)]


def _spaces(text: str, place: int) -> int:
    """Returns the end of the white space at a place."""
    found = _SPACES.match(text, place)
    return place if found is None else found.end()


def _end_of_name(text: str, start: int, may_be_empty: bool) -> tuple[int, bool]:
    """Returns the end of the name of a field and its colon, which begin at a place, and whether they are well-formed; the place itself for no name."""
    quoted = _QUOTED.match(text, start)
    if quoted is not None:
        end = quoted.end()
        if not text.startswith('"', end):
            return end, False
        end = _spaces(text, end + 1)
    else:
        end = end_of_word(text, start, ",:")
        if not text.startswith(":", end) or (end == start and not may_be_empty):
            return start, True
    return (end + 1, True) if text.startswith(":", end) else (end, False)


def _tokens_of(text: str) -> _Tokens:
    """Returns the words and signs of the text of a type with their places, without names of fields, `not null`, and white space around words."""
    kept: _Tokens = []
    opened: list[str] = []  # the words before the brackets that are open
    place, is_field = 0, False
    while place < len(text):
        start, has_name = _spaces(text, place), False
        if is_field:
            place, is_read = _end_of_name(text, start, opened[-1] == "struct")
            if not is_read:
                return [*kept, (_MISSING, place)]
            start, has_name = _spaces(text, place), place > start
        end = end_of_word(text, start, ",")
        word, sign = text[start:end], text[end : end + 1]
        if opened and sign != "<":
            word = (_NOT_NULL_ALONE if kept[-1][0] == ">" else _NOT_NULL).sub("", word)
        word = word.rstrip(SPACE)
        if has_name and not word:
            kept.append((_MISSING, end))
        kept += [(match[0], start + match.start()) for match in _TOKEN.finditer(word)]
        kept += [(sign, end)] if sign else []
        if sign == "<":
            opened.append(word)
        elif sign == ">" and opened:
            opened.pop()
        place, is_field = end + 1, bool(opened) and sign != ">"
    return kept


def _with_sizes_first(tokens: _Tokens) -> _Tokens:
    """Returns the tokens with `fixed_size_list<..>[n]` written as `fixed_size_list<n,..>`."""
    moved: _Tokens = []
    opened: list[int] = []
    position = 0
    while position < len(tokens):
        token, place = tokens[position]
        moved.append((token, place))
        position += 1
        if token == "<":
            opened.append(len(moved))
        elif token == ">" and opened:
            start = opened.pop()
            texts = [text for text, _ in tokens[position : position + 3]]
            if start > 1 and moved[start - 2][0] == "fixed_size_list" and len(texts) == 3 and texts[0] == "[" and texts[1].isdecimal() and texts[2] == "]":
                moved[start:start] = [tokens[position + 1], (",", tokens[position][1])]
                position += 3
    return moved
