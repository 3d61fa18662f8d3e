"""The types of columns and their notation: `i64`, `utf8`, `list<i8>`, `fixed<2,bool>`, `struct<i64,utf8>`."""

from __future__ import annotations

import json
import re
from collections.abc import Sequence
from dataclasses import dataclass
from typing import Any

from ._checks import LIST_SIZE, integer_within, is_boolean, is_integer, shown
from ._errors import BrokenRule, SelError, error_of
from ._library import status_of
from ._names import LOGICAL_NAMES, LONG_NAMES, SPACE, VALID_NAMES, end_of_word, format_of_value, logical_format
from ._statuses import TOO_DEEP

__all__ = ["KINDS", "NUMBERS", "Type", "check_levels", "name_in_text", "parse_type", "type_of_values"]

# The kinds in the order of their numbers in sel.h, as they are written in a type.
KINDS = ("null", "bool", "i8", "i16", "i32", "i64", "i128", "u8", "u16", "u32", "u64", "u128", "binary", "binview", "utf8", "list", "fixed", "struct")

# The name of an integer type in the calls of the library, and its number of bits, negative if the type is signed.
NUMBERS = {"i8": ("int8", -8), "i16": ("int16", -16), "i32": ("int32", -32), "i64": ("int64", -64), "i128": ("int128", -128),
           "u8": ("uint8", 8), "u16": ("uint16", 16), "u32": ("uint32", 32), "u64": ("uint64", 64), "u128": ("uint128", 128)}


@dataclass(frozen=True)
class Type:
    """The type of a column: its kind, the types of its children, and the list size of fixed-size lists.

    Types are compared by `==`, can be hashed, and print as in `list<fixed<2,i64>>`. A column of a type with a logical type below it has
    the logical type that `parse_type` gives for it. Raises ValueError for a kind that there is not, for another number of children, and
    for a list size where the kind is not `fixed`.

    >>> sel.Type("list", (sel.Type("i64"),)) == sel.parse_type("list<item: int64>")
    True
    """

    kind: str
    children: tuple[Type, ...] = ()
    width: int = 0

    def __post_init__(self) -> None:
        object.__setattr__(self, "children", tuple(self.children))
        object.__setattr__(self, "width", integer_within(self.width, "width", LIST_SIZE))
        if self.kind not in KINDS:
            raise ValueError(f"there is no type {shown(self.kind)}; the kinds are {', '.join(KINDS)}")
        for child in self.children:
            if not isinstance(child, Type):
                raise TypeError(f"children: {shown(child)} is of type {type(child).__name__}, not a Type")
        count = 1 if self.kind in ("list", "fixed") else 0
        if self.kind != "struct" and len(self.children) != count:
            raise ValueError(f"{self.kind} has {len(self.children)} child types, not {count}")
        if self.kind != "fixed" and self.width != 0:
            raise ValueError(f"{self.kind} has no list size, and width is {self.width}")

    def __str__(self) -> str:
        """Returns the short name of the type.

        >>> str(sel.Type("fixed", (sel.Type("i64"),), 2))
        'fixed<2,i64>'
        """
        inner = ",".join(f"{child}{'' if getattr(child, 'is_nullable', True) else ' not null'}" for child in self.children)
        if self.kind == "fixed":
            return f"fixed<{self.width},{inner}>"
        return f"{self.kind}<{inner}>" if self.kind in ("list", "struct") else self.kind


# The levels of lists and structs of a column, and those of a text that is read, so that a type may be too deep for a column.
_MOST_LEVELS, _MOST_READ = 128, 256


def _error_too_deep() -> SelError:
    return error_of(TOO_DEEP, status_of(TOO_DEEP))


def check_levels(type: Type) -> None:
    """Raises LimitPassed for a type with more levels than a column has."""
    types: tuple[Type, ...] = (type,)
    count = 0
    while types := tuple(child for each in types for child in each.children):
        count += 1
        if count > _MOST_LEVELS + 1:  # what has one level too many may be the bytes of a value; the library knows
            raise _error_too_deep()


_SIZE_FIRST, _SIZE_LAST = re.compile(rf"[{SPACE}]*([0-9]+)[{SPACE}]*,"), re.compile(r"\[([0-9]+)\]")
_NOT_NULL = re.compile(rf"[{SPACE}]not null[{SPACE}]*\Z")
_STRING = json.JSONDecoder()

# What the texts of some logical types leave out.
_LEFT_OUT = {"map": "the names of its entries and of their fields", "dictionary": "the values of the dictionary", "extension": "the metadata of the extension"}


def parse_type(text: str) -> Type:
    """Returns the type that a text names; white space between its parts is skipped. Arrow's longer names are accepted, too.

    Structs whose fields have names are an `ArrowType` with these names, and so is what has such a struct or another logical type below it.
    A name may be in quotes, as a string in JSON; the text of a type has quotes around a name that could not be read without them.

    `parse_type(str(column.type))` is equal to the type of the column, with three exceptions. Maps, dictionaries and extension types raise
    ValueError: their texts leave out the fields of the entries, the values of the dictionary and the metadata of the extension. Strings,
    binary and lists get the layout of the columns that are made here: `string` and `large_string` are `utf8`, `large_binary` is `binary`,
    `list<item: double>` is `large_list<item: double>`. And the text leaves out the metadata of fields, and whether the type itself is nullable.

    Raises TypeError if the text is not a str, ValueError if it names no type, OverflowError if a list size is more than 4,294,967,295, and
    LimitPassed, an OverflowError, for more than 256 levels.

    >>> str(sel.parse_type("list<item: fixed_size_list<item: int64>[2]>"))
    'list<fixed<2,i64>>'
    >>> str(sel.parse_type("struct<id: int64, price: double>"))
    'struct<id: i64, price: double>'
    >>> str(sel.parse_type('struct<"from, to": double>'))
    'struct<"from, to": double>'
    """
    if not isinstance(text, str):
        raise TypeError(f"text: {shown(text)} is of type {type(text).__name__}, not str")
    reader = _Reader(text)
    found = reader.type(0)
    rest = text[reader.place :].strip(SPACE)
    if rest:
        raise ValueError(f"{text!r} has {rest!r} after the end of its type")
    return found


def name_in_text(name: str, may_be_empty: bool) -> str:
    """Returns the name of a field as the text of a type has it: in quotes, as a string in JSON, if it would be read as something else without them.

    >>> name_in_text("unit price", True), name_in_text("a, b: i8", True)
    ('unit price', '"a, b: i8"')
    """
    is_read = end_of_word(name + ":", 0, ",:") == len(name) and name.strip(SPACE) == name and not name.startswith('"')
    return name if is_read and (name or may_be_empty) else json.dumps(name, ensure_ascii=False)


def _size_of(digits: str) -> int:
    """Returns a list size. Raises OverflowError if it is too large."""
    significant = digits.lstrip("0")
    # Python may refuse to convert a text of thousands of digits.
    if len(significant) > 100:
        raise OverflowError(f"list size: {significant[:20]}.. of {len(significant)} digits is outside [{LIST_SIZE.least}, {LIST_SIZE.most}]")
    return integer_within(int(significant or "0"), "list size", LIST_SIZE)


def _of_parameters(format: str, word: str) -> Type:
    """Returns the type of an Arrow format, which may have parameters, by its name. Raises ValueError for parameters that no type has."""
    from ._logical import of_format

    if format.startswith("w:"):
        format = f"w:{_size_of(format[2:])}"
    try:
        return of_format(format)
    except BrokenRule:
        raise ValueError(f"there is no type {word!r}: {_PARAMETERS.get(format[:2], 'its parameters are out of range')}") from None


def _without_spaces_at_commas(text: str) -> str:
    """Returns a text without the white space around its commas, in a time in proportion to its length."""
    first, *others = text.split(",")
    if not others:
        return text
    return ",".join([first.rstrip(SPACE), *[part.strip(SPACE) for part in others[:-1]], others[-1].lstrip(SPACE)])


# The parameters that decimals have, for the messages of errors.
_PARAMETERS = {"d:": "a decimal of 32, 64, 128 or 256 bits has 1 to 9, 18, 38 or 76 digits"}


class _Reader:
    """Reads the text of a type from left to right."""

    def __init__(self, text: str) -> None:
        self.text, self.place = text, 0

    def takes(self, sign: str) -> bool:
        """Returns whether a sign comes next, behind white space, and skips it if it does."""
        while self.text[self.place : self.place + 1] in tuple(SPACE):
            self.place += 1
        found = self.text.startswith(sign, self.place)
        self.place += len(sign) if found else 0
        return found

    def comes(self, sign: str) -> bool:
        """Skips white space, and returns whether a sign comes next."""
        self.takes("")
        return self.text.startswith(sign, self.place)

    def matches(self, pattern: re.Pattern[str]) -> str | None:
        """Returns the group of a pattern that comes next, and skips it; none if it does not."""
        found = pattern.match(self.text, self.place)
        if found is None:
            return None
        self.place = found.end()
        return found[1]

    def name(self) -> str | None:
        """Returns the name of a field, which is behind white space and before a colon; none if there is no name."""
        if self.takes('"'):
            return self.quoted_name()
        end = end_of_word(self.text, self.place, ",:")
        if self.text[end : end + 1] != ":":
            return None
        start, self.place = self.place, end + 1
        return self.text[start:end].strip(SPACE)

    def quoted_name(self) -> str:
        """Returns the name of a field in quotes, whose opening quote has been read."""
        start = self.place - 1
        try:
            found, self.place = _STRING.raw_decode(self.text, start)
        except ValueError:
            raise ValueError(f"{self.text!r} has a name in quotes at character {start} that is not a JSON string") from None
        if not self.takes(":"):
            raise ValueError(f"{self.text!r} has no colon after the name {found!r}")
        return str(found)

    def word(self) -> str:
        """Returns the name of a type without the spaces around it and around commas; `not null` behind it is left."""
        start, end = self.place, end_of_word(self.text, self.place, ",")
        found = _NOT_NULL.search(self.text, start, end)
        self.place = end if found is None else found.start()
        before, sign, zone = self.text[start : self.place].partition("tz=")
        return (_without_spaces_at_commas(before) + sign + zone).strip(SPACE)

    def type(self, level: int) -> Type:
        """Returns the type that comes next, below so many others."""
        if level > _MOST_READ:
            raise _error_too_deep()
        word = self.word()
        kind, format = LONG_NAMES.get(word, word), logical_format(word)
        if format is not None:
            return _of_parameters(format, word)
        if word in _LEFT_OUT:
            raise ValueError(f"the text of a type with {word}<..> is not parsed, since it leaves out {_LEFT_OUT[word]}; use the type of a column that has it")
        if kind not in KINDS:
            raise ValueError(f"there is no type {kind!r}; {VALID_NAMES}; {LOGICAL_NAMES}")
        if kind not in ("list", "fixed", "struct"):
            return Type(kind)
        if not self.takes("<"):
            raise ValueError(f"{kind} must be followed by the types of its children, as in {kind}<i64>")
        return self.nested(kind, word == "fixed_size_list", level)

    def nested(self, kind: str, may_have_size_last: bool, level: int) -> Type:
        """Returns a type of a kind with children, which come next. The size of fixed-size lists is before them or, in brackets, behind them."""
        from ._logical import nested_type

        digits = self.matches(_SIZE_FIRST) if kind == "fixed" else "0"
        fields: list[tuple[str | None, Type]] = []
        if digits is not None or may_have_size_last:
            while not self.takes(">"):
                fields.append(self.field(kind, level))
                has_comma = self.takes(",")
                if has_comma and self.comes(">"):
                    raise ValueError(f"{kind} has no type after its last comma")
                if not has_comma and not self.comes(">"):
                    raise ValueError(f"{kind} is not closed, or it does not have exactly one child type")
            digits = self.matches(_SIZE_LAST) if digits is None else digits
        if digits is None:
            raise ValueError("fixed must begin with a list size, as in fixed<2,i64>")
        if kind != "struct" and len(fields) != 1:
            raise ValueError(f"{kind} is not closed, or it does not have exactly one child type")
        return nested_type(kind, [child for _, child in fields], _size_of(digits), [name for name, _ in fields])

    def field(self, kind: str, level: int) -> tuple[str | None, Type]:
        """Returns the name and the type of a field or of the elements of lists, which come next."""
        is_quoted, name = self.comes('"'), self.name()
        if name == "" and kind != "struct" and not is_quoted:
            raise ValueError(f"{kind}: the name before the colon is missing")
        child = self.type(level + 1)
        if self.takes("not null"):
            from ._logical import nullable

            child = nullable(child, is_nullable=False)
        return name, child


def type_of_values(values: Sequence[Any], level: int = 0) -> Type:
    """Returns the type of Python values by the first that is not `None`; `null` if there is none. Integers have type `i64`.

    Raises LimitPassed for values below more than 128 others.
    """
    if level > _MOST_LEVELS:
        raise _error_too_deep()
    there = [value for value in values if value is not None]
    if not there:
        return Type("null")
    first = there[0]
    if is_boolean(first):
        return Type("bool")
    if is_integer(first):
        return Type("i64")
    format = format_of_value(first)
    if format is not None:
        from ._logical import of_format

        return of_format(format)
    if isinstance(first, str):
        return Type("utf8")
    if isinstance(first, (bytes, bytearray)):
        return Type("binview")
    if isinstance(first, (tuple, list)):
        return _type_of_nested(there, level + 1)
    raise TypeError(f"no type of column has values of type {type(first).__name__}{_hint(first)}")


def _hint(value: object) -> str:
    """Returns what else to do with values that do not say their type, for the message of an error."""
    kind = type(value)
    example = {"dict": "struct<id: int64, price: double>", "Decimal": "decimal128(9, 2)"}.get(kind.__name__)
    if example is not None:
        return f" on its own; give the type of the column, as in Column(values, {example!r})"
    return "; Column.from_numpy makes a column of an array" if kind.__module__ == "numpy" else ""


def _type_of_nested(values: Sequence[Any], level: int) -> Type:
    """Returns the type of tuples or lists. Other values, which the column does not take, are left out."""
    from ._logical import nested_type

    first = values[0]
    rows = [row for row in values if isinstance(row, list if isinstance(first, list) else tuple)]
    if isinstance(first, list):
        return nested_type("list", [type_of_values([item for row in rows for item in row], level)])
    if any(len(row) != len(first) for row in rows):
        raise ValueError(f"values: some tuples have {len(first)} values, and some do not")
    return nested_type("struct", [type_of_values([row[place] for row in rows], level) for place in range(len(first))])
