"""Lines of the conformance suite, and its notation of rows, read into Python values. The library's own parser is not used here."""

from __future__ import annotations

import json
import re
from pathlib import Path
from typing import Any, NamedTuple

from sel import Type, parse_type

__all__ = ["KINDS", "Line", "lines_of", "read_kinds", "read_rows", "read_typed_rows", "rows_of_types"]

# the types of the suite with values of each
KINDS = Path(__file__).resolve().parents[3] / "tests" / "kinds.txt"

_JSON = json.JSONDecoder()


class Line(NamedTuple):
    """A line of the suite: where it is, and its fields."""

    place: str
    fields: list[str]


def read_kinds(path: Path) -> dict[str, list[list[str]]]:
    """Returns for each of `$T`, `$C` and `$N` the types that it stands for, each with its seven values."""
    kinds: dict[str, list[list[str]]] = {"$N": [], "$C": [], "$T": []}
    sections = {"== flat": ("$N", "$C", "$T"), "== lists": ("$C", "$T"), "== others": ("$T",)}
    names: tuple[str, ...] = ()
    for text in path.read_text(encoding="utf-8").splitlines():
        if text.startswith("=="):
            names = sections[text]
        elif text and not text.startswith("#"):
            fields = text.split(" | ")
            if len(fields) != 8:
                raise ValueError(f"{path.name}: not a type and seven values: {text}")
            for name in names:
                kinds[name].append(fields)
    return kinds


def rows_of_types() -> list[tuple[Type, list[Any]]]:
    """Returns the types that `$T` stands for, each with its seven values and a null."""
    found = []
    for name, *texts in read_kinds(KINDS)["$T"]:
        wanted = parse_type(name)
        found.append((wanted, [*read_rows(f"[{','.join(texts)}]", wanted), None]))
    return found


def lines_of(path: Path, kinds: dict[str, list[list[str]]]) -> list[Line]:
    """Returns the lines of a file; one with `$T`, `$C` or `$N` stands for a line of each type."""
    lines = []
    for number, text in enumerate(path.read_text(encoding="utf-8").split("\n"), 1):
        if not text or text.startswith("#"):
            continue
        name = next((name for name in kinds if name in text), None)
        for filled in [text] if name is None else [_filled(text, fields) for fields in kinds[name]]:
            lines.append(Line(f"{path.name}:{number}: {filled}", filled.split(" | ")))
    return lines


def _filled(text: str, fields: list[str]) -> str:
    """Returns the text with a type in place of its letter, and values of the type in place of their numbers."""
    return re.sub(r"\$([TCN1-7])", lambda found: fields[int(found[1]) if found[1].isdecimal() else 0], text)


def read_typed_rows(text: str, wanted: Type | None) -> tuple[list[Any], Type]:
    """Returns rows and their type, which the text itself may name, as in `i8 [1,2]`."""
    if not text.startswith("["):
        name, _, text = text.partition(" ")
        wanted = parse_type(name)
    if wanted is None:
        raise ValueError(f"rows without a type: {text}")
    return read_rows(text, wanted), wanted


def read_rows(text: str, wanted: Type) -> list[Any]:
    """Returns rows that are written as they are printed, without spaces between their parts."""
    rows, end = _read_list(text, 0, wanted)
    if end != len(text):
        raise ValueError(f"{text[end:]!r} after the end of rows")
    return rows


def _read_list(text: str, start: int, wanted: Type) -> tuple[list[Any], int]:
    return _read_sequence(text, start, "[]", lambda number: wanted)


def _read_sequence(text: str, start: int, brackets: str, type_of: Any) -> tuple[list[Any], int]:
    if text[start : start + 1] != brackets[0]:
        raise ValueError(f"{brackets[0]} expected at {start} of {text}")
    values: list[Any] = []
    start += 1
    while text[start : start + 1] != brackets[1]:
        if values:
            if text[start : start + 1] != ",":
                raise ValueError(f", expected at {start} of {text}")
            start += 1
        value, start = _read_value(text, start, type_of(len(values)))
        values.append(value)
    return values, start + 1


def _read_value(text: str, start: int, wanted: Type) -> tuple[Any, int]:
    if text.startswith("null", start):
        return None, start + 4
    if wanted.kind in ("list", "fixed"):
        values, end = _read_list(text, start, wanted.children[0])
        if wanted.kind == "fixed" and len(values) != wanted.width:
            raise ValueError(f"{len(values)} values where {wanted} has {wanted.width}")
        return values, end
    if wanted.kind == "struct":
        values, end = _read_sequence(text, start, "()", lambda number: wanted.children[number])
        if len(values) != len(wanted.children):
            raise ValueError(f"{len(values)} values where {wanted} has {len(wanted.children)}")
        return tuple(values), end
    if wanted.kind in ("binary", "binview"):
        if text[start] != "h":
            raise ValueError(f"h expected at {start} of {text}")
        digits, end = _JSON.raw_decode(text, start + 1)
        return bytes.fromhex(digits), end
    value, end = _JSON.raw_decode(text, start)
    if type(value) is not {"utf8": str, "bool": bool}.get(wanted.kind, int):
        raise ValueError(f"no {wanted} at {start} of {text}")
    return value, end
