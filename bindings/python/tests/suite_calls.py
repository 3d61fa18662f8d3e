"""The calls of the conformance suite: their arguments, and how the package makes them."""

from __future__ import annotations

import pickle
from collections.abc import Callable, Sequence
from ctypes import byref, c_bool
from typing import Any, NamedTuple

import sel
from cases import numpy
from notation import read_rows, read_typed_rows
from sel import Column, Type, _readers
from sel._library import Handle, call
from sel._memory import NO_VALIDITY, packed, words
from sel._owner import Owner, derived, from_several
from sel._types import NUMBERS, type_of_values

__all__ = ["CALLS", "NOT_PUBLIC", "STATUSES", "Arguments", "Rows"]

# Calls that the public API does not have, or not with all arguments, and why. Lines that it cannot make are made by internal calls.
NOT_PUBLIC = {
    "list_new": "from_pylist takes lists, and no call takes offsets and a child",
    "fixed_size_list_new": "from_pylist takes lists, and no call takes a child",
    "struct_new": "from_pylist takes tuples, and no call takes fields",
    "if_then_else_broadcast_true": "choose takes one value, of the type of the other side, and no column of another length or type for it",
    "if_then_else_broadcast_false": "choose takes one value, of the type of the other side, and no column of another length or type for it",
    "if_then_else_broadcast_both": "choose infers the type of two values, and takes no columns for them",
    "take": "take also takes indices of other integer types and of type null, and converts them",
    "fixed_size_list_get_each": "fixed_get also takes indices of other integer types and of type null, and converts them",
    "dictionary": "propagate_dictionary also takes keys of other integer types and of type null, and converts them",
}

# Statuses by the names of tests/README.md; include/sel.h numbers them.
STATUSES = {
    "out_of_memory": 1, "unsupported_type": 3, "type_mismatch": 4, "length_mismatch": 5, "index_out_of_bounds": 6, "list_index_out_of_bounds": 7,
    "row_limit": 8, "offset_limit": 9, "buffer_limit": 10, "view_limit": 11, "too_deep": 12, "no_offsets": 16, "negative_offset": 17, "decreasing_offset": 18,
    "too_many_rows": 19, "too_many_buffers": 20, "list_size": 21, "offset_range": 22, "child_length": 23, "field_length": 24, "validity_length": 25,
    "type_syntax": 32, "row_syntax": 33, "row_type_mismatch": 34, "text_limit": 35,
}


class Rows(NamedTuple):
    """Rows of an argument or of a result."""

    values: list[Any]
    type: Type


# ---- arguments


def _flag(text: str) -> bool:
    return {"true": True, "false": False}[text]


def _picks(text: str) -> list[tuple[int, int] | None]:
    """Returns picks: COLUMN:ROW, or _ for null, each perhaps with +COUNT behind it."""
    picks: list[tuple[int, int] | None] = []
    for part in text.split():
        first, _, count = part.partition("+")
        column, _, row = first.partition(":")
        picks += [None if first == "_" else (int(column), int(row) + number) for number in range(int(count or 1))]
    return picks


_READERS: dict[str, Callable[[str], Any]] = {
    "n": int, "i": int, "f": _flag, "o": lambda text: read_rows(text, Type("i64")), "v": lambda text: read_rows(text, Type("bool")) if text else None,
    "w": lambda text: [int(part) for part in text.split()], "p": _picks, "x": str, "y": str,
}


class Arguments:
    """The arguments of a line, by a letter for each: t a type; r rows of it; M, U, I, S rows of booleans, u32, i64 and strings;
    c columns; n, i numbers; f a flag; o offsets; v a validity; w widths; p picks; x, y texts of a type and of rows."""

    def __init__(self, letters: str, fields: list[str]) -> None:
        self.type: Any = None
        self.columns: list[Rows] = []
        self.others: list[Any] = []
        self.results = fields[len(letters) :]
        for letter, text in zip(letters, fields):
            self._read(letter, text)

    def _read(self, letter: str, text: str) -> None:
        if letter == "t":
            self.type = sel.parse_type(text)
        elif letter in "rMUIS":
            wanted = self.type if letter == "r" else Type({"M": "bool", "U": "u32", "I": "i64", "S": "utf8"}[letter])
            self.columns.append(Rows(*read_typed_rows(text, wanted)))
        elif letter == "c":
            self.columns += [Rows(*read_typed_rows(part, None)) for part in text.split(" ; ") if text]
        else:
            self.others.append(_READERS[letter](text))

    def has_type(self, number: int, kind: str) -> bool:
        """Returns whether a column is of a type without children."""
        return self.columns[number].type == Type(kind)


# ---- uses


class Use(NamedTuple):
    """A way to make a call: by the arguments that were read and their columns."""

    run: Callable[..., Any]
    applies: Callable[[Arguments, Any], bool] = lambda given, expected: True
    is_public: bool = True
    # What it gives in place of the rows that are expected.
    expected: Callable[[Arguments, Any], Any] = lambda given, expected: expected


def _internal(run: Callable[..., Any], **more: Any) -> Use:
    return Use(run, is_public=False, **more)


def _validity(flags: list[bool] | None) -> tuple[Any, int, bool]:
    """Returns the arguments of a validity, which is passed even if each row is valid, or if it is too short."""
    if flags is None:
        return NO_VALIDITY
    bits = packed(flags)
    return bits, bits.size(), True


def _has_rows_of(handle: Handle, column: Column) -> bool:
    equal = c_bool()
    call("sel_equal_rows", byref(handle), column, byref(equal))
    return equal.value


def _made_of_children(children: Sequence[Column], make: Callable[[Any, Owner], None]) -> Column:
    """Returns what a call makes of children, and checks that it takes them if it succeeds, and that they are unchanged if it fails."""

    def checked(handles: Any, made: Owner) -> None:
        try:
            make(handles, made)
        except sel.SelError:
            if not all(handle.at and _has_rows_of(handle, child) for handle, child in zip(handles, children)):
                raise AssertionError("a child has changed, although the call failed") from None
            raise
        if any(handle.at for handle in handles):
            raise AssertionError("a child is still there, although the call succeeded")

    return Column._owning(from_several(children, checked))


def _list_new(given: Arguments, child: Column) -> Column:
    offsets, valid = given.others
    return _made_of_children([child], lambda handles, made: call(
        "sel_list_new", words("q", offsets), len(offsets), *_validity(valid), handles, byref(made._handle)))


def _fixed_size_list_new(given: Arguments, child: Column) -> Column:
    size, count, valid = given.others
    return _made_of_children([child], lambda handles, made: call(
        "sel_fixed_size_list_new", size, count, *_validity(valid), handles, byref(made._handle)))


def _struct_new(given: Arguments, *fields: Column) -> Column:
    count, valid = given.others
    return _made_of_children(fields, lambda handles, made: call(
        "sel_struct_new", count, *_validity(valid), handles, len(fields), byref(made._handle)))


def _broadcast(name: str) -> Use:
    return _internal(lambda given, mask, first, second: Column._owning(derived(mask, name, first, second)))


def _is_one_value(side: int, other: int) -> Callable[[Arguments, Any], bool]:
    """Returns whether a side has one row, and the type of the other side."""
    return lambda given, expected: len(given.columns[side].values) == 1 and given.columns[side].type == given.columns[other].type


def _are_two_values(given: Arguments, expected: Any) -> bool:
    sides = given.columns[1:]
    if any(len(side.values) != 1 for side in sides):
        return False
    return all(side.type == type_of_values([side.values[0] for side in sides]) for side in sides)


def _has_rows(given: Arguments, expected: Any) -> bool:
    """Returns whether a column has the rows of a slice."""
    return int(sum(given.others)) <= len(given.columns[0].values)


def _is_mask(given: Arguments, expected: Any) -> bool:
    """Returns whether a column of booleans has a row for each row of the first column: `column[mask]` raises ValueError for another."""
    return given.has_type(1, "bool") and len(given.columns[0].values) == len(given.columns[1].values)


def _items(given: Arguments, lists: Column) -> Any:
    """Returns the rows of the child that lie in lists which are not null, and the type of the child."""
    child, items = lists.child(), []
    offsets = _readers._offsets(lists) if lists._kind() == "list" else [number * lists.type.width for number in range(len(lists) + 1)]
    for number, is_valid in enumerate(lists.valid()):
        if is_valid:
            items += child.sliced(offsets[number], offsets[number + 1] - offsets[number]).to_pylist()
    return str(child.type), len(items), items


def _field(given: Arguments, structs: Column) -> Any:
    """Returns the rows of a field, with null at the structs that are null, and its type."""
    field = structs.field(given.others[0])
    return str(field.type), len(field), [row if is_valid else None for row, is_valid in zip(field.to_pylist(), structs.valid())]


def _as_values(given: Arguments, expected: Any) -> Any:
    return str(expected.type), len(expected.values), expected.values


def _numpy_indices(given: Arguments, column: Column, indices: Column) -> Column:
    values = given.columns[1].values
    return column.take(numpy.ma.array([value or 0 for value in values], mask=[value is None for value in values], dtype="int64"))


def _with_indices(number: int, kind: str, run: Callable[..., Any], internal: Callable[..., Any]) -> list[Use]:
    """Returns the uses of a call whose column of indices has to be of a kind, from other integers and nulls to which the package converts it."""

    def is_converted(given: Arguments, expected: Any) -> bool:
        return given.columns[number].type.kind in ("null", *NUMBERS) and not given.has_type(number, kind)

    return [Use(run, lambda given, expected: not is_converted(given, expected)), _internal(internal, applies=is_converted)]


def _take(given: Arguments, column: Column, indices: Column) -> Column:
    return Column._owning(derived(column, "sel_take", indices))


def _get_each(given: Arguments, lists: Column, indices: Column) -> Column:
    return Column._owning(derived(lists, "sel_fixed_size_list_get_each", indices, *given.others))


def _propagated(given: Arguments, keys: Column, values: Column) -> tuple[Column, Column]:
    made = Owner(), Owner()
    call("sel_propagate_dictionary", keys, values, *[byref(one._handle) for one in made])
    return Column._owning(made[0]), Column._owning(made[1])


def _type_of_item(given: Arguments) -> Type:
    wanted: Type = given.type.children[0]
    return wanted


def _type_of_struct(given: Arguments) -> Type:
    return Type("struct", tuple(rows.type for rows in given.columns))


class Call(NamedTuple):
    """A call: the letters of its arguments, the ways to make it, and the kind and the type of its result."""

    letters: str
    uses: list[Use]
    type_of_result: Callable[[Arguments], Any] = lambda given: given.type
    result: str = "rows"


CALLS = {
    "rows": Call("tr", [
        Use(lambda given, column: str(column), expected=lambda given, expected: given.results[0]),
        Use(lambda given, column: column.share()),
        Use(lambda given, column: pickle.loads(pickle.dumps(column))),
        Use(lambda given, column: Column.parse(given.type, str(column)))]),
    "filter": Call("trM", [
        Use(lambda given, column, mask: column.filter(mask)),
        Use(lambda given, column, mask: column.filter(sel.Selection(mask))),
        Use(lambda given, column, mask: column.filter(given.columns[1].values), lambda given, expected: given.has_type(1, "bool")),
        Use(lambda given, column, mask: column[mask], _is_mask)]),
    "take": Call("trU", [
        *_with_indices(1, "u32", lambda given, column, indices: column.take(indices), _take),
        Use(lambda given, column, indices: column.take(given.columns[1].values), lambda given, expected: given.has_type(1, "u32")),
        Use(lambda given, column, indices: column[indices], lambda given, expected: given.has_type(1, "u32")),
        Use(_numpy_indices, lambda given, expected: numpy is not None and given.has_type(1, "u32"))]),
    "if_then_else": Call("tMrr", [
        Use(lambda given, mask, first, second: sel.choose(mask, first, second)),
        Use(lambda given, mask, first, second: sel.choose(given.columns[0].values, first, second), lambda given, expected: given.has_type(0, "bool"))]),
    "if_then_else_broadcast_true": Call("tMrr", [
        _broadcast("sel_if_then_else_broadcast_true"),
        Use(lambda given, mask, first, second: sel.choose(mask, given.columns[1].values[0], second), _is_one_value(1, 2))]),
    "if_then_else_broadcast_false": Call("tMrr", [
        _broadcast("sel_if_then_else_broadcast_false"),
        Use(lambda given, mask, first, second: sel.choose(mask, first, given.columns[2].values[0]), _is_one_value(2, 1))]),
    "if_then_else_broadcast_both": Call("tMrr", [
        _broadcast("sel_if_then_else_broadcast_both"),
        Use(lambda given, mask, first, second: sel.choose(mask, given.columns[1].values[0], given.columns[2].values[0]), _are_two_values)]),
    "list_get": Call("tri", [
        Use(lambda given, lists: lists.sublist_get(given.others[0])),
        Use(lambda given, lists: lists.list_element(given.others[0]), lambda given, expected: bool(given.type.kind == "list"))], _type_of_item),
    "index_is_oob": Call("tri", [Use(lambda given, lists: lists.index_is_oob(given.others[0]))], result="flag"),
    "fixed_size_list_get": Call("trif", [Use(lambda given, lists: lists.fixed_get(*given.others))], _type_of_item),
    "fixed_size_list_get_each": Call("trIf", _with_indices(1, "i64", lambda given, lists, indices: lists.fixed_get(indices, *given.others), _get_each), _type_of_item),
    "unit_list": Call("tr", [Use(lambda given, column: column.unit_list())], lambda given: Type("list", (given.type,))),
    "reverse": Call("tr", [
        Use(lambda given, column: column.reverse()),
        Use(lambda given, column: column[::-1])]),
    "slice": Call("trnn", [
        Use(lambda given, column: column.sliced(*given.others)),
        Use(lambda given, column: column[given.others[0] : sum(given.others)], _has_rows)]),
    "child": Call("tr", [Use(_items, expected=_as_values)], _type_of_item),
    "field": Call("trn", [Use(_field, expected=_as_values)], lambda given: given.type.children[given.others[0]]),
    "list_new": Call("trov", [_internal(_list_new)], lambda given: Type("list", (given.type,))),
    "fixed_size_list_new": Call("trnnv", [_internal(_fixed_size_list_new)], lambda given: Type("fixed", (given.type,), given.others[0])),
    "struct_new": Call("cnv", [_internal(_struct_new)], _type_of_struct),
    "flatten": Call("cwn", [Use(lambda given, *columns: sel.flatten(columns, *given.others))], lambda given: given.columns[0].type),
    "collect_rows": Call("cp", [Use(lambda given, *columns: sel.collect_rows(columns, given.others[0]))], lambda given: given.columns[0].type),
    "dictionary": Call("US", _with_indices(0, "u32", lambda given, keys, values: sel.propagate_dictionary(keys, values), _propagated), result="dictionary"),
    "equal": Call("trtr", [
        Use(lambda given, first, second: first.equals(second)),
        Use(lambda given, first, second: second.equals(first))], result="flag"),
    "parse": Call("xy", [Use(lambda given: Column.parse(*given.others))], lambda given: sel.parse_type(given.others[0])),
    "parse_type": Call("x", [
        Use(lambda given: str(Column.parse(given.others[0], "[]").type)),
        Use(lambda given: str(sel.parse_type(given.others[0])), lambda given, expected: isinstance(expected, str))], result="type"),
}
