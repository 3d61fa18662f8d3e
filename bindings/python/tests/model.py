"""Rows as plain Python lists: types, random columns and the kernels' definitions, written out row by row."""

from __future__ import annotations

import random
from ctypes import byref
from itertools import accumulate
from typing import Any

from sel import Column, Type
from sel._library import call
from sel._makers import made_of
from sel._memory import validity_of, words
from sel._owner import Owner, from_several

LEAVES = ("null", "bool", "i8", "i16", "i32", "i64", "i128", "u8", "u16", "u32", "u64", "u128", "binary", "binview", "utf8")


def random_type(rng: random.Random, depth: int, but: tuple[str, ...] = ()) -> Type:
    """A type that is nested at most so deep, with none of some leaves."""
    leaves = [leaf for leaf in LEAVES if leaf not in but]
    if depth == 0 or rng.random() < 0.3:
        return Type(rng.choice(leaves))
    kind = rng.choice(("list", "fixed", "struct"))
    if kind == "struct":
        return Type(kind, tuple(random_type(rng, depth - 1, but) for _ in range(rng.randrange(1, 4))))
    return Type(kind, (random_type(rng, depth - 1, but),), rng.randrange(4) if kind == "fixed" else 0)


def random_number(rng: random.Random, kind: str) -> int:
    bits = int(kind[1:])
    least, most = (-(1 << (bits - 1)), (1 << (bits - 1)) - 1) if kind[0] == "i" else (0, (1 << bits) - 1)
    if kind == "i128":  # as many digits as Arrow's decimals have
        least, most = -(10**38) + 1, 10**38 - 1
    return rng.choice((least, most, 0, rng.randrange(least, most + 1)))


def random_value(rng: random.Random, wanted: Type) -> Any:
    if wanted.kind == "null" or rng.random() < 0.2:
        return None
    if wanted.kind == "bool":
        return rng.random() < 0.5
    if wanted.kind == "utf8":
        return "".join(rng.choice("aé√\U0001f600\"\\\n") for _ in range(rng.choice((0, 1, 3, 4, 20))))
    if wanted.kind in ("binary", "binview"):
        return bytes(rng.randrange(256) for _ in range(rng.choice((0, 1, 12, 13, 40))))
    if wanted.kind == "list":
        return random_rows(rng, wanted.children[0], rng.randrange(4))
    if wanted.kind == "fixed":
        return random_rows(rng, wanted.children[0], wanted.width)
    if wanted.kind == "struct":
        return tuple(random_value(rng, child) for child in wanted.children)
    return random_number(rng, wanted.kind)


def random_rows(rng: random.Random, wanted: Type, count: int) -> list[Any]:
    return [random_value(rng, wanted) for _ in range(count)]


def plain_value(rng: random.Random, wanted: Type) -> Any:
    """A value that is not null, where the type has one."""
    value = None
    while value is None and wanted.kind != "null":
        value = random_value(rng, wanted)
    return value


class Layout:
    """Lays rows out as a column that was sliced twice at each depth, and has other values in its null slots.

    `fronts` are the numbers of rows that the slices may have before them. Other values are drawn anew, or out of a pool
    for each type, which is faster for many columns of few types.
    """

    def __init__(self, rng: random.Random, fronts: tuple[int, ...] = (0, 1, 2), pools: dict[Type, list[Any]] | None = None) -> None:
        self.rng, self.fronts, self.pools = rng, fronts, pools

    def column(self, rows: list[Any], wanted: Type) -> Column:
        front, back = self.rng.choice(self.fronts), self.rng.randrange(3)
        pool = self._pool(wanted)
        padded = self._others(wanted, pool, front) + rows + self._others(wanted, pool, back)
        valid = [row is not None for row in padded]
        column = Column._owning(self._with_nulls([self._value(wanted, pool) if row is None else row for row in padded], valid, wanted))
        first = self.rng.randrange(front + 1)
        return column.sliced(first, len(padded) - first).sliced(front - first, len(rows))

    def _pool(self, wanted: Type) -> list[Any] | None:
        """Returns the pool of a type, or None if other values are drawn anew."""
        if self.pools is None:
            return None
        if wanted not in self.pools:
            self.pools[wanted] = random_rows(self.rng, wanted, 100) + [plain_value(self.rng, wanted) for _ in range(20)]
        return self.pools[wanted]

    def _others(self, wanted: Type, pool: list[Any] | None, count: int) -> list[Any]:
        """Returns other rows, null ones too."""
        if pool is None:
            return random_rows(self.rng, wanted, count)
        first = self.rng.randrange(100 - count)
        return pool[first : first + count]

    def _value(self, wanted: Type, pool: list[Any] | None) -> Any:
        """Returns a value that is not null, if the type has one."""
        return plain_value(self.rng, wanted) if pool is None else pool[-1 - self.rng.randrange(20)]

    def _with_nulls(self, values: list[Any], valid: list[bool], wanted: Type) -> Owner:
        """Returns the column of the values in which the rows that are not valid are null."""
        if wanted.kind in ("list", "fixed", "struct"):
            return {"list": self._lists, "fixed": self._fixed_lists, "struct": self._structs}[wanted.kind](values, valid, wanted)
        return made_of(values, wanted, valid=valid)

    def _lists(self, values: list[Any], valid: list[bool], wanted: Type) -> Owner:
        made, offsets = Owner(), words("q", accumulate(map(len, values), initial=0))
        child = self.column([item for value in values for item in value], wanted.children[0])
        call("sel_list_new", offsets, len(values) + 1, *validity_of(valid), child, byref(made._handle))
        return made

    def _fixed_lists(self, values: list[Any], valid: list[bool], wanted: Type) -> Owner:
        made = Owner()
        child = self.column([item for value in values for item in value], wanted.children[0])
        call("sel_fixed_size_list_new", wanted.width, len(values), *validity_of(valid), child, byref(made._handle))
        return made

    def _structs(self, values: list[Any], valid: list[bool], wanted: Type) -> Owner:
        fields = [self.column([value[place] for value in values], child) for place, child in enumerate(wanted.children)]
        return from_several(fields, lambda handles, made: call(
            "sel_struct_new", len(values), *validity_of(valid), handles, len(fields), byref(made._handle)))


def laid_out(rng: random.Random, rows: list[Any], wanted: Type) -> Column:
    """Returns a column with these rows in a random layout."""
    return Layout(rng).column(rows, wanted)


def random_column(rng: random.Random, depth: int, counts: range) -> tuple[Type, list[Any], Column]:
    """Returns a type that is nested at most so deep, rows of it, as many as one of the counts, and a column with these rows."""
    wanted = random_type(rng, depth)
    rows = random_rows(rng, wanted, rng.choice(counts))
    return wanted, rows, laid_out(rng, rows, wanted)


def kept(rows: list[Any], mask: list[bool | None]) -> list[Any]:
    return [row for row, keep in zip(rows, mask) if keep]


def taken(rows: list[Any], indices: list[int | None]) -> list[Any]:
    return [None if index is None else rows[index] for index in indices]


def chosen(mask: list[bool | None], first: list[Any], second: list[Any]) -> list[Any]:
    return [a if keep else b for keep, a, b in zip(mask, first, second)]


def element(row: list[Any] | None, index: int) -> Any:
    if row is None or not -len(row) <= index < len(row):
        return None
    return row[index]


def is_outside(rows: list[list[Any] | None], index: int) -> bool:
    return any(row is not None and not -len(row) <= index < len(row) for row in rows)


def side_by_side(columns: list[list[Any]], widths: list[int], height: int) -> list[Any]:
    return [
        rows[(0 if len(rows) == width else place * width) + item]
        for place in range(height) for rows, width in zip(columns, widths) for item in range(width)
    ]


def handed_on(keys: list[int | None], values: list[Any]) -> tuple[list[int | None], list[Any]]:
    """Keys that are null where their value is, and the values that are not null."""
    left = [value for value in values if value is not None]
    ranks = [None if value is None else sum(before is not None for before in values[:place]) for place, value in enumerate(values)]
    return [None if key is None else ranks[key] for key in keys], left
