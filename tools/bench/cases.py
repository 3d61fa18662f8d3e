"""The timed cases. Each has its data, the names of its contenders in bench.c, the numpy call, and a check of the result."""

from __future__ import annotations

import ctypes
from ctypes import byref, c_int64, c_size_t, c_void_p
from typing import Any, Callable, Iterator, List, Tuple, Union

import numpy as np
import numpy.typing as npt

import sel
from sel._column import _NOTHING, Column
from sel._library import Handle, Slice, call
from sel._owner import Owner

RNG = np.random.default_rng(7)
DENSITIES = (.001, .01, .1, .5, .9, .99, .999)
FEW = (.01, .5, .99)
NUMBERS: dict[int, Any] = {1: np.uint8, 2: np.uint16, 4: np.uint32, 8: np.uint64}

Array = npt.NDArray[Any]
# what a job points to, or one of its numbers
Part = Union[Array, Column, "ctypes.Array[Handle]", int]

# the values of an array with nulls, and where they are null
data_of: Callable[[Array], Array] = np.ma.getdata
nulls_of: Callable[[Array], Array] = np.ma.getmaskarray


class Job(ctypes.Structure):
    """`struct job` of bench.c."""

    _fields_ = [(name, c_size_t) for name in ("rows", "made", "size", "copied", "width", "height")] \
        + [(name, c_void_p) for name in ("mask", "valid", "values", "others", "offsets", "indices", "source")] + [("index", c_int64)] \
        + [(name, c_void_p) for name in ("first", "second", "third")]


class Case:
    """One row of the table."""

    def __init__(self, kernel: str, rows: int, varied: str, calls: Tuple[str, str], check: Callable[[], None], numpy: Callable[[], object] | None = None,
                 keep: object = (), read: int = 0, written: int = 0, **parts: Part) -> None:
        """`read` and `written` are the bytes that any implementation must read and write; the copy moves as many in total."""
        self.kernel, self.rows, self.varied, self.calls, self.check, self.numpy = kernel, rows, varied, calls, check, numpy
        copied = (read + written + 1) // 2
        self.job = Job(rows=rows, copied=copied)
        self.keep: List[object] = [keep]
        parts["source"] = np.ones(copied + 1, dtype=np.uint8)
        for name, part in parts.items():
            self.keep.append(part)
            setattr(self.job, name, place_of(part))


def place_of(part: Part) -> int:
    """Returns the address of an array or of a column's handle. Returns a number unchanged."""
    if isinstance(part, np.ndarray):
        return part.ctypes.data
    if isinstance(part, Column):
        return ctypes.addressof(part._handle)
    if isinstance(part, ctypes.Array):
        return ctypes.addressof(part)
    return part


def equal(found: npt.ArrayLike, wanted: npt.ArrayLike, what: str) -> None:
    if not np.array_equal(np.asarray(found), np.asarray(wanted)):
        raise SystemExit(f"wrong result: {what}")


# ---- data


def padded(values: Array) -> Array:
    """Returns the same values with spare memory after them, so that whole blocks of 64 can be read."""
    room = np.zeros(len(values) + 64, dtype=values.dtype)
    room[:len(values)] = values
    return room[:len(values)]


def packed(flags: Array) -> Array:
    return np.concatenate([np.packbits(flags, bitorder="little"), np.zeros(16, dtype=np.uint8)])


def random_mask(rows: int, density: float) -> Array:
    return RNG.random(rows) < density


def long_runs(rows: int, density: float) -> Array:
    """Returns a mask of runs of some hundred rows."""
    mask, at, keep = np.zeros(rows, dtype=bool), 0, False
    while at < rows:
        run = 1 + int(RNG.exponential(512 * (density if keep else 1 - density) * 2))
        mask[at:at + run] = keep
        at, keep = at + run, not keep
    return mask


def mask_column(mask: Array, offset: int = 0) -> Column:
    return Column.from_numpy(np.concatenate([np.zeros(offset, dtype=bool), mask])).sliced(offset, len(mask))


def made_by(name: str, *arguments: object) -> Column:
    """Returns the column that a call makes."""
    made = Owner()
    call(name, *arguments, byref(made._handle))
    return Column._owning(made)


def wides(values: Array) -> Column:
    """Returns the UInt128 column of pairs of words."""
    return made_by("sel_uint128_new", values.ctypes.data, len(values), _NOTHING, 0, False)


def read_wides(column: Column) -> Array:
    values = np.zeros((len(column), 2), dtype=np.uint64)
    call("sel_uint128_values", column, values.ctypes.data, len(column))
    return values


def views_of(rows: int) -> Array:
    """Returns the views of strings of eight letters, stored inline."""
    views = np.zeros((rows + 64, 4), dtype=np.uint32)
    views[:rows, 0] = 8
    views[:rows, 1:3] = RNG.integers(97, 123, (rows, 8), dtype=np.uint8).view(np.uint32)
    return views[:rows]


def texts(views: Array, valid: Array | None = None) -> Column:
    bits = packed(valid) if valid is not None else None
    given = (_NOTHING, 0, False) if bits is None else (bits.ctypes.data, len(bits), True)
    return made_by("sel_string_view_new", views.ctypes.data, len(views), (Slice * 1)(), 0, *given)


def read_views(column: Column) -> Array:
    views = np.zeros((len(column), 4), dtype=np.uint32)
    call("sel_views", column, views.ctypes.data, len(column))
    return views


def lists(offsets: Array, values: Array) -> Column:
    return made_by("sel_list_new", offsets.ctypes.data, len(offsets), _NOTHING, 0, False, Column.from_numpy(values))


def read_lists(column: Column) -> Tuple[Array, Array]:
    offsets = np.zeros(len(column) + 1, dtype=np.int64)
    call("sel_offsets", column, offsets.ctypes.data, len(offsets))
    return np.diff(offsets), column.child().to_numpy()[offsets[0]:offsets[-1]]


def blocks(width: int, values: Array) -> Column:
    return made_by("sel_fixed_size_list_new", width, len(values) // width, _NOTHING, 0, False, Column.from_numpy(values))


def binaries(offsets: Array, values: Array) -> Column:
    return made_by("sel_binary_new", offsets.ctypes.data, len(offsets), values.ctypes.data, len(values), _NOTHING, 0, False)


def several(columns: List[Column]) -> Tuple[ctypes.Array[Handle], List[Column]]:
    """Returns an array of handles that share the columns, and the columns that own the handles."""
    shares = [column.share() for column in columns]
    handles = (Handle * len(shares))(*[share._handle for share in shares])
    return handles, shares


# ---- filters


def filter_of_numbers(rows: int, size: int, density: float, runs: bool = False, offset: int = 0, nulls: bool = False) -> Case:
    mask = (long_runs if runs else random_mask)(rows, density)
    values = padded(RNG.integers(0, 2 ** (8 * size) - 1, rows, dtype=NUMBERS[size], endpoint=True))
    valid = random_mask(rows, .9) if nulls else None
    column, flags, bits = Column.from_numpy(values, valid), mask_column(mask, offset), packed(mask)
    kept = int(mask.sum())
    varied = f"{density:g} {'runs' if runs else 'random'}" + (f", at bit {offset}" if offset else "") + (", nulls" if nulls else "")

    def check() -> None:
        answer = column.filter(flags).to_numpy()
        equal(data_of(answer)[~nulls_of(answer)], values[mask] if valid is None else values[mask & valid], varied)
        if valid is not None:
            equal(~nulls_of(answer), valid[mask], varied)

    def by_numpy() -> object:
        return values[mask] if valid is None else (values[mask], valid[mask])

    parts: dict[str, Part] = {} if valid is None else {"valid": packed(valid)}
    return Case(f"filter, {size} byte{'s' if size > 1 else ''}", rows, varied, ("filter", "loop_filter"), check, by_numpy, made=kept, size=size,
                read=rows // 8 + kept * size + (rows // 8 if nulls else 0), written=kept * size + (kept // 8 if nulls else 0), mask=bits, values=values, first=column, second=flags, **parts)


def filter_of_wides(rows: int, density: float) -> Case:
    mask = random_mask(rows, density)
    values = np.zeros((rows + 64, 2), dtype=np.uint64)[:rows]
    values[:] = RNG.integers(0, 2 ** 63, (rows, 2), dtype=np.uint64)
    column, flags, pairs = wides(values), mask_column(mask), values.view(np.complex128).reshape(-1)
    return Case("filter, 16 bytes", rows, f"{density:g} random", ("filter", "loop_filter"), lambda: equal(read_wides(column.filter(flags)), values[mask], "UInt128 values"),
                lambda: pairs[mask], made=int(mask.sum()), size=16, read=rows // 8 + int(mask.sum()) * 16, written=int(mask.sum()) * 16, mask=packed(mask), values=values, first=column, second=flags)


def filter_of_bits(rows: int, density: float) -> Case:
    mask, flags = random_mask(rows, density), random_mask(rows, .5)
    column, by, kept = Column.from_numpy(flags), mask_column(mask), int(mask.sum())
    return Case("filter, bits", rows, f"{density:g} random", ("filter", "loop_filter_bits"), lambda: equal(column.filter(by).to_numpy(), flags[mask], "bits"),
                lambda: flags[mask], made=kept, read=rows // 4, written=kept // 8, mask=packed(mask), values=packed(flags), first=column, second=by)


def filter_of_views(rows: int, density: float) -> Case:
    mask, views = random_mask(rows, density), views_of(rows)
    column, flags, kept = texts(views), mask_column(mask), int(mask.sum())
    return Case("filter, views", rows, f"{density:g} random", ("filter", "loop_filter"), lambda: equal(read_views(column.filter(flags)), views[mask], "views"),
                made=kept, size=16, read=rows // 8 + kept * 16, written=kept * 16, mask=packed(mask), values=views, first=column, second=flags)


def list_data(rows: int) -> Tuple[Array, Array, Array]:
    lengths = RNG.integers(0, 7, rows)
    offsets = np.concatenate([[0], np.cumsum(lengths)]).astype(np.int64)
    return lengths, offsets, RNG.integers(0, 2 ** 62, int(offsets[-1]), dtype=np.int64)


def filter_of_lists(rows: int, density: float) -> Case:
    mask, (lengths, offsets, values) = random_mask(rows, density), list_data(rows)
    column, flags, kept = lists(offsets, values), mask_column(mask), int(mask.sum())

    def check() -> None:
        found, items = read_lists(column.filter(flags))
        equal(found, lengths[mask], "list lengths")
        equal(items, values[np.repeat(mask, lengths)], "list items")

    return Case("filter, lists", rows, f"{density:g} random", ("filter", "loop_filter_lists"), check, made=kept, size=8, read=rows // 8 + int(lengths[mask].sum() * 8 + kept * 8), written=int(lengths[mask].sum() * 8 + kept * 8),
                mask=packed(mask), values=values, offsets=offsets, first=column, second=flags)


def filter_of_blocks(rows: int, density: float) -> Case:
    mask, values = random_mask(rows, density), RNG.integers(0, 2 ** 62, rows * 4, dtype=np.int64)
    column, flags, kept, square = blocks(4, values), mask_column(mask), int(mask.sum()), values.reshape(-1, 4)
    return Case("filter, lists of four", rows, f"{density:g} random", ("filter", "loop_filter_blocks"),
                lambda: equal(column.filter(flags).child().to_numpy(), square[mask].reshape(-1), "blocks"), lambda: square[mask],
                made=kept, width=4, read=rows // 8 + kept * 32, written=kept * 32, mask=packed(mask), values=values, first=column, second=flags)


def filter_of_structs(rows: int, density: float) -> Case:
    mask, first, second = random_mask(rows, density), padded(RNG.integers(0, 2 ** 62, rows)), padded(RNG.integers(0, 2 ** 62, rows))
    handles, shares = several([Column.from_numpy(first), Column.from_numpy(second)])
    column = made_by("sel_struct_new", rows, _NOTHING, 0, False, handles, 2)
    for share in shares:
        share._handle = Handle()
    flags, kept = mask_column(mask), int(mask.sum())

    def check() -> None:
        answer = column.filter(flags)
        equal(answer.field(0).to_numpy(), first[mask], "the first field")
        equal(answer.field(1).to_numpy(), second[mask], "the second field")

    return Case("filter, two fields", rows, f"{density:g} random", ("filter", "loop_filter_pairs"), check, lambda: (first[mask], second[mask]),
                made=kept, read=rows // 8 + kept * 16, written=kept * 16, mask=packed(mask), values=first, others=second, first=column, second=flags)


# ---- takes


def take_of_numbers(rows: int, size: int, order: str, nulls: bool = False) -> Case:
    places = RNG.integers(0, rows, rows, dtype=np.uint32)
    if order == "sorted":
        places.sort()
    values = RNG.integers(0, 2 ** (8 * size) - 1, rows, dtype=NUMBERS[size], endpoint=True)
    valid = random_mask(rows, .9) if nulls else None
    column, indices = Column.from_numpy(values, valid), Column.from_numpy(places)

    def check() -> None:
        answer = column.take(indices).to_numpy()
        there = np.ones(rows, dtype=bool) if valid is None else valid[places]
        equal(~nulls_of(answer), there, "nulls of a take")
        equal(data_of(answer)[there], values[places][there], "values of a take")

    def by_numpy() -> object:
        return np.take(values, places) if valid is None else (np.take(values, places), np.take(valid, places))

    parts: dict[str, Part] = {} if valid is None else {"valid": packed(valid)}
    return Case(f"take, {size} byte{'s' if size > 1 else ''}", rows, order + (", nulls" if nulls else ""), ("take", "loop_take"), check, by_numpy,
                made=rows, size=size, read=rows * (4 + size), written=rows * size, values=values, indices=places, first=column, second=indices, **parts)


def take_of_nulls(rows: int, nulls: bool = False) -> Case:
    """A take of a column of nulls, which has no values: the time is that of the bounds check of the indices."""
    places = RNG.integers(0, rows, rows, dtype=np.uint32)
    valid = random_mask(rows, .5) if nulls else None
    column, indices, beyond = made_by("sel_null_new", rows), Column.from_numpy(places, valid), made_by("sel_null_new", int(places.max()))

    def check() -> None:
        answer = column.take(indices)
        equal([len(answer), answer.null_count], [rows, rows], "nulls of a take")
        try:
            beyond.take(Column.from_numpy(places))
        except IndexError:
            return
        raise SystemExit("wrong result: an index out of bounds is taken")

    def by_numpy() -> object:
        return places.max() < rows if valid is None else ((places < rows) | ~valid).all()

    parts: dict[str, Part] = {} if valid is None else {"valid": packed(valid)}
    return Case("take, nulls", rows, "random" + (", half of the indices null" if nulls else ""), ("take", "loop_in_bounds"), check, by_numpy,
                made=rows, read=rows * 4 + (rows // 8 if nulls else 0), written=0, indices=places, first=column, second=indices, **parts)


def take_of_others(rows: int) -> Iterator[Case]:
    places = RNG.integers(0, rows, rows, dtype=np.uint32)
    indices = Column.from_numpy(places)
    flags, views, (lengths, offsets, values) = random_mask(rows, .5), views_of(rows), list_data(rows)
    bits, shown, listed = Column.from_numpy(flags), texts(views), lists(offsets, values)
    yield Case("take, bits", rows, "random", ("take", "loop_take_bits"), lambda: equal(bits.take(indices).to_numpy(), flags[places], "bits of a take"),
               lambda: np.take(flags, places), made=rows, read=rows * 4 + rows // 8, written=rows // 8, values=packed(flags), indices=places, first=bits, second=indices)
    yield Case("take, views", rows, "random", ("take", "loop_take"), lambda: equal(read_views(shown.take(indices)), views[places], "views of a take"),
               made=rows, size=16, read=rows * 20, written=rows * 16, values=views, indices=places, first=shown, second=indices)

    def check_lists() -> None:
        found, items = read_lists(listed.take(indices))
        starts = offsets[places]
        wanted = np.repeat(starts - np.concatenate([[0], np.cumsum(lengths[places])[:-1]]), lengths[places]) + np.arange(int(lengths[places].sum()))
        equal(found, lengths[places], "lengths of taken lists")
        equal(items, values[wanted], "items of taken lists")

    copied = int(lengths[places].sum() * 8 + rows * 8)
    yield Case("take, lists", rows, "random", ("take", "loop_take_lists"), check_lists, made=rows, size=8, read=copied + rows * 4, written=copied,
               values=values, offsets=offsets, indices=places, first=listed, second=indices)
    text = RNG.integers(0, 256, int(offsets[-1]), dtype=np.uint8)
    joined = binaries(offsets, text)

    def check_bytes() -> None:
        answer = joined.take(indices)
        found = np.zeros(rows + 1, dtype=np.int64)
        call("sel_offsets", answer, found.ctypes.data, rows + 1)
        size = c_size_t()
        call("sel_bytes_len", answer, byref(size))
        data = np.zeros(max(1, size.value), dtype=np.uint8)
        call("sel_bytes", answer, data.ctypes.data, size.value)
        wanted = np.repeat(offsets[places] - np.concatenate([[0], np.cumsum(lengths[places])[:-1]]), lengths[places]) + np.arange(int(lengths[places].sum()))
        equal(np.diff(found), lengths[places], "lengths of taken bytes")
        equal(data[found[0]:found[-1]], text[wanted], "taken bytes")

    yield Case("take, bytes", rows, "random", ("take", "loop_take_lists"), check_bytes, made=rows, size=1, read=int(lengths[places].sum() + rows * 12), written=int(lengths[places].sum() + rows * 8),
               values=text, offsets=offsets, indices=places, first=joined, second=indices)


# ---- if-then-else


def choices(rows: int) -> Iterator[Case]:
    mask = random_mask(rows, .5)
    first, second = padded(RNG.integers(0, 2 ** 62, rows)), padded(RNG.integers(0, 2 ** 62, rows))
    flags, bits, one = mask_column(mask), packed(mask), Column.from_numpy(first)
    two, scalar, other = Column.from_numpy(second), Column.from_numpy(first[:1]), Column.from_numpy(second[:1])
    parts: dict[str, Any] = {"made": rows, "size": 8, "read": rows // 8 + rows * 8, "written": rows * 8, "mask": bits, "values": first, "others": second}
    yield Case("choose, 8 bytes", rows, "both columns", ("choose", "loop_choose"), lambda: equal(sel.choose(flags, one, two).to_numpy(), np.where(mask, first, second), "if-then-else"),
               lambda: np.where(mask, first, second), first=flags, second=one, third=two, **parts)
    yield Case("choose, 8 bytes", rows, "one scalar", ("choose_one", "loop_choose_one"),
               lambda: equal(flags._new("sel_if_then_else_broadcast_true", scalar, two).to_numpy(), np.where(mask, first[0], second), "if-then-else with a scalar"),
               lambda: np.where(mask, first[0], second), first=flags, second=scalar, third=two, **parts)
    yield Case("choose, 8 bytes", rows, "two scalars", ("choose_of_two", "loop_choose_of_two"),
               lambda: equal(flags._new("sel_if_then_else_broadcast_both", scalar, other).to_numpy(), np.where(mask, first[0], second[0]), "if-then-else of scalars"),
               lambda: np.where(mask, first[0], second[0]), first=flags, second=scalar, third=other, **parts)
    views, others = views_of(rows), views_of(rows)
    left, right = texts(views), texts(others)
    yield Case("choose, views", rows, "both columns", ("choose", "loop_choose_views"),
               lambda: equal(read_views(sel.choose(flags, left, right)), np.where(mask[:, None], views, others), "if-then-else of views"),
               made=rows, size=16, read=rows // 8 + rows * 16, written=rows * 16, mask=bits, values=views, others=others, first=flags, second=left, third=right)


# ---- lists and several columns


def list_elements(rows: int) -> Iterator[Case]:
    lengths, offsets, values = list_data(rows)
    column = lists(offsets, values)

    def check_get() -> None:
        answer, there = column.sublist_get(1).to_numpy(), lengths > 1
        equal(~nulls_of(answer), there, "validity of list elements")
        equal(data_of(answer)[there], values[offsets[:-1][there] + 1], "list elements")

    yield Case("sublist_get", rows, "index 1", ("sublist_get", "loop_sublist_get"), check_get, made=rows, read=rows * 16, written=rows * 8, index=1,
               values=values, offsets=offsets, first=column)
    numbers = RNG.integers(0, 2 ** 62, rows * 4)
    fixed = blocks(4, numbers)
    yield Case("fixed_get", rows, "index 1 of four", ("fixed_get", "loop_fixed_get"), lambda: equal(fixed.fixed_get(1).to_numpy(), numbers[1::4], "list elements"),
               lambda: numbers[1::4].copy(), made=rows, width=4, read=rows * 8, written=rows * 8, index=1, values=numbers, first=fixed)


def several_columns(rows: int) -> Iterator[Case]:
    one, two, high = RNG.integers(0, 2 ** 62, rows), RNG.integers(0, 2 ** 62, rows), rows // 4
    pair = [Column.from_numpy(one), Column.from_numpy(two)]
    handles, shares = several(pair)
    yield Case("flatten", rows, "two by four", ("flatten", "loop_flatten"),
               lambda: equal(sel.flatten(pair, [4, 4], high).to_numpy(), np.hstack([one.reshape(-1, 4), two.reshape(-1, 4)]).reshape(-1), "a flatten"),
               lambda: np.hstack([one.reshape(-1, 4), two.reshape(-1, 4)]), keep=shares, made=2 * rows, width=4, height=high, read=rows * 16, written=rows * 16,
               values=one, others=two, first=handles)
    picks = np.stack([RNG.integers(0, 2, rows, dtype=np.uint32), RNG.integers(0, rows, rows, dtype=np.uint32)], axis=1).copy()
    both = np.stack([one, two])

    def check_picks() -> None:
        given = several(pair)
        answer = made_by("sel_collect_rows", given[0], 2, picks.ctypes.data, rows, _NOTHING, 0, False)
        equal(answer.to_numpy(), both[picks[:, 0], picks[:, 1]], "gathered rows")

    yield Case("collect_rows", rows, "random, of two", ("collect_rows", "loop_collect_rows"), check_picks, lambda: both[picks[:, 0], picks[:, 1]],
               keep=shares, made=rows, read=rows * 16, written=rows * 8, values=picks, others=one, offsets=two, first=handles)


def dictionary(rows: int) -> Iterator[Case]:
    count = max(64, rows // 16)
    there, views, keys = random_mask(count, .9), views_of(count), RNG.integers(0, count, rows, dtype=np.uint32)
    values, named = texts(views, there), Column.from_numpy(keys)

    def check_dictionary() -> None:
        new_keys, new_values = sel.propagate_dictionary(named, values)
        found = new_keys.to_numpy()
        equal(~nulls_of(found), there[keys], "validity of the keys")
        equal(data_of(found)[there[keys]], (np.cumsum(there) - 1)[keys[there[keys]]], "the keys")
        equal(read_views(new_values), views[there], "the values")

    yield Case("propagate_dictionary", rows, ".9 of the values valid", ("propagate", "loop_propagate"), check_dictionary, made=rows, height=count, read=rows * 4 + count * 16, written=rows * 4 + rows // 8 + count * 16,
               mask=packed(there), values=views, indices=keys, first=named, second=values)


# ---- all of them


def at_size(rows: int) -> Iterator[Case]:
    """Yields the cases of one size."""
    for density in DENSITIES:
        yield filter_of_bits(rows, density)
        for runs in (False, True):
            for size in (1, 2, 4):
                yield filter_of_numbers(rows, size, density, runs)
            for offset in (0, 3):
                for nulls in (False, True):
                    yield filter_of_numbers(rows, 8, density, runs, offset, nulls)
        yield filter_of_wides(rows, density)
    for density in FEW:
        for case in (filter_of_views, filter_of_lists, filter_of_blocks, filter_of_structs):
            yield case(rows, density)
    for size in (1, 4, 8):
        yield take_of_numbers(rows, size, "random")
    yield take_of_numbers(rows, 8, "sorted")
    yield take_of_numbers(rows, 8, "random", nulls=True)
    for nulls in (False, True):
        yield take_of_nulls(rows, nulls)
    yield from take_of_others(rows)
    yield from choices(rows)
    yield from list_elements(rows)
    yield from several_columns(rows)
    yield from dictionary(rows)


def at_scale(most: int) -> Iterator[Case]:
    """Yields a filter and a take at 2^12 rows, and at four times as many each time up to `most`."""
    rows = 2 ** 12
    while rows <= most:
        yield filter_of_numbers(rows, 8, .5)
        yield take_of_numbers(rows, 8, "random")
        rows *= 4
