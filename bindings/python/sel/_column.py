"""Columns, and the kernels on them."""

from __future__ import annotations

import operator
from collections.abc import Iterable, Iterator, Sequence
from ctypes import byref, c_bool, c_size_t
from typing import TYPE_CHECKING, Any, overload

from . import _arrays
from ._arguments import column_of, columns_of, indices_of, integers_of, mask_of, picks_of, sizes_of
from ._arrow import Typed, imported_if_arrow
from ._checks import FIELD_NUMBER, LIST_INDEX, ROW_INDEX, ROW_OFFSET, SIZE, boolean, integer_within, is_integer, listed, position_of, shown, utf8_of
from ._conversions import filled
from ._equality import has_equal_rows
from ._errors import BrokenText, WrongArgument, error_of
from ._indexing import selected
from ._library import attempt, call, lib, status_of
from ._logical import ArrowType, as_logical_of, common_type, decoded, has_dictionary, nullable, of_format, storage_type, with_arrow_types
from ._makers import made_of
from ._memory import _NOTHING, unpacked
from ._names import VALID_NAMES, short_names
from ._owner import Owner, concatenated, derived, from_several
from ._readers import printed, rows_of, start_of_rows, text_of, validity_bits
from ._selection import Selection
from ._statuses import OK, ROW_SYNTAX, ROW_TYPE_MISMATCH, TYPE_MISMATCH, TYPE_SYNTAX
from ._types import Type, check_levels, parse_type, type_of_values
from ._values import counted_value

if TYPE_CHECKING:
    from typing import SupportsIndex, Union

    import numpy
    from typing_extensions import Self

    Boolean = Union[bool, numpy.bool_]
    Array = numpy.ndarray[Any, Any]

# The types whose values are plain numbers in memory.
_BUFFER_TYPES = frozenset(("i8", "i16", "i32", "i64", "u8", "u16", "u32", "u64", "float", "double"))

# tools/bench imports _NOTHING from here.
__all__ = ["_NOTHING", "Column", "choose", "collect_rows", "concat", "flatten", "if_else", "propagate_dictionary"]


class Column(Owner):
    """A column of rows, each of which is a value or null. It never changes.

    Columns may be used by several threads at the same time. The library works without the interpreter's lock: threads that filter
    columns run in parallel.

    Indices and sizes are ints or other objects with `__index__`, such as numpy's integers. Booleans and floats raise TypeError.
    An index that no row has raises IndexError, as does an index of a list outside the 64-bit integers; a size outside its
    range raises OverflowError. No integer is wrapped.

    Columns can be copied by `copy` and pickled. A copy shares memory with its column. A pickle of protocol 5 has the column's buffers,
    which are not copied if they are passed out of band (`pickle.dumps(column, 5, buffer_callback=..)`), as Dask does; the column that is
    read from it reads the buffers that it gets. Earlier protocols have the rows as Python values. A pickle of a slice has the slice's
    rows alone, and its cost is in proportion to them; a dictionary is pickled as a whole.

    Each method that takes a mask or indices takes a column, a numpy array or an iterable of Python values. `None` and what is
    masked are null.

    >>> sel.Column([1, 2, None])
    Column(i64, [1,2,null])
    >>> sel.Column([["a"], [], None], "list<string>")
    Column(list<utf8>, [["a"],[],null])
    """

    __slots__ = ("_logical",)

    _logical: ArrowType | None

    # ---- making

    # Not __init__: that can be called again, and would free a column which another thread may be reading.
    def __new__(cls, values: Iterable[Any], type: str | Type | None = None) -> Self:
        """Makes the column of Python values, of the type or of the one that the first value has; `None` is null.

        Integers of numpy and other objects with `__index__` are integers, a numpy.bool_ is a boolean, and neither is the other. Floats are
        numbers with `__float__`, but no booleans, texts, arrays or complex numbers. Structs are tuples, or dicts if the type names the fields.
        An integer for a date, a time, a timestamp or a duration is a count of its unit; a datetime is a date only if it says no more than that.

        A column as the values, or Arrow data of another library, keeps its type if none is given. Times in another unit are converted, or
        raise ValueError if the unit cannot hold them.

        Raises TypeError for a value of another type, and for values that are a text, bytes, a dict, a set or a data frame without Arrow data;
        OverflowError for a number that the type cannot hold, ValueError for a dict with other keys than the names of the fields and for a null where the type has none,
        and LimitPassed, an OverflowError, for a type with more than 128 levels.

        >>> sel.Column([1, None], "uint8")
        Column(u8, [1,null])
        >>> sel.Column([(1, "a"), None])
        Column(struct<i64,utf8>, [(1,"a"),null])
        >>> sel.Column([{"id": 1, "price": 2.5}], "struct<id: int64, price: double>").to_pylist()
        [{'id': 1, 'price': 2.5}]
        """
        found = _typed_if_column(values)
        if found is not None and type is None:
            return cls._owning(derived(found[0], "sel_share"), found[1])
        rows = listed(values, "values") if found is None else []
        wanted = type_of_values(rows) if type is None else parse_type(type) if isinstance(type, str) else type
        if not isinstance(wanted, Type):
            raise TypeError(f"type: {shown(type)} is neither a Type nor the text of one")
        check_levels(wanted)
        wanted = with_arrow_types(wanted)
        made = made_of(rows, wanted) if found is None else _converted(*found, wanted)
        if isinstance(wanted, ArrowType) and not wanted.is_nullable and lib.sel_null_count(made) > 0:
            raise ValueError("values: a row is None, and the type says that they are not null")
        return cls._owning(made, wanted if isinstance(wanted, ArrowType) else None)

    @staticmethod
    def from_pylist(values: Iterable[Any], type: str | Type | None = None) -> Column:
        """Returns the column of Python values, as `Column(values, type)` does.

        >>> sel.Column.from_pylist([True, None])
        Column(bool, [true,null])
        """
        return Column(values, type)

    @staticmethod
    def parse(type: str | Type, rows: str) -> Column:
        """Returns the column of a type with the rows of a text, both as `str` prints them, with JSON's white space and escapes.

        The text of a type is one that `parse_type` reads. Names of fields and `not null` are left out: the column has the type of the storage,
        and its rows are printed as they are read. Rows of other logical types, such as floats and dates, are not parsed.

        Raises TypeError if the rows are not a str; BrokenText, a ValueError, with the place of the first character with which no such text
        goes on, or of the first value that does not fit the type; and LimitPassed, an OverflowError, for a type of more than 64 levels and if
        another limit is exceeded.

        >>> sel.Column.parse("list<utf8>", '[["Ada", "Grace"], null]')
        Column(list<utf8>, [["Ada","Grace"],null])
        >>> sel.Column.parse('struct<"from, to": int64, n: int8 not null>', "[(1, 2), null]")
        Column(struct<i64,i8>, [(1,2),null])
        """
        if not isinstance(type, (str, Type)):
            raise TypeError(f"type: {shown(type)} is neither a Type nor the text of one")
        if not isinstance(rows, str):
            raise TypeError(f"rows: {shown(rows)} is of type {rows.__class__.__name__}, not str")
        if isinstance(type, Type):
            check_levels(type)
        made, place = Owner(), c_size_t()
        short, places = short_names(str(type))
        name, text = utf8_of(short, "type"), utf8_of(rows, "rows")
        status = attempt("sel_parse", name, len(name), text, len(text), byref(place), byref(made._handle))
        if status in (TYPE_SYNTAX, ROW_SYNTAX, ROW_TYPE_MISMATCH):
            before = len((name if status == TYPE_SYNTAX else text)[: place.value].decode(errors="ignore"))
            if status == TYPE_SYNTAX:
                raise BrokenText(status, status_of(status), places[before], f"; {_fault_of(type)}")
            raise BrokenText(status, status_of(status), before)
        if status != OK:
            raise error_of(status, status_of(status))
        if isinstance(type, str):
            parse_type(type)  # names of fields that Arrow cannot have
        return Column._owning(made)

    @staticmethod
    def from_numpy(values: Array, valid: Iterable[Boolean] | Array | None = None, copy: bool | None = None) -> Column:
        """Returns the column of an array of one dimension, of integers of 8 to 64 bits, floats, booleans, datetime64 or timedelta64.

        A row is null if it is masked or NaT, or if `valid`, a boolean for each row, is false. Raises TypeError for an array of another type.

        The column reads the memory of the array, without a copy, and keeps the array until the last column, slice or result that reads it is
        gone. **Nobody may write to the array meanwhile.** Arrays that are not contiguous, not aligned or in another byte order, booleans and
        days (`datetime64[D]`) are copied. With `copy=True` any array is copied; `copy=False` raises ValueError for one that has to be. A mask
        is always copied.

        >>> import numpy
        >>> sel.Column.from_numpy(numpy.array([1, 2, 3], dtype="int16"), valid=[True, False, True])
        Column(i16, [1,null,3])
        """
        if not _arrays.is_array(values):
            raise TypeError(f"values: {shown(values)} is not an array")
        wanted = None if copy is None else boolean(copy, "copy")
        return Column._owning(*_arrays.made_with_type(_arrays.opened(values, "values"), "values", valid, wanted))

    # ---- reading

    @property
    def type(self) -> Type:
        """The type of the rows: an `ArrowType` if the column has a logical type, else that of the storage.

        >>> str(sel.Column([[1], None]).type), str(sel.Column([0.5]).type)
        ('list<i64>', 'double')
        """
        return self.storage if self._logical is None else self._logical

    @property
    def storage(self) -> Type:
        """The type of the storage, which the kernels see.

        >>> str(sel.Column([0.5]).storage)
        'u64'
        """
        return storage_type(self)

    def decoded(self) -> Column:
        """Returns the column without dictionaries, at every depth: the values in place of their keys.

        Where a key names a null value, the row is None. It counts as null in the decoded column alone: `null_count`, `valid`, `drop_null`
        and `fill_null` of a column with a dictionary see its null keys, as in Arrow.

        >>> sel.Column([1, None]).decoded()
        Column(i64, [1,null])
        """
        return self.share() if self._logical is None else Column._owning(*decoded(self, self._logical))

    @property
    def null_count(self) -> int:
        """The number of null rows.

        >>> sel.Column([1, None, None]).null_count
        2
        """
        return int(lib.sel_null_count(self))

    @property
    def nbytes(self) -> int:
        """The number of bytes of the buffers that the rows are in, which other columns may share.

        A slice counts what its rows need, and all data buffers of views.

        >>> sel.Column([1, 2, 3]).nbytes, sel.Column([1, None, 3]).nbytes
        (24, 25)
        """
        from ._buffers import size_of_buffers

        return size_of_buffers(self)

    def __sizeof__(self) -> int:
        """Returns the size of the object and of its buffers in bytes, by which `sys.getsizeof` and Dask measure it."""
        return object.__sizeof__(self) + self.nbytes

    def valid(self) -> list[bool]:
        """Returns for each row whether it is valid, that is, not null.

        >>> sel.Column([1, None]).valid()
        [True, False]
        """
        bits = validity_bits(self)
        if bits is None:
            return [self._kind() != "null"] * len(self)
        return unpacked(bits, len(self))

    def to_pylist(self) -> list[Any]:
        """Returns the rows as Python values: int, bool, str, bytes, list, tuple (of a struct), and `None` for null.

        With a logical type they are float, date, time, datetime, timedelta, Decimal, the values of a dictionary, and dicts of structs whose
        fields have names; maps are lists of pairs. What Python cannot represent, such as nanoseconds in a datetime or a time of day in a date,
        is an int.

        >>> sel.Column.parse("struct<i8,binary>", '[(1, h"00ff"), null]').to_pylist()
        [(1, b'\\x00\\xff'), None]
        """
        return rows_of(self, self._logical)

    def to_numpy(self, zero_copy_only: bool = False, writable: bool | None = None) -> Array:
        """Returns integers of 8 to 64 bits, floats, booleans, dates, timestamps and durations as an array, masked if some row is null.

        By default it is a copy, which may be written. With `writable=False` it is a read-only view of the column's memory where that is
        possible: integers, floats, timestamps and durations without nulls. The view keeps the column's memory. With `zero_copy_only=True` it
        is such a view, or ValueError is raised.

        Dates and timestamps are of type datetime64, durations of type timedelta64. Raises TypeError for a column of another type.

        >>> sel.Column([1, 2]).to_numpy()
        array([1, 2])
        >>> sel.Column([1, None]).to_numpy().mask
        array([False,  True])
        >>> sel.Column([1, 2]).to_numpy(zero_copy_only=True).flags.writeable
        False
        """
        only = boolean(zero_copy_only, "zero_copy_only")
        changes = not only if writable is None else boolean(writable, "writable")
        if only and changes:
            raise ValueError("an array without a copy cannot be writable: columns never change")
        array: Array = _arrays.array_of(self, self._logical, only, changes)
        return array

    def __array__(self, dtype: Any = None, copy: bool | None = None) -> Array:
        """Returns the rows for `numpy.asarray` and the like, of a column without nulls: a read-only view of its memory where that is
        possible, as `to_numpy(writable=False)` does. `numpy.array(column)` is always a copy.

        An array that numpy makes has no mask. So nulls raise ValueError; `to_numpy` masks them, and `fill_null` replaces them. Columns of
        other types than `to_numpy` takes raise TypeError. `copy=True` gives a copy, and `copy=False` raises ValueError if one is needed.

        >>> import numpy
        >>> numpy.asarray(sel.Column([1, None, 3]).fill_null(0))
        array([1, 0, 3])
        """
        array: Array = _arrays.plain_array_of(self, dtype, None if copy is None else boolean(copy, "copy"), self._logical)
        return array

    def values_buffer(self) -> memoryview:
        """Returns a read-only memoryview of the values of integers of 8 to 64 bits or floats, those in null slots too: `valid` says which
        rows are null. It keeps the column's memory, and copies nothing.

        Dates, times, timestamps, durations, and decimals and intervals of 32 or 64 bits are the integers of their storage, half floats their
        bits, rows of a dictionary their keys. Raises TypeError for another type.

        >>> view = sel.Column([1.5, -2.0]).values_buffer()
        >>> view.format, view.tolist(), view.readonly
        ('d', [1.5, -2.0], True)
        """
        return _arrays.buffer_of(self, self._logical)

    def __buffer__(self, flags: int) -> memoryview:
        """Returns `values_buffer()` for `memoryview(column)`, from Python 3.12 on: of integers and floats without nulls.

        Other columns raise BufferError, those whose values are no plain numbers (dates, times, half floats, keys of dictionaries) among them.
        """
        if self.null_count > 0 or str(self.type) not in _BUFFER_TYPES:
            raise BufferError(f"a column of type {self.type}{' with nulls' if self.null_count else ''} has no buffer; see values_buffer and to_numpy")
        return self.values_buffer()

    def __iter__(self) -> Iterator[Any]:
        """Returns an iterator over the rows as Python values.

        >>> [row for row in sel.Column(["a", None])]
        ['a', None]
        """
        return iter(self.to_pylist())

    @overload
    def __getitem__(self, place: slice | Column | Sequence[SupportsIndex] | Sequence[Boolean]) -> Column: ...

    @overload
    def __getitem__(self, place: SupportsIndex | Array) -> Any: ...

    def __getitem__(self, place: SupportsIndex | slice | Column | Sequence[SupportsIndex] | Sequence[Boolean] | Array) -> Any:
        """Returns a row as a Python value, or the column of the rows that a slice, a sequence of integers or a mask selects.

        Indices count from the end if they are negative. A slice shares memory with this column if its step is 1. A mask is a
        sequence, an array or a column of booleans, one for each row. In an array or a column, a null index gives a null row and a
        null boolean counts as false; in a sequence, `None` raises TypeError, because it does not say which of the two is meant, and
        so does a column of type null. The cost is in proportion to the rows that are returned, and to the key. A column of integers
        of which some are negative is read in a loop over its rows in Python.

        Raises IndexError for an index that no row has, and ValueError for a mask of another length.

        >>> column = sel.Column(["a", "b", "c"])
        >>> column[-1]
        'c'
        >>> column[::-1], column[[2, 0]], column[[True, False, True]]
        (Column(utf8, ["c","b","a"]), Column(utf8, ["c","a"]), Column(utf8, ["a","c"]))
        """
        if is_integer(place):
            return self.sliced(position_of(place, "index", len(self)), 1).to_pylist()[0]
        return Column._owning(selected(self, place, "index"), nullable(self._logical))

    def __repr__(self) -> str:
        """Returns the type and the first 12 rows as text, of at most 1,000 characters."""
        most = 12
        text = start_of_rows(self if len(self) <= most else self.sliced(0, most), self._logical, 1000)
        if text.endswith("..."):
            return f"Column({self.type}, {text} of {len(self)} rows)"
        return f"Column({self.type}, {text})" if len(self) <= most else f"Column({self.type}, {text[:-1]}, ... {len(self) - most} more])"

    def __str__(self) -> str:
        """Returns the rows as text, as in `[1,null,-3]`: strings as in JSON, bytes as in `h"00ff"`, structs in parentheses.

        >>> str(sel.Column([("a", b"\\xff"), None]))
        '[("a",h"ff"),null]'
        """
        return printed(self) if self._logical is None else text_of(self.to_pylist())

    def __eq__(self, other: object) -> bool:
        """Returns whether the other value is a column with the same rows, as `equals` does. It is one bool, not one for each row.

        Columns with equal rows may have different types, so a column has no hash. An array of numpy is no column: numpy compares it
        with the array of a column, row by row.

        >>> sel.Column([1, None]) == sel.Column([1, None]), sel.Column([1, 2]) == sel.Column([1, 3]), sel.Column([1, 2]) == [1, 2]
        (True, False, False)
        """
        if not isinstance(other, Column):
            return NotImplemented
        return self.equals(other)

    __hash__ = None  # type: ignore[assignment]

    def equals(self, other: Column) -> bool:
        """Returns whether both columns have the same rows, whatever their types. Null is equal to null.

        Numbers are equal by their values, as in Python, but NaN is equal to NaN. So 0.0 is equal to -0.0, and a float to an integer or to
        a float of another size. A time (a timestamp, date, time, duration or interval) is equal to the same one in another unit and to no
        number, and a boolean to a boolean alone. Structs whose fields have names are not equal to others.

        >>> sel.Column([1, None], "i8").equals(sel.Column([1, None], "u64"))
        True
        >>> sel.Column([0.0, float("nan")]).equals(sel.Column([-0.0, float("nan")], "float"))
        True
        """
        return has_equal_rows((self, self._logical), (column_of(other, "other"), getattr(other, "_logical", None)))

    # ---- parts

    def child(self) -> Column:
        """Returns the elements of lists or fixed-size lists as a column, with those outside of the lists. It shares memory with this one.

        Its type is nullable if an element is null, also one below a null list.

        >>> sel.Column([[1, 2], [], None, [3]]).child()
        Column(i64, [1,2,3])
        """
        return self._part("sel_child", logical=self._field_type(0))

    def field(self, field: str | SupportsIndex) -> Column:
        """Returns a field of structs by its name or its number. It shares memory with this column; in null structs it is as stored, and its
        type is nullable if a row of it is null there.

        Raises KeyError for a name and IndexError for a number that no field has.

        >>> sel.Column([(1, "a"), (2, "b")]).field(1)
        Column(utf8, ["a","b"])
        >>> sel.Column.from_arrow(sel.Table({"id": [1, 2], "price": [0.5, 2.5]})).field("price")
        Column(double, [0.5,2.5])
        """
        place = self._place_of(field) if isinstance(field, str) else integer_within(field, "field", FIELD_NUMBER)
        return self._part("sel_field", place, logical=self._field_type(place))

    def _place_of(self, name: str) -> int:
        names = [] if self._logical is None else [field.name for field in self._logical.fields]
        if name not in names:
            raise KeyError(f"there is no field {name!r}; {'the fields are ' + ', '.join(map(repr, names)) if names else 'fields have no names'}")
        return names.index(name)

    # ---- kernels

    def filter(self, mask: Column | Iterable[Boolean | None] | Array | Selection) -> Column:
        """Returns the rows where the mask is true; a null of the mask counts as false.

        To filter several columns by one mask, pass a `Selection` of it. Raises TypeError for integers as a mask, and WrongArgument,
        a TypeError, for a mask of another length.

        >>> sel.Column([31, None, 27, 45]).filter([True, True, None, True])
        Column(i64, [31,null,45])
        """
        if isinstance(mask, Selection):
            return self._like("sel_filter_selection", mask)
        return self._like("sel_filter", mask_of(mask, "mask"))

    def take(self, indices: Column | Iterable[SupportsIndex | None] | Array) -> Column:
        """Returns the rows at the indices, null where an index is null or masked.

        Raises IndexError for an index that no row has; negative ones do not count from the end. A column of indices has integers of any
        type, or the type null; WrongArgument, a TypeError, is raised for another type. Its integers are converted without a loop over them in
        Python.

        >>> sel.Column(["a", "b", "c"]).take([2, None, 0, 2])
        Column(utf8, ["c",null,"a","c"])
        >>> sel.Column(["a", "b", "c"]).take(sel.Column([2, None], "i64"))
        Column(utf8, ["c",null])
        """
        return self._new("sel_take", indices_of(indices, "indices"), logical=nullable(self._logical))

    def sublist_get(self, index: SupportsIndex) -> Column:
        """Returns the element of each list at the index, null if there is none; a negative index counts from the end.

        Raises IndexError for an index outside the 64-bit integers, which is out of bounds of every list.

        >>> sel.Column([[1, 2], [3], [], None]).sublist_get(-1)
        Column(i64, [2,3,null,null])
        """
        return self._new("sel_list_get", integer_within(index, "index", LIST_INDEX), logical=self._element_type())

    def index_is_oob(self, index: SupportsIndex) -> bool:
        """Returns whether some list that is not null has no element at the index. Raises IndexError as `sublist_get` does.

        >>> sel.Column([[1, 2], [3], None]).index_is_oob(1)
        True
        """
        answer = c_bool()
        call("sel_list_index_is_oob", self, integer_within(index, "index", LIST_INDEX), byref(answer))
        return answer.value

    def fixed_get(self, index: SupportsIndex | Column, null_on_oob: Boolean = True) -> Column:
        """Returns the element of each fixed-size list at the index, or at its row in a column of indices, of any integer type or null.

        A null index and one out of bounds give null, or raise IndexError if `null_on_oob` is false. An index outside the 64-bit integers raises
        IndexError.

        >>> pairs = sel.Column([[1, 2], [3, 4], None], "fixed<2,i64>")
        >>> pairs.fixed_get(1), pairs.fixed_get(sel.Column([0, -1, 0]))
        (Column(i64, [2,4,null]), Column(i64, [1,4,null]))
        """
        flag = boolean(null_on_oob, "null_on_oob")
        if isinstance(index, Column):
            return self._new("sel_fixed_size_list_get_each", integers_of((index, index._logical), "i64", LIST_INDEX, "index"), flag, logical=self._element_type())
        return self._new("sel_fixed_size_list_get", integer_within(index, "index", LIST_INDEX), flag, logical=self._element_type())

    def list_element(self, index: SupportsIndex) -> Column:
        """Returns the element of each list or fixed-size list at the index, as `sublist_get` and `fixed_get` do.

        >>> sel.Column([[1, 2], [3], None]).list_element(1)
        Column(i64, [2,null,null])
        """
        return self.fixed_get(index) if self._kind() == "fixed" else self.sublist_get(index)

    def drop_null(self) -> Column:
        """Returns the rows that are not null.

        >>> sel.Column([1, None, 3]).drop_null()
        Column(i64, [1,3])
        """
        bits = validity_bits(self)
        if bits is None:
            return self.sliced(0, 0) if self._kind() == "null" else self.share()
        return self._like("sel_filter_bits", bits, bits.size(), len(self))

    def fill_null(self, value: Any) -> Column:
        """Returns the rows with a value in place of each null. Raises TypeError or OverflowError if the type cannot hold the value.

        >>> sel.Column([1, None, 3]).fill_null(0)
        Column(i64, [1,0,3])
        """
        one, bits = made_of([value], self.type, "value"), validity_bits(self)
        if bits is None:  # no row is null, or all are and the type has no other value
            return self.share()
        return Column._owning(filled(self, one, bits), self._logical)

    def reverse(self) -> Column:
        """Returns the rows in reverse order, as `column[::-1]` does.

        >>> sel.Column([1, None, 3]).reverse()
        Column(i64, [3,null,1])
        """
        return self._like("sel_reverse")

    def unit_list(self) -> Column:
        """Returns a column of lists with one row each. Raises LimitPassed, an OverflowError, for a column of 128 levels.

        >>> sel.Column([1, None]).unit_list()
        Column(list<i64>, [[1],[null]])
        """
        return self._new("sel_unit_list", logical=None if self._logical is None else of_format("+L", [self._logical]))

    def sliced(self, offset: SupportsIndex, length: SupportsIndex) -> Column:
        """Returns `length` rows from row `offset` on, which share memory with this column.

        Raises IndexError if there are fewer rows, or if the offset is negative; OverflowError for a length outside [0, 2^64).

        >>> sel.Column([10, 11, 12, 13]).sliced(1, 2)
        Column(i64, [11,12])
        """
        return self._like("sel_slice", integer_within(offset, "offset", ROW_OFFSET), integer_within(length, "length", SIZE))

    def share(self) -> Column:
        """Returns the same rows as a second column, which shares memory with this one.

        >>> sel.Column([1, 2]).share()
        Column(i64, [1,2])
        """
        return self._like("sel_share")

    def __copy__(self) -> Column:
        """Returns what `share` returns."""
        return self.share()

    def __deepcopy__(self, memo: object) -> Column:
        """Returns what `share` returns: columns never change."""
        return self.share()

    def __reduce__(self) -> tuple[Any, ...]:
        """Returns what `pickle` stores: the rows as Python values of the storage, the text of its type, and the logical type."""
        rows = rows_of(self), str(self.storage)
        return (Column, rows) if self._logical is None else (_with_type, (*rows, self._logical))

    def __reduce_ex__(self, protocol: SupportsIndex) -> tuple[Any, ...]:
        """Returns what `pickle` stores: from protocol 5 on the column's buffers, which may be passed out of band, else the rows."""
        if operator.index(protocol) < 5:
            return self.__reduce__()
        from ._buffers import column_again, reduced

        parts = reduced(self)
        return self.__reduce__() if parts is None else (column_again, (self._logical, *parts))

    # ---- Arrow

    def __arrow_c_schema__(self) -> object:
        """Returns a capsule with the type, for other Arrow libraries.

        Without a logical type the fields of structs have the names `0`, `1` and so on.
        """
        from ._arrow import export_type

        return export_type(self, self._logical)

    def __arrow_c_array__(self, requested_schema: object = None) -> tuple[object, object]:
        """Returns capsules with the type and the rows, for other Arrow libraries, as in `pyarrow.array(column)`. Buffers are shared.

        A requested schema is honoured if it only differs in the layout: strings, binary and lists with offsets of 32 or 64 bits, or
        views. Else the type is this column's. Unsigned 128-bit integers are 16 bytes with the extension name `sel.uint128`. Raises
        BrokenRule, a ValueError, for signed 128-bit integers of more than 38 digits.
        """
        from ._arrow import export

        return export(self, self._logical, requested_schema)

    def __arrow_c_stream__(self, requested_schema: object = None) -> object:
        """Returns a capsule with a stream of one array, the column."""
        from ._stream import stream_of

        return stream_of(iter([(self, self._logical)]), as_logical_of(self, self._logical))

    @staticmethod
    def from_arrow(source: Any) -> Column:
        """Returns Arrow data of another library, by the Arrow PyCapsule interface. It shares the buffers and keeps the Arrow type.

        The source has `__arrow_c_array__`, as an array of pyarrow or nanoarrow has, or `__arrow_c_stream__`, as a Series or DataFrame
        of pandas or polars and a ChunkedArray or Table of pyarrow have. The chunks of a stream are concatenated; without any chunk
        the column has the stream's type and no rows. A table is a column of structs. A source with both gives its array.

        Raises TypeError for a source with neither, BrokenRule, a ValueError, for an array that breaks the format's rules or has a type
        without a column here, LimitPassed, an OverflowError, for more than 128 levels and if the lists and values that list views and
        runs become exceed a size limit, and what the stream reports: MemoryError, ValueError, NotImplementedError or else OSError.

        >>> sel.Column.from_arrow(sel.Column(["a", None]))
        Column(utf8, ["a",null])
        """
        from ._arrow import imported

        return Column._owning(*imported(source))

    # ---- internal

    @classmethod
    def _owning(cls, owner: Owner, logical: ArrowType | None = None) -> Self:
        """Moves the column of an owner, which nothing else refers to, into a new column of this class, with a logical type."""
        column = Owner.__new__(cls)
        column._handle, owner._handle = owner._handle, column._handle
        column._logical = logical
        return column

    def _new(self, name: str, *arguments: Any, logical: ArrowType | None = None) -> Column:
        return Column._owning(derived(self, name, *arguments), logical)

    def _like(self, name: str, *arguments: Any) -> Column:
        """Returns what a call makes, which has the type of this column."""
        return self._new(name, *arguments, logical=self._logical)

    def _part(self, name: str, *arguments: Any, logical: ArrowType | None) -> Column:
        """Returns a field or the elements, whose type allows nulls if there are some: below a null row also what must not be null is."""
        made = derived(self, name, *arguments)
        return Column._owning(made, nullable(logical) if lib.sel_null_count(made) > 0 else logical)

    def _field_type(self, number: int) -> ArrowType | None:
        fields = () if self._logical is None else self._logical.fields
        return fields[number] if number < len(fields) else None

    def _element_type(self) -> ArrowType | None:
        """Returns the type of an element of a list, or of none."""
        return nullable(self._field_type(0), "")


def _fault_of(type: str | Type) -> str:
    """Returns why the rows of a type are not parsed: it is a logical type, or a text that names no type."""
    try:
        wanted = parse_type(type) if isinstance(type, str) else type
    except (ValueError, OverflowError):
        return VALID_NAMES
    return f"rows of the logical type {wanted} are not parsed from text, and Column(values, type) makes a column of it"


def _typed_if_column(values: Any) -> Typed | None:
    """Returns a column, or Arrow data of another library as one, and its type; none for other values."""
    return (values, values._logical) if isinstance(values, Column) else imported_if_arrow(values)


def _converted(column: Owner, logical: ArrowType | None, wanted: Type) -> Owner:
    """Returns the rows of a column as a column of a type: shared if it has the type, else by their Python values."""
    if wanted == (storage_type(column) if logical is None else logical) and not has_dictionary(wanted):
        return derived(column, "sel_share")
    return made_of(rows_of(column, logical, counted_value), wanted)


def _with_type(rows: list[Any], storage: str, logical: ArrowType) -> Column:
    """Returns a column that was pickled."""
    return Column._owning(made_of(rows, parse_type(storage)), logical)


# ---- kernels over several columns


def choose(mask: Column | Iterable[Boolean | None] | Array, if_true: Column | Any, if_false: Column | Any) -> Column:
    """Returns the rows of `if_true` where the mask is true, and else those of `if_false`; both have one type.

    A side that is not a column is one value for all rows; a null of the mask counts as false. Raises WrongArgument, a TypeError, for
    columns of several types or lengths.

    >>> sel.choose([True, False, None], sel.Column([1, 2, 3]), 0)
    Column(i64, [1,0,0])
    """
    wanted = if_true.type if isinstance(if_true, Column) else if_false.type if isinstance(if_false, Column) else type_of_values([if_true, if_false])
    sides = [side if isinstance(side, Column) else Column._owning(made_of([side], wanted, name), nullable(wanted if isinstance(wanted, ArrowType) else None))
             for side, name in ((if_true, "if_true"), (if_false, "if_false"))]
    (first, second), logical = common_type(sides, [side._logical for side in sides])
    name = {(True, True): "sel_if_then_else", (False, True): "sel_if_then_else_broadcast_true", (True, False): "sel_if_then_else_broadcast_false", (False, False): "sel_if_then_else_broadcast_both"}[
        isinstance(if_true, Column), isinstance(if_false, Column)]
    return Column._owning(derived(mask_of(mask, "mask"), name, first, second), logical)


def if_else(mask: Column | Iterable[Boolean | None] | Array, if_true: Column | Any, if_false: Column | Any) -> Column:
    """Returns the rows of `if_true` where the mask is true, and else those of `if_false`, as `choose` does.

    >>> sel.if_else([True, False], sel.Column([1, 2]), 0)
    Column(i64, [1,0])
    """
    return choose(mask, if_true, if_false)


def flatten(columns: Iterable[Column], widths: Iterable[SupportsIndex] | Array, height: SupportsIndex) -> Column:
    """Concatenates columns row by row: returns, `height` times, the next `widths[i]` rows of each column i.

    A column with only `widths[i]` rows gives them each time. Raises OverflowError for a width or a height outside [0, 2^64), and
    WrongArgument, a TypeError, for columns of several types and for a column with another number of rows.

    >>> sel.flatten([sel.Column([1, 2, 3, 4]), sel.Column([10, 20])], [2, 1], 2)
    Column(i64, [1,2,10,3,4,20])
    """
    given, sizes, rows = columns_of(columns, "columns"), sizes_of(widths, "widths"), integer_within(height, "height", SIZE)
    owners, logical = common_type(given, _types_of(given))
    return Column._owning(from_several(owners, lambda handles, made: call(
        "sel_flatten", handles, len(owners), sizes, len(sizes.items), rows, byref(made._handle))), logical)


def collect_rows(columns: Iterable[Column], picks: Iterable[tuple[SupportsIndex, SupportsIndex] | None] | Array) -> Column:
    """Returns the rows that the picks name, each by a column number and a row number; null where a pick is `None` or masked.

    Raises IndexError for a number that no column or row has, ValueError for a pick that is not a pair, and WrongArgument, a TypeError,
    for columns of several types.

    >>> sel.collect_rows([sel.Column(["a", "b"]), sel.Column(["x"])], [(1, 0), None, (0, 1)])
    Column(utf8, ["x",null,"b"])
    """
    given, (numbers, count, validity) = columns_of(columns, "columns"), picks_of(picks, "picks")
    owners, logical = common_type(given, _types_of(given))
    return Column._owning(from_several(owners, lambda handles, made: call(
        "sel_collect_rows", handles, len(owners), numbers, count, *validity, byref(made._handle))), nullable(logical))


def concat(columns: Iterable[Column]) -> Column:
    """Returns the rows of all columns, one column after the other. Dictionaries that differ, or have keys of several types, are decoded.

    Raises ValueError if there is no column, and WrongArgument, a TypeError, if they have several types.

    >>> sel.concat([sel.Column([1, None]), sel.Column([3])])
    Column(i64, [1,null,3])
    """
    given = list(columns)
    columns_of(given, "columns")
    if not given:
        raise ValueError("columns: there is no column, and so no type of the result")
    try:
        owners, logical = common_type(given, _types_of(given))
    except WrongArgument:
        _check_storages([column.decoded() for column in given], given)
        raise
    _check_storages(owners, given)
    return Column._owning(concatenated(owners), logical)


def _check_storages(owners: Sequence[Owner], columns: Sequence[Column]) -> None:
    """Raises WrongArgument for the first of the columns that, as it is to be joined with the others, has another storage than columns[0]."""
    first = storage_type(owners[0])
    for position, owner in enumerate(owners):
        if storage_type(owner) != first:
            raise WrongArgument(TYPE_MISMATCH, f"columns[{position}]: a column of type {columns[position].type}, where columns[0] has type {columns[0].type}")


def _types_of(columns: Iterable[Owner]) -> list[ArrowType | None]:
    return [column._logical if isinstance(column, Column) else None for column in columns]


def propagate_dictionary(keys: Column, values: Column) -> tuple[Column, Column]:
    """Returns 32-bit keys and strings without null strings: the key of a null string becomes null.

    The keys are integers of any type, or nulls. Raises IndexError for a key that no string has, and WrongArgument, a TypeError, for other types.

    >>> sel.propagate_dictionary(sel.Column([0, 1, 2, None], "u32"), sel.Column(["a", None, "c"]))
    (Column(u32, [0,null,1,null]), Column(utf8, ["a","c"]))
    """
    new_keys, new_values = Owner(), Owner()
    old_keys = integers_of((column_of(keys, "keys"), getattr(keys, "_logical", None)), "u32", ROW_INDEX, "keys")
    words = values.decoded() if isinstance(values, Column) else column_of(values, "values")
    call("sel_propagate_dictionary", old_keys, words, byref(new_keys._handle), byref(new_values._handle))
    return Column._owning(new_keys), Column._owning(new_values)
