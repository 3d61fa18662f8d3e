"""Tables: columns of one length with names, as record batches of other Arrow libraries."""

from __future__ import annotations

from collections.abc import Callable, Iterable, Iterator, Mapping
from typing import TYPE_CHECKING, Any, SupportsIndex

from . import _arrays
from ._arguments import indices_of, mask_of
from ._arrow import Typed, batches, export, export_type, imported, imported_if_arrow
from ._checks import checked_name, is_integer, position_of, shown
from ._column import Column, choose
from ._library import call
from ._logical import ArrowType, as_logical_of, of_format
from ._makers import nulls
from ._memory import NO_VALIDITY
from ._owner import Owner, derived, from_several
from ._readers import start_of_rows
from ._selection import Selection
from ._stream import stream_of

if TYPE_CHECKING:
    from typing import Union

    import numpy

    Boolean = Union[bool, numpy.bool_]
    Array = numpy.ndarray[Any, Any]

__all__ = ["Stream", "Table"]


class Table:
    """Columns of one length with names. It never changes.

    Tables can be pickled; from protocol 5 on their buffers need not be copied, as for columns.

    >>> table = sel.Table({"id": [1, 2, 3], "price": [0.5, None, 2.0]})
    >>> table.filter([True, False, True]).to_pydict()
    {'id': [1, 3], 'price': [0.5, 2.0]}
    """

    __slots__ = ("_columns", "_length", "_names")

    def __init__(self, columns: Mapping[str, Any]) -> None:
        """Makes a table of columns, Arrow data of other libraries, arrays of numpy or lists of Python values. Arrays of texts, of bytes or of
        objects are read as lists.

        Raises ValueError for columns of several lengths and for a name with a zero character, and TypeError for a name that is not a str,
        and for columns that are not a mapping; `Table.from_arrow` takes tables and data frames of other libraries. The columns of arrays read their memory,
        as those of `Column.from_numpy` do: nobody may write to the arrays meanwhile.
        """
        if not isinstance(columns, Mapping):
            raise TypeError(f"columns: {shown(columns)} is of type {type(columns).__name__}, not a mapping from names to columns; Table.from_arrow takes tables")
        for name in columns:
            checked_name(name, "columns")
        made = [_column_of(values) for values in columns.values()]
        self._set(list(columns), made, len(made[0]) if made else 0)

    def _set(self, names: list[str], columns: list[Column], length: int) -> None:
        for name, column in zip(names, columns):
            if len(column) != length:
                raise ValueError(f"column {name!r} has {len(column)} rows, and the first one {length}")
        self._names, self._columns, self._length = names, columns, length

    @staticmethod
    def from_arrow(source: Any) -> Table:
        """Returns a table, a record batch or a stream of another library, by the Arrow PyCapsule interface. It shares the buffers.

        The batches of a stream are concatenated; `Stream.from_arrow` gives one after the other. Raises ValueError if the source is no
        table: its type is not a struct, or a row is null.

        >>> sel.Table.from_arrow(sel.Table({"a": [1]})).column_names
        ['a']
        """
        return _table_of(*imported(source))

    # ---- reading

    @property
    def column_names(self) -> list[str]:
        """The names of the columns."""
        return list(self._names)

    @property
    def columns(self) -> list[Column]:
        """The columns."""
        return list(self._columns)

    def column(self, name: str | SupportsIndex) -> Column:
        """Returns the column with a name, the first one if there are several, or with a number.

        Raises KeyError or IndexError if there is none.

        >>> sel.Table({"a": [1], "b": [True]}).column("b")
        Column(bool, [true])
        """
        if isinstance(name, str):
            if name not in self._names:
                raise KeyError(f"there is no column {name!r}; the columns are {', '.join(map(repr, self._names))}")
            return self._columns[self._names.index(name)]
        return self._columns[position_of(name, "column", len(self._columns))]

    def __len__(self) -> int:
        """Returns the number of rows."""
        return self._length

    @property
    def nbytes(self) -> int:
        """The number of bytes of the buffers that the rows of all columns are in, as `Column.nbytes` counts them.

        >>> sel.Table({"a": [1, 2], "b": [True, False]}).nbytes
        17
        """
        return sum(column.nbytes for column in self._columns)

    def __sizeof__(self) -> int:
        """Returns the size of the object and of its buffers in bytes, by which `sys.getsizeof` and Dask measure it."""
        return object.__sizeof__(self) + self.nbytes

    def __getitem__(self, key: Any) -> Any:
        """Returns the column with a name, or the rows that a slice, a mask or a sequence of integers selects, as a table.

        >>> table = sel.Table({"a": [1, 2, 3]})
        >>> table["a"], table[1:].to_pydict(), table[[2, 0]].to_pydict()
        (Column(i64, [1,2,3]), {'a': [2, 3]}, {'a': [3, 1]})
        """
        if isinstance(key, str):
            return self.column(key)
        if is_integer(key):
            place = position_of(key, "index", self._length)
            self._check_distinct()
            return {name: column[place] for name, column in zip(self._names, self._columns)}
        found = None if isinstance(key, Owner) else imported_if_arrow(key)
        rows = key if found is None else Column._owning(*found)
        return self._each([column[rows] for column in self._columns], lambda: len(self._rows()[rows]))

    def __contains__(self, name: object) -> bool:
        """Returns whether a column has this name.

        >>> "a" in sel.Table({"a": [1]}), "b" in sel.Table({"a": [1]})
        (True, False)
        """
        return isinstance(name, str) and name in self._names

    def __iter__(self) -> Iterator[dict[str, Any]]:
        """Returns an iterator over the rows as dicts, as `to_pylist` gives them."""
        return iter(self.to_pylist())

    def _check_distinct(self) -> None:
        """Raises ValueError if some columns have one name: a dict has one value for it."""
        if len(set(self._names)) < len(self._names):
            twice = next(name for name in self._names if self._names.count(name) > 1)
            raise ValueError(f"several columns have the name {twice!r}, and a dict would have one of them; `columns` has them all")

    def to_pydict(self) -> dict[str, list[Any]]:
        """Returns the rows of each column as Python values, by name. Raises ValueError if some columns have one name."""
        self._check_distinct()
        return {name: column.to_pylist() for name, column in zip(self._names, self._columns)}

    def to_pylist(self) -> list[dict[str, Any]]:
        """Returns each row as a dict. Raises ValueError if some columns have one name.

        >>> sel.Table({"a": [1, None]}).to_pylist()
        [{'a': 1}, {'a': None}]
        """
        self._check_distinct()
        rows = zip(*[column.to_pylist() for column in self._columns]) if self._columns else iter([()] * self._length)
        return [dict(zip(self._names, row)) for row in rows]

    def __eq__(self, other: object) -> bool:
        """Returns whether the other value is a table with the same names and rows."""
        if not isinstance(other, Table):
            return NotImplemented
        return self._names == other._names and all(one.equals(two) for one, two in zip(self._columns, other._columns)) and len(self) == len(other)

    __hash__ = None  # type: ignore[assignment]

    def __repr__(self) -> str:
        """Returns the number of rows, and each column with its type and its first rows, of at most 1,000 characters.

        >>> sel.Table({"id": [1, 2], "name": ["a", None]})
        Table of 2 rows
        id: i64 [1,2]
        name: utf8 ["a",null]
        """
        most = 6
        lines = []
        for name, column in zip(self._names, self._columns):
            text = start_of_rows(column.sliced(0, min(most, self._length)), column._logical, 1000)
            lines.append(f"{name}: {column.type} {text[:-1] + ', ...]' if self._length > most and text.endswith(']') else text}")
        return "\n".join([f"Table of {self._length} rows", *lines])

    def __reduce__(self) -> tuple[Any, ...]:
        """Returns what `pickle` stores: the names and the columns, which are pickled as columns are."""
        return _table_again, (self._names, self._columns, self._length)

    # ---- kernels

    def filter(self, mask: Column | Iterable[Boolean | None] | Array | Selection) -> Table:
        """Returns the rows where the mask is true, as `Column.filter` does. The mask is prepared once for all columns."""
        selection = mask if isinstance(mask, Selection) else Selection(mask)
        return self._each([column.filter(selection) for column in self._columns], lambda: len(self._rows().filter(selection)))

    def take(self, indices: Column | Iterable[SupportsIndex | None] | Array) -> Table:
        """Returns the rows at the indices, as `Column.take` does.

        >>> sel.Table({"a": [1, 2], "b": ["x", "y"]}).take([1, 1, None]).to_pydict()
        {'a': [2, 2, None], 'b': ['y', 'y', None]}
        """
        prepared = Column._owning(derived(indices_of(indices, "indices"), "sel_share"))
        return self._each([column.take(prepared) for column in self._columns], lambda: len(self._rows().take(prepared)))

    def slice(self, offset: SupportsIndex, length: SupportsIndex) -> Table:
        """Returns `length` rows from row `offset` on, which share memory with this table."""
        return self._each([column.sliced(offset, length) for column in self._columns], lambda: len(self._rows().sliced(offset, length)))

    def if_else(self, mask: Column | Iterable[Boolean | None] | Array, other: Table) -> Table:
        """Returns the rows of this table where the mask is true, and else those of the other one, which has the same columns.

        >>> sel.Table({"a": [1, 2]}).if_else([True, False], sel.Table({"a": [8, 9]})).to_pydict()
        {'a': [1, 9]}
        """
        if not isinstance(other, Table):
            raise TypeError(f"other: {shown(other)} is of type {type(other).__name__}, not a table")
        if self._names != other._names:
            raise ValueError(f"other: the columns are {other._names}, and not {self._names}")
        prepared = Column._owning(derived(mask_of(mask, "mask"), "sel_share"))
        return self._each([choose(prepared, one, two) for one, two in zip(self._columns, other._columns)], lambda: len(choose(prepared, self._rows(), other._rows())))

    # ---- Arrow

    def _struct(self) -> tuple[Owner, ArrowType]:
        """Returns the table as a column of structs, and its type."""
        made = from_several(self._columns, lambda handles, made: call(
            "sel_struct_new", self._length, *NO_VALIDITY, handles, len(self._columns), made))
        return made, of_format("+s", [as_logical_of(column, column._logical) for column in self._columns], self._names)

    def __arrow_c_schema__(self) -> object:
        """Returns a capsule with the schema, for other Arrow libraries."""
        return export_type(*self._struct())

    def __arrow_c_array__(self, requested_schema: object = None) -> tuple[object, object]:
        """Returns capsules with the schema and the rows, as a record batch. Buffers are shared."""
        return export(*self._struct(), requested_schema)

    def __arrow_c_stream__(self, requested_schema: object = None) -> object:
        """Returns a capsule with a stream of one record batch, for other Arrow libraries, as in `pyarrow.table(table)`."""
        column, logical = self._struct()
        return stream_of(iter([(column, logical)]), logical)

    # ---- internal

    def _rows(self) -> Column:
        """Returns a column of nulls, which stands for the rows where there is no column."""
        return Column._owning(nulls(self._length))

    def _each(self, columns: list[Column], length: Callable[[], int]) -> Table:
        """Returns the columns as a table with these names, and so many rows if there is no column."""
        made = object.__new__(Table)
        made._set(self._names, columns, len(columns[0]) if columns else length())
        return made


def _table_again(names: list[str], columns: list[Column], length: int) -> Table:
    """Returns a table that was pickled."""
    made = object.__new__(Table)
    made._set(names, columns, length)
    return made


def _checked_table(value: Any) -> Table:
    """Returns the value. Raises TypeError if it is not a table."""
    if not isinstance(value, Table):
        raise TypeError(f"tables: {shown(value)} is of type {type(value).__name__}, not a table")
    return value


def _column_of(values: Any) -> Column:
    if isinstance(values, Column):
        return values
    found = imported_if_arrow(values)
    if found is not None:
        return Column._owning(*found)
    if not _arrays.is_array(values):
        return Column(values)
    array = _arrays.opened(values, "values")
    return Column(array.tolist()) if _arrays.is_of_values(array) else Column._owning(*_arrays.made_with_type(array, "values"))


def _table_of(column: Owner, logical: ArrowType | None) -> Table:
    """Returns a column of structs as a table."""
    if column._kind() != "struct":
        raise ValueError(f"source: a column of type {Column._owning(column, logical).type} is no table")
    whole = Column._owning(column, logical)
    if whole.null_count > 0:
        raise ValueError(f"source: {whole.null_count} rows of structs are null, and a table has no null rows")
    columns = [whole.field(number) for number in range(whole._size("sel_field_count"))]
    names = [str(number) for number in range(len(columns))] if logical is None else [field.name for field in logical.fields]
    made = object.__new__(Table)
    made._set(names, columns, len(whole))
    return made


class Stream:
    """Tables one after the other, so that data larger than memory passes batch by batch: of a source, or to a consumer.

    A stream is read once, by one thread at a time.

    >>> tables = (sel.Table({"a": [number, -number]}) for number in range(3))
    >>> kept = (table.filter([True, False]) for table in sel.Stream.from_arrow(sel.Stream(tables)))
    >>> [table.to_pydict() for table in kept]
    [{'a': [0]}, {'a': [1]}, {'a': [2]}]
    """

    __slots__ = ("_tables",)

    def __init__(self, tables: Iterable[Table]) -> None:
        """Makes a stream of tables with the same columns."""
        self._tables = iter(tables)

    @staticmethod
    def from_arrow(source: Any) -> Stream:
        """Returns the stream of a source with `__arrow_c_stream__`, of which each batch is imported when it is asked for."""
        if not hasattr(source, "__arrow_c_stream__"):
            raise TypeError(f"source: {shown(source)} is of type {type(source).__name__}, which has no __arrow_c_stream__")
        return Stream(_table_of(column, logical) for column, logical in batches(source.__arrow_c_stream__()))

    def __iter__(self) -> Iterator[Table]:
        """Returns the tables."""
        return self._tables

    def __arrow_c_stream__(self, requested_schema: object = None) -> object:
        """Returns a capsule with a stream of the tables. The first one gives the schema; raises ValueError if there is none.

        An exception of the iterator is an error of the stream, also of each further call: `Stream.from_arrow` raises KeyboardInterrupt and the like themselves, and
        others as the cause of its own. A value that is not a table is an error of the stream too.
        """
        first = next(self._tables, None)
        if first is None:
            raise ValueError("a stream without tables has no schema")
        column, logical = _checked_table(first)._struct()

        def rest() -> Iterator[Typed]:
            yield column, logical
            for table in self._tables:
                yield _checked_table(table)._struct()

        return stream_of(rest(), logical)
