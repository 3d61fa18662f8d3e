"""Tables and streams of tables."""

from __future__ import annotations

import datetime
import importlib
import unittest
from collections.abc import Iterator
from ctypes import POINTER, byref, c_void_p, cast, pointer
from typing import Any

import sel
from cases import table
from sel import Column, Selection, Stream, Table, _arrow
from sel._callbacks import NO_RELEASE
from sel._library import ArrowArray, ArrowArrayStream, ArrowSchema
from streams import Only

DAY = datetime.date(2020, 1, 1)
ROWS: dict[str, list[Any]] = {"id": [1, 2, 3], "when": [DAY, None, DAY], "name": ["a", "a name of more than twelve bytes", None], "lists": [[0.5], [], None]}


def codes_of(source: Stream, further: int = 0) -> list[int]:
    """Returns the codes that another consumer of a stream gets: for each array, for what ends the stream, and for so many calls after that."""
    capsule, codes = source.__arrow_c_stream__(), []
    stream = sel._arrow._moved(ArrowArrayStream.from_address(sel._arrow._api.PyCapsule_GetPointer(capsule, sel._arrow._STREAM)))
    while True:
        array = ArrowArray()
        codes.append(sel._arrow._GetNext(stream.get_next)(byref(stream), byref(array)))
        if array.release:
            sel._arrow._release(array)
        elif further == 0:
            break
        else:
            further -= 1
    sel._arrow._release(stream)
    return codes


class Given:
    """An object with the array of two capsules."""

    def __init__(self, schema: object, array: object) -> None:
        self.capsules = schema, array

    def __arrow_c_array__(self, requested_schema: object = None) -> tuple[object, object]:
        return self.capsules


class Once:
    """An object with the stream of a column, which is always the same one."""

    def __init__(self, column: Column) -> None:
        self.capsule = column.__arrow_c_stream__()

    def __arrow_c_stream__(self, requested_schema: object = None) -> object:
        return self.capsule


class Tables(unittest.TestCase):
    def test_columns(self) -> None:
        made = Table(ROWS)
        self.assertEqual((made.column_names, len(made), made.to_pydict()), (list(ROWS), 3, ROWS))
        self.assertEqual(made.to_pylist()[1], {"id": 2, "when": None, "name": "a name of more than twelve bytes", "lists": []})
        self.assertEqual((made["id"], made.column(0), made.column(-1).to_pylist()), (made.columns[0], made.columns[0], ROWS["lists"]))
        self.assertEqual(made[2], {name: rows[2] for name, rows in ROWS.items()})
        for error, key in table((KeyError, "other"), (IndexError, 4), (IndexError, -5)):
            with self.assertRaises(error):
                made.column(key)
        with self.assertRaisesRegex(ValueError, "column 'b' has 2 rows, and the first one 1"):
            Table({"a": [1], "b": [1, 2]})
        self.assertEqual((len(Table({})), Table({}).to_pylist()), (0, []))

    def test_kernels(self) -> None:
        made = Table(ROWS)
        for found, rows in table((made.filter([True, False, True]), [0, 2]), (made.filter(Column([False, True, None])), [1]), (made.filter(Selection([True, None, True])), [0, 2]), (made.take([2, 0, 0]), [2, 0, 0]), (made[1:], [1, 2]),
                                 (made[[2, 1]], [2, 1]), (made[::-1], [2, 1, 0]), (made.slice(1, 1), [1]), (made[[True, False, False]], [0])):
            self.assertEqual(found.to_pydict(), {name: [values[row] for row in rows] for name, values in ROWS.items()})
            self.assertEqual([str(column.type) for column in found.columns], [str(column.type) for column in made.columns])
        self.assertEqual(made.take([None, 1]).to_pylist()[0], dict.fromkeys(ROWS))
        other = made.take([2, 1, 0])
        self.assertEqual(made.if_else([True, True, False], other).to_pylist(), [*made.to_pylist()[:2], made.to_pylist()[0]])
        with self.assertRaises(ValueError):
            made.if_else([True] * 3, Table({"a": [1, 2, 3]}))
        with self.assertRaises(IndexError):
            made.take([-1])
        self.assertEqual(repr(Table({"a": list(range(9)), "b": [0.5] * 9})), "Table of 9 rows\na: i64 [0,1,2,3,4,5, ...]\nb: double [0.5,0.5,0.5,0.5,0.5,0.5, ...]")

    def test_keys_that_are_read_once(self) -> None:
        """A key of another library may be a stream, which gives its rows once, and not once for each column."""
        rows = Table({"a": [1, 2, 3], "b": ["x", "y", "z"]})
        for key, found in table((Column([2, None, 0]), {"a": [3, None, 1], "b": ["z", None, "x"]}), (Column([True, False, None]), {"a": [1], "b": ["x"]})):
            self.assertEqual(rows[Once(key)].to_pydict(), found)
            self.assertEqual(len(Table({})[Once(key[:0])]), 0)

    def test_without_columns(self) -> None:
        """The rows are counted as those of a column are."""
        made = Table.from_arrow(Column([()] * 5))
        self.assertEqual((made.column_names, len(made)), ([], 5))
        for found, count in table((made[:], 5), (made[1:3], 2), (made[::-1], 5), (made[[True, False, True, True, False]], 3), (made[[0, 0, -1]], 3), (made[Column([1, None])], 2),
                                  (made.filter([True] * 4 + [None]), 4), (made.take([4, None]), 2), (made.slice(1, 2), 2), (made.if_else([True] * 5, made), 5)):
            self.assertEqual((len(found), found.to_pylist()), (count, [{}] * count))
        self.assertEqual(made[-1], {})
        uses: list[tuple[type[Exception], Any]] = [
            (TypeError, lambda: made[1.5]), (IndexError, lambda: made[[99]]), (ValueError, lambda: made[[True]]), (IndexError, lambda: made[5]), (IndexError, lambda: made.take([99])),
            (IndexError, lambda: made.slice(5, 1)), (TypeError, lambda: made.if_else([True], made)), (TypeError, lambda: made.filter([True]))]
        for error, use in uses:
            with self.assertRaises(error):
                use()

    def test_names(self) -> None:
        for name, error in table((1, TypeError), (None, TypeError), (b"a", TypeError), ("a\0b", ValueError)):
            with self.assertRaisesRegex(error, "columns: the name"):
                Table({name: [1]})
        twice = Table.from_arrow(Column.from_arrow(Column._owning(Column([(1, 2)]), sel._logical.of_format("+s", [Column([1]).type] * 2, ["a", "a"]))))
        self.assertEqual((twice.column_names, twice.columns[1].to_pylist(), twice[[0]].column(1).to_pylist()), (["a", "a"], [2], [2]))
        for use in table(twice.to_pydict, twice.to_pylist, lambda: twice[0]):
            with self.assertRaisesRegex(ValueError, "several columns have the name 'a'"):
                use()

    def test_arrow(self) -> None:
        made = Table(ROWS)
        for source in table(made, Only(made)):
            again = Table.from_arrow(source)
            self.assertEqual((again, again.column_names), (made, made.column_names))
            self.assertEqual([str(column.type) for column in again.columns], ["i64", "date32[day]", "string_view", "large_list<item: double>"])
        column = Column.from_arrow(made)
        self.assertEqual(str(column.type), "struct<id: i64, when: date32[day], name: string_view, lists: large_list<item: double>>")
        self.assertEqual(column.to_pylist(), made.to_pylist())
        for source in table(Column([1]), Column([(1,), None])):
            with self.assertRaises(ValueError):
                Table.from_arrow(source)
        self.assertEqual(Table.from_arrow(Column([(1, "a")])).to_pydict(), {"0": [1], "1": ["a"]})

    def test_requested_schema(self) -> None:
        """A request is honoured if it only changes offsets or views."""
        for text, requested, found in table(("string", "large_string", "large_string"), ("string", "string_view", "string_view"), ("double", "u64", "double")):
            wanted = Table({"a": Column(["x"] if text == "string" else [0.5])})
            strings = {"string": "u", "large_string": "U", "string_view": "vu", "u64": "L"}
            type_ = sel._logical.of_format(strings[requested])
            like = Column._owning(sel._makers.made_of([], sel.parse_type("utf8" if text == "string" else "u64")), type_)
            schema, array = wanted["a"].__arrow_c_array__(like.__arrow_c_schema__())
            again = Column.from_arrow(Given(schema, array))
            self.assertEqual(str(again.type), "utf8" if found == "string_view" else found)
            self.assertEqual(again.to_pylist(), wanted["a"].to_pylist())

    def test_requested_schemas_that_no_column_has(self) -> None:
        """The export has the type of the column then, whatever is wrong with the request."""
        for format, count in table((b"+l", 1), (b"+us:0", 1), (b"+l", 0), (b"", 0)):
            there, capsule = _arrow._new_capsule(ArrowSchema, _arrow._SCHEMA, _arrow._DESTROY_SCHEMA)
            there.format, there.n_children, there.release = format, count, cast(NO_RELEASE, c_void_p)
            there.children = (POINTER(ArrowSchema) * 1)(pointer(there))  # it contains itself
            for column in table(Column([1, None]), Column([["a"]]), Table({"a": [0.5]})):
                schema, array = column.__arrow_c_array__(capsule)
                self.assertEqual(Column.from_arrow(Given(schema, array)).to_pylist(), list(column))

    def test_unions_are_named(self) -> None:
        from streams import Stream as Producer

        with self.assertRaisesRegex(sel.BrokenRule, r"unsupported Arrow format '\+us:0,1'"):
            Column.from_arrow(Producer(Column([1]), [Column([1])], format=b"+us:0,1"))


class Streams(unittest.TestCase):
    def test_batches_pass_one_by_one(self) -> None:
        asked: list[int] = []

        def made() -> Iterator[Table]:
            for number in range(4):
                asked.append(number)
                yield Table({"a": [number, -number], "b": [0.5, None]})

        rows = []
        for count, part in enumerate(Stream.from_arrow(Only(Stream(made()))), 1):
            self.assertLessEqual(len(asked), count)
            rows.append(part.filter([True, False]).to_pydict())
        self.assertEqual(rows, [{"a": [number], "b": [0.5]} for number in range(4)])
        self.assertEqual(sel._stream._OPEN, {})

    def test_errors_pass_through(self) -> None:
        def failing(error: BaseException) -> Iterator[Table]:
            yield Table({"a": [1]})
            raise error

        for error, kind in table((KeyError("x"), ValueError), (MemoryError(), MemoryError), (sel.OutOfBounds(6, "index out of bounds"), ValueError)):
            stream = iter(Stream.from_arrow(Stream(failing(error))))
            self.assertEqual(next(stream).to_pydict(), {"a": [1]})
            with self.assertRaises(kind):
                next(stream)
        with self.assertRaises(ValueError):
            list(Stream.from_arrow(Stream(iter([Table({"a": [1]}), Table({"b": [1]})]))))
        with self.assertRaises(ValueError):
            Stream(iter(())).__arrow_c_stream__()
        with self.assertRaises(TypeError):
            Stream.from_arrow([1])

    def test_a_module_that_is_missing(self) -> None:
        """The ImportError of a generator is raised: the tables that it has left, none, are not the rows of a column."""
        def tables() -> Iterator[Table]:
            importlib.import_module("no_such_module")
            yield Table({"a": [1]})

        for use in table(Column, Column.from_pylist, lambda stream: Column(stream, "i64"), Column.from_arrow, Table.from_arrow, lambda stream: Table({"a": stream}), Column([1]).take,
                         Column([1]).filter, Selection, lambda stream: Column([1])[stream]):
            with self.assertRaises(ModuleNotFoundError):
                use(Stream(tables()))

    def test_every_exception_is_an_error(self) -> None:
        """None of them looks like the end of the stream. This package gets it, or has it as the cause; another consumer gets a code."""
        def failing(error: BaseException) -> Iterator[Table]:
            yield Table({"a": [1]})
            raise error

        def passing(source: Stream) -> Iterator[Table]:
            yield from Stream.from_arrow(Only(source))

        for error in (KeyboardInterrupt(), SystemExit(3), GeneratorExit()):
            for stream in (Stream(failing(error)), Stream(passing(Stream(failing(error))))):
                with self.assertRaises(type(error)) as caught:
                    list(Stream.from_arrow(stream))
                self.assertIs(caught.exception, error)
            with self.assertRaises(type(error)):
                Table.from_arrow(Only(Stream(failing(error))))
            self.assertEqual(codes_of(Stream(failing(error))), [0, 22])
        cause = KeyError("x")
        with self.assertRaises(ValueError) as given:
            list(Stream.from_arrow(Stream(failing(cause))))
        self.assertIs(given.exception.__cause__, cause)
        self.assertEqual((sel._arrow.PASSED.errors, sel._stream._OPEN), (None, {}))

    def test_calls_after_an_error(self) -> None:
        """A generator has ended after its exception, and another iterator may go on. A consumer that asks again gets the error again."""
        class Going:
            def __init__(self) -> None:
                self.count = 0

            def __iter__(self) -> Iterator[Table]:
                return self

            def __next__(self) -> Table:
                self.count += 1
                if self.count == 2:
                    raise KeyError("x")
                return Table({"a": [self.count]})

        def failing(error: BaseException) -> Iterator[Table]:
            yield Table({"a": [1]})
            raise error

        for tables, code in table((failing(KeyError("x")), 22), (failing(MemoryError()), 12), (failing(KeyboardInterrupt()), 22), (Going(), 22), (iter([Table({"a": [1]}), 5]), 22)):
            self.assertEqual(codes_of(Stream(tables), 3), [0, code, code, code, code])
        self.assertEqual(codes_of(Stream([Table({"a": [1]})]), 3), [0, 0, 0, 0, 0])
        self.assertEqual(sel._stream._OPEN, {})

    def test_a_stream_that_is_not_read_is_released(self) -> None:
        capsule = Stream(iter([Table({"a": [1]})])).__arrow_c_stream__()
        self.assertEqual(len(sel._stream._OPEN), 1)
        del capsule
        self.assertEqual(sel._stream._OPEN, {})

    def test_a_table_of_a_stream(self) -> None:
        parts = [Table({"a": [1.5, None]}), Table({"a": [2.5]})]
        self.assertEqual(Table.from_arrow(Only(Stream(parts))).to_pydict(), {"a": [1.5, None, 2.5]})


if __name__ == "__main__":
    unittest.main()
