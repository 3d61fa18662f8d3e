"""Every call and most of the package with each allocation of the library refused: an exception, no leak, and nothing freed twice.

Not run by `unittest discover`: `tools/bindings.py python_memory` runs it over a library that is linked with tests/memory.c, which counts the
blocks of memory in use and refuses allocations on demand. SEL_LIBRARY names that library.
"""

from __future__ import annotations

import datetime
import gc
import pickle
import random
import unittest
from collections import Counter
from collections.abc import Callable
from ctypes import c_bool, c_long
from typing import Any

import model
import sel
import test_rows
from cases import numpy, table
from notation import Line, lines_of, read_kinds
from sel import Column, Table, parse_type
from sel._library import lib
from sel._logical import coded_type
from sel._makers import made_of
from streams import Only, Stream
from suite_calls import CALLS, Arguments

lib.memory_refuse.argtypes, lib.memory_refuse.restype = [c_long, c_bool], None
lib.memory_allow.argtypes, lib.memory_allow.restype = [], c_long
lib.memory_in_use.argtypes, lib.memory_in_use.restype = [], c_long


# The calls that take their children if they succeed.
OF_CHILDREN = ("list_new", "fixed_size_list_new", "struct_new")

ROWS: dict[str, list[Any]] = {
    "null": [None, None], "bool": [True, None], "i64": [1, None, 3], "u128": [2**128 - 1, None], "binary": [b"a", None, bytes(40)],
    "binview": [b"a", None, bytes(40)], "utf8": ["a", None, "longer than twelve"], "list<utf8>": [["a", None], None, ["longer than twelve"]],
    "fixed<2,i8>": [[1, None], None], "struct<i8,list<utf8>>": [(1, ["a"]), None, (None, None)], "struct<>": [(), None],
    "struct<struct<i8,bool>,fixed<1,binview>>": [((1, True), [b"a"]), (None, None), None],
}


def out_of_band(value: object) -> Any:
    """Returns a copy by a pickle whose buffers are passed beside it."""
    buffers: list[Any] = []
    return pickle.loads(pickle.dumps(value, 5, buffer_callback=buffers.append), buffers=buffers)


def uses_of(kind: str, rows: list[Any]) -> list[Callable[[], Any]]:
    """Returns uses of a column, which lives as long as they do."""
    wanted, count = parse_type(kind), len(rows)
    column = model.laid_out(random.Random(kind), rows, wanted)
    uses: list[Callable[[], Any]] = [
        lambda: Column(rows, wanted), column.to_pylist, lambda: list(column), lambda: str(column), lambda: repr(column), lambda: column.type, column.valid,
        lambda: column[0], lambda: column[::-1], lambda: column[[0, -1]], lambda: column[[True] * count], column.share, lambda: Column(column),
        lambda: pickle.loads(pickle.dumps(column)), lambda: pickle.loads(pickle.dumps(column, 5)), lambda: out_of_band(column), lambda: out_of_band(column[1:]), column.drop_null, column.reverse, column.unit_list, lambda: column.equals(column), lambda: column == column,
        lambda: column.fill_null(rows[0]), lambda: sel.choose([True] * count, rows[0], column), lambda: sel.choose([False] * count, column, rows[0]),
        lambda: sel.concat([column, column]), lambda: sel.flatten([column, column], [1, count], count), lambda: sel.collect_rows([column, column], [(0, 1), None, (1, 0)]),
    ]
    if "128" not in kind:
        uses += [column.__arrow_c_array__, column.__arrow_c_schema__, lambda: Column.from_arrow(column), lambda: Column.from_arrow(Stream(column)),
                 lambda: Column.from_arrow(Stream(column, [column])), lambda: Column.from_arrow(Stream(column, [column] * 3))]
    return uses


def setUpModule() -> None:
    """Lets the collector leave out what the modules have made: it runs thousands of times."""
    gc.collect()
    gc.freeze()


class Refused(unittest.TestCase):
    def check_in_use(self, before: int, what: Any) -> None:
        """Checks the number of blocks in use."""
        if lib.memory_in_use() != before:
            gc.collect()
        self.assertEqual(lib.memory_in_use(), before, what)

    def is_out_of_memory(self, use: Callable[[], Any]) -> bool:
        """Uses the package, drops what it returns or raises, and returns whether that was that it is out of memory."""
        try:
            use()
        except MemoryError:
            return True
        except sel.SelError:
            pass
        return False

    def check(self, use: Callable[[], Any], what: Any) -> int:
        """Uses the package with the first, the second, .. allocation refused, alone and with all that follow, until none is
        refused. Returns how many were."""
        self.assertFalse(self.is_out_of_memory(use), what)
        gc.collect()
        before, number = lib.memory_in_use(), 0
        while True:
            for and_later in (False, True):
                lib.memory_refuse(number, and_later)
                try:
                    found = self.is_out_of_memory(use)
                finally:
                    refused = lib.memory_allow()
                self.assertEqual(found, refused > 0, (what, number, and_later))
                self.check_in_use(before, (what, number, and_later))
            if refused == 0:
                return number
            number += 1

    def check_line(self, line: Line) -> int:
        """Checks the uses of a line of the suite; its columns are freed afterwards, as no handle to them is left."""
        before = lib.memory_in_use()
        total = self.check_uses(line)
        self.check_in_use(before, line.place)
        return total

    def check_uses(self, line: Line) -> int:
        kind, rng = CALLS[line.fields[0]], random.Random(line.place)
        given = Arguments(kind.letters, line.fields[1:])
        columns, expected = [test_rows._column(rows, 1, rng) for rows in given.columns], test_rows._expected_of(line, given)
        total = 0
        for use in kind.uses:
            if use.applies(given, expected):
                total += self.check(lambda: use.run(given, *columns), line.place)
        test_rows.run_line(line, Counter())
        return total

    def test_every_call(self) -> None:
        gc.collect()
        for text in test_rows.RIGHT_LINES:
            refused = self.check_line(Line(text, text.split(" | ")))
            if text.split(" | ")[0] not in ("rows", "slice", "child", "field", "index_is_oob", "equal"):
                self.assertGreater(refused, 0, text)

    def test_logical_types(self) -> None:
        """Columns with logical types, with dictionaries among them, and tables."""
        day, words = datetime.date(2024, 2, 29), Column(["a", None, "longer than twelve"])
        coded, others = (Column._owning(made_of([2, 0, None], parse_type("u8")), coded_type("C", one)) for one in (words, Column(["a", "b", "c"])))
        columns: list[tuple[Column, Any]] = [(Column([0.5, None, 1.5]), 0.5), (Column([[day], None, []]), [day]), (Column([(0.5, "a"), None, (1.5, "b")]), (0.5, "a")), (coded, "a")]
        total = 0
        for column, value in columns:
            uses: list[Callable[[], Any]] = [
                column.to_pylist, lambda: str(column), lambda: repr(column), lambda: column.type, lambda: column[0], lambda: column[::-1], lambda: column.take([0, None]),
                lambda: column.filter([True, False, True]), lambda: column.filter(sel.Selection([True, False, True])), column.unit_list, column.decoded, lambda: column.fill_null(value), lambda: pickle.loads(pickle.dumps(column)),
                lambda: out_of_band(column), lambda: out_of_band(Table({"a": column, "b": column[::-1]})),
                lambda: sel.if_else([True, False, None], column, value), lambda: sel.if_else([True, False, None], column, column), lambda: sel.concat([column, column]),
                lambda: column.equals(column), column.__arrow_c_schema__, column.__arrow_c_array__, lambda: Column.from_arrow(column),
                lambda: column.__arrow_c_array__(column.__arrow_c_schema__()), lambda: Column.from_arrow(Only(column)),
                lambda: Table.from_arrow(Only(Table({"a": column, "b": column}))), lambda: list(sel.Stream.from_arrow(sel.Stream([Table({"a": column})] * 2))),
            ]
            total += sum(self.check(use, (column, number)) for number, use in enumerate(uses))
        total += self.check(lambda: sel.concat([coded, others]), "other dictionaries")
        self.assertGreater(total, 1000)

    def test_indices(self) -> None:
        """Indices of other types than the library takes, which several calls convert."""
        gc.collect()
        column, pairs = Column(["a", None, "longer than twelve"]), Column([[1, 2], None, [3, 4]], "fixed<2,i64>")
        for kind in ("null", "u8", "i32", "i64", "u64", "i128"):
            for rows in table([None] * 3) if kind == "null" else table([0, 2, 1], [0, None, 1]):
                key = Column(rows, kind)
                uses: list[Callable[[], Any]] = [lambda: column.take(key), lambda: Table({"a": column, "b": pairs}).take(key), lambda: pairs.fixed_get(key), lambda: sel.propagate_dictionary(key, column)]
                for number, use in enumerate(uses if kind == "null" else [*uses, lambda: column[key]]):
                    self.assertGreater(self.check(use, (kind, number)), 0)

    def test_calls_that_take_their_children(self) -> None:
        """With all lines of the suite, those of errors too: a child that a call has not taken is freed by its owner."""
        if not (test_rows.SUITE / "rows").is_dir():
            self.skipTest(f"{test_rows.SUITE / 'rows'} is not there")
        kinds, counts = read_kinds(test_rows.SUITE / "kinds.txt"), dict.fromkeys(OF_CHILDREN, 0)
        gc.collect()
        for path in sorted((test_rows.SUITE / "rows").glob("*.txt")):
            for line in lines_of(path, kinds):
                name = line.fields[0]
                if name in OF_CHILDREN and all(test_rows._rows_below(rows.type) <= test_rows.MOST_ROWS_LAID_OUT and len(rows.values) < 1_000
                                               for rows in Arguments(CALLS[name].letters, line.fields[1:]).columns):
                    counts[name] += 1
                    self.check_line(line)
        self.assertGreater(min(counts.values()), 0, counts)

    def test_makers_and_readers(self) -> None:
        gc.collect()
        for kind, rows in ROWS.items():
            before = lib.memory_in_use()
            for number, use in enumerate(uses_of(kind, rows)):
                self.check(use, (kind, number))
            del use
            self.check_in_use(before, kind)

    def test_values_that_do_not_fit(self) -> None:
        """The children that were made before the error are freed."""
        for kind, rows, error in table(
            ("struct<i64,i8,utf8>", [(1, 1, "a"), (2, 128, "b")], OverflowError), ("list<struct<utf8,bool>>", [[("a", True)], [("b", 2)]], TypeError),
            ("struct<list<i64>,fixed<2,i64>>", [([1], [2])], ValueError), ("list<" * 129 + "i8" + ">" * 129, [None], sel.LimitPassed),
        ):
            wanted = parse_type(kind)

            def use() -> None:
                with self.assertRaises((error, MemoryError)):
                    Column(rows, wanted)

            use()
            gc.collect()
            before = lib.memory_in_use()
            for number in range(30):
                lib.memory_refuse(number, number % 2 == 1)
                try:
                    use()
                finally:
                    lib.memory_allow()
                self.check_in_use(before, (kind, number))

    @unittest.skipIf(numpy is None, "numpy is not installed: arrays are not tested")
    def test_arrays(self) -> None:
        column, flags, places = Column([1, None, 3]), numpy.array([True, False, True]), numpy.array([2, 0])
        times, plain = numpy.array([0, "NaT", 2], dtype="datetime64[ms]"), Column([1, 2, 3])
        uses: list[Callable[[], Any]] = [
            lambda: Column.from_numpy(places), lambda: Column.from_numpy(flags, valid=flags), column.to_numpy, lambda: column.filter(flags), lambda: column.take(places),
            lambda: column[flags], lambda: column[places], lambda: sel.collect_rows([column], numpy.array([[0, 1]])), lambda: Column.from_numpy(places, copy=True),
            lambda: Column.from_numpy(places[::-1]), lambda: Column.from_numpy(times), lambda: Column.from_numpy(numpy.array([0.5, 1.5])),
            lambda: Column.from_numpy(places, valid=[True, False], copy=False)[1:].filter([True]), lambda: Table({"a": places, "b": times[:2]}),
            lambda: plain.to_numpy(zero_copy_only=True), lambda: numpy.asarray(plain), lambda: numpy.array(plain), plain.values_buffer, lambda: plain.__buffer__(0),
            lambda: out_of_band(Column.from_numpy(places)), lambda: Column.from_numpy(places).to_numpy(writable=False),
        ]
        for number, use in enumerate(uses):
            self.check(use, number)


if __name__ == "__main__":
    unittest.main()
