"""The conformance suite of the repository, tests/rows/*.txt, line by line through the calls of the package.

tests/README.md of the repository describes the lines. Each is tested with its columns laid out plainly, and as slices of longer
columns with other values in null slots. SEL_SUITE names another folder than the repository's `tests`.
"""

from __future__ import annotations

import os
import random
import sys
import unittest
from collections import Counter
from pathlib import Path
from typing import Any

import model
import sel
from notation import Line, lines_of, read_kinds, read_rows
from sel import Column, Type
from suite_calls import CALLS, NOT_PUBLIC, STATUSES, Arguments, Rows

SUITE = Path(os.environ.get("SEL_SUITE", Path(__file__).resolve().parents[3] / "tests"))

# How many rows stand before those of a column that is a slice.
OFFSETS = (1, 7, 8, 63, 64)

# A type with more rows below a null row than this is laid out plainly alone: other values in null slots would have as many.
MOST_ROWS_LAID_OUT = 1_000


class Wrong(Exception):
    """A line that is misspelled, or whose result is another one."""


def _rows_below(wanted: Type) -> int:
    """Returns the most rows that a null row has below itself, of the type or of one in it."""
    below = max(map(_rows_below, wanted.children), default=1)
    return below * max(1, wanted.width)


# Other values of each type, which columns have beside their rows.
_POOLS: dict[Type, list[Any]] = {}


def _column(rows: Rows, offset: int | None, rng: random.Random) -> Column:
    if offset is None:
        return Column.from_pylist(rows.values, rows.type)
    return model.Layout(rng, (offset,), _POOLS).column(rows.values, rows.type)


def _check_column(column: Column, rows: Rows, what: str) -> None:
    if column.type != rows.type:
        raise Wrong(f"{what} has type {column.type}, not {rows.type}")
    if len(column) != len(rows.values) or column.null_count != sum(row is None for row in rows.values):
        raise Wrong(f"{what} has {len(column)} rows and {column.null_count} nulls: {column}")
    if column.to_pylist() != rows.values:
        raise Wrong(f"{what} is {column}")


def _has_arrow_format(rows: Rows) -> bool:
    """Returns whether Arrow can show these rows: decimals have a sign, and 38 digits."""
    return "128" not in str(rows.type)


def _check_result(found: Any, expected: Any, through_arrow: bool) -> None:
    """Checks what a use gave: a text, a boolean, a type, rows, or columns."""
    if isinstance(expected, Rows) and isinstance(found, Column):
        _check_column(found, expected, "the result")
        if through_arrow and _has_arrow_format(expected):
            _check_column(Column.from_arrow(found), expected, "the result, through Arrow and back,")
    elif isinstance(expected, list) and isinstance(found, tuple):
        if len(found) != len(expected):
            raise Wrong(f"{len(found)} columns, not {len(expected)}")
        for column, rows in zip(found, expected):
            _check_result(column, rows, through_arrow)
    elif type(found) is not type(expected) or found != expected:
        raise Wrong(f"the result is {found!r}, not {expected!r}")


def _expected_of(line: Line, given: Arguments) -> Any:
    """Returns the expected result: rows, or what else the call gives; a status, or a status and a position."""
    kind = CALLS[line.fields[0]]
    texts = line.fields[1 + len(kind.letters) :]
    if texts and texts[0].startswith("error "):
        if len(texts) != 1:
            raise Wrong(f"{len(texts)} results, not one")
        name, *position = texts[0].split(" ")[1:]
        if name not in STATUSES:
            raise Wrong(f"there is no error {name}")
        return (STATUSES[name], *map(int, position))
    if len(texts) != (2 if kind.result == "dictionary" else 1):
        raise Wrong(f"{len(texts)} results")
    if kind.result == "dictionary":
        return [Rows(read_rows(text, Type(name)), Type(name)) for text, name in zip(texts, ("u32", "utf8"))]
    if kind.result == "flag":
        return {"true": True, "false": False}[texts[0]]
    if kind.result == "type":
        return texts[0]
    wanted = kind.type_of_result(given)
    return Rows(read_rows(texts[0], wanted), wanted)


def _found_status(error: sel.SelError, given: Arguments) -> tuple[int, ...]:
    """Returns the status of an error, and its position in bytes if it is one of a text."""
    if not isinstance(error, sel.BrokenText):
        return (error.status,)
    text = given.others[0] if error.status == STATUSES["type_syntax"] or len(given.others) == 1 else given.others[1]
    return (error.status, len(text[: error.place].encode()))


def _run_use(use: Any, given: Arguments, columns: list[Column], expected: Any, through_arrow: bool) -> None:
    try:
        found = use.run(given, *columns)
    except sel.SelError as error:
        found = _found_status(error, given)
        if found != expected:
            raise Wrong(f"the error is {error!r} of status {found}, not {expected}") from error
    else:
        if isinstance(expected, tuple) and not isinstance(expected, Rows):
            raise Wrong(f"the result is {found}, not an error of status {expected}")
        _check_result(found, use.expected(given, expected), through_arrow)


def run_line(line: Line, counts: Counter[str], layouts: tuple[int | None, ...] = (None,)) -> None:
    """Runs a line in some layouts, by all uses of its call that have these arguments. Raises Wrong, or what the call raises."""
    name = line.fields[0]
    if name not in CALLS:
        raise Wrong(f"there is no call {name}")
    kind = CALLS[name]
    if len(line.fields) < 2 + len(kind.letters):
        raise Wrong(f"{len(line.fields)} fields")
    given, rng = Arguments(kind.letters, line.fields[1:]), random.Random(line.place)
    expected = _expected_of(line, given)
    uses = [use for use in kind.uses if use.applies(given, expected)]
    is_large = any(_rows_below(rows.type) > MOST_ROWS_LAID_OUT for rows in given.columns)
    for offset in layouts[:1] if not given.columns or is_large else layouts:
        columns = [_column(rows, offset, rng) for rows in given.columns]
        for use in uses:
            _run_use(use, given, columns, expected, through_arrow=use is uses[-1])
            counts["calls"] += 1
        for number, (column, rows) in enumerate(zip(columns, given.columns), 1):
            _check_column(column, rows, f"column {number} after the call")
    counts["lines"] += 1
    if not any(use.is_public for use in uses):
        counts[f"not public: {name}"] += 1
        if name not in NOT_PUBLIC:
            raise Wrong("no public call takes these arguments, and NOT_PUBLIC does not say why")


@unittest.skipUnless((SUITE / "rows").is_dir(), f"{SUITE / 'rows'} is not there: the conformance suite is not run")
class Suite(unittest.TestCase):
    def test_every_line(self) -> None:
        kinds, wrong = read_kinds(SUITE / "kinds.txt"), []
        counts: Counter[str] = Counter()
        paths = sorted((SUITE / "rows").glob("*.txt"))
        for path in paths:
            lines = lines_of(path, kinds)
            self.assertTrue(lines, f"{path.name} has no line")
            counts["read"] += len(lines)
            for number, line in enumerate(lines):
                try:
                    run_line(line, counts, (None, OFFSETS[number % len(OFFSETS)]))
                except Exception as error:
                    wrong.append(f"{line.place[:300]}\n    {type(error).__name__}: {str(error)[:300]}")
        self.report(counts)
        self.assertGreater(counts["read"], 0, "no line was read")
        self.assertEqual(wrong[:20], [], f"{len(wrong)} lines fail")

    def report(self, counts: Counter[str]) -> None:
        """Reports the lines that were run by internal calls alone."""
        print(f"conformance suite: {counts['lines']} of {counts['read']} lines run, by {counts['calls']} calls", file=sys.stderr)
        for name, reason in NOT_PUBLIC.items():
            if counts[f"not public: {name}"]:
                print(f"    {counts[f'not public: {name}']} lines of {name} run by internal calls alone: {reason}", file=sys.stderr)


class Runner(unittest.TestCase):
    """The runner itself: right lines pass, and wrong ones fail."""

    def check(self, text: str) -> Counter[str]:
        counts: Counter[str] = Counter()
        run_line(Line(text, text.split(" | ")), counts, (None, *OFFSETS))
        return counts

    def test_right_lines(self) -> None:
        for text in RIGHT_LINES:
            counts = self.check(text)
            self.assertEqual(counts["lines"], 1)
            self.assertGreater(counts["calls"], 0)

    def test_every_call_has_a_right_line(self) -> None:
        self.assertEqual({text.split(" | ")[0] for text in RIGHT_LINES}, set(CALLS))

    def test_wrong_results(self) -> None:
        """Each right line fails with another result in place of its own."""
        for text in RIGHT_LINES:
            before, _, result = text.rpartition(" | ")
            for other in ("[null,null,null,null,null]", "[]", "true", "false", "error index_out_of_bounds", "error length_mismatch", "error row_syntax 1"):
                if other != result:
                    with self.assertRaises(Exception, msg=(text, other)):
                        self.check(f"{before} | {other}")

    def test_nulls_with_many_rows_below_are_parsed(self) -> None:
        for result in ("[[null]]", "error text_limit"):
            rows = "[[null]]" if result == "[[null]]" else "[[null,null]]"
            self.assertEqual(self.check(f"parse | list<fixed<2147483648,null>> | {rows} | {result}")["lines"], 1)
        self.assertEqual(self.check("parse | list<fixed<2147483648,null>> | [[]] | [[]]")["lines"], 1)

    def test_misspelled_lines(self) -> None:
        for text in ("sort | i64 | [2,1] | [1,2]", "filter | i64 | [1]", "filter | i64 | [1] | [true]", "filter | i64 | [1] | [true] | [1] | [1]",
                     "filter | i64 | [1,] | [true] | [1]", "filter | i65 | [1] | [true] | [1]", "filter | i64 | [1] | [true] | error wrong",
                     "unit_list | i64 | [1] | [1]", "take | utf8 | [1] | [0] | [1]"):
            with self.assertRaises((Wrong, ValueError), msg=text):
                self.check(text)


RIGHT_LINES = (
    'rows | list<utf8> | [["a",null],null] | [["a",null],null]',
    "filter | i64 | [1,2,null] | [true,null,true] | [1,null]",
    "take | i64 | [1,2,null] | [1,null,0] | [2,null,1]",
    "take | i64 | [1,2,null] | [3] | error index_out_of_bounds",
    "if_then_else | i64 | [true,false] | [1,2] | [3,4] | [1,4]",
    "if_then_else_broadcast_true | u8 | [true,false] | [1] | [3,4] | [1,4]",
    "if_then_else_broadcast_false | u8 | [true,false] | [1,2] | [null] | [1,null]",
    "if_then_else_broadcast_both | i64 | [true,null] | [1] | [2] | [1,2]",
    "list_get | list<i64> | [[1,2],null,[]] | -1 | [2,null,null]",
    "index_is_oob | list<i64> | [[1,2],null] | 2 | true",
    "fixed_size_list_get | fixed<2,i64> | [[1,2],null] | 1 | false | [2,null]",
    "fixed_size_list_get_each | fixed<2,i64> | [[1,2],[3,4]] | [1,0] | false | [2,3]",
    "unit_list | bool | [true,null] | [[true],[null]]",
    "reverse | i64 | [1,null,3] | [3,null,1]",
    "slice | i64 | [1,2,3] | 1 | 2 | [2,3]",
    "child | list<i64> | [[1,null],null,[2]] | [1,null,2]",
    "field | struct<i64,bool> | [(1,true),null] | 1 | [true,null]",
    "list_new | i64 | [1,2,3] | [0,2,3] | [true,false] | [[1,2],null]",
    "fixed_size_list_new | i64 | [1,2] | 1 | 2 |  | [[1],[2]]",
    "struct_new | i64 [1,2] ; bool [true,null] | 2 |  | [(1,true),(2,null)]",
    "flatten | i64 [1,2] ; i64 [3] | 1 1 | 2 | [1,3,2,3]",
    "collect_rows | i64 [1,2] ; i64 [3] | 1:0 _ 0:0+2 | [3,null,1,2]",
    'dictionary | [0,1] | ["a",null] | [0,null] | ["a"]',
    "equal | i64 | [1] | u8 | [1] | true",
    "parse | i64 | [ 1, null ] | [1,null]",
    "parse | utf8 | [\"\u00e9\";] | error row_syntax 5",
    "parse_type |  fixed< 2,i8 >  | fixed<2,i8>",
)


if __name__ == "__main__":
    unittest.main()
