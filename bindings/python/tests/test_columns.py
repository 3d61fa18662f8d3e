"""Columns in and out, and each kernel beside its definition over plain lists."""

from __future__ import annotations

import copy
import random
import sys
import unittest
from collections.abc import Callable
from functools import partial
from typing import Any

import model
import sel
from cases import table
from sel import Column, Type

CASES = 1000
# makes a column of rows of a type
Make = Callable[[list[Any], Type], Column]


class Columns(unittest.TestCase):
    def test_every_kind_in_and_out(self) -> None:
        for text, rows in table(
            ("null", [None, None]), ("bool", [True, None, False]), ("i8", [-128, None, 127]), ("u16", [65535, 0]),
            ("i128", [-(2**127), None, 2**127 - 1]), ("u128", [2**128 - 1]), ("binary", [b"", None, b"a\0b"]),
            ("binview", [b"twelve bytes", b"thirteen byte", None]), ("utf8", ["", "é√", None, "longer than twelve"]),
            ("list<i64>", [[1, None], None, []]), ("fixed<2,bool>", [[True, None], None]), ("struct<i64,utf8>", [(1, "a"), None, (None, None)]),
            ("list<struct<fixed<1,i8>,list<utf8>>>", [[([1], ["x"]), None], None, [(None, None)]]),
        ):
            column = Column.from_pylist(rows, text)
            self.assertEqual(str(column.type), text)
            self.assertEqual(column.to_pylist(), rows)
            self.assertEqual(len(column), len(rows))
            self.assertEqual(column.null_count, sum(row is None for row in rows))

    def test_bytes_of_buffers(self) -> None:
        for text, rows, wanted in table(
            ("null", [None, None], 0), ("bool", [True] * 9, 2), ("bool", [True, None], 2), ("i8", [], 0), ("i8", [1, 2], 2),
            ("i64", [1, 2, 3], 24), ("i64", [1, None, 3], 24 + 1), ("u128", [1], 16), ("i128", [2**127 - 1, 0], 32),
            ("binary", [b"abc", b""], 3 * 8 + 3), ("utf8", ["short", "longer than twelve"], 2 * 16 + 18),
            ("list<i64>", [[1, 2], None, [3]], 1 + 4 * 8 + 3 * 8), ("fixed<2,i16>", [[1, 2], [3, 4]], 8),
            ("struct<i64,bool>", [(1, True), None], 1 + (2 * 8 + 1) + (1 + 1)),
        ):
            column = Column.from_pylist(rows, text)
            self.assertEqual(column.nbytes, wanted, (text, rows))
            self.assertEqual(sys.getsizeof(column) - sys.getsizeof(Column.from_pylist([], "i8")), wanted)
        column = Column.from_pylist([5, 6, 7, 8], "i32")
        self.assertEqual((column[1:3].nbytes, column.share().nbytes), (8, 16))
        pair = sel.Table({"a": column, "b": column})
        self.assertEqual((pair.nbytes, pair[:1].nbytes), (32, 8))
        self.assertEqual(sys.getsizeof(pair) - sys.getsizeof(pair[:1]), 24)

    def test_random_columns_in_and_out(self) -> None:
        rng = random.Random(1)
        for _ in range(CASES):
            wanted = model.random_type(rng, 3)
            rows = model.random_rows(rng, wanted, rng.randrange(12))
            column = Column.from_pylist(rows, wanted)
            self.assertEqual(column.to_pylist(), rows)
            self.assertEqual(column.type, wanted)
            start = rng.randrange(len(rows) + 1)
            self.assertEqual(column[start:].to_pylist(), rows[start:])

    def test_random_columns_through_arrow(self) -> None:
        rng = random.Random(2)
        for _ in range(CASES):
            wanted = model.random_type(rng, 3)
            rows = model.random_rows(rng, wanted, rng.randrange(12))
            start = rng.randrange(len(rows) + 1)
            part = Column.from_pylist(rows, wanted)[start:]
            again = Column.from_arrow(part)
            self.assertEqual(again.to_pylist(), rows[start:])
            self.assertEqual(again.type, wanted)
            self.assertTrue(again.equals(part))

    def test_random_columns_through_texts(self) -> None:
        rng = random.Random(10)
        for _ in range(CASES):
            wanted, rows, column = model.random_column(rng, 3, range(12))
            again = Column.parse(wanted, str(column))
            self.assertEqual(again.to_pylist(), rows)
            self.assertEqual(again.type, wanted)
            self.assertTrue(again.equals(column))
            self.assertEqual(str(again), str(column))

    def test_parsed(self) -> None:
        self.assertEqual(Column.parse(" struct< list<i8> , utf8 > ", ' [ ([1, null], "a b"), null ] ').to_pylist(), [([1, None], "a b"), None])
        self.assertEqual(Column.parse("struct<>", "[(), null]").to_pylist(), [(), None])
        self.assertEqual(Column.parse(Type("fixed", (Type("bool"),), 2), "[[true, null]]").to_pylist(), [[True, None]])
        self.assertEqual(Column.parse("binary", '[h"", null, h"610062"]').to_pylist(), [b"", None, b"a\0b"])

    def test_texts_that_are_none(self) -> None:
        for status, wanted, text, place in (
            (32, "", "[]", 0), (32, "list<i7>", "[]", 6), (32, "list<i8", "[]", 7), (32, "\u00e9", "[]", 0),
            (33, "i8", "[1", 2), (33, "i8", "[1, ]", 4), (33, "utf8", '["\u00e9";]', 4), (34, "struct<i8,bool>", "[(1)]", 1),
            (34, "i8", "[0, 128]", 4), (34, "list<utf8>", '[["\u00e9\u00e9"], 2]', 9), (34, "null", "[0]", 1),
        ):
            with self.assertRaises(sel.BrokenText, msg=text) as caught:
                Column.parse(wanted, text)
            self.assertEqual((caught.exception.status, caught.exception.place), (status, place), (wanted, text))
            self.assertIn(f"at character {place}", str(caught.exception))
        for wanted in ("list<" * 65 + "i8" + ">" * 65, "fixed<4294967296,i8>"):
            with self.assertRaises(sel.LimitPassed):
                Column.parse(wanted, "[]")

    def test_shown(self) -> None:
        self.assertEqual(repr(Column.from_pylist([1, None])), "Column(i64, [1,null])")
        self.assertEqual(repr(Column.from_pylist(list(range(13)), "u8")), "Column(u8, [0,1,2,3,4,5,6,7,8,9,10,11, ... 1 more])")
        self.assertEqual(str(Column.from_pylist([[("\u00e9\n", b"\x00")], None])), '[[("\u00e9\\n",h"00")],null]')
        self.assertEqual(Column.from_pylist(["a", "b"])[-1], "b")

    def test_equality(self) -> None:
        """`==` is one bool: whether the other value is a column with the same rows."""
        column = Column([1, None, 3])
        for other, equal in table((column, True), (Column([1, None, 3]), True), (Column([1, None, 3], "u8"), True), (Column([1, None]), False), (Column([1, 0, 3]), False),
                                  (Column(["1", None, "3"]), False), ([1, None, 3], False), ((1, None, 3), False), (None, False), (1, False), ("[1,null,3]", False)):
            self.assertIs(column == other, equal)
            self.assertIs(other == column, equal)
            self.assertIs(column != other, not equal)
            self.assertIs(other != column, not equal)
        self.assertEqual([column, Column([[1]])], [Column([1, None, 3]), Column([[1]])])
        self.assertIn(column[1:], [column, Column([None, 3])])
        for use in table(hash, lambda column: {column}, lambda column: {column: 1}):
            with self.assertRaises(TypeError):
                use(column)

    def test_random_equality(self) -> None:
        rng = random.Random(11)
        for _ in range(CASES):
            wanted = model.random_type(rng, 2)
            rows, others = (model.random_rows(rng, wanted, rng.randrange(3)) for _ in range(2))
            self.assertIs(model.laid_out(rng, rows, wanted) == model.laid_out(rng, others, wanted), rows == others)

    def test_copies_outlive_their_column(self) -> None:
        for copied in table(copy.copy, copy.deepcopy, Column.share):
            column = Column.from_pylist(["a", None])
            other = copied(column)
            del column
            self.assertEqual(other.to_pylist(), ["a", None])

    def test_nulls_of_wide_lists_take_no_memory(self) -> None:
        """The elements of null lists are not made one by one if they are all of type null."""
        for wanted in ("fixed<4294967295,null>", "struct<fixed<4294967295,null>,i8>", "list<fixed<4294967295,null>>"):
            column = Column.from_pylist([None], wanted)
            self.assertEqual((str(column.type), column.to_pylist(), column[0]), (wanted, [None], None))
        with self.assertRaises(TypeError):
            Column.from_pylist([[None, 1], None], "fixed<2,null>")
        self.assertEqual(Column.from_pylist([[None, None], None], "fixed<2,null>").to_pylist(), [[None, None], None])

    def test_types_are_read(self) -> None:
        self.assertEqual(sel.parse_type(" fixed< 2 , list<i8> > "), Type("fixed", (Type("list", (Type("i8"),)),), 2))
        self.assertEqual(sel.parse_type("\tlist <\n i8 \r>"), Type("list", (Type("i8"),)))
        for text in ("", "i7", "list", "list<", "list<i8", "list<i8,i8>", "fixed<i8>", "fixed<2>", "i8>", "struct<i8", "i 8", "l ist<i8>", "fixed<1 2,i8>"):
            with self.assertRaises(ValueError, msg=text):
                sel.parse_type(text)


class Kernels(unittest.TestCase):
    def test_of_columns_that_came_through_arrow(self) -> None:
        rng = random.Random(3)
        for _ in range(CASES):
            wanted = model.random_type(rng, 3)
            rows = model.random_rows(rng, wanted, rng.randrange(1, 12))
            other = model.random_rows(rng, wanted, len(rows))
            column = Column.from_arrow(Column.from_pylist(rows, wanted))
            mask = [rng.choice((True, False, None)) for _ in rows]
            indices = [rng.choice((None, rng.randrange(len(rows)))) for _ in range(rng.randrange(8))]
            self.assertEqual(column.filter(mask).to_pylist(), model.kept(rows, mask))
            self.assertEqual(column.take(indices).to_pylist(), model.taken(rows, indices))
            answer = sel.choose(mask, column, Column.from_pylist(other, wanted))
            self.assertEqual(answer.to_pylist(), model.chosen(mask, rows, other))
            self.assertEqual(column.unit_list().to_pylist(), [[row] for row in rows])

    def test_of_slices_with_other_values_beneath_nulls(self) -> None:
        rng = random.Random(6)
        for case in range(CASES):
            wanted = model.random_type(rng, 3)
            rows = model.random_rows(rng, wanted, rng.randrange(70 if case % 9 == 0 else 12))
            other = model.random_rows(rng, wanted, len(rows))
            column = model.laid_out(rng, rows, wanted)
            self.assertEqual(column.to_pylist(), rows)
            self.assertTrue(column.equals(Column.from_pylist(rows, wanted)))
            mask = [rng.choice((True, False, None)) for _ in rows]
            bits = model.laid_out(rng, mask, Type("bool"))
            self.assertEqual(column.filter(bits).to_pylist(), model.kept(rows, mask))
            indices = [rng.choice((None, rng.randrange(len(rows)))) for _ in range(rng.randrange(8))] if rows else [None]
            self.assertEqual(column.take(model.laid_out(rng, indices, Type("u32"))).to_pylist(), model.taken(rows, indices))
            answer = sel.choose(bits, column, model.laid_out(rng, other, wanted))
            self.assertEqual(answer.to_pylist(), model.chosen(mask, rows, other))
            self.assertEqual(column.unit_list().to_pylist(), [[row] for row in rows])

    def check_getters(self, rng: random.Random, make: Make) -> None:
        """Checks the elements of random lists, whose columns are made by `make`."""
        below, index = model.random_type(rng, 2), rng.randrange(-4, 4)
        wanted = Type("list", (below,))
        rows = model.random_rows(rng, wanted, rng.randrange(10))
        lists = make(rows, wanted)
        self.assertEqual(lists.sublist_get(index).to_pylist(), [model.element(row, index) for row in rows])
        self.assertEqual(lists.index_is_oob(index), model.is_outside(rows, index))
        wanted = Type("fixed", (below,), rng.randrange(4))
        rows = model.random_rows(rng, wanted, rng.randrange(10))
        blocks = make(rows, wanted)
        self.assertEqual(blocks.fixed_get(index).to_pylist(), [model.element(row, index) for row in rows])
        each = [rng.choice((None, rng.randrange(-4, 4))) for _ in rows]
        expected = [None if at is None else model.element(row, at) for row, at in zip(rows, each)]
        self.assertEqual(blocks.fixed_get(make(each, Type("i64"))).to_pylist(), expected)

    def test_getters(self) -> None:
        rng = random.Random(4)
        for _ in range(CASES):
            self.check_getters(rng, Column.from_pylist)

    def test_getters_of_slices_with_other_values_beneath_nulls(self) -> None:
        rng = random.Random(7)
        for _ in range(CASES):
            self.check_getters(rng, partial(model.laid_out, rng))

    def check_several(self, rng: random.Random, depth: int, make: Make) -> None:
        """Checks the calls on several random columns, which are made by `make`."""
        wanted, height = model.random_type(rng, depth), rng.randrange(1, 5)
        widths = [rng.randrange(1, 4) for _ in range(rng.randrange(1, 4))]
        rows = [model.random_rows(rng, wanted, width * rng.choice((1, height))) for width in widths]
        columns = [make(each, wanted) for each in rows]
        self.assertEqual(sel.flatten(columns, widths, height).to_pylist(), model.side_by_side(rows, widths, height))
        places = [(source, row) for source, each in enumerate(rows) for row in range(len(each))]
        picks = [rng.choice((None, rng.choice(places))) for _ in range(rng.randrange(9))]
        expected = [None if pick is None else rows[pick[0]][pick[1]] for pick in picks]
        self.assertEqual(sel.collect_rows(columns, picks).to_pylist(), expected)

    def test_several_columns(self) -> None:
        rng = random.Random(5)
        for _ in range(CASES // 4):
            self.check_several(rng, 2, Column.from_pylist)

    def test_several_slices_with_other_values_beneath_nulls(self) -> None:
        rng = random.Random(8)
        for _ in range(CASES // 2):
            self.check_several(rng, 3, partial(model.laid_out, rng))

    def test_random_dictionaries(self) -> None:
        rng = random.Random(9)
        for _ in range(CASES // 2):
            wanted = Type("utf8")
            values = model.random_rows(rng, wanted, rng.randrange(1, 9))
            keys = [rng.choice((None, rng.randrange(len(values)))) for _ in range(rng.randrange(12))]
            answer = sel.propagate_dictionary(model.laid_out(rng, keys, Type("u32")), model.laid_out(rng, values, wanted))
            self.assertEqual(tuple(column.to_pylist() for column in answer), model.handed_on(keys, values))

    def test_one_value_for_all_rows(self) -> None:
        column = Column.from_pylist([1, None, 3])
        mask = [True, False, None]
        self.assertEqual(sel.choose(mask, 7, column).to_pylist(), [7, None, 3])
        self.assertEqual(sel.choose(mask, column, 8).to_pylist(), [1, 8, 8])
        self.assertEqual(sel.choose(mask, 7, 8).to_pylist(), [7, 8, 8])
        self.assertEqual(sel.choose(mask, column, column).to_pylist(), [1, None, 3])
        self.assertEqual(sel.choose(mask, None, column).to_pylist(), [None, None, 3])
        names = Column.from_pylist([["a"], None, []])
        self.assertEqual(sel.choose(mask, names, ["b", None]).to_pylist(), [["a"], ["b", None], ["b", None]])
        self.assertEqual(sel.choose(mask, (1, "x"), (2, None)).to_pylist(), [(1, "x"), (2, None), (2, None)])

    def test_dictionaries(self) -> None:
        keys, values = Column.from_pylist([0, 1, 2, None], "u32"), Column.from_pylist(["a", None, "c"])
        new_keys, new_values = sel.propagate_dictionary(keys, values)
        self.assertEqual(new_keys.to_pylist(), [0, None, 1, None])
        self.assertEqual(new_values.to_pylist(), ["a", "c"])


class Refusals(unittest.TestCase):
    def test_each_has_its_text(self) -> None:
        column = Column.from_pylist([1, 2])
        for error, call in table(
            (sel.WrongArgument, lambda: column.filter([True])),
            (sel.WrongArgument, lambda: column.sublist_get(0)),
            (sel.WrongArgument, lambda: sel.choose([True, True], column, Column.from_pylist(["a", "b"]))),
            (sel.OutOfBounds, lambda: column.take([2])),
            (sel.OutOfBounds, lambda: column.sliced(1, 2)),
            (sel.OutOfBounds, lambda: Column.from_pylist([[1]], "fixed<1,i64>").fixed_get(1, null_on_oob=False)),
            (sel.LimitPassed, lambda: sel.flatten([Column.from_pylist([None] * 65537)], [65537], 65536)),
            (sel.BrokenRule, lambda: Column.from_pylist([2**127 - 1], "i128").__arrow_c_array__()),
        ):
            with self.assertRaises(error) as caught:
                call()
            self.assertTrue(caught.exception.text)
        self.assertEqual(column.to_pylist(), [1, 2])

    def test_values_of_another_type(self) -> None:
        for rows, wanted in table(([1.5], "i64"), ([True], "i8"), (["a"], "binary"), ([b"a"], "utf8"), ([1], "list<i64>"), ([(1,)], "list<i64>"), ([1], "null"), ([1], "bool")):
            with self.assertRaises(TypeError):
                Column.from_pylist(rows, wanted)
        for rows, wanted in table(([[1]], "fixed<2,i64>"), ([(1, 2)], "struct<i64>"), ([(1, 2), (3,)], None), ([(1,), (2, 3)], None)):
            with self.assertRaises(ValueError):
                Column.from_pylist(rows, wanted)
        for wanted in table(5, b"i64", ["i64"]):
            with self.assertRaises(TypeError):
                Column.from_pylist([1], wanted)
        with self.assertRaises(OverflowError):
            Column.from_pylist([128], "i8")
        with self.assertRaises(TypeError):
            Column.from_arrow([1])


if __name__ == "__main__":
    unittest.main()
