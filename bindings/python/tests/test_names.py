"""Arrow's longer names of types, next to the short ones, wherever the text of a type is taken."""

from __future__ import annotations

import json
import random
import unittest
from typing import Any

import model
import sel
from cases import table
from sel import Column, Type, parse_type
from sel._logical import nested_type, nullable
from sel._names import LONG_NAMES, VALID_NAMES, short_names
from sel._types import KINDS

NAMES = (
    ("int8", "i8"), ("int128", "i128"), ("uint32", "u32"), ("uint64", "u64"), ("string", "utf8"), ("large_string", "utf8"), ("string_view", "utf8"),
    ("binary_view", "binview"), ("large_binary", "binary"), ("boolean", "bool"), ("bool", "bool"), ("null", "null"),
    ("list<item: string>", "list<utf8>"), (" large_list < element : int64 > ", "list<i64>"), ("list<int8>", "list<i8>"), ("list<item: i8>", "list<i8>"),
    ("fixed_size_list<item: int64>[3]", "fixed<3,i64>"), ("fixed_size_list<3, int64>", "fixed<3,i64>"),
    ("fixed_size_list<item: fixed_size_list<item: bool>[2]>[3]", "fixed<3,fixed<2,bool>>"),
    ("struct<a: int64, b: list<item: string>, c: struct<string: string>>", "struct<i64,list<utf8>,struct<utf8>>"),
    ("list<item: fixed_size_list<x: struct<a: int8, b: bool>>[10]>", "list<fixed<10,struct<i8,bool>>>"), ("struct<>", "struct<>"),
)
# The types of the texts whose structs have names of fields; the names in a text of `Column.parse` are left out.
NAMED = {
    NAMES[-3][0]: "struct<a: i64, b: large_list<item: string_view>, c: struct<string: string_view>>",
    NAMES[-2][0]: "large_list<item: fixed_size_list<x: struct<a: i8, b: bool>>[10]>",
}
NOT_NAMES = ("int7", "item: int64", "list<a: b: int8>", "list<: int8>", "list<item: >", "list<item>", "strings", "fixed_size_list<int8>", "fixed_size_list<int8>[]",
             "fixed_size_list<int8>[-1]", "fixed_size_list<int8>[2", "list<int8>[2]", "fixed<int8>[2]", "int64[2]", "int64:", "INT64", "struct<a: int8; b: int8>",
             "fixed_size_list<2, int8>[3]")


class Names(unittest.TestCase):
    def test_longer_names(self) -> None:
        for text, short in NAMES:
            found = NAMED.get(text, short)
            self.assertEqual(str(parse_type(text)), found, text)
            self.assertEqual((str(Column([], text).type), str(Column([], text).storage)), (found, short))
            self.assertEqual(str(Column.from_pylist([None], text).type), found)
            self.assertEqual(str(Column.parse(text, "[null]").type), short)
        self.assertEqual(Column.parse("struct<id: int64, tags: list<item: string>>", '[(1,["a",null])]').to_pylist(), [(1, ["a", None])])

    def test_every_short_name_stays(self) -> None:
        for kind in KINDS:
            text = {"list": "list<i8>", "fixed": "fixed<2,i8>", "struct": "struct<i8,utf8>"}.get(kind, kind)
            self.assertEqual(short_names(text), (text, list(range(len(text) + 1))))
            self.assertEqual((str(parse_type(text)), str(Column([], text).type), str(Column.parse(text, "[]").type)), (text,) * 3)
        self.assertLessEqual(set(LONG_NAMES.values()), set(KINDS))
        self.assertEqual(set(LONG_NAMES) & set(KINDS), set())

    def test_long_white_space(self) -> None:
        """The time is in proportion to the text; a search for commas that began at each space took hours for these."""
        space = " " * 1_000_000
        for text in (f"i64{space}x", f"timestamp[ms{space}x]", f"list<item: i64{space}x>", f"decimal128(5{space}2)"):
            with self.assertRaises(ValueError):
                parse_type(text)
        for text, found in ((f"{space}decimal128(5{space},{space}2){space}", "decimal128(5, 2)"), (f"timestamp[ms{space},{space}tz=UTC]", "timestamp[ms, tz=UTC]"),
                            (f"list<{space}item{space}:{space}int8{space}not null{space}>{space}", "large_list<item: i8 not null>")):
            self.assertEqual(str(parse_type(text)), found)

    def test_texts_that_are_no_types(self) -> None:
        for text in NOT_NAMES:
            for use in table(parse_type, lambda text: Column([], text), lambda text: Column.parse(text, "[]")):
                with self.assertRaises(ValueError, msg=text):
                    use(text)

    def test_sizes(self) -> None:
        for text in ("fixed_size_list<item: int8>[4294967296]", "fixed_size_list<4294967296, int8>"):
            with self.assertRaises(OverflowError):
                parse_type(text)
            with self.assertRaises(sel.LimitPassed):
                Column.parse(text, "[]")

    def test_errors_list_the_names(self) -> None:
        for name in ("null", "bool", "i8", "int64", "u128", "binary_view", "utf8", "string", "list<..>", "fixed_size_list", "struct<..>"):
            self.assertIn(name.replace("int64", "int8 to int128"), VALID_NAMES)
        for use in table(parse_type, lambda text: Column([], text), lambda text: Column.parse(text, "[]")):
            with self.assertRaises(ValueError) as caught:
                use("list<item: float80>")
            self.assertIn(VALID_NAMES, str(caught.exception))
        with self.assertRaisesRegex(ValueError, "there is no type 'float80'"):
            parse_type("list<item: float80>")

    def test_errors_name_the_place_in_the_text(self) -> None:
        for text, place in (("list<item: float80>", 12), ("struct<a: int64, b: strin>", 23), ("int65", 1), ("list<item: int64", 16), ("list<item: int64>>", 17),
                            ("list<i7>", 6), ("struct<string, \u00e9>", 15)):
            with self.assertRaises(sel.BrokenText, msg=text) as caught:
                Column.parse(text, "[]")
            self.assertEqual((caught.exception.status, caught.exception.place), (32, place), text)
            self.assertIn(f"at character {place};", str(caught.exception))


# Texts of types whose fields have names, rows as they are printed, and the types of the columns that are parsed.
PARSED = (
    ('struct<"a b": i64>', "[(1),null]", "struct<i64>"), ("struct<a b: i64>", "[(1),null]", "struct<i64>"), ('struct<"from, to": int64, n: int8 not null>', "[(1,2)]", "struct<i64,i8>"),
    ('struct< "x: i64>" :list<"<": string>,"\\"\\u00e9":bool >', '[(["a",null],true)]', "struct<list<utf8>,bool>"), ("struct<m[s:t]: i64, a]: i8, : bool>", "[(1,2,null)]", "struct<i64,i8,bool>"),
    ('list<"": i8 not null>', "[[1],null,[]]", "list<i8>"), ("list<list<i8> not null>", "[[[1],[]]]", "list<list<i8>>"), ("list<not null: null>", "[[null]]", "list<null>"),
    ("fixed_size_list<fixed_size_list<x: i8 not null>[1] not null>[2]", "[[[1],[2]]]", "fixed<2,fixed<1,i8>>"), ("fixed_size_list <item: i64>[2]", "[[1,2]]", "fixed<2,i64>"),
    ("fixed<2, x y: i8 not null>", "[[1,2]]", "fixed<2,i8>"), ("struct<int8: int8, string: string>", '[(1,"a")]', "struct<i8,utf8>"), ("struct<a: struct<>, b: null>", "[((),null)]", "struct<struct<>,null>"),
)
LETTERS = 'ab: ,<>[]()"\\{}=\u00e9\U0001f600\t\n'


class Parsed(unittest.TestCase):
    """`Column.parse` reads the texts that `parse_type` reads, and what `str` gives for a column that it returns."""

    def check(self, text: str | Type, rows: str, storage: str) -> None:
        column = Column.parse(text, rows)
        self.assertEqual((str(column), str(column.type), str(column.storage)), (rows, storage, storage), text)
        for again in (Column.parse(text, str(column)), Column.parse(str(column.type), str(column)), Column.parse(column.type, str(column))):
            self.assertEqual((again, again.type), (column, column.type))

    def test_names_of_fields(self) -> None:
        for text, rows, storage in PARSED:
            self.assertEqual(str(Column([], text).storage), storage)
            for wanted in table(text, parse_type(text), str(parse_type(text))):
                self.check(wanted, rows, storage)

    def random_type(self, rng: random.Random, depth: int) -> tuple[Type, Type]:
        """Returns a type with names of fields, and its storage. Below names the text of i128 is that of a decimal."""
        if depth == 0 or rng.random() < 0.2:
            kind = Type(rng.choice([leaf for leaf in model.LEAVES if leaf != "i128"]))
            return kind, kind
        word = rng.choice(("list", "fixed", "struct"))
        children = [self.random_type(rng, depth - 1) for _ in range(rng.randrange(4) if word == "struct" else 1)]
        width = rng.randrange(1, 4) if word == "fixed" else 0
        fields = [nullable(one, is_nullable=False) if rng.random() < 0.2 else one for one, _ in children]
        names: list[Any] = [rng.choice((None, "".join(rng.choice(LETTERS) for _ in range(rng.randrange(6))))) for _ in fields]
        return nested_type(word, fields, width, names), Type(word, tuple(two for _, two in children), width)

    def test_texts_of_random_types(self) -> None:
        rng = random.Random(6)
        for _ in range(400):
            wanted, storage = self.random_type(rng, 3)
            rows = str(Column(model.random_rows(rng, storage, rng.randrange(4)), storage))
            self.assertEqual(parse_type(str(wanted)), wanted)
            for given in table(wanted, str(wanted), str(wanted).replace(", ", " ,\t").replace("<", "< ") if '"' not in str(wanted) else str(wanted)):
                self.check(given, rows, str(storage))

    def test_names_in_quotes_that_do_not_fit(self) -> None:
        for text, place in (('struct<"a: int64>', 17), ('struct<"a" int64>', 11), ('struct<"a">', 10), ('struct<"a\\x": int64>', 9), ('"a": int64', 0), ('struct<"a"b: int64>', 10), ("struct<a: >", 10),
                            ("struct<i8, b: >", 14), ("struct<a:", 9), ('struct<"a b": i8, "c, d": i65>', 28), ("struct<a b: i8 not null, c d: x>", 30), ("list<: int8>", 5), ("struct<i8,>", 10)):
            with self.assertRaises(sel.BrokenText, msg=text) as caught:
                Column.parse(text, "[]")
            self.assertEqual((caught.exception.status, caught.exception.place), (32, place), text)
            with self.assertRaises(ValueError, msg=text):
                parse_type(text)
        for text in (json.dumps("a\0b"), "a\0b", '"\\ud800"', "\ud800"):
            with self.assertRaises(ValueError, msg=text):
                Column.parse(f"struct<{text}: i8>", "[]")
        for text in ("i64 not null", "struct<not null>", "struct<a: not null>", "list<list not null<i8>>"):
            with self.assertRaises(ValueError, msg=text):
                Column.parse(text, "[]")


if __name__ == "__main__":
    unittest.main()
