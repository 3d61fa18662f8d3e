"""Types that are given as text or as a Type: names of fields, logical types below others, and levels."""

from __future__ import annotations

import datetime
import json
import pickle
import struct
import unittest
from typing import Any

import sel
from arrays import Piece
from cases import table
from sel import Column, Table, Type, parse_type
from sel._logical import as_logical_of, coded_type, of_format
from sel._makers import made_of
from sel._pickle import described, type_again

DAY = datetime.date(2024, 2, 29)
ORDER = {"id": 1, "price": 2.5}


class Fields(unittest.TestCase):
    def test_names_of_a_text_are_kept(self) -> None:
        for text, rows, printed in table(
            ("struct<id: int64, price: double>", [ORDER, None], "struct<id: i64, price: double>"),
            ("struct<id: int64, n: int8>", [{"id": 1, "n": 2}, None], "struct<id: i64, n: i8>"),
            ("list<item: struct<id: int64, when: date32>>", [[{"id": 1, "when": DAY}], [], None], "large_list<item: struct<id: i64, when: date32[day]>>"),
            ("fixed_size_list<item: struct<a: int64>>[1]", [[{"a": 1}], None], "fixed_size_list<item: struct<a: i64>>[1]"),
            ("struct< unit price : double , timestamp[ms, tz=+05:30]>", [{"unit price": 0.5, "1": None}], "struct<unit price: double, 1: timestamp[ms, tz=+05:30]>"),
        ):
            column = Column(rows, text)
            self.assertEqual((str(column.type), column.to_pylist()), (printed, rows))
            self.assertEqual(Column(rows, parse_type(text)).to_pylist(), rows)
        self.assertEqual(Column([(1, 2.5)], "struct<id: int64, price: double>").to_pylist(), [ORDER])
        self.assertEqual(Column([ORDER], "struct<id: int64, price: double>").field("price").to_pylist(), [2.5])

    def test_keys_of_dicts(self) -> None:
        for text in table("struct<id: int64, price: double>", "struct<id: int64, price: int8>"):
            column = Column([None], text)
            for value, message in table(({"id": 7, "prise": 1}, "has no 'price' and has the unknown 'prise'"), ({"id": 7}, "has no 'price'"), ({}, "has no 'id', 'price'"),
                                        ({"id": 7, "price": 1, 3: 4}, "has the unknown 3")):
                for use in table(lambda value: Column([None, value], text), column.fill_null, lambda value: sel.choose([True], value, column)):
                    with self.assertRaisesRegex(ValueError, message):
                        use(value)
        twice = sel._logical.of_format("+s", [Type("i8"), Type("i8")], ["a", "a"])
        with self.assertRaisesRegex(ValueError, "some have one name"):
            Column([{"a": 1}], twice)
        with self.assertRaisesRegex(TypeError, "have no names"):
            Column([{"a": 1}], "struct<i8>")

    def test_texts_of_types_give_the_types(self) -> None:
        for column in (Column.from_arrow(Table({"id": [1], "when": [DAY], "unit price": [0.5]})), Column.from_arrow(Table({"id": [1], "n": [2]})),
                       Column.from_arrow(Table({"a": Column([[(1, 0.5)]]), "b": Column([[True]], "fixed<1,bool>"), "c": Column([None], "timestamp[ms, tz=+05:30]")})),
                       Column.from_arrow(Table({"": [1]}))):
            self.assertEqual(parse_type(str(column.type)), column.type)
        text = "struct<a: i64 not null, b: large_list<element: double not null> not null>"
        self.assertEqual(str(parse_type(text)), text)
        self.assertEqual([field.is_nullable for field in sel._logical.with_arrow_types(parse_type(text)).children if isinstance(field, sel.ArrowType)], [False, False])
        with self.assertRaises(ValueError):
            parse_type("i64 not null")

    def test_names_that_arrow_cannot_have(self) -> None:
        for text in ("struct<a\0b: int64, a\0c: double>", "timestamp[s, tz=a\0b]"):
            with self.assertRaisesRegex(ValueError, "zero character"):
                parse_type(text)
        for text in ("struct<a\ud800: int64>", "timestamp[s, tz=\ud800]"):
            with self.assertRaisesRegex(ValueError, "half a surrogate pair"):
                parse_type(text)
        with self.assertRaisesRegex(ValueError, "half a surrogate pair"):
            Table({"\udfff": [1]})


class Nulls(unittest.TestCase):
    def test_fields_and_elements_below_nulls(self) -> None:
        """A field or an element that is not null is null below a null row. As a column it has these nulls, and a type that allows them."""
        structs, lists = Column([{"a": 1}, None], "struct<a: i64 not null>"), Column([[0.5, 1.5], None], "fixed_size_list<item: double not null>[2]")
        nested = Column([{"a": {"b": 1}}, None], "struct<a: struct<b: i64 not null> not null>")
        for found, rows in table((structs.field("a"), [1, None]), (structs.field(0), [1, None]), (lists.child(), [0.5, 1.5, None, None]), (nested.field("a").field("b"), [1, None]),
                                 (structs.take([None, 0]).field("a"), [None, 1]), (lists.take([None, 0]).child(), [None, None, 0.5, 1.5])):
            self.assertEqual((found.to_pylist(), getattr(found.type, "is_nullable", True)), (rows, True))
            for again in (Column.from_arrow(found), Table.from_arrow(Table({"a": found}))["a"], Column(found, found.type), pickle.loads(pickle.dumps(found))):
                self.assertEqual((again.to_pylist(), again.type), (rows, found.type))
        for found in (structs[:1].field("a"), structs.drop_null().field("a"), lists.drop_null().child(), Table.from_arrow(structs.drop_null())["a"]):
            self.assertFalse(getattr(found.type, "is_nullable", True))


class Texts(unittest.TestCase):
    """What `str` gives for a type, and what `parse_type` makes of it."""

    def test_names_that_are_quoted(self) -> None:
        for name, text in table(("a", "a: i64"), ("unit price", "unit price: i64"), ("", ": i64"), ("m[s:t]", "m[s:t]: i64"), ("x: i64, y", '"x: i64, y": i64'), (" a", '" a": i64'),
                                ("a\t", '"a\\t": i64'), ('"', '"\\"": i64'), ("<", '"<": i64'), ("a,b", '"a,b": i64'), ("a[", '"a[": i64'), ("a]", "a]: i64"), (":", '":": i64'), ("\u00e9,", '"\u00e9,": i64')):
            wanted = Column.from_arrow(Table({name: [1], "n": [0.5]})).type
            self.assertEqual(str(wanted), f"struct<{text}, n: double>")
            again = parse_type(str(wanted))
            self.assertEqual(again, wanted)
            self.assertEqual([field.name for field in again.children if isinstance(field, sel.ArrowType)], [name, "n"])
            lists = parse_type(f"list<{json.dumps(name)}: double>")
            self.assertEqual(parse_type(str(lists)), lists)
            self.assertEqual([field.name for field in lists.children if isinstance(field, sel.ArrowType)], [name])
        self.assertEqual(str(parse_type('list<"": double>')), 'large_list<"": double>')
        self.assertEqual(str(parse_type('struct< "a b" : int64>')), "struct<a b: i64>")

    def test_quotes_that_do_not_fit(self) -> None:
        for text in ('struct<"a: int64>', 'struct<"a" int64>', 'struct<"a">', 'struct<"\\x": int64>', '"a": int64', 'struct<"a"b: int64>', "list<: int8>"):
            with self.assertRaises(ValueError, msg=text):
                parse_type(text)

    def test_types_whose_text_leaves_something_out(self) -> None:
        """A map, a dictionary and an extension type raise an error, at any depth; their storage is not returned."""
        entries = of_format("+s", [parse_type("utf8"), parse_type("double")], ["key", "value"])
        name = b"ARROW:extension:name"
        metadata = struct.pack("<ii", 1, len(name)) + name + struct.pack("<i", 7) + b"my.json"
        types = {
            "map": of_format("+m", [entries]), "dictionary": coded_type("i", Column(["a"])),
            "extension": Column.from_arrow(Piece("l", 1, [None, b"\0" * 8], metadata=metadata)).type,
        }
        texts = {"map": "map<string_view, double>", "dictionary": "dictionary<i32, string_view>", "extension": "extension<my.json, i64>"}
        for word, wanted in types.items():
            self.assertEqual(str(wanted), texts[word])
            for text in (str(wanted), f"list<item: {wanted}>", f"struct<a: i8, b: {wanted} not null>"):
                for use in table(parse_type, lambda text: Column([], text)):
                    with self.assertRaisesRegex(ValueError, f"{word}<..> is not parsed"):
                        use(text)
            self.assertEqual(Column([None], wanted).type, wanted)

    def test_errors(self) -> None:
        for value in table(5, None, b"i64", Type("i64")):
            with self.assertRaisesRegex(TypeError, "not str"):
                parse_type(value)
        for text in ("decimal32(10, 2)", "decimal128(39, 0)", "decimal256(77, 1)", "decimal128(0, 0)"):
            with self.assertRaisesRegex(ValueError, "there is no type 'decimal"):
                parse_type(text)
        for zone in ("a, b", "a ,b", " UTC", "tz=", "tz=UTC"):
            wanted = of_format(f"tsm:{zone}")
            self.assertEqual((str(wanted), parse_type(str(wanted))), (f"timestamp[ms, tz={zone}]", wanted))
        for text in ("timestamp[ms, tz=]", "timestamp[ms,tz=]", "timestamp[ns ,  tz=]", "timestamp[s,]", "timestamp[s, ]"):
            for use in table(parse_type, lambda text: Column([], text), lambda text: parse_type(f"struct<a: i8, b: {text} not null>")):
                with self.assertRaisesRegex(ValueError, r"there is no type 'timestamp\["):
                    use(text)
        for text in ("struct<i8,>", "struct<a: double , >", "list<i8,>", "fixed<2,i8,>", "fixed_size_list<i8,>[2]"):
            with self.assertRaisesRegex(ValueError, "no type after its last comma"):
                parse_type(text)
        for text in ("fixed_size_binary[4294967296]", "fixed_size_binary[" + "9" * 10000 + "]"):
            with self.assertRaises(OverflowError):
                parse_type(text)

    def test_the_name_of_a_type_itself_does_not_count(self) -> None:
        columns = Table.from_arrow(Table({"id": [1], "price": [0.5], "list": [[1]], "pair": [(1, "a")], "when": [DAY]}))
        for name, wanted in table(("id", Type("i64")), ("price", parse_type("double")), ("list", Type("list", (Type("i64"),))), ("pair", Type("struct", (Type("i64"), Type("utf8")))),
                                  ("when", parse_type("date32"))):
            found = columns[name].type
            self.assertEqual(found, wanted)
            self.assertEqual(wanted, found)
            self.assertEqual(hash(found), hash(wanted))
            self.assertEqual(len({found, wanted}), 1)
            self.assertEqual(found.name, name)
        deep = Type("i64")
        for _ in range(200):
            deep = Type("list", (deep,))
        self.assertNotEqual(columns["list"].type, deep)
        for other in table(Type("u64"), parse_type("float"), parse_type("timestamp[s]"), Type("i32"), "i64", None):
            self.assertNotEqual(columns["id"].type, other)
        self.assertEqual(Type("list", (parse_type("double"),)), parse_type("list<double>"))
        self.assertNotEqual(parse_type("struct<a: double>"), parse_type("struct<b: double>"))
        self.assertNotEqual(parse_type("struct<a: i64>"), Type("struct", (Type("i64"),)))
        self.assertEqual(parse_type('struct<"0": i64>'), Type("struct", (Type("i64"),)))


class Names(unittest.TestCase):
    def test_a_type_that_becomes_nullable_keeps_its_name(self) -> None:
        """Also if it has none, or one that is not UTF-8, which another library has made."""
        for name in (None, b"", b"a", b"\xff"):
            column = Column._owning(made_of([1, 2], Type("i64")), type_again((b"l", name, None, 0, (), None)))
            self.assertFalse(getattr(column.type, "is_nullable", True))
            for found in (column, column.take([None, 0]), column[::-1], column[[0]], sel.collect_rows([column], [(0, 0), None])):
                self.assertEqual(described(as_logical_of(found, found._logical)._owner)[1], name)


class Types(unittest.TestCase):
    def test_logical_types_below_others(self) -> None:
        double = parse_type("double")
        for wanted, rows, text in table(
            (Type("list", (double,)), [[1.5, None], None], "large_list<item: double>"), (Type("struct", (parse_type("date32"), Type("i64"))), [{"0": DAY, "1": 1}], "struct<0: date32[day], 1: i64>"),
            (Type("fixed", (Type("list", (double,)),), 1), [[[0.5]]], "fixed_size_list<item: large_list<item: double>>[1]"),
        ):
            column = Column(rows, wanted)
            self.assertEqual((str(column.type), column.to_pylist()), (text, rows))

    def test_texts_of_types_with_logical_types_below(self) -> None:
        double, whole = parse_type("double"), parse_type("struct<a: double not null>").children[0]
        for wanted, text in table((Type("list", (double,)), "list<double>"), (Type("list", (whole,)), "list<double not null>"), (Type("fixed", (whole,), 2), "fixed<2,double not null>"),
                                  (Type("struct", (whole, Type("i8"), double)), "struct<double not null,i8,double>"), (Type("list", (Type("list", (whole,)),)), "list<list<double not null>>")):
            self.assertEqual((str(wanted), parse_type(text)), (text, wanted))
        self.assertNotEqual(parse_type("list<double>"), Type("list", (whole,)))

    def test_logical_types_are_not_made_of_texts(self) -> None:
        for value in table("double", Type("i64"), None, parse_type("double")):
            with self.assertRaisesRegex(TypeError, "parse_type"):
                sel.ArrowType(value)

    def test_types_that_there_are_not(self) -> None:
        makers: list[Any] = [lambda: Type("foo"), lambda: Type("list"), lambda: Type("fixed", (), 2), lambda: Type("i64", (Type("i64"),)), lambda: Type("list", (Type("i8"),) * 2),
                             lambda: Type("i64", (), 3), lambda: Type("list", (Type("i8"),), 2), lambda: Type("struct", (Type("i8"),), 1)]
        for make in makers:
            with self.assertRaises(ValueError):
                make()
        with self.assertRaisesRegex(TypeError, "not a Type"):
            Type("list", table("i64"))  # type: ignore[arg-type]
        self.assertEqual(Type("struct"), parse_type("struct<>"))

    def test_deep_types(self) -> None:
        value: Any = 1
        wanted = Type("i8")
        for _ in range(600):
            value, wanted = [value], Type("list", (wanted,))
        deep: list[Any] = [lambda: parse_type("list<" * 1500 + "i8" + ">" * 1500), lambda: Column([value]), lambda: Column([(value,)]), lambda: Column([], wanted)]
        for use in deep:
            with self.assertRaises(sel.LimitPassed) as caught:
                use()
            self.assertEqual(caught.exception.status, 12)

    def test_rows_of_logical_types_are_not_parsed(self) -> None:
        double = parse_type("double")
        for wanted, place in table((double, 0), (Type("list", (double,)), 5), ("double", 0), ("struct<a: double>", 10), ('struct<"a, b": i8, c: list<double>>', 27)):
            with self.assertRaisesRegex(sel.BrokenText, "rows of the logical type .*double.* are not parsed") as caught:
                Column.parse(wanted, "[]")
            self.assertEqual((caught.exception.status, caught.exception.place), (32, place))
        for wanted in table(of_format("+m", [of_format("+s", [parse_type("utf8"), parse_type("i8")], ["key", "value"])]), coded_type("i", Column(["a"]))):
            with self.assertRaisesRegex(sel.BrokenText, "rows of the logical type .* are not parsed"):
                Column.parse(wanted, "[]")
        for levels in (129, 2000):
            wanted = Type("i8")
            for _ in range(levels + 1):
                wanted = Type("list", (wanted,))
            with self.assertRaises(sel.LimitPassed):
                Column.parse(wanted, "[]")


if __name__ == "__main__":
    unittest.main()
