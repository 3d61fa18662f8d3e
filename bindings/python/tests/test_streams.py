"""Arrow streams, as Series, DataFrames and chunked arrays of other libraries offer them, of a producer in ctypes."""

from __future__ import annotations

import errno
import random
import threading
import time
import unittest
from collections import Counter
from collections.abc import Sequence
from concurrent.futures import ThreadPoolExecutor
from ctypes import POINTER, addressof, c_void_p, cast, memmove, pointer, sizeof

import model
import sel
from cases import table
from sel import Column, _arrow, parse_type
from sel._callbacks import NO_RELEASE, Release
from sel._library import ArrowArray, ArrowSchema
from streams import Stream, counted

CASES = 100
KINDS = ("null", "bool", "i8", "i16", "i32", "i64", "i128", "u8", "u16", "u32", "u64", "binary", "binview", "utf8", "list<i64>", "list<list<utf8>>", "fixed<2,bool>",
         "fixed<0,i8>", "struct<i64,utf8>", "struct<>", "struct<list<struct<bool>>,fixed<3,fixed<1,binary>>>")


class Exported:
    """An object with the array of one column and the schema of another, which counts their releases."""

    def __init__(self, column: Column, like: Column) -> None:
        self.capsules, self.released = [like.__arrow_c_schema__(), column.__arrow_c_array__()[1]], Counter[str]()
        schema = ArrowSchema.from_address(_arrow._api.PyCapsule_GetPointer(self.capsules[0], _arrow._SCHEMA))
        array = ArrowArray.from_address(_arrow._api.PyCapsule_GetPointer(self.capsules[1], _arrow._ARRAY))
        self.functions = [counted(schema, self.released, "schema"), counted(array, self.released, "array")]

    def __arrow_c_array__(self, requested_schema: object = None) -> tuple[object, object]:
        schema, array = self.capsules
        return schema, array


class Malformed(Stream):
    """A stream whose schema is a copy of another one, which need not be well-formed."""

    def __init__(self, like: Column, chunks: Sequence[Column], schema: ArrowSchema) -> None:
        super().__init__(like, chunks)
        self.schema = schema

    def _get_schema(self, stream: int, address: int) -> int:
        own = self.waiting.pop(0)
        Release(own.release)(addressof(own))
        memmove(address, addressof(self.schema), sizeof(self.schema))
        return 0


class Streams(unittest.TestCase):
    def check_released(self, stream: Stream) -> None:
        """Each structure that the producer handed out has been released once: when no column uses an array any more."""
        self.assertEqual(stream.released, stream.made)
        self.assertEqual(stream.released["stream"], 1)

    def test_chunks_are_concatenated(self) -> None:
        numbers = [Column([1, None]), Column([], "i64"), Column([3]), Column([4, 5, 6])[1:]]
        for chunks, expected in table((numbers, [1, None, 3, 5, 6]), (numbers[:1], [1, None]), (numbers[1:3], [3]), ([numbers[1]] * 2, []), ([numbers[0]] * 50, [1, None] * 50)):
            stream = Stream(numbers[0], chunks)
            found = Column.from_arrow(stream)
            self.assertEqual((str(found.type), found.to_pylist(), type(found)), ("i64", expected, Column))
            self.assertEqual(stream.made, {"stream": 1, "schema": 1, "array": len(chunks)} if chunks else {"stream": 1, "schema": 1})
            del found
            self.check_released(stream)

    def test_random_columns(self) -> None:
        rng = random.Random(1)
        for _ in range(CASES):
            wanted = model.random_type(rng, 3)
            parts = [model.random_rows(rng, wanted, rng.randrange(5)) for _ in range(rng.randrange(5))]
            stream = Stream(Column([], wanted), [model.laid_out(rng, part, wanted) for part in parts])
            found = Column.from_arrow(stream)
            self.assertEqual((found.type, found.to_pylist()), (wanted, [row for part in parts for row in part]))
            del found
            self.check_released(stream)

    def test_a_stream_without_chunks_has_no_rows(self) -> None:
        for kind in KINDS:
            stream = Stream(Column([], kind))
            found = Column.from_arrow(stream)
            self.assertEqual((str(found.type), found.to_pylist()), (kind, []))
            self.check_released(stream)

    def test_errors_of_the_producer(self) -> None:
        column = Column([1])
        for code, kind in ((errno.EIO, OSError), (errno.EINVAL, ValueError), (errno.ENOMEM, MemoryError), (errno.ENOSYS, NotImplementedError), (errno.ENOENT, FileNotFoundError)):
            for place in table("schema", 0, 1, 2):
                for text in (None, "no rows for \u00e9"):
                    stream = Stream(column, [column] * 2, fails_at=place, code=code, text=text)
                    with self.assertRaises(kind) as caught:
                        Column.from_arrow(stream)
                    self.assertIn(text or "", str(caught.exception))
                    self.assertTrue(str(caught.exception))
                    self.assertNotIsInstance(caught.exception, sel.SelError)
                    self.assertEqual(stream.made["array"], 0 if place == "schema" else place)
                    self.check_released(stream)

    def test_types_without_a_column(self) -> None:
        """The error is the same whether there is a chunk or none."""
        column = Column([1, 2])
        for format, status in table((b"+us:0", 65), (b"+ud:0,1", 65), (b"", 65), (b"tdd", 65), (b"d:39,2", 65), (b"+m", 67), (b"+r", 67), (b"+l", 67), (b"+w:2", 67)):
            for chunks in table([], [column], [column, column]):
                stream = Stream(column, chunks, format=format)
                with self.assertRaises(sel.BrokenRule, msg=format) as caught:
                    Column.from_arrow(stream)
                self.assertEqual(caught.exception.status, status, format)
                self.assertEqual(stream.made["array"], min(1, len(chunks)))
                self.check_released(stream)

    def test_malformed_schemas(self) -> None:
        """Without a chunk too, the schema is checked before its children are read: there may be fewer than it says, or it may contain itself."""
        for format, count, children, kind, status in table((b"+s", 2, 2, sel.LimitPassed, 12), (b"+l", 1, 1, sel.LimitPassed, 12), (b"+l", 1 << 40, 1, sel.BrokenRule, 67),
                                                           (b"i", 1 << 40, 0, sel.BrokenRule, 67), (b"+s", -1, 0, sel.BrokenRule, 67), (b"+us:0", 1 << 40, 1, sel.BrokenRule, 65)):
            schema = ArrowSchema(format=format, n_children=count, release=cast(NO_RELEASE, c_void_p))
            schema.children = (POINTER(ArrowSchema) * max(1, children))(*[pointer(schema)] * children)
            for chunks in table([], [Column([1])]):
                stream = Malformed(Column([1]), chunks, schema)
                with self.assertRaises(kind, msg=format) as caught:
                    Column.from_arrow(stream)
                self.assertEqual(caught.exception.status, status)
                self.assertEqual((stream.released["array"], stream.released["stream"]), (len(chunks), 1))

    def test_chunks_that_do_not_fit_the_schema(self) -> None:
        for like, chunks in table((Column([1]), [Column([1]), Column([(1,)])]), (Column(["a"]), [Column(["a"]), Column([1])]), (Column([[1]]), [Column([1])])):
            stream = Stream(like, chunks)
            with self.assertRaises(sel.BrokenRule):
                Column.from_arrow(stream)
            self.assertEqual(stream.made["array"], len(chunks))
            self.check_released(stream)

    def test_a_stream_is_read_once(self) -> None:
        stream = Stream(Column([1]), [Column([1])])
        self.assertEqual(Column.from_arrow(stream).to_pylist(), [1])
        with self.assertRaises(sel.BrokenRule) as caught:
            Column.from_arrow(stream)
        self.assertEqual(caught.exception.status, 64)
        self.check_released(stream)

    def test_threads_that_take_one_stream(self) -> None:
        """One of them gets its rows."""
        for _ in range(50):
            for source in table(Stream(Column([1, 2]), [Column([1, 2])]), Exported(Column([1, 2]), Column([], "i64"))):
                barrier = threading.Barrier(4)

                def use(number: int) -> int:
                    barrier.wait(60)
                    try:
                        return len(Column.from_arrow(source))
                    except sel.BrokenRule as error:
                        return -error.status

                with ThreadPoolExecutor(4) as pool:
                    self.assertEqual(sorted(pool.map(use, range(4))), [-64, -64, -64, 2])
                self.assertEqual(source.released["array"], 1)

    def test_threads_that_move_one_structure(self) -> None:
        class Structure:
            release: int | None = 1

            @classmethod
            def from_buffer_copy(cls, there: Structure) -> Structure:
                moved = cls()
                moved.release = there.release
                time.sleep(0.02)
                return moved

        there = Structure()
        with ThreadPoolExecutor(4) as pool:
            found = [moved.release for moved in pool.map(_arrow._moved, [there] * 4)]
        self.assertEqual(sorted(found, key=str), [1, None, None, None])

    def test_a_finalizer_that_imports_during_an_import(self) -> None:
        """The copy of a structure may start the garbage collector, and a finalizer may move another structure on the same thread."""
        class Structure:
            release: int | None = 1

            @classmethod
            def from_buffer_copy(cls, there: Structure) -> Structure:
                if there is outer:
                    _arrow._moved(inner)
                moved = cls()
                moved.release = there.release
                return moved

        outer, inner = Structure(), Structure()
        thread = threading.Thread(target=_arrow._moved, args=(outer,), daemon=True)
        thread.start()
        thread.join(10)
        self.assertFalse(thread.is_alive())
        self.assertEqual((outer.release, inner.release), (None, None))

    def test_sources(self) -> None:
        class Both(Stream):
            def __arrow_c_array__(self, requested_schema: object = None) -> tuple[object, object]:
                return self.like.__arrow_c_array__()

        class Failing:
            def __arrow_c_stream__(self, requested_schema: object = None) -> object:
                raise KeyError("no stream")

        class Wrong:
            def __arrow_c_stream__(self, requested_schema: object = None) -> object:
                return Column([1]).__arrow_c_schema__()

        both = Both(Column([7, 8]), [Column([1])])
        self.assertEqual(Column.from_arrow(both).to_pylist(), [7, 8])
        self.assertEqual(both.made["schema"], 0)
        for error, source in table((KeyError, Failing()), (ValueError, Wrong()), (TypeError, [1]), (TypeError, None)):
            with self.assertRaises(error):
                Column.from_arrow(source)
        with self.assertRaisesRegex(TypeError, "list, which has neither __arrow_c_array__ nor __arrow_c_stream__"):
            Column.from_arrow([1])

    def test_an_array_is_released_once(self) -> None:
        """Whether it is imported or not."""
        for kind, is_imported in (("i64", True), ("utf8", False)):
            source = Exported(Column([1, 2]), Column([], kind))
            if is_imported:
                self.assertEqual(Column.from_arrow(source).to_pylist(), [1, 2])
            else:
                with self.assertRaises(sel.BrokenRule):
                    Column.from_arrow(source)
            self.assertEqual(source.released, {"array": 1})
            with self.assertRaises(sel.BrokenRule) as caught:
                Column.from_arrow(source)
            self.assertEqual(caught.exception.status, 64)
            source.capsules.clear()
            self.assertEqual(source.released, {"array": 1, "schema": 1})

    def test_nested_types_up_to_the_limit(self) -> None:
        kind = "list<" * 128 + "i8" + ">" * 128
        stream = Stream(Column([], kind))
        self.assertEqual(Column.from_arrow(stream).type, parse_type(kind))
        self.check_released(stream)


if __name__ == "__main__":
    unittest.main()
