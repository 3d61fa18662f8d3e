"""The last check of integers before ctypes, over every declared parameter of every call of the library."""

from __future__ import annotations

import ctypes
import os
import re
import unittest
from ctypes import c_bool, c_char_p, c_int64, c_size_t, c_uint32, c_void_p
from pathlib import Path
from typing import Any
from unittest.mock import patch

import sel
from cases import table
from sel import _library, _memory, _types

# The ranges of C's types, worked out here from their sizes.
RANGES = {c_size_t: (0, 2 ** (8 * ctypes.sizeof(c_size_t)) - 1), c_uint32: (0, 2**32 - 1), c_int64: (-(2**63), 2**63 - 1),
          c_void_p: (1, 2 ** (8 * ctypes.sizeof(c_void_p)) - 1)}
PACKAGE = Path(sel.__file__).resolve().parent
HEADER = Path(__file__).resolve().parents[3] / "include" / "sel.h"


class Recorder:
    """Stands for the library, and records the arguments that reach it."""

    def __init__(self) -> None:
        self.calls: list[tuple[Any, ...]] = []

    def __getattr__(self, name: str) -> Any:
        def call(*arguments: Any) -> int:
            self.calls.append((name, *arguments))
            return 0

        return call


def plain_arguments(name: str) -> list[Any]:
    """Returns arguments that pass the check: integers and addresses of 1, false, and no handles."""
    return [1 if kind in RANGES else False if kind is c_bool else None for kind in _library._CALLS[name]]


def parameters(*kinds: Any) -> list[tuple[str, int, Any]]:
    """Returns the calls and positions, counted from 0, of the parameters of some types."""
    return [(name, position, kind) for name, declared in _library._CALLS.items() for position, kind in enumerate(declared) if kind in kinds]


def declared_type(text: str) -> Any:
    """Returns the type that a parameter of sel.h needs: arrays are passed by their addresses, and single results by pointers."""
    name = text.split()[-1].lstrip("*")
    plain = {"size_t": c_size_t, "uint32_t": c_uint32, "int64_t": c_int64, "bool": c_bool}
    if "*" not in text:
        return plain[text.split()[0]]
    if "sel_column" in text.split():
        return ctypes.POINTER(_library.Handle)
    if "sel_selection" in text.split():
        return ctypes.POINTER(_library.SelectionHandle)
    is_single = name in ("len", "count", "width", "at", "has", "equal") or (name == "out" and text.split()[0] == "bool")
    return ctypes.POINTER(plain[text.split()[0]]) if is_single else c_void_p


class LastCheck(unittest.TestCase):
    def setUp(self) -> None:
        self.recorder = Recorder()
        patcher = patch.object(_library, "lib", self.recorder)
        patcher.start()
        self.addCleanup(patcher.stop)

    def attempt(self, name: str, position: int, value: Any) -> None:
        arguments = plain_arguments(name)
        arguments[position] = value
        _library.attempt(name, *arguments)

    def test_integers_within_their_range_reach_the_library(self) -> None:
        for name, position, kind in parameters(*RANGES):
            for value in RANGES[kind]:
                self.attempt(name, position, value)
                self.assertEqual(self.recorder.calls[-1][0], name)
                self.assertEqual(self.recorder.calls[-1][1 + position], value)

    def test_integers_outside_their_range_do_not(self) -> None:
        checked = parameters(*RANGES)
        self.assertGreater(len(checked), 100)
        for name, position, kind in checked:
            least, most = RANGES[kind]
            for value in (least - 1, most + 1, most + 3, least - 2**32, 2**64 + 1, 2**200, -(2**200), 10**5000):
                with self.assertRaises(OverflowError, msg=(name, position)) as caught:
                    self.attempt(name, position, value)
                self.assertIn(f"{name}: argument {position + 1} is ", str(caught.exception))
                self.assertIn(str(value) if abs(value) < 2**256 else "an integer of 16610 bits", str(caught.exception))
        self.assertEqual(self.recorder.calls, [])

    def test_other_types_do_not(self) -> None:
        for name, position, kind in parameters(*RANGES):
            others: list[Any] = [True, False, None] if kind is c_void_p else [True, False, None, 1.0, "1", b"1", [1], object()]
            for value in others:
                with self.assertRaises(TypeError, msg=(name, position, value)) as caught:
                    self.attempt(name, position, value)
                self.assertIn(f"{name}: argument {position + 1} is ", str(caught.exception))
        for name, position, _ in parameters(c_bool):
            self.attempt(name, position, True)
            for value in table(0, 1, None, "yes", 1.0, c_bool(True)):
                with self.assertRaises(TypeError, msg=(name, position, value)) as caught:
                    self.attempt(name, position, value)
                self.assertIn(f"{name}: argument {position + 1} is ", str(caught.exception))
        self.assertEqual(len(self.recorder.calls), len(parameters(c_bool)))

    def test_numbers_of_arguments(self) -> None:
        for name in _library._CALLS:
            arguments = plain_arguments(name)
            for wrong in (arguments[:-1], [*arguments, 1]):
                with self.assertRaises(TypeError):
                    _library.attempt(name, *wrong)
        self.assertEqual(self.recorder.calls, [])


class Places(unittest.TestCase):
    """Which library is loaded."""

    def test_a_library_that_is_named_is_the_only_one(self) -> None:
        with patch.dict(os.environ, {"SEL_LIBRARY": "/no/such/libsel.so"}):
            self.assertEqual(_library._places(), ["/no/such/libsel.so"])
            with self.assertRaisesRegex(ImportError, "SEL_LIBRARY is '/no/such/libsel.so', which cannot be loaded: "):
                _library._load()

    def test_an_empty_name_is_none(self) -> None:
        with patch.dict(os.environ, {"SEL_LIBRARY": ""}):
            empty = _library._places()
        with patch.dict(os.environ):
            os.environ.pop("SEL_LIBRARY", None)
            self.assertEqual(_library._places(), empty)
        self.assertEqual((empty[-1], "" in empty), ("libsel.so.1", False))


class Declarations(unittest.TestCase):
    def test_every_type_is_checked_or_is_no_integer(self) -> None:
        """A declaration with another integer type has to be given its range."""
        for name, declared in _library._CALLS.items():
            for kind in declared:
                is_pointer = issubclass(kind, ctypes._Pointer)
                self.assertTrue(is_pointer or kind in (c_bool, c_char_p) or kind in RANGES, (name, kind))

    @unittest.skipUnless(HEADER.exists(), f"{HEADER} is not there: the declarations are not compared with it")
    def test_declarations_are_those_of_the_header(self) -> None:
        """A parameter that were declared with another type would be checked by the range of that type."""
        found = {name: [declared_type(text) for text in parameters.split(",")]
                 for name, parameters in re.findall(r"^sel_status (sel_\w+)\(([^)]*)\);", HEADER.read_text(), re.MULTILINE)}
        declared = {name: kinds for name, kinds in _library._CALLS.items() if name in found}
        self.assertEqual(set(found), set(declared))
        for name, kinds in declared.items():
            self.assertEqual(found[name], kinds, name)

    @unittest.skipUnless(HEADER.exists(), f"{HEADER} is not there: the kinds are not compared with it")
    def test_kinds_are_the_type_ids_of_the_header(self) -> None:
        found = {int(number): name for name, number in re.findall(r"\bSEL_TYPE_(\w+) = (\d+),", HEADER.read_text())}
        names = {"bool": "BOOLEAN", "binview": "BINARY_VIEW", "utf8": "STRING_VIEW", "fixed": "FIXED_SIZE_LIST"}
        kinds = [names.get(kind, re.sub(r"^(u?)i?(\d+)$", r"\1int\2", kind).upper()) for kind in _types.KINDS]
        self.assertEqual([found[number] for number in sorted(found)], [*kinds, "NONE"])

    def test_versions_agree(self) -> None:
        version = _library.lib.sel_version
        version.restype = ctypes.c_char_p
        self.assertEqual(version().decode(), sel.__version__)

    def test_only_calls_without_integers_are_made_directly(self) -> None:
        """All others go through `attempt`, which checks their integers."""
        direct = set()
        for path in sorted(PACKAGE.glob("*.py")):
            direct |= set(re.findall(r"\blib\.(sel_\w+)\(", path.read_text()))
        of_types = {"sel_type_free", "sel_type_equal", "sel_type_child_count", "sel_type_name", "sel_type_arrow_format"}
        self.assertEqual(direct, {"sel_status_string", "sel_free", "sel_selection_free", "sel_type_of", "sel_len", "sel_null_count", "sel_unsupported_format", "sel_stream_export", *of_types})
        others = {"sel_unsupported_format": _library._SCHEMA, "sel_selection_free": _library._SELECTION}
        for name in direct - {"sel_status_string", "sel_stream_export"}:
            expected = _library._TYPE if name in of_types else others.get(name, _library._COLUMN)
            self.assertEqual(set(getattr(_library.lib, name).argtypes), {expected})

    def test_structures_hold_no_integers_of_callers(self) -> None:
        """Structures wrap integers silently. The only ones here are lengths that Python counted, and fields of Arrow's producers."""
        fields = {(kind.__name__, name) for kind in vars(_library).values()
                  if isinstance(kind, type) and issubclass(kind, ctypes.Structure) and kind is not ctypes.Structure and not kind.__name__.startswith("Arrow")
                  for name, field, *_ in kind._fields_ if field is not c_void_p}
        self.assertEqual(fields, {("Slice", "len")})

    def test_words_are_checked(self) -> None:
        """Picks, views, offsets and numbers pass as words, which do not wrap."""
        for code, least, most in (("b", -(2**7), 2**7 - 1), ("B", 0, 2**8 - 1), ("h", -(2**15), 2**15 - 1), ("H", 0, 2**16 - 1), ("i", -(2**31), 2**31 - 1),
                                  ("I", 0, 2**32 - 1), ("q", -(2**63), 2**63 - 1), ("Q", 0, 2**64 - 1), (_memory.SIZE_CODE, *RANGES[c_size_t])):
            self.assertEqual(_memory.words(code, [least, most]).items.tolist(), [least, most])
            for value in (least - 1, most + 1):
                with self.assertRaises(OverflowError, msg=(code, value)):
                    _memory.words(code, [0, value])
            with self.assertRaises(TypeError, msg=code):
                _memory.words(code, table(1.0))


if __name__ == "__main__":
    unittest.main()
