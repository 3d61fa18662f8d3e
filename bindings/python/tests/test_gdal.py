"""A real producer: the Arrow stream of a CSV layer of GDAL, by its C interface, where libgdal is installed."""

from __future__ import annotations

import ctypes
import ctypes.util
import datetime
import tempfile
import unittest
from ctypes import POINTER, byref, c_char_p, c_int, c_uint, c_void_p
from pathlib import Path
from typing import Any

import sel
from sel import Column, Stream, Table
from sel._library import ArrowArrayStream
from streams import _NAME, _new_capsule

ROWS = 30
LIBRARY = ctypes.util.find_library("gdal")


def rows() -> dict[str, list[Any]]:
    """Returns the rows of the file by their columns. GDAL reads an empty field of a string as no null."""
    numbers = range(ROWS)
    return {
        "id": [number - 3 for number in numbers],
        "large": [90_000_000_000 + number for number in numbers],
        "ratio": [None if number % 3 == 0 else number / 8 for number in numbers],
        "name": ["b" if number % 4 else "a name of more than twelve bytes" for number in numbers],
        "day": [None if number % 5 == 0 else datetime.date(1990 + number, 1 + number % 12, 1 + number % 28) for number in numbers],
        "moment": [None if number % 6 == 0 else datetime.datetime(2000 + number, 3, 4, number % 24, 5, 6) for number in numbers],
        "clock": [None if number % 7 == 0 else datetime.time(number % 24, 10, number) for number in numbers],
    }


def text_of(value: Any) -> str:
    if value is None:
        return ""
    return value.strftime("%Y/%m/%d %H:%M:%S") if isinstance(value, datetime.datetime) else value.strftime("%Y/%m/%d") if isinstance(value, datetime.date) else str(value)


class Layer:
    """The first layer of a file, which offers its Arrow stream."""

    def __init__(self, path: Path) -> None:
        self.gdal = ctypes.CDLL(LIBRARY)
        self.gdal.GDALOpenEx.argtypes, self.gdal.GDALOpenEx.restype = [c_char_p, c_uint, c_void_p, POINTER(c_char_p), c_void_p], c_void_p
        self.gdal.GDALDatasetGetLayer.argtypes, self.gdal.GDALDatasetGetLayer.restype = [c_void_p, c_int], c_void_p
        self.gdal.OGR_L_GetArrowStream.argtypes = [c_void_p, c_void_p, POINTER(c_char_p)]
        self.gdal.GDALClose.argtypes = [c_void_p]
        self.gdal.GDALAllRegister()
        self.set = self.gdal.GDALOpenEx(str(path).encode(), 4, None, (c_char_p * 2)(b"AUTODETECT_TYPE=YES", None), None)
        self.stream = ArrowArrayStream()

    def __arrow_c_stream__(self, requested_schema: object = None) -> object:
        options = (c_char_p * 3)(b"MAX_FEATURES_IN_BATCH=7", b"INCLUDE_FID=NO", None)
        if not self.gdal.OGR_L_GetArrowStream(self.gdal.GDALDatasetGetLayer(self.set, 0), byref(self.stream), options):
            raise OSError("no Arrow stream")
        return _new_capsule(ctypes.addressof(self.stream), _NAME, None)

    def close(self) -> None:
        self.gdal.GDALClose(self.set)


@unittest.skipUnless(LIBRARY and hasattr(ctypes.CDLL(LIBRARY), "OGR_L_GetArrowStream"), "GDAL's Arrow streams are not there")
class Gdal(unittest.TestCase):
    def setUp(self) -> None:
        folder = tempfile.TemporaryDirectory()
        self.addCleanup(folder.cleanup)
        path, self.rows = Path(folder.name) / "rows.csv", rows()
        lines = [",".join(self.rows), *[",".join(map(text_of, row)) for row in zip(*self.rows.values())]]
        path.write_text("\n".join(lines) + "\n")
        self.layer = Layer(path)
        self.addCleanup(self.layer.close)

    def test_a_table(self) -> None:
        found = Table.from_arrow(self.layer)
        self.assertEqual(found.to_pydict(), self.rows)
        types = ["i32", "i64", "double", "string", "date32[day]", "timestamp[ms]", "time32[ms]"]
        self.assertEqual([str(column.type) for column in found.columns], types)
        mask = [number % 2 == 0 for number in range(ROWS)]
        kept = found.filter(mask).take([14, 0, None])
        self.assertEqual(kept.to_pydict(), {name: [values[28], values[0], None] for name, values in self.rows.items()})
        again = Column.from_arrow(kept)
        self.assertEqual([field.format for field in again.type.fields] if isinstance(again.type, sel.ArrowType) else [], ["i", "l", "g", "u", "tdD", "tsm:", "ttm"])

    def test_batches(self) -> None:
        parts = list(Stream.from_arrow(self.layer))
        self.assertEqual([len(part) for part in parts], [7, 7, 7, 7, 2])
        self.assertEqual([row for part in parts for row in part.to_pylist()], [dict(zip(self.rows, row)) for row in zip(*self.rows.values())])


if __name__ == "__main__":
    unittest.main()
