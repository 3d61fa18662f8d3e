"""The wheel: its tag, its files and its metadata."""

from __future__ import annotations

import base64
import hashlib
import importlib.util
import re
import tempfile
import unittest
import zipfile
from pathlib import Path
from typing import Any
from unittest.mock import patch

from cases import table

from sel import _library

PACKAGE = Path(__file__).resolve().parents[1]


def _backend() -> Any:
    path = PACKAGE / "build_backend" / "wheel_of_sel.py"
    spec = importlib.util.spec_from_file_location("wheel_of_sel", path)
    if spec is None or spec.loader is None:
        raise ImportError(str(path))
    module = importlib.util.module_from_spec(spec)
    spec.loader.exec_module(module)
    return module


backend = _backend()


def listing(libraries: list[str], versions: list[str]) -> str:
    """Returns the parts of a listing of `objdump -p` that name libraries and versions."""
    needed = "".join(f"  NEEDED               {library}\n" for library in libraries)
    references = "".join(f"    0x{number:08x} 0x00 {number:02} {version}\n" for number, version in enumerate(versions, 2))
    return f"Dynamic Section:\n{needed}  SONAME               libsel.so.1\n  INIT                 0x0000000000001000\n\nVersion References:\n  required from libc.so.6:\n{references}"


class Tags(unittest.TestCase):
    def test_of_libraries(self) -> None:
        for libraries, versions, tag in table(
            (["libc.so.6"], ["GLIBC_2.14", "GLIBC_2.2.5"], "manylinux_2_14_x86_64"), (["libc.so.6"], ["GLIBC_2.2.5"], "manylinux_2_5_x86_64"),
            (["libc.so.6"], ["GLIBC_2.4", "GLIBC_2.38", "GLIBC_2.9"], "manylinux_2_38_x86_64"), (["libc.so.6"], ["GLIBC_2.14", "GLIBC_PRIVATE"], "linux_x86_64"),
            (["libc.so.6"], ["GLIBC_2.14", "GLIBC_ABI_DT_RELR"], "linux_x86_64"), (["libm.so.6", "libc.so.6"], ["GLIBC_2.14"], "linux_x86_64"),
            (["libc.so.6"], [], "linux_x86_64"), ([], [], "linux_x86_64"),
        ):
            self.assertEqual(backend.platform_tag(listing(libraries, versions), "x86_64"), tag)

    def test_without_objdump(self) -> None:
        with patch.object(backend.subprocess, "run", side_effect=FileNotFoundError), patch.object(backend.platform, "machine", return_value="x86_64"):
            self.assertEqual(backend._platform(), "linux_x86_64")


class Processors(unittest.TestCase):
    def test_the_newest_packed_library_that_the_processor_supports_is_loaded_first(self) -> None:
        with tempfile.TemporaryDirectory() as name:
            folder = Path(name)
            plain, newer = folder / "libsel.so", folder / "glibc-hwcaps" / "x86-64-v3" / "libsel.so"
            needed = _library._CPUS["x86-64-v3"]
            self.assertEqual(_library._packed(folder, needed), [])
            plain.write_bytes(b"plain")
            self.assertEqual(_library._packed(folder, needed), [str(plain)])
            newer.parent.mkdir(parents=True)
            newer.write_bytes(b"newer")
            self.assertEqual(_library._packed(folder, needed), [str(newer), str(plain)])
            self.assertEqual(_library._packed(folder, needed | {"avx512f"}), [str(newer), str(plain)])
            for flag in needed:
                self.assertEqual(_library._packed(folder, needed - {flag}), [str(plain)])

    def test_flags_of_the_processor(self) -> None:
        with patch.object(Path, "read_text", return_value="processor : 0\nflags\t\t: fpu avx avx2\n\nprocessor : 1\nflags\t\t: fpu\n"):
            self.assertEqual(_library._cpu_flags(), {"fpu", "avx", "avx2"})
        with patch.object(Path, "read_text", return_value="model : 1\n"):
            self.assertEqual(_library._cpu_flags(), frozenset())
        with patch.object(Path, "read_text", side_effect=FileNotFoundError):
            self.assertEqual(_library._cpu_flags(), frozenset())

    def test_the_wheel_has_the_library_for_newer_processors(self) -> None:
        with tempfile.TemporaryDirectory() as name, patch.object(backend, "BUILD", Path(name)), patch.object(backend, "LIBRARY", Path(name) / "libsel.so"):
            (Path(name) / "libsel.so").write_bytes(b"plain")
            with zipfile.ZipFile(Path(name) / backend.build_wheel(name)) as wheel:
                self.assertEqual([path for path in wheel.namelist() if path.endswith(".so")], ["sel/libsel.so"])
            (Path(name) / "x86-64-v3").mkdir()
            (Path(name) / "x86-64-v3" / "libsel.so").write_bytes(b"newer")
            with zipfile.ZipFile(Path(name) / backend.build_wheel(name)) as wheel:
                self.assertEqual(wheel.read("sel/libsel.so"), b"plain")
                self.assertEqual(wheel.read("sel/glibc-hwcaps/x86-64-v3/libsel.so"), b"newer")


class Wheels(unittest.TestCase):
    def built(self, folder: str, build: Any) -> tuple[str, dict[str, bytes]]:
        """Returns the name of a wheel that is built, and its files."""
        name = build(folder)
        with zipfile.ZipFile(Path(folder) / name) as wheel:
            return name, {entry: wheel.read(entry) for entry in wheel.namelist()}

    def check(self, name: str, files: dict[str, bytes]) -> None:
        """Checks the licence, the metadata, the tag, and the record of all files with their hashes."""
        info = next(path for path in files if path.endswith("/METADATA")).rpartition("/")[0]
        version, tag = re.fullmatch(r"sel-([^-]+)-(py3-none-\w+)\.whl", name).groups()  # type: ignore[union-attr]
        self.assertEqual(info, f"sel-{version}.dist-info")
        self.assertIn(f"Tag: {tag}\n", files[f"{info}/WHEEL"].decode())
        self.assertEqual(files[f"{info}/LICENSE"], (backend.ROOT / "LICENSE").read_bytes())
        head, _, readme = files[f"{info}/METADATA"].decode().partition("\n\n")
        self.assertEqual(readme, (PACKAGE / "README.md").read_text())
        for line in (f"Version: {version}", "License: MIT", "License-File: LICENSE", "Requires-Python: >=3.9", "Description-Content-Type: text/markdown"):
            self.assertIn(line, head.split("\n"))
        record = [line.split(",") for line in files[f"{info}/RECORD"].decode().splitlines()]
        self.assertEqual(sorted(path for path, _, _ in record), sorted(files))
        for path, digest, size in record:
            if not path.endswith("/RECORD"):
                found = base64.urlsafe_b64encode(hashlib.sha256(files[path]).digest()).rstrip(b"=").decode()
                self.assertEqual((digest, size), (f"sha256={found}", str(len(files[path]))), path)

    @unittest.skipUnless(backend.LIBRARY.exists(), f"{backend.LIBRARY} is missing: no wheel is built")
    def test_the_wheel(self) -> None:
        with tempfile.TemporaryDirectory() as first, tempfile.TemporaryDirectory() as second:
            name, files = self.built(first, backend.build_wheel)
            self.assertEqual((Path(first) / name).read_bytes(), (Path(second) / backend.build_wheel(second)).read_bytes())
        self.check(name, files)
        self.assertEqual(files["sel/libsel.so"], backend.LIBRARY.read_bytes())
        sources = {f"sel/{path.name}" for path in (PACKAGE / "sel").glob("*.py")}
        self.assertEqual({path for path in files if "dist-info" not in path}, {*sources, "sel/py.typed", "sel/libsel.so"})

    def test_the_editable_wheel(self) -> None:
        with tempfile.TemporaryDirectory() as folder:
            name, files = self.built(folder, backend.build_editable)
        self.check(name, files)
        self.assertEqual(files["sel.pth"].decode(), f"{PACKAGE}\n")

    def test_no_wheel_without_a_library(self) -> None:
        with tempfile.TemporaryDirectory() as folder, patch.object(backend, "LIBRARY", Path(folder) / "libsel.so"), self.assertRaisesRegex(FileNotFoundError, "make lib"):
            backend.build_wheel(folder)
        with self.assertRaises(backend.UnsupportedOperation):
            backend.build_sdist("")


if __name__ == "__main__":
    unittest.main()
