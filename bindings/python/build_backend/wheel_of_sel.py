"""Builds the wheel: the package's files, the licence and the library, which `make lib` has built, also for newer processors. It needs nothing but Python and objdump.

    python3 bindings/python/build_backend/wheel_of_sel.py [FOLDER]     writes the wheel into FOLDER or, without it, into build/

pip uses it too: `pip wheel --no-deps bindings/python`, `pip install bindings/python`, and `pip install -e bindings/python`, which
installs a reference to this checkout and its build/libsel.so.
"""

from __future__ import annotations

import base64
import hashlib
import os
import platform
import re
import subprocess
import sys
import zipfile
from pathlib import Path

HERE = Path(__file__).resolve().parents[1]
ROOT = HERE.parents[1]
# `make dist` may name another one
BUILD = Path(os.environ.get("SEL_BUILD") or ROOT / "build")
# For every processor with x86-64-v2; `make lib CPU=NAME` builds those for newer ones into other folders.
LIBRARY = BUILD / "libsel.so"
# Newer processors, whose library `make lib CPU=NAME` builds into build/NAME; the package loads it where glibc would.
NEWER_CPUS = ("x86-64-v3",)
VERSION = (ROOT / "VERSION").read_text().split()[0]


class UnsupportedOperation(Exception):
    """Something that PEP 517 lets a backend refuse."""


def _from_project(name: str) -> str:
    """Returns the text of a line of pyproject.toml."""
    found = re.search(rf'^{name} = "(.*)"$', (HERE / "pyproject.toml").read_text(), re.MULTILINE)
    if found is None:
        raise ValueError(f"pyproject.toml has no line {name} = \"..\"")
    return found[1]


def _metadata() -> str:
    fields = (
        ("Metadata-Version", "2.1"), ("Name", "sel"), ("Version", VERSION), ("Summary", _from_project("description")), ("License", "MIT"),
        ("License-File", "LICENSE"), ("Classifier", "License :: OSI Approved :: MIT License"), ("Classifier", "Operating System :: POSIX :: Linux"),
        ("Classifier", "Programming Language :: Python :: 3"), ("Classifier", "Typing :: Typed"), ("Requires-Python", _from_project("requires-python")),
        ("Description-Content-Type", "text/markdown"),
    )
    return "".join(f"{name}: {value}\n" for name, value in fields) + "\n" + (HERE / "README.md").read_text()


def platform_tag(listing: str, machine: str) -> str:
    """Returns the tag of the systems that a library runs on, by the listing of `objdump -p`: the libraries and the versions of their
    symbols that it needs. It is a manylinux tag of the newest of these versions if the only library is glibc."""
    needed = re.findall(r"^ *NEEDED +(\S+)$", listing, re.MULTILINE)
    versions = [re.fullmatch(r"GLIBC_(\d+)\.(\d+)(?:\.\d+)?", name) for name in re.findall(r"^ +0x[0-9a-f]+ 0x[0-9a-f]+ \d+ (\S+)$", listing, re.MULTILINE)]
    found = [(int(version[1]), int(version[2])) for version in versions if version]
    if needed != ["libc.so.6"] or not found or len(found) < len(versions):
        return f"linux_{machine}"
    # there is no manylinux tag for an older glibc
    major, minor = max(*found, (2, 5))
    return f"manylinux_{major}_{minor}_{machine}"


def _platform() -> str:
    try:
        listing = subprocess.run(["objdump", "-p", str(LIBRARY)], stdout=subprocess.PIPE, text=True, check=True).stdout
    except (OSError, subprocess.CalledProcessError):
        listing = ""
    return platform_tag(listing, platform.machine())


def _line(name: str, content: bytes) -> str:
    digest = base64.urlsafe_b64encode(hashlib.sha256(content).digest()).rstrip(b"=").decode()
    return f"{name},sha256={digest},{len(content)}\n"


def _write(folder: str, tag: str, files: dict[str, bytes]) -> str:
    """Writes a wheel of these files and its own; the same files give the same bytes. Returns its name."""
    stem = f"sel-{VERSION}"
    info = f"{stem}.dist-info"
    files = {
        **files,
        f"{info}/LICENSE": (ROOT / "LICENSE").read_bytes(),
        f"{info}/METADATA": _metadata().encode(),
        f"{info}/WHEEL": f"Wheel-Version: 1.0\nGenerator: wheel_of_sel\nRoot-Is-Purelib: false\nTag: {tag}\n".encode(),
    }
    record = f"{info}/RECORD"
    files[record] = ("".join(_line(name, content) for name, content in files.items()) + f"{record},,\n").encode()
    name = f"{stem}-{tag}.whl"
    with zipfile.ZipFile(Path(folder) / name, "w", zipfile.ZIP_DEFLATED) as wheel:
        for path, content in files.items():
            entry = zipfile.ZipInfo(path)
            entry.compress_type, entry.external_attr = zipfile.ZIP_DEFLATED, 0o644 << 16
            wheel.writestr(entry, content)
    return name


def build_wheel(wheel_directory: str, config_settings: object = None, metadata_directory: object = None) -> str:
    """Writes the wheel with the library, and returns its name."""
    if not LIBRARY.exists():
        raise FileNotFoundError(f"{LIBRARY} is missing: make lib builds it")
    files = {f"sel/{path.name}": path.read_bytes() for path in sorted((HERE / "sel").iterdir()) if path.suffix in (".py", ".typed")}
    files["sel/libsel.so"] = LIBRARY.read_bytes()
    for cpu in NEWER_CPUS:
        library = BUILD / cpu / "libsel.so"
        if library.exists():
            files[f"sel/glibc-hwcaps/{cpu}/libsel.so"] = library.read_bytes()
    return _write(wheel_directory, f"py3-none-{_platform()}", files)


def build_editable(wheel_directory: str, config_settings: object = None, metadata_directory: object = None) -> str:
    """Writes a wheel that refers to this checkout, whose package loads build/libsel.so. Returns its name."""
    return _write(wheel_directory, "py3-none-any", {"sel.pth": f"{HERE}\n".encode()})


def build_sdist(sdist_directory: str, config_settings: object = None) -> str:
    """Raises UnsupportedOperation: the library is built from the repository, of which this folder is a part."""
    raise UnsupportedOperation("the library is built from the repository, of which this folder is a part")


if __name__ == "__main__":
    print(build_wheel(*sys.argv[1:] or [str(BUILD)]))
