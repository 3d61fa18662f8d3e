"""The files of an installed library: their names, their contents, and how they are copied and removed."""

from __future__ import annotations

import hashlib
import os
import pathlib
import re
import sys
from typing import Dict, Iterable, List, NamedTuple, Optional, Set

from prover import crates_below, lines

ROOT = pathlib.Path(__file__).resolve().parent.parent
# the folder of the libraries that are built; tools/dist.py --check names another one
BUILD = pathlib.Path(os.environ.get("SEL_BUILD") or ROOT / "build").absolute()

# changes when a function of the header is removed or changes its meaning
ABI = 1
SONAME = f"libsel.so.{ABI}"

# the C files of the library, around the proved calls
ARROW_SOURCES = [ROOT / "c" / f"arrow_{name}.c" for name in (
    "convert", "dictionary", "export", "export_level", "format", "import", "import_level", "lease", "lend", "schema", "share", "stream", "text", "type")]
SOURCES = [*ARROW_SOURCES, *[ROOT / "c" / name for name in ("calls.c", "memory.c", "status.c")]]

# the toolchain's default, and the newer processors for which the loader of glibc takes another library if it is installed
LEAST_CPU = "x86-64-v2"
NEWER_CPUS = ("x86-64-v3",)


class File(NamedTuple):
    """A file to copy: its bytes and its permissions, or the name of the file that it is a symbolic link to."""

    data: bytes = b""
    mode: int = 0o644
    link: str = ""


def version() -> str:
    return (ROOT / "VERSION").read_text().strip()


def functions() -> Set[str]:
    """Returns the names of the functions that the headers declare, which are the symbols that the shared library exports."""
    text = "".join(path.read_text() for path in sorted((ROOT / "include").glob("*.h")))
    return set(re.findall(r"\b(sel_\w+)\(", re.sub(r"/\*.*?\*/", "", text, flags=re.S)))


def filled(template: str, prefix: str) -> bytes:
    """Returns the text of a template in c/ with the version, the prefix and the soname."""
    text = (ROOT / "c" / template).read_text()
    for name, value in (("VERSION", version()), ("PREFIX", prefix), ("SONAME", SONAME)):
        text = text.replace(f"@{name}@", value)
    return text.encode()


def folder_of(cpu: str, build: pathlib.Path = BUILD) -> pathlib.Path:
    """Returns the folder of the library for these processors, which is build/ for the least ones."""
    return build if cpu == LEAST_CPU else build / cpu


def archive() -> pathlib.Path:
    """Returns the archive of the built library. Exits if it is missing."""
    made = BUILD / "libsel.a"
    if not made.exists():
        sys.exit(f"{made} is not there: make lib builds it")
    return made


def built_for(build: pathlib.Path = BUILD) -> List[str]:
    """Returns the processors for which libraries are built that `install` copies: the least ones, then newer ones."""
    return [cpu for cpu in (LEAST_CPU, *NEWER_CPUS) if (folder_of(cpu, build) / "libsel.so").exists()]


def require_built(build: pathlib.Path, cpu: Optional[str] = None) -> None:
    """Exits if the library is missing, or the one for the processors asked for."""
    for name in ("libsel.a", "libsel.so"):
        if not (build / name).exists():
            sys.exit(f"build/{name} is missing: run `make lib` first")
    if cpu is not None and cpu not in built_for(build):
        sys.exit(f"no library is built for {cpu}: run `make lib CPU={cpu}` first")
    for newer in built_for(build):
        if (folder_of(newer, build) / "sources").read_text() != (build / "sources").read_text():
            sys.exit(f"build/{newer}/ and build/ were built from different sources: run `make lib` and `make lib CPU={newer}` first")


def sources() -> List[pathlib.Path]:
    """Returns the sources of the library."""
    crates = [*crates_below("sel_c", {name: used for name, (_, used) in lines().items()}), "sel_c"]
    rattle = [path for crate in crates for path in sorted((ROOT / "crates" / crate / "src").rglob("*.rt"))]
    return [*rattle, *SOURCES, ROOT / "c" / "arrow_internal.h", ROOT / "c" / "arrow_lease.h", *sorted((ROOT / "include").glob("*.h"))]


def hash_of_sources() -> str:
    """Returns a number of the contents of all sources, which is kept next to each library that is built from them."""
    found = hashlib.sha256()
    for path in sources():
        found.update(f"{path.relative_to(ROOT)} {hashlib.sha256(path.read_bytes()).hexdigest()}\n".encode())
    return found.hexdigest()


def newer_sources(cpu: str) -> List[pathlib.Path]:
    """Returns the sources of the library that were modified after it was built for these processors."""
    built = (folder_of(cpu) / "libsel.a").stat().st_mtime
    return [path for path in sources() if path.stat().st_mtime > built]


def report_newer_sources() -> None:
    for cpu in built_for():
        found = newer_sources(cpu)
        if found:
            more = f" and {len(found) - 1} more" if len(found) > 1 else ""
            archive = os.path.relpath(folder_of(cpu) / "libsel.a", ROOT)
            command = "make lib" if cpu == LEAST_CPU else f"make lib CPU={cpu}"
            print(f"note: {found[0].relative_to(ROOT)}{more} modified after {archive}; `{command}` builds it anew", file=sys.stderr)


def path_for(cpu: str) -> str:
    """Returns the path of the shared library for newer processors, where the loader looks for it before it looks in lib/."""
    return f"lib/glibc-hwcaps/{cpu}/{SONAME}"


def paths(cpus: Iterable[str]) -> List[str]:
    """Returns the paths of the files of a library below the prefix that is installed for these processors."""
    headers = [f"include/{path.name}" for path in sorted((ROOT / "include").glob("*.h"))]
    cmake = [f"lib/cmake/sel/{name}" for name in ("selConfig.cmake", "selConfigVersion.cmake")]
    newer = [path_for(cpu) for cpu in NEWER_CPUS if cpu in cpus]
    return [*headers, "lib/libsel.a", f"lib/{SONAME}", "lib/libsel.so", "lib/pkgconfig/sel.pc", *cmake, *newer]


def file_at(path: str, prefix: str) -> File:
    """Returns the file of an installed library at one of these paths; `prefix` is the one that sel.pc names."""
    name = path.rpartition("/")[2]
    if name.endswith(".h"):
        return File((ROOT / path).read_bytes())
    if name == "libsel.so":
        return File(link=SONAME)
    if name == SONAME:
        cpu = next((cpu for cpu in NEWER_CPUS if path == path_for(cpu)), LEAST_CPU)
        return File((folder_of(cpu) / "libsel.so").read_bytes(), 0o755)
    if name == "libsel.a":
        return File((BUILD / name).read_bytes())
    return File(filled(f"{name}.in", prefix))


def files(prefix: str) -> Dict[str, File]:
    return {path: file_at(path, prefix) for path in paths(built_for())}


def write(path: pathlib.Path, file: File) -> None:
    """Writes a file anew, so that a process that has loaded the earlier one keeps it."""
    path.parent.mkdir(parents=True, exist_ok=True)
    if path.is_symlink() or path.exists():
        path.unlink()
    if file.link:
        path.symlink_to(file.link)
        return
    path.write_bytes(file.data)
    path.chmod(file.mode)


def staged(prefix: str, destdir: str) -> pathlib.Path:
    """Returns the folder to copy into: the prefix below DESTDIR."""
    return pathlib.Path(os.path.abspath(destdir) + prefix) if destdir else pathlib.Path(prefix)


def install(prefix: str, destdir: str, cpu: Optional[str]) -> int:
    """Copies the libraries that are built, the headers, sel.pc and the files for CMake. Returns the number of files."""
    require_built(BUILD, cpu)
    report_newer_sources()
    folder, found = staged(prefix, destdir), files(prefix)
    # the loader would prefer one of another version
    remove(folder, [path_for(cpu) for cpu in NEWER_CPUS if path_for(cpu) not in found])
    for path, file in found.items():
        write(folder / path, file)
    return len(found)


def remove(folder: pathlib.Path, names: List[str]) -> int:
    """Removes those of these files that are there, and the folders that are only of this library if they are empty then. Returns the number
    of removed files."""
    removed = 0
    for name in names:
        if (folder / name).is_symlink() or (folder / name).exists():
            (folder / name).unlink()
            removed += 1
    own = [folder / "lib" / "cmake" / "sel", *[(folder / path_for(cpu)).parent for cpu in NEWER_CPUS], folder / "lib" / "glibc-hwcaps"]
    for path in own:
        if path.is_dir() and not any(path.iterdir()):
            path.rmdir()
    return removed


def uninstall(prefix: str, destdir: str) -> int:
    """Removes the files that `install` copies. Returns the number of removed files."""
    return remove(staged(prefix, destdir), paths(NEWER_CPUS))
