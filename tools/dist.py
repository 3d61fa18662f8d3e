#!/usr/bin/env python3
"""Packs the C library that `make lib` has built, installs it, and tests both. It proves and builds nothing.

tools/dist.py                     writes build/sel-VERSION-linux-x86_64.tar.gz and the Python wheel; with --into FOLDER into another folder
tools/dist.py --check             tests the archive, `make install`, `make uninstall`, and which library the loader takes
tools/dist.py --install PREFIX    copies the library; with --destdir FOLDER below that folder, with --cpu NAME only if built for these processors too
tools/dist.py --uninstall PREFIX  removes the copied files

A library that is built for newer processors too is packed and copied to lib/glibc-hwcaps/NAME/. The same commit and the same libraries
give the same bytes of both. The archive has the prover's verdict of each crate that the library is built from, in VERDICTS.
"""

from __future__ import annotations

import argparse
import filecmp
import gzip
import hashlib
import io
import os
import pathlib
import re
import shlex
import shutil
import subprocess
import sys
import tarfile
import tempfile
import zipfile
from typing import Dict, List, NamedTuple, Optional, Set, Tuple

ROOT = pathlib.Path(__file__).resolve().parent.parent
WHEEL = ROOT / "bindings" / "python" / "build_backend" / "wheel_of_sel.py"
sys.dont_write_bytecode = True
sys.path.insert(0, str(ROOT / "tools"))

from commands import CC, EXAMPLES, PYTHON, check_example, has, left_out, run  # noqa: E402
from package import BUILD, LEAST_CPU, NEWER_CPUS, SONAME, File, built_for, files, folder_of, functions, path_for, version  # noqa: E402
from package import install, paths, report_newer_sources, require_built, staged, uninstall  # noqa: E402
from verdicts import crates, sum_of_sources  # noqa: E402

# what the kernel calls the features of newer processors
NEEDS = {"x86-64-v3": ("avx", "avx2", "bmi1", "bmi2", "f16c", "fma", "abm", "movbe", "xsave")}

# the prefix of an archive that may be unpacked anywhere
RELOCATABLE = "${pcfiledir}/../.."

PROJECT = """cmake_minimum_required(VERSION 3.10)
project(examples C)
foreach(other 99 0.2)
  find_package(sel ${other} CONFIG QUIET)
  if(sel_FOUND)
    message(FATAL_ERROR "selConfigVersion.cmake accepts version ${other}")
  endif()
endforeach()
find_package(sel @VERSION@ CONFIG REQUIRED)
foreach(name @NAMES@)
  add_executable(${name}_shared "@FOLDER@/${name}.c")
  target_link_libraries(${name}_shared sel::sel)
  add_executable(${name}_static "@FOLDER@/${name}.c")
  target_link_libraries(${name}_static sel::static)
endforeach()
"""


# The archive


def commit_time() -> int:
    """Returns the time of the last commit, or SOURCE_DATE_EPOCH if it is set."""
    given = os.environ.get("SOURCE_DATE_EPOCH")
    return int(given or run("git", "log", "-1", "--format=%ct", cwd=ROOT))


def stem() -> str:
    """Returns the name of the archive without its ending, which is also the folder in it."""
    return f"sel-{version()}-linux-x86_64"


def contents() -> Dict[str, File]:
    """Returns the files of the archive, sorted by path, with SHA256SUMS of all the others."""
    found = files(RELOCATABLE)
    for path in (ROOT / "LICENSE", ROOT / "README.md", BUILD / "VERDICTS"):
        found[path.name] = File(path.read_bytes())
    for name in examples():
        found[f"examples/{name}.c"] = File((EXAMPLES / f"{name}.c").read_bytes())
    sums = "".join(f"{hashlib.sha256(data_of(found, path)).hexdigest()}  {path}\n" for path in sorted(found))
    found["SHA256SUMS"] = File(sums.encode())
    return dict(sorted(found.items()))


def data_of(found: Dict[str, File], path: str) -> bytes:
    """Returns the bytes that a reader of the path gets, through a symbolic link too."""
    file = found[path]
    return found[f"{path.rpartition('/')[0]}/{file.link}"].data if file.link else file.data


def entry(name: str, mtime: int) -> tarfile.TarInfo:
    """Returns a header with a fixed owner and time."""
    made = tarfile.TarInfo(name)
    made.mtime, made.uid, made.gid, made.uname, made.gname = mtime, 0, 0, "root", "root"
    return made


def add_folders(archive: tarfile.TarFile, top: str, names: List[str], mtime: int) -> None:
    folders = {top} | {f"{top}/{parent}" for name in names for parent in pathlib.PurePosixPath(name).parents if str(parent) != "."}
    for folder in sorted(folders):
        made = entry(folder, mtime)
        made.type, made.mode = tarfile.DIRTYPE, 0o755
        archive.addfile(made)


def add_file(archive: tarfile.TarFile, name: str, file: File, mtime: int) -> None:
    made = entry(name, mtime)
    made.mode = file.mode
    if file.link:
        made.type, made.linkname, made.mode = tarfile.SYMTYPE, file.link, 0o777
        archive.addfile(made)
        return
    made.size = len(file.data)
    archive.addfile(made, io.BytesIO(file.data))


def write_archive(folder: pathlib.Path) -> pathlib.Path:
    """Writes the archive into the folder and returns its path."""
    mtime, found, packed = commit_time(), contents(), io.BytesIO()
    with tarfile.open(fileobj=packed, mode="w", format=tarfile.USTAR_FORMAT) as archive:
        add_folders(archive, stem(), list(found), mtime)
        for path, file in found.items():
            add_file(archive, f"{stem()}/{path}", file, mtime)
    folder.mkdir(parents=True, exist_ok=True)
    path_of = folder / f"{stem()}.tar.gz"
    with open(path_of, "wb") as out, gzip.GzipFile(filename="", mode="wb", compresslevel=9, fileobj=out, mtime=0) as zipped:
        zipped.write(packed.getvalue())
    return path_of


def write_wheel(folder: pathlib.Path) -> pathlib.Path:
    """Writes the Python wheel into the folder and returns its path."""
    return folder / run(sys.executable, "-B", WHEEL, folder).strip()


def write_release(folder: pathlib.Path) -> List[pathlib.Path]:
    """Writes the archive and the wheel into the folder and returns their paths."""
    require_built(BUILD)
    if not (BUILD / "VERDICTS").exists():
        sys.exit("build/VERDICTS is missing: run `make lib` first")
    return [write_archive(folder), write_wheel(folder)]


# The check


def expect(holds: bool, otherwise: str) -> None:
    if not holds:
        sys.exit(f"failed: {otherwise}")


def environment(**more: object) -> Dict[str, str]:
    """Returns the environment without the variables that make and the loader would take from a surrounding `make`."""
    unset = {"MAKEFLAGS", "MFLAGS", "MAKELEVEL", "PREFIX", "DESTDIR", "CPU", "LD_LIBRARY_PATH", "PKG_CONFIG_PATH", "PKG_CONFIG_SYSROOT_DIR"}
    return {**{name: value for name, value in os.environ.items() if name not in unset}, **{name: str(value) for name, value in more.items()}}


def tree(folder: pathlib.Path) -> Set[str]:
    """Returns the paths of the files below a folder."""
    return {str(path.relative_to(folder)) for path in folder.rglob("*") if path.is_symlink() or not path.is_dir()}


def dynamic(path: pathlib.Path, tag: str) -> List[str]:
    """Returns the names that a shared library or a program has under a tag, such as NEEDED."""
    return re.findall(rf"\({tag}\).*\[(.*)\]", run("readelf", "-d", path))


def check_functions() -> None:
    """Checks that both libraries define the functions that the headers declare."""
    declared = functions()
    expect(len(declared) > 10, "no functions found in the headers")
    for cpu in built_for():
        folder = folder_of(cpu)
        for words in (["nm", "-D", "--defined-only", folder / "libsel.so"], ["nm", "-g", "--defined-only", folder / "libsel.a"]):
            missing = declared - {line.split()[-1] for line in run(*words).split("\n") if line.strip()}
            expect(not missing, f"{words[-1]} lacks {', '.join(sorted(missing))}: run `make lib`")
    print(f"the libraries for {' and '.join(built_for())} define the {len(declared)} functions of the headers: ok")


def check_bytes(folder: pathlib.Path) -> List[pathlib.Path]:
    """Writes the archive and the wheel twice, the second time in another time zone and with other permissions, and compares the bytes."""
    first = write_release(folder / "first")
    env = environment(TZ="Asia/Tokyo", PYTHONHASHSEED=1)
    run("sh", "-c", 'umask 077; exec "$@"', "sh", sys.executable, "-B", ROOT / "tools" / "dist.py", "--into", folder / "second", env=env)
    for path in first:
        expect(filecmp.cmp(path, folder / "second" / path.name, shallow=False), f"{path.name} differs if it is written again")
        print(f"{path.name}, written twice with the same bytes: ok")
    return first


def check_entries(packed: pathlib.Path) -> None:
    """Checks what would make the bytes depend on the machine: times, owners, and the order of the entries."""
    expect(packed.read_bytes()[3:8] == bytes(5), "the gzip header has a name or a time")
    with tarfile.open(packed) as archive:
        found = archive.getmembers()
    marks = {(it.mtime, it.uid, it.gid, it.uname, it.gname) for it in found}
    expect(marks == {(commit_time(), 0, 0, "root", "root")}, "an entry has another time or owner")
    for names in ([it.name for it in found if it.isdir()], [it.name for it in found if not it.isdir()]):
        expect(names == sorted(names), "the names in the archive are not sorted")
    by_path = {it.name.partition("/")[2]: it for it in found if not it.isdir()}
    expect(by_path["lib/libsel.so"].issym() and by_path["lib/libsel.so"].linkname == SONAME, f"libsel.so is not a link to {SONAME}")
    expect(all(it.isfile() for path, it in by_path.items() if path != "lib/libsel.so"), "an entry is not a plain file")
    readable = {path: it.mode & 0o777 for path, it in by_path.items() if it.isfile()}
    expect(all(mode == (0o755 if path.endswith(f"/{SONAME}") else 0o644) for path, mode in readable.items()), "an entry has other permissions")


def check_unpacked(archive: pathlib.Path, folder: pathlib.Path) -> pathlib.Path:
    """Unpacks the archive into an empty folder, checks its files, and returns the folder that it makes."""
    folder.mkdir()
    run("tar", "-xzf", archive, "-C", folder)
    top = folder / stem()
    expect([path.name for path in folder.iterdir()] == [stem()], "the archive has files outside of its folder")
    run("sha256sum", "--check", "--strict", "--quiet", "SHA256SUMS", cwd=top)
    listed = [line.split("  ", 1)[1] for line in (top / "SHA256SUMS").read_text().splitlines()]
    expect(sorted([*listed, "SHA256SUMS"]) == sorted(tree(top)), "SHA256SUMS does not list every file")
    expect(set(paths(built_for())) | beside_library() == set(listed), "the archive does not have the stated files")
    shared = [path for path in listed if path.endswith(f"/{SONAME}")]
    expect(len(shared) == len(built_for()), "the archive does not have a shared library for each processor")
    expect(all(dynamic(top / path, "SONAME") == [SONAME] for path in shared), f"a soname is not {SONAME}")
    named = [path for path in listed if os.fsencode(ROOT) in (top / path).read_bytes()]
    expect(not named, f"{', '.join(named)} contain the path of the checkout")
    print(f"{len(listed)} files with their SHA256 sums: ok")
    return top


def check_verdicts(top: pathlib.Path) -> None:
    """Checks that the archive has the verdict of each crate, and of the sources that are here."""
    text = (top / "VERDICTS").read_text()
    expect(re.search(r"(?m)^prover \S+ logic [0-9a-f]{16}$", text) is not None, "VERDICTS does not name the prover")
    found = re.findall(r"(?m)^(\w+)\nverdict logic=proved\b.*\nsources sha256 ([0-9a-f]{64})\nbuilt sha256 [0-9a-f]{64}$", text)
    wanted = [(name, sum_of_sources(name)) for name in crates()]
    expect(found == wanted, "VERDICTS is not about the sources that are here: run `make lib`")
    print(f"the verdicts of {len(found)} crates: ok")


def examples() -> List[str]:
    """Returns the names of the examples in C."""
    return sorted(path.stem for path in EXAMPLES.glob("*.c"))


def beside_library() -> Set[str]:
    """Returns the paths of the archive that `make install` does not copy, but for SHA256SUMS."""
    return {"LICENSE", "README.md", "VERDICTS", *(f"examples/{name}.c" for name in examples())}


def runs_linked(program: pathlib.Path, name: str, shared: bool, how: str) -> None:
    """Runs an example, and checks that it loads the shared library, or that it does not."""
    expect((SONAME in dynamic(program, "NEEDED")) == shared, f"examples/{name}.c ({how}) is not linked as it should be")
    check_example(f"{name}.c", run(program, env=environment()), how)


class Flags(NamedTuple):
    """The flags for the compiler and for the linker with the shared and the static library, and what they come from."""

    compile: List[str]
    shared: List[str]
    static: List[str]
    source: str


def flags_of(top: pathlib.Path) -> Flags:
    """Returns the flags that sel.pc gives, or those for the folder if pkg-config is missing."""
    libraries = [f"-L{top}/lib", "-lsel"]
    if not has("pkg-config"):
        left_out("pkg-config with sel.pc; the examples are built with -I and -L instead")
        return Flags([f"-I{top}/include"], libraries, libraries, "by -I and -L")
    env = environment(PKG_CONFIG_LIBDIR=top / "lib" / "pkgconfig")
    expect(run("pkg-config", "--modversion", "sel", env=env).strip() == version(), "sel.pc has another version")
    given = [shlex.split(run("pkg-config", *words, "sel", env=env)) for words in (["--cflags"], ["--libs"], ["--static", "--libs"])]
    flags = Flags(given[0], given[1], given[2], "by pkg-config")
    folders = {os.path.normpath(word[2:]) for word in [*flags.compile, *flags.shared, *flags.static] if word[:2] in ("-I", "-L")}
    expect(folders == {f"{top}/include", f"{top}/lib"}, f"sel.pc names {', '.join(sorted(folders))}")
    return flags


def check_c(top: pathlib.Path, folder: pathlib.Path) -> None:
    """Builds the C examples against the unpacked archive, with the shared and the static library."""
    flags = flags_of(top)
    link = {"shared": [*flags.shared, f"-Wl,-rpath,{top}/lib"], "static": ["-Wl,-Bstatic", *flags.static, "-Wl,-Bdynamic"]}
    for name in examples():
        for kind, words in link.items():
            program = folder / f"{name}_{kind}"
            run(*CC, "-std=c11", "-Wall", "-Werror", *flags.compile, EXAMPLES / f"{name}.c", *words, "-o", program)
            runs_linked(program, name, kind == "shared", f"{kind}, {flags.source}")


def check_cmake(prefix: pathlib.Path, folder: pathlib.Path, where: str) -> None:
    """Builds the C examples by find_package in the folder of a prefix."""
    if not has("cmake"):
        return left_out(f"cmake with selConfig.cmake of the {where}")
    project = PROJECT
    for name, value in (("VERSION", version()), ("NAMES", " ".join(examples())), ("FOLDER", str(EXAMPLES))):
        project = project.replace(f"@{name}@", value)
    folder.mkdir()
    (folder / "CMakeLists.txt").write_text(project)
    env = environment(CC=shlex.join(CC))
    run("cmake", "-S", folder, "-B", folder / "made", f"-DCMAKE_PREFIX_PATH={prefix}", "-DCMAKE_FIND_USE_PACKAGE_REGISTRY=OFF", env=env)
    used = f"sel_DIR:PATH={prefix}/lib/cmake/sel"
    expect(used in (folder / "made" / "CMakeCache.txt").read_text().splitlines(), f"cmake does not use the library of the {where}")
    run("cmake", "--build", folder / "made", env=env)
    for name in examples():
        for kind in ("shared", "static"):
            runs_linked(folder / "made" / f"{name}_{kind}", name, kind == "shared", f"{kind}, by cmake in the {where}")


def loaded(program: pathlib.Path, **more: object) -> pathlib.Path:
    """Returns the shared library that the loader takes for a program: what LD_DEBUG=libs reports as initialized."""
    done = subprocess.run([program], env=environment(LD_DEBUG="libs", **more), capture_output=True, text=True, check=False)
    expect(done.returncode == 0, f"{program} fails: {done.stderr}")
    found = set(re.findall(rf"(?m)calling init: (\S*/{re.escape(SONAME)})$", done.stderr))
    expect(len(found) == 1, f"{program} loads {', '.join(sorted(found)) or 'no library'}")
    return pathlib.Path(found.pop())


def check_loader(top: pathlib.Path, folder: pathlib.Path) -> None:
    """Checks that the loader takes the library for newer processors exactly on such a processor.

    A library that is not built for them is replaced by a copy of the other one: the loader looks at the path alone.
    """
    if libc_version() < (2, 33):
        return left_out("the choice of the loader, which knows no glibc-hwcaps before glibc 2.33")
    name = examples()[0]
    copy = folder / "levels"
    shutil.copytree(top, copy, symlinks=True)
    program, plain = copy / name, copy / "lib" / SONAME
    run(*CC, "-std=c11", f"-I{copy}/include", EXAMPLES / f"{name}.c", f"-L{copy}/lib", "-lsel", f"-Wl,-rpath,{copy}/lib", "-o", program)
    for cpu in NEWER_CPUS:
        newer = copy / path_for(cpu)
        if not newer.exists():
            expect(loaded(program) == plain, "the loader does not take the only library")
            newer.parent.mkdir(parents=True)
            shutil.copy(plain, newer)
        has_newer = set(NEEDS[cpu]) <= processor_flags()
        expect(loaded(program) == (newer if has_newer else plain), f"the loader does not take the library for {cpu} exactly on such a processor")
        if has_newer:
            # as if the processor had no AVX2
            expect(loaded(program, GLIBC_TUNABLES="glibc.cpu.hwcaps=-AVX2") == plain, f"the loader takes the library for {cpu} on every processor")
        check_example(f"{name}.c", run(program, env=environment()), f"with the library for {cpu if has_newer else LEAST_CPU} that the loader takes")


def libc_version() -> Tuple[int, ...]:
    """Returns the version of glibc, or (0,) for another C library."""
    try:
        name, _, number = (os.confstr("CS_GNU_LIBC_VERSION") or "").partition(" ")
    except (ValueError, OSError):
        return (0,)
    return tuple(int(part) for part in number.split(".")) if name == "glibc" else (0,)


def processor_flags() -> Set[str]:
    found = re.search(r"(?m)^flags\s*:(.*)$", pathlib.Path("/proc/cpuinfo").read_text())
    return set(found[1].split()) if found else set()


def check_rust(top: pathlib.Path, folder: pathlib.Path) -> None:
    if not has("cargo"):
        return left_out("the Rust example with the archive")
    crate = ROOT / "bindings" / "rust"
    env = environment(SEL_LIBRARY_DIR=top / "lib", CARGO_TARGET_DIR=folder / "rust")
    for name in ("filter", "threads"):
        check_example(f"{name}.rs", run("cargo", "run", "--offline", "--quiet", "--locked", "--example", name, cwd=crate, env=env), "over the archive")


def check_python(top: pathlib.Path, wheel: pathlib.Path, folder: pathlib.Path) -> None:
    """Runs the Python examples with the library of the archive, and with the unpacked wheel alone."""
    run(PYTHON, "-m", "zipfile", "-e", wheel, folder)
    over_archive = environment(SEL_LIBRARY=top / "lib" / SONAME, PYTHONPATH=ROOT / "bindings" / "python", PYTHONDONTWRITEBYTECODE=1)
    over_wheel = environment(PYTHONPATH=folder, PYTHONDONTWRITEBYTECODE=1)
    over_wheel.pop("SEL_LIBRARY", None)
    for env, where in ((over_archive, "over the archive"), (over_wheel, "over the wheel")):
        for name in ("filter_take.py", "when_then.py"):
            check_example(name, run(PYTHON, EXAMPLES / name, cwd=folder, env=env), where)


def make(word: str, prefix: str, folder: pathlib.Path, build: pathlib.Path = BUILD) -> None:
    run("make", "-s", word, f"PREFIX={prefix}", f"DESTDIR={folder}", cwd=ROOT, env=environment(SEL_BUILD=build))


def check_install(folder: pathlib.Path) -> None:
    """Installs below a temporary folder by make, uses the library there, and uninstalls it."""
    prefix, other = "/opt/a prefix", "include/other.h"
    top = pathlib.Path(f"{folder}{prefix}")
    (top / "include").mkdir(parents=True)
    (top / other).write_text("a header of another library\n")
    before = (BUILD / "libsel.a").stat()
    for _ in range(2):
        make("install", prefix, folder)
    expect(tree(top) == {*paths(built_for()), other}, "make install does not copy the stated files")
    after = (BUILD / "libsel.a").stat()
    expect((after.st_ino, after.st_mtime_ns) == (before.st_ino, before.st_mtime_ns), "make install has built the library")
    expect((top / "lib/pkgconfig/sel.pc").read_text().startswith(f"prefix={prefix}\n"), "sel.pc does not name the final prefix")
    expect(all(str(folder).encode() not in (top / path).read_bytes() for path in paths(built_for())), "an installed file contains DESTDIR")
    check_cmake(top, folder / "cmake", "installed folder")
    shutil.rmtree(folder / "cmake", ignore_errors=True)
    make("uninstall", prefix, folder)
    expect(tree(folder) == {f"{prefix[1:]}/{other}"}, f"make uninstall leaves {', '.join(sorted(tree(folder)))}")
    print("make install and make uninstall: ok")


def check_newer(folder: pathlib.Path) -> None:
    """Installs and packs libraries for all processors, which are copies of the one for the least: their paths are tested, not their code."""
    build, alone, every = folder / "build", folder / "alone", (LEAST_CPU, *NEWER_CPUS)
    for target in (alone, *(folder_of(cpu, build) for cpu in every)):
        target.mkdir(parents=True, exist_ok=True)
        for name in ("libsel.a", "libsel.so", "sources", "VERDICTS"):
            shutil.copy(BUILD / name, target / name)
    top = folder / "staged/opt/sel"
    make("install", "/opt/sel", folder / "staged", build)
    expect(tree(top) == set(paths(every)), "make install does not copy the libraries for newer processors")
    make("install", "/opt/sel", folder / "staged", alone)
    expect(tree(top) == set(paths([LEAST_CPU])), "make install leaves an earlier library for newer processors")
    make("install", "/opt/sel", folder / "staged", build)
    make("uninstall", "/opt/sel", folder / "staged", alone)
    expect(not any(path for path in top.rglob("*") if not path.is_dir() or "glibc-hwcaps" in path.name), "make uninstall leaves a file")
    said = run(sys.executable, "-B", ROOT / "tools" / "dist.py", "--into", folder, env=environment(SEL_BUILD=build))
    expect(all(cpu in said for cpu in every), f"make dist does not say which libraries it packs: {said}")
    with zipfile.ZipFile(next(folder.glob("*.whl"))) as wheel:
        expect(all(f"sel/glibc-hwcaps/{cpu}/libsel.so" in wheel.namelist() for cpu in NEWER_CPUS), "the wheel lacks a library for newer processors")
    with tarfile.open(folder / f"{stem()}.tar.gz") as archive:
        names = {it.name.partition("/")[2] for it in archive.getmembers() if not it.isdir()}
    expect(names == {*paths(every), *beside_library(), "SHA256SUMS"}, "make dist does not pack the libraries for newer processors")
    print(f"libraries for {' and '.join(every)}, installed and packed: ok")


def check_unbuilt(folder: pathlib.Path) -> None:
    """Checks that nothing is copied or packed if nothing is built, or for other processors than those asked for."""
    both = folder / "both"
    for cpu in (LEAST_CPU, *NEWER_CPUS):
        folder_of(cpu, both).mkdir(parents=True)
        for name in ("libsel.a", "libsel.so", "sources"):
            (folder_of(cpu, both) / name).write_text("the same")
    require_built(both, NEWER_CPUS[0])
    (folder_of(NEWER_CPUS[0], both) / "sources").write_text("others")
    cases: List[Tuple[pathlib.Path, Optional[str]]] = [(folder, None), (BUILD, "another-processor"), (both, None)]
    for build, of_cpu in cases:
        try:
            require_built(build, of_cpu)
        except SystemExit as stop:
            expect("make lib" in str(stop.code), "the message does not name `make lib`")
        else:
            sys.exit("failed: a library that is not built is accepted")
    print("a missing library, and one of other sources: ok")


def check_prefixes() -> None:
    """Checks that nothing is installed into the checkout or removed from it, whose headers have the names of installed ones."""
    for prefix in ("", str(ROOT), f"{ROOT}/c/.."):
        try:
            absolute(prefix)
        except SystemExit as stop:
            expect("PREFIX" in str(stop.code), "the message does not name PREFIX")
        else:
            sys.exit(f"failed: the prefix {prefix!r} is accepted")
    expect(absolute("/opt/sel") == "/opt/sel", "an absolute prefix is not taken as it is")
    print("an empty prefix, and the checkout as prefix: ok")


def check() -> None:
    require_built(BUILD)
    check_prefixes()
    with tempfile.TemporaryDirectory(prefix="sel dist ") as made, tempfile.TemporaryDirectory(prefix="sel-dist-") as plain:
        folder, work = pathlib.Path(made), pathlib.Path(plain)
        check_unbuilt(folder / "unbuilt")
        check_functions()
        packed, wheel = check_bytes(work)
        check_entries(packed)
        top = check_unpacked(packed, work / "unpacked")
        check_verdicts(top)
        check_c(top, work)
        check_cmake(top, work / "cmake", "archive")
        check_loader(top, work)
        check_rust(top, work)
        check_python(top, wheel, work / "wheel")
        check_install(folder / "staged")
        check_newer(folder / "newer")


def absolute(prefix: str) -> str:
    """Returns the path of a prefix. Exits if it is empty, or the checkout, whose headers are not to be overwritten or removed."""
    path = os.path.abspath(os.path.expanduser(prefix))
    if not prefix or pathlib.Path(path).resolve() == ROOT:
        sys.exit(f"PREFIX is {'empty' if not prefix else 'the checkout'}: name another folder by PREFIX=folder")
    return path


def main() -> None:
    asked = argparse.ArgumentParser(description=__doc__, formatter_class=argparse.RawDescriptionHelpFormatter)
    asked.add_argument("--into", metavar="FOLDER", default=str(BUILD))
    asked.add_argument("--check", action="store_true")
    asked.add_argument("--install", metavar="PREFIX")
    asked.add_argument("--uninstall", metavar="PREFIX")
    asked.add_argument("--destdir", metavar="FOLDER", default="")
    asked.add_argument("--cpu", metavar="NAME")
    given = asked.parse_args()
    if given.check:
        check()
    elif given.install is not None:
        count, folder = install(absolute(given.install), given.destdir, given.cpu), staged(absolute(given.install), given.destdir)
        print(f"copied {count} files to {folder}, for {' and '.join(built_for())}")
    elif given.uninstall is not None:
        print(f"removed {uninstall(absolute(given.uninstall), given.destdir)} files")
    else:
        made = write_release(pathlib.Path(given.into))
        report_newer_sources()
        print(f"{' and '.join(os.path.relpath(path) for path in made)}, for {' and '.join(built_for())}")


if __name__ == "__main__":
    main()
