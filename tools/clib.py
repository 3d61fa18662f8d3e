#!/usr/bin/env python3
"""Builds the C library from crates/sel_c, and tests it.

tools/clib.py                  proves, with a report of how far it is, then writes build/libsel.a, build/libsel.so, build/sel.pc and build/VERDICTS
tools/clib.py --fast           the same, with code by the toolchain's own compiler, which takes less time than LLVM: for `make check`
tools/clib.py --gate [SUM]     builds over the libraries that `rt ci` has proved, also while it still runs; SUM is that of the sources before it
                               began, which tools/gate.py takes: without it they must not have changed since
tools/clib.py --test           checks the headers, and runs the tests of c/ over the built library
tools/clib.py --check          builds and tests

With --cpu NAME as the last argument the library is built for these processors (x86-64-v3: with AVX2) instead of x86-64-v2, into
build/NAME/. Its code does not check the processor that it runs on; the loader does, for the file that `make install` copies. SEL_BUILD names
another folder than build/.
"""

from __future__ import annotations

import os
import pathlib
import re
import subprocess
import sys
import tempfile

ROOT = pathlib.Path(__file__).resolve().parent.parent
TESTS = ROOT / "c"
# the toolchain's options for its own compiler: it only inlines and simplifies
OWN_COMPILER = ["--backend", "rattle", "--opt-level", "1"]
sys.dont_write_bytecode = True
sys.path.insert(0, str(ROOT / "tools"))

import verdicts  # noqa: E402
from commands import CC, HELGRIND, INCLUDE, MEMCHECK, WARN, WRAPPED, check_header, has, left_out, run, run_printing, wrapped  # noqa: E402
from libraries import Build  # noqa: E402
from package import ARROW_SOURCES, LEAST_CPU, SONAME, SOURCES, filled, folder_of, functions, hash_of_sources  # noqa: E402
from prover import kit, words  # noqa: E402


def hide_proved_calls(objects: list[pathlib.Path]) -> None:
    """Gives each proved function that C code has a function of the same name over the name `sel_proved_..`."""
    texts = [(ROOT / "c" / name).read_text() for name in ("calls.c", "arrow_lease.h")]
    names = sorted({name for text in texts for name in re.findall(r"\bsel_proved_(\w+)\(", text)})
    with tempfile.NamedTemporaryFile("w") as pairs:
        pairs.write("".join(f"sel_{name} sel_proved_{name}\n" for name in names))
        pairs.flush()
        for path in objects:
            run_printing("objcopy", f"--redefine-syms={pairs.name}", path)


def use_library_memory(objects: list[pathlib.Path]) -> None:
    """Lets the allocator of the proved functions call c/memory.c in place of malloc, realloc and free."""
    for path in objects:
        run_printing("objcopy", *(word for name in ("malloc", "realloc", "free") for word in ("--redefine-sym", f"{name}=sel_memory_{name}")), path)


def proved(over_gate: bool, cpu: str, compiler: list[str]) -> pathlib.Path:
    """Proves crates/sel_c over cached proofs, or over the libraries that `rt ci` has just proved. Returns its archive."""
    folder = ROOT / "crates" / "sel_c"
    archive = folder / "out" / "libsel_c.a"
    if not over_gate:
        if not Build([*for_cpu(cpu), *compiler]).run():
            sys.exit("failed: the library is not built")
        return archive
    archive.parent.mkdir(exist_ok=True)
    # (one process: two take a third more processor time, and the other processors have proofs to do)
    command = [*words("build", "sel_c", folder), *for_cpu(cpu), "--toolchain", str(kit() / "toolchain"), "-o", str(archive)]
    ran = subprocess.run(command, cwd=folder, stdout=subprocess.PIPE, stderr=subprocess.STDOUT, text=True, errors="replace", check=False)
    verdict = re.search(r"(?m)^logic=proved .*$", ran.stdout)
    if ran.returncode != 0 or not verdict:
        print(ran.stdout[-5000:])
        sys.exit("failed: sel_c is not proved, or the prover prints no verdict")
    verdicts.keep("sel_c", verdict[0])
    return archive


def for_cpu(cpu: str) -> list[str]:
    """Returns the options of the toolchain that select the processors to build for."""
    return [] if cpu == LEAST_CPU else ["--cpu", cpu]


def build(over_gate: bool, cpu: str, is_fast: bool, before: str) -> None:
    """Proves the crates and builds the library. `before` is the sum of their sources before the first of them was proved."""
    proved_sources, folder = hash_of_sources(), folder_of(cpu)
    made = proved(over_gate, cpu, OWN_COMPILER if is_fast else [])
    said = verdicts.table(before)
    folder.mkdir(parents=True, exist_ok=True)
    (folder / "cpu").write_text(f"{cpu}\n")
    archive, shared = folder / "libsel.a", folder / SONAME
    with tempfile.TemporaryDirectory() as work:
        for part in (made, kit() / "c" / "liblibc_c.a"):
            run_printing("ar", "x", part, cwd=work)
        hide_proved_calls(sorted(pathlib.Path(work).iterdir()))
        use_library_memory(sorted(pathlib.Path(work).iterdir()))
        for source in SOURCES:
            run_printing(*CC, "-std=c11", "-O2", "-fPIC", f"-ffile-prefix-map={ROOT}/=", *WARN, *INCLUDE, "-c", source, "-o",
                pathlib.Path(work) / f"libsel_{source.stem}.o")
        objects = sorted(pathlib.Path(work).iterdir())
        archive.unlink(missing_ok=True)
        run_printing("ar", "rcsD", archive, *objects)
        exports = pathlib.Path(work) / "exports"
        exports.write_text(f"{{ global: {' '.join(f'{name};' for name in sorted(functions()))} local: *; }};\n")
        run_printing(*CC, "-shared", f"-Wl,-soname,{shared.name}", f"-Wl,--version-script={exports}", "-Wl,-z,defs", "-o", shared, *objects)
    # a hard link: `rt ci` rejects a tree with symbolic links
    link = folder / "libsel.so"
    link.unlink(missing_ok=True)
    os.link(shared, link)
    (folder / "sources").write_text(f"{proved_sources}\n")
    (folder / "VERDICTS").write_text(said)
    (folder / "sel.pc").write_bytes(filled("sel.pc.in", "/usr/local"))


def foreign_symbols(folder: pathlib.Path) -> list[str]:
    """Returns the exported symbols of the shared library that its headers do not declare."""
    names = run("nm", "-D", "--defined-only", folder / "libsel.so").split("\n")
    return sorted({line.split()[-1] for line in names if line.strip()} - functions())


def compiled(folder: pathlib.Path, name: str, sources: list[str], *flags: str) -> pathlib.Path:
    """Compiles a test, linked with the archive. Returns the program."""
    program = folder / name
    run_printing(*CC, "-std=c11", "-g", *WARN, *INCLUDE, *(TESTS / f"{source}.c" for source in sources), folder / "libsel.a", *flags, "-o", program)
    return program


def finds_race(under: list[str], program: pathlib.Path, function: str, env: dict[str, str] | None = None) -> None:
    """Checks that a checker of races finds the one that the program makes, in a function; else it could pass whatever it runs."""
    done = subprocess.run([*under, program, "race"], capture_output=True, text=True, errors="replace", env=env, check=False)
    if done.returncode == 0 or not re.search(rf"(?s)data race.*\b{function}\b", done.stdout + done.stderr):
        sys.exit(f"failed: {' '.join(str(word) for word in [*under, program])} finds no race in {function}")


def check_threads(folder: pathlib.Path) -> None:
    """Runs c/test_threads.c plainly, under valgrind's memcheck and helgrind, and with ThreadSanitizer."""
    program = compiled(folder, "test_threads", ["test_threads"], "-pthread")
    run_printing(program, "60")
    if has("valgrind"):
        run_printing(*MEMCHECK, program, "1")
        run_printing(*HELGRIND, program, "2")
        finds_race(HELGRIND, program, "sel_proved_print")
    else:
        left_out("c/test_threads.c under memcheck and helgrind")
    if not has("tsan"):
        return left_out("c/test_threads.c with ThreadSanitizer")
    # The proved functions are not instrumented: they are called in a shared library, where what they do is ignored, as their atomic counts
    # would not be seen. It exports all of them. The tests and the files c/arrow_*.c of the library are instrumented.
    env = {**os.environ, "TSAN_OPTIONS": "ignore_noninstrumented_modules=1:exitcode=3"}
    with tempfile.TemporaryDirectory() as work:
        run_printing(*CC, "-shared", "-Wl,--whole-archive", folder / "libsel.a", "-Wl,--no-whole-archive", "-pthread", "-o", f"{work}/libsel_all.so")
        for name, rounds in (("test_threads", "5"), ("test_lease_threads", "200")):
            program = pathlib.Path(work) / name
            run_printing(*CC, "-std=c11", "-g", "-O1", "-fsanitize=thread", *WARN, *INCLUDE, TESTS / f"{name}.c", *ARROW_SOURCES,
                f"-L{work}", "-lsel_all", f"-Wl,-rpath,{work}", "-pthread", "-o", program)
            run_printing(program, rounds, env=env)
            if name == "test_threads":
                finds_race([], program, "write_unguarded", env)


# wrong changes to the C code around lent memory: what they do, the file, its text and the new text
LEASE_FAULTS = [
    ("memory is given back while a slice uses it", "arrow_lease.c", "if (back(l, &memory) != SEL_OK) return false;",
     "if (back(l, &memory) != SEL_OK) memory.at = (void *)l->at;"),
    ("a share of an array is not counted", "arrow_lease.c", "if (l->from) l->from->leases++;", "if (l->from) l->from->leases = 1;"),
    ("the owner of an exported buffer is freed before its release", "arrow_share.c", "    owner->at = NULL;\n", ""),
]


def finds_lease_faults(folder: pathlib.Path) -> None:
    """Checks that c/test_lease.c finds each of the wrong changes."""
    for what, name, old, new in LEASE_FAULTS:
        text = (TESTS / name).read_text()
        if text.count(old) != 1:
            sys.exit(f"failed: c/{name} has {text.count(old)} times: {old}")
        with tempfile.TemporaryDirectory() as work:
            changed, program = pathlib.Path(work) / name, pathlib.Path(work) / "test_lease"
            changed.write_text(text.replace(old, new))
            run_printing(*CC, "-std=c11", "-g", *INCLUDE, "-I", TESTS, TESTS / "test_lease.c", TESTS / "test_memory.c", changed,
                folder / "libsel.a", *WRAPPED, "-pthread", "-o", program)
            if subprocess.run([program], stdout=subprocess.DEVNULL, stderr=subprocess.DEVNULL, timeout=100, check=False).returncode == 0:
                sys.exit(f"failed: c/test_lease.c passes although {what}")


def check_leases(folder: pathlib.Path) -> None:
    """Runs c/test_lease.c, c/test_lease_random.c and c/test_lease_threads.c plainly, and under valgrind's memcheck and helgrind."""
    finds_lease_faults(folder)
    lent = compiled(folder, "test_lease", ["test_lease", "test_memory"], *WRAPPED, "-pthread")
    threads = compiled(folder, "test_lease_threads", ["test_lease_threads"], "-pthread")
    random = compiled(folder, "test_lease_random", ["test_lease_random"], "-pthread")
    run_printing(lent)
    run_printing(random, "100000")
    run_printing(threads, "2000")
    if not has("valgrind"):
        return left_out("c/test_lease.c under memcheck, and c/test_lease_threads.c under helgrind")
    run_printing(*MEMCHECK, lent)
    run_printing(*MEMCHECK, random, "200")
    run_printing(*HELGRIND, threads, "20")


def check_depth(folder: pathlib.Path) -> None:
    """Runs c/test_depth.c, whose tests have to call every function of the headers."""
    sources = sorted(TESTS.glob("test_depth*.c"))
    called = {name for path in sources for name in re.findall(r"\b(sel_\w+)\(", path.read_text())}
    if not functions() <= called:
        sys.exit(f"c/test_depth*.c do not call {', '.join(sorted(functions() - called))}")
    run_printing(compiled(folder, "test_depth", [*(path.stem for path in sources), "test_memory"], "-pthread", *WRAPPED))


def check(cpu: str) -> None:
    """Checks the headers and what the built library exports, and runs the tests of c/ over it."""
    folder = folder_of(cpu)
    if not (folder / "libsel.a").exists():
        sys.exit(f"{folder}/libsel.a is not there: make lib builds it")
    check_header("sel.h")
    if foreign_symbols(folder):
        sys.exit(f"the shared library exports {', '.join(foreign_symbols(folder))}")
    test = compiled(folder, "test", ["test", "test_several", "test_empty", "test_memory"], *WRAPPED, *wrapped("sel_proved_int64_new", "sel_proved_take_rows"))
    run_printing(test)
    if has("valgrind"):
        run_printing(*MEMCHECK, test)
    else:
        left_out("c/test.c under valgrind")
    check_depth(folder)
    check_threads(folder)
    check_leases(folder)


def main() -> None:
    asked, cpu = sys.argv[1:], LEAST_CPU
    if asked[-2:-1] == ["--cpu"]:
        asked, cpu = asked[:-2], asked[-1]
    before = asked.pop() if asked[:1] == ["--gate"] and len(asked) == 2 else verdicts.sum_of_all()
    if asked not in ([], ["--fast"], ["--gate"], ["--test"], ["--check"]):
        sys.exit(__doc__)
    if asked != ["--test"]:
        build(asked == ["--gate"], cpu, asked == ["--fast"], before)
    if asked in (["--test"], ["--check"]):
        check(cpu)


if __name__ == "__main__":
    main()
