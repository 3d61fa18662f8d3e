#!/usr/bin/env python3
"""Runs the conformance suite of tests/ over the C library.

tools/rows.py [--fast] [LIBRARY]    LIBRARY is the archive to link, build/libsel.a if none is named; SEL_BUILD names another folder than build/

Builds tests/run plainly and with the address and undefined behaviour sanitizers, and runs all files of tests/rows by both, and at
one offset under valgrind. Then tests/wrong.txt, each line of which must fail, and tests/faults.txt: each fault of tests/faults.c
must be found by its line. A line `not run: ..` names what needs a missing dependency. With --fast the run with sanitizers is at one offset and refuses
no allocation, and nothing is run under valgrind, which finds what the sanitizers find, unless the compiler lacks these.
Writes into build/, where it keeps the compiled sources of the runner, prints what failed and one line that sums up, and exits with
status 1 if anything failed.
"""

from __future__ import annotations

import hashlib
import os
import pathlib
import re
import subprocess
import sys
import time
from collections.abc import Sequence
from concurrent.futures import ThreadPoolExecutor
from typing import Dict, List, NamedTuple, Optional, Tuple

ROOT = pathlib.Path(__file__).resolve().parent.parent
TESTS = ROOT / "tests"
sys.dont_write_bytecode = True
sys.path.insert(0, str(ROOT / "tools"))

from commands import CC, INCLUDE, MEMCHECK, SANITIZED, WARN, WRAPPED, has, left_out, run_printing, wrapped  # noqa: E402
from package import BUILD  # noqa: E402

FLAGS = ["-std=c11", "-g", *WARN, *INCLUDE]
# the runner's options for a quick run
AT_ONE_OFFSET = ("--layout", "7", "--no-refusals")
VERSION = subprocess.run([*CC, "--version"], stdout=subprocess.PIPE, encoding="utf-8", errors="replace", check=False).stdout
COUNTS = re.compile(r"(\d+) lines, (\d+) cases, (\d+) allocations refused, (\d+) failed")


class Counts(NamedTuple):
    """The numbers of a run's last line, and its exit status."""

    lines: int
    cases: int
    refused: int
    failed: int
    status: int


class Fault(NamedTuple):
    """A fault of faults.c, the runner's options for it, what its failure says, and the line that finds it."""

    name: str
    options: List[str]
    says: str
    line: str


def sources() -> List[str]:
    """Returns the sources of the runner, without the faults."""
    return [str(path) for path in sorted(TESTS.glob("*.c")) if path.name != "faults.c"]


def compiled(source: str, flags: List[str], folder: pathlib.Path) -> str:
    """Returns the object file of a source, which is compiled unless that was done before, by the same command and of the same files."""
    made, key = folder / f"{pathlib.Path(source).stem}.o", folder / f"{pathlib.Path(source).stem}.key"
    files = [pathlib.Path(source), *sorted(TESTS.glob("*.h")), ROOT / "c" / "wrapped.h", *sorted((ROOT / "include").glob("*.h"))]
    said = repr([CC, VERSION, source, flags, [hashlib.sha256(path.read_bytes()).hexdigest() for path in files]])
    if not (made.exists() and key.exists() and key.read_text() == said):
        key.unlink(missing_ok=True)
        run_printing(*CC, *flags, "-c", source, "-o", made)
        key.write_text(said)
    return str(made)


def build(library: pathlib.Path, name: str, more: List[str], files: List[str], wraps: Tuple[str, ...] = ()) -> pathlib.Path:
    """Builds the runner from these files under a name; ends the program if that fails."""
    program, folder, flags = BUILD / name, BUILD / "objects" / name, [*FLAGS, *more]
    folder.mkdir(parents=True, exist_ok=True)
    with ThreadPoolExecutor(len(os.sched_getaffinity(0))) as pool:
        objects = list(pool.map(lambda source: compiled(source, flags, folder), files))
    run_printing(*CC, *flags, *objects, library, *WRAPPED, *wrapped(*wraps), "-o", program)
    return program


def run(program: pathlib.Path, *words: str, fault: Optional[str] = None, under: Sequence[str] = ()) -> Counts:
    """Runs the runner, under another program if one is named, prints what it says but its counts, and returns these."""
    # most of a run with sanitizers goes into the traces of allocations, which are kept short
    env: Dict[str, str] = {"ASAN_OPTIONS": "malloc_context_size=4", **os.environ}
    if fault is not None:
        env["SEL_FAULT"] = fault
    done = subprocess.run([*under, str(program), *words], stdout=subprocess.PIPE, stderr=subprocess.STDOUT, encoding="utf-8", errors="replace", env=env,
                          check=False)
    found = COUNTS.search(done.stdout)
    for line in done.stdout.splitlines():
        if not COUNTS.fullmatch(line):
            print(line)
    if found is None:
        return Counts(0, 0, 0, 1, done.returncode or 1)
    lines, cases, refused, failed = (int(number) for number in found.groups())
    return Counts(lines, cases, refused, failed, done.returncode)


def run_sanitized(library: pathlib.Path, *options: str) -> Optional[Counts]:
    """Runs all files with sanitizers, the longest first, as many at once as there are processors. Returns the sums, or None without sanitizers."""
    if not has("sanitizers"):
        left_out("the rows with sanitizers")
        return None
    program = build(library, "rows_sanitized", ["-O1", *SANITIZED], sources())
    files = sorted((TESTS / "rows").glob("*.txt"), key=lambda path: -path.stat().st_size)
    with ThreadPoolExecutor(len(os.sched_getaffinity(0))) as pool:
        return Counts(*map(sum, zip(*pool.map(lambda path: run(program, *options, str(path)), files))))


def run_under_valgrind(plain: pathlib.Path) -> Tuple[bool, str]:
    """Runs all files at one offset under valgrind. Returns whether nothing failed, and what was run."""
    if not has("valgrind"):
        left_out("the rows under valgrind")
        return True, "not run under valgrind, which is missing"
    under = run(plain, *AT_ONE_OFFSET, under=MEMCHECK)
    return under.status == 0, f"{under.cases} cases under valgrind" if under.status == 0 else "FAILED under valgrind"


def read_faults() -> List[Fault]:
    """Reads faults.txt: a heading `== FAULT [OPTION ..]: TEXT`, and the line behind it."""
    lines = [line for line in (TESTS / "faults.txt").read_text(encoding="utf-8").split("\n") if line and not line.startswith("#")]
    if not lines or [line.startswith("== ") for line in lines] != [True, False] * (len(lines) // 2):
        sys.exit("tests/faults.txt does not have a heading and a line by turns")
    faults: List[Fault] = []
    for heading, line in zip(lines[::2], lines[1::2]):
        words, _, says = heading[len("== "):].partition(": ")
        name, *options = words.split()
        faults.append(Fault(name, options, says, line))
    return faults


def wraps_of_faults() -> Tuple[str, ...]:
    """Returns the calls that faults.c makes wrong."""
    text = (TESTS / "faults.c").read_text(encoding="utf-8")
    return tuple(sorted({first or second for first, second in re.findall(r"^WRAP\((\w+),|^size_t __wrap_(\w+)\(", text, re.MULTILINE)}))


def missed_faults(library: pathlib.Path, faults: List[Fault]) -> List[str]:
    """Returns the faults that their lines do not find, or whose lines fail without them."""
    program = build(library, "rows_faults", ["-O1"], [*sources(), str(TESTS / "faults.c")], wraps_of_faults())
    path, missed = BUILD / "fault.txt", []
    for fault in faults:
        path.write_text(f"#! {fault.says}\n{fault.line}\n", encoding="utf-8")
        is_found = run(program, *fault.options, "--must-fail", str(path), fault=fault.name).status == 0
        passes = run(program, str(path)).status == 0
        if not is_found or not passes:
            missed.append(fault.name)
            print(f"faults.txt: {fault.name}: {'its line fails without it' if is_found else 'not found'}")
    path.unlink()
    return missed


def read_arguments() -> Tuple[bool, pathlib.Path]:
    """Returns whether this is the fast run, and the library."""
    words = sys.argv[1:]
    is_fast = words[:1] == ["--fast"]
    words = words[is_fast:]
    if len(words) > 1 or words[:1] == ["--help"]:
        sys.exit(__doc__)
    library = pathlib.Path(words[0]).resolve() if words else BUILD / "libsel.a"
    if not library.exists():
        sys.exit(f"{library} is not there: make lib builds it")
    return is_fast and has("sanitizers"), library


def main() -> None:
    is_fast, library = read_arguments()
    BUILD.mkdir(exist_ok=True)
    start = time.monotonic()
    plain = build(library, "rows", ["-O1"], sources())
    with ThreadPoolExecutor(2) as pool:
        sanitizing = pool.submit(run_sanitized, library, *(AT_ONE_OFFSET if is_fast else []))
        checking = None if is_fast else pool.submit(run_under_valgrind, plain)
        counts = run(plain)
        wrong = run(plain, "--must-fail", str(TESTS / "wrong.txt"))
        faults = read_faults()
        missed = missed_faults(library, faults)
        sanitized, (is_checked, said) = sanitizing.result(), checking.result() if checking else (True, "not run under valgrind, as asked")
    # lines and, unless it is at one offset, cases and allocations refused
    same = 1 if is_fast else 3
    is_same = sanitized is None or sanitized[:same] == counts[:same] and sanitized.cases >= counts.lines and sanitized.status == 0
    again = "not run with sanitizers, which the compiler lacks"
    if sanitized is not None:
        again = f"{sanitized.cases} cases{'' if is_same else ' FAILED'} with sanitizers and {sanitized.refused} allocations refused"
    is_right = counts.status == 0 and is_same and is_checked and wrong.status == 0 and not missed
    print(f"rows: {'ok' if is_right else 'FAILED'}: {counts.lines} lines, {counts.cases} cases, {counts.refused} allocations refused, "
          f"{counts.failed} failed; {again}; {said}; {wrong.lines - wrong.failed} of {wrong.lines} wrong lines and "
          f"{len(faults) - len(missed)} of {len(faults)} faults found; {time.monotonic() - start:.0f} seconds")
    sys.exit(0 if is_right else 1)


if __name__ == "__main__":
    main()
