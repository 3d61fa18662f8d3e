#!/usr/bin/env python3
"""Times the kernels of build/libsel.so against numpy, plain C loops and a copy of the bytes that must be read and written, with
tools/bench/lending.py imports and exports without a copy, with tools/bench/tables.py filters of wide tables and allocations, and with tools/bench/words.py the operations that this library does not export.

tools/bench/run.py        writes docs/BENCHMARKS.md and docs/bench-*.svg; if UPSTREAM names a folder, or two, with tools/bench/upstream.py beside upstream's kernels
tools/bench/run.py quick  compares each result with numpy's, and writes nothing

SEL_BUILD names another folder than build/, for the other files of tools/bench that use the library too.
"""

from __future__ import annotations

import ctypes
import os
import pathlib
import shutil
import statistics
import subprocess
import sys
import tempfile
import time
from collections.abc import Callable, Iterable
from typing import TYPE_CHECKING

if TYPE_CHECKING:
    from cases import Case

HERE = pathlib.Path(__file__).resolve().parent
ROOT = HERE.parent.parent
sys.dont_write_bytecode = True
sys.path.insert(0, str(ROOT / "tools"))

from commands import CC, INCLUDE, SYSTEM_PYTHON  # noqa: E402
from package import BUILD  # noqa: E402

FLAGS = ["-O3", "-march=native", "-std=c11", "-Wall", "-Wextra", "-fPIC", "-shared"]
ROUNDS, ROUND_NS = 21, 1_500_000
LARGE, SMALL, MOST = 2 ** 20, 2 ** 14, 2 ** 26
# runs a call so many times, and returns the time in ns
Timer = Callable[[int], float]


def with_numpy() -> bool:
    """Returns whether this Python has numpy. If only the system's Python has it, runs this file with that one."""
    try:
        import numpy  # noqa: F401
        return True
    except ImportError:
        pass
    need = subprocess.run([ROOT / "tools" / "need", "numpy"], env={**os.environ, "PYTHON": SYSTEM_PYTHON}, check=False)
    if need.returncode == 0 and sys.executable != SYSTEM_PYTHON and "SEL_BENCH_AGAIN" not in os.environ:
        os.execve(SYSTEM_PYTHON, [SYSTEM_PYTHON, *sys.argv], {**os.environ, "SEL_BENCH_AGAIN": "1"})
    return False


def timers(folder: pathlib.Path) -> ctypes.CDLL:
    """Builds bench.c, linked with build/libsel.so, and loads it."""
    built = folder / "bench.so"
    subprocess.run([*CC, *FLAGS, *INCLUDE, HERE / "bench.c", f"-L{BUILD}", "-lsel", f"-Wl,-rpath,{BUILD}", "-o", built], check=True)
    return ctypes.PyDLL(str(built))


def by_numpy(call: Callable[[], object]) -> Timer:
    """Returns the timer of a call of numpy."""

    def timer(repeats: int) -> float:
        start = time.thread_time_ns()
        for _ in range(repeats):
            call()
        return float(time.thread_time_ns() - start)

    return timer


def by_c(lib: ctypes.CDLL, call: str, case: Case) -> Timer:
    """Returns the timer of a function of bench.c on the arguments of a case."""
    function = getattr(lib, f"bench_{call}")
    function.restype, function.argtypes = ctypes.c_double, [ctypes.c_void_p, ctypes.c_size_t]

    def timer(repeats: int) -> float:
        return float(function(ctypes.addressof(case.job), repeats))

    return timer


def contenders(lib: ctypes.CDLL, case: Case) -> dict[str, Timer]:
    """Returns the timers of a case: the library, the loop, the copy, and numpy if it has the operation."""
    found = {name: by_c(lib, call, case) for name, call in (("sel", case.calls[0]), ("loop", case.calls[1]), ("copy", "copy"))}
    if case.numpy:
        found["numpy"] = by_numpy(case.numpy)
    return found


def measured(lib: ctypes.CDLL, case: Case) -> dict[str, tuple[float, float]]:
    """Returns the best and the median time per row of each contender, in ns. The contenders take turns in many rounds."""
    jobs = contenders(lib, case)
    repeats: dict[str, int] = {}
    times: dict[str, list[float]] = {}
    for name, timer in jobs.items():
        first = timer(1)
        if first < 0:
            raise SystemExit(f"{case.kernel}: {name} failed")
        repeats[name], times[name] = max(1, min(1000, int(ROUND_NS / max(first, 1)))), []
    rounds = ROUNDS if case.rows <= LARGE else 5
    for _ in range(rounds):
        for name, timer in jobs.items():
            times[name].append(timer(repeats[name]) / repeats[name] / case.rows)
    return {name: (min(each), statistics.median(each)) for name, each in times.items()}


def compare(lib: ctypes.CDLL) -> None:
    """Compares each result with numpy's. Exits if one differs or a call fails."""
    import cases
    import lending
    import words

    count = 0
    for rows in (SMALL, LARGE):
        for case in cases.at_size(rows):
            case.check()
            if any(timer(1) < 0 for timer in contenders(lib, case).values()):
                sys.exit(f"{case.kernel}: a call failed")
            count += 1
    print(f"{count} results equal numpy's")
    lending.check()
    words.compare()


def results_of(lib: ctypes.CDLL, cases: Iterable[Case]) -> list[tuple[str, int, str, dict[str, tuple[float, float]]]]:
    """Checks each case, and returns its kernel, its rows, what varies, and the times of its contenders."""
    found = []
    for case in cases:
        case.check()
        found.append((case.kernel, case.rows, case.varied, measured(lib, case)))
    return found


def write_page(lib: ctypes.CDLL, program: pathlib.Path | None, of_threads: list[str]) -> None:
    """Measures all cases, and writes docs/BENCHMARKS.md and its charts. `program` is the one of words.py, if it is built."""
    import cases
    import lending
    import report
    import tables
    import upstream
    import words

    load, results, of_words = [os.getloadavg()[0]], [], words.measured(program)
    for rows in (SMALL, LARGE):
        results += results_of(lib, cases.at_size(rows))
        load.append(os.getloadavg()[0])
    scale = results_of(lib, cases.at_scale(MOST))
    load.append(os.getloadavg()[0])
    beside = upstream.section(*map(pathlib.Path, os.environ["UPSTREAM"].split())) if os.environ.get("UPSTREAM") else upstream.earlier(upstream.PAGE.read_text())
    sections = [*of_threads, *tables.section(), *lending.section(), *words.section(of_words)]
    report.write(ROOT / "docs", results, scale, beside, sections, load, " ".join(CC), FLAGS)


def main() -> None:
    quick = sys.argv[1:] == ["quick"]
    if sys.argv[1:] and not quick:
        sys.exit(__doc__)
    if not with_numpy():
        print("not run: the benchmark, which needs numpy", file=sys.stderr)
        sys.exit(0 if quick else 1)
    if not (BUILD / "libsel.so").exists():
        subprocess.run([ROOT / "tools" / "clib.py"], check=True)
    os.environ.setdefault("SEL_LIBRARY", str(BUILD / "libsel.so"))
    sys.path[:0] = [str(ROOT / "bindings" / "python"), str(HERE)]
    import scaling
    import words

    folder = pathlib.Path(tempfile.mkdtemp())
    try:
        lib = timers(folder)
        program = None if quick else words.built()
        of_threads = [] if quick else scaling.section()
        if hasattr(os, "sched_setaffinity"):
            os.sched_setaffinity(0, {max(os.sched_getaffinity(0))})
        if quick:
            compare(lib)
        else:
            write_page(lib, program, of_threads)
    finally:
        shutil.rmtree(folder, ignore_errors=True)


if __name__ == "__main__":
    main()
