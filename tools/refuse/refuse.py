#!/usr/bin/env python3
"""Runs Rattle tests of single calls, and sel_bench on its stored input, making each allocation fail in turn.

The tests are those of the modules `alloc_*` of the crates tests_bits and tests_kernels. (tests/run.c does the same for the C calls.)

tools/refuse/refuse.py           every test, and the program
tools/refuse/refuse.py NAME ..   only these tests, by the names that the built tests list, or sel_bench

A test marks where a call begins and ends (crates/tests_bits/src/marks.rt). growths.c is preloaded into the test; it counts the
allocations between the two marks and makes some fail. Each test runs with the 1st, the 2nd, .. allocation failing, until a run has
no failed allocation: once only that allocation fails, once also all later ones. A run passes if the test passes, and if each of its
calls returned out of memory exactly if one of its allocations failed. In a call that must not allocate, every allocation fails, and
there must be none.

The program must exit with status 1, after a prefix of whole lines of the stored output.

Uses the programs that `rt ci` built. If one is missing or older than its sources, proves and builds it first.
"""

from __future__ import annotations

import os
import pathlib
import shutil
import subprocess
import sys
import tempfile
from collections.abc import Callable, Iterator
from concurrent.futures import ThreadPoolExecutor
from typing import NoReturn

TOP = pathlib.Path(__file__).resolve().parent.parent.parent
CRATES = TOP / "crates"
SHIM = TOP / "tools" / "refuse" / "growths.c"
PROGRAM = "sel_bench"
# a crate, and the beginning of the names of the tests that are run
TESTS = [("tests_bits", "alloc_"), ("tests_kernels", "alloc_")]
SECONDS = 60
sys.dont_write_bytecode = True
sys.path.insert(0, str(TOP / "tools"))

import prover  # noqa: E402
from commands import CC  # noqa: E402

# the report of a call: how it ended, its allocations, and how many of them failed
Report = tuple[str, int, int]
Ended = subprocess.CompletedProcess[bytes]
# runs something in which an allocation fails: the number of the allocation, and whether all later ones fail too
Run = Callable[[int, bool], tuple[Ended, list[Report]]]


def stop(why: str) -> NoReturn:
    """Exits when nothing can be run."""
    print(why, file=sys.stderr)
    print("0 passed, 1 failed")
    sys.exit(2)


class Wrong(Exception):
    """A fault of a run."""


def compilers() -> Iterator[list[str]]:
    """Yields the commands that can build the shim: the toolchain's compiler, then the system's."""
    plain = ["-O2", "-Wall", "-Wextra", "-shared", "-fPIC"]
    rt = shutil.which("rt")
    if rt:
        folder = pathlib.Path(rt).resolve().parent.parent / "toolchain" / "bin"
        yield [str(folder / "clang"), *plain, "-nostdlib", f"--ld-path={folder}/ld.lld"]
    yield [*CC, *plain]


def built_shim(room: str, source: pathlib.Path = SHIM) -> pathlib.Path:
    """Builds a shim. Returns its shared library."""
    made = pathlib.Path(room) / f"{source.stem}.so"
    said = []
    for command in compilers():
        try:
            ran = subprocess.run([*command, "-o", str(made), str(source)], capture_output=True, text=True)
        except OSError as error:
            said.append(str(error))
            continue
        if ran.returncode == 0:
            return made
        said.append(ran.stderr)
    stop("the shim was not built:\n" + "\n".join(said))


def sources(crate: str) -> Iterator[pathlib.Path]:
    """Yields the sources of a crate and of the crates that it depends on."""
    for name in [crate, *prover.crates_below(crate, {it: used for it, (_, used) in prover.lines().items()})]:
        for part in ("src", "specs", "proofs"):
            yield from (it for it in (CRATES / name / part).rglob("*") if it.suffix in (".rt", ".antt"))
    yield TOP / "crates.txt"


def built(crate: str, program: str, command: list[str]) -> pathlib.Path:
    """Returns a crate's program. Proves and builds it first if it is missing or older than its sources."""
    made = CRATES / crate / "out" / program
    if made.exists() and all(it.stat().st_mtime <= made.stat().st_mtime for it in sources(crate)):
        return made
    print(f"proving and building {crate} first", flush=True)
    try:
        ran = subprocess.run(["rt", *command], cwd=CRATES / crate, stdin=subprocess.DEVNULL, capture_output=True, text=True)
    except OSError as error:
        stop(f"{crate} was not built: {error}")
    if ran.returncode or not made.exists():
        stop(f"{crate} was not built:\n{ran.stdout}{ran.stderr}")
    return made


def refused_run(
    shim: pathlib.Path, command: list[str], at: int, goes_on: bool, given: bytes | None = None, more: dict[str, str] | None = None
) -> tuple[Ended, list[Report]]:
    """Runs a command in which allocation number `at` fails, and all later ones too if `goes_on`. Returns the finished process and the
    report of each call."""
    with tempfile.NamedTemporaryFile(prefix="refuse-") as report:
        words = {"LD_PRELOAD": str(shim), "REFUSE_REPORT": report.name, "REFUSE_AT": str(at), "REFUSE_ON": str(int(goes_on))}
        env = {"PATH": "/usr/bin:/bin", "LANG": "C.UTF-8", **words, **(more or {})}
        try:
            ran = subprocess.run(command, env=env, input=given, capture_output=True, timeout=SECONDS)
        except subprocess.TimeoutExpired:
            raise Wrong(f"still running after {SECONDS} seconds") from None
        lines = pathlib.Path(report.name).read_text().splitlines()
    calls = [(word, int(met), int(refused)) for word, met, refused in (line.split() for line in lines)]
    return ran, calls


def judge_call(number: int, call: Report, is_first: bool) -> None:
    """Raises Wrong if the report of a call is wrong. In the first run, in which no allocation fails, the call must allocate."""
    word, met, refused = call
    if word == "free":
        if met:
            raise Wrong(f"call {number} must not allocate, and allocated {met} times")
    elif word == "returned":
        if refused:
            raise Wrong(f"call {number} returned a result although an allocation failed")
        if is_first and not met:
            raise Wrong(f"call {number} does not allocate")
    elif word == "refused":
        if not refused:
            raise Wrong(f"call {number} returned out of memory although no allocation failed")
    else:
        raise Wrong(f"call {number} has no begin mark or no end mark ({word})")


def judge_test(ran: Ended, calls: list[Report], count: int | None) -> None:
    """Raises Wrong if a run of a test is wrong. `count` is the number of its calls, or None in the first run."""
    if ran.returncode:
        said = (ran.stdout + ran.stderr).decode(errors="replace").strip().replace("\n", "; ")
        raise Wrong(f"exit status {ran.returncode}: {said[-300:]}")
    if not calls:
        raise Wrong("it marks no call")
    if count is not None and len(calls) != count:
        raise Wrong(f"made {len(calls)} calls instead of {count}")
    for number, call in enumerate(calls, 1):
        judge_call(number, call, count is None)


def in_turn(run: Run, judge: Callable[[Ended, list[Report], int], bool]) -> int:
    """Makes the 1st, the 2nd, .. allocation fail until a run has no failed one: first alone, then with all later ones. Returns the
    number of runs."""
    runs = 0
    for goes_on in (False, True):
        at, has_failed = 1, True
        while has_failed:
            ran, calls = run(at, goes_on)
            runs += 1
            failures = sum(refused for _, _, refused in calls)
            try:
                if failures > 1 and not goes_on:
                    raise Wrong("more than one allocation failed")
                has_failed = judge(ran, calls, failures)
            except Wrong as wrong:
                raise Wrong(f"allocation {at}{' and all later ones' if goes_on else ''} failing: {wrong}") from None
            at += 1
    return runs


def try_test(shim: pathlib.Path, program: pathlib.Path, test: str) -> tuple[int, int, int]:
    """Runs one test in every way. Returns the numbers of its calls, allocations and runs."""

    def run(at: int, goes_on: bool) -> tuple[Ended, list[Report]]:
        return refused_run(shim, [str(program), test], at, goes_on)

    ran, calls = run(0, False)
    judge_test(ran, calls, None)

    def judge(ran: Ended, reports: list[Report], failures: int) -> bool:
        judge_test(ran, reports, len(calls))
        return failures > 0

    return len(calls), sum(met for _, met, _ in calls), 1 + in_turn(run, judge)


def try_program(shim: pathlib.Path, program: pathlib.Path) -> tuple[int, int, int]:
    """Runs the program on the stored input in every way. Returns the numbers of its lines, allocations and runs."""
    given = (CRATES / PROGRAM / "stdin").read_bytes()
    wanted = (CRATES / PROGRAM / "stdout").read_bytes()
    ends = [0, *(at + 1 for at, byte in enumerate(wanted) if byte == ord("\n"))]

    def run(at: int, goes_on: bool) -> tuple[Ended, list[Report]]:
        return refused_run(shim, [str(program)], at, goes_on, given, {"REFUSE_ALL": "1"})

    def judge(ran: Ended, reports: list[Report], failures: int) -> bool:
        status = 1 if failures else 0
        if ran.returncode != status:
            raise Wrong(f"exit status {ran.returncode} instead of {status}")
        if failures and not (wanted.startswith(ran.stdout) and len(ran.stdout) in ends):
            raise Wrong(f"the output is no prefix of whole lines: {ran.stdout!r}")
        if not failures and ran.stdout != wanted:
            raise Wrong("the output differs from the stored one")
        if len(reports) != 1 or reports[0][0] != "ended":
            raise Wrong("the shim did not report the exit")
        return failures > 0

    ran, reports = run(0, False)
    judge(ran, reports, 0)
    return len(ends) - 1, reports[0][1], 1 + in_turn(run, judge)


def counted(number: int, what: str) -> str:
    """Returns a number with its noun, in the plural unless the number is 1."""
    return f"{number} {what}{'' if number == 1 else 's'}"


def shown(name: str, calls: int, allocations: int, runs: int) -> str:
    """Returns the line of a test that passed."""
    return f"{name}: {counted(allocations, 'allocation') if allocations else 'no allocation in ' + counted(calls, 'call')}, {counted(runs, 'run')}"


def listed(program: pathlib.Path) -> list[str]:
    """Returns the names of the tests of a built test program."""
    ran = subprocess.run([str(program), "--list"], capture_output=True, text=True)
    if ran.returncode:
        stop(f"{program.name} does not list its tests: {ran.stderr}")
    return [it[: -len(": test")] for it in ran.stdout.splitlines() if it.endswith(": test")]


def main(names: list[str]) -> int:
    tests: dict[str, pathlib.Path] = {}
    if names != [PROGRAM]:
        for crate, module in TESTS:
            made = built(crate, f"{crate}_tests", ["test"])
            known = [it for it in listed(made) if it.startswith(module)]
            if not known:
                stop(f"{crate} has no tests {module}")
            tests.update({it: made for it in known})
        lost = sorted({*names} - {*tests, PROGRAM})
        if lost:
            stop(f"no such test: {' '.join(lost)}")
        names = names or [*tests, PROGRAM]
    if PROGRAM in names:
        tests[PROGRAM] = built(PROGRAM, PROGRAM, ["run"])
    with tempfile.TemporaryDirectory(prefix="refuse-") as room:
        shim = built_shim(room)

        def tried(name: str) -> tuple[int, int, int] | str:
            try:
                return try_program(shim, tests[name]) if name == PROGRAM else try_test(shim, tests[name], name)
            except Wrong as wrong:
                return str(wrong)

        with ThreadPoolExecutor(len(os.sched_getaffinity(0))) as pool:
            given = list(pool.map(tried, names))
    failed, totals = 0, (0, 0, 0)
    for name, result in zip(names, given):
        words = name.rpartition("::")[2].replace("_", " ") if name != PROGRAM else name
        if isinstance(result, str):
            failed += 1
            print(f"{words}: WRONG: {result}")
            continue
        print(shown(words, *result))
        totals = (totals[0] + result[0], totals[1] + result[1], totals[2] + result[2])
    print("total: {} calls and lines, {} allocations, {} runs".format(*totals))
    print(f"{len(names) - failed} passed, {failed} failed")
    return 1 if failed else 0


if __name__ == "__main__":
    sys.exit(main(sys.argv[1:]))
