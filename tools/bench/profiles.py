#!/usr/bin/env python3
"""Finds where the library's time goes in the cases that take longer than upstream's kernels or the best loop, by samples of `perf record` and
`perf annotate`.

tools/bench/profiles.py FOLDER [TIMES]   prints a table for docs/BENCHMARKS.md

FOLDER is as for tools/bench/upstream.py, TIMES a file with the output of a run of its program, as FOLDER/times is after tools/bench/upstream.py; without it the
program runs first. `perf` is Debian's `linux-perf`.
"""

from __future__ import annotations

import pathlib
import re
import subprocess
import sys
import tempfile
from typing import Dict, List, Set, Tuple

sys.dont_write_bytecode = True
sys.path.insert(0, str(pathlib.Path(__file__).resolve().parent.parent))

import upstream  # noqa: E402
from package import BUILD  # noqa: E402

# the rounds of a case by its number of rows, and those of the run that shows what only prepares it
ROUNDS, FEW_ROUNDS = {16384: 1000, 1048576: 15}, 1
# what compares the results of a case before it is timed
COMPARES = "sel_text::"
# the shares of the library's samples that are listed: at least this, and at most so many functions
LEAST_SHARE, MOST_LISTED = 0.1, 3
# the parts of the program that have the cases whose names begin so
GROUPS = {"filter": "filters", "take": "takes", "choose": "chooses"}


def symbols() -> Set[str]:
    """Returns the names of the functions in the libraries for C, of each processor that they are built for."""
    found = [subprocess.run(["nm", "--defined-only", library], stdout=subprocess.PIPE, stderr=subprocess.DEVNULL, text=True, check=True).stdout
             for library in sorted(BUILD.rglob("libsel.a"))]
    return {line.split()[-1] for shown in found for line in shown.splitlines() if len(line.split()) == 3}


def slow_cases(found: upstream.Times) -> List[Tuple[float, float, str]]:
    """Returns the cases above the ratio aimed at to upstream's kernel or to the best loop, with both ratios, by the first one, the worst first."""
    ratios = [(times["port"] / times["upstream"], times["port"] / upstream.loop(times), case) for case, times in found.items()]
    return sorted((each for each in ratios if max(each[:2]) > upstream.MOST_RATIO), reverse=True)


def hottest(data: str, symbol: str) -> str:
    """Returns the instruction of a function that has the most samples, and its share of the function's."""
    shown = subprocess.run(["perf", "annotate", "-i", data, "--stdio", "-s", symbol], stdout=subprocess.PIPE, stderr=subprocess.DEVNULL, text=True, check=False).stdout
    found = [(float(share), " ".join(text.split())) for share, text in re.findall(r"(?m)^ +([0-9.]+) +: +[0-9a-f]+: +(.+?)(?: *[#<].*)?$", shown)]
    share, text = max(found, default=(0.0, ""))
    return f" (`{text}` {share:.0f}%)" if text else ""


def samples(program: pathlib.Path, case: str, rounds: int, data: str) -> Dict[str, int]:
    """Returns the samples of each function, by its name in the program, while the case is repeated."""
    command = ["perf", "record", "-q", "-F", "5000", "-o", data, str(program), str(rounds), case, GROUPS.get(case.split()[0], "rest")]
    subprocess.run(command, stdout=subprocess.DEVNULL, stderr=subprocess.DEVNULL, check=True)
    shown = subprocess.run(["perf", "report", "-i", data, "--stdio", "--no-children", "--no-demangle", "-n", "--sort", "symbol"],
                           stdout=subprocess.PIPE, stderr=subprocess.DEVNULL, text=True, check=True).stdout
    return {name: int(count) for count, name in re.findall(r"(?m)^ +[0-9.]+% +([0-9]+) +\[[.k]\] (\S+)", shown)}


def profile(program: pathlib.Path, library: Set[str], case: str) -> str:
    """Returns the functions of the library that a case spends its time in, each with its share and its hottest instruction."""
    rows = int(case.rpartition("n=")[2].split()[0])
    with tempfile.TemporaryDirectory() as folder:
        before = samples(program, case, FEW_ROUNDS, f"{folder}/few")
        found = {name: count - before.get(name, 0) for name, count in samples(program, case, ROUNDS.get(rows, 15), f"{folder}/all").items()
                 if name in library and not name.startswith(COMPARES)}
        total = sum(count for count in found.values() if count > 0) or 1
        parts = sorted(((count / total, name) for name, count in found.items()), reverse=True)[:MOST_LISTED]
        return ", ".join(f"`{name.partition('::<')[0]}` {share:.0%}{hottest(f'{folder}/all', name)}" for share, name in parts if share >= LEAST_SHARE)


def section(folder: pathlib.Path, found: upstream.Times) -> List[str]:
    """Returns the lines of the table."""
    program, library = upstream.program(folder), symbols()
    lines = ["| case | to upstream | to the best loop | functions of the library, by their share of its samples, each with its hottest instruction |", "|---|---|---|---|"]
    return lines + [f"| {case} | {ratio:.2f} | {f'{to_loop:.2f}' if to_loop else '-'} | {profile(program, library, case)} |" for ratio, to_loop, case in slow_cases(found)]


def main() -> None:
    if len(sys.argv) not in (2, 3):
        sys.exit(__doc__)
    folder = pathlib.Path(sys.argv[1])
    found = upstream.read(pathlib.Path(sys.argv[2]).read_text()) if len(sys.argv) == 3 else upstream.measured(folder)
    print("\n".join(section(folder, found)))


if __name__ == "__main__":
    main()
