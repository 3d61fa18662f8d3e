#!/usr/bin/env python3
"""Times filters of wide tables, with and without a prepared mask, and counts the allocations of calls.

tools/bench/tables.py   prints the sections of docs/BENCHMARKS.md
"""

from __future__ import annotations

import pathlib
import subprocess
import sys
import tempfile
from typing import List

HERE = pathlib.Path(__file__).resolve().parent
ROOT = HERE.parent.parent
FLAGS = ["-std=c11", "-O2", "-Wall", "-Wextra"]
sys.dont_write_bytecode = True
sys.path.insert(0, str(ROOT / "tools"))

from commands import CC, INCLUDE, WRAPPED  # noqa: E402
from package import archive  # noqa: E402


def lines_of(source: str, *flags: str) -> List[List[str]]:
    """Builds a program with the library for C, runs it, and returns the fields of each line that it prints."""
    with tempfile.TemporaryDirectory() as folder:
        made = pathlib.Path(folder) / "program"
        subprocess.run([*CC, *FLAGS, *INCLUDE, HERE / source, archive(), *flags, "-o", made], check=True)
        return [line.split("|") for line in subprocess.run([made], stdout=subprocess.PIPE, text=True, check=True).stdout.splitlines()]


def of_tables() -> List[str]:
    """Returns the section on wide tables."""
    text = ["## Wide tables", "", "A filter of 1,000 columns of 64-bit integers by one mask, from C: the best time of a column in ns, with the result's memory and the free of the "
            "one before. `sel_filter` is called with the mask for each column; `sel_filter_selection` with a selection that is prepared once, which the time includes.", "",
            "| rows | kept | mask with nulls | `sel_filter` | `sel_filter_selection` |", "|---|---|---|---|---|"]
    for rows, kept, has_nulls, by_mask, by_selection in lines_of("tables.c"):
        text.append(f"| {int(rows):,} | {kept} % | {has_nulls} | {by_mask} | {by_selection} |")
    return [*text, ""]


def of_memory() -> List[str]:
    """Returns the section on allocations."""
    text = ["## Memory", "", "Calls on 100,000 rows with half of them kept, or as many random indices; lists have four items. The allocations of a call include two for the handle "
            "of the result and its shared column. The last column is the most memory in use during the call, by that of the result.", "",
            "In the result a level of lists takes three: the offsets with the validity behind them, the count of their owners, and the box of the child. A level of fixed-size lists takes the "
            "box, one of structs the list of the fields, and either two more for a validity. A level of integers takes two for the values, and two more for a validity; one of binary has two for each of its "
            "buffers. What else a call allocates, such as a list of runs, is freed before it returns.", "",
            "| call | type | levels | allocations | bytes of the result | most by the result |", "|---|---|---|---|---|---|"]
    for call, name, levels, made, size, most in lines_of("memory.c", *WRAPPED):
        text.append(f"| {call} | `{name}` | {levels} | {made} | {int(size):,} | {int(most) / max(int(size), 1):.2f} |")
    return [*text, ""]


def section() -> List[str]:
    """Returns the lines of the page."""
    return [*of_tables(), *of_memory()]


if __name__ == "__main__":
    print("\n".join(section()))
