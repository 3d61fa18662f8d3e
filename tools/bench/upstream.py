#!/usr/bin/env python3
"""Times the kernels beside upstream's own, by a program that is not part of this repository.

    tools/bench/upstream.py FOLDER [NEWER]          prints the section of docs/BENCHMARKS.md
    tools/bench/upstream.py FOLDER [NEWER] --write  writes it into the page, in place of the earlier one; the rest of the page stays as it is

Each folder keeps what its program has printed in `times`, from which tools/bench/profiles.py takes the cases to look at.

FOLDER has the program built for x86-64-v2, as the library is; NEWER, if given, built for x86-64-v3 with the library that `make lib CPU=x86-64-v3`
makes. The program is FOLDER/sides or FOLDER/target/release/sides. It makes each result with the C library, filters by a prepared mask, and with upstream's kernels, both built for the
same processors, compares them, times each contender after three untimed calls, and prints a line for each contender of a case, with tabs between: the case, the
rows, the contender (`port`, which is this library, `upstream`, `plain` and `tuned` loops, `memcpy` of the same bytes), the best and the median
time in ns per row.
"""

from __future__ import annotations

import datetime
import os
import pathlib
import re
import statistics
import subprocess
import sys
from typing import Dict, List, NamedTuple, Optional

ROOT = pathlib.Path(__file__).resolve().parent.parent.parent
PAGE = ROOT / "docs" / "BENCHMARKS.md"
HEADING, NEXT_HEADING = "## Beside upstream's kernels", "## Summary"
# the rounds of each case, and how many more a case has that took longer than aimed at
ROUNDS, MORE_ROUNDS = "9", "18"
# what the page aims at
MOST_RATIO = 1.1

# the best time of each contender of a case, in ns per row
Times = Dict[str, Dict[str, float]]


class Kernel(NamedTuple):
    """The cases of a kernel: those of all densities, offsets and numbers of rows."""

    name: str
    times: List[Dict[str, float]]


def program(folder: pathlib.Path) -> pathlib.Path:
    for path in (folder / "sides", folder / "target" / "release" / "sides"):
        if path.exists():
            return path
    sys.exit(f"{folder} has no program `sides`")


def read(output: str) -> Times:
    """Returns the least times of the cases that both this library and upstream have."""
    found: Times = {}
    for line in output.splitlines():
        parts = line.split("\t")
        if len(parts) == 5:
            times = found.setdefault(parts[0], {})
            times[parts[2]] = min(times.get(parts[2], float("inf")), float(parts[3]))
    return {case: times for case, times in found.items() if times.get("port", 0) > 0 and times.get("upstream", 0) > 0}


def kernel_of(case: str) -> str:
    """Returns the name of a case without its density, offsets and number of rows."""
    return re.sub(r" (random|runs)? ?d=[0-9.]+| o=[0-9,]+| n=\d+| \(\d\)", "", case)


def kernels(found: Times) -> List[Kernel]:
    """Returns the cases by kernel, in the order of the program."""
    by_name: Dict[str, List[Dict[str, float]]] = {}
    for case, times in found.items():
        by_name.setdefault(kernel_of(case), []).append(times)
    return [Kernel(name, times) for name, times in by_name.items()]


def loop(times: Dict[str, float]) -> float:
    """Returns the best time of a loop, or infinity."""
    return min(times.get("plain", float("inf")), times.get("tuned", float("inf")))


def ratios(kernel: Kernel, peer: str) -> str:
    """Returns the least, the median and the greatest ratio of this library's time to the peer's."""
    peers = [loop(times) if peer == "loop" else times.get(peer, float("inf")) for times in kernel.times]
    found = sorted(times["port"] / each for times, each in zip(kernel.times, peers) if 0 < each < float("inf"))
    return f"{found[0]:.2f} to {found[-1]:.2f} ({statistics.median(found):.2f})" if found else "-"


def row(kernel: Kernel, newer: Dict[str, Kernel]) -> str:
    cells = [kernel.name, str(len(kernel.times)), *(ratios(kernel, peer) for peer in ("upstream", "loop", "memcpy"))]
    if newer:
        cells.append(ratios(newer[kernel.name], "upstream") if kernel.name in newer else "-")
    return f"| {' | '.join(cells)} |"


def behind_loop(found: Times) -> int:
    """Returns the number of cases that take longer than aimed at beside the best loop."""
    return sum(times["port"] > MOST_RATIO * loop(times) for times in found.values())


def slower(found: Times) -> List[str]:
    """Returns the table of the cases that take longer than aimed at, the worst first."""
    worst = sorted(((times["port"] / times["upstream"], case) for case, times in found.items() if times["port"] > MOST_RATIO * times["upstream"]), reverse=True)
    lines = [f"{len(worst)} of {len(found)} cases take more than {MOST_RATIO} times as long as upstream's kernel, and {behind_loop(found)} as the best loop, which [Profiles](#profiles) lists too:", "",
             "| case | this library | upstream | best loop | copy | library to upstream |", "|---|---|---|---|---|---|"]
    for ratio, case in worst:
        times = found[case]
        cells = [f"{each:.3f}" if 0 < each < float("inf") else "-" for each in (times["port"], times["upstream"], loop(times), times.get("memcpy", 0.0))]
        lines.append(f"| {case} | {' | '.join(cells)} | {ratio:.2f} |")
    return lines


def measured(folder: pathlib.Path) -> Times:
    """Runs the program of a folder, the slower cases again, and keeps its output there."""
    output = run(folder, ROUNDS)
    for case, times in read(output).items():
        if times["port"] > MOST_RATIO * times["upstream"]:
            output += run(folder, MORE_ROUNDS, case)
    (folder / "times").write_text(output)
    return read(output)


def run(folder: pathlib.Path, *words: str) -> str:
    """Returns what the program of a folder prints with these arguments."""
    return subprocess.run([program(folder), *words], stdout=subprocess.PIPE, text=True, check=True).stdout


def section(folder: pathlib.Path, newer: Optional[pathlib.Path] = None) -> List[str]:
    """Runs the programs, and returns the lines of the page."""
    before = os.getloadavg()[0]
    found = measured(folder)
    others = measured(newer) if newer else {}
    by_name = {kernel.name: kernel for kernel in kernels(others)}
    slow = sum(times["port"] > MOST_RATIO * times["upstream"] for times in others.values())
    both = [f"Built for x86-64-v3, {slow} and {behind_loop(others)} of {len(others)} cases do; the last column of the table above has the ratios to upstream's kernels.", ""] if newer else []
    return [HEADING, "", "The program that calls upstream's kernels is not part of this repository: `make bench UPSTREAM=folder` runs it from there (`tools/bench/upstream.py` says what it has to print).", "",
            "The time of this library by that of upstream's kernel, of the best loop in safe Rust (plain or tuned by hand) and of a copy of the same bytes: the least and the greatest ratio of a "
            "kernel's cases, and the median in parentheses. All are built for the same processors (x86-64-v2) and run in one process, in turn in each round, each after three "
            f"untimed calls, since this library's values are not in the memory that the other contenders share; the best of {ROUNDS} rounds counts. A case above {MOST_RATIO} of upstream's time is run again for {MORE_ROUNDS} rounds, since other work on the machine may have slowed it: the best of all rounds counts, for each contender. Filters take a mask that is prepared "
            "(`sel_filter_selection`), since a mask of upstream keeps the number of its true bits after the first call. `d` is the share of rows that a mask keeps, `o` the offsets of the slices, `n` the rows.", "",
            f"{datetime.date.today().isoformat()}; reported load of the machine (1 is this process): {before:.1f} before, {os.getloadavg()[0]:.1f} after, on {os.cpu_count()} cores.", "",
            f"| kernel | cases | to upstream | to the best loop | to the copy |{' to upstream, x86-64-v3 |' if newer else ''}", f"|---|---|---|---|---|{'---|' if newer else ''}",
            *(row(each, by_name) for each in kernels(found)), "", *slower(found), "", *both]


def earlier(page: str) -> List[str]:
    """Returns the section that the page has, if any."""
    _, found, rest = page.partition(f"{HEADING}\n")
    return [HEADING, *rest[: rest.index("\n## ")].split("\n")] if found else []


def with_section(page: str, lines: List[str]) -> str:
    """Returns the page with the section before the summary, in place of the earlier one."""
    old = "\n".join(earlier(page))
    return page.replace(old, "\n".join(lines)) if old else page.replace(f"{NEXT_HEADING}\n", "\n".join(lines) + f"\n{NEXT_HEADING}\n", 1)


def main() -> None:
    write, folders = sys.argv[-1] == "--write", [pathlib.Path(each) for each in sys.argv[1:] if each != "--write"]
    if len(folders) not in (1, 2):
        sys.exit(__doc__)
    if hasattr(os, "sched_setaffinity"):
        os.sched_setaffinity(0, {max(os.sched_getaffinity(0))})
    lines = section(*folders)
    if write:
        PAGE.write_text(with_section(PAGE.read_text(), lines))
    else:
        print("\n".join(lines))


if __name__ == "__main__":
    main()
