#!/usr/bin/env python3
"""Times imports, filters and exports of Arrow arrays whose memory is lent, beside the calls that copy, and filters over memory of the library.

tools/bench/lending.py          prints the section of docs/BENCHMARKS.md
tools/bench/lending.py --write  writes the section into the page, in place of the earlier one; the rest of the page stays as it is
tools/bench/lending.py quick    only checks that the filters over both give equal rows, with few rows and rounds
"""

from __future__ import annotations

import datetime
import os
import pathlib
import subprocess
import sys
import tempfile
from typing import Dict, List, Tuple

ROOT = pathlib.Path(__file__).resolve().parent.parent.parent
PAGE = ROOT / "docs" / "BENCHMARKS.md"
sys.dont_write_bytecode = True
sys.path.insert(0, str(ROOT / "tools"))

from commands import CC, INCLUDE  # noqa: E402
from package import archive  # noqa: E402

FLAGS = ["-std=c11", "-O2", "-Wall", "-Wextra"]
ROWS, LONGER, ROUNDS = 10_000_000, 1_000, 41
HEADING, NEXT_HEADING = "## Lent memory", "## Words and bits"
COLUMNS = (
    ("short", "{short:,} 64-bit integers"), ("integers", "{rows:,} 64-bit integers"), ("nulls", "the same, a tenth of them null"),
    ("views", "{tenth:,} strings of 100 bytes, views (`vu`)"), ("strings", "the same with 32-bit offsets (`u`)"), ("lists", "{tenth:,} lists of four 64-bit integers (`+L`)"),
)
# what the page aims at: microseconds for an import and an export of integers, and the ratio of the filters
MOST_MICROSECONDS, MOST_RATIO = 20.0, 1.02

# the best and the median time of each operation of a column, in ns
Times = Dict[str, Dict[str, Tuple[float, float]]]


def measured(rows: int = ROWS, longer: int = LONGER, rounds: int = ROUNDS) -> Times:
    """Builds and runs lending.c."""
    with tempfile.TemporaryDirectory() as folder:
        program = pathlib.Path(folder) / "lending"
        subprocess.run([*CC, *FLAGS, *INCLUDE, pathlib.Path(__file__).with_suffix(".c"), archive(), "-o", program], check=True)
        output = subprocess.run([program, str(rows), str(longer), str(rounds)], stdout=subprocess.PIPE, text=True, check=True).stdout
    found: Times = {}
    for line in output.splitlines():
        column, operation, best, median = line.split("|")
        found.setdefault(column, {})[operation] = float(best), float(median)
    return found


def check() -> None:
    """Compares the filters over lent memory with those over memory of the library, on few rows."""
    print(f"filters over lent memory give equal rows: {sum('filter owned' in times for times in measured(20_000, 10, 2).values())} columns")


def shown(times: Dict[str, Tuple[float, float]], operation: str) -> str:
    """Returns the best time and the median, in microseconds."""
    if operation not in times:
        return "-"
    best, median = (f"{each / 1000:,.2f}" if each < 100_000 else f"{each / 1000:,.0f}" for each in times[operation])
    return f"{best} ({median})"


def ratio(times: Dict[str, Tuple[float, float]]) -> float:
    """Returns the time of a filter over lent memory by that over memory of the library."""
    return times["filter lent"][0] / times["filter owned"][0]


def aims(found: Times) -> str:
    """Returns which aims are met."""
    flat = max(found[name]["both"][0] for name in ("short", "integers", "nulls")) / 1000
    ratios = [ratio(times) for times in found.values() if "filter owned" in times]
    return (f"- An import and an export of integers take at most {MOST_MICROSECONDS:.0f} µs, whatever their number: {flat:.2f} µs, "
            f"{'met' if flat <= MOST_MICROSECONDS else 'not met'}. Strings are validated as UTF-8, and offsets are checked, which takes time in proportion to the rows.\n"
            f"- A filter over lent memory takes at most {MOST_RATIO - 1:.0%} more than over memory of the library: {min(ratios):.2f} to {max(ratios):.2f} times as long, "
            f"met by {sum(each <= MOST_RATIO for each in ratios)} of {len(ratios)} columns.")


def section() -> List[str]:
    """Returns the lines of the page."""
    before = os.getloadavg()[0]
    found = measured()
    words = {"short": ROWS // LONGER, "rows": ROWS, "tenth": ROWS // 10}
    text = [HEADING, "", "An array of another library is imported, filtered by a random mask of which 1 percent is true, and exported, without a copy of its buffers. `import` includes the free of the "
            "column, `export` the release of the array; `both` is an import, an export, a release and a free. The filter is timed over the imported column and over a column with memory of the "
            "library; both memories ask for huge pages. `make` copies the values into a column and frees it, `read` copies them out. Times are processor times in µs: the best of "
            f"{ROUNDS} rounds, in which the operations take turns, and the median in parentheses. `tools/bench/lending.py` runs this section alone.", "",
            f"{datetime.date.today().isoformat()}; reported load of the machine (1 is this process): {before:.1f} before, {os.getloadavg()[0]:.1f} after, on {os.cpu_count()} cores. The aims:", "",
            aims(found), "",
            "| column | import | export | both | filter, lent | filter, owned | lent to owned | make | read |", "|---|---|---|---|---|---|---|---|---|"]
    for name, title in COLUMNS:
        times = found[name]
        cells = [title.format(**words), *(shown(times, each) for each in ("import", "export", "both", "filter lent", "filter owned")),
                 f"{ratio(times):.2f}" if "filter owned" in times else "-", shown(times, "make"), shown(times, "read")]
        text.append(f"| {' | '.join(cells)} |")
    return [*text, ""]


def with_section(page: str, lines: List[str]) -> str:
    """Returns the page with the section, in place of the earlier one, or else before the section on words."""
    before, found, rest = page.partition(f"{HEADING}\n")
    if not found:
        before, _, rest = page.partition(f"{NEXT_HEADING}\n")
        return before + "\n".join(lines) + f"\n{NEXT_HEADING}\n{rest}"
    return before + "\n".join(lines) + "\n" + rest[rest.index("## ") :]


def main() -> None:
    asked = sys.argv[1:]
    if asked not in ([], ["--write"], ["quick"]):
        sys.exit(__doc__)
    archive()  # exits if it is missing
    if asked == ["quick"]:
        return check()
    os.sched_setaffinity(0, {max(os.sched_getaffinity(0))})
    lines = section()
    if asked:
        PAGE.write_text(with_section(PAGE.read_text(), lines))
    else:
        print("\n".join(lines))


if __name__ == "__main__":
    main()
