#!/usr/bin/env python3
"""Times the operations that the C library does not export: the Rattle program crates/bench_internals against the loops of words.c.

tools/bench/words.py        prints the table
tools/bench/words.py quick  compares the checksums that both print, and times nothing

Neither program has a clock. A time is the processor time of a whole process at many repeats, minus that at one repeat.
Uses the program that `rt ci` or `rt run` built. If it is missing or older than its sources, proves and builds it first.
"""

from __future__ import annotations

import os
import pathlib
import shutil
import statistics
import subprocess
import sys
import tempfile
from typing import Callable, Tuple

HERE = pathlib.Path(__file__).resolve().parent
ROOT = HERE.parent.parent
CRATE = ROOT / "crates" / "bench_internals"
FLAGS = ["-O3", "-march=native", "-std=gnu11", "-Wall", "-Wextra"]
SIZES = 2 ** 14, 2 ** 20
ROUNDS, SECONDS, MOST_REPEATS = 5, .3, 2 ** 30
sys.dont_write_bytecode = True
sys.path.insert(0, str(HERE.parent))

from commands import CC  # noqa: E402
from prover import crates_below, lines  # noqa: E402

# for each case: its title, its name in a line, its row, the first bits of the left and the right operand, and the loop's title and name
CASES = (
    ("`and`", "and", "bit", 0, 0, "words", "and"),
    ("`and`", "and", "bit", 3, 3, "words", "and"),
    ("`and`", "and", "bit", 3, 5, "words", "and"),
    ("`set_bits`", "set_bits", "bit", 0, 0, "words", "set_bits"),
    ("`set_bits`", "set_bits", "bit", 3, 0, "words", "set_bits"),
    ("`pext64_polyfill`, any mask", "pext", "word", 0, 0, "the instruction", "pext"),
    ("`pext64_polyfill`, any mask", "pext", "word", 0, 0, "bit by bit", "pext_bits"),
    ("`pext64_polyfill`, four bits", "pext_four", "word", 0, 0, "the instruction", "pext_four"),
    ("`pext64_polyfill`, four bits", "pext_four", "word", 0, 0, "bit by bit", "pext_four_bits"),
)


def program() -> pathlib.Path | None:
    """Returns the program if it is built and not older than its sources, else None."""
    uses = {crate: below for crate, (_, below) in lines().items()}
    made = CRATE / "out" / CRATE.name
    parts = [ROOT / "crates" / crate / part for crate in [CRATE.name, *crates_below(CRATE.name, uses)] for part in ("src", "specs", "proofs")]
    sources = [ROOT / "crates.txt", *(it for part in parts for it in part.rglob("*") if it.suffix in (".rt", ".antt"))]
    is_new = made.exists() and all(it.stat().st_mtime <= made.stat().st_mtime for it in sources)
    return made if is_new else None


def built() -> pathlib.Path | None:
    """Returns the program, proved and built first if necessary, or None if that fails."""
    if program() is None:
        print("proving and building crates/bench_internals first", file=sys.stderr)
        try:
            done = subprocess.run(["rt", "run"], cwd=CRATE, stdin=subprocess.DEVNULL, stdout=subprocess.DEVNULL, check=False)
        except OSError as error:
            print(f"not run: rt ({error})", file=sys.stderr)
            return None
        if done.returncode:
            return None
    return program()


def loops(folder: pathlib.Path) -> pathlib.Path:
    """Builds the loops. Returns their program."""
    made = folder / "words"
    subprocess.run([*CC, *FLAGS, HERE / "words.c", "-o", made], check=True)
    return made


def run(made: pathlib.Path, line: str) -> tuple[float, str]:
    """Runs a program on a line. Returns its seconds of processor time and its output."""
    child = subprocess.Popen([made], stdin=subprocess.PIPE, stdout=subprocess.PIPE, text=True)
    assert child.stdin and child.stdout
    child.stdin.write(f"{line}\n")
    child.stdin.close()
    said = child.stdout.read()
    child.stdout.close()
    _, status, used = os.wait4(child.pid, 0)
    child.returncode = os.WEXITSTATUS(status) if os.WIFEXITED(status) else -os.WTERMSIG(status)
    if child.returncode:
        raise SystemExit(f"{made.name} exited with status {child.returncode} at: {line}")
    return used.ru_utime + used.ru_stime, said.strip()


class Contender:
    """One of the two programs, for one operation."""

    def __init__(self, made: pathlib.Path, name: str, rows: int, left: int, right: int) -> None:
        self.made, self.rows, self.job = made, rows, f"{name} {rows} {left} {right}"
        self.repeats = 2
        self.long: list[float] = []
        self.short: list[float] = []

    def number(self, repeats: int) -> str:
        return run(self.made, f"{self.job} {repeats}")[1]

    def time(self, repeats: int) -> float:
        return run(self.made, f"{self.job} {repeats}")[0]

    def choose_repeats(self) -> None:
        """Chooses as many repeats as take about 0.3 seconds."""
        once = min(self.time(1), self.time(1))
        taken = self.time(self.repeats) - once
        while taken < SECONDS / 5 and self.repeats < MOST_REPEATS:
            self.repeats *= 4
            taken = self.time(self.repeats) - once
        self.repeats = max(2, min(MOST_REPEATS, int(self.repeats * SECONDS / max(taken, .001))))

    def take_turn(self) -> None:
        self.long.append(self.time(self.repeats))
        self.short.append(self.time(1))

    def ns(self, which: Callable[[list[float]], float]) -> float:
        """Returns the time per row in ns, by the best or the median times."""
        return (which(self.long) - which(self.short)) * 1e9 / (self.repeats - 1) / self.rows


# a case, its number of rows, and its two contenders
Row = Tuple[Tuple[str, str, str, int, int, str, str], int, Contender, Contender]


def compared(ours: pathlib.Path, theirs: pathlib.Path) -> list[Row]:
    """Returns each case at each size with its two contenders, after comparing their checksums."""
    found: list[Row] = []
    for rows in SIZES:
        for case in CASES:
            _, name, _, left, right, _, loop = case
            pair = Contender(ours, name, rows, left, right), Contender(theirs, loop, rows, left, right)
            numbers = [each.number(3) for each in pair]
            if numbers[1] == "no answer":
                print(f"not run: {loop}, for which this processor has no instruction", file=sys.stderr)
                continue
            if numbers[0] != numbers[1]:
                raise SystemExit(f"{pair[0].job} 3: the program prints {numbers[0]}, the loop {numbers[1]}")
            found.append((case, rows, *pair))
    return found


def measured(ours: pathlib.Path | None) -> list[Row] | None:
    """Returns each case at each size with its two contenders, timed in turn, or None without a program."""
    if ours is None:
        return None
    folder = pathlib.Path(tempfile.mkdtemp())
    try:
        found = compared(ours, loops(folder))
        for _, _, *pair in found:
            for each in pair:
                each.choose_repeats()
            for _ in range(ROUNDS):
                for each in pair:
                    each.take_turn()
        return found
    finally:
        shutil.rmtree(folder, ignore_errors=True)


def compare() -> None:
    """Compares the checksums, if the program is built."""
    ours = program()
    if ours is None:
        print("not run: crates/bench_internals, which is not built", file=sys.stderr)
        return
    folder = pathlib.Path(tempfile.mkdtemp())
    try:
        print(f"{len(compared(ours, loops(folder)))} checksums equal those of the loops")
    finally:
        shutil.rmtree(folder, ignore_errors=True)


def cell(each: Contender) -> str:
    return f"{each.ns(min):.3g} ({each.ns(statistics.median):.3g})"


def section(found: list[Row] | None) -> list[str]:
    """Returns the lines of the page."""
    text = ["## Words and bits", ""]
    if found is None:
        return [*text, "Not measured: the program `crates/bench_internals` was not built.", ""]
    text += ["The operations that the C library does not export are called by a program of their own, `crates/bench_internals`, proved and built for x86-64-v2; the loops are `tools/bench/words.c`, "
             f"compiled for this processor. Neither has a clock: a time is the processor time of the whole process at enough repeats to take about {SECONDS} seconds, minus that at one repeat, "
             f"divided by the difference in repeats, in ns per row: the best of {ROUNDS} rounds, and the median in parentheses. A row is a bit or a 64-bit word. "
             "Offsets are the positions of the first bits. Both programs printed the same checksums.", "",
             "| operation | row | rows | offsets | loop | sel | loop's time | to the loop |", "|---|---|---|---|---|---|---|---|"]
    for (title, name, row, left, right, loop, _), rows, ours, theirs in found:
        offsets = {"and": f"{left}, {right}", "set_bits": f"{left}"}.get(name, "-")
        text.append(f"| {title} | {row} | {rows:,} | {offsets} | {loop} | {cell(ours)} | {cell(theirs)} | {ours.ns(min) / theirs.ns(min):.2f} |")
    return [*text, ""]


def main() -> None:
    if sys.argv[1:] == ["quick"]:
        return compare()
    if sys.argv[1:]:
        sys.exit(__doc__)
    print("\n".join(section(measured(built()))))
    return None


if __name__ == "__main__":
    main()
