#!/usr/bin/env python3
"""Times a filter and a take of 8 columns on one thread and on four, with and without huge pages.

tools/bench/scaling.py                     prints the section of docs/BENCHMARKS.md
tools/bench/scaling.py OPERATION THREADS   prints the best time of all columns on so many threads, in ms: one process for each setting
"""

from __future__ import annotations

import os
import pathlib
import subprocess
import sys
import threading
import time
from typing import Dict, List

ROOT = pathlib.Path(__file__).resolve().parent.parent.parent
sys.dont_write_bytecode = True
sys.path.insert(0, str(ROOT / "tools"))

from package import BUILD  # noqa: E402

ROWS, COLUMNS, ROUNDS, THREADS = 2_000_000, 8, 25, 4
OPERATIONS = ("filter", "take")
# what malloc needs to keep freed blocks of any size, so that no page is new
KEPT = {"MALLOC_MMAP_THRESHOLD_": str(2**32), "MALLOC_TRIM_THRESHOLD_": str(2**33), "MALLOC_TOP_PAD_": str(2**28)}
SETTINGS: Dict[str, Dict[str, str]] = {
    "small pages (`SEL_HUGE_PAGES=0`)": {"SEL_HUGE_PAGES": "0"},
    "huge pages": {},
    "freed memory is kept (`MALLOC_MMAP_THRESHOLD_`, `MALLOC_TRIM_THRESHOLD_`)": KEPT,
}


def best_time(operation: str, threads: int) -> float:
    """Returns the best time of an operation on all columns, on so many threads that begin at once, in ms."""
    sys.path.insert(0, str(ROOT / "bindings" / "python"))
    import numpy
    import sel

    random = numpy.random.default_rng(1)
    columns = [sel.Column.from_numpy(random.integers(0, 2**60, ROWS, dtype=numpy.int64)) for _ in range(COLUMNS)]
    mask = sel.Column.from_numpy(random.random(ROWS) < 0.5)
    indices = sel.Column.from_numpy(random.integers(0, ROWS, ROWS, dtype=numpy.uint32))
    best = float("inf")
    for _ in range(ROUNDS):
        barrier = threading.Barrier(threads + 1)

        def run(first: int) -> None:
            barrier.wait()
            for column in columns[first::threads]:
                if operation == "filter":
                    column.filter(mask)
                else:
                    column.take(indices)

        workers = [threading.Thread(target=run, args=(first,)) for first in range(threads)]
        for worker in workers:
            worker.start()
        barrier.wait()
        start = time.perf_counter()
        for worker in workers:
            worker.join()
        best = min(best, 1000 * (time.perf_counter() - start))
    return best


def measured(operation: str, threads: int, setting: Dict[str, str]) -> float:
    """Returns the same of a process of its own, in which memory is set so."""
    env = {**os.environ, "SEL_LIBRARY": str(BUILD / "libsel.so"), **setting}
    ran = subprocess.run([sys.executable, __file__, operation, str(threads)], env=env, stdout=subprocess.PIPE, text=True, check=True)
    return float(ran.stdout)


def section() -> List[str]:
    """Returns the lines of the page."""
    text = ["## Threads and large columns", "", f"A filter of {COLUMNS} columns of {ROWS:,} random 64-bit integers by a random mask of which half is true, and a take of all their rows in random "
            f"order, called from Python, column by column: the best of {ROUNDS} rounds, in ms. With {THREADS} threads each has {COLUMNS // THREADS} of the columns. A result of this size is "
            "new memory in each call, and each page of it costs a fault, for which threads wait in turn: the library asks for huge pages.", "",
            f"| operation | memory | 1 thread | {THREADS} threads | speedup |", "|---|---|---|---|---|"]
    for operation in OPERATIONS:
        for name, setting in SETTINGS.items():
            one, several = measured(operation, 1, setting), measured(operation, THREADS, setting)
            text.append(f"| {operation} | {name} | {one:.1f} | {several:.1f} | {one / several:.2f} |")
    return [*text, ""]


def main() -> None:
    if len(sys.argv) == 3 and sys.argv[1] in OPERATIONS:
        print(best_time(sys.argv[1], int(sys.argv[2])))
    elif len(sys.argv) == 1:
        print("\n".join(section()))
    else:
        sys.exit(__doc__)


if __name__ == "__main__":
    main()
