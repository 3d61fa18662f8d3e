#!/usr/bin/env python3
"""Measures how much faster several threads filter columns than one: each filters the same 10 million rows several times.

    SEL_LIBRARY=build/libsel.so PYTHONPATH=bindings/python python3 bindings/python/bench/threads.py [THREADS]

On 4 idle processors, 4 threads should do at least 3 times the work of one in the same time. Not a part of `make test`: the
result depends on what else the machine does, and on its memory.
"""

from __future__ import annotations

import os
import sys
import threading
import time
from concurrent.futures import ThreadPoolExecutor

import sel

ROWS, ROUNDS, TRIALS = 10_000_000, 10, 5
PIECE = 10_000


def seconds(threads: int, column: sel.Column, mask: sel.Column) -> float:
    """Returns how long some threads take that filter the column, ROUNDS times each."""
    barrier = threading.Barrier(threads + 1)

    def work(number: int) -> int:
        barrier.wait()
        return sum(len(column.filter(mask)) for _ in range(ROUNDS))

    with ThreadPoolExecutor(threads) as pool:
        running = pool.map(work, range(threads))
        barrier.wait()
        begun = time.perf_counter()
        kept = list(running)
        ended = time.perf_counter()
    assert kept == [ROUNDS * len(column.filter(mask))] * threads
    return ended - begun


def main() -> None:
    most = int(sys.argv[1]) if sys.argv[1:] else 4
    # a fixed pattern of bits without a short period
    state, bits = 1, []
    for _ in range(PIECE):
        state = state * 6364136223846793005 + 1442695040888963407 & (1 << 64) - 1
        bits.append(state >> 63 == 1)
    repeats = ROWS // PIECE
    column, mask = sel.concat([sel.Column(range(PIECE))] * repeats), sel.concat([sel.Column(bits)] * repeats)
    print(f"{len(column)} rows of type {column.type}, of which {len(column.filter(mask))} stay; {ROUNDS} filters a thread; "
          f"{len(os.sched_getaffinity(0))} processors, load {os.getloadavg()[0]:.1f}")
    one = min(seconds(1, column, mask) for _ in range(TRIALS))
    several = min(seconds(most, column, mask) for _ in range(TRIALS))
    print(f"1 thread: {one / ROUNDS * 1000:.1f} ms a filter")
    print(f"{most} threads: {several / ROUNDS * 1000:.1f} ms for {most} filters, a speedup of {most * one / several:.2f}")


if __name__ == "__main__":
    main()
