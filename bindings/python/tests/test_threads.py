"""Columns that several threads use at the same time, and the interpreter's lock, which calls release."""

from __future__ import annotations

import copy
import pickle
import subprocess
import sys
import threading
import unittest
from collections.abc import Callable
from concurrent.futures import ThreadPoolExecutor
from typing import Any

import sel
from cases import numpy
from sel import Column
from sel._arguments import picks_of

THREADS = 8
COUNT = 300
ROUNDS = 4

# Rows by their number.
KINDS: dict[str, Callable[[int], Any]] = {
    "i64": lambda number: None if number % 7 == 0 else number,
    "bool": lambda number: None if number % 5 == 0 else number % 3 == 0,
    "utf8": lambda number: None if number % 7 == 0 else f"{number:020}" if number % 2 else "short",
    "binary": lambda number: None if number % 7 == 0 else bytes(number % 9),
    "list<utf8>": lambda number: None if number % 7 == 0 else [f"{number:015}", None][: number % 3],
    "fixed<2,i8>": lambda number: None if number % 7 == 0 else [number % 100, None],
    "struct<i64,list<bool>>": lambda number: None if number % 7 == 0 else (number, [True, None]),
}


def on_threads(count: int, use: Callable[[int], Any]) -> list[Any]:
    """Returns what a function returns for each number, on threads that begin at the same time."""
    barrier = threading.Barrier(count)

    def run(number: int) -> Any:
        barrier.wait(60)
        return use(number)

    with ThreadPoolExecutor(count) as pool:
        return list(pool.map(run, range(count)))


def results(column: Column, mask: Column, indices: Column) -> list[Any]:
    """Returns the results of the kernels and reads on a column as Python values; most columns are freed in between."""
    found = [
        column.filter(mask), column.filter(sel.Selection(mask)), column.take(indices), column.sliced(3, 100).filter(mask.sliced(3, 100)), column[::-1], column.reverse(), column.unit_list(), column.drop_null(),
        sel.choose(mask, column, column[::-1]), sel.choose(mask, column, column), sel.concat([column, column, column.sliced(5, 20)]),
        sel.collect_rows([column, column], [(0, 1), None, (1, 5)]), column.share(), copy.copy(column), pickle.loads(pickle.dumps(column)), Column(column),
        Column.from_arrow(column), Column.parse(column.type, str(column)),
    ]
    return [*[each.to_pylist() for each in found], str(column), column.equals(found[-1]), column.null_count, len(column), column[11], column.valid(), str(column.type)]


FORKED = """
import os, pickle, signal, threading
import sel
from sel import Column, _arrow

class Structure:
    release = 1

    @classmethod
    def from_buffer_copy(cls, there):
        begun.set()
        ended.wait()
        return there

begun, ended = threading.Event(), threading.Event()
thread = threading.Thread(target=_arrow._moved, args=(Structure(),))
thread.start()
begun.wait()
child = os.fork()
if child == 0:
    signal.alarm(20)
    column = Column([1, None])
    for again in (Column.from_arrow(column), pickle.loads(pickle.dumps(column, 5)), pickle.loads(pickle.dumps(Column([0.5]).type)), sel.Table.from_arrow(sel.Stream([sel.Table({"a": column})]))["a"]):
        str(again)
    os._exit(0)
print(os.waitpid(child, 0)[1])
ended.set()
thread.join()
"""


class Forks(unittest.TestCase):
    def test_a_fork_while_another_thread_imports(self) -> None:
        """The thread is not in the child, which must not wait for a lock that it had."""
        done = subprocess.run([sys.executable, "-W", "ignore", "-c", FORKED], capture_output=True, text=True, check=False)
        self.assertEqual((done.returncode, done.stdout, done.stderr), (0, "0\n", ""))


class Threads(unittest.TestCase):
    def setUp(self) -> None:
        interval = sys.getswitchinterval()
        self.addCleanup(sys.setswitchinterval, interval)
        sys.setswitchinterval(1e-5)

    def test_columns_that_all_threads_use(self) -> None:
        mask = Column([None if number % 11 == 0 else number % 2 == 0 for number in range(COUNT)], "bool")
        indices = Column([None if number % 13 == 0 else number * 3 % COUNT for number in range(COUNT)], "u32")
        for kind, row in KINDS.items():
            column = Column([row(number) for number in range(COUNT)], kind)
            expected = results(column, mask, indices)
            for found in on_threads(THREADS, lambda number: [results(column, mask, indices) for _ in range(ROUNDS)]):
                self.assertEqual(found, [expected] * ROUNDS, kind)
            self.assertEqual(results(column, mask, indices), expected, kind)

    def test_a_column_of_which_threads_make_and_free_handles(self) -> None:
        rows = [f"{number:020}" for number in range(40)]
        column = Column(rows)

        def use(number: int) -> list[Any]:
            for _ in range(3_000):
                shares = [column.share(), column.sliced(number, 20)]
                shares.append(shares[1].sliced(1, 3))
                del shares[0]
            return shares[1].to_pylist()

        self.assertEqual(on_threads(THREADS, use), [rows[number + 1 : number + 4] for number in range(THREADS)])
        self.assertEqual(column.to_pylist(), rows)

    def test_columns_outlive_the_thread_that_made_them(self) -> None:
        columns = on_threads(THREADS, lambda number: Column([[number], None]))
        self.assertEqual([column.to_pylist() for column in columns], [[[number], None] for number in range(THREADS)])
        self.assertEqual(sel.concat(columns).filter([True, False] * THREADS).to_pylist(), [[number] for number in range(THREADS)])

    def test_columns_that_were_dropped_by_other_threads(self) -> None:
        """The last reference to a column is that of the thread that reads it."""
        columns = [Column([f"{number:030}" for number in range(1_000)]) for _ in range(400)]
        others: list[Any] = [*columns]

        def use(number: int) -> int:
            if number == 0:
                others.clear()
                return 0
            total = 0
            while True:
                try:
                    total += len(columns.pop().filter([True] * 1_000))
                except IndexError:
                    return total

        self.assertEqual(sum(on_threads(THREADS, use)), 400 * 1_000)

    def test_errors_are_those_of_the_own_thread(self) -> None:
        column = Column([1, 2])

        def use(number: int) -> list[type]:
            calls: list[Callable[[], Any]] = [lambda: column.take([number + 2]), lambda: column.filter([True]), lambda: Column.parse("i8", "[128]")]
            found = []
            for _ in range(100):
                for call in calls[number % 2 :]:
                    try:
                        call()
                    except sel.SelError as error:
                        found.append(type(error))
            return found

        kinds = [sel.OutOfBounds, sel.WrongArgument, sel.BrokenText]
        self.assertEqual(on_threads(THREADS, use), [kinds[number % 2 :] * 100 for number in range(THREADS)])


class Lock(unittest.TestCase):
    def is_released_by(self, use: Callable[[], Any], times: int) -> bool:
        """Returns whether another thread runs during one of some calls, while the interpreter does not switch threads by itself."""
        self.addCleanup(sys.setswitchinterval, sys.getswitchinterval())
        blocked, ran = threading.Lock(), threading.Event()
        blocked.acquire()

        def run() -> None:
            with blocked:
                ran.set()

        thread = threading.Thread(target=run)
        thread.start()
        sys.setswitchinterval(1_000)
        blocked.release()
        for _ in range(times):
            use()
            if ran.is_set():
                break
        is_released = ran.is_set()
        sys.setswitchinterval(1e-3)
        thread.join()
        return is_released

    def test_calls_release_the_lock(self) -> None:
        column = Column([True, None] * 500_000)
        calls: list[Callable[[], Any]] = [lambda: column.equals(column), lambda: column.filter(column), lambda: column.to_numpy() if numpy else column.valid()]
        for number, use in enumerate(calls):
            self.assertTrue(self.is_released_by(use, 1_000), number)

    def test_short_calls_keep_the_lock(self) -> None:
        column = Column([1, 2])
        self.assertFalse(self.is_released_by(lambda: (len(column), column._kind(), column.type), 20_000))

    def test_a_column_is_not_made_again(self) -> None:
        """A second `__init__` would free what another thread may be reading."""
        column: Any = Column([1, 2])
        initialize: Any = Column.__init__
        initialize(column, [3])
        self.assertEqual(column.to_pylist(), [1, 2])
        with self.assertRaises(TypeError):
            column.__new__(Column)

    @unittest.skipIf(numpy is None, "numpy is not installed: arrays are not tested")
    def test_picks_are_copied(self) -> None:
        """Another thread may write to the caller's array after the call has checked it."""
        for picks in (numpy.array([[0, 1], [0, 0]], dtype="uint32"), numpy.ma.array([[0, 1]], mask=[[False, True]], dtype="uint32")):
            numbers, _, _ = picks_of(picks, "picks")
            self.assertFalse(numpy.shares_memory(numbers.items, picks))
            self.assertEqual(numbers.items.tolist(), numpy.ma.getdata(picks).tolist())


if __name__ == "__main__":
    unittest.main()
