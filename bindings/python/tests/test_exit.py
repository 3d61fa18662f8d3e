"""What is alive when Python ends, and functions of Python that C calls."""

from __future__ import annotations

import subprocess
import sys
import threading
import unittest
from concurrent.futures import ThreadPoolExecutor

from sel._callbacks import Numbers

CODED = ("import pickle, sel, sys\n"
         "from sel._logical import coded_type\n"
         "from sel._makers import made_of\n"
         "coded = sel.Column._owning(made_of([0, 1], sel.Type('i32')), coded_type('i', sel.Column(['a', 'b'])))\n")


class AtExit(unittest.TestCase):
    def check(self, text: str) -> None:
        done = subprocess.run([sys.executable, "-c", CODED + text + "print('end')\n"], capture_output=True, text=True, check=False)
        self.assertEqual((done.returncode, done.stdout, done.stderr), (0, "end\n", ""))

    def test_a_dictionary_that_was_pickled(self) -> None:
        self.check("sys.kept = pickle.loads(pickle.dumps(coded))\n")
        self.check("class Cycle: pass\ncycle = Cycle()\ncycle.self, cycle.type = cycle, pickle.loads(pickle.dumps(coded.type))\nsys.kept = cycle\n")

    def test_capsules_and_streams(self) -> None:
        self.check("sys.kept = [coded.__arrow_c_array__(), coded.__arrow_c_schema__(), coded.__arrow_c_stream__()]\n")
        self.check("tables = sel.Stream(iter([sel.Table({'a': [1]})] * 3))\nsys.kept = iter(sel.Stream.from_arrow(tables))\nnext(sys.kept)\n")

    def test_a_stream_that_ends(self) -> None:
        """The capsule of a stream is not freed while the exception of its end passes, which ctypes would report."""
        self.check("for table in sel.Stream.from_arrow(sel.Stream(iter([sel.Table({'a': [1]})]))): pass\n")

    def test_streams_that_were_begun(self) -> None:
        self.check("sys.kept = sel.Stream(iter([sel.Table({'a': [1]})])).__arrow_c_stream__(), sel.Column.from_arrow(coded)\n")


class Counting(unittest.TestCase):
    def test_each_number_once(self) -> None:
        numbers, barrier = Numbers(), threading.Barrier(8)

        def use(_: int) -> list[int]:
            barrier.wait(60)
            return [numbers.next() for _ in range(2_000)]

        with ThreadPoolExecutor(8) as pool:
            found = [number for part in pool.map(use, range(8)) for number in part]
        self.assertEqual(sorted(found), list(range(1, 16_001)))


if __name__ == "__main__":
    unittest.main()
