#!/usr/bin/env python3
"""Compares calls of the C library on random nested columns with the plain model of tests/random.

tools/soak.py [--minutes N] [--seed N]   for N minutes (1 if no number is given), half of them with 8 threads that share columns
tools/soak.py --check                    100,000 calls alone and 100,000 with threads: what `make test` runs

A failure names the seed of its round; `build/soak --seed SEED --calls 1` runs that round again. Without --seed the seed is chosen by
chance, and printed. SEL_BUILD names another folder than build/, with the library and for the program.
"""

from __future__ import annotations

import argparse
import pathlib
import random
import subprocess
import sys
from typing import List

ROOT = pathlib.Path(__file__).resolve().parent.parent
TESTS = ROOT / "tests"
sys.dont_write_bytecode = True
sys.path.insert(0, str(ROOT / "tools"))

from commands import CC, CHECKER, INCLUDE, WARN, WRAPPED, run_printing  # noqa: E402
from package import BUILD, archive  # noqa: E402

FLAGS = ["-std=c11", "-g", "-O2", *WARN, *INCLUDE, "-pthread"]
CALLS = 100_000


def built() -> pathlib.Path:
    """Compiles the program. Exits if that fails."""
    program = BUILD / "soak"
    sources = [*sorted((TESTS / "random").glob("*.c")), *CHECKER]
    run_printing(*CC, *FLAGS, *sources, archive(), *WRAPPED, "-o", program)
    return program


def run(program: pathlib.Path, *words: str) -> bool:
    """Runs the program, and returns whether nothing failed."""
    return subprocess.run([str(program), *words], check=False).returncode == 0


def main() -> int:
    parser = argparse.ArgumentParser(description=__doc__, formatter_class=argparse.RawDescriptionHelpFormatter)
    parser.add_argument("--minutes", type=float, default=1)
    parser.add_argument("--seed", type=int, default=random.SystemRandom().randrange(1, 2**40))
    parser.add_argument("--check", action="store_true")
    given = parser.parse_args()
    program = built()
    limit: List[str] = ["--calls", str(CALLS)] if given.check else ["--seconds", str(round(30 * given.minutes))]
    seed = ["--seed", str(given.seed)]
    results = [run(program, *seed, *limit), run(program, *seed, *limit, "--threads", "8")]
    return 0 if all(results) else 1


if __name__ == "__main__":
    sys.exit(main())
