#!/usr/bin/env python3
"""Runs the fuzz targets of tests/fuzz over the C library: libFuzzer with AddressSanitizer and UndefinedBehaviorSanitizer.

tools/fuzz.py [--minutes N] [TARGET ..]   each target, at once, for N minutes (1 if no number is given), from the stored inputs
tools/fuzz.py --check                     each for five seconds: what `make test` runs
tools/fuzz.py --store                     stores a small set of the inputs with the same coverage, and every input that failed

TARGET is `arrow`, `calls` or `text`. The C code around the library and the test code are instrumented; the proved functions are linked
as they are. Inputs are stored in tests/fuzz/inputs/TARGET.zip; those that a run finds are kept in build/fuzz/TARGET-found/, and
an input that makes a target fail is written to build/fuzz/TARGET-failed/. SEL_BUILD names another folder than build/, with the library and
for these inputs. Prints the number of runs and the coverage of each target, and the seed.
"""

from __future__ import annotations

import argparse
import os
import pathlib
import random
import re
import shutil
import subprocess
import sys
import zipfile
from typing import Dict, List

ROOT = pathlib.Path(__file__).resolve().parent.parent
sys.dont_write_bytecode = True
sys.path.insert(0, str(ROOT / "tools"))

from commands import CHECKER, CLANG, INCLUDE, SANITIZED, WRAPPED, has, run_printing  # noqa: E402
from package import BUILD, SOURCES, archive  # noqa: E402

TESTS = ROOT / "tests"
INPUTS = TESTS / "fuzz" / "inputs"
FLAGS = ["-std=c11", "-g", "-O1", "-Wall", "-Wextra", "-Werror", *SANITIZED, "-fsanitize=fuzzer", *INCLUDE]
RANDOM = [TESTS / "random" / f"{name}.c" for name in ("draw", "generate", "model", "steps")]
# the sources of each target, and below the longest input of each in bytes
TARGETS: Dict[str, List[pathlib.Path]] = {
    "arrow": [TESTS / "fuzz" / "arrow.c", TESTS / "fuzz" / "producer.c", TESTS / "random" / "draw.c", TESTS / "memory.c", ROOT / "c" / "arrow_test_pieces.c"],
    "calls": [TESTS / "fuzz" / "calls.c", *RANDOM, *CHECKER],
    "text": [TESTS / "fuzz" / "text.c"],
}
# what the names of inputs that failed begin with
FAILED = ("crash-", "leak-", "oom-", "timeout-")
LONGEST = {"arrow": 1024, "calls": 4096, "text": 512}


def built(target: str, folder: pathlib.Path) -> pathlib.Path:
    """Compiles a target. Exits if that fails."""
    program = folder / target
    wrapped = WRAPPED if TESTS / "memory.c" in TARGETS[target] else []
    run_printing(*CLANG, *FLAGS, *TARGETS[target], *SOURCES, archive(), *wrapped, "-o", program)
    return program


def options(target: str, folder: pathlib.Path) -> List[str]:
    """Returns the options that every run of a target has."""
    words = [f"-max_len={LONGEST[target]}", f"-artifact_prefix={folder / (target + '-failed')}/", "-timeout=20", "-rss_limit_mb=2048",
             "-print_final_stats=1", "-verbosity=1"]
    words_of_target = TESTS / "fuzz" / f"{target}.dict"
    return [*words, f"-dict={words_of_target}"] if words_of_target.exists() else words


def unpacked(target: str, folder: pathlib.Path) -> pathlib.Path:
    """Unpacks the stored inputs of a target. Returns their folder."""
    place = folder / f"{target}-stored"
    shutil.rmtree(place, ignore_errors=True)
    place.mkdir()
    if (INPUTS / f"{target}.zip").exists():
        with zipfile.ZipFile(INPUTS / f"{target}.zip") as packed:
            packed.extractall(place)
    return place


def pack(target: str, stored: pathlib.Path, places: List[pathlib.Path]) -> int:
    """Stores the files of the folders, and those stored before that once failed. Returns how many there are."""
    files = {path.name: path.read_bytes() for path in stored.iterdir() if path.name.startswith(FAILED)}
    files.update((path.name, path.read_bytes()) for place in places for path in place.iterdir())
    INPUTS.mkdir(parents=True, exist_ok=True)
    with zipfile.ZipFile(INPUTS / f"{target}.zip", "w", zipfile.ZIP_DEFLATED) as packed:
        for name, data in sorted(files.items()):
            packed.writestr(zipfile.ZipInfo(name), data, zipfile.ZIP_DEFLATED)
    return len(files)


def log_of(target: str, folder: pathlib.Path) -> pathlib.Path:
    """Returns the file that the output of a target is written to."""
    return folder / f"{target}.log"


def start(target: str, folder: pathlib.Path, seconds: int, seed: int) -> "subprocess.Popen[bytes]":
    """Starts a target on the stored inputs and those of earlier runs."""
    found = folder / f"{target}-found"
    for place in (found, folder / f"{target}-failed"):
        place.mkdir(exist_ok=True)
    stored = unpacked(target, folder)
    if not any(stored.iterdir()):
        sys.exit(f"failed: {target} has no stored inputs; tools/fuzz.py --store {target} writes them")
    command = [str(built(target, folder)), f"-max_total_time={seconds}", f"-seed={seed}", *options(target, folder), str(found), str(stored)]
    env = {**os.environ, "ASAN_OPTIONS": "allocator_may_return_null=1:malloc_context_size=8"}
    # a file: a target would wait for a reader of a full pipe, while another one is read
    with log_of(target, folder).open("w") as log:
        return subprocess.Popen(command, env=env, stdout=log, stderr=subprocess.STDOUT)


def report(target: str, status: int, output: str) -> bool:
    """Prints what a target has done. Returns whether it found nothing."""
    runs = re.findall(r"stat::number_of_executed_units:\s*(\d+)", output)
    covered = re.findall(r"cov: (\d+) ft: (\d+) corp: (\d+)", output)
    if status != 0 or not runs:
        print("\n".join(output.splitlines()[-60:]))
        print(f"fuzz {target}: FAILED with status {status}")
        return False
    edges, features, inputs = covered[-1] if covered else ("0", "0", "0")
    print(f"fuzz {target}: {runs[-1]} runs, {edges} edges and {features} features covered by {inputs} inputs")
    return True


def run_all(targets: List[str], seconds: int) -> int:
    seed = random.SystemRandom().randrange(1, 2**31)
    folder = BUILD / "fuzz"
    folder.mkdir(parents=True, exist_ok=True)
    print(f"fuzz: {seconds} seconds each, seed {seed}", flush=True)
    running = {target: start(target, folder, seconds, seed) for target in targets}
    results = [report(target, process.wait(), log_of(target, folder).read_text(errors="replace")) for target, process in running.items()]
    return 0 if all(results) else 1


def store(targets: List[str]) -> int:
    """Merges what earlier runs found into the stored inputs, and keeps a small set with the same coverage, and what failed."""
    folder = BUILD / "fuzz"
    for target in targets:
        merged = folder / f"{target}-merged"
        shutil.rmtree(merged, ignore_errors=True)
        merged.mkdir()
        stored = unpacked(target, folder)
        command = [str(built(target, folder)), "-set_cover_merge=1", *options(target, folder), str(merged), str(stored), str(folder / f"{target}-found")]
        if subprocess.run(command, stdout=subprocess.DEVNULL, stderr=subprocess.DEVNULL, check=False).returncode != 0:
            sys.exit(f"failed: {' '.join(command)}")
        print(f"fuzz {target}: {pack(target, stored, [merged, folder / f'{target}-failed'])} inputs stored")
    return 0


def main() -> int:
    parser = argparse.ArgumentParser(description=__doc__, formatter_class=argparse.RawDescriptionHelpFormatter)
    parser.add_argument("--minutes", type=float, default=1)
    parser.add_argument("--check", action="store_true")
    parser.add_argument("--store", action="store_true")
    parser.add_argument("targets", nargs="*", metavar="TARGET", default=[])
    given = parser.parse_args()
    targets = given.targets or list(TARGETS)
    if any(target not in TARGETS for target in targets):
        parser.error(f"the targets are {', '.join(TARGETS)}")
    if not has("fuzzer"):
        print("not run: the fuzz targets, without clang and libFuzzer")
        return 0 if given.check else 1
    archive()  # exits if it is missing
    if given.store:
        return store(targets)
    return run_all(targets, 5 if given.check else round(60 * given.minutes))


if __name__ == "__main__":
    sys.exit(main())
