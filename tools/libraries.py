#!/usr/bin/env python3
"""Proves and builds the crates that the C library is made of, one after another on all processors, and prints how far it is.

tools/libraries.py --check    tests the report with a toolchain that only prints

The toolchain locks the libraries that a crate depends on while it proves the crate, so that two of them cannot be proved at once.
"""

from __future__ import annotations

import contextlib
import io
import os
import pathlib
import re
import shutil
import subprocess
import sys
import tempfile
import threading
import time

sys.dont_write_bytecode = True

from prover import crates_below, free_memory, lines  # noqa: E402
from verdicts import ROOT, TOP, crates, keep, sum_of, sum_of_built, sum_of_sources  # noqa: E402

# how long each crate takes from a clean build on the machine that docs/TESTING.md names; a build here keeps its own times in build/seconds
MEASURED = ROOT / "tools" / "seconds.txt"

# seconds between two reports, and what a crate takes of which nothing is known
EVERY, UNKNOWN = 30.0, 60.0
# with less free memory the toolchain chooses how many processes share a proof
MEMORY = 8_000_000_000


def seconds_of(path: pathlib.Path) -> dict[str, float]:
    """Returns the seconds by crate that a file has, a line each, and at least one."""
    found = (line.split() for line in (path.read_text() if path.exists() else "").split("\n") if line and not line.startswith("#"))
    return {name: max(float(seconds), 1.0) for name, seconds in found}


def in_words(seconds: float) -> str:
    return f"{seconds / 60:.0f} min" if seconds >= 90 else f"{seconds:.0f} s"


def jobs() -> list[str]:
    """Returns the option that lets a proof use all processors."""
    return ["--jobs", str(len(os.sched_getaffinity(0)))] if free_memory() > MEMORY else []


class Crate:
    """A crate that is being proved: since when, what the toolchain has printed, its verdict and the number of its functions."""

    def __init__(self, name: str) -> None:
        self.name, self.begun = name, time.monotonic()
        self.functions, self.verdict = 0, ""
        self.output: list[str] = []

    def note(self, line: str) -> None:
        """Reads the verdict, which the toolchain prints at the end of a proof; it does not say before how far it is."""
        self.output.append(line)
        if line.startswith("logic=proved "):
            self.verdict = line.strip()
            self.functions = int((re.findall(r"\bfunctions=(\d+)", line) or ["0"])[0])

    def seconds(self) -> float:
        return time.monotonic() - self.begun


class Build:
    """A build of the crates below `sel_c`, and of `sel_c` itself with these options of the toolchain. `rt` is the toolchain's command."""

    def __init__(self, options: list[str], rt: str = "rt", root: pathlib.Path = ROOT) -> None:
        self.names, self.options, self.rt, self.root, self.begun = crates(), options, rt, root, time.monotonic()
        self.times = root / "build" / "seconds"
        self.uses = {name: used for name, (_, used) in lines().items()}
        self.toolchain = subprocess.run([rt, "version"], capture_output=True, text=True, check=False).stdout if shutil.which(rt) else ""
        self.sums = {name: sum_of_sources(name, root) for name in self.names}
        self.expected = {name: UNKNOWN for name in self.names} | {**seconds_of(MEASURED), **seconds_of(self.times)}
        self.built = {name for name in self.names if self.is_built(name)}
        # how long the crates took that were proved in this run
        self.took: dict[str, float] = {}
        self.done = 0

    def left(self, running: float) -> float:
        """Returns about how many seconds are left, `running` after the crate in turn began, by how long the others took."""
        slower = sum(self.took.values()) / sum(self.expected[name] for name in self.took) if self.took else 1.0
        left = [slower * self.expected[name] for name in self.names[self.done :] if name not in self.built]
        return sum(left) - min(running, left[0]) if left else 0.0

    def say(self, text: str, running: float = 0.0) -> None:
        elapsed, left = int(time.monotonic() - self.begun), self.left(running)
        more = f"; about {in_words(left)} left" if left > 0 else ""
        print(f"[{elapsed // 60:3}:{elapsed % 60:02}, {self.done} of {len(self.names)} crates] {text}{more}", flush=True)

    def sum_of_all(self, name: str) -> str:
        """Returns a sum of the toolchain, and of the sources that a crate and those below it had when this build began."""
        needed = [*crates_below(name, self.uses), name]
        return sum_of("".join([self.toolchain, *(f"{it} {self.sums[it]}\n" for it in needed)]).encode())

    def is_built(self, name: str) -> bool:
        """Returns whether the library of a crate is the one that an earlier build here made of the present sources. The toolchain looks at this too,
        which takes longer: when it proves `sel_c`, it builds the libraries below that are not as it would build them."""
        out = self.root / "crates" / name / "out"
        kept, library = out / "built_from", out / "rlib" / f"{name}.rlib" / "format"
        return name != TOP and library.exists() and kept.exists() and kept.read_text() == f"{self.sum_of_all(name)} {sum_of_built(name, self.root)}\n"

    def report(self, crate: Crate, ended: threading.Event) -> None:
        """Says from time to time for how long the crate has been proved, until it has ended."""
        while not ended.wait(EVERY):
            self.say(f"{crate.name}: {in_words(crate.seconds())} of about {in_words(self.expected[crate.name])}", crate.seconds())

    def prove(self, crate: Crate) -> bool:
        """Runs the toolchain on a crate and keeps its verdict; returns whether it succeeded, and the sources are those of before."""
        folder = self.root / "crates" / crate.name
        # a crate that was proved before has little to prove, which one process does sooner; but `sel_c` calls all that changed
        is_new = crate.name == TOP or not (folder / "out" / "incremental").exists()
        words = [self.rt, "lib", *(jobs() if is_new else []), *(self.options if crate.name == TOP else [])]
        ended = threading.Event()
        reporter = threading.Thread(target=self.report, args=(crate, ended))
        reporter.start()
        try:
            with subprocess.Popen(words, cwd=folder, text=True, errors="replace", stdin=subprocess.DEVNULL,
                                  stdout=subprocess.PIPE, stderr=subprocess.STDOUT) as ran:
                for line in ran.stdout or ():
                    crate.note(line)
        finally:
            ended.set()
            reporter.join()
        return ran.returncode == 0 and self.note_proved(crate)

    def note_proved(self, crate: Crate) -> bool:
        """Keeps the verdict of a crate, and what it was built from; returns whether all sources are those of when this build began. If not, the
        toolchain may have read either."""
        changed = [name for name in self.names if sum_of_sources(name, self.root) != self.sums[name]]
        if not {crate.name, *crates_below(crate.name, self.uses)}.intersection(changed):
            if crate.verdict:
                keep(crate.name, crate.verdict, self.root)
            out = self.root / "crates" / crate.name / "out"
            (out / "built_from").write_text(f"{self.sum_of_all(crate.name)} {sum_of_built(crate.name, self.root)}\n")
        if changed:
            crate.output = [f"the sources of {', '.join(changed)} changed since this build began: build again\n"]
        return not changed

    def run(self) -> bool:
        """Builds all; returns whether that succeeded, and prints what the toolchain says of a crate that failed."""
        if not shutil.which(self.rt):
            sys.exit("the toolchain's command `rt` is not on the path: README.md says which toolchain is needed")
        for name in self.names:
            crate = Crate(name)
            if name not in self.built and not self.prove(crate):
                print("".join(crate.output[-60:]), end="", flush=True)
                return False
            self.done += 1
            if crate.functions:
                self.took[name] = crate.seconds()
            self.say(f"{name}: {f'{crate.functions} functions proved in {in_words(crate.seconds())}' if crate.functions else 'proved before'}")
        self.keep_times()
        return True

    def keep_times(self) -> None:
        self.times.parent.mkdir(exist_ok=True)
        found = seconds_of(self.times) | self.took
        self.times.write_text("".join(f"{name} {seconds:.0f}\n" for name, seconds in found.items()))


# A toolchain that proves each crate at once, but sel_bits, which it has proved before, and that fails in the crate that FAILS names. The
# sources of the crate that CHANGES names change while it is proved.
FAKE = """#!/bin/sh
[ "$1" = version ] && echo fake && exit 0
name=$(basename "$PWD")
echo "$@" > out/words
[ "$name" = "$CHANGES" ] && echo "changed meanwhile" > src/lib.rt
[ "$name" = "$FAILS" ] && echo "error: not proved" && exit 1
[ "$name" = sel_bits ] && exit 0
echo "fn $name::one: proved"
echo "logic=proved functions=2 sum=0123456789abcdef"
"""


def reported(folder: pathlib.Path, fails: str = "", changes: str = "") -> tuple[bool, list[str]]:
    """Returns what a build with the toolchain that only prints returns and prints, without times."""
    output = io.StringIO()
    os.environ |= {"FAILS": fails, "CHANGES": changes}
    with contextlib.redirect_stdout(output):
        done = Build(["--cpu", "x86-64-v3"], str(folder / "rt"), folder).run()
    return done, [re.sub(r"^\[ *\d+:\d\d, | in \d+ (s|min)(?=;|$)|; about \d+ (s|min) left$", "", line) for line in output.getvalue().splitlines()]


def words_of(folder: pathlib.Path) -> set[str]:
    """Returns the crates for which the toolchain was called since this was asked before."""
    found = [*folder.glob("crates/*/out/words")]
    for path in found:
        path.unlink()
    return {path.parent.parent.name for path in found}


def check_changes(folder: pathlib.Path, names: list[str], before: list[str]) -> None:
    """Checks which crates are proved again after a build, whose report is `before` if none is."""
    words_of(folder)
    if not reported(folder)[0] or words_of(folder) != {TOP}:
        sys.exit("failed: the toolchain is called for libraries that are built from the present sources")
    (folder / "crates" / names[-2] / "out" / "rlib" / f"{names[-2]}.rlib" / "format").write_text("another build")
    if not reported(folder)[0] or words_of(folder) != {names[-2], TOP}:
        sys.exit("failed: the toolchain is not called for a library that another command has built")
    source = folder / "crates" / names[2] / "src" / "lib.rt"
    source.parent.mkdir()
    source.write_text("changed")
    uses = {name: used for name, (_, used) in lines().items()}
    above = {names[2], *(name for name in names if names[2] in crates_below(name, uses))}
    if not reported(folder)[0] or words_of(folder) != above:
        sys.exit("failed: the toolchain is not called for a crate that was changed and for those above it")
    source.write_text("changed again")
    if reported(folder, fails=names[2]) != (False, [*before[:2], "error: not proved"]):
        sys.exit("failed: a build goes on after a crate that is not proved")
    changed = f"the sources of {names[2]} changed since this build began: build again"
    if reported(folder, changes=names[2]) != (False, [*before[:2], changed]):
        sys.exit("failed: a build goes on with a crate whose sources changed while it was proved")
    source.write_text("changed again")
    words_of(folder)
    if not reported(folder)[0] or words_of(folder) != above:
        sys.exit("failed: a crate whose sources changed while it was proved counts as built")


def check() -> int:
    names = crates()
    with tempfile.TemporaryDirectory() as made:
        folder = pathlib.Path(made)
        for name in names:
            built = folder / "crates" / name / "out" / ("libsel_c.a" if name == TOP else f"rlib/{name}.rlib/format")
            built.parent.mkdir(parents=True)
            built.write_text(name)
        (folder / "rt").write_text(FAKE)
        (folder / "rt").chmod(0o755)
        said = [f"{number} of {len(names)} crates] {name}: {'proved before' if name == 'sel_bits' else '2 functions proved'}" for number, name in enumerate(names, 1)]
        before = [line.replace("2 functions proved", "proved before") for line in said]
        found = reported(folder)
        if found != (True, said):
            sys.exit(f"failed: the report of a build is {found}")
        if {*seconds_of(folder / "build" / "seconds")} != {*names} - {"sel_bits"}:
            sys.exit("failed: build/seconds does not have the crates that were proved")
        kept = {name for name in names if (folder / "crates" / name / "out" / "verdict").exists()}
        if kept != {*names} - {"sel_bits"} or "--cpu x86-64-v3" not in (folder / "crates" / TOP / "out" / "words").read_text():
            sys.exit("failed: a verdict is not kept, or the options do not reach the toolchain")
        check_changes(folder, names, before)
    print(f"the report of a build of {len(names)} crates: ok")
    return 0


if __name__ == "__main__":
    if sys.argv[1:] != ["--check"]:
        sys.exit(__doc__)
    sys.exit(check())
