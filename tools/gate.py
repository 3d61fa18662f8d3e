#!/usr/bin/env python3
"""Runs the checks of the repository, and prints a table of their results and the line `N passed, M failed`.

tools/gate.py         every check: what `make test` runs. Proofs that `rt ci` has kept from an earlier run count
tools/gate.py anew    the same as a clean build, to measure the time: what `make test ANEW=1` runs
tools/gate.py check   proves what has changed over cached proofs and runs the fast checks: what `make check` runs
tools/gate.py setup   installs the optional programs and libraries that the checks use: what `make setup` runs. Exits with status 1 if one is missing then

Optional programs and libraries that are missing are installed while the first crates are proved, which need none of them. Checks that need
only some of the proved libraries run while `rt ci` runs, as soon as those are proved, at a lower priority. (The C library is built at the same
priority as the proofs, since its checks and those of the bindings wait for it.) The others run after `rt ci`. The table lists what a check leaves
out because an optional dependency is missing. A check that takes more than two hours is ended, and has failed; proofs may take as long as they need.
"""

from __future__ import annotations

import contextlib
import dataclasses
import os
import pathlib
import re
import shutil
import signal
import subprocess
import sys
import threading
import time
from collections.abc import Iterator
from concurrent.futures import Future, ThreadPoolExecutor
from types import FrameType
from typing import Any

ROOT = pathlib.Path(__file__).resolve().parent.parent
sys.dont_write_bytecode = True
sys.path.insert(0, str(ROOT / "tools"))

import verdicts  # noqa: E402
from prover import crates_below, free_memory, lines  # noqa: E402

BEGUN = time.monotonic()

# the optional programs and libraries, and what they are used for
SETUP = {
    "valgrind": "finds reads and writes outside of a buffer, and leaks, in the C library",
    "sanitizers": "find the same, and undefined behaviour, in the C code around the library",
    "tsan": "finds unsynchronized accesses of several threads in the C code around the library",
    "fuzzer": "looks for inputs that make the C code around the library fail",
    "c++": "compiles the headers as C++",
    "numpy": "computes the results that the benchmark compares with",
    "mypy": "checks the types of the Python package",
    "dask": "runs the example on partitions",
    "venv": "installs the Python wheel in a virtual environment",
    "cargo": "builds and tests the Rust package",
    "pkg-config": "finds the packed C library for the examples",
    "gdal": "produces Arrow streams that the C library reads",
    "cmake": "finds it too, for projects that use CMake",
}

# the number of checks of mutants that run at once while the proofs run; afterwards each processor runs one
AT_ONCE = 2
# the most mutants of one check, which uses one processor; each check also proves the lemmas and the functions that its functions use
MUTANTS_OF_CHECK = 60
# the free memory for each processor with which as many proofs run as there are processors, in bytes; a proof takes 1 to 4 GB
MEMORY = 4_000_000_000
# the number of checks of the C library that run at once while the proofs run; afterwards as many as there are processors
LIBRARY_AT_ONCE = 2
# the seconds after which a check is ended: a test with threads may wait for ever
LIMIT = 2 * 3600.0
# the seconds that the commands have to end after an interrupt
GRACE = 5.0


@dataclasses.dataclass
class Result:
    """The result of a check: whether it passed, the time and the processor time that it took, in seconds, and what it left out, or that it was ended."""

    name: str
    passed: bool
    seconds: float
    processor: float
    remarks: list[str]


class Board:
    """The results so far. Prints a line whenever a check begins or ends."""

    def __init__(self, total: int) -> None:
        self.results: list[Result] = []
        self.total, self.lock = total, threading.Lock()

    def say(self, text: str) -> None:
        elapsed = int(time.monotonic() - BEGUN)
        with self.lock:
            done = len(self.results)
            print(f"[{elapsed // 60:3}:{elapsed % 60:02}, {done} of {self.total} done] {text}", flush=True)

    def add(self, result: Result) -> None:
        with self.lock:
            self.results.append(result)
        self.say(f"{result.name}: {'passed' if result.passed else 'FAILED'} in {result.seconds:.0f} s")

    def table(self) -> bool:
        """Prints the table; returns whether every check passed."""
        width = max(len(result.name) for result in self.results)
        print(f"\n{'check':{width}}  result  seconds  processor  remarks")
        for result in self.results:
            times = f"{result.seconds:7.0f}  {result.processor:9.0f}"
            print(f"{result.name:{width}}  {'passed' if result.passed else 'FAILED'}  {times}  {'; '.join(result.remarks)}")
        failed = sum(not result.passed for result in self.results)
        elapsed = int(time.monotonic() - BEGUN)
        spent = os.times()
        processor = int(spent.user + spent.system + spent.children_user + spent.children_system)
        print(f"elapsed {elapsed // 60} min {elapsed % 60} s, processor time {processor // 60} min {processor % 60} s")
        print(f"{len(self.results) - failed} passed, {failed} failed")
        return failed == 0 and len(self.results) == self.total


# Starts a command in a process group of its own. In a session of its own, which is what there is before Python 3.11, it would have the same
# share of the processors as every other session, whatever its niceness (sched_autogroup_enabled of Linux).
GROUP: dict[str, Any] = {"process_group": 0} if sys.version_info >= (3, 11) else {"start_new_session": True}


class Children:
    """The commands that run. Each has a process group of its own, so that it can be ended with all that it has started."""

    def __init__(self) -> None:
        self.running: set[subprocess.Popen[str]] = set()
        self.is_interrupted = False
        # reentrant, since the main thread may hold it when a signal comes
        self.lock = threading.RLock()

    @contextlib.contextmanager
    def started(self, command: list[str], limit: float | None, env: dict[str, str] | None = None) -> Iterator[subprocess.Popen[str]]:
        """Starts a command, and waits for it at the end; kills it if that takes longer than the limit. Starts none after an interrupt."""
        with self.lock:
            if self.is_interrupted:
                sys.exit(1)
            ran = subprocess.Popen(command, cwd=ROOT, env=env, text=True, errors="replace", stdin=subprocess.DEVNULL,
                                   stdout=subprocess.PIPE, stderr=subprocess.STDOUT, **GROUP)
            self.running.add(ran)
        timer = threading.Timer(limit or 0.0, send, (ran, signal.SIGKILL))
        try:
            if limit is not None:
                timer.start()
            with ran:
                yield ran
        finally:
            timer.cancel()
            self.running.discard(ran)
            if self.is_interrupted:
                # what the command has left behind
                send(ran, signal.SIGKILL)

    def send_all(self, number: int) -> None:
        for ran in list(self.running):
            send(ran, number)

    def interrupt(self, number: int, _frame: FrameType | None) -> None:
        """Passes a signal on to all commands, which a terminal does not send it to, and ends the program. Kills those that do not end soon."""
        with self.lock:
            self.is_interrupted = True
        self.send_all(number)
        kill = threading.Timer(GRACE, self.send_all, (signal.SIGKILL,))
        kill.daemon = True
        kill.start()
        sys.exit(128 + number)

    def catch_signals(self) -> None:
        for number in (signal.SIGINT, signal.SIGTERM, signal.SIGHUP):
            # (`nohup` has one ignored)
            if signal.getsignal(number) != signal.SIG_IGN:
                signal.signal(number, self.interrupt)


CHILDREN = Children()


def send(ran: subprocess.Popen[str], number: int) -> None:
    """Sends a signal to a command and to all that it has started."""
    with contextlib.suppress(ProcessLookupError):
        os.killpg(ran.pid, number)


def ended(ran: subprocess.Popen[str]) -> tuple[int, float]:
    """Waits for a process; returns its exit status and the processor time of it and of the processes that it waited for."""
    _, status, usage = os.wait4(ran.pid, 0)
    ran.returncode = os.waitstatus_to_exitcode(status)
    return ran.returncode, usage.ru_utime + usage.ru_stime


def keeps_proofs() -> bool:
    """Returns whether this toolchain's `rt ci` keeps proofs between runs. Others prove everything in every run, and have no `--anew`."""
    return "--anew" in subprocess.run(["rt", "help"], capture_output=True, text=True, check=False).stderr


def environment() -> dict[str, str]:
    """Returns the environment of `rt ci`.

    Two processes that prove one crate take more processor time than one. `rt ci` starts a second where a processor is idle, but not if it is
    given a number of processes, which it then starts whether or not the memory suffices. On fewer than four processors the first crates,
    for which all others wait, would take too long.
    """
    processors = len(os.sched_getaffinity(0))
    is_fixed = processors >= 4 and free_memory() >= MEMORY * processors
    return {**({"RT_JOBS": str(processors)} if is_fixed else {}), **os.environ}


class Proofs:
    """A run of `rt ci`: the crates that it has proved so far, and its exit status."""

    def __init__(self, board: Board, anew: bool) -> None:
        self.board, self.changed = board, threading.Condition()
        self.command = ["rt", "ci", *(["--anew"] if anew and keeps_proofs() else [])]
        self.proved: set[str] = set()
        self.status: int | None = None
        # what the verdicts are about, if nothing changes meanwhile
        self.sources = verdicts.sum_of_all()

    def run(self) -> None:
        """Runs `rt ci`, prints its output, and notes the crates that it reports as proved."""
        begun, total = time.monotonic(), len(lines())
        status, processor, verdict = 1, 0.0, ""
        try:
            # otherwise libraries that other commands built would replace those that `rt ci` builds
            for kept in (ROOT / "crates").glob("*/out/rlib"):
                shutil.rmtree(kept)
            with CHILDREN.started(self.command, None, environment()) as ran:
                for line in ran.stdout or ():
                    print(line, end="", flush=True)
                    verdict = line.strip() if line.startswith("logic=proved ") else verdict
                    found = re.fullmatch(r"rt: (\w+) (?:(proved)|is kept: .*)\n", line)
                    if found and found[2] and found[1] in verdicts.crates()[:-1]:
                        verdicts.keep(found[1], verdict)
                    if found:
                        self.note(found[1], total)
                status, processor = ended(ran)
        finally:
            self.board.add(Result("proofs", status == 0, time.monotonic() - begun, processor, []))
            with self.changed:
                self.status = status
                self.changed.notify_all()

    def note(self, crate: str, total: int) -> None:
        with self.changed:
            self.proved.add(crate)
            count = len(self.proved)
            self.changed.notify_all()
        self.board.say(f"proofs: {crate}, {count} of {total} crates")

    def wait_for(self, crates: list[str]) -> bool:
        """Waits until these crates are proved; returns False if the run has failed."""
        with self.changed:
            self.changed.wait_for(lambda: self.status is not None or self.proved.issuperset(crates))
            return not self.status

    def wait(self) -> bool:
        with self.changed:
            self.changed.wait_for(lambda: self.status is not None)
            return self.status == 0


def run_check(board: Board, name: str, command: list[str], beside: bool = False, limit: float | None = LIMIT) -> bool:
    """Runs one check, prints its output when it has ended, and returns whether it passed."""
    begun = time.monotonic()
    prefix = ["nice", "-n", "19"] if beside else []
    with CHILDREN.started([*prefix, *command], limit) as ran:
        board.say(f"{name}: begins")
        output = ran.stdout.read() if ran.stdout else ""
        status, processor = ended(ran)
    print(output, end="", flush=True)
    remarks, seconds = re.findall(r"(?m)^not run: (.*)$", output), time.monotonic() - begun
    is_late = limit is not None and seconds >= limit
    if is_late:
        remarks.append(f"ended after {seconds / 60:.0f} minutes, which is the limit")
    board.add(Result(name, status == 0 and not is_late, seconds, processor, remarks))
    return status == 0 and not is_late


DOCUMENTS = [
    ("API reference", ["tools/api.py", "--check"]),
    ("statuses", ["tools/statuses.py", "--check"]),
    ("C header", ["tools/header.py", "--check"]),
    ("Python reference", ["tools/python_docs.py", "--check"]),
    ("links", ["tools/links.py"]),
    ("terms", ["tools/terms.py"]),
    ("mutant texts", ["tools/mutants.py", "--texts"]),
    ("toolchain", ["tools/toolchain.py", "--check"]),
    ("report of make lib", ["tools/libraries.py", "--check"]),
]
# these read sources alone, and use programs that the setup installs
LINTS = [
    ("Rust lint", ["tools/bindings.py", "lint"]),
    ("Python types", ["tools/bindings.py", "types"]),
]
# the longest first
AFTER_LIBRARY = [
    ("Python package", ["tools/bindings.py", "python"]),
    ("conformance suite", ["tools/rows.py"]),
    ("tests in C", ["tools/clib.py", "--test"]),
    ("fuzz targets", ["tools/fuzz.py", "--check"]),
    ("Python package with refused allocations", ["tools/bindings.py", "python_memory"]),
    ("Rust package", ["tools/bindings.py", "rust"]),
    ("examples of the Rust documentation", ["tools/bindings.py", "rust_docs"]),
    ("Python wheel", ["tools/bindings.py", "wheel"]),
    ("Arrow interface in C", ["tools/bindings.py", "c"]),
    ("Arrow interface under valgrind", ["tools/bindings.py", "valgrind"]),
    ("Dask example", ["tools/bindings.py", "dask"]),
    ("random columns", ["tools/soak.py", "--check"]),
    ("archive", ["tools/dist.py", "--check"]),
    ("Arrow streams of GDAL", ["tools/bindings.py", "gdal"]),
]
# of these, what `make check` leaves out, since it has commands of its own: tools/clib.py --test, make fuzz, make soak, make dist,
# tools/bindings.py python_memory, valgrind, wheel, rust_docs and dask
NOT_FAST = {"tests in C", "fuzz targets", "random columns", "archive", "Python package with refused allocations", "Arrow interface under valgrind",
            "Python wheel", "examples of the Rust documentation", "Dask example"}
FAST_OPTIONS = {"conformance suite": ["--fast"]}
# these run the program bench_internals too
AFTER_BOTH = [
    ("benchmark answers", ["tools/bench/run.py", "quick"]),
]
AFTER_PROOFS = [
    ("refused allocations", ["tools/refuse/refuse.py"]),
    ("program runs", ["tools/runs.py"]),
]


def below(crate: str) -> list[str]:
    """Returns the libraries that a crate depends on."""
    return crates_below(crate, {name: used for name, (_, used) in lines().items()})


def mutants_by_check() -> dict[str, list[str]]:
    """Returns the mutants that tools/mutants.txt lists, by the name of their check; the crates with the fewest dependencies first."""
    by_crate: dict[str, list[str]] = {}
    for label in (ROOT / "tools" / "mutants.txt").read_text().split("\n"):
        if label and not label.startswith("#"):
            by_crate.setdefault(label.partition("/")[0], []).append(label)
    found: dict[str, list[str]] = {}
    for crate, labels in sorted(by_crate.items(), key=lambda item: (len(below(item[0])), item[0])):
        count = -(-len(labels) // MUTANTS_OF_CHECK)
        for k in range(count):
            found[f"mutants of {crate}" + (f", part {k + 1}" if count > 1 else "")] = labels[k::count]
    return found


def run_in(room: threading.Semaphore, board: Board, name: str, command: list[str]) -> bool:
    """Runs one check as soon as there is room for one more."""
    with room:
        return run_check(board, name, command, beside=True)


def try_mutants(board: Board, proofs: Proofs, room: threading.Semaphore, name: str, labels: list[str]) -> bool:
    """Tries some mutants of a crate as soon as the libraries below it are proved and there is room for one more check."""
    if not proofs.wait_for(below(labels[0].partition("/")[0])):
        return False
    return run_in(room, board, name, ["tools/mutants.py", *labels])


def try_library(board: Board, proofs: Proofs, room: threading.Semaphore, installed: Future[int]) -> bool:
    """Builds the C library, and tests it and what uses it, as soon as the crates that it depends on are proved and the setup has ended."""
    if not proofs.wait_for(below("sel_c")):
        return False
    installed.result()
    # not at a lower priority, since the others wait for it
    if not run_check(board, "C library", ["tools/clib.py", "--gate", proofs.sources], limit=None):
        return False
    with ThreadPoolExecutor(len(AFTER_LIBRARY)) as pool:
        passed = all(list(pool.map(lambda check: run_in(room, board, *check), AFTER_LIBRARY)))
    answered = proofs.wait_for(["bench_internals"]) and all(run_check(board, name, command, beside=True) for name, command in AFTER_BOTH)
    return passed and answered


def try_lints(board: Board, installed: Future[int]) -> bool:
    """Runs the checks that read sources alone as soon as the setup has ended, while processors are idle."""
    installed.result()
    return all([run_check(board, name, command, beside=True) for name, command in LINTS])


def run_all(anew: bool) -> int:
    mutants = mutants_by_check()
    board = Board(1 + len(DOCUMENTS) + len(LINTS) + len(mutants) + 1 + len(AFTER_LIBRARY) + len(AFTER_BOTH) + len(AFTER_PROOFS))
    absent = announced()
    for name, command in DOCUMENTS:
        if not run_check(board, name, command):
            board.table()
            return 1
    proofs, room, library_room = Proofs(board, anew), threading.Semaphore(AT_ONCE), threading.Semaphore(LIBRARY_AT_ONCE)
    with ThreadPoolExecutor(4) as pool, ThreadPoolExecutor(len(mutants)) as trials:
        installed = pool.submit(install, absent)
        waited: list[Future[bool]] = [pool.submit(try_library, board, proofs, library_room, installed), pool.submit(try_lints, board, installed)]
        waited += [trials.submit(try_mutants, board, proofs, room, name, labels) for name, labels in mutants.items()]
        pool.submit(proofs.run)
        if proofs.wait():
            installed.result()
            for rooms, at_once in (room, AT_ONCE), (library_room, LIBRARY_AT_ONCE):
                more = len(os.sched_getaffinity(0)) - at_once
                if more > 0:
                    rooms.release(more)
            for name, command in AFTER_PROOFS:
                run_check(board, name, command)
            for future in waited:
                future.result()
    return 0 if board.table() else 1


def run_fast() -> int:
    """Proves what has changed over cached proofs and builds the C library, checks the documents and other sources meanwhile, and then runs the fast checks side by side."""
    # not where `make lib` builds, since another compiler makes this library
    os.environ["SEL_BUILD"] = str(ROOT / "build" / "fast")
    # linked with the shared library, the tests of the Rust package are compiled only when they change
    os.environ |= {"SEL_LIBRARY_KIND": "dylib", "CARGO_PROFILE_DEV_OPT_LEVEL": "1"}
    sources = [*DOCUMENTS, *LINTS]
    fast = [(name, [*command, *FAST_OPTIONS.get(name, [])]) for name, command in AFTER_LIBRARY if name not in NOT_FAST]
    board = Board(1 + len(sources) + len(fast))
    with ThreadPoolExecutor(len(fast)) as pool:
        built = pool.submit(run_check, board, "C library", ["tools/clib.py", "--fast"], limit=None)
        for name, command in sources:
            run_check(board, name, command, beside=True)
        for name, command in fast if built.result() else []:
            pool.submit(run_check, board, name, command)
    return 0 if board.table() else 1


def missing() -> list[str]:
    """Returns which of the optional programs and libraries are missing."""
    need = [str(ROOT / "tools" / "need"), "--only-look"]
    return [name for name in SETUP if subprocess.run([*need, name], stderr=subprocess.DEVNULL, check=False).returncode]


def announced() -> list[str]:
    """Returns which of the optional programs and libraries are missing, and prints what each is for."""
    absent = missing()
    for name in absent:
        print(f"missing: {name}, which {SETUP[name]}; it is installed from the system's packages if that is possible", flush=True)
    return absent


def install(absent: list[str], *options: str) -> int:
    """Installs what is missing from the system's packages if possible. tools/need, which gets the options, prints why something is missing afterwards.

    Returns 1 if something is, and names it.
    """
    status = 0
    if absent:
        with CHILDREN.started([str(ROOT / "tools" / "need"), *options, *absent], None) as ran:
            print(ran.stdout.read() if ran.stdout else "", end="", flush=True)
            status, _ = ended(ran)
    if status == 0:
        print("all that the checks use besides the toolchain is installed", flush=True)
        return 0
    print(f"still missing: {', '.join(missing())}; the checks leave out what needs them", flush=True)
    return 1


def main() -> int:
    CHILDREN.catch_signals()
    if sys.argv[1:] == ["setup"]:
        # what failed before is tried again, since its cause may be gone
        return install(announced(), "--again")
    if sys.argv[1:] == ["check"]:
        return run_fast()
    if sys.argv[1:] not in ([], ["anew"]):
        sys.exit(__doc__)
    return run_all(sys.argv[1:] == ["anew"])


if __name__ == "__main__":
    sys.exit(main())
