#!/usr/bin/env python3
"""Runs the built sel_bench on each folder of crates/sel_bench/runs, and compares its output and its exit status.

tools/runs.py           every folder
tools/runs.py NAME ..   only these

A folder has three files: stdin is the input, stdout the expected output, status the expected exit status. In the first two,
`<TEXT*N>` means N times TEXT. An optional fourth file, how, has one word: `closed` closes the input; `full` writes to /dev/full;
`refused` makes the first allocation fail (tools/refuse); `each` runs each line of stdin alone, followed by the line `take 5 0`, and
expects the same output and status each time; `pieces` makes each read and each write transfer one byte (tools/refuse/transfers.c): first
none fails, then each read does, then each write, then each write accepts no byte. After a failed read the output must be the answers to
the lines before, after a failed write what was written before, and the exit status 1. Each line of stdin must have one answer then.

An optional fifth file, args, has the program's arguments, a line each. Only a line feed ends a line. A line may be empty; there must be
at least one.

Uses the program that `rt ci` built. If it is missing or older than its sources, proves and builds it first.
"""

from __future__ import annotations

import pathlib
import re
import subprocess
import sys
import tempfile

TOP = pathlib.Path(__file__).resolve().parent.parent
RUNS = TOP / "crates" / "sel_bench" / "runs"
HOW = ("closed", "full", "refused", "each", "pieces")
TRANSFERS = TOP / "tools" / "refuse" / "transfers.c"
BEHIND = b"take 5 0\n"
SECONDS = 60
sys.dont_write_bytecode = True
sys.path.insert(0, str(TOP / "tools" / "refuse"))

import refuse  # noqa: E402


def text_of(file: pathlib.Path) -> bytes:
    """Returns a file's bytes with each `<TEXT*N>` expanded."""
    return re.sub(rb"<([^<>*]*)\*(\d+)>", lambda found: found[1] * int(found[2]), file.read_bytes())


def inputs_of(given: bytes, how: str) -> list[bytes]:
    """Returns the inputs of a folder, one for each run."""
    if how != "each":
        return [given]
    lines = given.split(b"\n")
    if not lines[-1]:
        lines.pop()
    return [line + b"\n" + BEHIND for line in lines]


def ran(program: list[str], given: bytes, how: str, room: str) -> tuple[int, bytes]:
    """Runs the program with its arguments. Returns its exit status and its output."""
    if how == "refused":
        done, calls = refuse.refused_run(refuse.built_shim(room), program, 1, False, given, {"REFUSE_ALL": "1"})
        return done.returncode, done.stdout if calls and calls[0][2] else b"(no allocation failed)"
    words = ["sh", "-c", 'exec "$0" "$@"' + {"closed": " <&-", "full": " > /dev/full"}.get(how, ""), *program]
    done = subprocess.run(words, input=given, capture_output=True, timeout=SECONDS)
    return done.returncode, done.stdout


def fault_of(program: list[str], given: bytes, how: str, wanted: bytes, status: int, room: str) -> str | None:
    """Returns what is wrong with a run, or None."""
    try:
        ended, wrote = ran(program, given, how, room)
    except subprocess.TimeoutExpired:
        return f"still running after {SECONDS} seconds"
    if ended != status:
        return f"exit status {ended} instead of {status}"
    if wrote != wanted:
        return f"output {wrote[:200]!r} instead of {wanted[:200]!r}"
    return None


def pieces_of(given: bytes, wanted: bytes, status: int) -> list[tuple[str, int, int, bytes]]:
    """Returns the runs in pieces: a variable of the shim, the number of the transfer that fails, the exit status and the output."""
    answers = wanted.splitlines(keepends=True)
    runs = [("FAIL_READ", at, 1, b"".join(answers[:given.count(b"\n", 0, at - 1)])) for at in range(1, len(given) + 2)]
    runs += [(fault, at, 1, wanted[:at - 1]) for fault in ("FAIL_WRITE", "EMPTY_WRITE") for at in range(1, len(wanted) + 1)]
    # without a failure, and with the failure of a transfer that does not happen
    return [("FAIL_READ", 0, status, wanted), *runs, ("FAIL_READ", len(given) + 2, status, wanted), ("FAIL_WRITE", len(wanted) + 1, status, wanted)]


def tried_in_pieces(program: list[str], given: bytes, wanted: bytes, status: int, room: str) -> tuple[int, str | None]:
    """Runs the program in pieces. Returns the number of runs, and what is wrong with the first wrong one, or None."""
    shim = refuse.built_shim(room, TRANSFERS)
    runs = pieces_of(given, wanted, status)
    for count, (fault, at, ended, wrote) in enumerate(runs, 1):
        env = {"PATH": "/usr/bin:/bin", "LD_PRELOAD": str(shim), fault: str(at)}
        try:
            done = subprocess.run(program, env=env, input=given, capture_output=True, timeout=SECONDS)
        except subprocess.TimeoutExpired:
            return count, f"{fault}={at}: still running after {SECONDS} seconds"
        if (done.returncode, done.stdout) != (ended, wrote):
            return count, f"{fault}={at}: exit status {done.returncode} and output {done.stdout[:200]!r} instead of {ended} and {wrote[:200]!r}"
    return len(runs), None


def tried(folder: pathlib.Path, program: pathlib.Path, room: str) -> tuple[int, str | None]:
    """Runs a folder. Returns the number of runs, and what is wrong with the first wrong one, or None."""
    how = (folder / "how").read_text().strip() if (folder / "how").exists() else ""
    if how and how not in HOW:
        return 0, f"how must be one of {', '.join(HOW)}"
    inputs = inputs_of(text_of(folder / "stdin"), how)
    if not inputs:
        return 0, "stdin has no line"
    wanted, status = text_of(folder / "stdout"), int((folder / "status").read_text())
    args = (folder / "args").read_text().splitlines() if (folder / "args").exists() else []
    if how == "pieces":
        return tried_in_pieces([str(program), *args], inputs[0], wanted, status, room)
    for at, given in enumerate(inputs, 1):
        fault = fault_of([str(program), *args], given, how, wanted, status, room)
        if fault:
            return at, f"line {at}, {given[:-len(BEHIND) - 1][:200]!r}: {fault}" if how == "each" else fault
    return len(inputs), None


def main(names: list[str]) -> int:
    folders = sorted(it for it in RUNS.iterdir() if it.is_dir() and (not names or it.name in names))
    if not folders or len(folders) < len(names):
        refuse.stop("no such run")
    program = refuse.built("sel_bench", "sel_bench", ["run"])
    runs = failed = 0
    with tempfile.TemporaryDirectory(prefix="runs-") as room:
        for folder in folders:
            made, fault = tried(folder, program, room)
            runs += made
            failed += fault is not None
            outcome = f"{refuse.counted(made, 'run')}, ok" if fault is None else f"WRONG: {fault}"
            print(f"{folder.name.replace('_', ' ')}: {outcome}")
    print(f"total: {refuse.counted(runs, 'run')}")
    print(f"{len(folders) - failed} passed, {failed} failed")
    return 1 if failed else 0


if __name__ == "__main__":
    sys.exit(main(sys.argv[1:]))
