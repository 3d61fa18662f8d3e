"""What the checks and benchmarks share to compile and run programs: the compilers, their options, and calls of tools/need."""

from __future__ import annotations

import os
import pathlib
import shlex
import subprocess
import sys

ROOT = pathlib.Path(__file__).resolve().parent.parent
EXAMPLES = ROOT / "examples"
# the sources of tests/ that read lines of the conformance suite and check results, without the calls
CHECKER = [ROOT / "tests" / f"{name}.c" for name in ("check", "layout", "lines", "memory", "notation", "report")]

# the compilers, each with the options that its variable names; a variable that is empty counts as not set, as in tools/need
CC = shlex.split(os.environ.get("CC") or "cc")
CXX = shlex.split(os.environ.get("CXX") or "c++")
CLANG = shlex.split(os.environ.get("CLANG") or "clang")
# Debian's packages are installed for the system's Python
SYSTEM_PYTHON = "/usr/bin/python3"
PYTHON = os.environ.get("PYTHON") or (SYSTEM_PYTHON if pathlib.Path(SYSTEM_PYTHON).exists() else sys.executable)

WARN = ["-Wall", "-Wextra", "-pedantic", "-Werror"]
INCLUDE = ["-I", str(ROOT / "include")]
SANITIZED = ["-fsanitize=address,undefined", "-fno-sanitize-recover=all", "-fno-omit-frame-pointer"]
MEMCHECK = ["valgrind", "--quiet", "--error-exitcode=3", "--leak-check=full"]
HELGRIND = ["valgrind", "--tool=helgrind", "--quiet", "--error-exitcode=3"]


def wrapped(*names: str) -> list[str]:
    """Returns the linker's options that hand calls of these functions to wrappers."""
    return [f"-Wl,--wrap={name}" for name in names]


# the allocator of c/test_memory.c and of tests/memory.c in place of the system's
WRAPPED = wrapped("malloc", "calloc", "realloc", "free")


def run_printing(*words: object, cwd: str | pathlib.Path | None = None, env: dict[str, str] | None = None) -> None:
    """Runs a command, which prints its output. Exits with its words if it fails."""
    command = [str(word) for word in words]
    if subprocess.run(command, cwd=cwd, env=env, check=False).returncode != 0:
        sys.exit(f"failed: {' '.join(command)}")


def run(*words: object, cwd: str | pathlib.Path | None = None, env: dict[str, str] | None = None, timeout: float | None = None) -> str:
    """Runs a command and returns its output. Exits with its words, and prints its output, if it fails."""
    command = [str(word) for word in words]
    done = subprocess.run(command, cwd=cwd, env=env, stdout=subprocess.PIPE, text=True, timeout=timeout, check=False)
    if done.returncode != 0:
        print(done.stdout, end="")
        sys.exit(f"failed: {' '.join(command)}")
    return done.stdout


def has(*needs: str) -> bool:
    """Returns whether these dependencies are installed or could be installed. tools/need reports the missing ones."""
    return subprocess.run([ROOT / "tools" / "need", *needs], env={**os.environ, "PYTHON": PYTHON}, check=False).returncode == 0


def check_header(name: str) -> None:
    """Compiles a header by itself, as C11 and as C++17."""
    header = ROOT / "include" / name
    run_printing(*CC, "-std=c11", *WARN, "-fsyntax-only", "-x", "c", header)
    if has("c++"):
        run_printing(*CXX, "-std=c++17", *WARN, "-fsyntax-only", "-x", "c++", header)
    else:
        left_out(f"include/{name} as C++")


def check_example(name: str, output: str, how: str = "") -> None:
    """Compares the output of an example with the stored output next to it. Exits if they differ; `how` is how the example was run."""
    wanted, label = (EXAMPLES / f"{name}.out").read_text(), f"examples/{name}{how and f', {how}'}"
    if output != wanted:
        sys.exit(f"failed: {label} prints\n{output}instead of\n{wanted}")
    print(f"{label}: ok")


def left_out(what: str) -> None:
    """Reports what a check leaves out, for the table of tools/gate.py."""
    print(f"not run: {what}", file=sys.stderr)
