#!/usr/bin/env python3
"""Tests the code around the C library that `make lib` has built: the Arrow interface, the examples, the Rust and the Python package.

tools/bindings.py            everything; missing optional dependencies are reported, and what needs them is skipped
tools/bindings.py PART ..    only these parts: c, valgrind, rust, rust_docs, python, python_memory, wheel, dask, gdal; types and lint, which read the sources alone

SEL_BUILD names another folder than build/. What cargo and mypy keep between runs is in its folders cargo and mypy.
"""

from __future__ import annotations

import os
import pathlib
import shutil
import subprocess
import sys
import tempfile
from concurrent.futures import ThreadPoolExecutor

ROOT = pathlib.Path(__file__).resolve().parent.parent
sys.dont_write_bytecode = True
sys.path.insert(0, str(ROOT / "tools"))

from commands import CC, EXAMPLES, INCLUDE, MEMCHECK, PYTHON, SANITIZED, WARN, WRAPPED, check_example, check_header, has, left_out, run  # noqa: E402
from package import ARROW_SOURCES, BUILD  # noqa: E402

EXAMPLES_IN_C = ("filter.c", "arrow_roundtrip.c")
# the tests of the Arrow interface, the file with `main` first
ARROW_TESTS = [ROOT / "c" / "arrow_test.c", *sorted((ROOT / "c").glob("arrow_test_*.c"))]
CFLAGS = ["-std=c11", "-g", *WARN, *INCLUDE]


def built(source: pathlib.Path, folder: pathlib.Path, *flags: str | pathlib.Path) -> pathlib.Path:
    program = folder / source.stem
    run(*CC, *CFLAGS, source, *(flag for flag in flags if isinstance(flag, pathlib.Path)), BUILD / "libsel.a",
        *(flag for flag in flags if not isinstance(flag, pathlib.Path)), "-o", program)
    return program


def built_arrow_test(folder: pathlib.Path) -> pathlib.Path:
    """Builds the tests of the Arrow interface. Returns the program."""
    return built(ARROW_TESTS[0], folder, *ARROW_TESTS[1:], *WRAPPED)


def try_malformed(folder: pathlib.Path) -> None:
    """Imports malformed arrays under sanitizers that stop at each bad access and each undefined operation."""
    if not has("sanitizers"):
        return left_out("malformed arrays under AddressSanitizer and UndefinedBehaviorSanitizer")
    program = folder / "arrow_malformed"
    run(*CC, *CFLAGS, *SANITIZED, ROOT / "c" / "arrow_malformed.c", *ARROW_SOURCES, BUILD / "libsel.a", "-o", program)
    # an allocation that exceeds memory must return null, so that the library returns an error and the test goes on
    env = {**os.environ, "ASAN_OPTIONS": "allocator_may_return_null=1:detect_leaks=1"}
    done = subprocess.run([program], env=env, capture_output=True, text=True, check=False)
    print(done.stdout if done.returncode == 0 else done.stdout + done.stderr, end="")
    if done.returncode != 0:
        sys.exit("failed: c/arrow_malformed.c")


def try_c(folder: pathlib.Path) -> None:
    check_header("sel_arrow.h")
    print(run(built_arrow_test(folder)), end="")
    if has("sanitizers"):
        sources = [*ARROW_TESTS, *ARROW_SOURCES]
        run(*CC, *CFLAGS, *SANITIZED, *sources, BUILD / "libsel.a", *WRAPPED, "-o", folder / "arrow_test_sanitized")
        run(folder / "arrow_test_sanitized")
    else:
        left_out("arrow_test.c under AddressSanitizer and UndefinedBehaviorSanitizer")
    try_malformed(folder)
    for name in EXAMPLES_IN_C:
        check_example(name, run(built(EXAMPLES / name, folder)))


def try_valgrind(folder: pathlib.Path) -> None:
    """Runs the tests of the Arrow interface and the examples in C under valgrind."""
    if not has("valgrind"):
        return left_out("arrow_test.c and the examples under valgrind")
    for program in (built_arrow_test(folder), *(built(EXAMPLES / name, folder) for name in EXAMPLES_IN_C)):
        run(*MEMCHECK, program)
    print("arrow_test.c and the examples under valgrind: ok")


def rust_env() -> dict[str, str]:
    """Returns the environment in which cargo finds the built library, and builds beside it."""
    paths = ":".join([str(BUILD), *filter(None, [os.environ.get("LD_LIBRARY_PATH")])])
    return {**os.environ, "SEL_LIBRARY_DIR": str(BUILD), "LD_LIBRARY_PATH": paths, "CARGO_TARGET_DIR": str(BUILD / "cargo"), "RUSTFLAGS": "-D warnings"}


def lint_rust(_folder: pathlib.Path) -> None:
    """Runs clippy over the Rust package and writes its documentation, without the library."""
    if not has("cargo"):
        return left_out("clippy over the Rust package, and its documentation")
    crate, env = ROOT / "bindings" / "rust", rust_env()
    if subprocess.run(["cargo", "clippy", "--version"], cwd=crate, stdout=subprocess.DEVNULL, stderr=subprocess.DEVNULL, check=False).returncode == 0:
        run("cargo", "clippy", "--offline", "--quiet", "--all-targets", "--", "-D", "warnings", cwd=crate, env=env)
    else:
        left_out("clippy over the Rust package")
    run("cargo", "doc", "--offline", "--quiet", "--no-deps", cwd=crate, env={**env, "RUSTDOCFLAGS": "-D warnings"})
    print("clippy and the documentation of the Rust package: ok")


def try_rust(folder: pathlib.Path) -> None:
    if not has("cargo"):
        return left_out("the Rust package")
    crate, env = ROOT / "bindings" / "rust", rust_env()
    run("cargo", "test", "--offline", "--quiet", "--lib", "--tests", "--examples", cwd=crate, env=env)
    for name in ("filter", "threads"):
        check_example(f"{name}.rs", run("cargo", "run", "--offline", "--quiet", "--example", name, cwd=crate, env=env))
    print("the Rust package: ok")


def try_rust_docs(folder: pathlib.Path) -> None:
    """Runs the examples in the documentation of the Rust package, each of which rustdoc compiles as a program of its own."""
    if not has("cargo"):
        return left_out("the examples in the documentation of the Rust package")
    run("cargo", "test", "--offline", "--quiet", "--doc", cwd=ROOT / "bindings" / "rust", env=rust_env())
    print("the examples in the documentation of the Rust package: ok")


def counting_library(folder: pathlib.Path) -> pathlib.Path:
    """Links the library with an allocator that counts the blocks in use and refuses allocations on demand."""
    library = folder / "libsel_counting.so"
    run(*CC, *CFLAGS, "-fPIC", "-shared", ROOT / "tests" / "memory.c", "-Wl,--whole-archive", BUILD / "libsel.a", "-Wl,--no-whole-archive",
        *WRAPPED, "-o", library)
    return library


def check_types(_folder: pathlib.Path) -> None:
    """Checks the types of the Python package, of its tests, and of the tools."""
    if not has("mypy", "numpy"):
        return left_out("mypy over the Python package")
    package, tools = ROOT / "bindings" / "python", ROOT / "tools"
    mypy = ["mypy", "--strict", "--no-error-summary", "--cache-dir", BUILD / "mypy"]
    of_package = [path for folder in ("sel", "bench", "build_backend", "tests") for path in sorted((package / folder).glob("*.py"))]
    of_tools = [path for folder in (tools, tools / "bench", tools / "refuse") for path in sorted(folder.glob("*.py"))]
    for files in (of_package, of_tools):
        run(*mypy, *files, env={**os.environ, "MYPYPATH": f"{package}:{tools}:{tools}/refuse"})
    print("the types of the Python package and of the tools: ok")


def python_env() -> dict[str, str]:
    """Returns the environment in which Python finds the package of the repository and the built library."""
    package = ROOT / "bindings" / "python"
    return {**os.environ, "SEL_LIBRARY": str(BUILD / "libsel.so"), "PYTHONPATH": str(package), "PYTHONDONTWRITEBYTECODE": "1"}


def try_python(folder: pathlib.Path) -> None:
    package, env = ROOT / "bindings" / "python", python_env()
    if not has("numpy"):
        left_out("conversion from and to numpy arrays")
    tests = package / "tests"
    names = sorted(path.stem for path in tests.glob("test_*.py"))
    names.remove("test_rows")
    # the conformance suite, and the others in three parts that take about as long
    parts = [["test_rows"], names[::3], names[1::3], names[2::3]]
    with ThreadPoolExecutor(len(parts)) as pool:
        unit = {**env, "PYTHONPATH": f"{tests}:{package}"}
        for running in [pool.submit(run, PYTHON, "-m", "unittest", *part, cwd=folder, env=unit) for part in parts]:
            running.result()
    for name in ("filter_take.py", "when_then.py"):
        check_example(name, run(PYTHON, EXAMPLES / name, env=env))
    print("the Python package: ok")


def try_python_memory(folder: pathlib.Path) -> None:
    """Runs the uses of the Python package with each allocation of the library refused."""
    env = {**python_env(), "SEL_LIBRARY": str(counting_library(folder))}
    run(PYTHON, ROOT / "bindings" / "python" / "tests" / "refused_allocations.py", cwd=folder, env=env)
    print("the Python package with refused allocations: ok")


def try_wheel(folder: pathlib.Path) -> None:
    """Runs the tests of the Python package over its wheel and over an editable install, in an environment of their own."""
    if not has("venv"):
        return left_out("the wheel in a virtual environment")
    package, env = ROOT / "bindings" / "python", python_env()
    wheel = folder / run(PYTHON, package / "build_backend" / "wheel_of_sel.py", folder, env=env).strip()
    run(PYTHON, "-m", "venv", folder / "venv")
    own = folder / "venv" / "bin" / "python"
    pip = [own, "-m", "pip", "--quiet", "--disable-pip-version-check"]
    plain = {name: value for name, value in env.items() if name not in ("SEL_LIBRARY", "PYTHONPATH")}
    run(*pip, "install", "--no-index", wheel, env=plain)
    run(own, "-m", "unittest", "discover", "-s", package / "tests", cwd=folder, env=plain)
    run(*pip, "uninstall", "--yes", "sel", env=plain)
    run(*pip, "install", "--no-index", "--editable", package, cwd=folder, env=plain)
    found = run(own, "-c", "import sel; print(sel.__file__, sel.Column([1, None]))", cwd=folder, env=plain)
    if found != f"{package / 'sel' / '__init__.py'} [1,null]\n":
        sys.exit(f"pip install --editable: {found}")
    print(f"the wheel {wheel.name}: ok")


def try_dask(folder: pathlib.Path) -> None:
    if not has("numpy", "dask"):
        return left_out("examples/partitions_dask.py")
    check_example("partitions_dask.py", run(PYTHON, EXAMPLES / "partitions_dask.py", cwd=folder, env=python_env(), timeout=300))


def try_gdal(folder: pathlib.Path) -> None:
    """Imports the Arrow streams of GDAL's layers, and compares them with GDAL's own reader of features."""
    if not has("gdal"):
        return left_out("Arrow streams of GDAL")
    library = run("gdal-config", "--libs").split()
    program = folder / "test_gdal"
    run(*CC, *CFLAGS, "-isystem", "/usr/include/gdal", ROOT / "c" / "test_gdal.c", ROOT / "c" / "arrow_test_pieces.c", BUILD / "libsel.a", *library, "-o", program)
    print(run(program, folder), end="")


PARTS = {"types": check_types, "lint": lint_rust, "c": try_c, "valgrind": try_valgrind, "rust": try_rust, "rust_docs": try_rust_docs, "python": try_python, "python_memory": try_python_memory, "wheel": try_wheel, "dask": try_dask, "gdal": try_gdal}
WITHOUT_LIBRARY = {"types", "lint"}


def main() -> None:
    words = sys.argv[1:] or list(PARTS)
    if not set(words) <= set(PARTS):
        sys.exit(__doc__)
    if not set(words) <= WITHOUT_LIBRARY and not (BUILD / "libsel.a").exists():
        sys.exit("build/libsel.a is missing: make lib builds it")
    folder = pathlib.Path(tempfile.mkdtemp())
    try:
        for word in words:
            PARTS[word](folder)
    finally:
        shutil.rmtree(folder, ignore_errors=True)


if __name__ == "__main__":
    main()
