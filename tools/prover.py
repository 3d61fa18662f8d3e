"""Runs the toolchain's prover over the libraries that `rt ci` has proved and built in crates/NAME/out/rlib."""

from __future__ import annotations

import pathlib
import re
import subprocess

ROOT = pathlib.Path(__file__).resolve().parent.parent


def kit() -> pathlib.Path:
    """Returns the folder of the toolchain."""
    page = subprocess.run(["rt", "doc"], capture_output=True, text=True, check=True).stdout.strip()
    return pathlib.Path(page).parent


def free_memory() -> int:
    """Returns how many bytes of memory are free, or 0 if the system does not say so."""
    found = re.search(r"(?m)^MemAvailable:\s+(\d+) kB$", pathlib.Path("/proc/meminfo").read_text())
    return int(found[1]) * 1024 if found else 0


def lines() -> dict[str, tuple[list[str], list[str]]]:
    """Returns for each crate of crates.txt its marks and the libraries that it depends on."""
    found = {}
    for line in (ROOT / "crates.txt").read_text().split("\n"):
        if line and not line.startswith("#"):
            head, _, below = line.partition(":")
            found[head.split()[0]] = head.split()[1:], below.split()
    return found


def crates_below(name: str, uses: dict[str, list[str]]) -> list[str]:
    """Returns the crates that a crate depends on, directly or not, each after its own dependencies."""
    found: list[str] = []
    for library in uses.get(name, []):
        found += [it for it in [*crates_below(library, uses), library] if it not in found]
    return [it for it in found if it in uses]


def words(verb: str, name: str, folder: pathlib.Path, links: str = "") -> list[str]:
    """Returns the prover's command line for a crate, or for a copy of it in the folder.

    `links` is a label for what defines the C functions that the crate declares; none declares any but a copy for mutants.
    """
    place, marks = kit(), lines()[name][0]
    uses = {crate: below for crate, (_, below) in lines().items()}
    root = "src/main.rt" if (folder / "src" / "main.rt").exists() else "src/lib.rt"
    said = [f"{place}/bin/rattle", verb, "--crate-name", name, root]
    for library in ["std", *[it for it in uses[name] if it not in uses]]:
        said += ["--extern", f"{library}={place}/rlibs/{library}.rlib"]
    said += ["-L", f"dependency={place}/rlibs"]
    for library in uses[name]:
        if library in uses:
            said += ["--extern", f"{library}={ROOT}/crates/{library}/out/rlib/{library}.rlib"]
    for library in crates_below(name, uses):
        said += ["-L", f"dependency={ROOT}/crates/{library}/out/rlib"]
    said += ["--antt-project", f"{place}/rattle/logic/antt-project.json", "--logic-built", f"{place}/logic_built"]
    said += ["--crate-type", "staticlib"] if "staticlib" in marks else []
    return [*said, "--links", f"{name}={links}"]
