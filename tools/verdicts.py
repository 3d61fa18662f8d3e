"""What the prover has said of the crates that the C library is built from."""

from __future__ import annotations

import hashlib
import pathlib
import subprocess
import sys

from prover import crates_below, lines

ROOT = pathlib.Path(__file__).resolve().parent.parent
TOP = "sel_c"
# `rt ci` takes what an earlier run on the machine has proved, and says no more of it
EARLIER = "logic=proved, by an earlier run on the same machine, of the same files"


def sum_of(data: bytes) -> str:
    return hashlib.sha256(data).hexdigest()


def sum_of_sources(crate: str, root: pathlib.Path = ROOT) -> str:
    """Returns a sum of the crate's code, definitions and proofs: what the verdict is about."""
    folder, found = root / "crates" / crate, hashlib.sha256()
    for path in sorted(path for part in ("src", "specs", "proofs") for path in (folder / part).rglob("*") if path.is_file()):
        found.update(f"{path.relative_to(folder)} {sum_of(path.read_bytes())}\n".encode())
    return found.hexdigest()


def sum_of_built(crate: str, root: pathlib.Path = ROOT) -> str:
    """Returns a sum of what the toolchain made of a proved crate: only a proved crate has it."""
    out = root / "crates" / crate / "out"
    # the file `format` of a library has the sum of its other files
    path = out / "libsel_c.a" if crate == TOP else out / "rlib" / f"{crate}.rlib" / "format"
    return sum_of(path.read_bytes())


def keep(crate: str, verdict: str, root: pathlib.Path = ROOT) -> None:
    """Keeps the prover's last line on a crate, with the sum of what was built then."""
    (root / "crates" / crate / "out" / "verdict").write_text(f"{sum_of_built(crate, root)}\n{verdict}\n")


def kept(crate: str) -> str:
    """Returns the prover's last line on the crate as it is built."""
    path = ROOT / "crates" / crate / "out" / "verdict"
    built, _, verdict = (path.read_text() if path.exists() else "").strip().partition("\n")
    return verdict if built == sum_of_built(crate) else EARLIER


def crates() -> list[str]:
    """Returns the crates that the C library is built from, each after those that it depends on."""
    return [*crates_below(TOP, {name: used for name, (_, used) in lines().items()}), TOP]


def sum_of_all() -> str:
    """Returns a sum of the sources of all these crates."""
    return sum_of("".join(f"{crate} {sum_of_sources(crate)}\n" for crate in crates()).encode())


def table(before: str) -> str:
    """Returns the verdicts as the text of a file: a paragraph for each crate. Exits if the sources do not have the sum that they had before
    the proof: the verdicts may then be about others."""
    prover = subprocess.run(["rt", "version"], capture_output=True, text=True, check=True).stdout.strip()
    found = [f"The crates that this library is built from, and the last line that the prover printed of each.\n\nprover {prover}\n"]
    for crate in crates():
        found.append(f"\n{crate}\nverdict {kept(crate)}\nsources sha256 {sum_of_sources(crate)}\nbuilt sha256 {sum_of_built(crate)}\n")
    if sum_of_all() != before:
        sys.exit("failed: sources of the crates changed while they were proved, so the verdicts may not be about them: build again")
    return "".join(found)
