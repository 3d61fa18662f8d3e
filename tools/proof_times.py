#!/usr/bin/env python3
"""Prints where the prover's time goes in a crate: the functions and lemma files that take most, and what of them.

tools/proof_times.py CRATE [COUNT]          the COUNT (30) functions and lemma files that take most
tools/proof_times.py CRATE --tests [COUNT]  the same of the crate with its tests

The libraries below the crate must be built, by `make lib` or `make test`. The crate is checked without cached proofs by one process, which writes
each module of a proof as soon as it is checked: the time of a module is counted from the one before. So nothing else should run meanwhile. The
columns are seconds: all of it; the borrow check; the proof of the contract, with the lemmas that are written by hand; and the rest, such as
memory layouts.
"""

from __future__ import annotations

import collections
import pathlib
import re
import subprocess
import sys
import tempfile
import time

sys.dont_write_bytecode = True
ROOT = pathlib.Path(__file__).resolve().parent.parent
sys.path.insert(0, str(ROOT / "tools"))

from prover import lines, words  # noqa: E402

BORROWS, PROOF, REST = "borrows", "proof", "rest"
# the parts of a function's proof, each in a module of its own: `proofs.FUNCTION.PART`
PARTS = {
    "Lts": BORROWS, "Proof": PROOF, "Answers": PROOF, "Invariants": PROOF, "Goals": PROOF, "Given": PROOF,
    "Carried": REST, "Code": REST, "Key": REST, "Kinds": REST, "Layout": REST, "Met": REST, "Named": REST, "Reads": REST, "Statement": REST,
    "Symbol": REST, "TheLink": REST, "Tie": REST,
}


def checked(crate: str, with_tests: bool) -> list[tuple[float, str]]:
    """Checks the crate. Returns the modules that were checked, and the seconds of each, in order."""
    folder = ROOT / "crates" / crate
    with tempfile.TemporaryDirectory() as kept:
        begun = time.time()
        command = [*words("check", crate, folder), "--jobs", "1", "--incremental", kept, *["--test"] * with_tests]
        ran = subprocess.run(command, cwd=folder, stdout=subprocess.PIPE, stderr=subprocess.STDOUT, text=True, errors="replace", check=False)
        files = sorted((path.stat().st_mtime, path.stem) for path in pathlib.Path(kept).rglob("*.oantt"))
    if not files:
        sys.exit(f"failed: nothing of {crate} was checked\n{ran.stdout[-3000:]}")
    if ran.returncode != 0:
        print(f"{crate} is not proved, so times can be missing")
    starts = [begun, *(when for when, _ in files)]
    return [(when - before, name) for (when, name), before in zip(files, starts)]


def place(module: str) -> tuple[str, str]:
    """Returns the function or the lemma file that a module belongs to, and the column that its time counts to."""
    found = re.fullmatch(r"Rattle-\w+-(proofs|specs)\.(.*?)(\.decls)?", module)
    if not found:
        return "(start and end)", REST
    if found[1] == "specs" and not found[2].startswith("contracts."):
        return "(definitions)", REST
    path = found[2].removeprefix("contracts.").split(".")
    for count, part in enumerate(path):
        kind = PARTS.get(part.partition("-")[0])
        if kind and count:
            return "::".join(path[:count]), kind
    is_lemma_file = found[1] == "proofs" and len(path) == 1 and path[0][:1].isupper()
    return "::".join(path), PROOF if is_lemma_file else REST


def main() -> None:
    names = [word for word in sys.argv[1:] if word != "--tests"]
    if not 1 <= len(names) <= 2 or names[0] not in lines() or not all(name.isdecimal() for name in names[1:]):
        sys.exit(__doc__)
    columns = [BORROWS, PROOF, REST]
    spent: dict[str, dict[str, float]] = collections.defaultdict(lambda: dict.fromkeys(columns, 0.0))
    for seconds, module in checked(names[0], "--tests" in sys.argv):
        function, column = place(module)
        spent[function][column] += seconds
    total = {column: sum(of[column] for of in spent.values()) for column in columns}
    rows = sorted(spent.items(), key=lambda it: -sum(it[1].values()))[: int(names[1]) if names[1:] else 30]
    print("".join(f"{head:>9}" for head in ["all", *columns]))
    for name, of in [("all", total), *rows]:
        print("".join(f"{seconds:9.1f}" for seconds in [sum(of.values()), *(of[column] for column in columns)]), "", name)


main()
