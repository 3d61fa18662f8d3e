#!/usr/bin/env python3
"""Writes the identity of the toolchain, as `rt version` prints it, into the documents that name it.

tools/toolchain.py          writes it
tools/toolchain.py --check  fails if a document names none, if the documents differ, or if the installed toolchain has another
                            logic; another kit with the same logic is reported only
"""

from __future__ import annotations

import pathlib
import re
import subprocess
import sys

ROOT = pathlib.Path(__file__).resolve().parent.parent
DOCUMENTS = ["README.md", "CHANGELOG.md", "docs/PROOFS.md"]
IDENTITY = re.compile(r"(rattle-kit-\S+) logic ([0-9a-f]{16})")


def named(path: pathlib.Path) -> str:
    """Returns the first identity that a document names."""
    found = IDENTITY.search(path.read_text(encoding="utf-8"))
    if not found:
        sys.exit(f"{path.relative_to(ROOT)} names no toolchain")
    return found[0]


def installed() -> str:
    """Returns the identity of the installed toolchain."""
    said = subprocess.run(["rt", "version"], capture_output=True, text=True, check=True).stdout.strip()
    if not IDENTITY.fullmatch(said):
        sys.exit(f"`rt version` prints no identity: {said}")
    return said


def logic_of(identity: str) -> str:
    return identity.split()[-1]


def check() -> int:
    names = {path: named(ROOT / path) for path in DOCUMENTS}
    here = installed()
    for path, name in names.items():
        if name != names[DOCUMENTS[0]]:
            print(f"{path} names {name}, {DOCUMENTS[0]} names {names[DOCUMENTS[0]]}")
            return 1
        if logic_of(name) != logic_of(here):
            print(f"{path} names {name}, but {here} is installed, whose logic differs")
            return 1
    if names[DOCUMENTS[0]] != here:
        print(f"the documents name {names[DOCUMENTS[0]]}; {here} is installed, with the same logic")
    return 0


def write() -> int:
    here = installed()
    for path in DOCUMENTS:
        text = (ROOT / path).read_text(encoding="utf-8")
        (ROOT / path).write_text(IDENTITY.sub(here, text, count=1), encoding="utf-8")
    return 0


if __name__ == "__main__":
    if sys.argv[1:] not in ([], ["--check"]):
        sys.exit(__doc__)
    sys.exit(check() if sys.argv[1:] else write())
