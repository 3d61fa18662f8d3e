#!/usr/bin/env python3
"""Finds phrases that the project no longer uses, and names the standard term for each.

tools/terms.py     prints each occurrence of a phrase of tools/terms.txt with its file, its line and the term to use

Exits with status 1 if there is one. Letter case does not matter, and a phrase also matches across a line break, with or without a
comment marker at the start of the next line.
"""

from __future__ import annotations

import fnmatch
import os
import pathlib
import re
import subprocess
import sys
from typing import Iterator, List, NamedTuple, Pattern, Tuple

ROOT = pathlib.Path(__file__).resolve().parent.parent
LIST = ROOT / "tools" / "terms.txt"
# what may be between two words of a phrase: spaces, or a line break with a comment marker
GAP = r"(?:[ \t]+|[ \t]*\r?\n[ \t]*(?:(?:///|//!|//|--|#+|\*|>)[ \t]*)?)"
# folders that are skipped in a copy of the repository without git
BUILT = {".git", "out", "build", "target", "__pycache__"}


class Term(NamedTuple):
    """A phrase and the term to use in its place."""

    phrase: str
    use: str
    longest: str
    found: Pattern[str]


def read_list() -> Tuple[List[str], List[Term]]:
    """Returns the path patterns and the phrases of tools/terms.txt."""
    patterns: List[str] = []
    terms: List[Term] = []
    for line in LIST.read_text(encoding="utf-8").splitlines():
        if not line or line.startswith("#"):
            continue
        if line.startswith("paths: "):
            patterns += line[len("paths: "):].split()
            continue
        phrase, arrow, use = line.partition(" => ")
        if not arrow or not phrase.strip() or not use.strip():
            sys.exit(f"tools/terms.txt: neither paths nor `phrase => term to use`: {line}")
        words = phrase.lower().split()
        found = re.compile(GAP.join(map(re.escape, words)) + r"(?!\w)")
        terms.append(Term(phrase.strip(), use.strip(), max(words, key=len), found))
    return patterns, terms


def tracked() -> List[str]:
    """Returns the paths of the tracked files, or of all files in a copy of the repository without git."""
    if (ROOT / ".git").exists():
        listed = subprocess.run(["git", "ls-files", "-z"], cwd=ROOT, stdout=subprocess.PIPE, check=True).stdout
        return [os.fsdecode(path) for path in listed.split(b"\0") if path and (ROOT / os.fsdecode(path)).is_file()]
    paths = (path.relative_to(ROOT) for path in ROOT.rglob("*") if path.is_file())
    return sorted(str(path) for path in paths if not BUILT & set(path.parts))


def is_selected(path: str, patterns: List[str]) -> bool:
    """Returns whether the last pattern that matches a path selects it; a pattern after `!` excludes paths."""
    selected = False
    for pattern in patterns:
        if fnmatch.fnmatchcase(path, pattern.lstrip("!")):
            selected = not pattern.startswith("!")
    return selected


def occurrences(path: str, terms: List[Term]) -> Iterator[Tuple[int, Term]]:
    """Yields the line of each occurrence in a text file with its term."""
    data = (ROOT / path).read_bytes()
    if b"\0" in data:
        return
    text = data.decode("utf-8", errors="replace").lower()
    for term in terms:
        # most files do not have the longest word of a phrase, which is faster to see
        for found in term.found.finditer(text) if term.longest in text else ():
            # (a pattern that began with this condition would be tried at each position of the text)
            if not re.match(r"\w", text[found.start() - 1 : found.start()]):
                yield text.count("\n", 0, found.start()) + 1, term


def main() -> int:
    if sys.argv[1:]:
        sys.exit(__doc__)
    patterns, terms = read_list()
    files = [path for path in tracked() if is_selected(path, patterns)]
    if not terms or not files:
        sys.exit("tools/terms.txt has no phrase, or its paths select no file")
    count = 0
    for path in files:
        for line, term in sorted(occurrences(path, terms)):
            print(f"{path}:{line}: \"{term.phrase}\": use \"{term.use}\"")
            count += 1
    print(f"{len(terms)} phrases in {len(files)} files, {count} occurrences")
    return 1 if count else 0


if __name__ == "__main__":
    sys.exit(main())
