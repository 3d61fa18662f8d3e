#!/usr/bin/env python3
"""Checks that each link of the documents leads to a file that exists, and to a heading or a line that it has; that each sample of
code behind a comment `<!-- from FILE -->` is a part of that file, indentation aside; that each word of docs/DEFINITIONS.md stands in
the file that its row names; and that the page lists each word that a source brings into its contracts from a library.

tools/links.py     prints each broken link, each sample and each word that is not in its file or not listed; the status is 1 if there is one
"""

from __future__ import annotations

import functools
import pathlib
import re
import sys
import urllib.parse
from collections.abc import Iterator

ROOT = pathlib.Path(__file__).resolve().parent.parent
SAMPLE = re.compile(r"^<!-- from (\S+) -->\n```\w*\n(.*?)^```$", re.M | re.S)
LINK = re.compile(r"(?<!\\)\]\(([^()\s]*(?:\([^()]*\)[^()\s]*)*)\)")


@functools.lru_cache(maxsize=None)
def anchors_of(page: pathlib.Path) -> set[str]:
    """The names of a page's headings, as they are linked: in lower case, without marks, with hyphens for spaces."""
    heads = re.findall(r"^#+ +(.*?)\s*$", page.read_text(), re.M)
    plain = [re.sub(r"[^\w\- ]", "", re.sub(r"`|\*", "", head)).lower().replace(" ", "-") for head in heads]
    return set(plain) | set(re.findall(r'<a (?:id|name)="([^"]+)"', page.read_text()))


@functools.lru_cache(maxsize=None)
def lines_of(file: pathlib.Path) -> int:
    return file.read_bytes().count(b"\n") + 1


def fault_of(page: pathlib.Path, link: str) -> str | None:
    """Why a link leads nowhere, or nothing."""
    if re.match(r"[a-z]+:", link):
        return None
    path, _, mark = link.partition("#")
    target = (page.parent / urllib.parse.unquote(path)).resolve() if path else page
    if not target.exists():
        return "no such file"
    line = re.fullmatch(r"L(\d+)", mark)
    if line and target.is_file() and int(line[1]) > lines_of(target):
        return "no such line"
    if mark and not line and target.suffix == ".md" and mark not in anchors_of(target):
        return "no such heading"
    return None


def unindented(text: str) -> str:
    """The lines of a text without their indentation, and without those that are empty at its ends."""
    return "\n".join(line.strip() for line in text.strip("\n").split("\n"))


def wrong_samples(page: pathlib.Path) -> Iterator[str]:
    """Says of each sample of a page that its file does not have."""
    for path, sample in SAMPLE.findall(page.read_text()):
        file = ROOT / path
        if not file.exists() or f"\n{unindented(sample)}\n" not in f"\n{unindented(file.read_text())}\n":
            yield f"{page.relative_to(ROOT)}: the sample is not in {path}"


def wrong_words(page: pathlib.Path) -> Iterator[str]:
    """Says of each word that a page of definitions lists and the files of its row do not have."""
    for part in re.split(r"^## ", page.read_text(), flags=re.M)[1:]:
        folders = [ROOT / folder for folder in re.findall(r"`(crates/\w+/specs)`", part.partition("\n")[0])]
        for word, name in re.findall(r"^\| `([^`]+)` \| `(\w+)` \|", part, flags=re.M):
            text = "\n".join(file.read_text() for folder in folders for file in folder.rglob(f"{name}.antt"))
            if not re.search(rf"(?<![\w'-]){re.escape(word)}(?![\w'-])", text):
                yield f"{page.relative_to(ROOT)}: {word} is not in {name}"


def unlisted_words(page: pathlib.Path) -> Iterator[str]:
    """Says of each word that a source brings into its contracts from a library's specs and a page of definitions does not list."""
    listed = {word for row in re.findall(r"^\| (`[^|]*) \|", page.read_text(), flags=re.M) for word in re.findall(r"`([^`]+)`", row)}
    for file in sorted(ROOT.glob("crates/*/src/**/*.rt")):
        brought = re.findall(r"ghost use Rattle\.(\w+)\.specs\.(?!declared|contracts)[\w.]+\.\{([^}]*)\}", file.read_text())
        for word in [word.split(" as ")[0].strip() for crate, words in brought if (ROOT / "crates" / crate / "src" / "lib.rt").exists() for word in words.split(",")]:
            if word not in listed:
                yield f"{page.relative_to(ROOT)}: {word} is not listed, which {file.relative_to(ROOT)} uses"


def main() -> int:
    pages = [page for page in sorted(ROOT.rglob("*.md")) if not {"out", "build", ".git"} & set(page.relative_to(ROOT).parts)]
    count, faults = 0, []
    for page in pages:
        for link in LINK.findall(re.sub(r"^ {4}.*$", "", page.read_text(), flags=re.M)):
            count += 1
            why = fault_of(page, link)
            if why:
                faults.append(f"{page.relative_to(ROOT)}: {link}: {why}")
    faults += [fault for page in pages for fault in wrong_samples(page)]
    faults += [*wrong_words(ROOT / "docs" / "DEFINITIONS.md"), *unlisted_words(ROOT / "docs" / "DEFINITIONS.md")]
    print("\n".join([*faults, f"{count} links in {len(pages)} documents, {len(faults)} faults"]))
    return 1 if faults else 0


if __name__ == "__main__":
    sys.exit(main())
