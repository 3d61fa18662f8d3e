#!/usr/bin/env python3
"""Writes the statuses and the types of columns of tools/statuses.txt into the files that have them.

tools/statuses.py          writes them
tools/statuses.py --check  fails if a file differs from the table

They are the constants of crates/sel_ffi (src/status.rt and src/kinds.rt), the numbers in its specifications, the strings of c/status.c,
bindings/python/sel/_statuses.py and a part of bindings/rust/src/error.rs. tools/header.py writes the enumerations of include/sel.h.
"""

from __future__ import annotations

import pathlib
import re
import sys
import textwrap
from typing import Callable, Dict, List, NamedTuple

ROOT = pathlib.Path(__file__).resolve().parent.parent
TABLE = ROOT / "tools" / "statuses.txt"
HANDLE = ROOT / "crates" / "sel_ffi"
BEGIN, END = "begin: written by tools/statuses.py", "end: written by tools/statuses.py"

# the variant of the Rust crate's Error for each exception class of the Python package
VARIANTS = {"OutOfMemory": "OutOfMemory", "WrongArgument": "WrongArgument", "OutOfBounds": "OutOfBounds", "LimitPassed": "Limit",
            "BrokenRule": "Malformed", "BrokenText": "Text"}


class Status(NamedTuple):
    number: int
    name: str
    exception: str
    source: str
    text: str
    comment: str

    def c_name(self) -> str:
        return "SEL_OK" if self.name == "OK" else f"SEL_ERROR_{self.name}"

    def is_arrow(self) -> bool:
        return self.name.startswith("ARROW_")


class TypeId(NamedTuple):
    number: int
    name: str
    word: str
    comment: str

    def c_name(self) -> str:
        return f"SEL_TYPE_{self.name}"


def rows(section: str) -> List[List[str]]:
    """Returns the fields of the lines of a section, without the reserved ones."""
    found, here = [], ""
    for line in TABLE.read_text(encoding="utf-8").splitlines():
        if line.startswith("== "):
            here = line[3:]
        elif line and not line.startswith(("#", "reserved ")) and here == section:
            found.append(line.split(" | "))
    return found


def statuses() -> List[Status]:
    """Returns the statuses of all calls, those of the Arrow interface last."""
    found = [Status(int(row[0]), *row[1:]) for row in [*rows("statuses"), *rows("arrow")]]
    check_numbers([status.number for status in found])
    return found


def own_statuses() -> List[Status]:
    """Returns the statuses that the proved calls return."""
    return [status for status in statuses() if not status.is_arrow()]


def type_ids() -> List[TypeId]:
    found = [TypeId(int(row[0]), *row[1:]) for row in rows("types")]
    check_numbers([one.number for one in found])
    return found


def check_numbers(numbers: List[int]) -> None:
    if numbers != sorted(set(numbers)):
        sys.exit("tools/statuses.txt: the numbers of a section do not increase")


# The files: each function returns the new text of a file


def between(text: str, inside: str, comment: str, name: str) -> str:
    """Returns a text with what is between its two marker comments replaced."""
    begin, end = re.escape(f"{comment} {BEGIN}"), re.escape(f"{comment} {END}")
    found = re.search(rf"(?ms)^([ \t]*){begin}[^\n]*\n(.*?)^[ \t]*{end}", text)
    if not found:
        sys.exit(f"{name}: the comments `{comment} {BEGIN}` and `{comment} {END}` are missing")
    lines = "".join(f"{found[1]}{line}\n" if line else "\n" for line in inside.split("\n")[:-1])
    return text[: found.start(2)] + lines + text[found.end(2):]


def constants(text: str, items: List[tuple[str, str, int]], name: str) -> str:
    """Returns a module with the block of its constants replaced."""
    one = r"(?:^///[^\n]*\n)+^pub const \w+: u32 = \d+;\n"
    found = re.search(rf"(?m){one}(?:\n{one})*", text)
    if not found:
        sys.exit(f"{name}: it has no constants")
    lines = []
    for constant, comment, number in items:
        filled = textwrap.wrap(comment, 96, break_on_hyphens=False)
        lines.append("".join(f"/// {line}\n" for line in filled) + f"pub const {constant}: u32 = {number};\n")
    return text[: found.start()] + "\n".join(lines) + text[found.end():]


def status_module(text: str) -> str:
    return constants(text, [(status.name, status.comment, status.number) for status in own_statuses()], "status.rt")


def kinds_module(text: str) -> str:
    return constants(text, [(one.name, one.comment, one.number) for one in type_ids()], "kinds.rt")


def numbered(text: str, head: str, number: int, name: str) -> str:
    """Returns a specification with the number of one equation replaced."""
    new, count = re.subn(rf"(?m)^({re.escape(head)} = )\d+$", rf"\g<1>{number}", text)
    if count != 1:
        sys.exit(f"{name}: there is no line `{head} = NUMBER`, or more than one")
    return new


def status_specification(text: str) -> str:
    """The words of statuses have numbers, and so do the errors of kernels and the rules of columns; a word is left out if no contract needs it."""
    for status in own_statuses():
        if status.source != "-":
            text = numbered(text, f"{status.source.split('.')[0]}_status {status.source}", status.number, "Status.antt")
        elif f"abbrev pub {status.name.lower()} : " in text:
            text = numbered(text, status.name.lower(), status.number, "Status.antt")
    return text


def kinds_specification(text: str) -> str:
    for one in type_ids():
        if one.word == "-":
            text = numbered(text, "held_kind None", one.number, "Kinds.antt")
            continue
        found = re.search(rf"(?m)^kind_number \(?{one.word}\b[^=\n]*(?= = )", text)
        if not found:
            sys.exit(f"Kinds.antt: there is no line of {one.word}")
        text = numbered(text, found[0], one.number, "Kinds.antt")
    return text


def c_strings(text: str) -> str:
    lines = "".join(f'{{{status.c_name()}, "{status.text}"}},\n' for status in statuses())
    return between(text, lines, "/*", "c/status.c")


def python_module(text: str) -> str:
    """Returns the whole module: its old text does not matter."""
    del text
    numbers = "".join(f"{status.name} = {status.number}\n" for status in statuses())
    classes = "".join(f"    {status.name}: \"{status.exception}\",\n" for status in statuses() if status.exception != "-")
    return (f'"""The statuses of include/sel.h, and the exception class of each. Written by tools/statuses.py from tools/statuses.txt."""\n\n'
            f"from __future__ import annotations\n\n{numbers}\nEXCEPTIONS = {{\n{classes}}}\n")


def rust_part(text: str) -> str:
    """The constants, and the arms of the two functions that return the error of a status."""
    numbers = ""
    for status in statuses():
        comment = "".join(f"/// {line}\n" for line in textwrap.wrap(status.comment, 112, break_on_hyphens=False))
        numbers += f"{comment}pub const {status.name}: u32 = {status.number};\n"
    text = between(text, numbers, "//", "error.rs")
    arms: Dict[str, List[str]] = {}
    for status in statuses():
        if status.exception != "-":
            variant = "Arrow" if status.is_arrow() else VARIANTS[status.exception]
            arms.setdefault(variant, []).append(f"status::{status.name}")
    errors = "".join(arm(names, f"{variant}{'' if variant == 'OutOfMemory' else '(status)'}") for variant, names in arms.items() if variant != "Text")
    text = between(text, errors, "// errors,", "error.rs")
    return between(text, arm(arms["Text"], "Text { status, at }"), "// text errors,", "error.rs")


def arm(names: List[str], error: str) -> str:
    """Returns an arm of a match in the form of Rust's formatter, with 12 columns of indentation within 120."""
    pattern = " | ".join(names)
    if len(f"{pattern} => Error::{error},") <= 108:
        return f"{pattern} => Error::{error},\n"
    if len(f"{pattern} => {{") <= 108:
        return f"{pattern} => {{\n    Error::{error}\n}}\n"
    return "\n| ".join(names) + f" => Error::{error},\n"



WRITTEN: Dict[pathlib.Path, Callable[[str], str]] = {
    HANDLE / "src" / "status.rt": status_module,
    HANDLE / "src" / "kinds.rt": kinds_module,
    HANDLE / "specs" / "Status.antt": status_specification,
    HANDLE / "specs" / "Kinds.antt": kinds_specification,
    ROOT / "c" / "status.c": c_strings,
    ROOT / "bindings" / "python" / "sel" / "_statuses.py": python_module,
    ROOT / "bindings" / "rust" / "src" / "error.rs": rust_part,
}


def main() -> None:
    if sys.argv[1:] not in ([], ["--check"]):
        sys.exit(__doc__)
    stale = []
    for path, write in WRITTEN.items():
        old = path.read_text(encoding="utf-8") if path.exists() else ""
        new = write(old)
        if new != old:
            stale.append(str(path.relative_to(ROOT)))
            if not sys.argv[1:]:
                path.write_text(new, encoding="utf-8")
    if stale and sys.argv[1:]:
        sys.exit(f"out of date: {', '.join(stale)}: run tools/statuses.py")


if __name__ == "__main__":
    main()
