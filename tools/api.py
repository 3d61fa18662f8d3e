#!/usr/bin/env python3
"""Writes docs/API.md: each public function of the libraries, those of include/sel.h too, with its comment, its contract, its mutants and
a test that calls it.

tools/api.py          writes the page
tools/api.py --check  fails if the page differs from what the sources give, or if an example is read wrongly
"""

from __future__ import annotations

import pathlib
import re
import sys
import tempfile

ROOT = pathlib.Path(__file__).resolve().parent.parent
PAGE = ROOT / "docs" / "API.md"
# the crates whose public functions the page lists; the other crates are the program and the tests. The functions of sel_c are those of
# include/sel.h
LIBRARIES = ["sel_bits", "sel_arrow", "sel_text", "sel_filter", "sel_runs", "sel_gather", "sel_ternary", "sel_kernels", "polars_compute", "sel_ffi", "sel_c", "sel_lines"]
ITEM = re.compile(r"^(?P<indent> *)(?P<pub>pub )?(?:const |extern \"C\" )?fn (?P<name>\w+)")
OWNER = re.compile(r"^(?:pub )?(?P<kind>impl|trait)\b(?P<rest>.*?)\{?$")
# a test file: its path, the words that it uses of each crate, and the names that it calls
TestFile = tuple[pathlib.Path, dict[str, set[str]], set[str]]


class Call:
    """A public function: its place in the sources, its name, its comment and its text up to the body."""

    def __init__(
        self, crate: str, path: pathlib.Path, line: int, owner: str | None, name: str, comment: list[str], text: list[str], end: int
    ) -> None:
        self.crate, self.path, self.line, self.owner = crate, path, line, owner
        self.name, self.comment, self.text, self.end = name, comment, text, end
        # the module by which callers name it, if not that of its file
        self.module: list[str] | None = None

    def title(self) -> str:
        if self.crate == "sel_c":
            return self.name
        return "::".join([*(self.module or path_of(self.crate, self.path)), *([self.owner] if self.owner else []), self.name])


def path_of(crate: str, path: pathlib.Path) -> list[str]:
    """Returns the path of the module in a file."""
    inside = path.relative_to(ROOT / "crates" / crate / "src").with_suffix("").parts
    return [crate] + [part for part in inside if part not in ("lib", "mod")]


def exports(crate: str) -> dict[tuple[str, ...], dict[str, list[str]]]:
    """Returns for each module of a crate the names that another one re-exports from it, with that module."""
    found: dict[tuple[str, ...], dict[str, list[str]]] = {}
    for path in sorted((ROOT / "crates" / crate / "src").rglob("*.rt")):
        here = path_of(crate, path)
        for way, words in re.findall(r"^pub use ([\w:]+)::\{?([^;}]*)\}?;", path.read_text(), re.M):
            first, *rest = way.split("::")
            there = {"crate": [crate], "self": here}.get(first, [*here, first])
            found.setdefault((*there, *rest), {}).update({word.strip(): here for word in words.split(",")})
    return found


def is_public(crate: str, path: pathlib.Path) -> bool:
    """Returns whether each module on the path to a file is public. C calls the functions of sel_c by their names alone, so its modules count as
    public, except those below another: their functions are not exported."""
    at = ROOT / "crates" / crate / "src"
    if crate == "sel_c":
        return path.parent == at
    for part in path_of(crate, path)[1:]:
        above = at / "mod.rt" if (at / "mod.rt").exists() else at / "lib.rt"
        if not re.search(rf"^pub mod {part};", above.read_text(), re.M):
            return False
        at = at / part
    return True


def public_calls(crate: str, path: pathlib.Path, exported: dict[str, list[str]]) -> list[Call]:
    """Returns the functions of a file that callers can name: all of a public module, else those that another module re-exports."""
    calls = calls_of(crate, path)
    if is_public(crate, path):
        return calls
    found = [(call, exported.get(call.owner or call.name)) for call in calls]
    for call, module in found:
        call.module = module
    return [call for call, module in found if module]


def owner_of(line: str) -> str | None:
    """Returns the name of the type of an impl, or of the trait."""
    found = OWNER.match(line)
    if not found:
        return None
    rest = re.sub(r"<[^<>]*(?:<[^<>]*>[^<>]*)*>", "", found["rest"])
    words = re.findall(r"\w+", rest.split(" for ")[-1].split(":")[0])
    return words[0] if words else None


def comment_above(lines: list[str], at: int) -> list[str]:
    """Returns the `///` lines above an item, without its attributes."""
    found = []
    while at > 0 and re.match(r"^ *(///|#\[)", lines[at - 1]):
        at -= 1
        if lines[at].lstrip().startswith("///"):
            found.append(lines[at].strip()[3:].strip())
    return found[::-1]


def end_of_head(lines: list[str], at: int, indent: str) -> int:
    """Returns the line at which the signature and the contract end and the body begins."""
    depth = 0
    for i in range(at, len(lines)):
        line, opened = lines[i], lines[i].count("{") - lines[i].count("}")
        # a record in a clause has lines that end in a semicolon
        if line.rstrip() in (indent + "{", indent + "{}") or (line.endswith((";", " {}")) and depth + opened == 0):
            return i
        if line.endswith(" {") and not re.match(r"^ *(requires|ensures)", line) and opened > 0 and depth == 0:
            return i
        depth += opened
    return len(lines) - 1


def calls_of(crate: str, path: pathlib.Path) -> list[Call]:
    """Returns the public functions of a file, with the methods of its public traits."""
    lines = path.read_text().split("\n")
    found, owner, in_trait = [], None, False
    for at, line in enumerate(lines):
        if re.match(r"^(pub )?(impl|trait)\b", line):
            owner = owner_of(line)
            in_trait = line.startswith("pub trait") or bool(re.match(r"^impl.* for ", line))
        elif line == "}":
            owner, in_trait = None, False
        item = ITEM.match(line)
        if not item or not (item["pub"] or (in_trait and owner)) or line.startswith("impl"):
            continue
        comment = comment_above(lines, at)
        if in_trait and not item["pub"] and not comment:
            continue
        end = end_of_head(lines, at, item["indent"])
        head = [text[len(item["indent"]):].rstrip() for text in lines[at:end]]
        last = lines[end][len(item["indent"]):].rstrip()
        if last not in ("{", "{}"):
            head.append(last.removesuffix(" {}").removesuffix(" {"))
        found.append(Call(crate, path, at + 1, owner, item["name"], comment, head, end))
    return found


def mutants_of(crate: str) -> list[tuple[pathlib.Path, str, pathlib.Path]]:
    """Returns the mutants of a crate: the source file, the first text that each changes, and its own file."""
    found = []
    for mutant in sorted((ROOT / "crates" / crate / "mutants").glob("*.edit")):
        text = mutant.read_text()
        file = re.search(r"^file: (.*)$", text, re.M)
        old = re.search(r"^old: (.*)$", text, re.M)
        if file and old:
            found.append((ROOT / "crates" / crate / file[1], old[1], mutant))
    return found


def enclosing(calls: list[Call], path: pathlib.Path, text: str) -> Call | None:
    """Returns the public function whose body contains a text, if there is one."""
    if not path.exists():
        return None
    lines = path.read_text().split("\n")
    for at, line in enumerate(lines):
        if text in line:
            over = [call for call in calls if call.path == path and call.line - 1 <= at]
            last = max(over, key=lambda call: call.line, default=None)
            later = [i for i in range(last.end + 1, at) if ITEM.match(lines[i])] if last else []
            return None if later else last
    return None


def used_words(text: str) -> dict[str, set[str]]:
    """Returns, for each crate that a file imports from, the words of its `use` items."""
    found: dict[str, set[str]] = {}
    for crate, rest in re.findall(r"(?m)^use (\w+)::([^;]*);", text):
        found.setdefault(crate, set()).update(re.findall(r"\w+", rest))
    return found


def test_files() -> list[TestFile]:
    """Returns the path, the used words and the called names of each test file. (In the modules alloc_* each call is between marks, which makes
    it a poor example.)"""
    paths = [path for path in sorted((ROOT / "crates").glob("tests_*/src/*.rt")) if not path.name.startswith("alloc_")]
    found = []
    for path in [*paths, ROOT / "crates/sel_bench/src/tests.rt"]:
        text = path.read_text()
        code = "\n".join(line for line in text.split("\n") if not line.lstrip().startswith(("use ", "//")))
        found.append((path, used_words(text), set(re.findall(r"(?<!fn )\b(\w+)(?:::<[^()]*>)?\(", code))))
    return found


def test_of(call: Call, files: list[TestFile]) -> pathlib.Path | None:
    """Returns the first test file that calls a function: one that imports it, or, for a method, imports from its crate."""
    for path, used, called in files:
        words = used.get(call.crate, set()) | (used.get("polars_compute", set()) if not call.owner else set())
        if call.name in called and (call.crate in used if call.owner else call.name in words):
            return path
    return None


def link(path: pathlib.Path) -> str:
    """Returns a link from the page to a file. It has no line number, so the page changes only if an interface changes."""
    there = path.relative_to(ROOT)
    return f"[{there}](../{there})"


def paragraphs(comment: list[str]) -> list[str]:
    """Returns the paragraphs of a comment, one on each line, with an empty line after each. Its headings are bold: the page has its own."""
    out: list[str] = []
    for text in "\n".join(comment).split("\n\n"):
        head, _, rest = text.partition("\n") if text.startswith("# ") else ("", "", text)
        out += [f"**{head[2:]}**", ""] if head else []
        out += [" ".join(rest.split()), ""]
    return out


def section(call: Call, mutants: list[pathlib.Path], tests: list[TestFile], shared: set[str]) -> list[str]:
    """Returns the section of one function. It names no test if several functions have the same name."""
    out = [f"### `{call.title()}`", ""]
    if call.comment:
        out += paragraphs(call.comment)
    out += ["```rust"] + call.text + ["```", ""]
    facts = [f"source {link(call.path)}"]
    if mutants:
        facts.append("mutants " + ", ".join(f"[{mutant.stem}](../{mutant.relative_to(ROOT)})" for mutant in mutants))
    test = None if call.name in shared else test_of(call, tests)
    if test:
        facts.append(f"called in {link(test)}")
    return out + ["; ".join(facts), ""]


def page() -> str:
    """Returns the whole page."""
    tests = test_files()
    out = [
        "# Reference",
        "",
        "Each public function of the libraries, with its contract; `sel_c` has the functions of [sel.h](../include/sel.h). `tools/api.py` writes this page from the sources; `make check` and `make test` fail if it is out of date. [DEFINITIONS.md](DEFINITIONS.md) defines the words of the contracts.",
        "",
        "A function's mutants are changes of its body that the prover must reject. The page omits mutants of private functions.",
        "",
        "`polars_compute` re-exports the modules of `sel_kernels` and `sel_ternary`, so `sel_kernels::filter::filter` is also `polars_compute::filter::filter`.",
        "",
    ]
    bodies, found = [], {}
    for crate in LIBRARIES:
        paths = sorted((ROOT / "crates" / crate / "src").rglob("*.rt"))
        named = exports(crate)
        calls = [call for path in paths for call in public_calls(crate, path, named.get(tuple(path_of(crate, path)), {}))]
        if calls:
            found[crate] = calls
    names = [call.name for calls in found.values() for call in calls]
    shared = {name for name in names if names.count(name) > 1}
    for crate, calls in found.items():
        changed: dict[int, list[pathlib.Path]] = {}
        for path, text, mutant in mutants_of(crate):
            call = enclosing(calls, path, text)
            if call:
                changed.setdefault(id(call), []).append(mutant)
        out.append(f"- [`{crate}`](#{crate}): {len(calls)} functions")
        bodies += ["", f"## {crate}", ""]
        for call in calls:
            bodies += section(call, changed.get(id(call), []), tests, shared)
    return "\n".join(out + bodies).rstrip("\n") + "\n"


# Functions that the page has: with and without an owner, in a trait; and a private one, whose text is not that of the function before it
EXAMPLE = """\
/// Returns one.
#[inline]
pub fn one(a: u8) -> u8
    requires small { a < 9 }
    ensures { result ≡ 1 }
{
    unit()
}

fn unit() -> u8 {
    1
}

/// Returns two.
pub fn both() -> Two
    ensures { result ≡ record {
      one = 1;
    } }
{
    Two { one: 1 }
}

impl<T: Drop> Pair<T> {
    /// Returns the first.
    ///
    /// Of two.
    pub fn first(&self) -> &T {
        &self.first
    }

    fn second(&self) -> &T {
        &self.second
    }
}

pub trait Size {
    /// Returns how many.
    fn size(&self) -> usize
        ensures { result ≡ length self.now };

    fn without_comment(&self) -> usize;
}
"""
# what the page says of each: the owner, the comment and the text
READ = [
    (None, ["Returns one."], ["pub fn one(a: u8) -> u8", "    requires small { a < 9 }", "    ensures { result ≡ 1 }"]),
    (None, ["Returns two."], ["pub fn both() -> Two", "    ensures { result ≡ record {", "      one = 1;", "    } }"]),
    ("Pair", ["Returns the first.", "", "Of two."], ["pub fn first(&self) -> &T"]),
    ("Size", ["Returns how many."], ["fn size(&self) -> usize", "    ensures { result ≡ length self.now };"]),
]
# the function that a mutant with this text changes
CHANGED = {"unit()": "one", "    1": None, "&self.first": "first", "&self.second": None}


def check_example() -> None:
    """Checks that the functions of an example are found, with their comments and contracts, and the function of each mutant."""
    with tempfile.TemporaryDirectory() as made:
        path = pathlib.Path(made) / "lib.rt"
        path.write_text(EXAMPLE)
        calls = calls_of("example", path)
        read = [(call.owner, call.comment, call.text) for call in calls]
        if read != READ:
            sys.exit(f"failed: the functions of the example are read as {read}")
        for text, name in CHANGED.items():
            call = enclosing(calls, path, text)
            if (call.name if call else None) != name:
                sys.exit(f"failed: a change of `{text}` is read as one of {call.name if call else None}")


def main() -> None:
    text = page()
    if sys.argv[1:] == ["--check"]:
        check_example()
        if not PAGE.exists() or PAGE.read_text() != text:
            sys.exit("docs/API.md is out of date: run tools/api.py")
        return
    PAGE.write_text(text)


if __name__ == "__main__":
    main()
