#!/usr/bin/env python3
"""Tries mutants: changed function bodies that the prover must reject. Needs the libraries that `rt ci` has proved and built.

tools/mutants.py               tries the mutants that tools/mutants.txt lists
tools/mutants.py CRATE/MUTANT  tries these; CRATE alone names every mutant of its folder mutants
tools/mutants.py --all         tries every mutant of every crate
tools/mutants.py --control ..  changes nothing in the functions of these mutants: each must be proved, so that a mutant is rejected for its change
tools/mutants.py --texts       proves nothing: checks that every mutant still finds the text that it changes

The toolchain's own check of mutants proves the whole crate for each. This script changes different functions of a crate at once and
checks only those functions: a function is proved against the contracts of what it calls, not against their bodies. So in the copy of
the crate every other function only calls one that is said never to return, which the prover accepts under any contract, in little
time. A function that several mutants change stands once for each in the copy, under another name. A mutant counts as rejected if a goal
of its own function stays open. If the only message is that the function calls another mutant, the mutant is tried again alone. `rt ci`
has proved each unchanged function before.
"""

from __future__ import annotations

import os
import pathlib
import re
import shutil
import subprocess
import sys
import tempfile
from concurrent.futures import ThreadPoolExecutor

ROOT = pathlib.Path(__file__).resolve().parent.parent
LIST = ROOT / "tools" / "mutants.txt"
sys.dont_write_bytecode = True
sys.path.insert(0, str(ROOT / "tools"))

from prover import crates_below, lines, words  # noqa: E402

# the first line of a function: its indentation, what keeps it from calling other functions of the crate, and its name
HEAD = re.compile(r'(?m)^([ \t]*)(?:pub(?:\([a-z]+\))? )?((?:const )?(?:extern "C" )?)fn (\w+)')
# the line of a constant: its indentation and its name
CONSTANT = re.compile(r"([ \t]*)(?:pub )?const (\w+): ")
# a function: its file, and how many functions begin before it there
Place = tuple[str, int]
# errors about a name that the mutant has removed: with such an error the prover has not tried the contract itself
GONE = re.compile(r"has no field|is not in scope|has no `|was not admitted")


class Mutant:
    """A change of one function's body that its contract must reject."""

    def __init__(self, path: pathlib.Path) -> None:
        self.path, old = path, ""
        self.pairs: list[tuple[str, str]] = []
        self.label = f"{path.parent.parent.name}/{path.stem}"
        for line in path.read_text().split("\n"):
            if line.startswith("file: "):
                self.file = line[len("file: "):]
            elif line.startswith("old: "):
                old = line[len("old: "):]
            elif line.startswith("new:"):
                self.pairs.append((old, line[len("new: "):]))
        text = (path.parent.parent / self.file).read_text()
        self.applied(text)
        before = self.up_to_change(text)
        self.names = names_at(self.file, before)
        # the place of the changed function: its file, and how many functions begin before it there
        self.place = self.file, len(HEAD.findall(before)) - 1
        self.repeatable = not constant_at(before) and is_repeatable(text, self.place[1], before)
        # what is appended to the function's name in the copy of the crate, if another mutant of the function has its own name there
        self.suffix = ""

    def applied(self, text: str) -> str:
        """Returns the text with the mutant applied. Each old text must occur once in the result of the earlier pairs."""
        for old, new in self.pairs:
            if text.count(old) != 1:
                sys.exit(f"{self.path.relative_to(ROOT)}: this text occurs {text.count(old)} times in {self.file}: {old}")
            text = text.replace(old, new)
        return text

    def up_to_change(self, text: str) -> str:
        """Returns the text up to the end of the line in which the last change begins, since that line may be the first of its function.

        The changes before it may only make its text unique. Those above all functions import a name, and do not count.
        """
        before = ""
        for old, new in self.pairs:
            head = text[:text.index("\n", text.index(old))]
            before = head if HEAD.search(head) or constant_at(head) else before
            text = text.replace(old, new)
        return before

    def called(self) -> list[str]:
        """Returns the names that the prover may use for the changed function in the copy of the crate."""
        return [name + self.suffix for name in self.names]

    def repeated(self, text: str, source: str) -> str:
        """Returns the text of its file in the copy with the function that stands at the same place in `source` once more, under the mutant's name."""
        lines, number = text.split("\n"), self.place[1]
        behind = lines_of(text, number).stop
        function = "\n".join(source.split("\n")[k] for k in lines_of(source, number))
        renamed = re.sub(rf"\bfn {self.names[-1]}\b", f"fn {self.called()[-1]}", function, count=1)
        return "\n".join([*lines[:behind], "", renamed, *lines[behind:]])

    def fits(self, text: str) -> bool:
        """Returns whether the mutant can be applied to a text in which other mutants have been applied."""
        for old, new in self.pairs:
            if text.count(old) != 1:
                return False
            text = text.replace(old, new)
        return True


def constant_at(before: str) -> tuple[str, str] | None:
    """Returns the indentation and the name of the constant in the last line of the text, or None."""
    found = CONSTANT.match(before.rsplit("\n", 1)[-1])
    return (found[1], found[2]) if found else None


def names_at(file: str, before: str) -> list[str]:
    """Returns the names that the prover may use for the constant in the last line of this text, or the last function that begins in it.

    They are by type and trait, by module, or alone.
    """
    indent, name = constant_at(before) or HEAD.findall(before)[-1][::2]
    module = [part for part in pathlib.Path(file).with_suffix("").parts[1:] if part not in ("mod", "lib", "main")]
    by_module = ["::".join([*module[-1:], name]), name]
    # (the prover's name of `impl From<A> for B` is `BFromA`)
    before = re.sub(r"(?m)^impl(?:<\w+: Drop>)? (\w+)<(\w+)(?:<\w+>)?> for ", r"impl \1\2 for ", before)
    heads = re.findall(r"(?m)^(?:impl(?:<.*>)? (?:([\w:]+)(?:<.*>)? for )?([\w:]+)(<.*>)?|(?:pub )?trait (\w+))", before)
    if not indent or not heads:
        return by_module
    trait, kind, arguments, own = heads[-1]
    # (`impl T for A<i64>` is `AI64T`, `impl A<i64>` is `A+i64`)
    numbers = re.findall(r"\b(?:[iu]\d+|[iu]size|bool)\b", arguments)
    of_numbers = "".join(name.capitalize() if trait else f"+{name}" for name in numbers)
    name_of_kind = kind.split("::")[-1]
    owner = own or f"{name_of_kind[:1].upper()}{name_of_kind[1:]}{of_numbers}{trait.split('::')[-1]}"
    return [f"{owner}::{name}", *by_module]


def is_repeatable(text: str, number: int, before: str) -> bool:
    """Returns whether a function can stand in its file twice: not one of a trait, of a type with arguments or in a cycle of calls."""
    lines = text.split("\n")
    k, indent, marks, _ = heads(lines)[number]
    owners = re.findall(r"(?m)^(?:impl\b.*|(?:pub )?trait .*)$", before)
    is_plain = not indent or re.fullmatch(r"impl(?:<.*>)? \w+(?:<(?:'\w+|[A-Z])>)? \{", owners[-1]) is not None
    return is_plain and not marks and not head_of(lines, k)[1] and body_of(lines, k, indent) is not None


def lines_of(text: str, number: int) -> range:
    """Returns the numbers of the lines of a function that has a body, with those of its attributes."""
    lines = text.split("\n")
    k, indent, _, name = heads(lines)[number]
    body = body_of(lines, k, indent)
    if not body:
        sys.exit(f"the function {name} has no body")
    return range(head_of(lines, k)[0], body[1] + 1)


def mutants_of(crate: str) -> list[pathlib.Path]:
    """Returns the files of all mutants of a crate."""
    return sorted((ROOT / "crates" / crate / "mutants").glob("*.edit"))


def path_of(label: str) -> pathlib.Path:
    """Returns the file of the mutant CRATE/MUTANT."""
    crate, _, name = label.partition("/")
    found = [path for path in mutants_of(crate) if path.stem == name]
    if not found:
        sys.exit(f"there is no mutant {label}")
    return found[0]


def listed() -> list[str]:
    """Returns the labels that tools/mutants.txt lists. Exits if there are none."""
    return [line for line in LIST.read_text().split("\n") if line and not line.startswith("#")] or sys.exit("tools/mutants.txt lists no mutant")


def selected(args: list[str]) -> list[pathlib.Path]:
    """Returns the files of the mutants that the arguments select. Exits if one of these selects none."""
    if args == ["--all"]:
        return some([path for crate in lines() for path in mutants_of(crate)], "any crate")
    return [path for arg in args or listed() for path in ([path_of(arg)] if "/" in arg else some(mutants_of(arg), arg))]


def some(mutants: list[pathlib.Path], crate: str) -> list[pathlib.Path]:
    """Returns the files of a crate's mutants. Exits if there are none."""
    return mutants or sys.exit(f"there is no mutant of {crate}")


CYCLE = re.compile(r"^ *#\[cycle\((\w+)\)\]$")

# A function that is said never to return, whose contract no function meets: after a call of it the prover takes every contract as met.
# A copy of a crate declares it, and the functions that its mutants do not change only call it.
NEVER = """
unsafe extern "C" {
    pub(crate) safe fn does_not_return()
        ensures { ⊥ };
}
"""


def head_of(lines: list[str], k: int) -> tuple[int, list[str]]:
    """Returns the first line of the attributes above line k, and the names of the cycles that these give."""
    first = k
    while first and lines[first - 1].lstrip().startswith("#["):
        first -= 1
    return first, [cycle[1] for cycle in map(CYCLE.match, lines[first:k]) if cycle]


def heads(lines: list[str]) -> list[tuple[int, str, str, str]]:
    """Returns for each function of a file the number of its first line, its indentation, what is written before `fn`, and its name."""
    return [(k, head[1], head[2], head[3]) for k, head in enumerate(map(HEAD.match, lines)) if head]


def cycles_of(sources: dict[str, str], kept: set[Place]) -> set[str]:
    """Returns the cycles of calls that the functions at the places in `kept` are in."""
    found = set()
    for file, text in sources.items():
        lines = text.split("\n")
        for number, (k, _, _, _) in enumerate(heads(lines)):
            if (file, number) in kept:
                found.update(head_of(lines, k)[1])
    return found


def body_of(lines: list[str], k: int, indent: str) -> tuple[int, int] | None:
    """Returns the first and the last line of the body of the function that begins in line k, or None if it has none.

    The formatter begins the body on a line of its own after a contract, else on the last line of the head, and ends it on one of its own.
    """
    for j in range(k, len(lines)):
        if lines[j] == f"{indent}{{" or (lines[j].endswith(" {") and (j == k or lines[j].startswith(f"{indent})"))):
            return j, lines.index(f"{indent}}}", j)
        if lines[j].endswith(";") and lines[j].startswith((f"{indent})", f"{indent}fn ")) or (j > k and HEAD.match(lines[j])):
            return None
    return None


def shortened(file: str, text: str, kept: set[Place], cycles: set[str]) -> tuple[str, list[str]]:
    """Returns the text of a file with the bodies of its functions replaced by a call of one that never returns, and their names.

    Leaves out the functions at the places in `kept`, and those that are proved in one cycle of calls with one of them. A name is that by
    type and trait, or by module, as the prover may use it.
    """
    lines, names = text.split("\n"), []
    for number, (k, indent, marks, _) in reversed(list(enumerate(heads(lines)))):
        first, own = head_of(lines, k)
        body = None if marks or (file, number) in kept or cycles.intersection(own) else body_of(lines, k, indent)
        if body:
            names.append(names_at(file, "\n".join(lines[:k + 1]))[0])
            lines[body[0] + 1:body[1]] = [f"{indent}    crate::does_not_return();", f"{indent}    unreachable!()"]
            lines[first:k] = [line for line in lines[first:k] if not CYCLE.match(line)]
    return "\n".join(lines), names


def proofs_of(proofs: pathlib.Path, file: str, name: str) -> list[pathlib.Path]:
    """Returns the proof files of a function, by its source file and its name. Those of a method stand in the module of its type."""
    module = module_of(proofs, file)
    owner, _, last = name.rpartition("::")
    folder = module / last if owner == module.name else module / owner / last
    if owner[:1].isupper() and not folder.is_dir():
        # (the folder of `impl A<i64>` is `A+i64`, the prover's name for it is `AI64`)
        elsewhere = [it for it in proofs.rglob(last) if re.sub(r"\+(\w)", lambda found: found[1].upper(), it.parent.name) == owner]
        folder = elsewhere[0] if len(elsewhere) == 1 else folder
    return [folder / f"{kind}.antt" for kind in ("Answers", "Invariants", "Proof")]


def module_of(proofs: pathlib.Path, file: str) -> pathlib.Path:
    """Returns the folder of the proofs of a source file."""
    module = proofs.joinpath(*pathlib.Path(file).with_suffix("").parts[1:])
    return module.parent if module.name in ("mod", "lib", "main") else module


class Trial:
    """A copy of a crate, in which its mutants are tried in rounds."""

    def __init__(self, crate: str, mutants: list[Mutant], room: str, control: bool) -> None:
        self.crate, self.left, self.failed, self.control = crate, mutants, 0, control
        self.short, self.shown = True, ""
        self.whole: set[Place] = set()
        self.repeats: list[Mutant] = []
        self.folder = pathlib.Path(room) / crate

    def run(self) -> int:
        """Tries each mutant: in one check as many as the copy can have side by side, and alone those without a result."""
        alone = False
        while self.left:
            made = self.next_round(alone)
            settled = self.check(made)
            for mutant, why in settled:
                self.report(mutant, why)
                self.left.remove(mutant)
            if not settled and self.short:
                # a function that the prover cannot read if it is shortened keeps its body, else all do
                self.short = self.keep_unread()
                if not self.short:
                    print(f"{self.crate}: all functions keep their bodies, which takes longer. The prover says: {self.shown[:300]}", flush=True)
                continue
            if not settled and len(made) == 1:
                self.report(made[0], "the prover gives another function as the reason, or gives no result")
                self.left.remove(made[0])
            alone = not settled
        return self.failed

    def next_round(self, alone: bool) -> list[Mutant]:
        """Applies mutants to the copy, only one if `alone`, and returns them. A function that can be repeated stands there once for each of its mutants."""
        made: list[Mutant] = []
        texts: dict[str, str] = {}
        for mutant in self.left[:1] if alone else self.left:
            text = texts.get(mutant.file, self.source(mutant))
            before = sum(it.names == mutant.names for it in made)
            if mutant.repeatable if before else mutant.fits(text):
                mutant.suffix = f"_{before + 1}" if before else ""
                texts[mutant.file] = text if self.control or before else mutant.applied(text)
                made.append(mutant)
        self.repeats = [mutant for mutant in made if mutant.suffix]
        self.write(texts, {mutant.place for mutant in made})
        return made

    def source(self, mutant: Mutant) -> str:
        """Returns the unchanged text of the mutant's file."""
        return (ROOT / "crates" / self.crate / mutant.file).read_text()

    def repeat(self, mutant: Mutant) -> None:
        """Writes the mutant's function, and its proofs, into the copy once more, under the mutant's name."""
        file, source = self.folder / mutant.file, self.source(mutant)
        file.write_text(mutant.repeated(file.read_text(), source if self.control else mutant.applied(source)))
        proofs = self.folder / "proofs"
        for proof in filter(pathlib.Path.exists, proofs_of(proofs, mutant.file, mutant.names[0])):
            folder = proof.parent.with_name(proof.parent.name + mutant.suffix)
            folder.mkdir(exist_ok=True)
            name = ".".join(["Rattle", self.crate, "proofs", *proof.parent.relative_to(proofs).parts])
            (folder / proof.name).write_text(re.sub(rf"\b{re.escape(name)}\.", f"{name}{mutant.suffix}.", proof.read_text()))

    def write(self, texts: dict[str, str], kept: set[Place]) -> None:
        """Writes the crate anew with these changed texts. Functions that are not in `kept` are shortened, and lose their proofs."""
        origin = ROOT / "crates" / self.crate
        shutil.rmtree(self.folder, ignore_errors=True)
        shutil.copytree(origin, self.folder, ignore=shutil.ignore_patterns("out"))
        sources = {str(path.relative_to(origin)): path.read_text() for path in sorted((origin / "src").rglob("*.rt"))}
        sources.update(texts)
        whole = kept | self.whole
        cycles = cycles_of(sources, whole)
        for file, text in sources.items():
            names: list[str] = []
            if self.short:
                text, names = shortened(file, text, whole, cycles)
                text += NEVER if file in ("src/lib.rt", "src/main.rt") else ""
            (self.folder / file).write_text(text)
            module = module_of(self.folder / "proofs", file)
            for name in names:
                for proof in proofs_of(self.folder / "proofs", file, name):
                    proof.unlink(missing_ok=True)
            for cycle in module.glob("+*"):
                if self.short and cycle.name[1:] not in cycles:
                    shutil.rmtree(cycle)
        # from the end of a file to its beginning, so that the places before stay as they are
        for mutant in sorted(self.repeats, key=lambda it: it.place, reverse=True):
            self.repeat(mutant)

    def keep_unread(self) -> bool:
        """Adds the functions at which the prover has reported an error in the sources to those that keep their bodies; returns whether there are any."""
        before = len(self.whole)
        for file, line in re.findall(r"(?m)^(?:\./)?(src/\S+\.rt):(\d+):\d+: error", self.shown):
            text = "\n".join((self.folder / file).read_text().split("\n")[:int(line)])
            repeated = [mutant.called()[-1] for mutant in self.repeats if mutant.file == file]
            self.whole.add((file, sum(name not in repeated for _, _, name in HEAD.findall(text)) - 1))
        return len(self.whole) > before

    def check(self, made: list[Mutant]) -> list[tuple[Mutant, str]]:
        """Checks the changed functions. Returns the mutants with a result, each with the reason why it is not rejected, or ""."""
        links = "nothing" if self.short else ""
        command = [*words("check", self.crate, self.folder, links), "--jobs", "1"]
        names = {mutant: mutant.called() for mutant in made}
        while True:
            only = [word for mutant in made for word in ("--only", names[mutant][0])]
            shown = subprocess.run([*command, *only], cwd=self.folder, stdout=subprocess.PIPE, stderr=subprocess.STDOUT, text=True).stdout
            unknown = re.search(r"has no function `([\w:]+)`", shown)
            wrong = [mutant for mutant in made if unknown and names[mutant][0] == unknown.group(1) and len(names[mutant]) > 1]
            if not wrong:
                break
            for mutant in wrong:
                names[mutant].pop(0)
        self.shown = shown
        if not re.search(r"(?m)^only=\d+ proved=\d+", shown):
            return [(made[0], f"the prover cannot read it:\n{shown[-900:]}")] if len(made) == 1 and not self.short else []
        judge = unchanged if self.control else verdict
        verdicts = [(mutant, judge(shown, self.crate, names[mutant][0])) for mutant in made]
        return [(mutant, why) for mutant, why in verdicts if why is not None]

    def report(self, mutant: Mutant, why: str) -> None:
        good, bad = ("proved without its change", "NOT PROVED without its change: ") if self.control else ("rejected", "NOT REJECTED: ")
        print(f"{mutant.label}: {bad + why if why else good}", flush=True)
        self.failed += bool(why)


def said_of(shown: str, crate: str, name: str) -> list[tuple[str, str]]:
    """Returns the functions of this name that the prover reports, each with its verdict."""
    return re.findall(rf"(?m)^fn ({crate}::(?:\S+::)?{re.escape(name)}): (.*)$", shown)


def unchanged(shown: str, crate: str, name: str) -> str | None:
    """Returns why the unchanged function is not proved, or ""."""
    found = said_of(shown, crate, name)
    return "" if len(found) == 1 and found[0][1] == "proved" else f"the prover says {found}"


def verdict(shown: str, crate: str, name: str) -> str | None:
    """Returns why the mutant of this function is not rejected, "" if it is rejected, and None if the output has no result for it."""
    found = said_of(shown, crate, name)
    if len(found) != 1:
        return f"the prover reports {len(found)} functions {name}"
    function, said = found[0]
    if said == "proved":
        return f"{name} is still proved"
    folder = "/".join(function.split("::")[1:])
    errors = re.findall(rf"(?m)^\./proofs/{re.escape(folder)}/.*: error: .*$", shown)
    if "did not prove `" in said or any(not GONE.search(error) for error in errors):
        return ""
    if "it calls `" in said or said.startswith("could not tell"):
        return None
    if errors:
        return f"a proof uses a name that the mutant removes, so the contract was not tried: {errors[0][:200]}"
    return ""


def try_crate(crate: str, mutants: list[Mutant], control: bool) -> tuple[int, int]:
    """Returns how many mutants of a crate were tried, and how many are not rejected."""
    with tempfile.TemporaryDirectory() as room:
        return len(mutants), Trial(crate, list(mutants), room, control).run()


def check_texts() -> int:
    """Checks that every mutant can be applied, that every listed one exists, that crates can be shortened for mutants, and functions repeated."""
    mutants = [Mutant(path) for path in selected(["--all"])]
    for label in listed():
        path_of(label)
    for crate in lines():
        check_shortened(crate)
    for mutant in mutants:
        if mutant.repeatable:
            check_repeated(mutant)
    print(f"{len(mutants)} mutants find their texts")
    return 0


def check_repeated(mutant: Mutant) -> None:
    """Checks that the function of a mutant can stand in its file twice, with its body, the second time under the mutant's name."""
    source = (ROOT / "crates" / mutant.path.parent.parent.name / mutant.file).read_text()
    mutant.suffix = "_2"
    found, before = heads(mutant.repeated(source, source).split("\n")), heads(source.split("\n"))
    number = mutant.place[1]
    if len(found) != len(before) + 1 or found[number + 1][3] != found[number][3] + mutant.suffix:
        sys.exit(f"{mutant.path.relative_to(ROOT)}: the function that it changes cannot be repeated in {mutant.file}")
    mutant.suffix = ""


def check_shortened(crate: str) -> None:
    """Checks that no function of a crate stays in a cycle of calls if no mutant needs it: the prover would refuse the copy."""
    for path in sorted((ROOT / "crates" / crate / "src").rglob("*.rt")):
        file = str(path.relative_to(ROOT / "crates" / crate))
        text, _ = shortened(file, path.read_text(), set(), set())
        if "#[cycle(" in text:
            sys.exit(f"crates/{crate}/{file}: a function in a cycle of calls is not shortened for the mutants of other functions")


def main() -> int:
    if sys.argv[1:] == ["--texts"]:
        return check_texts()
    control, args = "--control" in sys.argv[1:], [word for word in sys.argv[1:] if word != "--control"]
    by_crate: dict[str, list[Mutant]] = {}
    for mutant in map(Mutant, selected(args)):
        by_crate.setdefault(mutant.path.parent.parent.name, []).append(mutant)
    uses = {crate: below for crate, (_, below) in lines().items()}
    needed = {library for crate in by_crate for library in crates_below(crate, uses)}
    missing = sorted(crate for crate in needed if not (ROOT / "crates" / crate / "out" / "rlib").exists())
    if missing:
        sys.exit(f"`rt ci` has not built these libraries yet: {' '.join(missing)}")
    # the crates with the most mutants first, each on a processor of its own
    order = sorted(by_crate, key=lambda crate: -len(by_crate[crate]))
    with ThreadPoolExecutor(len(os.sched_getaffinity(0))) as pool:
        counts = list(pool.map(lambda crate: try_crate(crate, by_crate[crate], control), order))
    failed = sum(bad for _, bad in counts)
    tried = sum(count for count, _ in counts)
    print(f"{tried - failed} {'functions proved without the change of their mutant' if control else 'mutants rejected'}, {failed} not")
    return 1 if failed else 0


if __name__ == "__main__":
    sys.exit(main())
