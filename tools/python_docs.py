#!/usr/bin/env python3
"""Writes docs/PYTHON.md: each public name of the Python package, with its signature and its docstring.

tools/python_docs.py          writes the page
tools/python_docs.py --check  fails if the page differs from what the sources give

The sources are read and not imported, so the library need not be built.
"""

from __future__ import annotations

import ast
import pathlib
import re
import sys
import textwrap
from typing import Dict, Iterator, List, NamedTuple, Tuple, Union

ROOT = pathlib.Path(__file__).resolve().parent.parent
PACKAGE = ROOT / "bindings" / "python" / "sel"
PAGE = ROOT / "docs" / "PYTHON.md"
HEAD = """# The Python package

Written by `tools/python_docs.py` from the docstrings of `bindings/python/sel`, which `help(sel)` shows too. The examples are tested.
[bindings/README.md](../bindings/README.md#python) says how to install the package. In signatures, `Array` is an array of numpy, and
`Boolean` a `bool` or a `numpy.bool_`."""

Function = ast.FunctionDef
Item = Union[ast.FunctionDef, ast.ClassDef]


class Module(NamedTuple):
    """A module: its text, and its top-level classes and functions by their names."""

    text: str
    items: Dict[str, Item]

    def source(self, node: ast.AST) -> str:
        return ast.get_source_segment(self.text, node) or ""


def read(name: str) -> Tuple[ast.Module, Module]:
    text = (PACKAGE / f"{name}.py").read_text(encoding="utf-8")
    tree = ast.parse(text)
    return tree, Module(text, {item.name: item for item in tree.body if isinstance(item, (ast.FunctionDef, ast.ClassDef))})


def public_names(package: ast.Module) -> Iterator[Tuple[str, str]]:
    """Yields the names that the package imports from its modules, each with its module."""
    for item in package.body:
        if isinstance(item, ast.ImportFrom) and item.level == 1:
            for alias in item.names:
                yield alias.name, str(item.module)


def decorators(function: Function) -> List[str]:
    return [decorator.id for decorator in function.decorator_list if isinstance(decorator, ast.Name)]


def signature(module: Module, function: Function) -> str:
    """Returns the parameters and the result of a function as its source has them, without `self` and `cls`."""
    lines = module.text.split("\n")[function.lineno - 1 : function.body[0].lineno - 1]
    text = " ".join(line.strip() for line in lines if not line.lstrip().startswith(("@", "#"))).strip()
    text = re.sub(r"^def \w+", "", text).rstrip(":")
    return re.sub(r"^\((?:self|cls)(?:, )?", "(", text)


def written(docstring: str) -> str:
    """Returns a docstring as Markdown: its examples as blocks of code."""
    parts = textwrap.dedent(docstring).strip().split("\n\n")
    return "\n\n".join(f"```python\n{part}\n```" if part.startswith(">>> ") else part for part in parts)


def docstring(item: Union[Item, ast.Module], name: str) -> str:
    found = ast.get_docstring(item)
    if not found:
        sys.exit(f"{name} has no docstring")
    return written(found)


def section(level: int, title: str, declaration: str, text: str) -> str:
    return f"{'#' * level} {title}\n\n```python\n{declaration}\n```\n\n{text}"


def of_function(module: Module, function: Function, level: int, owner: str = "") -> str:
    name = f"{owner}.{function.name}" if owner else function.name
    if "property" in decorators(function):
        result = signature(module, function).partition("-> ")[2]
        return section(level, f"`{name}`", f"{name}: {result}", docstring(function, name))
    return section(level, f"`{name}`", name + signature(module, function), docstring(function, name))


def of_class(module: Module, item: ast.ClassDef) -> Iterator[str]:
    """Yields the sections of a class: of itself, and of its methods that are public or that have a docstring."""
    bases = [module.source(base) for base in item.bases if not (isinstance(base, ast.Name) and base.id in ("HandleOwner", "Owner"))]
    methods = [part for part in item.body if isinstance(part, ast.FunctionDef) and "overload" not in decorators(part)]
    made = next((part for part in methods if part.name in ("__new__", "__init__")), None)
    if "dataclass" in {module.source(decorator).partition("(")[0] for decorator in item.decorator_list}:
        fields = [module.source(part) for part in item.body if isinstance(part, ast.AnnAssign)]
        declaration = f"{item.name}({', '.join(fields)})"
    elif bases or made is None:
        declaration = f"class {item.name}({', '.join(bases)})" if bases else f"class {item.name}"
    else:
        declaration = item.name + signature(module, made).partition(" -> ")[0]
    text = docstring(item, item.name)
    if made is not None and not bases:
        text += f"\n\n{docstring(made, made.name)}"
    yield section(3, f"`{item.name}`", declaration, text)
    for part in methods:
        has_text = ast.get_docstring(part) is not None
        if part is not made and (not part.name.startswith("_") or (part.name.startswith("__") and has_text and not bases)) and part.name != "__reduce__":
            yield of_function(module, part, 4, item.name)


def page() -> str:
    """Returns the text of the page."""
    package, _ = read("__init__")
    parts: Dict[str, List[str]] = {"Columns": [], "Functions": [], "Types": [], "Exceptions": []}
    for name, source in public_names(package):
        _, module = read(source)
        item = module.items[name]
        title = "Types" if source == "_types" else "Exceptions" if source == "_errors" else "Columns" if isinstance(item, ast.ClassDef) else "Functions"
        parts[title] += of_class(module, item) if isinstance(item, ast.ClassDef) else [of_function(module, item, 3)]
    # the class of all exceptions first
    parts["Exceptions"].sort(key=lambda text: not text.startswith("### `SelError`"))
    sections = [HEAD, docstring(package, "sel")]
    for title, texts in parts.items():
        sections += [f"## {title}", *texts]
    return "\n\n".join(sections) + "\n"


def main() -> int:
    if sys.argv[1:] not in ([], ["--check"]):
        sys.exit(__doc__)
    text = page()
    if not sys.argv[1:]:
        PAGE.write_text(text, encoding="utf-8")
        return 0
    if not PAGE.exists() or PAGE.read_text(encoding="utf-8") != text:
        print("docs/PYTHON.md is not what the docstrings give: tools/python_docs.py writes it")
        return 1
    print("docs/PYTHON.md is up to date")
    return 0


if __name__ == "__main__":
    sys.exit(main())
