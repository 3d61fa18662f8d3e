#!/usr/bin/env python3
"""Writes the C interface from the sources: include/sel.h, and c/calls.c with a function for each call that has an array.

tools/header.py          writes both files
tools/header.py --check  fails if one of them differs from what the sources, tools/statuses.txt and VERSION give

A proved function must not get a null pointer, not for an empty array either. So tools/clib.py gives each one that has an array the name
`sel_proved_..`, and c/calls.c has a function of the public name, which replaces null pointers.
"""

from __future__ import annotations

import pathlib
import re
import sys
import textwrap

ROOT = pathlib.Path(__file__).resolve().parent.parent
HEADER = ROOT / "include" / "sel.h"
LAYER = ROOT / "c" / "calls.c"
CALLS = ROOT / "crates" / "sel_c" / "src"
sys.dont_write_bytecode = True
sys.path.insert(0, str(ROOT / "tools"))

from statuses import statuses, type_ids  # noqa: E402

# the order of the sections, each a module of sel_c
SECTIONS = ["whole", "makers", "wides", "nested_makers", "views", "readers", "nested_readers", "filters", "selections", "takes", "reverse", "choices", "lists", "fixed", "fixed_each", "several", "dictionaries", "texts"]
# the modules of functions for the C code of the library alone, which c/arrow_lease.h declares
INTERNAL = {"lent_buffers", "lent_columns"}
PLAIN = {"u8": "uint8_t", "u16": "uint16_t", "u32": "uint32_t", "u64": "uint64_t", "i8": "int8_t", "i16": "int16_t",
         "i32": "int32_t", "i64": "int64_t", "usize": "size_t", "bool": "bool", "Handle": "sel_column", "ColumnRef": "sel_column",
         "SelectionHandle": "sel_selection", "SelectionRef": "sel_selection",
         "Wide": "sel_int128", "ViewWords": "sel_view", "PickWords": "sel_row_ref", "&[u8]": "sel_bytes_ref"}
# the results of functions that return a number: a status, unless named here
RESULTS = {"sel_type_of": "sel_type_id"}
CALL = re.compile(r'((?:^///[^\n]*\n)+)(?:#\[tactic[^\n]*\n)*#\[unsafe\(no_mangle\)\]\n(?:#\[tactic[^\n]*\n)*pub extern "C" fn (\w+)\(([^)]*)\)(?: -> (\w+))?', re.M)

BEFORE = """\
/* sel.h: filters, gathers and combines Arrow columns of any nesting. Written by tools/header.py from the sources. The
 * functions are proved; docs/DEFINITIONS.md defines the words of their contracts.
 *
 * Ownership: a handle is empty, {0}, or has a column. Initialize it with {0} and free it with sel_free. A handle may
 * be moved but not copied: sel_share makes a second handle to its column. Arrays that are passed in are copied, and no
 * pointer to them is kept. A function that returns a column in `out` frees the column that `out` had before. Columns
 * are never changed; sel_list_new, sel_fixed_size_list_new and sel_struct_new take their children if they succeed.
 * The same rules hold for the handle sel_selection, which sel_selection_free frees.
 *
 * Threads: functions that take a handle by a pointer to const may read the same handle at the same time, from any
 * threads. While a function writes or frees a handle, no other function may use that handle; other handles to the same
 * column may be in use.
 *
 * Errors: a status is SEL_OK, which is 0, or an error. If several errors apply, the first one listed is returned. On
 * error `out` is unchanged. A function that returns a status may also return SEL_ERROR_OUT_OF_MEMORY, unless its
 * comment says that it never does. A column has at most 128 levels of lists and structs.
 *
 * Arguments: a pointer must be aligned for its type and must not be null, except that an array of length 0 may be a
 * null pointer. An array must be valid for the given length. What a call writes must not be another of its arguments,
 * nor overlap one; a handle that it only reads may be passed twice. A bool is 0 or 1. malloc, realloc and free of the
 * process must be of the same allocator.
 *
 * Validity: passed as `bits`, of at least (rows + 7) / 8 bytes, and `has_bits`; if `has_bits` is false, `bits` is
 * ignored and all rows are valid (SEL_ALL_VALID). Bits are packed, the least significant bit first. A row whose bit is
 * 0 is null.
 */
#ifndef SEL_H
#define SEL_H

#include <stdbool.h>
#include <stddef.h>
#include <stdint.h>

#ifdef __cplusplus
extern "C" {
#endif

/* The version of this header; sel_version returns that of the library. */
#define SEL_VERSION_MAJOR @MAJOR@
#define SEL_VERSION_MINOR @MINOR@
#define SEL_VERSION_PATCH @PATCH@

/* The three arguments `bits`, `bits_len` and `has_bits` of rows that are all valid. */
#define SEL_ALL_VALID NULL, 0, false

/* A handle to a column; {0} is an empty handle. */
typedef struct sel_column {
    void *at;
} sel_column;

/* A handle to the rows that a mask selects, prepared once to filter any number of columns; {0} is an empty handle. */
typedef struct sel_selection {
    void *at;
} sel_selection;

/* A 128-bit integer as two words. */
typedef struct sel_int128 {
    uint64_t low;
    uint64_t high;
} sel_int128;

/* An Arrow view, as four little-endian words; a value of up to 12 bytes is in the last three. */
typedef struct sel_view {
    uint32_t length;
    uint32_t prefix;
    uint32_t buffer;
    uint32_t offset;
} sel_view;

/* `len` bytes of the caller. `at` may be a null pointer if `len` is 0. */
typedef struct sel_bytes_ref {
    const uint8_t *at;
    size_t len;
} sel_bytes_ref;

/* A row reference: a row of one of several columns. */
typedef struct sel_row_ref {
    uint32_t source;
    uint32_t row;
} sel_row_ref;
"""

AFTER_ENUMS = """
#ifdef __cplusplus
static_assert(sizeof(sel_status) == 4 && sizeof(sel_type_id) == 4, "the enumerations have 32 bits");
#elif defined(__STDC_VERSION__) && __STDC_VERSION__ >= 201112L
_Static_assert(sizeof(sel_status) == 4 && sizeof(sel_type_id) == 4, "the enumerations have 32 bits");
#endif

/* Returns a description of a status, a constant string; "unknown status" for any other number. */
const char *sel_status_string(sel_status status);

/* Returns the version of the library, a constant string such as "@VERSION@". */
const char *sel_version(void);
"""

AFTER = """
#ifdef __cplusplus
}
#endif

#endif
"""

LAYER_BEFORE = """\
/* The calls with arrays. Written by tools/header.py from the sources. Each replaces a null pointer to an empty array,
 * which the proved function must not get, by a valid one. The bits of a validity that is ignored are an empty array,
 * whatever length the caller passes. */
#include "sel.h"

#include <stdlib.h>

/* Never read or written: its address is that of an empty array, aligned for each type of the header. */
static const union {
    uint64_t word;
    void *pointer;
    sel_int128 integer;
    sel_bytes_ref bytes;
} empty;

/* Returns the address of an array that is read, which is not null. */
static const void *input(const void *array, size_t len) { return array == NULL && len == 0 ? &empty : array; }

/* Returns the address of an array that is written, which is not null. */
static void *output(void *array, size_t len) { return array == NULL && len == 0 ? (void *)&empty : array; }

/* Byte references whose pointers are not null: those of the caller, or a copy that is to be freed. */
typedef struct byte_refs {
    const sel_bytes_ref *at;
    sel_bytes_ref *copy;
} byte_refs;

/* Returns false if out of memory. */
static bool read_byte_refs(const sel_bytes_ref *refs, size_t len, byte_refs *out) {
    size_t first = 0;
    *out = (byte_refs){input(refs, len), NULL};
    while (first < len && refs[first].at != NULL) first++;
    if (first == len) return true;
    if (len > SIZE_MAX / sizeof *refs) return false;
    out->copy = malloc(len * sizeof *refs);
    if (out->copy == NULL) return false;
    for (size_t i = 0; i < len; i++) out->copy[i] = (sel_bytes_ref){input(refs[i].at, refs[i].len), refs[i].len};
    out->at = out->copy;
    return true;
}
"""


def version() -> str:
    return (ROOT / "VERSION").read_text().strip()


def filled(template: str) -> str:
    """Returns a template with the version."""
    major, minor, patch = version().split(".")
    for name, value in (("VERSION", version()), ("MAJOR", major), ("MINOR", minor), ("PATCH", patch)):
        template = template.replace(f"@{name}@", value)
    return template


def wrapped(paragraphs: list[str], indent: str = "") -> str:
    """Returns a C comment within 120 columns; each paragraph begins on a line of its own."""
    lines = [f"{indent} * {line}" for paragraph in paragraphs for line in textwrap.wrap(paragraph, 114 - len(indent), break_on_hyphens=False)]
    return "\n".join(lines).replace(f"{indent} *", f"{indent}/*", 1) + " */"


def comment_of(lines: str) -> list[str]:
    """Returns the paragraphs of a comment, which empty lines separate."""
    text = "\n".join(line[3:].strip() for line in lines.strip().split("\n"))
    return [" ".join(paragraph.split()) for paragraph in text.split("\n\n")]


class Parameter:
    """A parameter in the sources: its name, its type in C, and whether it is an array, which also has a length, or is written."""

    def __init__(self, text: str) -> None:
        self.name, kind = (part.strip() for part in text.split(":", 1))
        array = re.fullmatch(r"&(mut )?\[(.+)\]", kind)
        reference = re.fullmatch(r"&(mut )?(\w+)", kind)
        self.is_array = array is not None
        self.is_written = bool((array or reference or (None, None))[1])
        self.type = PLAIN[(array or reference or (None, None, kind))[2]]
        self.is_pointer = bool(array or reference)

    def declared(self) -> list[str]:
        if not self.is_pointer:
            return [f"{self.type} {self.name}"]
        pointer = f"{'' if self.is_written else 'const '}{self.type} *{self.name}"
        return [pointer, f"size_t {self.name}_len"] if self.is_array else [pointer]

    def passed(self) -> list[str]:
        """Returns the arguments for the proved function."""
        if not self.is_array:
            return [self.name]
        if self.type == "sel_bytes_ref":
            return [f"{self.name}_refs.at", f"{self.name}_len"]
        return [f"{'output' if self.is_written else 'input'}({self.name}, {self.name}_len)", f"{self.name}_len"]


class Call:
    """An exported function: its comment, its name, its parameters and its result in C."""

    def __init__(self, found: re.Match[str]) -> None:
        comment, self.name, parameters, result = found.groups()
        self.comment = comment_of(comment)
        parts = [part for part in re.split(r",\s*", parameters.strip().rstrip(",")) if part]
        self.parameters = [Parameter(part) for part in parts if not part.endswith(": Global")]
        self.result = RESULTS.get(self.name, "sel_status") if result == "u32" else PLAIN[result] if result else "void"

    def has_array(self) -> bool:
        return any(parameter.is_array for parameter in self.parameters)

    def head(self, name: str, end: str) -> str:
        inside = [text for parameter in self.parameters for text in parameter.declared()]
        begin = f"{self.result} {name}("
        one = begin + ", ".join(inside) + ")" + end
        return one if len(one) <= 120 else begin + "\n    " + ",\n    ".join(inside) + ")" + end

    def declaration(self) -> str:
        return wrapped(self.comment) + "\n" + self.head(self.name, ";")

    def proved_name(self) -> str:
        return self.name.replace("sel_", "sel_proved_", 1)

    def layer(self) -> str:
        """Returns the function of the public name over the proved one."""
        passed = [text for parameter in self.parameters for text in parameter.passed()]
        begin = f"{self.proved_name()}("
        call = begin + ", ".join(passed) + ")"
        if len(call) > 104:
            call = begin + "\n" + textwrap.fill(", ".join(passed), 112, initial_indent=" " * 8, subsequent_indent=" " * 8, break_on_hyphens=False) + ")"
        refs = [parameter.name for parameter in self.parameters if parameter.is_array and parameter.type == "sel_bytes_ref"]
        lines = [f"    return {call};"]
        if refs:
            lines = [f"    byte_refs {name}_refs;" for name in refs]
            lines += [f"    if (!read_byte_refs({name}, {name}_len, &{name}_refs)) return SEL_ERROR_OUT_OF_MEMORY;" for name in refs]
            lines += [f"    {self.result} result = {call};", *(f"    free({name}_refs.copy);" for name in refs), "    return result;"]
        if any(parameter.name == "has_bits" for parameter in self.parameters):
            lines.insert(0, "    if (!has_bits) bits_len = 0;")
        return "\n" + self.head(self.proved_name(), ";") + "\n" + self.head(self.name, " {") + "\n" + "\n".join(lines) + "\n}\n"


def enumeration(name: str, title: str, items: list[tuple[str, str, int]], notes: dict[str, str]) -> str:
    """Returns an enumeration of 32 bits."""
    last = f"    /* Not returned: makes the type 32 bits wide. */\n    {name.upper()}_FORCE_32_BITS = 0x7fffffff"
    lines = [notes.get(one, "") + f"{wrapped([comment], '    ')}\n    {one} = {number}" for one, comment, number in items]
    return f"\n/* {title} */\ntypedef enum {name} {{\n" + ",\n".join([*lines, last]) + f"\n}} {name};\n"


def enumerations() -> str:
    found = statuses()
    arrow = next(status.c_name() for status in found if status.is_arrow())
    notes = {arrow: "\n    /* Only of the functions of sel_arrow.h: */\n\n"}
    text = enumeration("sel_status", "The statuses that functions return.", [(one.c_name(), one.comment, one.number) for one in found], notes)
    return text + enumeration("sel_type_id", "The types of columns.", [(one.c_name(), one.comment, one.number) for one in type_ids()], {})


def modules() -> list[tuple[str, list[Call]]]:
    """Returns the modules of sel_c with exported functions, each with its title and its calls."""
    names = {path.stem for path in CALLS.glob("*.rt")} - {"lib"} - INTERNAL
    found = []
    for module in [m for m in SECTIONS if m in names] + sorted(names - set(SECTIONS)):
        source = (CALLS / f"{module}.rt").read_text()
        calls = [Call(one) for one in CALL.finditer(source)]
        if len(calls) != source.count("no_mangle"):
            sys.exit(f"{module}: a function has no comment, or its head has an unknown form")
        if calls:
            found.append((" ".join(line[3:].strip() for line in source.split("\n") if line.startswith("//!")), calls))
    return found


def header() -> str:
    text = filled(BEFORE) + enumerations() + filled(AFTER_ENUMS)
    for title, calls in modules():
        text += f"\n/* ---- {title} ---- */\n\n" + "\n\n".join(call.declaration() for call in calls) + "\n"
    return text + AFTER


def layer() -> str:
    return LAYER_BEFORE + "".join(call.layer() for _, calls in modules() for call in calls if call.has_array())


def main() -> None:
    if sys.argv[1:] not in ([], ["--check"]):
        sys.exit(__doc__)
    for path, text in ((HEADER, header()), (LAYER, layer())):
        if not sys.argv[1:]:
            path.write_text(text)
        elif not path.exists() or path.read_text() != text:
            sys.exit(f"{path.relative_to(ROOT)} is out of date: run tools/header.py")


if __name__ == "__main__":
    main()
