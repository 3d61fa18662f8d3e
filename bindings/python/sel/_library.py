"""The library's calls, by ctypes; include/sel.h documents them. `attempt` makes them, and checks every integer that it passes."""

from __future__ import annotations

import ctypes
import os
from ctypes import POINTER, Structure, c_bool, c_char_p, c_int64, c_size_t, c_uint32, c_void_p
from pathlib import Path
from typing import Any

from ._checks import shown
from ._errors import error_of
from ._statuses import OK

__all__ = ["ArrowArray", "ArrowArrayStream", "ArrowSchema", "Handle", "Slice", "TypeHandle", "attempt", "call", "lib", "status_of"]


class Handle(Structure):
    """`sel_column`: a column that the library holds."""

    _fields_ = [("at", c_void_p)]


class SelectionHandle(Structure):
    """`sel_selection`: a mask that the library has prepared."""

    _fields_ = [("at", c_void_p)]


class TypeHandle(Structure):
    """`sel_type`: a logical type that the library holds."""

    _fields_ = [("at", c_void_p)]


class Slice(Structure):
    """`sel_bytes_ref`: the address and the length of bytes. Views, picks and 128-bit integers are passed as arrays of words,
    which Python itself checks, and not as structures, which would wrap their integers."""

    _fields_ = [("at", c_void_p), ("len", c_size_t)]


class ArrowSchema(Structure):
    """The type of an array, as defined by the Arrow C Data Interface."""


ArrowSchema._fields_ = [
    ("format", c_char_p), ("name", c_char_p), ("metadata", c_char_p), ("flags", c_int64), ("n_children", c_int64),
    ("children", POINTER(POINTER(ArrowSchema))), ("dictionary", POINTER(ArrowSchema)), ("release", c_void_p), ("private_data", c_void_p),
]


class ArrowArray(Structure):
    """An array, as defined by the Arrow C Data Interface."""


ArrowArray._fields_ = [
    ("length", c_int64), ("null_count", c_int64), ("offset", c_int64), ("n_buffers", c_int64), ("n_children", c_int64),
    ("buffers", POINTER(c_void_p)), ("children", POINTER(POINTER(ArrowArray))), ("dictionary", POINTER(ArrowArray)),
    ("release", c_void_p), ("private_data", c_void_p),
]


class ArrowArrayStream(Structure):
    """A stream of arrays of one type, as defined by the Arrow C Stream Interface."""

    _fields_ = [("get_schema", c_void_p), ("get_next", c_void_p), ("get_last_error", c_void_p), ("release", c_void_p), ("private_data", c_void_p)]


# The flags of /proc/cpuinfo that glibc asks for before it loads a library from glibc-hwcaps/NAME.
_CPUS = {"x86-64-v3": frozenset(("avx", "avx2", "bmi1", "bmi2", "f16c", "fma", "abm", "movbe", "xsave"))}


def _cpu_flags() -> frozenset[str]:
    """Returns the flags of the processor, or none where the system does not list them."""
    try:
        lines = Path("/proc/cpuinfo").read_text().splitlines()
    except OSError:
        return frozenset()
    return frozenset(next((line.partition(":")[2] for line in lines if line.startswith("flags")), "").split())


def _packed(folder: Path, flags: frozenset[str]) -> list[str]:
    """Returns the paths of the libraries that are packed in the folder, the one for a processor with these flags first."""
    newer = [folder / "glibc-hwcaps" / name / "libsel.so" for name, needed in _CPUS.items() if needed <= flags]
    return [str(path) for path in [*newer, folder / "libsel.so"] if path.exists()]


def _places() -> list[str]:
    """Returns the paths to try: $SEL_LIBRARY alone, if it is set; else next to this file, the build folder of a checkout, and the system's own search."""
    told = os.environ.get("SEL_LIBRARY")
    if told:
        return [told]
    here = Path(__file__).resolve()
    built = [str(up / "build" / "libsel.so") for up in list(here.parents)[2:4]]
    return _packed(here.parent, _cpu_flags()) + [place for place in built if os.path.exists(place)] + ["libsel.so.1"]


def _load() -> tuple[Any, Any]:
    """Returns the library twice: its calls release the interpreter's lock, so that those of several threads run in parallel, or keep it."""
    for place in _places():
        try:
            return ctypes.CDLL(place), ctypes.PyDLL(place)
        except OSError as error:
            fault = error
    if os.environ.get("SEL_LIBRARY"):
        raise ImportError(f"SEL_LIBRARY is {place!r}, which cannot be loaded: {fault}")
    raise ImportError(f"libsel was not found (build it by make lib, or set SEL_LIBRARY to its path): {fault}")


lib, _keeping_lock = _load()

# Calls that take little time whatever the column is. They keep the lock: while another thread runs Python code, it would take
# milliseconds to get the lock back.
_SHORT = ("sel_len", "sel_type_of", "sel_status_string", "sel_share", "sel_child", "sel_field", "sel_field_count", "sel_fixed_size_list_size", "sel_bytes_len",
          "sel_buffer_count", "sel_buffer_len", "sel_borrow_values", "sel_selection_len", "sel_selection_count")
for _name in _SHORT:
    setattr(lib, _name, getattr(_keeping_lock, _name))

_COLUMN, _TYPE, _BYTES, _SIZE = POINTER(Handle), POINTER(TypeHandle), c_void_p, c_size_t
_SELECTION = POINTER(SelectionHandle)
_ARRAY, _SCHEMA = POINTER(ArrowArray), POINTER(ArrowSchema)
_BITS = [c_void_p, c_size_t, c_bool]

_CALLS: dict[str, list[Any]] = {
    "sel_null_new": [_SIZE, _COLUMN],
    "sel_boolean_new": [_BYTES, _SIZE, _SIZE, *_BITS, _COLUMN],
    **{f"sel_{name}_new": [_BYTES, _SIZE, *_BITS, _COLUMN] for name in
       ("int8", "int16", "int32", "int64", "int128", "uint8", "uint16", "uint32", "uint64", "uint128")},
    "sel_binary_new": [_BYTES, _SIZE, _BYTES, _SIZE, *_BITS, _COLUMN],
    "sel_binary_view_new": [_BYTES, _SIZE, _BYTES, _SIZE, *_BITS, _COLUMN],
    "sel_string_view_new": [_BYTES, _SIZE, _BYTES, _SIZE, *_BITS, _COLUMN],
    "sel_list_new": [_BYTES, _SIZE, *_BITS, _COLUMN, _COLUMN],
    "sel_fixed_size_list_new": [_SIZE, _SIZE, *_BITS, _COLUMN, _COLUMN],
    "sel_struct_new": [_SIZE, *_BITS, _COLUMN, _SIZE, _COLUMN],
    "sel_validity": [_COLUMN, _BYTES, _SIZE, POINTER(c_bool)],
    **{f"sel_{name}_values": [_COLUMN, _BYTES, _SIZE] for name in
       ("boolean", "int8", "int16", "int32", "int64", "int128", "uint8", "uint16", "uint32", "uint64", "uint128")},
    "sel_offsets": [_COLUMN, _BYTES, _SIZE],
    "sel_bytes_len": [_COLUMN, POINTER(_SIZE)],
    "sel_bytes": [_COLUMN, _BYTES, _SIZE],
    "sel_views": [_COLUMN, _BYTES, _SIZE],
    "sel_buffer_count": [_COLUMN, POINTER(_SIZE)],
    "sel_buffer_len": [_COLUMN, _SIZE, POINTER(_SIZE)],
    "sel_buffer": [_COLUMN, _SIZE, _BYTES, _SIZE],
    "sel_fixed_size_list_size": [_COLUMN, POINTER(_SIZE)],
    "sel_field_count": [_COLUMN, POINTER(_SIZE)],
    "sel_child": [_COLUMN, _COLUMN],
    "sel_field": [_COLUMN, _SIZE, _COLUMN],
    "sel_filter": [_COLUMN, _COLUMN, _COLUMN],
    "sel_filter_bits": [_COLUMN, _BYTES, _SIZE, _SIZE, _COLUMN],
    "sel_selection_new": [_COLUMN, _SELECTION],
    "sel_selection_of_bits": [_BYTES, _SIZE, _SIZE, _SELECTION],
    "sel_selection_len": [_SELECTION, POINTER(_SIZE)],
    "sel_selection_count": [_SELECTION, POINTER(_SIZE)],
    "sel_filter_selection": [_COLUMN, _SELECTION, _COLUMN],
    "sel_take": [_COLUMN, _COLUMN, _COLUMN],
    "sel_take_rows": [_COLUMN, _BYTES, _SIZE, *_BITS, _COLUMN],
    "sel_reverse": [_COLUMN, _COLUMN],
    "sel_if_then_else": [_COLUMN, _COLUMN, _COLUMN, _COLUMN],
    "sel_if_then_else_broadcast_true": [_COLUMN, _COLUMN, _COLUMN, _COLUMN],
    "sel_if_then_else_broadcast_false": [_COLUMN, _COLUMN, _COLUMN, _COLUMN],
    "sel_if_then_else_broadcast_both": [_COLUMN, _COLUMN, _COLUMN, _COLUMN],
    "sel_list_get": [_COLUMN, c_int64, _COLUMN],
    "sel_list_index_is_oob": [_COLUMN, c_int64, POINTER(c_bool)],
    "sel_unit_list": [_COLUMN, _COLUMN],
    "sel_fixed_size_list_get": [_COLUMN, c_int64, c_bool, _COLUMN],
    "sel_fixed_size_list_get_each": [_COLUMN, _COLUMN, c_bool, _COLUMN],
    "sel_flatten": [_COLUMN, _SIZE, _BYTES, _SIZE, _SIZE, _COLUMN],
    "sel_propagate_dictionary": [_COLUMN, _COLUMN, _COLUMN, _COLUMN],
    "sel_collect_rows": [_COLUMN, _SIZE, _BYTES, _SIZE, *_BITS, _COLUMN],
    "sel_slice": [_COLUMN, _SIZE, _SIZE, _COLUMN],
    "sel_share": [_COLUMN, _COLUMN],
    "sel_equal_rows": [_COLUMN, _COLUMN, POINTER(c_bool)],
    "sel_print": [_COLUMN, _BYTES, _SIZE, POINTER(_SIZE)],
    "sel_print_type": [_COLUMN, _BYTES, _SIZE, POINTER(_SIZE)],
    "sel_parse": [_BYTES, _SIZE, _BYTES, _SIZE, POINTER(_SIZE), _COLUMN],
    "sel_import": [_ARRAY, _SCHEMA, _COLUMN, _TYPE],
    "sel_export": [_COLUMN, _TYPE, _ARRAY, _SCHEMA],
    "sel_borrow_values": [_COLUMN, POINTER(c_void_p), POINTER(_SIZE)],
    "sel_type_import": [_SCHEMA, _TYPE],
    "sel_type_export": [_TYPE, _SCHEMA],
    "sel_type_of_storage": [_COLUMN, _TYPE],
    "sel_type_new": [_BYTES, _TYPE, _SIZE, _TYPE],
    "sel_type_dictionary_new": [_BYTES, _COLUMN, _TYPE, c_bool, _TYPE],
    "sel_type_as_field": [_TYPE, c_char_p, c_bool, _TYPE],
    "sel_type_share": [_TYPE, _TYPE],
    "sel_type_child": [_TYPE, _SIZE, _TYPE],
    "sel_type_format": [_TYPE, _BYTES, _SIZE, POINTER(_SIZE)],
    "sel_type_dictionary": [_TYPE, _COLUMN, _TYPE],
    "sel_decode": [_COLUMN, _TYPE, _COLUMN, _TYPE],
    "sel_common_type": [_COLUMN, _TYPE, _SIZE, _COLUMN, _TYPE],
}


def _declare() -> None:
    for name, arguments in _CALLS.items():
        found = getattr(lib, name)
        found.argtypes, found.restype = arguments, c_uint32
    for name, result in (("sel_len", c_size_t), ("sel_type_of", c_uint32), ("sel_null_count", c_size_t), ("sel_free", None)):
        found = getattr(lib, name)
        found.argtypes, found.restype = [_COLUMN], result
    lib.sel_selection_free.argtypes, lib.sel_selection_free.restype = [_SELECTION], None
    lib.sel_status_string.argtypes, lib.sel_status_string.restype = [c_uint32], c_char_p
    lib.sel_unsupported_format.argtypes, lib.sel_unsupported_format.restype = [_SCHEMA], c_char_p
    lib.sel_type_equal.argtypes, lib.sel_type_equal.restype = [_TYPE, _TYPE], c_bool
    of_types: dict[str, Any] = {"sel_type_free": None, "sel_type_child_count": c_size_t, "sel_type_name": c_char_p, "sel_type_arrow_format": c_char_p}
    for name, kind in of_types.items():
        found = getattr(lib, name)
        found.argtypes, found.restype = [_TYPE], kind


_declare()


_SIZE_BITS = 8 * ctypes.sizeof(c_size_t)
_ADDRESS_BITS = 8 * ctypes.sizeof(c_void_p)

# The ranges of the integer types in the declarations above; an address is passed as an integer and is not null.
_RANGES: dict[Any, tuple[int, int]] = {
    c_size_t: (0, (1 << _SIZE_BITS) - 1),
    c_uint32: (0, (1 << 32) - 1),
    c_int64: (-(1 << 63), (1 << 63) - 1),
    c_void_p: (1, (1 << _ADDRESS_BITS) - 1),
}

# Of each call: the positions, counted from 1, and the ranges of its arguments that are integers or addresses.
_INTEGERS = {name: [(position, kind is c_void_p, *_RANGES[kind]) for position, kind in enumerate(kinds, 1) if kind in _RANGES]
             for name, kinds in _CALLS.items()}
_BOOLEANS = {name: [position for position, kind in enumerate(kinds, 1) if kind is c_bool] for name, kinds in _CALLS.items()}


def status_of(status: int) -> str:
    """Returns the string of a status."""
    return str(lib.sel_status_string(status).decode())


def _check(name: str, arguments: tuple[Any, ...]) -> None:
    """Raises OverflowError for an integer that its declared type cannot hold, and TypeError for an argument of another type.

    Callers check before, and say more in their messages. This is the last check before ctypes, which wraps integers silently.
    """
    if len(arguments) != len(_CALLS[name]):
        raise TypeError(f"{name} takes {len(_CALLS[name])} arguments, not {len(arguments)}")
    for position, is_address, least, most in _INTEGERS[name]:
        value = arguments[position - 1]
        if type(value) is int:
            if not least <= value <= most:
                raise OverflowError(f"{name}: argument {position} is {shown(value)}, which is outside [{least}, {most}]")
        elif not is_address or value is None or isinstance(value, int):
            raise TypeError(f"{name}: argument {position} is {shown(value)}, of type {type(value).__name__} and not int")
    for position in _BOOLEANS[name]:
        if type(arguments[position - 1]) is not bool:
            raise TypeError(f"{name}: argument {position} is {shown(arguments[position - 1])}, not a bool")


def attempt(name: str, *arguments: Any) -> int:
    """Makes a call whose arguments fit its declaration, and returns its status."""
    _check(name, arguments)
    return int(getattr(lib, name)(*arguments))


def call(name: str, *arguments: Any) -> None:
    """Makes a call, and raises the exception of its status unless it is `SEL_OK`."""
    status = attempt(name, *arguments)
    if status != OK:
        raise error_of(status, status_of(status))
