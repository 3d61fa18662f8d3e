"""Logical types: the Arrow types of columns beside their storage, such as `timestamp[ms, tz=UTC]` over `i64`."""

from __future__ import annotations

import ctypes
from collections.abc import Sequence
from ctypes import byref, c_size_t
from typing import TYPE_CHECKING, Any, overload

from ._checks import checked_name, checked_text, shown
from ._errors import LimitPassed
from ._library import ArrowSchema, Handle, TypeHandle, call, lib
from ._memory import room
from ._owner import HandleOwner, Owner, derived
from ._types import KINDS, Type, name_in_text

if TYPE_CHECKING:
    from typing_extensions import Self

__all__ = ["ArrowType", "coded_type", "TypeOwner", "as_logical_of", "common_type", "decoded", "dictionary_of", "has_dictionary", "logical_type", "metadata_of", "nested_type", "nullable", "of_format",
           "storage_type", "type_parameter", "with_arrow_types"]

# What the texts of nested types begin with, by their formats.
_OPENINGS = {"+l": "list<", "+L": "large_list<", "+s": "struct<"}

# ARROW_FLAG_NULLABLE in include/sel_arrow.h.
_NULLABLE = 2

# The kinds of the formats without children and without parameters.
_STORAGE = {
    "n": "null", "b": "bool", "c": "i8", "C": "u8", "s": "i16", "S": "u16", "i": "i32", "I": "u32", "l": "i64", "L": "u64", "e": "u16", "f": "u32",
    "g": "u64", "tdD": "i32", "tdm": "i64", "tts": "i32", "ttm": "i32", "ttu": "i64", "ttn": "i64", "tDs": "i64", "tDm": "i64", "tDu": "i64", "tDn": "i64",
    "tiM": "i32", "tiD": "i64", "tin": "u128", "z": "binary", "Z": "binary", "u": "utf8", "U": "utf8", "vz": "binview", "vu": "utf8",
}
_DECIMALS = {"32": "i32", "64": "i64", "128": "i128"}


class TypeOwner(HandleOwner):
    """Owns a logical type of the library. Types are never changed; several threads may use one owner at the same time."""

    __slots__ = ()

    _handle: TypeHandle

    def __new__(cls) -> Self:
        """Makes an owner without a type."""
        made = super().__new__(cls)
        made._handle = TypeHandle()
        return made

    def __del__(self) -> None:
        if self._handle.at:
            lib.sel_type_free(byref(self._handle))


def _made(name: str, *arguments: Any) -> TypeOwner:
    """Returns the type that a call makes of its arguments."""
    made = TypeOwner()
    call(name, *arguments, byref(made._handle))
    return made


class ArrowType(Type):
    """The logical type of a column: an Arrow type, over the storage that `kind`, `children` and `width` describe. `parse_type` and
    `Column.type` return one.

    It prints as pyarrow prints it, with short names of integers, and with quotes around names of fields that `parse_type` could not read
    without them. Two logical types are equal if their formats, names, metadata and flags are the same at each depth, and if their
    dictionaries have values of equal types. Only the name that a type itself has as a field does not count: a column of a table has a type
    that is equal to the one which `parse_type` gives. A logical type that says what a `Type` says, such as that of a column of integers with
    a name, is equal to it.

    >>> sel.parse_type("timestamp[ms, tz=UTC]").kind
    'i64'
    >>> print(sel.Column([1.5, None]).type)
    double
    """

    _owner: TypeOwner

    def __init__(self, owner: TypeOwner) -> None:
        if not isinstance(owner, TypeOwner):
            raise TypeError(f"{shown(owner)} is of type {type(owner).__name__}, and an ArrowType is not made of it; parse_type makes one of a text")
        kind, children, width = _storage_of(owner)
        super().__init__(kind, children, width)
        object.__setattr__(self, "_owner", owner)

    @property
    def format(self) -> str:
        """The format of the type in Arrow's C data interface.

        >>> sel.parse_type("double").format
        'g'
        """
        return str(lib.sel_type_arrow_format(self._owner).decode())

    @property
    def name(self) -> str:
        """The name of the type as a field; empty if it has none."""
        return (lib.sel_type_name(self._owner) or b"").decode(errors="replace")

    @property
    def is_nullable(self) -> bool:
        """Whether a row may be null."""
        return bool(_flags(self._owner) & _NULLABLE)

    @property
    def is_dictionary(self) -> bool:
        """Whether the rows are keys of a dictionary."""
        schema = _schema_of(self._owner)
        try:
            return bool(schema.dictionary)
        finally:
            _release(schema)

    @property
    def fields(self) -> tuple[ArrowType, ...]:
        """The types of the fields of a struct, or of the elements of lists.

        >>> table = sel.Table({"id": [1], "price": [2.5]})
        >>> [field.name for field in sel.Column.from_arrow(table).type.fields]
        ['id', 'price']
        """
        return tuple(child for child in self.children if isinstance(child, ArrowType))

    def __str__(self) -> str:
        """Returns the text of the type."""
        text, format = _text_of(self._owner), self.format
        opening = "fixed_size_list<" if format.startswith("+w:") else _OPENINGS.get(format)
        if opening is None or not text.startswith(opening):  # such as a map, or an extension type
            return text
        inner = ", ".join(f"{name_in_text(field.name, format == '+s')}: {field}{'' if field.is_nullable else ' not null'}" for field in self.fields)
        return f"{opening}{inner}>" + (f"[{self.width}]" if format.startswith("+w:") else "")

    def __repr__(self) -> str:
        """Returns the text of the type in brackets."""
        return f"<ArrowType {self}>"

    def __eq__(self, other: object) -> bool:
        """Returns whether both types have the same schema, whatever their own names are."""
        if not isinstance(other, Type):
            return NotImplemented
        if (self.kind, self.width, len(self.children)) != (other.kind, other.width, len(other.children)):
            return False
        try:
            there = with_arrow_types(other)
            same = there if isinstance(there, ArrowType) else _of_storage(there)
        except LimitPassed:  # a Type with more levels than a column has
            return False
        return bool(lib.sel_type_equal(_without_name(self), _without_name(same)))

    # That of the storage: equal types have equal storages, and a Type may be equal to a logical type.
    __hash__ = Type.__hash__

    def __reduce__(self) -> tuple[Any, ...]:
        """Returns what `pickle` stores: a column without rows of this type."""
        from ._pickle import described, type_again

        return type_again, (described(self._owner),)


def _schema_of(owner: TypeOwner) -> ArrowSchema:
    schema = ArrowSchema()
    call("sel_type_export", owner, byref(schema))
    return schema


def _release(schema: ArrowSchema) -> None:
    if schema.release:
        ctypes.CFUNCTYPE(None, ctypes.c_void_p)(schema.release)(ctypes.addressof(schema))


def _without_name(type: ArrowType) -> TypeOwner:
    """Returns a type without its name as a field."""
    return _made("sel_type_as_field", type._owner, b"", type.is_nullable) if lib.sel_type_name(type._owner) != b"" else type._owner


def metadata_of(schema: ArrowSchema) -> bytes | None:
    """Returns the bytes of a schema's metadata: the number of pairs, then the length and the bytes of each key and value."""
    address = ctypes.c_void_p.from_address(ctypes.addressof(schema) + ArrowSchema.metadata.offset).value
    if not address:
        return None
    size = 4
    for _ in range(2 * ctypes.c_int32.from_address(address).value):
        size += 4 + ctypes.c_int32.from_address(address + size).value
    return ctypes.string_at(address, size)


def _flags(owner: TypeOwner) -> int:
    schema = _schema_of(owner)
    try:
        return int(schema.flags)
    finally:
        _release(schema)


def _storage_of(owner: TypeOwner) -> tuple[str, tuple[Type, ...], int]:
    """Returns the kind, the children and the list size of the storage of a type."""
    format = str(lib.sel_type_arrow_format(owner).decode())
    children = tuple(ArrowType(_made("sel_type_child", owner, number)) for number in range(lib.sel_type_child_count(owner)))
    if format in _STORAGE:
        return _STORAGE[format], (), 0
    if format.startswith("ts"):
        return "i64", (), 0
    if format.startswith("d:"):
        bits = (format[2:].split(",") + ["128"])[2]
        return (_DECIMALS[bits], (), 0) if bits in _DECIMALS else ("fixed", (Type("u8"),), 32)
    if format.startswith("w:"):
        text = _text_of(owner)
        return ("u128", (), 0) if text == "u128" else ("fixed", (Type("u8"),), int(format[2:]))
    if format.startswith("+w:"):
        return "fixed", children, int(format[3:])
    return ("struct" if format == "+s" else "list"), children, 0


def _text_of(owner: TypeOwner) -> str:
    count, text = c_size_t(), room("B", 80)
    call("sel_type_format", owner, text, text.size(), byref(count))
    if count.value > text.size():
        text = room("B", count.value)
        call("sel_type_format", owner, text, text.size(), byref(count))
    return bytes(text.items[: count.value]).decode(errors="replace")


def storage_type(owner: Owner) -> Type:
    """Returns the type of the storage of a column."""
    kind = owner._kind()
    if kind not in KINDS[-3:]:
        return Type(kind)
    if kind == "struct":
        return Type(kind, tuple(storage_type(derived(owner, "sel_field", number)) for number in range(owner._size("sel_field_count"))))
    return Type(kind, (storage_type(derived(owner, "sel_child")),), owner._size("sel_fixed_size_list_size") if kind == "fixed" else 0)


def logical_type(owner: Owner, found: TypeOwner) -> ArrowType | None:
    """Returns the logical type of an imported column, or none if it says no more than the storage."""
    if not found._handle.at:
        return None
    return None if lib.sel_type_equal(found, _made("sel_type_of_storage", owner)) else ArrowType(found)


def type_parameter(type: ArrowType | None) -> TypeOwner:
    """Returns a logical type as an argument of a call, or an empty handle for none."""
    return TypeOwner() if type is None else type._owner


def of_format(format: str, children: Sequence[Type] = (), names: Sequence[str] = ()) -> ArrowType:
    """Returns the type of an Arrow format over children, which get these names. Raises ValueError for a name that Arrow cannot have."""
    handles = (TypeHandle * max(1, len(children)))()
    try:
        for number, child in enumerate(children):
            owner = child._owner if isinstance(child, ArrowType) else _of_storage(child)._owner
            name = names[number] if names else "item" if format != "+s" else str(number)
            is_nullable = not isinstance(child, ArrowType) or child.is_nullable
            call("sel_type_as_field", owner, checked_name(name, "field"), is_nullable, byref(handles[number]))
        return ArrowType(_made("sel_type_new", checked_text(format, "format"), handles, len(children)))
    finally:
        for handle in handles:
            lib.sel_type_free(byref(handle))


_NESTED_FORMATS = {"list": "+L", "struct": "+s"}


def nested_type(kind: str, children: Sequence[Type], width: int = 0, names: Sequence[str | None] = ()) -> Type:
    """Returns a type over children: a logical type if a child has one, or if fields of structs have names. A field without one gets its number."""
    has_names = any(name is not None for name in names)
    if not any(isinstance(child, ArrowType) for child in children) and not (kind == "struct" and has_names):
        return Type(kind, tuple(children), width)
    given = [str(number) if name is None else name for number, name in enumerate(names)] if has_names else ()
    return of_format(_NESTED_FORMATS.get(kind, f"+w:{width}"), children, given)


def with_arrow_types(type: Type) -> Type:
    """Returns the type as a logical type if it has one below it."""
    if isinstance(type, ArrowType) or not type.children:
        return type
    return nested_type(type.kind, [with_arrow_types(child) for child in type.children], type.width)


def _of_storage(type: Type) -> ArrowType:
    """Returns the logical type that says what a storage type says."""
    from ._makers import made_of

    return ArrowType(_made("sel_type_of_storage", made_of([], type)))


def as_logical_of(column: Owner, type: ArrowType | None) -> ArrowType:
    """Returns the logical type of a column, or that of its storage."""
    return ArrowType(_made("sel_type_of_storage", column)) if type is None else type


@overload
def nullable(type: ArrowType | None, name: str | None = None) -> ArrowType | None: ...


@overload
def nullable(type: Type, name: str | None = None, *, is_nullable: bool) -> ArrowType: ...


def nullable(type: Type | None, name: str | None = None, *, is_nullable: bool = True) -> ArrowType | None:
    """Returns the type with null rows, or without, and with another name if one is given."""
    if type is None:
        return None
    logical = type if isinstance(type, ArrowType) else _of_storage(type)
    if logical.is_nullable == is_nullable and name is None:
        return logical
    return ArrowType(_made("sel_type_as_field", logical._owner, lib.sel_type_name(logical._owner) if name is None else name.encode(), is_nullable))


def dictionary_of(type: ArrowType) -> tuple[Owner, ArrowType | None]:
    """Returns the values of a dictionary and their logical type."""
    values, owner = Owner(), TypeOwner()
    call("sel_type_dictionary", type._owner, byref(values._handle), byref(owner._handle))
    return values, ArrowType(owner)


def has_dictionary(type: Type) -> bool:
    """Returns whether the type, or one below it, has a dictionary, whose values its equality does not compare."""
    return isinstance(type, ArrowType) and (type.is_dictionary or any(map(has_dictionary, type.fields)))


def coded_type(format: str, values: Owner, value_type: ArrowType | None = None, is_ordered: bool = False) -> ArrowType:
    """Returns the type of keys of an Arrow format with a dictionary."""
    return ArrowType(_made("sel_type_dictionary_new", format.encode(), values, type_parameter(value_type), is_ordered))


def decoded(column: Owner, type: ArrowType) -> tuple[Owner, ArrowType | None]:
    """Returns a column without dictionaries, and its type."""
    made, owner = Owner(), TypeOwner()
    call("sel_decode", column, type._owner, byref(made._handle), byref(owner._handle))
    return made, logical_type(made, owner)


def common_type(columns: Sequence[Owner], types: Sequence[ArrowType | None]) -> tuple[list[Owner], ArrowType | None]:
    """Returns columns for a call that joins them, and their common logical type: the columns themselves if none of them has one."""
    if all(type is None for type in types):
        return list(columns), None
    count = len(columns)
    given, handles, made = (Handle * count)(), (TypeHandle * count)(), (Handle * count)()
    found = TypeOwner()
    try:
        for number, (column, type) in enumerate(zip(columns, types)):
            call("sel_share", column, byref(given[number]))
            if type is not None:
                call("sel_type_share", type._owner, byref(handles[number]))
        call("sel_common_type", given, handles, count, made, byref(found._handle))
        owners = [Owner() for _ in range(count)]
        for owner, handle in zip(owners, made):
            call("sel_share", byref(handle), byref(owner._handle))
    finally:
        for number in range(count):
            lib.sel_free(byref(given[number]))
            lib.sel_free(byref(made[number]))
            lib.sel_type_free(byref(handles[number]))
    return owners, logical_type(owners[0], found)
