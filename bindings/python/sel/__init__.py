"""Proved selection kernels over Arrow columns of any nesting: filter, take, if-then-else, list element access, flatten.

A `Column` is made of Python values, of a numpy array, of text, or of Arrow data of another library. Its methods and the functions
of this module return new columns. The types are `null`, `bool`, `i8` to `i128`, `u8` to `u128`, `binary`, `binview` (binary views),
`utf8` (string views), `list<..>`, `fixed<n,..>` (fixed-size lists) and `struct<..>`. Arrow's names are accepted as well: `int64`,
`string`, `list<item: string>`, `fixed_size_list<item: int64>[2]`. The fields of such structs have no names; a type whose fields have names, as
in `struct<id: int64>`, is a logical one.

A column also has a logical type, an `ArrowType`, if it says more than the storage: `double`, `timestamp[ms, tz=UTC]`, dictionaries,
and what else comes in from Arrow. A `Table` has columns with names; a `Stream` has tables one after the other.

>>> import sel
>>> ages = sel.Column([31, None, 27, 45])
>>> ages.filter([True, True, False, True])
Column(i64, [31,null,45])
>>> ages.take([3, None, 0]).to_pylist()
[45, None, 31]
"""

from ._column import Column, choose, collect_rows, concat, flatten, if_else, propagate_dictionary
from ._errors import BrokenRule, BrokenText, LimitPassed, OutOfBounds, OutOfMemory, SelError, WrongArgument
from ._logical import ArrowType
from ._selection import Selection
from ._table import Stream, Table
from ._types import Type, parse_type

__all__ = [
    "ArrowType", "BrokenRule", "BrokenText", "Column", "LimitPassed", "OutOfBounds", "OutOfMemory", "SelError", "Selection", "Stream", "Table", "Type", "WrongArgument",
    "choose", "collect_rows", "concat", "flatten", "if_else", "parse_type", "propagate_dictionary",
]
__version__ = "0.3.0"
