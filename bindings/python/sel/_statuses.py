"""The statuses of include/sel.h, and the exception class of each. Written by tools/statuses.py from tools/statuses.txt."""

from __future__ import annotations

OK = 0
OUT_OF_MEMORY = 1
NO_COLUMN = 2
UNSUPPORTED_TYPE = 3
TYPE_MISMATCH = 4
LENGTH_MISMATCH = 5
INDEX_OUT_OF_BOUNDS = 6
LIST_INDEX_OUT_OF_BOUNDS = 7
ROW_LIMIT = 8
OFFSET_LIMIT = 9
BUFFER_LIMIT = 10
VIEW_LIMIT = 11
TOO_DEEP = 12
NO_OFFSETS = 16
NEGATIVE_OFFSET = 17
DECREASING_OFFSET = 18
TOO_MANY_ROWS = 19
TOO_MANY_BUFFERS = 20
LIST_SIZE = 21
OFFSET_RANGE = 22
CHILD_LENGTH = 23
FIELD_LENGTH = 24
VALIDITY_LENGTH = 25
VIEW_RANGE = 26
VIEW_PREFIX = 27
INVALID_UTF8 = 28
TYPE_SYNTAX = 32
ROW_SYNTAX = 33
ROW_TYPE_MISMATCH = 34
TEXT_LIMIT = 35
ARROW_RELEASED = 64
ARROW_FORMAT = 65
ARROW_BUFFERS = 66
ARROW_CHILDREN = 67
ARROW_LENGTH = 68
ARROW_DICTIONARY = 69
ARROW_RANGE = 71
ARROW_NULL = 72
ARROW_STREAM = 73

EXCEPTIONS = {
    OUT_OF_MEMORY: "OutOfMemory",
    NO_COLUMN: "WrongArgument",
    UNSUPPORTED_TYPE: "WrongArgument",
    TYPE_MISMATCH: "WrongArgument",
    LENGTH_MISMATCH: "WrongArgument",
    INDEX_OUT_OF_BOUNDS: "OutOfBounds",
    LIST_INDEX_OUT_OF_BOUNDS: "OutOfBounds",
    ROW_LIMIT: "LimitPassed",
    OFFSET_LIMIT: "LimitPassed",
    BUFFER_LIMIT: "LimitPassed",
    VIEW_LIMIT: "LimitPassed",
    TOO_DEEP: "LimitPassed",
    NO_OFFSETS: "BrokenRule",
    NEGATIVE_OFFSET: "BrokenRule",
    DECREASING_OFFSET: "BrokenRule",
    TOO_MANY_ROWS: "BrokenRule",
    TOO_MANY_BUFFERS: "BrokenRule",
    LIST_SIZE: "BrokenRule",
    OFFSET_RANGE: "BrokenRule",
    CHILD_LENGTH: "BrokenRule",
    FIELD_LENGTH: "BrokenRule",
    VALIDITY_LENGTH: "BrokenRule",
    VIEW_RANGE: "BrokenRule",
    VIEW_PREFIX: "BrokenRule",
    INVALID_UTF8: "BrokenRule",
    TYPE_SYNTAX: "BrokenText",
    ROW_SYNTAX: "BrokenText",
    ROW_TYPE_MISMATCH: "BrokenText",
    TEXT_LIMIT: "LimitPassed",
    ARROW_RELEASED: "BrokenRule",
    ARROW_FORMAT: "BrokenRule",
    ARROW_BUFFERS: "BrokenRule",
    ARROW_CHILDREN: "BrokenRule",
    ARROW_LENGTH: "BrokenRule",
    ARROW_DICTIONARY: "BrokenRule",
    ARROW_RANGE: "BrokenRule",
    ARROW_NULL: "BrokenRule",
    ARROW_STREAM: "BrokenRule",
}
