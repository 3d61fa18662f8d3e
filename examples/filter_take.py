"""Filters and takes rows of columns, of integers and of nested values."""

import sel

ages = sel.Column.from_pylist([31, None, 27, 45])
kept = ages.filter([True, True, False, True])
taken = ages.take([3, 0])
assert kept.to_pylist() == [31, None, 45]
assert taken.to_pylist() == [45, 31]

# Lists of structs are rows like any other.
orders = sel.Column.from_pylist([[("a", [1])], None, [], [("b", [2, None])]])
print(orders.filter([True, False, None, True]))

# A null index gives a null row.
print(ages.take([3, None, 0]))

# Any library's Arrow array can be imported like this.
print(sel.Column.from_arrow(orders[1:]))

# An error is an exception with a message.
try:
    ages.filter([True])
except sel.WrongArgument as error:
    print(error)
