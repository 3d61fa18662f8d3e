"""Selects between two columns by a mask (if-then-else), also between nested columns."""

import sel

prices = sel.Column.from_pylist([10, None, 30, 40])
sold = sel.Column.from_pylist([True, False, None, True])

# The price where something was sold, else 0.
print(sel.choose(sold, prices, 0))

# Lists of lists and tuples are rows like any other.
first = sel.Column.from_pylist([[("a", [1])], None, [], [("b", [2, None])]])
second = sel.Column.from_pylist([[("x", [9])]] * 4)
print(sel.choose(sold, first, second))

# The last element of each list, or null if it has none.
print(first.sublist_get(-1))

# An error is an exception with its message.
try:
    prices.filter([True])
except sel.WrongArgument as error:
    print(error)
