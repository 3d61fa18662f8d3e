/* Columns compared with the rows that they should have. */
#ifndef SEL_TESTS_CHECK_H
#define SEL_TESTS_CHECK_H

#include "notation.h"

/* Returns the text of the rows of a column, or of why sel_print gives none. */
const char *printed(struct arena *arena, sel_column *column);

/* Checks the type of a column, down to its leaves. */
bool check_type(sel_column *column, const struct type *wanted, const char *what);

/* Checks the type of a column, the number of its rows and of its nulls, its validity, and its rows. */
bool check_column(sel_column *column, const struct rows *wanted, const char *what);

/* Checks whether a column has a validity. */
bool check_has_validity(sel_column *column, bool wanted, const char *what);

/* Checks that sel_equal_rows says of a column that it has the rows, which are laid out otherwise. */
bool check_equal(sel_column *column, const struct rows *wanted);

/* Checks that a column comes back from Arrow with its type and rows, or that a number has too many digits for Arrow. */
bool check_through_arrow(sel_column *column, const struct rows *wanted);

#endif
