/* The result of a line, and what a call made compared with it. */
#ifndef SEL_TESTS_RESULTS_H
#define SEL_TESTS_RESULTS_H

#include "calls.h"

/* The result of a line. */
struct wanted {
    sel_status status;
    size_t place;               /* that of an error in a text, else NO_PLACE */
    size_t column_count;        /* how many columns are made */
    struct rows rows[2];
    bool flag;
};

/* Reads the fields behind the arguments of a line. Reports what is wrong with them, and returns whether nothing is. */
bool read_result(const struct call *call, const struct arguments *given, const struct line *line, struct wanted *out);

/* Makes an outcome as it is before a call: with other columns in it if `is_filled`, else without any, and with a flag that
 * is not the one that is wanted. Returns whether there was memory for that. */
bool begin_outcome(struct arena *arena, const struct wanted *wanted, bool is_filled, struct outcome *out);

/* Checks that a call changed nothing of an outcome. */
bool check_unchanged(const struct outcome *before, struct outcome *after);

/* Checks the status of a call, and what it made of its columns. */
bool check_outcome(const struct call *call, const struct arguments *given, sel_column *columns, const struct wanted *wanted,
    sel_status status, const struct outcome *before, struct outcome *after);

/* Frees the columns of an outcome. */
void end_outcome(struct outcome *outcome);

#endif
