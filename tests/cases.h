/* A line, run in all layouts and with each allocation refused. */
#ifndef SEL_TESTS_CASES_H
#define SEL_TESTS_CASES_H

#include "lines.h"

/* What of a line is run. */
struct choice {
    const char *layout;         /* the name of the only layout, NULL: all of them */
    bool has_refusals;
};

/* How much was run. */
struct counts {
    size_t cases;
    long refused;
};

/* Returns whether there is a layout of this name: plain, 1, 7, 8, 63, 64 or mixed. */
bool is_layout(const char *name);

/* Runs a line up to its first failure, which is reported. Returns whether nothing failed. */
bool run_line(const struct choice *choice, const struct line *line, struct counts *counts);

#endif
