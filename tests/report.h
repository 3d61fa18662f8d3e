/* Failures reported, and statuses by the names that lines have for them. */
#ifndef SEL_TESTS_REPORT_H
#define SEL_TESTS_REPORT_H

#include "lines.h"
#include "sel.h"

/* Names the line that is run from now on, and the call that it is about. */
void report_line(const struct line *line);

/* Names what of the line is run: its layout and how it is called. */
void report_case(const char *format, ...);

/* Keeps failures to itself if `is_quiet`: those of lines that must fail are counted, and not printed. */
void report_quietly(bool is_quiet);

/* Has the line reported that is run when the program gets a signal that ends it, such as SIGSEGV. */
void report_signals(void);

/* Reports a failure: FILE:LINE: CALL, what was run, and what this says. Returns false. */
bool fail(const char *format, ...);

/* Returns how many failures of the line were reported. */
size_t failures_of_line(void);

/* Returns the text of the line's first failure. */
const char *first_failure(void);

/* Returns the error name of a status, NULL if it has none. */
const char *error_name(sel_status status);

/* Returns the status of an error name. Returns false if there is none. */
bool status_of(const char *name, sel_status *out);

/* Returns `no error`, `error NAME`, or `status N` for a status without a name. */
const char *status_text(struct arena *arena, sel_status status);

#endif
