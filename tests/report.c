#include "report.h"

#include "sel.h"

#include <signal.h>
#include <stdarg.h>
#include <stdatomic.h>
#include <stdio.h>
#include <string.h>

/* ---- failures ---- */

static struct {
    const struct line *line;
    char what[160];             /* the layout and the call of what is run */
    bool is_quiet;
    atomic_size_t failures;     /* threads may fail at once */
    char first[600];
} report;

void report_line(const struct line *line) {
    report.line = line;
    report.what[0] = 0;
    report.failures = 0;
    report.first[0] = 0;
}

void report_case(const char *format, ...) {
    va_list arguments;
    va_start(arguments, format);
    vsnprintf(report.what, sizeof report.what, format, arguments);
    va_end(arguments);
}

void report_quietly(bool is_quiet) {
    report.is_quiet = is_quiet;
}

/* Names the line, and ends the program as the signal does. */
static void end_by_signal(int number) {
    if (report.line != NULL) {
        printf("%s:%zu: %s: %s: ended by signal %d\n", report.line->file, report.line->number, report.line->fields[0], report.what, number);
        fflush(stdout);
    }
    signal(number, SIG_DFL);
    raise(number);
}

void report_signals(void) {
    signal(SIGSEGV, end_by_signal);
    signal(SIGABRT, end_by_signal);
    signal(SIGFPE, end_by_signal);
    signal(SIGILL, end_by_signal);
}

bool fail(const char *format, ...) {
    char text[4000] = "";
    va_list arguments;
    va_start(arguments, format);
    vsnprintf(text, sizeof text, format, arguments);
    va_end(arguments);
    if (atomic_fetch_add(&report.failures, 1) == 0) {
        memcpy(report.first, text, sizeof report.first - 1);
    }
    if (!report.is_quiet) {
        printf("%s:%zu: %s: %s%s%s\n", report.line->file, report.line->number, report.line->fields[0], report.what,
            report.what[0] == 0 ? "" : ": ", text);
    }
    return false;
}

size_t failures_of_line(void) {
    return report.failures;
}

const char *first_failure(void) {
    return report.first;
}

/* ---- statuses ---- */

static const struct {
    const char *name;
    sel_status status;
} errors[] = {
    {"out_of_memory", SEL_ERROR_OUT_OF_MEMORY},
    {"unsupported_type", SEL_ERROR_UNSUPPORTED_TYPE},
    {"type_mismatch", SEL_ERROR_TYPE_MISMATCH},
    {"length_mismatch", SEL_ERROR_LENGTH_MISMATCH},
    {"index_out_of_bounds", SEL_ERROR_INDEX_OUT_OF_BOUNDS},
    {"list_index_out_of_bounds", SEL_ERROR_LIST_INDEX_OUT_OF_BOUNDS},
    {"row_limit", SEL_ERROR_ROW_LIMIT},
    {"offset_limit", SEL_ERROR_OFFSET_LIMIT},
    {"buffer_limit", SEL_ERROR_BUFFER_LIMIT},
    {"view_limit", SEL_ERROR_VIEW_LIMIT},
    {"no_offsets", SEL_ERROR_NO_OFFSETS},
    {"negative_offset", SEL_ERROR_NEGATIVE_OFFSET},
    {"decreasing_offset", SEL_ERROR_DECREASING_OFFSET},
    {"offset_range", SEL_ERROR_OFFSET_RANGE},
    {"too_many_rows", SEL_ERROR_TOO_MANY_ROWS},
    {"too_many_buffers", SEL_ERROR_TOO_MANY_BUFFERS},
    {"list_size", SEL_ERROR_LIST_SIZE},
    {"child_length", SEL_ERROR_CHILD_LENGTH},
    {"field_length", SEL_ERROR_FIELD_LENGTH},
    {"validity_length", SEL_ERROR_VALIDITY_LENGTH},
    {"type_syntax", SEL_ERROR_TYPE_SYNTAX},
    {"row_syntax", SEL_ERROR_ROW_SYNTAX},
    {"row_type_mismatch", SEL_ERROR_ROW_TYPE_MISMATCH},
    {"text_limit", SEL_ERROR_TEXT_LIMIT},
};

enum { ERROR_COUNT = sizeof errors / sizeof errors[0] };

const char *error_name(sel_status status) {
    for (size_t i = 0; i < ERROR_COUNT; i += 1) {
        if (errors[i].status == status) {
            return errors[i].name;
        }
    }
    return NULL;
}

bool status_of(const char *name, sel_status *out) {
    for (size_t i = 0; i < ERROR_COUNT; i += 1) {
        if (strcmp(errors[i].name, name) == 0) {
            *out = errors[i].status;
            return true;
        }
    }
    return false;
}

const char *status_text(struct arena *arena, sel_status status) {
    const char *name = error_name(status);
    char *text = arena_take(arena, 40, 1);
    if (status == SEL_OK) {
        snprintf(text, 40, "no error");
    } else if (name != NULL) {
        snprintf(text, 40, "error %s", name);
    } else {
        snprintf(text, 40, "status %u", (unsigned)status);
    }
    return text;
}
