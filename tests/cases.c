#include "cases.h"

#include "check.h"
#include "layout.h"
#include "report.h"
#include "results.h"

#include <stdio.h>
#include <string.h>

enum { CASE_COUNT = 2 * LAYOUT_COUNT, MOST_ALLOCATIONS = 100000 };

/* A call with arguments in one of the layouts. */
struct attempt {
    const struct call *call;
    const struct arguments *given;
    const struct wanted *wanted;
    size_t place;                       /* which of CASE_COUNT layouts of all columns */
    sel_column columns[MOST_COLUMNS];
    sel_column shares[MOST_COLUMNS];    /* of columns that the call takes if it succeeds */
};

/* ---- layouts of all columns of a call ---- */

/* Returns the layout of a column: the first cases have one for all columns, the others one for each. */
static const struct layout *layout_of(size_t place, size_t column) {
    return place < LAYOUT_COUNT ? &layouts[place] : &layouts[(place + 1 + 2 * column) % LAYOUT_COUNT];
}

static const char *layout_name(size_t place) {
    return place < LAYOUT_COUNT ? layouts[place].name : "mixed";
}

bool is_layout(const char *name) {
    for (size_t place = 0; place < CASE_COUNT; place += 1) {
        if (strcmp(layout_name(place), name) == 0) {
            return true;
        }
    }
    return false;
}

/* Returns whether a case is to be run: without columns only the first one, and those with several layouts only if there are
 * several columns. */
static bool is_chosen(const struct choice *choice, size_t place, size_t column_count) {
    bool is_named = choice->layout == NULL || strcmp(choice->layout, layout_name(place)) == 0;
    return column_count == 0 ? place == 0 : is_named && (place < LAYOUT_COUNT || column_count > 1);
}

/* Returns whether allocations are refused in a case: in the plain layout, at the offset 7 and in one of the mixed layouts. */
static bool has_refusals(const struct choice *choice, size_t place) {
    return choice->has_refusals && (place == 0 || place == 2 || place == LAYOUT_COUNT + 1);
}

/* Returns whether the place of the result has another column before a call. */
static bool is_filled(size_t place) {
    return place % 3 == 2;
}

/* ---- the columns of a call ---- */

static void free_columns(struct attempt *attempt) {
    for (size_t i = 0; i < MOST_COLUMNS; i += 1) {
        sel_free(&attempt->columns[i]);
        sel_free(&attempt->shares[i]);
    }
}

/* Checks that a column that was built plainly has a validity if a row is null, but not if there are only nulls. */
static bool check_plain(const struct rows *rows, sel_column *column) {
    return check_has_validity(column, rows->type->kind != SEL_TYPE_NULL && null_count(rows) > 0, "an argument in the plain layout");
}

/* Returns whether the columns of a call were built, and not taken since. */
static bool has_columns(const struct attempt *attempt) {
    return attempt->given->column_count == 0 || attempt->columns[0].at != NULL;
}

/* Builds the columns of a call; shares of them are kept if `is_shared`. */
static bool build_columns(struct attempt *attempt, bool is_shared) {
    for (size_t i = 0; i < attempt->given->column_count; i += 1) {
        const struct rows *rows = &attempt->given->columns[i];
        sel_status status = build_column(layout_of(attempt->place, i), rows, &attempt->columns[i]);
        if (status == SEL_OK && is_shared) {
            status = sel_share(&attempt->columns[i], &attempt->shares[i]);
        }
        if (status != SEL_OK) {
            return fail("argument %zu could not be built: status %u", i + 1, (unsigned)status);
        }
        if (attempt->place == 0 && !check_plain(rows, &attempt->columns[i])) {
            return false;
        }
    }
    return true;
}

/* Returns whether a call takes its columns: only some calls do, and only if they succeed. */
static bool takes_columns(const struct attempt *attempt, sel_status status) {
    return attempt->call->takes_columns && status == SEL_OK;
}

/* Checks that a call left its columns as they were, or took them. */
static bool check_columns(struct attempt *attempt, sel_status status) {
    bool is_taken = takes_columns(attempt, status);
    for (size_t i = 0; i < attempt->given->column_count; i += 1) {
        const struct rows *rows = &attempt->given->columns[i];
        char what[60];
        snprintf(what, sizeof what, "argument %zu after the call", i + 1);
        if (is_taken != (attempt->columns[i].at == NULL)) {
            return fail("argument %zu was %staken", i + 1, is_taken ? "not " : "");
        }
        if (!is_taken && !check_column(&attempt->columns[i], rows, what)) {
            return false;
        }
        if (attempt->shares[i].at != NULL && !check_column(&attempt->shares[i], rows, what)) {
            return false;
        }
    }
    return true;
}

/* ---- one call ---- */

/* Checks the status and what was made, or that nothing was if an allocation was refused. */
static bool check_call(struct attempt *attempt, sel_status status, long refused, const struct outcome *before, struct outcome *after) {
    if (refused == 0) {
        return check_outcome(attempt->call, attempt->given, attempt->columns, attempt->wanted, status, before, after);
    }
    if (attempt->call->takes_no_memory) {
        return fail("the call took memory");
    }
    if (status != SEL_ERROR_OUT_OF_MEMORY) {
        return fail("expected out of memory, got status %u", (unsigned)status);
    }
    return check_unchanged(before, after);
}

/* Checks that as many blocks are in use as before. */
static bool check_in_use(long before) {
    long more = memory_in_use() - before;
    return more == 0 || fail("%ld blocks were not freed", more);
}

/* Calls once, with the allocation of the number `refuse` and perhaps later ones refused, or none if it is below 0. Checks the
 * outcome and the columns, and writes the number of refused allocations to `refused`. */
static bool call_once(struct attempt *attempt, long refuse, bool and_later, long *refused) {
    struct arena arena = {NULL};
    struct outcome before, after;
    sel_status status = SEL_OK;
    long in_use = memory_in_use();
    bool is_right = begin_outcome(&arena, attempt->wanted, is_filled(attempt->place), &before);
    after = before;
    if (is_right) {
        if (refuse >= 0) {
            memory_refuse(refuse, and_later);
        }
        status = attempt->call->run(attempt->given, attempt->columns, &after);
        *refused = refuse >= 0 ? memory_allow() : 0;
        is_right = check_call(attempt, status, *refused, &before, &after) && check_columns(attempt, status);
    }
    end_outcome(&after);
    arena_free(&arena);
    return is_right && (takes_columns(attempt, status) || check_in_use(in_use));
}

/* Calls with the columns that are there: a call that failed is tried again with the same ones. Builds others if the call before
 * took them, and shares of them, so that they can be checked when they are taken again. */
static bool refuse_once(struct attempt *attempt, long number, bool and_later, long *refused) {
    if (!has_columns(attempt)) {
        free_columns(attempt);
        if (!build_columns(attempt, true)) {
            return false;
        }
    }
    return call_once(attempt, number, and_later, refused);
}

/* Calls with each allocation refused in turn, until none is reached. */
static bool refuse_each(struct attempt *attempt, bool and_later, struct counts *counts) {
    long refused = 1;
    for (long number = 0; refused > 0; number += 1) {
        report_case("%s, layout %s, allocation %ld%s refused", attempt->call->called, layout_name(attempt->place), number,
            and_later ? " and later ones" : "");
        if (number == MOST_ALLOCATIONS) {
            return fail("there is no end of allocations");
        }
        if (!refuse_once(attempt, number, and_later, &refused)) {
            return false;
        }
        counts->refused += refused;
    }
    return true;
}

/* Runs a call in one layout. */
static bool run_case(struct attempt *attempt, bool refuses, struct counts *counts) {
    long in_use = memory_in_use(), refused = 0;
    bool is_shared = attempt->call->takes_columns && attempt->place % 2 == 1;
    report_case("%s, layout %s", attempt->call->called, layout_name(attempt->place));
    bool is_right = build_columns(attempt, is_shared) && call_once(attempt, -1, false, &refused);
    if (refuses) {
        is_right = is_right && refuse_each(attempt, false, counts) && refuse_each(attempt, true, counts);
    }
    free_columns(attempt);
    counts->cases += 1;
    return is_right && check_in_use(in_use);
}

/* Runs a line by one way of calling, up to the first failure. */
static bool run_call(const struct choice *choice, struct arena *arena, const struct call *call, const struct line *line, struct counts *counts) {
    struct arguments given;
    struct wanted wanted;
    if (!read_arguments(arena, call->letters, line, &given) || !read_result(call, &given, line, &wanted)) {
        return false;
    }
    bool applies = call->applies == NULL || call->applies(&given);
    for (size_t place = 0; applies && place < CASE_COUNT; place += 1) {
        struct attempt attempt = {.call = call, .given = &given, .wanted = &wanted, .place = place};
        if (is_chosen(choice, place, given.column_count) && !run_case(&attempt, has_refusals(choice, place), counts)) {
            return false;
        }
    }
    return true;
}

bool run_line(const struct choice *choice, const struct line *line, struct counts *counts) {
    bool is_known = false, is_right = true;
    report_line(line);
    for (size_t i = 0; i < call_count && is_right; i += 1) {
        if (strcmp(calls[i].name, line->fields[0]) == 0) {
            struct arena arena = {NULL};
            is_known = true;
            is_right = run_call(choice, &arena, &calls[i], line, counts);
            arena_free(&arena);
        }
    }
    return is_right && (is_known || fail("no call of the suite"));
}
