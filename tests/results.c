#include "results.h"

#include "check.h"
#include "report.h"

#include <stdio.h>
#include <string.h>

/* ---- the result of a line ---- */

static bool has_place(sel_status status) {
    return status == SEL_ERROR_TYPE_SYNTAX || status == SEL_ERROR_ROW_SYNTAX || status == SEL_ERROR_ROW_TYPE_MISMATCH;
}

/* Reads `error NAME`, or `error NAME PLACE` where a text goes wrong at a place. */
static bool read_error(struct arena *arena, const char *text, struct wanted *out) {
    const char *name = text + strlen("error "), *space = strchr(name, ' ');
    const char *word = arena_text(arena, name, space == NULL ? strlen(name) : (size_t)(space - name));
    if (!status_of(word, &out->status)) {
        return fail("no name of an error: %s", word);
    }
    if (has_place(out->status) != (space != NULL)) {
        return fail("%s a place: %s", space == NULL ? "an error without" : "an error that has not", text);
    }
    return space == NULL || read_size(space + 1, &out->place) || fail("no place: %s", space + 1);
}

static bool read_wanted_rows(struct arena *arena, const struct type *type, const char *text, struct rows *out) {
    struct misread why;
    if (type == NULL) {
        return fail("these arguments can have no rows for a result");
    }
    return read_rows(arena, type, text, out, &why)
        || fail("the result is no rows of the type %s: %s at byte %zu of %s", type_text(arena, type), why.reason, why.at, text);
}

/* Reads a type, and no rows of it. */
static bool read_wanted_type(struct arena *arena, const char *text, struct rows *out) {
    struct misread why;
    const struct type *type = read_type(arena, text, &why);
    if (type == NULL) {
        return fail("the result is no type: %s at byte %zu of %s", why.reason, why.at, text);
    }
    return read_wanted_rows(arena, type, "[]", out);
}

static bool read_wanted_flag(const char *text, bool *out) {
    *out = strcmp(text, "true") == 0;
    return *out || strcmp(text, "false") == 0 || fail("the result is neither true nor false: %s", text);
}

/* Checks that the rows of a field are written as null where the struct is. */
static bool check_field_nulls(const struct arguments *given, const struct rows *wanted) {
    const struct rows *structs = &given->columns[0];
    for (size_t i = 0; i < structs->len && i < wanted->len; i += 1) {
        if (structs->values[i].is_null && !wanted->values[i].is_null) {
            return fail("row %zu of the field is not written as null, as the struct is", i);
        }
    }
    return structs->len == wanted->len || fail("the result has another number of rows than there are structs");
}

static bool read_done(const struct call *call, const struct arguments *given, const char *const *fields, struct wanted *out) {
    struct arena *arena = given->arena;
    const struct type *type = call->type_of_result == NULL ? NULL : call->type_of_result(given);
    out->column_count = call->result == RESULT_FLAG || call->result == RESULT_PRINTED ? 0 : 1;
    switch (call->result) {
    case RESULT_FLAG:
        return read_wanted_flag(fields[0], &out->flag);
    case RESULT_TYPE:
        return read_wanted_type(arena, fields[0], &out->rows[0]);
    case RESULT_TWO_ROWS:
        out->column_count = 2;
        return read_wanted_rows(arena, type, fields[0], &out->rows[0])
            && read_wanted_rows(arena, leaf_type(SEL_TYPE_STRING_VIEW), fields[1], &out->rows[1]);
    case RESULT_FIELD:
        return read_wanted_rows(arena, type, fields[0], &out->rows[0]) && check_field_nulls(given, &out->rows[0]);
    default:
        return read_wanted_rows(arena, type, fields[0], &out->rows[0]);
    }
}

bool read_result(const struct call *call, const struct arguments *given, const struct line *line, struct wanted *out) {
    size_t before = 1 + strlen(call->letters), columns = call->result == RESULT_TWO_ROWS ? 2 : 1;
    const char *const *fields = line->fields + before;
    bool is_error = line->count > before && strncmp(fields[0], "error ", strlen("error ")) == 0;
    *out = (struct wanted){.status = SEL_OK, .place = NO_PLACE};
    if (line->count != before + (is_error ? 1 : columns)) {
        return fail("%zu fields in place of %zu", line->count, before + (is_error ? 1 : columns));
    }
    out->column_count = is_error ? columns : 0;
    return is_error ? read_error(given->arena, fields[0], out) : read_done(call, given, fields, out);
}

/* ---- outcomes ---- */

bool begin_outcome(struct arena *arena, const struct wanted *wanted, bool is_filled, struct outcome *out) {
    size_t room = wanted->rows[0].text == NULL ? 0 : strlen(wanted->rows[0].text) + 20;
    bool is_made = true;
    *out = (struct outcome){.flag = !wanted->flag, .place = NO_PLACE, .room = room, .len = NO_PLACE, .text = arena_take(arena, room + 1, 1)};
    for (size_t i = 0; i < wanted->column_count && is_filled; i += 1) {
        is_made = is_made && sel_null_new(5 + i, &out->columns[i]) == SEL_OK;
    }
    return is_made || fail("the column that is in the place of the result could not be made");
}

void end_outcome(struct outcome *outcome) {
    sel_free(&outcome->columns[0]);
    sel_free(&outcome->columns[1]);
}

bool check_unchanged(const struct outcome *before, struct outcome *after) {
    for (size_t i = 0; i < 2; i += 1) {
        bool is_same = after->columns[i].at == before->columns[i].at && sel_len(&after->columns[i]) == (before->columns[i].at == NULL ? 0 : 5 + i);
        if (!is_same) {
            return fail("the place of the result was changed");
        }
    }
    return (after->flag == before->flag && after->len == before->len && after->place == before->place)
        || fail("a result was written");
}

/* Appends the text of some rows of a column, without its brackets, to a text. */
static bool append_part(struct arena *arena, sel_column *column, size_t from, size_t len, char *out, size_t room) {
    sel_column part = {0};
    sel_status status = sel_slice(column, from, len, &part);
    const char *text = status == SEL_OK ? printed(arena, &part) : "[]";
    sel_free(&part);
    if (status != SEL_OK || *text != '[') {
        return fail("rows %zu to %zu of the child: %s", from, from + len, status == SEL_OK ? text : status_text(arena, status));
    }
    size_t written = strlen(out), added = strlen(text) - 2;
    if (added > 0) {
        snprintf(out + written, room - written, "%s%.*s", written > 1 ? "," : "", (int)added, text + 1);
    }
    return true;
}

/* Checks the rows of a child that lie in the lists that are not null, in order. */
static bool check_items(const struct arguments *given, sel_column *lists, const struct wanted *wanted, sel_column *child) {
    const struct rows *rows = &given->columns[0];
    struct arena arena = {NULL};
    size_t room = strlen(wanted->rows[0].text) + 4096;
    char *text = arena_take(&arena, room, 1);
    int64_t *offsets = arena_take(&arena, rows->len + 1, sizeof *offsets);
    bool is_fixed = rows->type->kind == SEL_TYPE_FIXED_SIZE_LIST;
    bool is_right = is_fixed || sel_offsets(lists, offsets, rows->len + 1) == SEL_OK || fail("the offsets cannot be read");
    text[0] = '[';
    for (size_t i = 0; is_right && i < rows->len; i += 1) {
        size_t from = is_fixed ? i * rows->type->list_size : (size_t)offsets[i];
        size_t len = is_fixed ? rows->type->list_size : (size_t)(offsets[i + 1] - offsets[i]);
        if (!rows->values[i].is_null) {
            is_right = append_part(&arena, child, from, len, text, room - 1);
        }
    }
    strcat(text, "]");
    is_right = is_right && (strcmp(text, wanted->rows[0].text) == 0 || fail("expected %s, got %s", wanted->rows[0].text, text));
    is_right = is_right && check_type(child, wanted->rows[0].type, "the child");
    arena_free(&arena);
    return is_right;
}

/* Checks the rows of a field at the structs that are not null. */
static bool check_field(const struct arguments *given, const struct wanted *wanted, sel_column *field) {
    const struct rows *structs = &given->columns[0], *rows = &wanted->rows[0];
    struct arena arena = {NULL};
    bool is_right = sel_len(field) == rows->len || fail("the length of the field: expected %zu, got %zu", rows->len, sel_len(field));
    for (size_t i = 0; is_right && i < rows->len; i += 1) {
        const struct value *value = &rows->values[i];
        char *text = arena_take(&arena, value->text_len + 4096, 1);
        text[0] = '[';
        if (structs->values[i].is_null) {
            continue;
        }
        is_right = append_part(&arena, field, i, 1, text, value->text_len + 4096);
        bool is_same = strlen(text + 1) == value->text_len && memcmp(text + 1, value->text, value->text_len) == 0;
        is_right = is_right && (is_same || fail("row %zu of the field: expected %.*s, got %s", i, (int)value->text_len, value->text, text + 1));
    }
    is_right = is_right && check_type(field, rows->type, "the field");
    arena_free(&arena);
    return is_right;
}

static bool check_printed(const struct wanted *wanted, const struct outcome *after) {
    const char *text = wanted->rows[0].text;
    bool is_same = after->len == strlen(text) && memcmp(after->text, text, after->len) == 0;
    bool is_more = after->text[after->len < after->room ? after->len : after->room] != 0;
    return (is_same && !is_more) || fail("expected %s, got %s of %zu bytes", text, (const char *)after->text, after->len);
}

static bool check_made(const struct rows *wanted, sel_column *column) {
    return check_column(column, wanted, "the result") && check_equal(column, wanted) && check_through_arrow(column, wanted);
}

/* Checks what a call made or wrote that is done. */
static bool check_done(const struct call *call, const struct arguments *given, sel_column *columns, const struct wanted *wanted, struct outcome *after) {
    switch (call->result) {
    case RESULT_PRINTED:
        return check_printed(wanted, after);
    case RESULT_FLAG:
        return after->flag == wanted->flag || fail("expected %s, got %s", wanted->flag ? "true" : "false", after->flag ? "true" : "false");
    case RESULT_ITEMS:
        return check_items(given, &columns[0], wanted, &after->columns[0]);
    case RESULT_FIELD:
        return check_field(given, wanted, &after->columns[0]);
    case RESULT_TWO_ROWS:
        return check_made(&wanted->rows[0], &after->columns[0]) && check_made(&wanted->rows[1], &after->columns[1]);
    default:
        return check_made(&wanted->rows[0], &after->columns[0]);
    }
}

/* Returns what a call gave: the error, or the rows that it made. */
static const char *given_text(struct arena *arena, sel_status status, struct outcome *after) {
    return status == SEL_OK && after->columns[0].at != NULL ? printed(arena, &after->columns[0]) : status_text(arena, status);
}

bool check_outcome(const struct call *call, const struct arguments *given, sel_column *columns, const struct wanted *wanted,
    sel_status status, const struct outcome *before, struct outcome *after) {
    struct arena arena = {NULL};
    bool is_right = status == wanted->status;
    if (!is_right) {
        const char *text = wanted->rows[0].text;
        fail("expected %s, got %s", wanted->status == SEL_OK && text != NULL ? text : status_text(&arena, wanted->status),
            given_text(&arena, status, after));
    } else if (after->place != wanted->place) {
        is_right = fail("the place in the text: expected %zu, got %zu", wanted->place, after->place);
    } else if (status == SEL_OK) {
        is_right = check_done(call, given, columns, wanted, after);
    } else {
        struct outcome placed = *before;
        placed.place = wanted->place;
        is_right = check_unchanged(&placed, after);
    }
    arena_free(&arena);
    return is_right;
}
