#include "check.h"

#include "layout.h"
#include "report.h"
#include "sel_arrow.h"

#include <string.h>

/* ---- columns ---- */

const char *printed(struct arena *arena, sel_column *column) {
    size_t room = 500, len = 0;
    char *text = arena_take(arena, room + 1, 1);
    sel_status status = sel_print(column, (uint8_t *)text, room, &len);
    if (status == SEL_OK && len > room) {
        room = len;
        text = arena_take(arena, room + 1, 1);
        status = sel_print(column, (uint8_t *)text, room, &len);
    }
    if (status != SEL_OK) {
        return status_text(arena, status);
    }
    return len <= room ? text : "a text that grew while it was printed";
}

static const struct type *type_of(struct arena *arena, sel_column *column);

/* Returns the type of a child or a field, NULL if it cannot be had. The column is freed. */
static bool take_type(struct arena *arena, sel_status status, sel_column *column, struct type *out) {
    const struct type *type = status == SEL_OK ? type_of(arena, column) : NULL;
    sel_free(column);
    if (type != NULL) {
        *out = *type;
    }
    return type != NULL;
}

/* Reads the type of a column, level by level. Returns NULL if a call for that fails. */
static const struct type *type_of(struct arena *arena, sel_column *column) {
    struct type *type = arena_take(arena, 1, sizeof *type), *children;
    sel_column child = {0};
    *type = (struct type){sel_type_of(column), 0, 0, NULL};
    bool is_fixed = type->kind == SEL_TYPE_FIXED_SIZE_LIST, is_struct = type->kind == SEL_TYPE_STRUCT;
    if (type->kind < SEL_TYPE_LIST || type->kind >= SEL_TYPE_NONE) {
        return type->kind < SEL_TYPE_NONE ? type : NULL;
    }
    type->count = 1;
    if ((is_struct && sel_field_count(column, &type->count) != SEL_OK)
        || (is_fixed && sel_fixed_size_list_size(column, &type->list_size) != SEL_OK)) {
        return NULL;
    }
    type->children = children = arena_take(arena, type->count, sizeof *children);
    for (size_t i = 0; i < type->count; i += 1) {
        sel_status status = is_struct ? sel_field(column, i, &child) : sel_child(column, &child);
        if (!take_type(arena, status, &child, &children[i])) {
            return NULL;
        }
    }
    return type;
}

bool check_type(sel_column *column, const struct type *wanted, const char *what) {
    struct arena arena = {NULL};
    const struct type *type = type_of(&arena, column);
    const char *found = type == NULL ? "none" : type_text(&arena, type), *text = type_text(&arena, wanted);
    bool is_right = strcmp(found, text) == 0 || fail("the type of %s: expected %s, got %s", what, text, found);
    arena_free(&arena);
    return is_right;
}

/* Checks that the validity says of each row whether it is null. */
static bool check_validity(struct arena *arena, sel_column *column, const struct rows *wanted, const char *what) {
    size_t len = (wanted->len + 7) / 8;
    bool has = true;
    uint8_t *bits = arena_take(arena, len, 1);
    sel_status status = sel_validity(column, bits, len, &has);
    if (status != SEL_OK) {
        return fail("the validity of %s: %s", what, status_text(arena, status));
    }
    for (size_t i = 0; i < wanted->len; i += 1) {
        bool is_valid = has ? bits[i / 8] >> (i % 8) & 1 : wanted->type->kind != SEL_TYPE_NULL;
        if (is_valid == wanted->values[i].is_null) {
            return fail("the validity of %s: row %zu is %s", what, i, is_valid ? "valid" : "null");
        }
    }
    return true;
}

bool check_has_validity(sel_column *column, bool wanted, const char *what) {
    struct arena arena = {NULL};
    bool has = !wanted;
    size_t len = (sel_len(column) + 7) / 8;
    sel_status status = sel_validity(column, arena_take(&arena, len, 1), len, &has);
    arena_free(&arena);
    return (status == SEL_OK && has == wanted) || fail("%s has %s validity", what, wanted ? "no" : "a");
}

bool check_column(sel_column *column, const struct rows *wanted, const char *what) {
    struct arena arena = {NULL};
    const char *text = printed(&arena, column);
    size_t len = sel_len(column), nulls = sel_null_count(column);
    bool is_right = strcmp(text, wanted->text) == 0 || fail("%s: expected %s, got %s", what, wanted->text, text);
    is_right = is_right && (len == wanted->len || fail("the length of %s: expected %zu, got %zu", what, wanted->len, len));
    is_right = is_right && (nulls == null_count(wanted)
        || fail("the null count of %s: expected %zu, got %zu", what, null_count(wanted), nulls));
    is_right = is_right && check_type(column, wanted->type, what);
    is_right = is_right && check_validity(&arena, column, wanted, what);
    arena_free(&arena);
    return is_right;
}

bool check_equal(sel_column *column, const struct rows *wanted) {
    struct arena arena = {NULL};
    sel_column other = {0};
    bool equal = false;
    sel_status status = build_column(&layouts[2], wanted, &other);
    if (status == SEL_OK) {
        status = sel_equal_rows(column, &other, &equal);
    }
    sel_free(&other);
    if (status != SEL_OK || !equal) {
        fail("sel_equal_rows of the result and of %s: %s", wanted->text, status == SEL_OK ? "false" : status_text(&arena, status));
    }
    arena_free(&arena);
    return status == SEL_OK && equal;
}

/* ---- Arrow ---- */

/* Returns whether a number of 128 bits is one of 39 digits, which no decimal of Arrow has: 10 to the 38th, or more. */
static bool has_39_digits(const struct value *value) {
    bool is_negative = value->high >> 63;
    uint64_t high = is_negative ? ~value->high + (value->low == 0) : value->high;
    uint64_t low = is_negative ? ~value->low + 1 : value->low;
    return high > 0x4b3b4ca85a86c47aU || (high == 0x4b3b4ca85a86c47aU && low >= 0x098a224000000000U);
}

/* Returns whether a number of 128 bits in the values has no Arrow format. */
static bool is_past_decimals(const struct type *type, const struct value *values, size_t step, size_t len) {
    for (size_t i = 0; i < len; i += 1) {
        const struct type *own = &type[step * i];
        if (values[i].is_null) {
            continue;
        }
        if (own->kind == SEL_TYPE_INT128 && has_39_digits(&values[i])) {
            return true;
        }
        if (own->count > 0 && is_past_decimals(own->children, values[i].items, own->kind == SEL_TYPE_STRUCT, values[i].len)) {
            return true;
        }
    }
    return false;
}

/* Checks the status of an export. */
static bool check_export(struct arena *arena, sel_status status, const struct rows *wanted) {
    bool is_past = is_past_decimals(wanted->type, wanted->values, 0, wanted->len);
    return status == (is_past ? SEL_ERROR_ARROW_RANGE : SEL_OK) || fail("export to Arrow: %s", status_text(arena, status));
}

bool check_through_arrow(sel_column *column, const struct rows *wanted) {
    struct arena arena = {NULL};
    struct ArrowArray array;
    struct ArrowSchema schema;
    sel_column again = {0};
    sel_status status = sel_export(column, NULL, &array, &schema);
    bool is_right = check_export(&arena, status, wanted);
    if (status == SEL_OK) {
        status = sel_import(&array, &schema, &again, NULL);
        schema.release(&schema);
        is_right = is_right && (status == SEL_OK || fail("import from Arrow: %s", status_text(&arena, status)));
        is_right = is_right && check_column(&again, wanted, "the column that came back from Arrow");
    }
    sel_free(&again);
    arena_free(&arena);
    return is_right;
}
