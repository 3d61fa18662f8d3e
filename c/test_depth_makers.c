/* Tests for test_depth.c: the errors of level 129, and the makers, which leave their children unchanged on error, so that the call
 * succeeds when it is tried again. */
#include "test_depth.h"

#include <string.h>

/* ---- level 129 ---- */

/* Checks that a call returns SEL_ERROR_TOO_DEEP, and leaves the deep column and the result unchanged. */
static void too_deep(sel_status status, const sel_column *column, const void *at, const sel_column *out, int line) {
    is_at(gives(status, SEL_ERROR_TOO_DEEP), "level 129 is too deep", __FILE__, line);
    is_at(column->at == at && out->at == NULL, "level 129 changes nothing", __FILE__, line);
}

#define TOO_DEEP(call, column) too_deep((call), (column), at, &out, __LINE__)

void test_level_129(void) {
    const void *const at = deep->at;
    sel_column out = {0}, fields[3] = {{0}, {0}, {0}};
    TOO_DEEP(sel_unit_list(deep, &out), deep);
    TOO_DEEP(sel_list_new(one_each, LEN + 1, SEL_ALL_VALID, deep, &out), deep);
    TOO_DEEP(sel_fixed_size_list_new(1, LEN, SEL_ALL_VALID, deep, &out), deep);
    TOO_DEEP(sel_struct_new(LEN, SEL_ALL_VALID, deep, 1, &out), deep);
    /* before the rules of columns */
    TOO_DEEP(sel_list_new(NULL, 0, no_bits, 0, true, deep, &out), deep);
    TOO_DEEP(sel_fixed_size_list_new(2, LEN, no_bits, 0, true, deep, &out), deep);
    TOO_DEEP(sel_struct_new(LEN + 1, no_bits, 0, true, deep, 1, &out), deep);
    sel_status status = sel_int8_new(numbers, LEN, SEL_ALL_VALID, &fields[0]);
    IS(done(status));
    if (status == SEL_OK) {
        /* in a field behind another one, but not before an empty handle */
        const void *const first = fields[0].at;
        fields[1] = *deep;
        deep->at = NULL;
        TOO_DEEP(sel_struct_new(LEN, SEL_ALL_VALID, fields, 2, &out), &fields[1]);
        FAILS(sel_struct_new(LEN, SEL_ALL_VALID, fields, 3, &out), SEL_ERROR_NO_COLUMN);
        IS(fields[0].at == first && fields[1].at == at && out.at == NULL);
        sel_free(&fields[0]);
        *deep = fields[1];
    }
    SHOWS(deep, MOST, 0, 1, NONE);
}

/* A column of 127 levels takes one more. */
void test_unit_list_of_127_levels(void) {
    sel_column out = {0}, lists = {0};
    int64_t offsets[LEN + 1];
    sel_status status = sel_unit_list(&below, &lists);
    IS(done(status));
    if (status != SEL_OK) {
        return;
    }
    IS(sel_offsets(&lists, offsets, LEN + 1) == SEL_OK && memcmp(offsets, one_each, sizeof offsets) == 0);
    MAKES(sel_child(&lists, &out), MOST - 1, 0, 1, 2);
    const void *const at = lists.at;
    TOO_DEEP(sel_unit_list(&lists, &out), &lists);
    sel_free(&lists);
}

/* ---- makers are tried again ---- */

/* One row more than a column may have. */
static const size_t too_many = (size_t)UINT32_MAX + 1;

/* The children of a maker: a field of numbers, one of no levels or of 127, and an empty handle. The column of 127 levels has
 * another handle too. */
typedef struct children {
    sel_column fields[3];
    const void *at[2];
    size_t levels;
} children;

static bool make_children(children *given, bool is_deep) {
    *given = (children){{{0}, {0}, {0}}, {NULL, NULL}, is_deep ? MOST - 1 : 0};
    sel_status status = sel_int8_new(numbers, LEN, SEL_ALL_VALID, &given->fields[0]);
    IS(done(status));
    if (status == SEL_OK && is_deep) {
        status = sel_share(&below, &given->fields[1]);
        IS(done(status));
    } else if (status == SEL_OK) {
        make_leaf(&given->fields[1]);
    }
    given->at[0] = given->fields[0].at;
    given->at[1] = given->fields[1].at;
    return given->at[0] != NULL && given->at[1] != NULL;
}

static void free_children(children *given) {
    sel_free(&given->fields[0]);
    sel_free(&given->fields[1]);
}

/* Checks that children are the same as before a call, and have the same rows. */
static void unchanged(children *given, int line) {
    bool is_same = given->fields[0].at == given->at[0] && given->fields[1].at == given->at[1];
    is_at(is_same, "the children are unchanged", __FILE__, line);
    if (is_same) {
        bool is_equal = false;
        sel_status status = sel_equal_rows(&given->fields[1], given->levels == 0 ? &leaf : &below, &is_equal);
        is_at(sel_len(&given->fields[0]) == LEN, "the first field is unchanged", __FILE__, line);
        is_at(status == SEL_OK && is_equal, "the child is unchanged", __FILE__, line);
    }
}

/* Checks the status of a broken rule, and that nothing has changed. */
static void breaks(sel_status status, sel_status rule, children *given, sel_column *out, const void *before, int line) {
    is_at(gives(status, rule), "the status of a broken rule", __FILE__, line);
    is_at(out->at == before && sel_len(out) == 5, "the result is unchanged", __FILE__, line);
    unchanged(given, line);
}

#define BREAKS(call, rule) breaks((call), (rule), given, out, before, __LINE__)

static void break_rules_of_lists(children *given, sel_column *out) {
    static const int64_t negative[4] = {-1, 1, 2, 3}, falls[4] = {0, 2, 1, 3}, far[4] = {0, 1, 2, 4};
    const void *const before = out->at;
    sel_column *child = &given->fields[1];
    BREAKS(sel_list_new(one_each, 0, SEL_ALL_VALID, child, out), SEL_ERROR_NO_OFFSETS);
    BREAKS(sel_list_new(negative, 4, SEL_ALL_VALID, child, out), SEL_ERROR_NEGATIVE_OFFSET);
    BREAKS(sel_list_new(falls, 4, SEL_ALL_VALID, child, out), SEL_ERROR_DECREASING_OFFSET);
    BREAKS(sel_list_new(one_each, 4, no_bits, 0, true, child, out), SEL_ERROR_VALIDITY_LENGTH);
    BREAKS(sel_list_new(far, 4, SEL_ALL_VALID, child, out), SEL_ERROR_OFFSET_RANGE);
}

static void break_rules_of_fixed_size_lists(children *given, sel_column *out) {
    const void *const before = out->at;
    sel_column *child = &given->fields[1];
    BREAKS(sel_fixed_size_list_new(1, LEN, no_bits, 0, true, child, out), SEL_ERROR_VALIDITY_LENGTH);
    BREAKS(sel_fixed_size_list_new(0, too_many, SEL_ALL_VALID, child, out), SEL_ERROR_TOO_MANY_ROWS);
    BREAKS(sel_fixed_size_list_new(too_many, 0, SEL_ALL_VALID, child, out), SEL_ERROR_LIST_SIZE);
    BREAKS(sel_fixed_size_list_new(2, LEN, SEL_ALL_VALID, child, out), SEL_ERROR_CHILD_LENGTH);
}

static void break_rules_of_structs(children *given, sel_column *out) {
    const void *const before = out->at;
    BREAKS(sel_struct_new(LEN, no_bits, 0, true, given->fields, 2, out), SEL_ERROR_VALIDITY_LENGTH);
    BREAKS(sel_struct_new(too_many, SEL_ALL_VALID, given->fields, 2, out), SEL_ERROR_TOO_MANY_ROWS);
    BREAKS(sel_struct_new(LEN - 1, SEL_ALL_VALID, given->fields, 2, out), SEL_ERROR_FIELD_LENGTH);
    BREAKS(sel_struct_new(LEN, SEL_ALL_VALID, given->fields, 3, out), SEL_ERROR_NO_COLUMN);
}

/* Makes a column that breaks no rule; if an allocation is refused, the call succeeds when it is tried again. */
static void make_again(sel_type_id type, children *given, sel_column *out) {
    const void *const before = out->at;
    sel_status status = add_level(type, true, given->fields, out);
    IS(done(status));
    if (status != SEL_OK) {
        IS(out->at == before && sel_len(out) == 5);
        unchanged(given, __LINE__);
        IS(add_level(type, true, given->fields, out) == SEL_OK);
    }
    IS(given->fields[1].at == NULL && (given->fields[0].at == NULL) == (type == SEL_TYPE_STRUCT));
    IS(sel_type_of(out) == type && sel_len(out) == LEN && sel_null_count(out) == 1);
}

/* Makes calls that break a rule, then one that breaks none. */
static void tried_again(sel_type_id type, bool is_deep) {
    children given;
    sel_column out = {0};
    IS(done(sel_null_new(5, &out)));
    if (make_children(&given, is_deep) && out.at != NULL) {
        if (type == SEL_TYPE_LIST) {
            break_rules_of_lists(&given, &out);
        } else if (type == SEL_TYPE_FIXED_SIZE_LIST) {
            break_rules_of_fixed_size_lists(&given, &out);
        } else {
            break_rules_of_structs(&given, &out);
        }
        make_again(type, &given, &out);
        free_children(&given);
        sel_status status = type == SEL_TYPE_STRUCT ? sel_field(&out, 1, &given.fields[1]) : sel_child(&out, &given.fields[1]);
        makes(status, &given.fields[1], given.levels, ROWS(0, 1, 2), __FILE__, __LINE__);
    }
    free_children(&given);
    sel_free(&out);
}

void test_flat_children(void) {
    tried_again(SEL_TYPE_LIST, false);
    tried_again(SEL_TYPE_FIXED_SIZE_LIST, false);
    tried_again(SEL_TYPE_STRUCT, false);
}

void test_deep_lists(void) { tried_again(SEL_TYPE_LIST, true); }

void test_deep_fixed_size_lists(void) { tried_again(SEL_TYPE_FIXED_SIZE_LIST, true); }

void test_deep_structs(void) { tried_again(SEL_TYPE_STRUCT, true); }
