#include "calls.h"

#include <string.h>

/* ---- types of results ---- */

static const struct type *of_line(const struct arguments *given) {
    return given->type;
}

static const struct type *of_first_column(const struct arguments *given) {
    return given->column_count == 0 ? NULL : given->columns[0].type;
}

static const struct type *of_item(const struct arguments *given) {
    bool has_items = given->type->kind == SEL_TYPE_LIST || given->type->kind == SEL_TYPE_FIXED_SIZE_LIST;
    return has_items ? given->type->children : NULL;
}

static const struct type *of_field(const struct arguments *given) {
    bool has_field = given->type->kind == SEL_TYPE_STRUCT && given->numbers[0] < given->type->count;
    return has_field ? &given->type->children[given->numbers[0]] : NULL;
}

static const struct type *of_lists(const struct arguments *given) {
    return list_type(given->arena, SEL_TYPE_LIST, 0, given->type);
}

static const struct type *of_fixed_size_lists(const struct arguments *given) {
    return list_type(given->arena, SEL_TYPE_FIXED_SIZE_LIST, given->numbers[0], given->type);
}

static const struct type *of_structs(const struct arguments *given) {
    struct type *fields = arena_take(given->arena, given->column_count, sizeof *fields);
    struct type *type = arena_take(given->arena, 1, sizeof *type);
    for (size_t i = 0; i < given->column_count; i += 1) {
        fields[i] = *given->columns[i].type;
    }
    *type = (struct type){SEL_TYPE_STRUCT, 0, given->column_count, fields};
    return type;
}

static const struct type *of_keys(const struct arguments *given) {
    (void)given;
    return leaf_type(SEL_TYPE_UINT32);
}

/* The type that a text names, which may have spaces between its parts. */
static const struct type *of_text(const struct arguments *given) {
    struct misread why;
    char *text = arena_take(given->arena, strlen(given->type_text) + 1, 1);
    size_t len = 0;
    for (const char *at = given->type_text; *at != 0; at += 1) {
        text[len] = *at;
        len += *at != ' ';
    }
    text[len] = 0;
    return read_type(given->arena, text, &why);
}

/* ---- the calls ---- */

#define RUN(name) static sel_status run_##name(const struct arguments *given, sel_column *columns, struct outcome *out)
#define PARSE(text) (const uint8_t *)(text), strlen(text)
#define VALIDITY(given) (given)->bits, (given)->bits_len, (given)->has_bits

RUN(print) {
    (void)given;
    return sel_print(&columns[0], out->text, out->room, &out->len);
}

RUN(share) {
    (void)given;
    return sel_share(&columns[0], &out->columns[0]);
}

RUN(filter) {
    (void)given;
    return sel_filter(&columns[0], &columns[1], &out->columns[0]);
}

RUN(filter_selection) {
    (void)given;
    sel_selection by = {0};
    sel_status status = sel_selection_new(&columns[1], &by);
    if (status == SEL_OK) {
        status = sel_filter_selection(&columns[0], &by, &out->columns[0]);
    }
    sel_selection_free(&by);
    return status;
}

RUN(take) {
    (void)given;
    return sel_take(&columns[0], &columns[1], &out->columns[0]);
}

RUN(if_then_else) {
    (void)given;
    return sel_if_then_else(&columns[0], &columns[1], &columns[2], &out->columns[0]);
}

RUN(broadcast_true) {
    (void)given;
    return sel_if_then_else_broadcast_true(&columns[0], &columns[1], &columns[2], &out->columns[0]);
}

RUN(broadcast_false) {
    (void)given;
    return sel_if_then_else_broadcast_false(&columns[0], &columns[1], &columns[2], &out->columns[0]);
}

RUN(broadcast_both) {
    (void)given;
    return sel_if_then_else_broadcast_both(&columns[0], &columns[1], &columns[2], &out->columns[0]);
}

RUN(list_get) {
    return sel_list_get(&columns[0], given->index, &out->columns[0]);
}

RUN(index_is_oob) {
    return sel_list_index_is_oob(&columns[0], given->index, &out->flag);
}

RUN(fixed_size_list_get) {
    return sel_fixed_size_list_get(&columns[0], given->index, given->flag, &out->columns[0]);
}

RUN(fixed_size_list_get_each) {
    return sel_fixed_size_list_get_each(&columns[0], &columns[1], given->flag, &out->columns[0]);
}

RUN(unit_list) {
    (void)given;
    return sel_unit_list(&columns[0], &out->columns[0]);
}

RUN(reverse) {
    (void)given;
    return sel_reverse(&columns[0], &out->columns[0]);
}

RUN(slice) {
    return sel_slice(&columns[0], given->numbers[0], given->numbers[1], &out->columns[0]);
}

RUN(child) {
    (void)given;
    return sel_child(&columns[0], &out->columns[0]);
}

RUN(field) {
    return sel_field(&columns[0], given->numbers[0], &out->columns[0]);
}

RUN(list_new) {
    return sel_list_new(given->offsets, given->offset_count, VALIDITY(given), &columns[0], &out->columns[0]);
}

RUN(fixed_size_list_new) {
    return sel_fixed_size_list_new(given->numbers[0], given->numbers[1], VALIDITY(given), &columns[0], &out->columns[0]);
}

RUN(struct_new) {
    return sel_struct_new(given->numbers[0], VALIDITY(given), columns, given->column_count, &out->columns[0]);
}

RUN(flatten) {
    return sel_flatten(columns, given->column_count, given->widths, given->width_count, given->numbers[0], &out->columns[0]);
}

RUN(collect_rows) {
    return sel_collect_rows(columns, given->column_count, given->picks, given->pick_count, VALIDITY(given), &out->columns[0]);
}

RUN(dictionary) {
    (void)given;
    return sel_propagate_dictionary(&columns[0], &columns[1], &out->columns[0], &out->columns[1]);
}

RUN(equal) {
    (void)given;
    return sel_equal_rows(&columns[0], &columns[1], &out->flag);
}

RUN(equal_turned) {
    (void)given;
    return sel_equal_rows(&columns[1], &columns[0], &out->flag);
}

RUN(parse) {
    (void)columns;
    return sel_parse(PARSE(given->type_text), PARSE(given->rows_text), &out->place, &out->columns[0]);
}

RUN(parse_type) {
    (void)columns;
    return sel_parse(PARSE(given->type_text), PARSE("[]"), &out->place, &out->columns[0]);
}

/* ---- calls that have some of their arguments otherwise ---- */

/* Reads back what was printed. */
RUN(read_back) {
    (void)columns;
    return sel_parse(PARSE(given->type_text), PARSE(given->columns[0].text), &out->place, &out->columns[0]);
}

static bool is_of_kind(const struct arguments *given, sel_type_id kind) {
    return given->columns[1].type->kind == kind;
}

static bool mask_has_no_nulls(const struct arguments *given) {
    return is_of_kind(given, SEL_TYPE_BOOLEAN) && null_count(&given->columns[1]) == 0;
}

RUN(filter_bits) {
    return sel_filter_bits(&columns[0], given->bits, given->bits_len, given->columns[1].len, &out->columns[0]);
}

RUN(filter_selection_of_bits) {
    sel_selection by = {0};
    sel_status status = sel_selection_of_bits(given->bits, given->bits_len, given->columns[1].len, &by);
    if (status == SEL_OK) {
        status = sel_filter_selection(&columns[0], &by, &out->columns[0]);
    }
    sel_selection_free(&by);
    return status;
}

static bool indices_fit(const struct arguments *given) {
    return is_of_kind(given, SEL_TYPE_UINT32);
}

RUN(take_rows) {
    return sel_take_rows(&columns[0], given->indices, given->columns[1].len, VALIDITY(given), &out->columns[0]);
}

const struct call calls[] = {
    {"rows", "tr", RESULT_PRINTED, "sel_print", of_line, run_print, NULL, false, false},
    {"rows", "tr", RESULT_ROWS, "sel_share", of_line, run_share, NULL, false, false},
    {"rows", "tr", RESULT_ROWS, "sel_parse", of_line, run_read_back, NULL, false, false},
    {"filter", "trM", RESULT_ROWS, "sel_filter", of_line, run_filter, NULL, false, false},
    {"filter", "trM", RESULT_ROWS, "sel_filter_bits", of_line, run_filter_bits, mask_has_no_nulls, false, false},
    {"filter", "trM", RESULT_ROWS, "sel_filter_selection", of_line, run_filter_selection, NULL, false, false},
    {"filter", "trM", RESULT_ROWS, "sel_filter_selection of bits", of_line, run_filter_selection_of_bits, mask_has_no_nulls, false, false},
    {"take", "trU", RESULT_ROWS, "sel_take", of_line, run_take, NULL, false, false},
    {"take", "trU", RESULT_ROWS, "sel_take_rows", of_line, run_take_rows, indices_fit, false, false},
    {"if_then_else", "tMrr", RESULT_ROWS, "sel_if_then_else", of_line, run_if_then_else, NULL, false, false},
    {"if_then_else_broadcast_true", "tMrr", RESULT_ROWS, "sel_if_then_else_broadcast_true", of_line, run_broadcast_true, NULL, false, false},
    {"if_then_else_broadcast_false", "tMrr", RESULT_ROWS, "sel_if_then_else_broadcast_false", of_line, run_broadcast_false, NULL, false, false},
    {"if_then_else_broadcast_both", "tMrr", RESULT_ROWS, "sel_if_then_else_broadcast_both", of_line, run_broadcast_both, NULL, false, false},
    {"list_get", "tri", RESULT_ROWS, "sel_list_get", of_item, run_list_get, NULL, false, false},
    {"index_is_oob", "tri", RESULT_FLAG, "sel_list_index_is_oob", NULL, run_index_is_oob, NULL, false, true},
    {"fixed_size_list_get", "trif", RESULT_ROWS, "sel_fixed_size_list_get", of_item, run_fixed_size_list_get, NULL, false, false},
    {"fixed_size_list_get_each", "trIf", RESULT_ROWS, "sel_fixed_size_list_get_each", of_item, run_fixed_size_list_get_each, NULL, false, false},
    {"unit_list", "tr", RESULT_ROWS, "sel_unit_list", of_lists, run_unit_list, NULL, false, false},
    {"reverse", "tr", RESULT_ROWS, "sel_reverse", of_line, run_reverse, NULL, false, false},
    {"slice", "trnn", RESULT_ROWS, "sel_slice", of_line, run_slice, NULL, false, false},
    {"child", "tr", RESULT_ITEMS, "sel_child", of_item, run_child, NULL, false, false},
    {"field", "trn", RESULT_FIELD, "sel_field", of_field, run_field, NULL, false, false},
    {"list_new", "trov", RESULT_ROWS, "sel_list_new", of_lists, run_list_new, NULL, true, false},
    {"fixed_size_list_new", "trnnv", RESULT_ROWS, "sel_fixed_size_list_new", of_fixed_size_lists, run_fixed_size_list_new, NULL, true, false},
    {"struct_new", "cnv", RESULT_ROWS, "sel_struct_new", of_structs, run_struct_new, NULL, true, false},
    {"flatten", "cwn", RESULT_ROWS, "sel_flatten", of_first_column, run_flatten, NULL, false, false},
    {"collect_rows", "cp", RESULT_ROWS, "sel_collect_rows", of_first_column, run_collect_rows, NULL, false, false},
    {"dictionary", "US", RESULT_TWO_ROWS, "sel_propagate_dictionary", of_keys, run_dictionary, NULL, false, false},
    {"equal", "trtr", RESULT_FLAG, "sel_equal_rows", NULL, run_equal, NULL, false, true},
    {"equal", "trtr", RESULT_FLAG, "sel_equal_rows, turned", NULL, run_equal_turned, NULL, false, true},
    {"parse", "xy", RESULT_ROWS, "sel_parse", of_text, run_parse, NULL, false, false},
    {"parse_type", "x", RESULT_TYPE, "sel_parse", NULL, run_parse_type, NULL, false, false},
};

const size_t call_count = sizeof calls / sizeof calls[0];
