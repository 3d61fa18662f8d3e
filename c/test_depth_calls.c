/* Tests for test_depth.c: readers and kernels on columns of 128 levels, and makers of columns without levels, on the same stack. */
#include "test_depth.h"

#include <string.h>

/* ---- readers ---- */

/* A value of each type to read into, which no call here writes. */
static union {
    int8_t i8[LEN];
    int16_t i16[LEN];
    int32_t i32[LEN];
    int64_t i64[LEN];
    uint8_t u8[LEN];
    uint16_t u16[LEN];
    uint32_t u32[LEN];
    uint64_t u64[LEN];
    sel_int128 wide[LEN];
    sel_view views[LEN];
} none;

void test_values(void) {
    size_t len = 77;
    UNSUPPORTED(sel_boolean_values(deep, none.u8, 1));
    UNSUPPORTED(sel_int8_values(deep, none.i8, LEN));
    UNSUPPORTED(sel_int16_values(deep, none.i16, LEN));
    UNSUPPORTED(sel_int32_values(deep, none.i32, LEN));
    UNSUPPORTED(sel_int64_values(deep, none.i64, LEN));
    UNSUPPORTED(sel_int128_values(deep, none.wide, LEN));
    UNSUPPORTED(sel_uint8_values(deep, none.u8, LEN));
    UNSUPPORTED(sel_uint16_values(deep, none.u16, LEN));
    UNSUPPORTED(sel_uint32_values(deep, none.u32, LEN));
    UNSUPPORTED(sel_uint64_values(deep, none.u64, LEN));
    UNSUPPORTED(sel_uint128_values(deep, none.wide, LEN));
    UNSUPPORTED(sel_views(deep, none.views, LEN));
    UNSUPPORTED(sel_buffer_count(deep, &len));
    UNSUPPORTED(sel_buffer_len(deep, 0, &len));
    UNSUPPORTED(sel_buffer(deep, 0, none.u8, LEN));
    UNSUPPORTED(sel_bytes_len(deep, &len));
    UNSUPPORTED(sel_bytes(deep, none.u8, LEN));
    const void *values = NULL;
    UNSUPPORTED(sel_borrow_values(deep, &values, &len));
    IS(values == NULL);
    const uint8_t zeros[sizeof none] = {0};
    IS(len == 77 && memcmp(&none, zeros, sizeof none) == 0);
}

void test_properties(void) {
    const sel_type_id type = type_of_level(MOST);
    uint8_t bits[1] = {0};
    bool has = false;
    IS(sel_len(deep) == LEN && sel_null_count(deep) == 1 && sel_type_of(deep) == type);
    DONE(sel_validity(deep, bits, 1, &has));
    IS(has && (bits[0] & 7) == 3);
    int64_t offsets[LEN + 1] = {9, 9, 9, 9};
    bool is_list = type == SEL_TYPE_LIST, is_fixed = type == SEL_TYPE_FIXED_SIZE_LIST, is_struct = type == SEL_TYPE_STRUCT;
    FAILS(sel_offsets(deep, offsets, LEN + 1), is_list ? SEL_OK : SEL_ERROR_UNSUPPORTED_TYPE);
    IS(is_list ? memcmp(offsets, one_each, sizeof offsets) == 0 : offsets[0] == 9);
    size_t size = 77, count = 77;
    FAILS(sel_fixed_size_list_size(deep, &size), is_fixed ? SEL_OK : SEL_ERROR_UNSUPPORTED_TYPE);
    IS(size == (is_fixed ? 1 : 77));
    FAILS(sel_field_count(deep, &count), is_struct ? SEL_OK : SEL_ERROR_UNSUPPORTED_TYPE);
    IS(count == (is_struct ? 2 : 77));
}

void test_children(void) {
    sel_column out = {0};
    if (type_of_level(MOST) == SEL_TYPE_STRUCT) {
        UNSUPPORTED(sel_child(deep, &out));
        MAKES(sel_field(deep, 1, &out), MOST - 1, 0, 1, 2);
        sel_status status = sel_field(deep, 0, &out);
        IS(done(status) && (status != SEL_OK || (sel_type_of(&out) == SEL_TYPE_INT8 && sel_len(&out) == LEN)));
        sel_free(&out);
        FAILS(sel_field(deep, 2, &out), SEL_ERROR_INDEX_OUT_OF_BOUNDS);
    } else {
        MAKES(sel_child(deep, &out), MOST - 1, 0, 1, 2);
        FAILS(sel_field(deep, 0, &out), SEL_ERROR_INDEX_OUT_OF_BOUNDS);
    }
    IS(out.at == NULL);
}

void test_parts(void) {
    sel_column out = {0}, again = {0};
    MAKES(sel_slice(deep, 1, 2, &out), MOST, 1, NONE);
    FAILS(sel_slice(deep, 2, 2, &out), SEL_ERROR_INDEX_OUT_OF_BOUNDS);
    sel_status status = sel_share(deep, &again);
    IS(done(status));
    if (status == SEL_OK) {
        MAKES(sel_share(&again, &out), MOST, 0, 1, NONE);
        SHOWS(&again, MOST, 0, 1, NONE);
    }
    sel_free(&again);
    SHOWS(deep, MOST, 0, 1, NONE);
}

/* ---- kernels ---- */

/* Filters by the mask and by bits, each prepared. */
void test_prepared_masks(void) {
    const uint8_t flags[1] = {6};
    size_t len = 77, count = 77;
    sel_column out = {0};
    sel_selection by = {0};
    FAILS(sel_selection_new(deep, &by), SEL_ERROR_UNSUPPORTED_TYPE);
    sel_status status = sel_selection_new(&mask, &by);
    IS(done(status));
    if (status == SEL_OK) {
        MAKES(sel_filter_selection(deep, &by, &out), MOST, 0, NONE);
        FAILS(sel_selection_len(&by, &len), SEL_OK);
        FAILS(sel_selection_count(&by, &count), SEL_OK);
        IS(len == LEN && count == 2);
    }
    status = sel_selection_of_bits(flags, 1, LEN, &by);
    IS(done(status));
    if (status == SEL_OK) {
        MAKES(sel_filter_selection(deep, &by, &out), MOST, 1, NONE);
    }
    sel_selection_free(&by);
}

void test_selections(void) {
    const uint8_t flags[1] = {6};
    const uint32_t rows[LEN] = {1, 1, 0}, far[1] = {3};
    sel_column out = {0};
    MAKES(sel_filter(deep, &mask, &out), MOST, 0, NONE);
    MAKES(sel_filter_bits(deep, flags, 1, LEN, &out), MOST, 1, NONE);
    MAKES(sel_take(deep, &places, &out), MOST, NONE, 0, NONE);
    MAKES(sel_take_rows(deep, rows, LEN, SEL_ALL_VALID, &out), MOST, 1, 1, 0);
    MAKES(sel_reverse(deep, &out), MOST, NONE, 1, 0);
    UNSUPPORTED(sel_filter(deep, deep, &out));
    UNSUPPORTED(sel_take(deep, deep, &out));
    FAILS(sel_take_rows(deep, far, 1, SEL_ALL_VALID, &out), SEL_ERROR_INDEX_OUT_OF_BOUNDS);
    FAILS(sel_filter_bits(deep, flags, 1, LEN - 1, &out), SEL_ERROR_LENGTH_MISMATCH);
}

void test_choices_of_deep_columns(void) {
    sel_column out = {0};
    MAKES(sel_if_then_else(&mask, deep, &turned, &out), MOST, 0, NONE, NONE);
    MAKES(sel_if_then_else(&mask, deep, deep, &out), MOST, 0, 1, NONE);
    MAKES(sel_if_then_else_broadcast_true(&mask, one, deep, &out), MOST, 0, 1, 0);
    MAKES(sel_if_then_else_broadcast_false(&mask, deep, one, &out), MOST, 0, 0, NONE);
    MAKES(sel_if_then_else_broadcast_both(&mask, one, one, &out), MOST, 0, 0, 0);
    FAILS(sel_if_then_else(&mask, deep, &below, &out), SEL_ERROR_TYPE_MISMATCH);
    UNSUPPORTED(sel_if_then_else(deep, deep, deep, &out));
}

void test_elements(void) {
    const int64_t indices[LEN] = {0, -1, 0};
    bool is_oob = false;
    sel_column out = {0}, each = {0};
    sel_status status = sel_int64_new(indices, LEN, SEL_ALL_VALID, &each);
    IS(done(status));
    if (status != SEL_OK) {
        return;
    }
    if (type_of_level(MOST) == SEL_TYPE_LIST) {
        MAKES(sel_list_get(deep, 0, &out), MOST - 1, 0, 1, NONE);
        IS(done(sel_list_index_is_oob(deep, 0, &is_oob)) && !is_oob);
        status = sel_list_index_is_oob(deep, 1, &is_oob);
        IS(done(status) && (status != SEL_OK || is_oob));
    } else {
        UNSUPPORTED(sel_list_get(deep, 0, &out));
        UNSUPPORTED(sel_list_index_is_oob(deep, 0, &is_oob));
    }
    if (type_of_level(MOST) == SEL_TYPE_FIXED_SIZE_LIST) {
        MAKES(sel_fixed_size_list_get(deep, 0, false, &out), MOST - 1, 0, 1, NONE);
        FAILS(sel_fixed_size_list_get(deep, 1, false, &out), SEL_ERROR_LIST_INDEX_OUT_OF_BOUNDS);
        MAKES(sel_fixed_size_list_get_each(deep, &each, true, &out), MOST - 1, 0, 1, NONE);
    } else {
        UNSUPPORTED(sel_fixed_size_list_get(deep, 0, true, &out));
        UNSUPPORTED(sel_fixed_size_list_get_each(deep, &each, true, &out));
    }
    sel_free(&each);
}

void test_several_columns(void) {
    const size_t widths[2] = {1, 1};
    const sel_row_ref picks[LEN] = {{0, 1}, {1, 0}, {9, 9}};
    const uint8_t bits[1] = {3};
    sel_column out = {0}, other = {0};
    MAKES(sel_flatten(pair, 2, widths, 2, LEN, &out), MOST, 0, 0, 1, 0, NONE, 0);
    MAKES(sel_collect_rows(pair, 2, picks, LEN, bits, 1, true, &out), MOST, 1, 0, NONE);
    FAILS(sel_collect_rows(pair, 2, picks, LEN, SEL_ALL_VALID, &out), SEL_ERROR_INDEX_OUT_OF_BOUNDS);
    UNSUPPORTED(sel_propagate_dictionary(deep, deep, &out, &other));
    UNSUPPORTED(sel_propagate_dictionary(&places, deep, &out, &other));
    IS(out.at == NULL && other.at == NULL);
}

void test_comparison(void) {
    bool is_equal = false;
    IS(sel_equal_rows(deep, deep, &is_equal) == SEL_OK && is_equal);
    IS(sel_equal_rows(deep, &turned, &is_equal) == SEL_OK && !is_equal);
    IS(sel_equal_rows(&below, deep, &is_equal) == SEL_OK && !is_equal);
}

void test_type_text(void) {
    static char wanted[ROOM], found[ROOM];
    size_t size = 0;
    write_type(wanted, MOST);
    sel_status status = sel_print_type(deep, (uint8_t *)found, sizeof found, &size);
    IS(done(status) && (status != SEL_OK || (size == strlen(wanted) && memcmp(found, wanted, size) == 0)));
}

/* A type of 64 levels is parsed, and none of more. */
void test_parsing(void) {
    static const int rows[LEN] = {0, 1, 2};
    static char type[ROOM], text[ROOM];
    size_t at = 77;
    sel_column out = {0};
    write_type(type, PARSED);
    write_rows(text, PARSED, rows, LEN);
    MAKES(sel_parse((const uint8_t *)type, strlen(type), (const uint8_t *)text, strlen(text), &at, &out), PARSED, 0, 1, 2);
    write_type(type, MOST);
    FAILS(sel_parse((const uint8_t *)type, strlen(type), (const uint8_t *)"[]", 2, &at, &out), SEL_ERROR_TEXT_LIMIT);
    IS(at == 77 && out.at == NULL);
}

/* ---- functions without a column of levels, on the same stack ---- */

/* Checks the status of a maker and the length and type of its result, which is freed. */
static void makes_leaf(sel_status status, sel_column *out, sel_type_id type, int line) {
    bool is_made = status != SEL_OK || (sel_type_of(out) == type && sel_len(out) == 2 && sel_null_count(out) == (type == SEL_TYPE_NULL ? 2 : 0));
    is_at(done(status) && is_made, "a column without levels", __FILE__, line);
    sel_free(out);
}

#define LEAF(call, type) makes_leaf((call), &out, (type), __LINE__)

void test_leaves(void) {
    const sel_view views[2] = {view_of("abc", 3, 0), view_of("thirteen bytes", 14, 0)};
    const sel_bytes_ref bytes[1] = {{(const uint8_t *)"thirteen bytes", 14}};
    sel_column out = {0};
    LEAF(sel_null_new(2, &out), SEL_TYPE_NULL);
    LEAF(sel_boolean_new(none.u8, 1, 2, SEL_ALL_VALID, &out), SEL_TYPE_BOOLEAN);
    LEAF(sel_int8_new(none.i8, 2, SEL_ALL_VALID, &out), SEL_TYPE_INT8);
    LEAF(sel_int16_new(none.i16, 2, SEL_ALL_VALID, &out), SEL_TYPE_INT16);
    LEAF(sel_int32_new(none.i32, 2, SEL_ALL_VALID, &out), SEL_TYPE_INT32);
    LEAF(sel_int64_new(none.i64, 2, SEL_ALL_VALID, &out), SEL_TYPE_INT64);
    LEAF(sel_int128_new(none.wide, 2, SEL_ALL_VALID, &out), SEL_TYPE_INT128);
    LEAF(sel_uint8_new(none.u8, 2, SEL_ALL_VALID, &out), SEL_TYPE_UINT8);
    LEAF(sel_uint16_new(none.u16, 2, SEL_ALL_VALID, &out), SEL_TYPE_UINT16);
    LEAF(sel_uint32_new(none.u32, 2, SEL_ALL_VALID, &out), SEL_TYPE_UINT32);
    LEAF(sel_uint64_new(none.u64, 2, SEL_ALL_VALID, &out), SEL_TYPE_UINT64);
    LEAF(sel_uint128_new(none.wide, 2, SEL_ALL_VALID, &out), SEL_TYPE_UINT128);
    LEAF(sel_binary_new(one_each, 3, (const uint8_t *)"ab", 2, SEL_ALL_VALID, &out), SEL_TYPE_BINARY);
    LEAF(sel_binary_view_new(views, 2, bytes, 1, SEL_ALL_VALID, &out), SEL_TYPE_BINARY_VIEW);
    LEAF(sel_string_view_new(views, 2, bytes, 1, SEL_ALL_VALID, &out), SEL_TYPE_STRING_VIEW);
    IS(strcmp(sel_status_string(SEL_ERROR_TOO_DEEP), "too many levels of nesting") == 0 && strlen(sel_version()) >= 5);
}
