/* Each call of sel.h: what it makes, each status, and that nothing leaks, also where an allocation is refused. */

#include "test.h"

#include <string.h>

/* ---- makers and readers ---- */

static void test_nulls(void) {
    sel_column column = {0};
    IS(sel_len(&column) == 0 && sel_null_count(&column) == 0 && sel_type_of(&column) == SEL_TYPE_NONE);
    IS(sel_null_new((size_t)4294967296, &column) == SEL_ERROR_TOO_MANY_ROWS);
    IS(column.at == NULL);
    DONE(sel_null_new(3, &column));
    if (column.at != NULL) {
        uint8_t bits[1] = {9};
        bool has = true;
        IS(sel_len(&column) == 3 && sel_null_count(&column) == 3 && sel_type_of(&column) == SEL_TYPE_NULL);
        IS(sel_validity(&column, bits, 1, &has) == SEL_OK && !has && bits[0] == 9);
    }
    sel_free(&column);
    IS(column.at == NULL);
    sel_free(&column);
}

static void test_booleans(void) {
    const uint8_t values[2] = {0xA5, 0x01};
    const uint8_t bits[2] = {0xFE, 0x01};
    uint8_t read[2] = {0, 0};
    bool has = false;
    sel_column column = {0};
    IS(sel_boolean_values(&column, read, 2) == SEL_ERROR_NO_COLUMN);
    IS(sel_validity(&column, read, 2, &has) == SEL_ERROR_NO_COLUMN);
    IS(sel_boolean_new(values, 1, 9, bits, 2, true, &column) == SEL_ERROR_LENGTH_MISMATCH);
    IS(gives(sel_boolean_new(values, 2, 9, bits, 1, true, &column), SEL_ERROR_VALIDITY_LENGTH));
    DONE(sel_boolean_new(values, 2, 9, bits, 2, true, &column));
    if (column.at != NULL) {
        IS(sel_len(&column) == 9 && sel_null_count(&column) == 1 && sel_type_of(&column) == SEL_TYPE_BOOLEAN);
        IS(sel_boolean_values(&column, read, 1) == SEL_ERROR_LENGTH_MISMATCH);
        IS(sel_boolean_values(&column, read, 2) == SEL_OK && read[0] == 0xA5 && (read[1] & 1) == 1);
        IS(sel_validity(&column, read, 1, &has) == SEL_ERROR_LENGTH_MISMATCH);
        IS(sel_validity(&column, read, 2, &has) == SEL_OK && has && read[0] == 0xFE && (read[1] & 1) == 1);
        int8_t numbers[9];
        IS(sel_int8_values(&column, numbers, 9) == SEL_ERROR_UNSUPPORTED_TYPE);
    }
    /* a slice begins within a byte */
    sel_column part = {0};
    if (column.at != NULL && done(sel_slice(&column, 2, 5, &part)) && part.at != NULL) {
        sel_status status = sel_boolean_values(&part, read, 1);
        IS(done(status));
        IS(status != SEL_OK || (read[0] & 31) == 9);
    }
    sel_free(&part);
    sel_free(&column);
}

#define NUMBERS(name, type, kind)                                                                                   \
    static void test_##name(void) {                                                                                 \
        const type values[3] = {1, (type)-2, 3};                                                                    \
        const uint8_t bits[1] = {5};                                                                                \
        type read[3] = {0, 0, 0};                                                                                   \
        uint8_t flags[1] = {0};                                                                                     \
        bool has = false;                                                                                           \
        sel_column column = {0};                                                                                    \
        IS(sel_##name##_values(&column, read, 3) == SEL_ERROR_NO_COLUMN);                                           \
        IS(gives(sel_##name##_new(values, 3, no_bits, 0, true, &column), SEL_ERROR_VALIDITY_LENGTH));               \
        DONE(sel_##name##_new(values, 3, bits, 1, true, &column));                                                  \
        if (column.at != NULL) {                                                                                    \
            IS(sel_type_of(&column) == kind && sel_len(&column) == 3 && sel_null_count(&column) == 1);              \
            IS(sel_##name##_values(&column, read, 2) == SEL_ERROR_LENGTH_MISMATCH);                                 \
            IS(sel_##name##_values(&column, read, 3) == SEL_OK);                                                    \
            IS(read[0] == 1 && read[1] == (type)-2 && read[2] == 3);                                                \
            IS(sel_boolean_values(&column, flags, 1) == SEL_ERROR_UNSUPPORTED_TYPE);                                \
            IS(sel_validity(&column, flags, 1, &has) == SEL_OK && has && (flags[0] & 7) == 5);                      \
        }                                                                                                           \
        sel_free(&column);                                                                                          \
    }

NUMBERS(int8, int8_t, SEL_TYPE_INT8)
NUMBERS(int16, int16_t, SEL_TYPE_INT16)
NUMBERS(int32, int32_t, SEL_TYPE_INT32)
NUMBERS(int64, int64_t, SEL_TYPE_INT64)
NUMBERS(uint8, uint8_t, SEL_TYPE_UINT8)
NUMBERS(uint16, uint16_t, SEL_TYPE_UINT16)
NUMBERS(uint32, uint32_t, SEL_TYPE_UINT32)
NUMBERS(uint64, uint64_t, SEL_TYPE_UINT64)

#define WIDES(name, kind)                                                                                           \
    static void test_##name(void) {                                                                                 \
        const sel_int128 values[3] = {{1, 0}, {7, UINT64_MAX}, {0, 3}};                                             \
        const uint8_t bits[1] = {6};                                                                                \
        sel_int128 read[3] = {{0, 0}, {0, 0}, {0, 0}};                                                              \
        sel_column column = {0};                                                                                    \
        IS(sel_##name##_values(&column, read, 3) == SEL_ERROR_NO_COLUMN);                                           \
        IS(gives(sel_##name##_new(values, 3, no_bits, 0, true, &column), SEL_ERROR_VALIDITY_LENGTH));               \
        DONE(sel_##name##_new(values, 3, bits, 1, true, &column));                                                  \
        if (column.at != NULL) {                                                                                    \
            int8_t small[3];                                                                                        \
            IS(sel_type_of(&column) == kind && sel_len(&column) == 3 && sel_null_count(&column) == 1);              \
            IS(sel_##name##_values(&column, read, 2) == SEL_ERROR_LENGTH_MISMATCH);                                 \
            IS(sel_##name##_values(&column, read, 3) == SEL_OK);                                                    \
            IS(read[0].low == 1 && read[0].high == 0 && read[1].low == 7);                                          \
            IS(read[1].high == UINT64_MAX && read[2].low == 0 && read[2].high == 3);                                \
            IS(sel_int8_values(&column, small, 3) == SEL_ERROR_UNSUPPORTED_TYPE);                                   \
        }                                                                                                           \
        sel_free(&column);                                                                                          \
        DONE(sel_int8_new((const int8_t[1]){5}, 1, SEL_ALL_VALID, &column));                                        \
        IS(column.at == NULL || sel_##name##_values(&column, read, 1) == SEL_ERROR_UNSUPPORTED_TYPE);               \
        sel_free(&column);                                                                                          \
    }

WIDES(int128, SEL_TYPE_INT128)
WIDES(uint128, SEL_TYPE_UINT128)

/* The column 10 20 30 40. */
static sel_column tens(void) {
    const int64_t values[4] = {10, 20, 30, 40};
    sel_column column = {0};
    DONE(sel_int64_new(values, 4, SEL_ALL_VALID, &column));
    return column;
}

static bool holds(sel_column *column, const int64_t *wanted, size_t len) {
    int64_t read[8];
    return sel_int64_values(column, read, len) == SEL_OK && memcmp(read, wanted, len * sizeof *wanted) == 0;
}

static bool is_tens(sel_column *column) {
    const int64_t all[4] = {10, 20, 30, 40};
    return sel_type_of(column) == SEL_TYPE_INT64 && sel_len(column) == 4 && holds(column, all, 4);
}

static void test_whole(void) {
    const int64_t all[4] = {10, 20, 30, 40};
    sel_column column = {0}, other = {0};
    IS(sel_share(&column, &other) == SEL_ERROR_NO_COLUMN && sel_slice(&column, 0, 0, &other) == SEL_ERROR_NO_COLUMN);
    column = tens();
    if (column.at != NULL) {
        IS(sel_slice(&column, 2, 3, &other) == SEL_ERROR_INDEX_OUT_OF_BOUNDS && sel_slice(&column, 5, 0, &other) == SEL_ERROR_INDEX_OUT_OF_BOUNDS);
        IS(sel_slice(&column, SIZE_MAX, 2, &other) == SEL_ERROR_INDEX_OUT_OF_BOUNDS);
        DONE(sel_slice(&column, 1, 2, &other));
        IS(other.at == NULL || holds(&other, all + 1, 2));
        /* the old column of `other` is freed */
        DONE(sel_share(&column, &other));
    }
    sel_free(&column);
    if (other.at != NULL && sel_len(&other) == 4) {
        IS(holds(&other, all, 4));
    }
    sel_free(&other);
}

/* ---- kernels ---- */

static void test_filters(void) {
    const uint8_t values[1] = {13}, bits[1] = {11};
    const int64_t kept[2] = {10, 40}, by_bits[3] = {10, 30, 40};
    sel_column column = {0}, mask = {0}, out = {0};
    IS(sel_filter(&column, &mask, &out) == SEL_ERROR_NO_COLUMN);
    IS(sel_filter_bits(&column, values, 1, 4, &out) == SEL_ERROR_NO_COLUMN);
    column = tens();
    IS(sel_filter(&column, &mask, &out) == SEL_ERROR_NO_COLUMN);
    DONE(sel_boolean_new(values, 1, 4, bits, 1, true, &mask));
    if (column.at != NULL && mask.at != NULL) {
        DONE(sel_filter(&column, &mask, &out));
        IS(out.at == NULL || holds(&out, kept, 2));
        IS(out.at == NULL || gives(sel_filter(&column, &out, &mask), SEL_ERROR_UNSUPPORTED_TYPE));
        IS(sel_filter_bits(&column, values, 1, 3, &out) == SEL_ERROR_LENGTH_MISMATCH);
        IS(sel_filter_bits(&column, values, 0, 4, &out) == SEL_ERROR_LENGTH_MISMATCH);
        /* the mask of four bits stays if there is no memory for one of three */
        sel_status status = sel_boolean_new(values, 1, 3, bits, 1, true, &mask);
        IS(done(status) && gives(sel_filter(&column, &mask, &out), status == SEL_OK ? SEL_ERROR_LENGTH_MISMATCH : SEL_OK));
        status = sel_filter_bits(&column, values, 1, 4, &out);
        IS(done(status) && (status != SEL_OK || holds(&out, by_bits, 3)));
        IS(sel_len(&column) == 4);
    }
    sel_free(&column);
    sel_free(&mask);
    sel_free(&out);
}

/* Filters tens by a selection of a mask, and by others that take its place. */
static void filter_by_selections(const sel_column *column, sel_selection *by) {
    const uint8_t values[1] = {13};
    const int64_t kept[2] = {10, 40}, by_bits[3] = {10, 30, 40};
    size_t len = 77, count = 77;
    sel_column out = {0};
    IS(sel_selection_len(by, &len) == SEL_OK && len == 4);
    IS(sel_selection_count(by, &count) == SEL_OK && count == 2);
    IS(sel_filter_selection(&out, by, &out) == SEL_ERROR_NO_COLUMN);
    DONE(sel_filter_selection(column, by, &out));
    IS(out.at == NULL || holds(&out, kept, 2));
    /* the old selection is freed, or stays if there is no memory for the new one */
    sel_status status = sel_selection_of_bits(values, 1, 3, by);
    IS(done(status));
    IS(sel_filter_selection(column, by, &out) == (status == SEL_OK ? SEL_ERROR_LENGTH_MISMATCH : SEL_OK));
    status = sel_selection_of_bits(values, 1, 4, by);
    IS(done(status));
    if (status == SEL_OK) {
        status = sel_filter_selection(column, by, &out);
        IS(done(status) && (status != SEL_OK || holds(&out, by_bits, 3)));
    }
    sel_free(&out);
}

static void test_selections(void) {
    const uint8_t values[1] = {13}, bits[1] = {11};
    size_t len = 77, count = 77;
    sel_column column = tens(), mask = {0}, out = {0};
    sel_selection by = {0}, none = {0};
    IS(sel_selection_new(&mask, &by) == SEL_ERROR_NO_COLUMN && by.at == NULL);
    IS(sel_filter_selection(&column, &none, &out) == SEL_ERROR_NO_COLUMN);
    IS(sel_selection_len(&none, &len) == SEL_ERROR_NO_COLUMN && len == 77);
    IS(sel_selection_count(&none, &count) == SEL_ERROR_NO_COLUMN && count == 77);
    IS(sel_selection_of_bits(values, 0, 4, &by) == SEL_ERROR_LENGTH_MISMATCH && by.at == NULL);
    DONE(sel_boolean_new(values, 1, 4, bits, 1, true, &mask));
    if (column.at != NULL && mask.at != NULL) {
        IS(sel_selection_new(&column, &by) == SEL_ERROR_UNSUPPORTED_TYPE && by.at == NULL);
        sel_status status = sel_selection_new(&mask, &by);
        IS(done(status));
        if (status == SEL_OK) {
            filter_by_selections(&column, &by);
        }
    }
    sel_selection_free(&by);
    IS(by.at == NULL);
    sel_selection_free(&by);
    sel_free(&column);
    sel_free(&mask);
    sel_free(&out);
}

/* Checks a call that copies no values: it has added so many blocks, and its result, the first rows of tens, outlives the column. */
static void shares(sel_status status, sel_column *column, sel_column *result, long before, long more, size_t rows) {
    const int64_t all[4] = {10, 20, 30, 40};
    IS(done(status));
    if (status == SEL_OK) {
        IS(blocks_in_use() == before + more);
        sel_free(column);
        IS(holds(result, all, rows));
    }
    sel_free(column);
    sel_free(result);
}

static void test_filters_of_all_rows(void) {
    const uint8_t bits[1] = {15};
    sel_column mask = {0};
    sel_selection by = {0};
    IS(done(sel_selection_of_bits(bits, 1, 4, &by)));
    DONE(sel_boolean_new(bits, 1, 4, SEL_ALL_VALID, &mask));
    for (int call = 0; call < 3 && mask.at != NULL && by.at != NULL; call++) {
        sel_column column = tens(), kept = {0};
        const long before = blocks_in_use();
        if (column.at == NULL) break;
        const sel_status status = call == 0 ? sel_filter(&column, &mask, &kept)
                                  : call == 1 ? sel_filter_selection(&column, &by, &kept)
                                              : sel_filter_bits(&column, bits, 1, 4, &kept);
        shares(status, &column, &kept, before, 1, 4);
    }
    sel_free(&mask);
    sel_selection_free(&by);
}

/* An if-then-else of numbers shares the side that all rows come from. */
static void test_choices_of_one_side(void) {
    const uint8_t none[1] = {0}, all[1] = {15};
    for (int side = 0; side < 2; side++) {
        sel_column mask = {0}, whole = tens(), other = {0}, kept = {0};
        const int64_t numbers[4] = {1, 2, 3, 4};
        DONE(sel_boolean_new(side == 0 ? all : none, 1, 4, SEL_ALL_VALID, &mask));
        DONE(sel_int64_new(numbers, 4, SEL_ALL_VALID, &other));
        if (mask.at != NULL && whole.at != NULL && other.at != NULL) {
            const long before = blocks_in_use();
            const sel_status status = side == 0 ? sel_if_then_else(&mask, &whole, &other, &kept) : sel_if_then_else(&mask, &other, &whole, &kept);
            shares(status, &whole, &kept, before, 1, 4);
        }
        sel_free(&mask);
        sel_free(&whole);
        sel_free(&other);
    }
}

/* Calls on one row copy no values: the result shares the column, or, if the row is not kept, its buffers. */
static void test_calls_on_one_row(void) {
    const uint8_t bits[1] = {0}, set[1] = {1};
    const int64_t ten[1] = {10}, two[1] = {2};
    const uint32_t first[1] = {0};
    sel_column kept = {0}, not_kept = {0}, other = {0}, at = {0};
    sel_selection none = {0};
    DONE(sel_boolean_new(set, 1, 1, SEL_ALL_VALID, &kept));
    DONE(sel_boolean_new(bits, 1, 1, SEL_ALL_VALID, &not_kept));
    DONE(sel_int64_new(two, 1, SEL_ALL_VALID, &other));
    DONE(sel_uint32_new(first, 1, SEL_ALL_VALID, &at));
    DONE(sel_selection_of_bits(bits, 1, 1, &none));
    for (int call = 0; call < 8 && kept.at != NULL && not_kept.at != NULL && other.at != NULL && at.at != NULL && none.at != NULL; call++) {
        sel_column column = {0}, out = {0};
        DONE(sel_int64_new(ten, 1, SEL_ALL_VALID, &column));
        if (column.at == NULL) break;
        const long before = blocks_in_use();
        switch (call) {
        case 0: shares(sel_filter(&column, &kept, &out), &column, &out, before, 1, 1); break;
        case 1: shares(sel_filter(&column, &not_kept, &out), &column, &out, before, 2, 0); break;
        case 2: shares(sel_filter_selection(&column, &none, &out), &column, &out, before, 2, 0); break;
        case 3: shares(sel_take(&column, &at, &out), &column, &out, before, 1, 1); break;
        case 4: shares(sel_if_then_else_broadcast_true(&kept, &column, &other, &out), &column, &out, before, 1, 1); break;
        case 5: shares(sel_if_then_else_broadcast_true(&not_kept, &other, &column, &out), &column, &out, before, 1, 1); break;
        case 6: shares(sel_if_then_else_broadcast_false(&not_kept, &other, &column, &out), &column, &out, before, 1, 1); break;
        default: shares(sel_if_then_else_broadcast_both(&kept, &column, &other, &out), &column, &out, before, 1, 1); break;
        }
    }
    sel_free(&kept);
    sel_free(&not_kept);
    sel_free(&other);
    sel_free(&at);
    sel_selection_free(&none);
}

static void test_takes(void) {
    const uint32_t at[3] = {3, 9, 0};
    const uint8_t bits[1] = {5};
    sel_column column = tens(), indices = {0}, out = {0};
    IS(sel_take(&column, &indices, &out) == SEL_ERROR_NO_COLUMN);
    IS(sel_take_rows(&indices, at, 1, bits, 0, false, &out) == SEL_ERROR_NO_COLUMN);
    DONE(sel_uint32_new(at, 3, bits, 1, true, &indices));
    if (column.at != NULL && indices.at != NULL) {
        int64_t read[3];
        sel_status status = sel_take(&column, &indices, &out);
        IS(done(status));
        if (status == SEL_OK) {
            IS(sel_len(&out) == 3 && sel_null_count(&out) == 1);
            IS(sel_int64_values(&out, read, 3) == SEL_OK && read[0] == 40 && read[2] == 10);
        }
        /* the indices before stay if there is no memory for others */
        status = sel_uint32_new(at, 3, SEL_ALL_VALID, &indices);
        IS(done(status) && gives(sel_take(&column, &indices, &out), status == SEL_OK ? SEL_ERROR_INDEX_OUT_OF_BOUNDS : SEL_OK));
        status = sel_share(&column, &indices);
        IS(done(status));
        IS(status != SEL_OK || gives(sel_take(&column, &indices, &out), SEL_ERROR_UNSUPPORTED_TYPE));
        status = sel_take_rows(&column, at, 3, bits, 1, true, &out);
        IS(done(status) && (status != SEL_OK || (sel_len(&out) == 3 && sel_null_count(&out) == 1)));
        IS(gives(sel_take_rows(&column, at, 3, bits, 0, true, &out), SEL_ERROR_VALIDITY_LENGTH));
        IS(gives(sel_take_rows(&column, at, 2, bits, 0, false, &out), SEL_ERROR_INDEX_OUT_OF_BOUNDS));
    }
    sel_free(&column);
    sel_free(&indices);
    sel_free(&out);
}

static void test_reverse(void) {
    sel_column column = tens(), empty = {0}, out = {0};
    IS(sel_reverse(&empty, &out) == SEL_ERROR_NO_COLUMN && out.at == NULL);
    if (column.at != NULL) {
        int64_t read[4];
        sel_status status = sel_reverse(&column, &out);
        IS(done(status));
        if (status == SEL_OK) {
            IS(sel_int64_values(&out, read, 4) == SEL_OK && read[0] == 40 && read[1] == 30 && read[2] == 20 && read[3] == 10);
            IS(sel_reverse(&empty, &out) == SEL_ERROR_NO_COLUMN && sel_len(&out) == 4);
        }
    }
    sel_free(&column);
    sel_free(&out);
}

/* ---- nested ---- */

static void test_bytes(void) {
    const int64_t offsets[4] = {0, 1, 1, 3}, falls[2] = {2, 1}, negative[2] = {-1, 1}, far[2] = {0, 4};
    const uint8_t text[3] = {'a', 'b', 'c'}, bits[1] = {5};
    sel_column column = {0};
    IS(gives(sel_binary_new(offsets, 0, text, 3, SEL_ALL_VALID, &column), SEL_ERROR_NO_OFFSETS));
    IS(gives(sel_binary_new(negative, 2, text, 3, SEL_ALL_VALID, &column), SEL_ERROR_NEGATIVE_OFFSET));
    IS(gives(sel_binary_new(falls, 2, text, 3, SEL_ALL_VALID, &column), SEL_ERROR_DECREASING_OFFSET));
    IS(gives(sel_binary_new(far, 2, text, 3, SEL_ALL_VALID, &column), SEL_ERROR_OFFSET_RANGE));
    IS(gives(sel_binary_new(offsets, 4, text, 3, no_bits, 0, true, &column), SEL_ERROR_VALIDITY_LENGTH));
    DONE(sel_binary_new(offsets, 4, text, 3, bits, 1, true, &column));
    if (column.at != NULL) {
        int64_t places[4] = {9, 9, 9, 9};
        uint8_t read[3] = {0, 0, 0};
        size_t len = 0;
        IS(sel_type_of(&column) == SEL_TYPE_BINARY && sel_len(&column) == 3 && sel_null_count(&column) == 1);
        IS(sel_offsets(&column, places, 3) == SEL_ERROR_LENGTH_MISMATCH);
        IS(sel_offsets(&column, places, 4) == SEL_OK && memcmp(places, offsets, sizeof offsets) == 0);
        IS(sel_bytes_len(&column, &len) == SEL_OK && len == 3);
        IS(sel_bytes(&column, read, 2) == SEL_ERROR_LENGTH_MISMATCH);
        IS(sel_bytes(&column, read, 3) == SEL_OK && memcmp(read, text, 3) == 0);
        IS(sel_views(&column, &(sel_view){0, 0, 0, 0}, 1) == SEL_ERROR_UNSUPPORTED_TYPE);
    }
    sel_free(&column);
}

/* An index for each of the lists 10 20, 30 40. */
static void test_each(const sel_column *lists) {
    const int64_t places[2] = {1, -2}, far[2] = {0, 2}, wanted[2] = {20, 30};
    sel_column at = {0}, out = {0}, flat = tens();
    IS(sel_fixed_size_list_get_each(lists, &at, false, &out) == SEL_ERROR_NO_COLUMN);
    IS(sel_fixed_size_list_get_each(&out, lists, false, &at) == SEL_ERROR_NO_COLUMN);
    DONE(sel_int64_new(places, 2, SEL_ALL_VALID, &at));
    if (at.at != NULL) {
        IS(flat.at == NULL || gives(sel_fixed_size_list_get_each(&flat, &at, false, &out), SEL_ERROR_UNSUPPORTED_TYPE));
        sel_status status = sel_fixed_size_list_get_each(lists, &at, false, &out);
        IS(done(status) && (status != SEL_OK || holds(&out, wanted, 2)));
    }
    sel_free(&flat);
    DONE(sel_int64_new(places, 1, SEL_ALL_VALID, &at));
    if (at.at != NULL && sel_len(&at) == 1) {
        IS(gives(sel_fixed_size_list_get_each(lists, &at, false, &out), SEL_ERROR_LENGTH_MISMATCH));
    }
    sel_free(&at);
    DONE(sel_int64_new(far, 2, SEL_ALL_VALID, &at));
    if (at.at != NULL) {
        IS(gives(sel_fixed_size_list_get_each(lists, &at, false, &out), SEL_ERROR_LIST_INDEX_OUT_OF_BOUNDS));
        sel_free(&out);
        DONE(sel_fixed_size_list_get_each(lists, &at, true, &out));
        IS(out.at == NULL || (sel_len(&out) == 2 && sel_null_count(&out) == 1));
    }
    sel_free(&at);
    DONE(sel_int8_new((const int8_t[2]){0, 0}, 2, SEL_ALL_VALID, &at));
    IS(at.at == NULL || gives(sel_fixed_size_list_get_each(lists, &at, true, &out), SEL_ERROR_UNSUPPORTED_TYPE));
    sel_free(&at);
    sel_free(&out);
}

/* Reads lists of 10 and of 20, 30 and 40. */
static void read_lists(const sel_column *lists) {
    const int64_t offsets[3] = {0, 1, 4}, all[4] = {10, 20, 30, 40}, last[2] = {10, 40};
    int64_t places[3];
    size_t width = 7;
    sel_column child = {0}, other = {0};
    IS(sel_offsets(lists, places, 3) == SEL_OK && memcmp(places, offsets, sizeof offsets) == 0);
    IS(sel_bytes_len(lists, &width) == SEL_ERROR_UNSUPPORTED_TYPE);
    IS(sel_bytes(lists, (uint8_t *)places, 3) == SEL_ERROR_UNSUPPORTED_TYPE);
    IS(sel_fixed_size_list_size(lists, &width) == SEL_ERROR_UNSUPPORTED_TYPE);
    IS(sel_field_count(lists, &width) == SEL_ERROR_UNSUPPORTED_TYPE && width == 7);
    IS(sel_field(lists, 0, &child) == SEL_ERROR_INDEX_OUT_OF_BOUNDS);
    /* the last element of each list, then the second one, which the first list lacks */
    sel_status status = sel_list_get(lists, -1, &child);
    IS(done(status) && (status != SEL_OK || holds(&child, last, 2)));
    status = sel_list_get(lists, 1, &child);
    IS(done(status) && (status != SEL_OK || (sel_len(&child) == 2 && sel_null_count(&child) == 1)));
    status = sel_child(lists, &child);
    IS(done(status) && (status != SEL_OK || holds(&child, all, 4)));
    IS(child.at == NULL || sel_child(&child, &other) == SEL_ERROR_UNSUPPORTED_TYPE);
    sel_free(&child);
}

static void test_lists(void) {
    const int64_t offsets[3] = {0, 1, 4}, far[2] = {0, 5};
    sel_column child = {0}, lists = {0}, units = {0};
    bool lacks = false;
    IS(sel_list_new(offsets, 3, SEL_ALL_VALID, &child, &lists) == SEL_ERROR_NO_COLUMN);
    IS(sel_list_index_is_oob(&child, 0, &lacks) == SEL_ERROR_NO_COLUMN && sel_unit_list(&child, &lists) == SEL_ERROR_NO_COLUMN);
    IS(sel_list_get(&child, 0, &lists) == SEL_ERROR_NO_COLUMN);
    child = tens();
    if (child.at != NULL) {
        IS(gives(sel_list_index_is_oob(&child, 0, &lacks), SEL_ERROR_UNSUPPORTED_TYPE));
        DONE(sel_unit_list(&child, &units));
        if (units.at != NULL) {
            IS(sel_len(&units) == 4 && sel_type_of(&units) == SEL_TYPE_LIST);
            sel_status asked = sel_list_index_is_oob(&units, 1, &lacks);
            IS(done(asked) && (asked != SEL_OK || lacks));
        }
        IS(gives(sel_list_get(&child, 0, &lists), SEL_ERROR_UNSUPPORTED_TYPE));
        IS(gives(sel_list_new(far, 2, SEL_ALL_VALID, &child, &lists), SEL_ERROR_OFFSET_RANGE));
        IS(is_tens(&child));
        sel_status status = sel_list_new(offsets, 3, SEL_ALL_VALID, &child, &lists);
        IS(done(status) && (status == SEL_OK ? child.at == NULL : is_tens(&child)));
        sel_free(&child);
        IS(lists.at == NULL || (sel_len(&lists) == 2 && sel_type_of(&lists) == SEL_TYPE_LIST));
        if (lists.at != NULL) {
            read_lists(&lists);
        }
    }
    sel_free(&lists);
    sel_free(&units);
}

/* Reads lists of 10 and 20 and of 30 and 40. */
static void read_fixed_size_lists(const sel_column *lists) {
    const int64_t last[2] = {20, 40};
    size_t width = 0;
    sel_column child = {0}, other = {0};
    IS(sel_fixed_size_list_size(lists, &width) == SEL_OK && width == 2);
    IS(sel_offsets(lists, (int64_t[3]){0, 0, 0}, 3) == SEL_ERROR_UNSUPPORTED_TYPE);
    /* the last entry of each list, then one that lists of two have not */
    sel_status status = sel_fixed_size_list_get(lists, -1, false, &child);
    IS(done(status) && (status != SEL_OK || holds(&child, last, 2)));
    IS(child.at == NULL || gives(sel_fixed_size_list_get(&child, 0, false, &other), SEL_ERROR_UNSUPPORTED_TYPE));
    IS(gives(sel_fixed_size_list_get(lists, 2, false, &child), SEL_ERROR_LIST_INDEX_OUT_OF_BOUNDS));
    status = sel_fixed_size_list_get(lists, 2, true, &child);
    IS(done(status) && (status != SEL_OK || (sel_len(&child) == 2 && sel_null_count(&child) == 2)));
    sel_free(&child);
    IS(sel_fixed_size_list_get(&child, 0, false, &other) == SEL_ERROR_NO_COLUMN);
    test_each(lists);
}

/* A column of lists takes the place of tens, which are freed. */
static void test_fixed_size_lists(void) {
    sel_column child = tens(), lists = tens();
    if (child.at != NULL) {
        IS(gives(sel_fixed_size_list_new(3, 2, SEL_ALL_VALID, &child, &lists), SEL_ERROR_CHILD_LENGTH));
        IS(is_tens(&child));
        sel_status status = sel_fixed_size_list_new(2, 2, SEL_ALL_VALID, &child, &lists);
        IS(done(status) && (status == SEL_OK ? child.at == NULL : is_tens(&child)));
        IS(status != SEL_OK || (sel_len(&lists) == 2 && sel_type_of(&lists) == SEL_TYPE_FIXED_SIZE_LIST));
        sel_free(&child);
    }
    if (lists.at != NULL && sel_type_of(&lists) == SEL_TYPE_FIXED_SIZE_LIST) {
        read_fixed_size_lists(&lists);
    }
    IS(sel_fixed_size_list_new(2, 2, SEL_ALL_VALID, &child, &lists) == SEL_ERROR_NO_COLUMN);
    sel_free(&lists);
}

static void test_structs(void) {
    const int64_t all[4] = {10, 20, 30, 40};
    const uint8_t bits[1] = {13};
    sel_column fields[2] = {{0}, {0}}, column = {0}, field = {0};
    fields[0] = tens();
    IS(gives(sel_struct_new(4, SEL_ALL_VALID, fields, 2, &column), SEL_ERROR_NO_COLUMN));
    IS(fields[1].at == NULL && (fields[0].at == NULL ? refused : is_tens(&fields[0])));
    DONE(sel_null_new(4, &fields[1]));
    if (fields[0].at != NULL && fields[1].at != NULL) {
        sel_status status = sel_struct_new(4, bits, 1, true, fields, 2, &column);
        bool is_taken = fields[0].at == NULL && fields[1].at == NULL;
        IS(done(status) && (status == SEL_OK ? is_taken : is_tens(&fields[0]) && sel_len(&fields[1]) == 4));
        if (status == SEL_OK) {
            size_t count = 0;
            IS(sel_type_of(&column) == SEL_TYPE_STRUCT && sel_len(&column) == 4 && sel_null_count(&column) == 1);
            IS(sel_field_count(&column, &count) == SEL_OK && count == 2);
            IS(sel_field(&column, 2, &field) == SEL_ERROR_INDEX_OUT_OF_BOUNDS);
            status = sel_field(&column, 0, &field);
            IS(done(status) && (status != SEL_OK || holds(&field, all, 4)));
        }
    }
    sel_free(&fields[0]);
    sel_free(&fields[1]);
    fields[0] = tens();
    IS(fields[0].at == NULL || (gives(sel_struct_new(3, SEL_ALL_VALID, fields, 1, &column), SEL_ERROR_FIELD_LENGTH) && is_tens(&fields[0])));
    sel_free(&fields[0]);
    sel_free(&field);
    sel_free(&column);
}

/* ---- views ---- */

static void test_views(void) {
    const char *far = "..thirteen bytes and more";
    const sel_bytes_ref buffers[1] = {{(const uint8_t *)far, 25}};
    sel_view views[2] = {view_of("near", 4, 0), view_of(far + 2, 23, 2)}, read[2];
    sel_column column = {0}, texts = {0};
    size_t count = 9;
    uint8_t bytes[25] = {0};
    IS(sel_views(&column, read, 2) == SEL_ERROR_NO_COLUMN && sel_buffer_count(&column, &count) == SEL_ERROR_NO_COLUMN);
    IS(sel_buffer_len(&column, 0, &count) == SEL_ERROR_NO_COLUMN && sel_buffer(&column, 0, bytes, 25) == SEL_ERROR_NO_COLUMN);
    IS(sel_offsets(&column, (int64_t[1]){0}, 1) == SEL_ERROR_NO_COLUMN && sel_bytes_len(&column, &count) == SEL_ERROR_NO_COLUMN);
    IS(sel_bytes(&column, bytes, 0) == SEL_ERROR_NO_COLUMN && sel_child(&column, &texts) == SEL_ERROR_NO_COLUMN);
    IS(sel_fixed_size_list_size(&column, &count) == SEL_ERROR_NO_COLUMN && sel_field_count(&column, &count) == SEL_ERROR_NO_COLUMN);
    IS(sel_field(&column, 0, &texts) == SEL_ERROR_NO_COLUMN && count == 9);
    DONE(sel_binary_view_new(views, 2, buffers, 1, SEL_ALL_VALID, &column));
    DONE(sel_string_view_new(views, 2, buffers, 1, SEL_ALL_VALID, &texts));
    if (column.at != NULL) {
        IS(sel_type_of(&column) == SEL_TYPE_BINARY_VIEW && sel_len(&column) == 2);
        IS(sel_views(&column, read, 1) == SEL_ERROR_LENGTH_MISMATCH);
        IS(sel_views(&column, read, 2) == SEL_OK && memcmp(read, views, sizeof views) == 0);
        IS(sel_buffer_count(&column, &count) == SEL_OK && count == 1);
        IS(sel_buffer_len(&column, 1, &count) == SEL_ERROR_INDEX_OUT_OF_BOUNDS && sel_buffer(&column, 1, bytes, 25) == SEL_ERROR_INDEX_OUT_OF_BOUNDS);
        IS(sel_buffer_len(&column, 0, &count) == SEL_OK && count == 25);
        IS(sel_buffer(&column, 0, bytes, 24) == SEL_ERROR_LENGTH_MISMATCH);
        IS(sel_buffer(&column, 0, bytes, 25) == SEL_OK && memcmp(bytes, far, 25) == 0);
        IS(gives(sel_binary_new((int64_t[1]){0}, 1, bytes, 0, SEL_ALL_VALID, &column), SEL_OK));
    }
    if (texts.at != NULL) {
        IS(sel_type_of(&texts) == SEL_TYPE_STRING_VIEW && sel_len(&texts) == 2);
        IS(sel_views(&texts, read, 2) == SEL_OK && memcmp(read, views, sizeof views) == 0);
    }
    views[1].offset = 3;
    IS(gives(sel_binary_view_new(views, 2, buffers, 1, SEL_ALL_VALID, &column), SEL_ERROR_VIEW_RANGE));
    views[1].offset = 1;
    IS(gives(sel_binary_view_new(views, 2, buffers, 1, SEL_ALL_VALID, &column), SEL_ERROR_VIEW_PREFIX));
    IS(gives(sel_string_view_new(views, 2, buffers, 1, no_bits, 0, true, &column), SEL_ERROR_VALIDITY_LENGTH));
    views[0] = view_of("\xFF", 1, 0);
    IS(gives(sel_string_view_new(views, 1, buffers, 1, SEL_ALL_VALID, &column), SEL_ERROR_INVALID_UTF8));
    sel_free(&column);
    sel_free(&texts);
}

/* A validity that is too short is an error before anything is allocated, and so before the values are copied. */
static void test_short_validities(void) {
    static const sel_int128 wide[64];
    static const int64_t numbers[64];
    static const uint8_t bits[8];
    sel_column out = {0};
    refuse(0);
    IS(sel_uint128_new(wide, 64, bits, 7, true, &out) == SEL_ERROR_VALIDITY_LENGTH);
    IS(sel_int128_new(wide, 64, bits, 7, true, &out) == SEL_ERROR_VALIDITY_LENGTH);
    IS(sel_int64_new(numbers, 64, bits, 7, true, &out) == SEL_ERROR_VALIDITY_LENGTH);
    IS(sel_boolean_new(bits, 8, 64, bits, 7, true, &out) == SEL_ERROR_VALIDITY_LENGTH);
    IS(!was_refused());
    refuse(-1);
}

static void (*const tests[])(void) = {
    test_nulls, test_booleans, test_int8, test_int16, test_int32, test_int64, test_uint8, test_uint16, test_uint32,
    test_uint64, test_int128, test_uint128, test_whole, test_filters, test_selections, test_filters_of_all_rows, test_choices_of_one_side, test_calls_on_one_row, test_takes, test_reverse, test_bytes,
    test_lists, test_fixed_size_lists, test_structs, test_views, test_choices, test_broadcasts, test_chosen_kinds, test_flattens, test_collected_rows, test_dictionaries, test_equal_rows, test_prints, test_prints_types,
    test_parses, test_misread_texts, test_parse_memory, test_flatten_limits, test_list_limits, test_empty_inputs, test_empty_outputs, test_strings,
    test_short_validities,
};

int main(void) {
    run_tests(tests, sizeof tests / sizeof tests[0], 1);
    return finish();
}
