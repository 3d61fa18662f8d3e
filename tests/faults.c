/* Calls of the library made wrong, each in a way that no line of the suite can write down. The environment variable SEL_FAULT
 * names the fault; faults.txt has a line for each that has to find it. A program with this file is linked with
 * -Wl,--wrap=NAME for each call below. */
#include "sel_arrow.h"

#include <stdlib.h>
#include <string.h>

#define REAL(name, ...) sel_status __real_##name(__VA_ARGS__)
#define WRAP(name, ...) sel_status __wrap_##name(__VA_ARGS__); sel_status __wrap_##name(__VA_ARGS__)

REAL(sel_filter, const sel_column *of, const sel_column *mask, sel_column *out);
REAL(sel_filter_bits, const sel_column *of, const uint8_t *mask, size_t mask_len, size_t len, sel_column *out);
REAL(sel_take, const sel_column *of, const sel_column *indices, sel_column *out);
REAL(sel_take_rows, const sel_column *of, const uint32_t *indices, size_t len, const uint8_t *bits, size_t bits_len, bool has_bits, sel_column *out);
REAL(sel_equal_rows, const sel_column *of, const sel_column *other, bool *equal);
REAL(sel_list_new, const int64_t *offsets, size_t len, const uint8_t *bits, size_t bits_len, bool has_bits, sel_column *child, sel_column *out);
REAL(sel_export, const sel_column *of, const sel_type *type, struct ArrowArray *array, struct ArrowSchema *schema);
REAL(sel_parse, const uint8_t *dtype, size_t dtype_len, const uint8_t *text, size_t text_len, size_t *at, sel_column *out);
REAL(sel_validity, const sel_column *of, uint8_t *out, size_t out_len, bool *has);
REAL(sel_print, const sel_column *of, uint8_t *out, size_t out_len, size_t *len);
size_t __real_sel_null_count(const sel_column *of);
size_t __wrap_sel_null_count(const sel_column *of);

static bool has_fault(const char *name) {
    const char *fault = getenv("SEL_FAULT");
    return fault != NULL && strcmp(fault, name) == 0;
}

static void *volatile block;

static void leak(void) {
    block = malloc(16);
}

/* Puts the column without its last row in the place of a column. */
static void shorten(sel_column *column) {
    sel_column part = {0};
    size_t len = sel_len(column);
    if (len > 0 && sel_slice(column, 0, len - 1, &part) == SEL_OK) {
        sel_free(column);
        *column = part;
    }
}

/* ---- what a layout has in its null slots, and before its rows ---- */

enum { MOST_ROWS = 200 };

/* Returns whether the first offset of lists or bytes is above a number. */
static bool begins_above(const sel_column *column, int64_t offset) {
    int64_t offsets[MOST_ROWS + 1];
    size_t len = sel_len(column);
    return len <= MOST_ROWS && sel_offsets(column, offsets, len + 1) == SEL_OK && offsets[0] > offset;
}

/* Returns whether the child of lists begins above a number. */
static bool child_begins_above(const sel_column *lists, int64_t offset) {
    sel_column child = {0};
    bool begins = sel_child(lists, &child) == SEL_OK && begins_above(&child, offset);
    sel_free(&child);
    return begins;
}

/* Returns whether a part of a child or a field has a row that is not null. The column is freed. */
static bool has_valid_row(sel_column *column, size_t from, size_t len) {
    sel_column part = {0};
    bool has = sel_slice(column, from, len, &part) == SEL_OK && __real_sel_null_count(&part) < len;
    sel_free(&part);
    sel_free(column);
    return has;
}

/* Returns whether the slot of a row has another value than zero, no bytes, no items or nulls. */
static bool has_slot_value(const sel_column *column, size_t row) {
    size_t len = sel_len(column), size = 0;
    int8_t numbers[MOST_ROWS];
    uint8_t bits[MOST_ROWS / 8];
    int64_t offsets[MOST_ROWS + 1];
    sel_view views[MOST_ROWS];
    sel_column child = {0};
    switch (sel_type_of(column)) {
    case SEL_TYPE_INT8: return sel_int8_values(column, numbers, len) == SEL_OK && numbers[row] != 0;
    case SEL_TYPE_BOOLEAN: return sel_boolean_values(column, bits, (len + 7) / 8) == SEL_OK && (bits[row / 8] >> (row % 8) & 1);
    case SEL_TYPE_BINARY:
    case SEL_TYPE_LIST: return sel_offsets(column, offsets, len + 1) == SEL_OK && offsets[row + 1] > offsets[row];
    case SEL_TYPE_BINARY_VIEW:
    case SEL_TYPE_STRING_VIEW: return sel_views(column, views, len) == SEL_OK && views[row].length > 0;
    case SEL_TYPE_FIXED_SIZE_LIST:
        return sel_fixed_size_list_size(column, &size) == SEL_OK && sel_child(column, &child) == SEL_OK && has_valid_row(&child, row * size, size);
    default: return sel_field(column, 0, &child) == SEL_OK && has_valid_row(&child, row, 1);
    }
}

/* Returns whether each null slot of a column has another value, and there is one. */
static bool has_null_slots(const sel_column *column) {
    uint8_t bits[MOST_ROWS / 8];
    bool has = false, has_all = true;
    size_t len = sel_len(column), nulls = 0;
    if (len > MOST_ROWS || __real_sel_validity(column, bits, (len + 7) / 8, &has) != SEL_OK) {
        return false;
    }
    for (size_t i = 0; has && i < len; i += 1) {
        bool is_null = !(bits[i / 8] >> (i % 8) & 1);
        nulls += is_null;
        has_all = has_all && (!is_null || has_slot_value(column, i));
    }
    return has_all && nulls > 0;
}

/* ---- faults of a call that is done, or that is given certain columns ---- */

static sel_status filter_wrongly(const sel_column *of, const sel_column *mask, sel_column *out) {
    size_t at;
    if ((has_fault("null_slots") && has_null_slots(of)) || (has_fault("slices") && begins_above(of, 0))
        || (has_fault("far_slices") && begins_above(of, 60)) || (has_fault("child_slices") && child_begins_above(of, 60))) {
        return SEL_ERROR_NO_COLUMN;
    }
    if (has_fault("keeps_old_result")) {
        out->at = NULL;
    }
    sel_status status = __real_sel_filter(of, mask, out);
    if (status == SEL_OK && has_fault("type")) {
        status = __real_sel_parse((const uint8_t *)"i16", 3, (const uint8_t *)"[1,null]", 8, &at, out);
    }
    if (status == SEL_OK && has_fault("argument")) {
        shorten((sel_column *)of);
    }
    if (status == SEL_OK && has_fault("mask")) {
        shorten((sel_column *)mask);
    }
    if (status == SEL_OK && has_fault("leak")) {
        leak();
    }
    if (status == SEL_ERROR_LENGTH_MISMATCH && has_fault("result_of_error")) {
        sel_null_new(1, out);
    }
    return status;
}

/* ---- faults of a call that is out of memory ---- */

WRAP(sel_filter, const sel_column *of, const sel_column *mask, sel_column *out) {
    sel_status status = filter_wrongly(of, mask, out);
    if (status != SEL_ERROR_OUT_OF_MEMORY) {
        return status;
    }
    if (has_fault("memory_status")) {
        return SEL_ERROR_LENGTH_MISMATCH;
    }
    if (has_fault("memory_ignored")) {
        return __real_sel_filter(of, mask, out);
    }
    if (has_fault("memory_leak")) {
        leak();
    }
    if (has_fault("memory_argument")) {
        shorten((sel_column *)of);
    }
    if (has_fault("memory_result")) {
        sel_null_new(1, out);
    }
    return status;
}

/* ---- faults of other calls ---- */

WRAP(sel_filter_bits, const sel_column *of, const uint8_t *mask, size_t mask_len, size_t len, sel_column *out) {
    return has_fault("filter_bits") ? SEL_ERROR_LENGTH_MISMATCH : __real_sel_filter_bits(of, mask, mask_len, len, out);
}

/* Returns out of memory although no allocation was refused. */
WRAP(sel_take, const sel_column *of, const sel_column *indices, sel_column *out) {
    return has_fault("memory_without_refusal") ? SEL_ERROR_OUT_OF_MEMORY : __real_sel_take(of, indices, out);
}

/* Takes each index for valid. */
WRAP(sel_take_rows, const sel_column *of, const uint32_t *indices, size_t len, const uint8_t *bits, size_t bits_len, bool has_bits, sel_column *out) {
    return __real_sel_take_rows(of, indices, len, bits, bits_len, has_bits && !has_fault("take_rows"), out);
}

WRAP(sel_equal_rows, const sel_column *of, const sel_column *other, bool *equal) {
    sel_status status = __real_sel_equal_rows(of, other, equal);
    if (has_fault("equal_memory")) {
        leak();
        free(block);
    }
    if (has_fault("equal_rows") && sel_type_of(of) == sel_type_of(other)) {
        *equal = false;
    }
    if (has_fault("equal_unwritten")) {
        *equal = !*equal;
    }
    return status;
}

WRAP(sel_list_new, const int64_t *offsets, size_t len, const uint8_t *bits, size_t bits_len, bool has_bits, sel_column *child, sel_column *out) {
    sel_column other = {0};
    if (!has_fault("child_left")) {
        sel_status status = __real_sel_list_new(offsets, len, bits, bits_len, has_bits, child, out);
        if (has_fault("child_taken") && status != SEL_OK) {
            sel_free(child);
        }
        if (has_fault("child_changed") && status != SEL_OK) {
            shorten(child);
        }
        return status;
    }
    sel_status status = sel_share(child, &other);
    if (status == SEL_OK) {
        status = __real_sel_list_new(offsets, len, bits, bits_len, has_bits, &other, out);
        sel_free(&other);
    }
    return status;
}

WRAP(sel_export, const sel_column *of, const sel_type *type, struct ArrowArray *array, struct ArrowSchema *schema) {
    sel_status status = __real_sel_export(of, type, array, schema);
    if (status == SEL_OK && has_fault("export") && array->length > 0) {
        array->length -= 1;
        array->null_count = -1;
    }
    return status;
}

WRAP(sel_parse, const uint8_t *dtype, size_t dtype_len, const uint8_t *text, size_t text_len, size_t *at, sel_column *out) {
    sel_status status = __real_sel_parse(dtype, dtype_len, text, text_len, at, out);
    if (status == SEL_OK && has_fault("parse_place")) {
        *at = 0;
    }
    return status;
}

WRAP(sel_validity, const sel_column *of, uint8_t *out, size_t out_len, bool *has) {
    sel_status status = __real_sel_validity(of, out, out_len, has);
    if (status == SEL_OK && *has && out_len > 0 && has_fault("validity")) {
        out[0] ^= 1;
    }
    *has = *has && !has_fault("validity_lost");
    return status;
}

size_t __wrap_sel_null_count(const sel_column *of) {
    return __real_sel_null_count(of) + has_fault("null_count");
}

WRAP(sel_print, const sel_column *of, uint8_t *out, size_t out_len, size_t *len) {
    sel_status status = __real_sel_print(of, out, out_len, len);
    if (status == SEL_OK && has_fault("print_more") && out_len > *len) {
        out[*len] = ' ';
    }
    return status;
}
