/* Makes columns over the buffers of one level of an Arrow array, which are lent. Copied are 32-bit offsets, which are widened, buffers
 * that are not aligned, and views of which a null slot would break the rules of columns. */
#include "arrow_internal.h"

#include <stdlib.h>
#include <string.h>

/* The validity of a column without one. */
static const lent_buffer none;

/* ---- validity */

sel_status sel_arrow_lend_validity(level *l) {
    const uint8_t *bits = l->array->buffers ? l->array->buffers[0] : NULL;
    int64_t nulls = l->array->null_count;
    l->validity = &none;
    if (nulls == 0) return SEL_OK;
    if (!bits) return nulls > 0 ? SEL_ERROR_ARROW_LENGTH : SEL_OK;
    return l->len == 0 ? SEL_OK : sel_loan_bits(l->loan, bits, l->from + l->len, &l->validity);
}

/* ---- bits and integers */

/* Returns the address of the item of the level's first row in a buffer. */
static const void *items(const level *l, int64_t buffer, size_t size) {
    return l->len > 0 ? (const char *)l->array->buffers[buffer] + l->from * size : NULL;
}

static sel_status lend_bits(level *l, sel_column *out) {
    size_t start = l->len > 0 ? l->from : 0;
    const lent_buffer *values;
    sel_status status = sel_loan_bits(l->loan, l->array->buffers[1], start + l->len, &values);
    return status == SEL_OK ? sel_booleans_over(values, start, l->len, l->validity, l->from, out) : status;
}

static sel_status lend_integers(level *l, size_t size, sel_column *out) {
    const lent_buffer *values;
    sel_status status = sel_loan_values(l->loan, l->format.storage, items(l, 1, size), l->len, &values);
    return status == SEL_OK ? sel_integers_over(values, l->validity, l->from, out) : status;
}

/* Lends values of the same number of bytes as fixed-size lists of bytes. */
static sel_status lend_fixed_bytes(level *l, sel_column *out) {
    size_t width = l->format.width;
    const lent_buffer *values;
    sel_column bytes = {0};
    if (width > 0 && (l->len > MAX_ROWS / width || l->from + l->len > PTRDIFF_MAX / width)) return SEL_ERROR_TOO_MANY_ROWS;
    const void *at = width > 0 ? items(l, 1, width) : NULL;
    sel_status status = sel_loan_values(l->loan, SEL_TYPE_UINT8, at, l->len * width, &values);
    if (status == SEL_OK) status = sel_integers_over(values, &none, 0, &bytes);
    if (status == SEL_OK) status = sel_fixed_size_list_over(width, l->len, &bytes, l->validity, l->from, out);
    sel_free(&bytes);
    return status;
}

/* ---- offsets, binary and strings */

static int64_t offset_at(const level *l, size_t i) {
    const char *at = (const char *)l->array->buffers[1] + (l->from + i) * (l->format.wide ? 8 : 4);
    int32_t narrow;
    int64_t offset;
    if (l->format.wide) memcpy(&offset, at, sizeof offset);
    else memcpy(&narrow, at, sizeof narrow), offset = narrow;
    return offset;
}

sel_status sel_arrow_lend_offsets(level *l, const lent_buffer **out) {
    if (l->format.wide && l->len > 0) return sel_loan_values(l->loan, SEL_TYPE_INT64, items(l, 1, 8), l->len + 1, out);
    int64_t *block = calloc(l->len + 1, sizeof *block);
    if (!block) return SEL_ERROR_OUT_OF_MEMORY;
    for (size_t i = 0; l->len > 0 && i <= l->len; i++) block[i] = offset_at(l, i);
    return sel_loan_block(l->loan, SEL_TYPE_INT64, block, l->len + 1, out);
}

/* Tests whether no row has a byte. Then the bytes are not looked at, however great the offsets are. */
static bool has_no_bytes(const level *l) {
    if (l->len == 0) return true;
    const int64_t first = offset_at(l, 0);
    if (first < 0 || first != offset_at(l, l->len)) return false;
    for (size_t i = 1; i < l->len; i++)
        if (offset_at(l, i) != first) return false;
    return true;
}

/* Makes a binary column of empty rows. */
static sel_status lend_empty_rows(level *l, sel_column *out) {
    const lent_buffer *offsets, *bytes;
    int64_t *block = calloc(l->len + 1, sizeof *block);
    sel_status status = block ? sel_loan_block(l->loan, SEL_TYPE_INT64, block, l->len + 1, &offsets) : SEL_ERROR_OUT_OF_MEMORY;
    if (status == SEL_OK) status = sel_loan_values(l->loan, SEL_TYPE_UINT8, NULL, 0, &bytes);
    return status == SEL_OK ? sel_binary_over(offsets, bytes, l->validity, l->from, out) : status;
}

static sel_status lend_binary(level *l, sel_column *out) {
    const lent_buffer *offsets, *bytes;
    if (has_no_bytes(l)) return lend_empty_rows(l, out);
    sel_status status = sel_arrow_lend_offsets(l, &offsets);
    if (status != SEL_OK) return status;
    const int64_t last = offset_at(l, l->len);
    const void *at = l->array->buffers[2];
    if (last > 0 && !at) return SEL_ERROR_ARROW_BUFFERS;
    status = sel_loan_values(l->loan, SEL_TYPE_UINT8, at, last > 0 ? (size_t)last : 0, &bytes);
    return status == SEL_OK ? sel_binary_over(offsets, bytes, l->validity, l->from, out) : status;
}

sel_status sel_arrow_lend_strings(level *l, sel_view *views, const sel_bytes_ref *slices, size_t count, sel_column *out) {
    const lent_buffer *lent_views, *lent;
    lent_buffer *data = malloc((count + 1) * sizeof *data);
    if (!data) {
        free(views);
        return SEL_ERROR_OUT_OF_MEMORY;
    }
    sel_status status = sel_loan_block(l->loan, SEL_TYPE_BINARY_VIEW, views, l->len, &lent_views);
    for (size_t i = 0; status == SEL_OK && i < count; i++) {
        status = sel_loan_values(l->loan, SEL_TYPE_UINT8, slices[i].at, slices[i].len, &lent);
        if (status == SEL_OK) data[i] = *lent;
    }
    if (status == SEL_OK) status = sel_string_views_over(lent_views, data, count, l->validity, l->from, out);
    free(data);
    return status;
}

/* ---- views */

/* Lends the data buffers of a column of views; the last buffer holds their lengths, maybe unaligned. */
static sel_status lend_data(level *l, int64_t count, lent_buffer *data) {
    const char *lengths = l->array->buffers[count + 2];
    if (count > 0 && !lengths) return SEL_ERROR_ARROW_BUFFERS;
    for (int64_t i = 0; i < count; i++) {
        const lent_buffer *lent;
        const void *bytes = l->array->buffers[i + 2];
        int64_t length;
        memcpy(&length, lengths + i * 8, 8);
        if (length < 0) return SEL_ERROR_ARROW_LENGTH;
        if (length > 0 && !bytes) return SEL_ERROR_ARROW_BUFFERS;
        sel_status status = sel_loan_values(l->loan, SEL_TYPE_UINT8, bytes, (size_t)length, &lent);
        if (status != SEL_OK) return status;
        data[i] = *lent;
    }
    return SEL_OK;
}

static bool is_null(const level *l, size_t row) {
    return l->validity->at && !bit_at(l->array->buffers[0], l->from + row);
}

/* Tests whether a view in a null slot refers to a data buffer, which it may do in any way. */
static bool has_stray_view(const level *l, const char *views) {
    for (size_t i = 0; l->validity->at && i < l->len; i++) {
        sel_view view;
        memcpy(&view, views + i * sizeof view, sizeof view);
        if (view.length > 12 && is_null(l, i)) return true;
    }
    return false;
}

/* Lends the views, or a copy with empty views in the null slots. */
static sel_status lend_views_alone(level *l, const lent_buffer **out) {
    const char *at = items(l, 1, sizeof(sel_view));
    if (!has_stray_view(l, at)) return sel_loan_values(l->loan, SEL_TYPE_BINARY_VIEW, at, l->len, out);
    sel_view *copy = malloc(l->len * sizeof *copy);
    if (!copy) return SEL_ERROR_OUT_OF_MEMORY;
    memcpy(copy, at, l->len * sizeof *copy);
    for (size_t i = 0; i < l->len; i++)
        if (is_null(l, i)) memset(&copy[i], 0, sizeof copy[i]);
    return sel_loan_block(l->loan, SEL_TYPE_BINARY_VIEW, copy, l->len, out);
}

static sel_status lend_views(level *l, sel_column *out) {
    int64_t count = l->array->n_buffers - 3;
    const lent_buffer *views;
    lent_buffer *data = malloc(((size_t)count + 1) * sizeof *data);
    sel_status status = data ? lend_views_alone(l, &views) : SEL_ERROR_OUT_OF_MEMORY;
    if (status == SEL_OK) status = lend_data(l, count, data);
    if (status == SEL_OK)
        status = (l->format.storage == SEL_TYPE_STRING_VIEW ? sel_string_views_over : sel_binary_views_over)(views, data, (size_t)count, l->validity, l->from, out);
    free(data);
    return status;
}

sel_status sel_arrow_lend_buffers(level *l, sel_column *out) {
    switch (l->format.layout) {
    case BITS: return lend_bits(l, out);
    case FIXED_BYTES: return lend_fixed_bytes(l, out);
    case VIEWS: return lend_views(l, out);
    case OFFSET_BYTES:
        if (l->format.storage == SEL_TYPE_BINARY) return lend_binary(l, out);
        break;
    case NUMBERS:
        switch (l->format.storage) {
        case SEL_TYPE_INT8: case SEL_TYPE_UINT8: return lend_integers(l, 1, out);
        case SEL_TYPE_INT16: case SEL_TYPE_UINT16: return lend_integers(l, 2, out);
        case SEL_TYPE_INT32: case SEL_TYPE_UINT32: return lend_integers(l, 4, out);
        case SEL_TYPE_INT64: case SEL_TYPE_UINT64: return lend_integers(l, 8, out);
        default: break;
        }
        break;
    default: break;
    }
    return sel_arrow_import_buffers(l, out);
}
