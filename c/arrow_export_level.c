/* Fills the buffers of one level of an Arrow array from a column. */
#include "arrow_internal.h"

#include <stdlib.h>
#include <string.h>

void *sel_arrow_buffer(target *t, int64_t i, size_t count, size_t size) {
    if (size > 0 && count > SIZE_MAX / 2 / size) return NULL;
    void *at = calloc(count * size + 8, 1);
    t->array->buffers[i] = at;
    return at;
}

bool sel_arrow_with_buffers(target *t, int64_t count) {
    t->array->buffers = calloc((size_t)count + 1, sizeof *t->array->buffers);
    t->array->private_data = calloc((size_t)count + 1, sizeof(lent_buffer));
    if (!t->array->buffers || !t->array->private_data) return false;
    t->array->n_buffers = count;
    return true;
}

/* ---- validity */

bool sel_arrow_is_seen(const target *t, size_t row) {
    const uint8_t *valid = t->array->buffers[0];
    return (!valid || bit_at(valid, row)) && (!t->shown || bit_at(t->shown, row));
}

/* With more rows the nulls are not counted: that would take longer than the rest of an export, which copies nothing. */
#define COUNTED_ROWS 65536

static int64_t count_nulls(const target *t) {
    return t->len <= COUNTED_ROWS ? (int64_t)sel_null_count(t->of) : -1;
}

/* Tests whether a null is not hidden by a null list or struct above it. */
static bool shows_null(const target *t, const uint8_t *valid) {
    for (size_t i = 0; i < t->len; i++)
        if (!bit_at(valid, i) && (!t->shown || bit_at(t->shown, i))) return true;
    return false;
}

/* Copies the validity to buffer 0. */
static sel_status copy_validity(target *t) {
    bool has = true;
    size_t bytes = bytes_of_bits(t->len);
    uint8_t *bits = sel_arrow_buffer(t, 0, bytes, 1);
    return bits ? sel_validity(t->of, bits, bytes, &has) : SEL_ERROR_OUT_OF_MEMORY;
}

/* The nulls of a field that is not nullable are all below null lists or structs, so that it needs no validity. Keys keep it: the key of a
 * null may have no row in its dictionary. So do the values of a dictionary, which are no field. */
static bool keeps_validity(const target *t) {
    bool is_nullable = t->type->flags & ARROW_FLAG_NULLABLE;
    return is_nullable || ((t->type->value_type || t->is_dictionary) && sel_null_count(t->of) > 0);
}

sel_status sel_arrow_export_validity(target *t) {
    bool has = false, is_nullable = t->type->flags & ARROW_FLAG_NULLABLE;
    sel_status status = sel_arrow_share_validity(t, &has);
    if (status == SEL_OK && has && !t->array->buffers[0]) status = copy_validity(t);
    if (status != SEL_OK) return status;
    if (has && !is_nullable && !t->is_dictionary && shows_null(t, t->array->buffers[0])) return SEL_ERROR_ARROW_NULL;
    bool keeps = has && keeps_validity(t);
    if (!keeps) sel_arrow_drop_buffer(t, 0);
    t->array->null_count = keeps ? count_nulls(t) : 0;
    return SEL_OK;
}

/* ---- bits and numbers */

static sel_status export_bits(target *t) {
    size_t bytes = bytes_of_bits(t->len);
    sel_status status = sel_arrow_share_values(t, t->of);
    if (status != SEL_OK || t->array->buffers[1]) return status;
    uint8_t *values = sel_arrow_buffer(t, 1, bytes, 1);
    return values ? sel_boolean_values(t->of, values, bytes) : SEL_ERROR_OUT_OF_MEMORY;
}

/* Tests whether a signed 128-bit integer has at most 38 digits: its absolute value is below 10 to the 38th. */
static bool has_38_digits(sel_int128 number) {
    bool negative = number.high >> 63;
    uint64_t high = negative ? ~number.high + (number.low == 0) : number.high;
    uint64_t low = negative ? ~number.low + 1 : number.low;
    const uint64_t most_high = 0x4b3b4ca85a86c47aU, most_low = 0x098a224000000000U;
    return high < most_high || (high == most_high && low < most_low);
}

static sel_status export_decimals(target *t) {
    sel_int128 *values = sel_arrow_buffer(t, 1, t->len, sizeof *values);
    if (!values) return SEL_ERROR_OUT_OF_MEMORY;
    sel_status status = sel_int128_values(t->of, values, t->len);
    for (size_t i = 0; status == SEL_OK && i < t->len; i++) {
        if (!sel_arrow_is_seen(t, i)) values[i] = (sel_int128){0, 0};
        else if (!has_38_digits(values[i])) status = SEL_ERROR_ARROW_RANGE;
    }
    return status;
}

static sel_status export_numbers(target *t) {
    if (t->type->format.storage == SEL_TYPE_INT128) return export_decimals(t);
    if (t->type->format.storage != SEL_TYPE_UINT128) return sel_arrow_share_values(t, t->of);
    sel_int128 *values = sel_arrow_buffer(t, 1, t->len, sizeof *values);
    return values ? sel_uint128_values(t->of, values, t->len) : SEL_ERROR_OUT_OF_MEMORY;
}

/* ---- values of a fixed number of bytes: fixed-size lists of bytes */

/* Tests whether a byte of a row that can be seen is null. */
static sel_status check_bytes(const target *t, const sel_column *bytes) {
    size_t len = sel_len(bytes), width = t->type->format.width;
    if (sel_null_count(bytes) == 0) return SEL_OK;
    uint8_t *valid = malloc(bytes_of_bits(len) + 1);
    bool has = false;
    sel_status status = valid ? sel_validity(bytes, valid, bytes_of_bits(len), &has) : SEL_ERROR_OUT_OF_MEMORY;
    for (size_t i = 0; status == SEL_OK && has && i < len; i++)
        if (!bit_at(valid, i) && sel_arrow_is_seen(t, i / width)) status = SEL_ERROR_ARROW_NULL;
    free(valid);
    return status;
}

static sel_status export_fixed_bytes(target *t) {
    sel_column bytes = {0};
    sel_status status = sel_child(t->of, &bytes);
    if (status == SEL_OK) status = sel_arrow_share_values(t, &bytes);
    if (status == SEL_OK) status = check_bytes(t, &bytes);
    sel_free(&bytes);
    return status;
}

/* ---- offsets, binary and strings */

sel_status sel_arrow_export_offsets(target *t, const int64_t *offsets) {
    if (t->type->format.wide) {
        int64_t *out = sel_arrow_buffer(t, 1, t->len + 1, sizeof *out);
        return out ? memcpy(out, offsets, (t->len + 1) * sizeof *out), SEL_OK : SEL_ERROR_OUT_OF_MEMORY;
    }
    if (offsets[t->len] > INT32_MAX) return SEL_ERROR_ARROW_RANGE;
    int32_t *out = sel_arrow_buffer(t, 1, t->len + 1, sizeof *out);
    for (size_t i = 0; out && i <= t->len; i++) out[i] = (int32_t)offsets[i];
    return out ? SEL_OK : SEL_ERROR_OUT_OF_MEMORY;
}

/* Exports a binary column: as it is, or, if the type has 32-bit offsets, with its bytes from the first row on. */
static sel_status export_binary(target *t) {
    if (t->type->format.wide) return sel_arrow_share_binary(t);
    int64_t *offsets = malloc((t->len + 1) * sizeof *offsets);
    sel_status status = offsets ? sel_offsets(t->of, offsets, t->len + 1) : SEL_ERROR_OUT_OF_MEMORY;
    if (status == SEL_OK) {
        const int64_t first = offsets[0];
        for (size_t i = 0; i <= t->len; i++) offsets[i] -= first;
        status = sel_arrow_export_offsets(t, offsets);
        if (status == SEL_OK) status = sel_arrow_share_bytes(t, (size_t)first);
    }
    free(offsets);
    return status;
}

/* Views that are exported as strings with offsets, with copies of the data buffers that they refer to. */
typedef struct texts {
    sel_view *views;
    uint8_t **buffers;
    size_t count;
} texts;

static void free_texts(texts *it) {
    for (size_t i = 0; it->buffers && i < it->count; i++) free(it->buffers[i]);
    free(it->buffers);
    free(it->views);
}

static sel_status read_buffer(const target *t, texts *it, size_t i) {
    size_t len = 0;
    if (it->buffers[i]) return SEL_OK;
    sel_status status = sel_buffer_len(t->of, i, &len);
    if (status == SEL_OK && !(it->buffers[i] = malloc(len + 1))) status = SEL_ERROR_OUT_OF_MEMORY;
    return status == SEL_OK ? sel_buffer(t->of, i, it->buffers[i], len) : status;
}

/* Reads the views, the data buffers that they refer to, and the offsets of their bytes one after the other. Stops at the first offset that does
 * not fit the type: views may share their bytes, so that the sum of the lengths is not bounded by the memory there is. */
static sel_status read_texts(const target *t, texts *it, int64_t *offsets) {
    const int64_t most = t->type->format.wide ? INT64_MAX : INT32_MAX;
    sel_status status = sel_buffer_count(t->of, &it->count);
    if (status != SEL_OK) return status;
    it->views = malloc((t->len + 1) * sizeof *it->views);
    it->buffers = calloc(it->count + 1, sizeof *it->buffers);
    status = it->views && it->buffers ? sel_views(t->of, it->views, t->len) : SEL_ERROR_OUT_OF_MEMORY;
    for (size_t i = 0; status == SEL_OK && i < t->len; i++) {
        const sel_view *view = &it->views[i];
        bool is_seen = sel_arrow_is_seen(t, i);
        int64_t len = is_seen ? view->length : 0;
        if (len > most - offsets[i]) return SEL_ERROR_ARROW_RANGE;
        offsets[i + 1] = offsets[i] + len;
        if (is_seen && view->length > 12) status = read_buffer(t, it, view->buffer);
    }
    return status;
}

static sel_status export_texts(target *t) {
    texts it = {NULL, NULL, 0};
    int64_t *offsets = calloc(t->len + 1, sizeof *offsets);
    uint8_t *bytes = NULL;
    sel_status status = offsets ? read_texts(t, &it, offsets) : SEL_ERROR_OUT_OF_MEMORY;
    if (status == SEL_OK) status = sel_arrow_export_offsets(t, offsets);
    if (status == SEL_OK && !(bytes = sel_arrow_buffer(t, 2, (size_t)offsets[t->len], 1))) status = SEL_ERROR_OUT_OF_MEMORY;
    for (size_t i = 0; status == SEL_OK && i < t->len; i++) {
        const sel_view *view = &it.views[i];
        size_t len = (size_t)(offsets[i + 1] - offsets[i]);
        const void *from = view->length > 12 && len > 0 ? (const void *)(it.buffers[view->buffer] + view->offset) : bytes_in_view(view);
        memcpy(bytes + offsets[i], from, len);
    }
    free_texts(&it);
    free(offsets);
    return status;
}

/* ---- views */

/* Clears the bytes behind a short view's own, as the format requires, and the views that cannot be seen. */
static sel_status clean_views(const target *t, sel_view *views) {
    for (size_t i = 0; i < t->len; i++) {
        if (!sel_arrow_is_seen(t, i)) memset(&views[i], 0, sizeof views[i]);
        if (views[i].length > 12) {
            if (views[i].length > INT32_MAX || views[i].offset > INT32_MAX || views[i].buffer > INT32_MAX) return SEL_ERROR_ARROW_RANGE;
            continue;
        }
        memset(bytes_in_view(&views[i]) + views[i].length, 0, 12 - views[i].length);
    }
    return SEL_OK;
}

/* Copies the views, and cleans them. */
static sel_status copy_views(target *t) {
    sel_view *views = sel_arrow_buffer(t, 1, t->len, sizeof *views);
    sel_status status = views ? sel_views(t->of, views, t->len) : SEL_ERROR_OUT_OF_MEMORY;
    return status == SEL_OK ? clean_views(t, views) : status;
}

static sel_status export_views(target *t) {
    int64_t count = t->array->n_buffers - 3;
    int64_t *lengths = sel_arrow_buffer(t, count + 2, (size_t)count, sizeof *lengths);
    sel_status status = lengths ? sel_arrow_share_views(t) : SEL_ERROR_OUT_OF_MEMORY;
    if (status == SEL_OK && !t->array->buffers[1]) status = copy_views(t);
    for (int64_t i = 0; status == SEL_OK && i < count; i++) {
        size_t len = 0;
        status = sel_arrow_share_data(t, (size_t)i, &len);
        lengths[i] = (int64_t)len;
    }
    return status;
}

sel_status sel_arrow_buffer_count(const sel_column *of, const node *type, int64_t *count) {
    static const int64_t counts[] = {[NULLS] = 0, [BITS] = 2, [NUMBERS] = 2, [FIXED_BYTES] = 2, [OFFSET_BYTES] = 3, [LISTS] = 2,
                                     [FIXED_LISTS] = 1, [STRUCTS] = 1};
    size_t buffers = 0;
    sel_status status = SEL_OK;
    if (type->format.layout == VIEWS) status = sel_buffer_count(of, &buffers);
    *count = type->format.layout == VIEWS ? (int64_t)buffers + 3 : counts[type->format.layout];
    return status;
}

sel_status sel_arrow_export_buffers(target *t) {
    switch (t->type->format.layout) {
    case BITS: return export_bits(t);
    case NUMBERS: return export_numbers(t);
    case FIXED_BYTES: return export_fixed_bytes(t);
    case VIEWS: return export_views(t);
    default: return t->type->format.storage == SEL_TYPE_BINARY ? export_binary(t) : export_texts(t);
    }
}
