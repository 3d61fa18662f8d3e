/* Makes columns of the buffers of one level of an Arrow array that cannot be lent as they are: 128-bit integers, and strings with
 * offsets, which get views over their bytes. Every offset is checked before bytes behind it are read. */
#include "arrow_internal.h"

#include <stdlib.h>
#include <string.h>

uint8_t *sel_arrow_packed_bits(const uint8_t *bits, size_t from, size_t len) {
    size_t bytes = bytes_of_bits(len), shift = from % 8;
    uint8_t *out = calloc(bytes + 1, 1);
    if (!out) return NULL;
    if (shift == 0) {
        if (bytes) memcpy(out, bits + from / 8, bytes);
        return out;
    }
    for (size_t i = 0; i < len; i++)
        if (bit_at(bits, from + i)) out[i / 8] |= (uint8_t)(1u << (i % 8));
    return out;
}

/* Returns the items of a buffer from the level's first row on, aligned, or NULL if out of memory. */
static const void *items(level *l, int64_t buffer, size_t size, size_t count) {
    if (count == 0) return sel_arrow_nothing;
    const char *at = (const char *)l->array->buffers[buffer] + l->from * size;
    size_t align = size < 8 ? size : 8;
    if ((uintptr_t)at % align == 0) return at;
    l->copy = malloc(count * size);
    return l->copy ? memcpy(l->copy, at, count * size) : NULL;
}

sel_status sel_arrow_read_validity(level *l) {
    if (!l->validity->at) return SEL_OK;
    l->bits = sel_arrow_packed_bits(l->array->buffers[0], l->from, l->len);
    l->bits_len = bytes_of_bits(l->len);
    return l->bits ? SEL_OK : SEL_ERROR_OUT_OF_MEMORY;
}

/* Imports 128-bit integers, which the format aligns to 8 bytes only. */
static sel_status import_wide_integers(level *l, sel_column *out) {
    const sel_int128 *values = items(l, 1, sizeof *values, l->len);
    if (!values) return SEL_ERROR_OUT_OF_MEMORY;
    return (l->format.storage == SEL_TYPE_INT128 ? sel_int128_new : sel_uint128_new)(values, l->len, VALIDITY(l), out);
}

sel_status sel_arrow_read_offsets(level *l, bool wide, int64_t **out, int64_t *first, int64_t *last) {
    int64_t *offsets = calloc(l->len + 1, sizeof *offsets);
    *out = offsets;
    *first = *last = 0;
    if (!offsets) return SEL_ERROR_OUT_OF_MEMORY;
    const char *at = l->array->buffers[1];
    if (l->len == 0) return SEL_OK;
    for (size_t i = 0; i <= l->len; i++) {
        int32_t narrow;
        if (wide) memcpy(&offsets[i], at + (l->from + i) * 8, 8);
        else memcpy(&narrow, at + (l->from + i) * 4, 4), offsets[i] = narrow;
    }
    *first = offsets[0];
    *last = offsets[l->len];
    for (size_t i = 0; i <= l->len; i++)
        if (offsets[i] < 0) return SEL_ERROR_NEGATIVE_OFFSET;
    for (size_t i = 0; i < l->len; i++)
        if (offsets[i + 1] < offsets[i]) return SEL_ERROR_DECREASING_OFFSET;
    for (size_t i = 0; i <= l->len; i++) offsets[i] -= *first;
    return SEL_OK;
}

/* Returns the view of bytes, which holds up to 12 of them itself. */
static sel_view view_of(const uint8_t *bytes, size_t len, uint32_t buffer, uint32_t offset) {
    sel_view view = {(uint32_t)len, 0, 0, 0};
    uint8_t space[12] = {0};
    memcpy(space, bytes, len < 12 ? len : 12);
    memcpy(&view.prefix, space, 4);
    if (len <= 12) {
        memcpy(&view.buffer, space + 4, 4);
        memcpy(&view.offset, space + 8, 4);
    } else {
        view.buffer = buffer;
        view.offset = offset;
    }
    return view;
}

/* Returns a bound of the number of slices that import_texts makes: at most one a row, and any two next to each other
 * cover more than INT32_MAX bytes. */
static size_t most_slices(size_t rows, int64_t bytes) {
    size_t by_bytes = (size_t)(bytes / (INT32_MAX / 2)) + 2;
    return rows + 1 < by_bytes ? rows + 1 : by_bytes;
}

/* Imports strings with offsets as views over slices of their bytes, each at most as long as a view's offset can reach. */
static sel_status import_texts(level *l, const int64_t *offsets, const uint8_t *bytes, sel_column *out) {
    sel_view *views = calloc(l->len + 1, sizeof *views);
    sel_bytes_ref *slices = malloc(most_slices(l->len, offsets[l->len]) * sizeof *slices);
    size_t count = 0;
    sel_status status = views && slices ? SEL_OK : SEL_ERROR_OUT_OF_MEMORY;
    int64_t begin = 0, end = 0;
    for (size_t i = 0; status == SEL_OK && i < l->len; i++) {
        int64_t len = offsets[i + 1] - offsets[i];
        if (l->bits && !bit_at(l->bits, i)) continue;
        if (len > INT32_MAX) status = SEL_ERROR_ARROW_RANGE;
        if (status != SEL_OK) break;
        if (offsets[i + 1] - begin > INT32_MAX) {
            if (end > begin) slices[count++] = (sel_bytes_ref){bytes + begin, (size_t)(end - begin)};
            begin = offsets[i];
        }
        views[i] = view_of(bytes + offsets[i], (size_t)len, (uint32_t)count, (uint32_t)(offsets[i] - begin));
        end = offsets[i + 1];
    }
    if (status == SEL_OK) {
        if (end > begin) slices[count++] = (sel_bytes_ref){bytes + begin, (size_t)(end - begin)};
        status = sel_arrow_lend_strings(l, views, slices, count, out);
    } else free(views);
    free(slices);
    return status;
}

static sel_status import_strings(level *l, sel_column *out) {
    int64_t *offsets, first, last;
    sel_status status = sel_arrow_read_offsets(l, l->format.wide, &offsets, &first, &last);
    const uint8_t *bytes = l->array->buffers[2];
    if (status == SEL_OK && last > first && !bytes) status = SEL_ERROR_ARROW_BUFFERS;
    if (status == SEL_OK) bytes = last > first ? bytes + first : (const uint8_t *)sel_arrow_nothing;
    if (status == SEL_OK) status = import_texts(l, offsets, bytes, out);
    free(offsets);
    return status;
}

sel_status sel_arrow_import_buffers(level *l, sel_column *out) {
    switch (l->format.layout) {
    case NULLS: return sel_null_new(l->len, out);
    case NUMBERS: return import_wide_integers(l, out);
    default: return import_strings(l, out);
    }
}
