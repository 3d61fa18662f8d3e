/* The calls with arrays. Written by tools/header.py from the sources. Each replaces a null pointer to an empty array,
 * which the proved function must not get, by a valid one. The bits of a validity that is ignored are an empty array,
 * whatever length the caller passes. */
#include "sel.h"

#include <stdlib.h>

/* Never read or written: its address is that of an empty array, aligned for each type of the header. */
static const union {
    uint64_t word;
    void *pointer;
    sel_int128 integer;
    sel_bytes_ref bytes;
} empty;

/* Returns the address of an array that is read, which is not null. */
static const void *input(const void *array, size_t len) { return array == NULL && len == 0 ? &empty : array; }

/* Returns the address of an array that is written, which is not null. */
static void *output(void *array, size_t len) { return array == NULL && len == 0 ? (void *)&empty : array; }

/* Byte references whose pointers are not null: those of the caller, or a copy that is to be freed. */
typedef struct byte_refs {
    const sel_bytes_ref *at;
    sel_bytes_ref *copy;
} byte_refs;

/* Returns false if out of memory. */
static bool read_byte_refs(const sel_bytes_ref *refs, size_t len, byte_refs *out) {
    size_t first = 0;
    *out = (byte_refs){input(refs, len), NULL};
    while (first < len && refs[first].at != NULL) first++;
    if (first == len) return true;
    if (len > SIZE_MAX / sizeof *refs) return false;
    out->copy = malloc(len * sizeof *refs);
    if (out->copy == NULL) return false;
    for (size_t i = 0; i < len; i++) out->copy[i] = (sel_bytes_ref){input(refs[i].at, refs[i].len), refs[i].len};
    out->at = out->copy;
    return true;
}

sel_status sel_proved_boolean_new(
    const uint8_t *values,
    size_t values_len,
    size_t len,
    const uint8_t *bits,
    size_t bits_len,
    bool has_bits,
    sel_column *out);
sel_status sel_boolean_new(
    const uint8_t *values,
    size_t values_len,
    size_t len,
    const uint8_t *bits,
    size_t bits_len,
    bool has_bits,
    sel_column *out) {
    if (!has_bits) bits_len = 0;
    return sel_proved_boolean_new(
        input(values, values_len), values_len, len, input(bits, bits_len), bits_len, has_bits, out);
}

sel_status sel_proved_int8_new(
    const int8_t *values,
    size_t values_len,
    const uint8_t *bits,
    size_t bits_len,
    bool has_bits,
    sel_column *out);
sel_status sel_int8_new(
    const int8_t *values,
    size_t values_len,
    const uint8_t *bits,
    size_t bits_len,
    bool has_bits,
    sel_column *out) {
    if (!has_bits) bits_len = 0;
    return sel_proved_int8_new(
        input(values, values_len), values_len, input(bits, bits_len), bits_len, has_bits, out);
}

sel_status sel_proved_int16_new(
    const int16_t *values,
    size_t values_len,
    const uint8_t *bits,
    size_t bits_len,
    bool has_bits,
    sel_column *out);
sel_status sel_int16_new(
    const int16_t *values,
    size_t values_len,
    const uint8_t *bits,
    size_t bits_len,
    bool has_bits,
    sel_column *out) {
    if (!has_bits) bits_len = 0;
    return sel_proved_int16_new(
        input(values, values_len), values_len, input(bits, bits_len), bits_len, has_bits, out);
}

sel_status sel_proved_int32_new(
    const int32_t *values,
    size_t values_len,
    const uint8_t *bits,
    size_t bits_len,
    bool has_bits,
    sel_column *out);
sel_status sel_int32_new(
    const int32_t *values,
    size_t values_len,
    const uint8_t *bits,
    size_t bits_len,
    bool has_bits,
    sel_column *out) {
    if (!has_bits) bits_len = 0;
    return sel_proved_int32_new(
        input(values, values_len), values_len, input(bits, bits_len), bits_len, has_bits, out);
}

sel_status sel_proved_int64_new(
    const int64_t *values,
    size_t values_len,
    const uint8_t *bits,
    size_t bits_len,
    bool has_bits,
    sel_column *out);
sel_status sel_int64_new(
    const int64_t *values,
    size_t values_len,
    const uint8_t *bits,
    size_t bits_len,
    bool has_bits,
    sel_column *out) {
    if (!has_bits) bits_len = 0;
    return sel_proved_int64_new(
        input(values, values_len), values_len, input(bits, bits_len), bits_len, has_bits, out);
}

sel_status sel_proved_uint8_new(
    const uint8_t *values,
    size_t values_len,
    const uint8_t *bits,
    size_t bits_len,
    bool has_bits,
    sel_column *out);
sel_status sel_uint8_new(
    const uint8_t *values,
    size_t values_len,
    const uint8_t *bits,
    size_t bits_len,
    bool has_bits,
    sel_column *out) {
    if (!has_bits) bits_len = 0;
    return sel_proved_uint8_new(
        input(values, values_len), values_len, input(bits, bits_len), bits_len, has_bits, out);
}

sel_status sel_proved_uint16_new(
    const uint16_t *values,
    size_t values_len,
    const uint8_t *bits,
    size_t bits_len,
    bool has_bits,
    sel_column *out);
sel_status sel_uint16_new(
    const uint16_t *values,
    size_t values_len,
    const uint8_t *bits,
    size_t bits_len,
    bool has_bits,
    sel_column *out) {
    if (!has_bits) bits_len = 0;
    return sel_proved_uint16_new(
        input(values, values_len), values_len, input(bits, bits_len), bits_len, has_bits, out);
}

sel_status sel_proved_uint32_new(
    const uint32_t *values,
    size_t values_len,
    const uint8_t *bits,
    size_t bits_len,
    bool has_bits,
    sel_column *out);
sel_status sel_uint32_new(
    const uint32_t *values,
    size_t values_len,
    const uint8_t *bits,
    size_t bits_len,
    bool has_bits,
    sel_column *out) {
    if (!has_bits) bits_len = 0;
    return sel_proved_uint32_new(
        input(values, values_len), values_len, input(bits, bits_len), bits_len, has_bits, out);
}

sel_status sel_proved_uint64_new(
    const uint64_t *values,
    size_t values_len,
    const uint8_t *bits,
    size_t bits_len,
    bool has_bits,
    sel_column *out);
sel_status sel_uint64_new(
    const uint64_t *values,
    size_t values_len,
    const uint8_t *bits,
    size_t bits_len,
    bool has_bits,
    sel_column *out) {
    if (!has_bits) bits_len = 0;
    return sel_proved_uint64_new(
        input(values, values_len), values_len, input(bits, bits_len), bits_len, has_bits, out);
}

sel_status sel_proved_int128_new(
    const sel_int128 *values,
    size_t values_len,
    const uint8_t *bits,
    size_t bits_len,
    bool has_bits,
    sel_column *out);
sel_status sel_int128_new(
    const sel_int128 *values,
    size_t values_len,
    const uint8_t *bits,
    size_t bits_len,
    bool has_bits,
    sel_column *out) {
    if (!has_bits) bits_len = 0;
    return sel_proved_int128_new(
        input(values, values_len), values_len, input(bits, bits_len), bits_len, has_bits, out);
}

sel_status sel_proved_int128_values(const sel_column *of, sel_int128 *out, size_t out_len);
sel_status sel_int128_values(const sel_column *of, sel_int128 *out, size_t out_len) {
    return sel_proved_int128_values(of, output(out, out_len), out_len);
}

sel_status sel_proved_uint128_new(
    const sel_int128 *values,
    size_t values_len,
    const uint8_t *bits,
    size_t bits_len,
    bool has_bits,
    sel_column *out);
sel_status sel_uint128_new(
    const sel_int128 *values,
    size_t values_len,
    const uint8_t *bits,
    size_t bits_len,
    bool has_bits,
    sel_column *out) {
    if (!has_bits) bits_len = 0;
    return sel_proved_uint128_new(
        input(values, values_len), values_len, input(bits, bits_len), bits_len, has_bits, out);
}

sel_status sel_proved_uint128_values(const sel_column *of, sel_int128 *out, size_t out_len);
sel_status sel_uint128_values(const sel_column *of, sel_int128 *out, size_t out_len) {
    return sel_proved_uint128_values(of, output(out, out_len), out_len);
}

sel_status sel_proved_binary_new(
    const int64_t *offsets,
    size_t offsets_len,
    const uint8_t *values,
    size_t values_len,
    const uint8_t *bits,
    size_t bits_len,
    bool has_bits,
    sel_column *out);
sel_status sel_binary_new(
    const int64_t *offsets,
    size_t offsets_len,
    const uint8_t *values,
    size_t values_len,
    const uint8_t *bits,
    size_t bits_len,
    bool has_bits,
    sel_column *out) {
    if (!has_bits) bits_len = 0;
    return sel_proved_binary_new(
        input(offsets, offsets_len), offsets_len, input(values, values_len), values_len, input(bits, bits_len),
        bits_len, has_bits, out);
}

sel_status sel_proved_list_new(
    const int64_t *offsets,
    size_t offsets_len,
    const uint8_t *bits,
    size_t bits_len,
    bool has_bits,
    sel_column *child,
    sel_column *out);
sel_status sel_list_new(
    const int64_t *offsets,
    size_t offsets_len,
    const uint8_t *bits,
    size_t bits_len,
    bool has_bits,
    sel_column *child,
    sel_column *out) {
    if (!has_bits) bits_len = 0;
    return sel_proved_list_new(
        input(offsets, offsets_len), offsets_len, input(bits, bits_len), bits_len, has_bits, child, out);
}

sel_status sel_proved_fixed_size_list_new(
    size_t width,
    size_t len,
    const uint8_t *bits,
    size_t bits_len,
    bool has_bits,
    sel_column *child,
    sel_column *out);
sel_status sel_fixed_size_list_new(
    size_t width,
    size_t len,
    const uint8_t *bits,
    size_t bits_len,
    bool has_bits,
    sel_column *child,
    sel_column *out) {
    if (!has_bits) bits_len = 0;
    return sel_proved_fixed_size_list_new(width, len, input(bits, bits_len), bits_len, has_bits, child, out);
}

sel_status sel_proved_struct_new(
    size_t len,
    const uint8_t *bits,
    size_t bits_len,
    bool has_bits,
    sel_column *fields,
    size_t fields_len,
    sel_column *out);
sel_status sel_struct_new(
    size_t len,
    const uint8_t *bits,
    size_t bits_len,
    bool has_bits,
    sel_column *fields,
    size_t fields_len,
    sel_column *out) {
    if (!has_bits) bits_len = 0;
    return sel_proved_struct_new(
        len, input(bits, bits_len), bits_len, has_bits, output(fields, fields_len), fields_len, out);
}

sel_status sel_proved_binary_view_new(
    const sel_view *views,
    size_t views_len,
    const sel_bytes_ref *buffers,
    size_t buffers_len,
    const uint8_t *bits,
    size_t bits_len,
    bool has_bits,
    sel_column *out);
sel_status sel_binary_view_new(
    const sel_view *views,
    size_t views_len,
    const sel_bytes_ref *buffers,
    size_t buffers_len,
    const uint8_t *bits,
    size_t bits_len,
    bool has_bits,
    sel_column *out) {
    if (!has_bits) bits_len = 0;
    byte_refs buffers_refs;
    if (!read_byte_refs(buffers, buffers_len, &buffers_refs)) return SEL_ERROR_OUT_OF_MEMORY;
    sel_status result = sel_proved_binary_view_new(
        input(views, views_len), views_len, buffers_refs.at, buffers_len, input(bits, bits_len), bits_len,
        has_bits, out);
    free(buffers_refs.copy);
    return result;
}

sel_status sel_proved_string_view_new(
    const sel_view *views,
    size_t views_len,
    const sel_bytes_ref *buffers,
    size_t buffers_len,
    const uint8_t *bits,
    size_t bits_len,
    bool has_bits,
    sel_column *out);
sel_status sel_string_view_new(
    const sel_view *views,
    size_t views_len,
    const sel_bytes_ref *buffers,
    size_t buffers_len,
    const uint8_t *bits,
    size_t bits_len,
    bool has_bits,
    sel_column *out) {
    if (!has_bits) bits_len = 0;
    byte_refs buffers_refs;
    if (!read_byte_refs(buffers, buffers_len, &buffers_refs)) return SEL_ERROR_OUT_OF_MEMORY;
    sel_status result = sel_proved_string_view_new(
        input(views, views_len), views_len, buffers_refs.at, buffers_len, input(bits, bits_len), bits_len,
        has_bits, out);
    free(buffers_refs.copy);
    return result;
}

sel_status sel_proved_views(const sel_column *of, sel_view *out, size_t out_len);
sel_status sel_views(const sel_column *of, sel_view *out, size_t out_len) {
    return sel_proved_views(of, output(out, out_len), out_len);
}

sel_status sel_proved_buffer(const sel_column *of, size_t i, uint8_t *out, size_t out_len);
sel_status sel_buffer(const sel_column *of, size_t i, uint8_t *out, size_t out_len) {
    return sel_proved_buffer(of, i, output(out, out_len), out_len);
}

sel_status sel_proved_validity(const sel_column *of, uint8_t *out, size_t out_len, bool *has);
sel_status sel_validity(const sel_column *of, uint8_t *out, size_t out_len, bool *has) {
    return sel_proved_validity(of, output(out, out_len), out_len, has);
}

sel_status sel_proved_boolean_values(const sel_column *of, uint8_t *out, size_t out_len);
sel_status sel_boolean_values(const sel_column *of, uint8_t *out, size_t out_len) {
    return sel_proved_boolean_values(of, output(out, out_len), out_len);
}

sel_status sel_proved_int8_values(const sel_column *of, int8_t *out, size_t out_len);
sel_status sel_int8_values(const sel_column *of, int8_t *out, size_t out_len) {
    return sel_proved_int8_values(of, output(out, out_len), out_len);
}

sel_status sel_proved_int16_values(const sel_column *of, int16_t *out, size_t out_len);
sel_status sel_int16_values(const sel_column *of, int16_t *out, size_t out_len) {
    return sel_proved_int16_values(of, output(out, out_len), out_len);
}

sel_status sel_proved_int32_values(const sel_column *of, int32_t *out, size_t out_len);
sel_status sel_int32_values(const sel_column *of, int32_t *out, size_t out_len) {
    return sel_proved_int32_values(of, output(out, out_len), out_len);
}

sel_status sel_proved_int64_values(const sel_column *of, int64_t *out, size_t out_len);
sel_status sel_int64_values(const sel_column *of, int64_t *out, size_t out_len) {
    return sel_proved_int64_values(of, output(out, out_len), out_len);
}

sel_status sel_proved_uint8_values(const sel_column *of, uint8_t *out, size_t out_len);
sel_status sel_uint8_values(const sel_column *of, uint8_t *out, size_t out_len) {
    return sel_proved_uint8_values(of, output(out, out_len), out_len);
}

sel_status sel_proved_uint16_values(const sel_column *of, uint16_t *out, size_t out_len);
sel_status sel_uint16_values(const sel_column *of, uint16_t *out, size_t out_len) {
    return sel_proved_uint16_values(of, output(out, out_len), out_len);
}

sel_status sel_proved_uint32_values(const sel_column *of, uint32_t *out, size_t out_len);
sel_status sel_uint32_values(const sel_column *of, uint32_t *out, size_t out_len) {
    return sel_proved_uint32_values(of, output(out, out_len), out_len);
}

sel_status sel_proved_uint64_values(const sel_column *of, uint64_t *out, size_t out_len);
sel_status sel_uint64_values(const sel_column *of, uint64_t *out, size_t out_len) {
    return sel_proved_uint64_values(of, output(out, out_len), out_len);
}

sel_status sel_proved_offsets(const sel_column *of, int64_t *out, size_t out_len);
sel_status sel_offsets(const sel_column *of, int64_t *out, size_t out_len) {
    return sel_proved_offsets(of, output(out, out_len), out_len);
}

sel_status sel_proved_bytes(const sel_column *of, uint8_t *out, size_t out_len);
sel_status sel_bytes(const sel_column *of, uint8_t *out, size_t out_len) {
    return sel_proved_bytes(of, output(out, out_len), out_len);
}

sel_status sel_proved_filter_bits(
    const sel_column *of,
    const uint8_t *mask,
    size_t mask_len,
    size_t len,
    sel_column *out);
sel_status sel_filter_bits(const sel_column *of, const uint8_t *mask, size_t mask_len, size_t len, sel_column *out) {
    return sel_proved_filter_bits(of, input(mask, mask_len), mask_len, len, out);
}

sel_status sel_proved_selection_of_bits(const uint8_t *mask, size_t mask_len, size_t len, sel_selection *out);
sel_status sel_selection_of_bits(const uint8_t *mask, size_t mask_len, size_t len, sel_selection *out) {
    return sel_proved_selection_of_bits(input(mask, mask_len), mask_len, len, out);
}

sel_status sel_proved_take_rows(
    const sel_column *of,
    const uint32_t *indices,
    size_t indices_len,
    const uint8_t *bits,
    size_t bits_len,
    bool has_bits,
    sel_column *out);
sel_status sel_take_rows(
    const sel_column *of,
    const uint32_t *indices,
    size_t indices_len,
    const uint8_t *bits,
    size_t bits_len,
    bool has_bits,
    sel_column *out) {
    if (!has_bits) bits_len = 0;
    return sel_proved_take_rows(
        of, input(indices, indices_len), indices_len, input(bits, bits_len), bits_len, has_bits, out);
}

sel_status sel_proved_flatten(
    const sel_column *columns,
    size_t columns_len,
    const size_t *widths,
    size_t widths_len,
    size_t height,
    sel_column *out);
sel_status sel_flatten(
    const sel_column *columns,
    size_t columns_len,
    const size_t *widths,
    size_t widths_len,
    size_t height,
    sel_column *out) {
    return sel_proved_flatten(
        input(columns, columns_len), columns_len, input(widths, widths_len), widths_len, height, out);
}

sel_status sel_proved_collect_rows(
    const sel_column *sources,
    size_t sources_len,
    const sel_row_ref *picks,
    size_t picks_len,
    const uint8_t *bits,
    size_t bits_len,
    bool has_bits,
    sel_column *out);
sel_status sel_collect_rows(
    const sel_column *sources,
    size_t sources_len,
    const sel_row_ref *picks,
    size_t picks_len,
    const uint8_t *bits,
    size_t bits_len,
    bool has_bits,
    sel_column *out) {
    if (!has_bits) bits_len = 0;
    return sel_proved_collect_rows(
        input(sources, sources_len), sources_len, input(picks, picks_len), picks_len, input(bits, bits_len),
        bits_len, has_bits, out);
}

sel_status sel_proved_print(const sel_column *of, uint8_t *out, size_t out_len, size_t *len);
sel_status sel_print(const sel_column *of, uint8_t *out, size_t out_len, size_t *len) {
    return sel_proved_print(of, output(out, out_len), out_len, len);
}

sel_status sel_proved_print_type(const sel_column *of, uint8_t *out, size_t out_len, size_t *len);
sel_status sel_print_type(const sel_column *of, uint8_t *out, size_t out_len, size_t *len) {
    return sel_proved_print_type(of, output(out, out_len), out_len, len);
}

sel_status sel_proved_parse(
    const uint8_t *dtype,
    size_t dtype_len,
    const uint8_t *text,
    size_t text_len,
    size_t *at,
    sel_column *out);
sel_status sel_parse(
    const uint8_t *dtype,
    size_t dtype_len,
    const uint8_t *text,
    size_t text_len,
    size_t *at,
    sel_column *out) {
    return sel_proved_parse(input(dtype, dtype_len), dtype_len, input(text, text_len), text_len, at, out);
}
