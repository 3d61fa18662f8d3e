/* Null pointers for empty arrays, in each call that has an array; and the strings of the library. */
#include "test.h"

#include <stdio.h>
#include <string.h>

/* What the proved functions of two calls are replaced by, with -Wl,--wrap=NAME: they must not get a null pointer. */
sel_status __real_sel_proved_int64_new(const int64_t *values, size_t values_len, const uint8_t *bits, size_t bits_len, bool has_bits, sel_column *out);
sel_status __wrap_sel_proved_int64_new(const int64_t *values, size_t values_len, const uint8_t *bits, size_t bits_len, bool has_bits, sel_column *out);
sel_status __real_sel_proved_take_rows(const sel_column *of, const uint32_t *indices, size_t indices_len, const uint8_t *bits, size_t bits_len, bool has_bits, sel_column *out);
sel_status __wrap_sel_proved_take_rows(const sel_column *of, const uint32_t *indices, size_t indices_len, const uint8_t *bits, size_t bits_len, bool has_bits, sel_column *out);

sel_status __wrap_sel_proved_int64_new(const int64_t *values, size_t values_len, const uint8_t *bits, size_t bits_len, bool has_bits, sel_column *out) {
    IS(values != NULL && bits != NULL);
    return __real_sel_proved_int64_new(values, values_len, bits, bits_len, has_bits, out);
}

sel_status __wrap_sel_proved_take_rows(const sel_column *of, const uint32_t *indices, size_t indices_len, const uint8_t *bits, size_t bits_len, bool has_bits, sel_column *out) {
    IS(indices != NULL && bits != NULL);
    return __real_sel_proved_take_rows(of, indices, indices_len, bits, bits_len, has_bits, out);
}

/* Tests whether a call made a column of `len` rows of a type, and frees it. */
static void makes(sel_status status, sel_column *out, sel_type_id type, size_t len, int line) {
    const bool holds = done(status) && (status != SEL_OK || (sel_type_of(out) == type && sel_len(out) == len && sel_null_count(out) == 0));
    is_at(holds, "a column from null pointers", __FILE__, line);
    sel_free(out);
}

#define MAKES(call, type, len) makes(call, &out, type, len, __LINE__)

/* Makes the column of no rows that a type and `[]` give. */
static sel_column empty_of(const char *dtype) {
    sel_column out = {0};
    size_t at = 0;
    DONE(sel_parse((const uint8_t *)dtype, strlen(dtype), (const uint8_t *)"[]", 2, &at, &out));
    return out;
}

static void test_empty_makers(void) {
    sel_column out = {0};
    MAKES(sel_boolean_new(NULL, 0, 0, SEL_ALL_VALID, &out), SEL_TYPE_BOOLEAN, 0);
    MAKES(sel_boolean_new(NULL, 0, 0, NULL, 0, true, &out), SEL_TYPE_BOOLEAN, 0);
    MAKES(sel_int8_new(NULL, 0, SEL_ALL_VALID, &out), SEL_TYPE_INT8, 0);
    MAKES(sel_int16_new(NULL, 0, SEL_ALL_VALID, &out), SEL_TYPE_INT16, 0);
    MAKES(sel_int32_new(NULL, 0, SEL_ALL_VALID, &out), SEL_TYPE_INT32, 0);
    MAKES(sel_int64_new(NULL, 0, SEL_ALL_VALID, &out), SEL_TYPE_INT64, 0);
    MAKES(sel_int64_new((const int64_t[2]){1, 2}, 2, SEL_ALL_VALID, &out), SEL_TYPE_INT64, 2);
    MAKES(sel_int64_new((const int64_t[2]){1, 2}, 2, NULL, 1, false, &out), SEL_TYPE_INT64, 2); /* the bits are ignored */
    MAKES(sel_uint8_new(NULL, 0, NULL, 0, true, &out), SEL_TYPE_UINT8, 0);
    MAKES(sel_uint16_new(NULL, 0, SEL_ALL_VALID, &out), SEL_TYPE_UINT16, 0);
    MAKES(sel_uint32_new(NULL, 0, SEL_ALL_VALID, &out), SEL_TYPE_UINT32, 0);
    MAKES(sel_uint64_new(NULL, 0, SEL_ALL_VALID, &out), SEL_TYPE_UINT64, 0);
    MAKES(sel_int128_new(NULL, 0, SEL_ALL_VALID, &out), SEL_TYPE_INT128, 0);
    MAKES(sel_uint128_new(NULL, 0, SEL_ALL_VALID, &out), SEL_TYPE_UINT128, 0);
    MAKES(sel_struct_new(3, SEL_ALL_VALID, NULL, 0, &out), SEL_TYPE_STRUCT, 3);
    IS(gives(sel_int8_new((const int8_t[1]){1}, 1, NULL, 0, true, &out), SEL_ERROR_VALIDITY_LENGTH));
}

static void test_empty_bytes(void) {
    const int64_t zeros[2] = {0, 0};
    const sel_view views[2] = {{0, 0, 0, 0}, view_of("abc", 3, 0)};
    const sel_bytes_ref refs[2] = {{NULL, 0}, {(const uint8_t *)"abcdefghijklmnop", 16}};
    const sel_view far[1] = {{16, 0x64636261, 1, 0}};
    sel_column out = {0}, child = {0};
    IS(gives(sel_binary_new(NULL, 0, NULL, 0, SEL_ALL_VALID, &out), SEL_ERROR_NO_OFFSETS));
    MAKES(sel_binary_new(zeros, 2, NULL, 0, SEL_ALL_VALID, &out), SEL_TYPE_BINARY, 1);
    MAKES(sel_binary_view_new(NULL, 0, NULL, 0, SEL_ALL_VALID, &out), SEL_TYPE_BINARY_VIEW, 0);
    MAKES(sel_string_view_new(views, 2, NULL, 0, SEL_ALL_VALID, &out), SEL_TYPE_STRING_VIEW, 2);
    MAKES(sel_binary_view_new(views, 2, refs, 1, SEL_ALL_VALID, &out), SEL_TYPE_BINARY_VIEW, 2);
    MAKES(sel_string_view_new(far, 1, refs, 2, SEL_ALL_VALID, &out), SEL_TYPE_STRING_VIEW, 1);
    IS(gives(sel_string_view_new(far, 1, refs, 1, SEL_ALL_VALID, &out), SEL_ERROR_VIEW_RANGE));
    child = empty_of("i8");
    if (child.at != NULL) MAKES(sel_list_new(zeros, 2, SEL_ALL_VALID, &child, &out), SEL_TYPE_LIST, 1);
    sel_free(&child);
    child = empty_of("i8");
    if (child.at != NULL) MAKES(sel_fixed_size_list_new(2, 0, SEL_ALL_VALID, &child, &out), SEL_TYPE_FIXED_SIZE_LIST, 0);
    sel_free(&child);
}

void test_empty_inputs(void) {
    size_t at = 7;
    sel_column out = {0}, of = {0};
    test_empty_makers();
    test_empty_bytes();
    IS(gives(sel_flatten(NULL, 0, NULL, 0, 2, &out), SEL_ERROR_LENGTH_MISMATCH));
    IS(gives(sel_collect_rows(NULL, 0, NULL, 0, SEL_ALL_VALID, &out), SEL_ERROR_LENGTH_MISMATCH));
    sel_status parsed = sel_parse(NULL, 0, NULL, 0, &at, &out);
    IS(gives(parsed, SEL_ERROR_TYPE_SYNTAX) && (parsed != SEL_ERROR_TYPE_SYNTAX || at == 0));
    of = empty_of("i64");
    if (of.at != NULL) {
        MAKES(sel_filter_bits(&of, NULL, 0, 0, &out), SEL_TYPE_INT64, 0);
        MAKES(sel_take_rows(&of, NULL, 0, SEL_ALL_VALID, &out), SEL_TYPE_INT64, 0);
        MAKES(sel_take_rows(&of, NULL, 0, NULL, SIZE_MAX, false, &out), SEL_TYPE_INT64, 0);
        MAKES(sel_collect_rows(&of, 1, NULL, 0, SEL_ALL_VALID, &out), SEL_TYPE_INT64, 0);
    }
    sel_free(&of);
}

/* Runs a call that copies from a column of no rows to a null pointer. */
#define READS(dtype, call)                 \
    do {                                   \
        sel_column of = empty_of(dtype);   \
        if (of.at != NULL) IS(done(call)); \
        sel_free(&of);                     \
    } while (0)

/* The same for a call that sets `len`. */
#define COUNTS(dtype, call, wanted)                                     \
    do {                                                                \
        sel_column of = empty_of(dtype);                                \
        if (of.at != NULL) {                                            \
            sel_status status = call;                                   \
            IS(done(status) && (status != SEL_OK || len == (wanted)));  \
        }                                                               \
        sel_free(&of);                                                  \
    } while (0)

void test_empty_outputs(void) {
    bool has = false;
    size_t len = 0;
    READS("bool", sel_boolean_values(&of, NULL, 0));
    READS("i8", sel_int8_values(&of, NULL, 0));
    READS("i16", sel_int16_values(&of, NULL, 0));
    READS("i32", sel_int32_values(&of, NULL, 0));
    READS("i64", sel_int64_values(&of, NULL, 0));
    READS("i128", sel_int128_values(&of, NULL, 0));
    READS("u8", sel_uint8_values(&of, NULL, 0));
    READS("u16", sel_uint16_values(&of, NULL, 0));
    READS("u32", sel_uint32_values(&of, NULL, 0));
    READS("u64", sel_uint64_values(&of, NULL, 0));
    READS("u128", sel_uint128_values(&of, NULL, 0));
    READS("binary", sel_bytes(&of, NULL, 0));
    READS("utf8", sel_views(&of, NULL, 0));
    READS("i8", sel_validity(&of, NULL, 0, &has));
    COUNTS("i8", sel_print(&of, NULL, 0, &len), 2);
    COUNTS("i8", sel_print_type(&of, NULL, 0, &len), 2);
    sel_column of = empty_of("binary"), views = {0};
    IS(of.at == NULL || gives(sel_offsets(&of, NULL, 0), SEL_ERROR_LENGTH_MISMATCH));
    sel_free(&of);
    DONE(sel_binary_view_new(NULL, 0, (const sel_bytes_ref[1]){{NULL, 0}}, 1, SEL_ALL_VALID, &views));
    if (views.at != NULL) IS(done(sel_buffer_len(&views, 0, &len)) && len == 0 && done(sel_buffer(&views, 0, NULL, 0)));
    sel_free(&views);
}

void test_strings(void) {
    char version[40];
    snprintf(version, sizeof version, "%d.%d.%d", SEL_VERSION_MAJOR, SEL_VERSION_MINOR, SEL_VERSION_PATCH);
    IS(strcmp(sel_version(), version) == 0);
    IS(strcmp(sel_status_string(SEL_OK), "success") == 0 && strcmp(sel_status_string(SEL_ERROR_OUT_OF_MEMORY), "out of memory") == 0);
    IS(strcmp(sel_status_string(SEL_ERROR_TEXT_LIMIT), "the parsed type or column exceeds a limit") == 0);
    IS(strcmp(sel_status_string((sel_status)15), "unknown status") == 0);
}
