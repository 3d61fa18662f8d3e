/* sel.h: filters, gathers and combines Arrow columns of any nesting. Written by tools/header.py from the sources. The
 * functions are proved; docs/DEFINITIONS.md defines the words of their contracts.
 *
 * Ownership: a handle is empty, {0}, or has a column. Initialize it with {0} and free it with sel_free. A handle may
 * be moved but not copied: sel_share makes a second handle to its column. Arrays that are passed in are copied, and no
 * pointer to them is kept. A function that returns a column in `out` frees the column that `out` had before. Columns
 * are never changed; sel_list_new, sel_fixed_size_list_new and sel_struct_new take their children if they succeed.
 * The same rules hold for the handle sel_selection, which sel_selection_free frees.
 *
 * Threads: functions that take a handle by a pointer to const may read the same handle at the same time, from any
 * threads. While a function writes or frees a handle, no other function may use that handle; other handles to the same
 * column may be in use.
 *
 * Errors: a status is SEL_OK, which is 0, or an error. If several errors apply, the first one listed is returned. On
 * error `out` is unchanged. A function that returns a status may also return SEL_ERROR_OUT_OF_MEMORY, unless its
 * comment says that it never does. A column has at most 128 levels of lists and structs.
 *
 * Arguments: a pointer must be aligned for its type and must not be null, except that an array of length 0 may be a
 * null pointer. An array must be valid for the given length. What a call writes must not be another of its arguments,
 * nor overlap one; a handle that it only reads may be passed twice. A bool is 0 or 1. malloc, realloc and free of the
 * process must be of the same allocator.
 *
 * Validity: passed as `bits`, of at least (rows + 7) / 8 bytes, and `has_bits`; if `has_bits` is false, `bits` is
 * ignored and all rows are valid (SEL_ALL_VALID). Bits are packed, the least significant bit first. A row whose bit is
 * 0 is null.
 */
#ifndef SEL_H
#define SEL_H

#include <stdbool.h>
#include <stddef.h>
#include <stdint.h>

#ifdef __cplusplus
extern "C" {
#endif

/* The version of this header; sel_version returns that of the library. */
#define SEL_VERSION_MAJOR 0
#define SEL_VERSION_MINOR 3
#define SEL_VERSION_PATCH 0

/* The three arguments `bits`, `bits_len` and `has_bits` of rows that are all valid. */
#define SEL_ALL_VALID NULL, 0, false

/* A handle to a column; {0} is an empty handle. */
typedef struct sel_column {
    void *at;
} sel_column;

/* A handle to the rows that a mask selects, prepared once to filter any number of columns; {0} is an empty handle. */
typedef struct sel_selection {
    void *at;
} sel_selection;

/* A 128-bit integer as two words. */
typedef struct sel_int128 {
    uint64_t low;
    uint64_t high;
} sel_int128;

/* An Arrow view, as four little-endian words; a value of up to 12 bytes is in the last three. */
typedef struct sel_view {
    uint32_t length;
    uint32_t prefix;
    uint32_t buffer;
    uint32_t offset;
} sel_view;

/* `len` bytes of the caller. `at` may be a null pointer if `len` is 0. */
typedef struct sel_bytes_ref {
    const uint8_t *at;
    size_t len;
} sel_bytes_ref;

/* A row reference: a row of one of several columns. */
typedef struct sel_row_ref {
    uint32_t source;
    uint32_t row;
} sel_row_ref;

/* The statuses that functions return. */
typedef enum sel_status {
    /* Success. */
    SEL_OK = 0,
    /* Out of memory: an allocation failed. */
    SEL_ERROR_OUT_OF_MEMORY = 1,
    /* A handle that has to have a column is empty. */
    SEL_ERROR_NO_COLUMN = 2,
    /* The column has a type that the call does not support. */
    SEL_ERROR_UNSUPPORTED_TYPE = 3,
    /* The columns do not have the same type. */
    SEL_ERROR_TYPE_MISMATCH = 4,
    /* Lengths do not match. */
    SEL_ERROR_LENGTH_MISMATCH = 5,
    /* An index, a key or a row reference is out of bounds. */
    SEL_ERROR_INDEX_OUT_OF_BOUNDS = 6,
    /* A list that is not null has no element at the index. */
    SEL_ERROR_LIST_INDEX_OUT_OF_BOUNDS = 7,
    /* The result would have more than 4,294,967,295 rows at some depth. */
    SEL_ERROR_ROW_LIMIT = 8,
    /* A binary column of the result would exceed the range of its 64-bit offsets. */
    SEL_ERROR_OFFSET_LIMIT = 9,
    /* A view column of the result would have more than 4,294,967,295 data buffers. */
    SEL_ERROR_BUFFER_LIMIT = 10,
    /* A view or a broadcast scalar would have more than 4,294,967,295 bytes. */
    SEL_ERROR_VIEW_LIMIT = 11,
    /* The column would have more than 128 levels. */
    SEL_ERROR_TOO_DEEP = 12,
    /* There are no offsets. */
    SEL_ERROR_NO_OFFSETS = 16,
    /* An offset is negative. */
    SEL_ERROR_NEGATIVE_OFFSET = 17,
    /* An offset is less than the previous one. */
    SEL_ERROR_DECREASING_OFFSET = 18,
    /* There are more than 4,294,967,295 rows. */
    SEL_ERROR_TOO_MANY_ROWS = 19,
    /* There are more than 4,294,967,295 data buffers. */
    SEL_ERROR_TOO_MANY_BUFFERS = 20,
    /* The list size of a fixed-size list exceeds 4,294,967,295. */
    SEL_ERROR_LIST_SIZE = 21,
    /* The last offset exceeds the length of the values or the child. */
    SEL_ERROR_OFFSET_RANGE = 22,
    /* The child of fixed-size lists does not have length times list size rows. */
    SEL_ERROR_CHILD_LENGTH = 23,
    /* A field does not have as many rows as its struct. */
    SEL_ERROR_FIELD_LENGTH = 24,
    /* The validity has fewer bits than there are rows. */
    SEL_ERROR_VALIDITY_LENGTH = 25,
    /* A view points outside of its data buffer, or to a data buffer that does not exist. */
    SEL_ERROR_VIEW_RANGE = 26,
    /* The prefix of a view differs from the first four bytes that the view points to. */
    SEL_ERROR_VIEW_PREFIX = 27,
    /* A valid row of a string column is not UTF-8. */
    SEL_ERROR_INVALID_UTF8 = 28,
    /* Syntax error in the type. */
    SEL_ERROR_TYPE_SYNTAX = 32,
    /* Syntax error in the row text. */
    SEL_ERROR_ROW_SYNTAX = 33,
    /* A value in the row text does not fit the type. */
    SEL_ERROR_ROW_TYPE_MISMATCH = 34,
    /* The type or the rows exceed a size limit, or the type is nested more than 64 levels deep. */
    SEL_ERROR_TEXT_LIMIT = 35,

    /* Only of the functions of sel_arrow.h: */

    /* The Arrow array or the schema, or one below it, was released. */
    SEL_ERROR_ARROW_RELEASED = 64,
    /* An unsupported Arrow format. */
    SEL_ERROR_ARROW_FORMAT = 65,
    /* Another number of buffers than the format has, or a missing one. */
    SEL_ERROR_ARROW_BUFFERS = 66,
    /* Another number of children than the format has, or a missing one. */
    SEL_ERROR_ARROW_CHILDREN = 67,
    /* A length, an offset or a null count is out of range, or a child is too short. */
    SEL_ERROR_ARROW_LENGTH = 68,
    /* A dictionary in only one of the array and the schema, keys that are not integers, or no type to keep a
     * dictionary in. */
    SEL_ERROR_ARROW_DICTIONARY = 69,
    /* A value or an offset that the format cannot represent. */
    SEL_ERROR_ARROW_RANGE = 71,
    /* A null in a field that is not nullable, or in run ends. */
    SEL_ERROR_ARROW_NULL = 72,
    /* The producer of a stream reports an error. */
    SEL_ERROR_ARROW_STREAM = 73,
    /* Not returned: makes the type 32 bits wide. */
    SEL_STATUS_FORCE_32_BITS = 0x7fffffff
} sel_status;

/* The types of columns. */
typedef enum sel_type_id {
    /* Nulls only. */
    SEL_TYPE_NULL = 0,
    /* Booleans. */
    SEL_TYPE_BOOLEAN = 1,
    /* 8-bit signed integers. */
    SEL_TYPE_INT8 = 2,
    /* 16-bit signed integers. */
    SEL_TYPE_INT16 = 3,
    /* 32-bit signed integers. */
    SEL_TYPE_INT32 = 4,
    /* 64-bit signed integers. */
    SEL_TYPE_INT64 = 5,
    /* 128-bit signed integers. */
    SEL_TYPE_INT128 = 6,
    /* 8-bit unsigned integers. */
    SEL_TYPE_UINT8 = 7,
    /* 16-bit unsigned integers. */
    SEL_TYPE_UINT16 = 8,
    /* 32-bit unsigned integers. */
    SEL_TYPE_UINT32 = 9,
    /* 64-bit unsigned integers. */
    SEL_TYPE_UINT64 = 10,
    /* 128-bit unsigned integers. */
    SEL_TYPE_UINT128 = 11,
    /* Binary with 64-bit offsets. */
    SEL_TYPE_BINARY = 12,
    /* Binary views. */
    SEL_TYPE_BINARY_VIEW = 13,
    /* UTF-8 string views. */
    SEL_TYPE_STRING_VIEW = 14,
    /* Lists with 64-bit offsets. */
    SEL_TYPE_LIST = 15,
    /* Fixed-size lists. */
    SEL_TYPE_FIXED_SIZE_LIST = 16,
    /* Structs. */
    SEL_TYPE_STRUCT = 17,
    /* The handle has no column. */
    SEL_TYPE_NONE = 18,
    /* Not returned: makes the type 32 bits wide. */
    SEL_TYPE_ID_FORCE_32_BITS = 0x7fffffff
} sel_type_id;

#ifdef __cplusplus
static_assert(sizeof(sel_status) == 4 && sizeof(sel_type_id) == 4, "the enumerations have 32 bits");
#elif defined(__STDC_VERSION__) && __STDC_VERSION__ >= 201112L
_Static_assert(sizeof(sel_status) == 4 && sizeof(sel_type_id) == 4, "the enumerations have 32 bits");
#endif

/* Returns a description of a status, a constant string; "unknown status" for any other number. */
const char *sel_status_string(sel_status status);

/* Returns the version of the library, a constant string such as "0.3.0". */
const char *sel_version(void);

/* ---- Columns: slice, share, free. ---- */

/* Returns in `out` the `len` rows of `of` from row `off` on. The result shares the buffers of `of`.
 * Errors: SEL_ERROR_NO_COLUMN: `of` is empty. SEL_ERROR_INDEX_OUT_OF_BOUNDS: `of` has fewer than `off + len` rows. */
sel_status sel_slice(const sel_column *of, size_t off, size_t len, sel_column *out);

/* Returns in `out` a second handle to the column of `of`. Copies nothing.
 * Errors: SEL_ERROR_NO_COLUMN: `of` is empty. */
sel_status sel_share(const sel_column *of, sel_column *out);

/* Frees the column of `of`, if there is one. `of` is empty afterwards. */
void sel_free(sel_column *of);

/* ---- Columns from arrays of values, which are copied. ---- */

/* Returns in `out` a column of `len` nulls.
 * Errors: SEL_ERROR_TOO_MANY_ROWS: `len` is more than 4,294,967,295. */
sel_status sel_null_new(size_t len, sel_column *out);

/* Returns in `out` the boolean column of `len` bits packed in `values`.
 * Errors: SEL_ERROR_LENGTH_MISMATCH: `values` has fewer than (len + 7) / 8 bytes. SEL_ERROR_TOO_MANY_ROWS: `len` is
 * more than 4,294,967,295. SEL_ERROR_VALIDITY_LENGTH: the validity is too short. */
sel_status sel_boolean_new(
    const uint8_t *values,
    size_t values_len,
    size_t len,
    const uint8_t *bits,
    size_t bits_len,
    bool has_bits,
    sel_column *out);

/* Returns in `out` the column of these 8-bit integers.
 * Errors: SEL_ERROR_TOO_MANY_ROWS: more than 4,294,967,295 values. SEL_ERROR_VALIDITY_LENGTH: the validity is too
 * short. */
sel_status sel_int8_new(
    const int8_t *values,
    size_t values_len,
    const uint8_t *bits,
    size_t bits_len,
    bool has_bits,
    sel_column *out);

/* Returns in `out` the column of these 16-bit integers.
 * Errors: SEL_ERROR_TOO_MANY_ROWS: more than 4,294,967,295 values. SEL_ERROR_VALIDITY_LENGTH: the validity is too
 * short. */
sel_status sel_int16_new(
    const int16_t *values,
    size_t values_len,
    const uint8_t *bits,
    size_t bits_len,
    bool has_bits,
    sel_column *out);

/* Returns in `out` the column of these 32-bit integers.
 * Errors: SEL_ERROR_TOO_MANY_ROWS: more than 4,294,967,295 values. SEL_ERROR_VALIDITY_LENGTH: the validity is too
 * short. */
sel_status sel_int32_new(
    const int32_t *values,
    size_t values_len,
    const uint8_t *bits,
    size_t bits_len,
    bool has_bits,
    sel_column *out);

/* Returns in `out` the column of these 64-bit integers.
 * Errors: SEL_ERROR_TOO_MANY_ROWS: more than 4,294,967,295 values. SEL_ERROR_VALIDITY_LENGTH: the validity is too
 * short. */
sel_status sel_int64_new(
    const int64_t *values,
    size_t values_len,
    const uint8_t *bits,
    size_t bits_len,
    bool has_bits,
    sel_column *out);

/* Returns in `out` the column of these unsigned 8-bit integers.
 * Errors: SEL_ERROR_TOO_MANY_ROWS: more than 4,294,967,295 values. SEL_ERROR_VALIDITY_LENGTH: the validity is too
 * short. */
sel_status sel_uint8_new(
    const uint8_t *values,
    size_t values_len,
    const uint8_t *bits,
    size_t bits_len,
    bool has_bits,
    sel_column *out);

/* Returns in `out` the column of these unsigned 16-bit integers.
 * Errors: SEL_ERROR_TOO_MANY_ROWS: more than 4,294,967,295 values. SEL_ERROR_VALIDITY_LENGTH: the validity is too
 * short. */
sel_status sel_uint16_new(
    const uint16_t *values,
    size_t values_len,
    const uint8_t *bits,
    size_t bits_len,
    bool has_bits,
    sel_column *out);

/* Returns in `out` the column of these unsigned 32-bit integers.
 * Errors: SEL_ERROR_TOO_MANY_ROWS: more than 4,294,967,295 values. SEL_ERROR_VALIDITY_LENGTH: the validity is too
 * short. */
sel_status sel_uint32_new(
    const uint32_t *values,
    size_t values_len,
    const uint8_t *bits,
    size_t bits_len,
    bool has_bits,
    sel_column *out);

/* Returns in `out` the column of these unsigned 64-bit integers.
 * Errors: SEL_ERROR_TOO_MANY_ROWS: more than 4,294,967,295 values. SEL_ERROR_VALIDITY_LENGTH: the validity is too
 * short. */
sel_status sel_uint64_new(
    const uint64_t *values,
    size_t values_len,
    const uint8_t *bits,
    size_t bits_len,
    bool has_bits,
    sel_column *out);

/* ---- Columns of 128-bit integers, passed as two words each. ---- */

/* Returns in `out` the column of these 128-bit integers in two's complement.
 * Errors: SEL_ERROR_TOO_MANY_ROWS: more than 4,294,967,295 values. SEL_ERROR_VALIDITY_LENGTH: the validity is too
 * short. */
sel_status sel_int128_new(
    const sel_int128 *values,
    size_t values_len,
    const uint8_t *bits,
    size_t bits_len,
    bool has_bits,
    sel_column *out);

/* Copies the values to `out`, including those in null slots.
 * Errors: SEL_ERROR_NO_COLUMN: `of` is empty. SEL_ERROR_UNSUPPORTED_TYPE: its type is not SEL_TYPE_INT128.
 * SEL_ERROR_LENGTH_MISMATCH: `out_len` is not the number of rows. */
sel_status sel_int128_values(const sel_column *of, sel_int128 *out, size_t out_len);

/* Returns in `out` the column of these unsigned 128-bit integers.
 * Errors: SEL_ERROR_TOO_MANY_ROWS: more than 4,294,967,295 values. SEL_ERROR_VALIDITY_LENGTH: the validity is too
 * short. */
sel_status sel_uint128_new(
    const sel_int128 *values,
    size_t values_len,
    const uint8_t *bits,
    size_t bits_len,
    bool has_bits,
    sel_column *out);

/* Copies the values to `out`, including those in null slots.
 * Errors: SEL_ERROR_NO_COLUMN: `of` is empty. SEL_ERROR_UNSUPPORTED_TYPE: its type is not SEL_TYPE_UINT128.
 * SEL_ERROR_LENGTH_MISMATCH: `out_len` is not the number of rows. */
sel_status sel_uint128_values(const sel_column *of, sel_int128 *out, size_t out_len);

/* ---- Binary, list and struct columns, from offsets and child columns. ---- */

/* Returns in `out` the binary column whose row i is the bytes of `values` from `offsets[i]` up to `offsets[i + 1]`,
 * exclusive.
 * Errors: SEL_ERROR_NO_OFFSETS, SEL_ERROR_NEGATIVE_OFFSET, SEL_ERROR_DECREASING_OFFSET, SEL_ERROR_VALIDITY_LENGTH,
 * SEL_ERROR_TOO_MANY_ROWS, SEL_ERROR_OFFSET_RANGE. */
sel_status sel_binary_new(
    const int64_t *offsets,
    size_t offsets_len,
    const uint8_t *values,
    size_t values_len,
    const uint8_t *bits,
    size_t bits_len,
    bool has_bits,
    sel_column *out);

/* Returns in `out` the list column whose row i is the rows of `child` from `offsets[i]` up to `offsets[i + 1]`,
 * exclusive. Takes `child`: on success it is empty afterwards, on error it is unchanged.
 * Errors: SEL_ERROR_NO_COLUMN: `child` is empty. SEL_ERROR_TOO_DEEP. SEL_ERROR_NO_OFFSETS,
 * SEL_ERROR_NEGATIVE_OFFSET, SEL_ERROR_DECREASING_OFFSET, SEL_ERROR_VALIDITY_LENGTH, SEL_ERROR_TOO_MANY_ROWS,
 * SEL_ERROR_OFFSET_RANGE. */
sel_status sel_list_new(
    const int64_t *offsets,
    size_t offsets_len,
    const uint8_t *bits,
    size_t bits_len,
    bool has_bits,
    sel_column *child,
    sel_column *out);

/* Returns in `out` the column of `len` fixed-size lists of `width` rows of `child` each, one list after the other.
 * Takes `child`: on success it is empty afterwards, on error it is unchanged.
 * Errors: SEL_ERROR_NO_COLUMN: `child` is empty. SEL_ERROR_TOO_DEEP. SEL_ERROR_VALIDITY_LENGTH,
 * SEL_ERROR_TOO_MANY_ROWS, SEL_ERROR_LIST_SIZE, SEL_ERROR_CHILD_LENGTH. */
sel_status sel_fixed_size_list_new(
    size_t width,
    size_t len,
    const uint8_t *bits,
    size_t bits_len,
    bool has_bits,
    sel_column *child,
    sel_column *out);

/* Returns in `out` the struct column of `len` rows with these fields, in order. Takes the fields: on success each of
 * them is empty afterwards, on error they are unchanged.
 * Errors: SEL_ERROR_NO_COLUMN: a field is empty. SEL_ERROR_TOO_DEEP. SEL_ERROR_VALIDITY_LENGTH,
 * SEL_ERROR_TOO_MANY_ROWS, SEL_ERROR_FIELD_LENGTH. */
sel_status sel_struct_new(
    size_t len,
    const uint8_t *bits,
    size_t bits_len,
    bool has_bits,
    sel_column *fields,
    size_t fields_len,
    sel_column *out);

/* ---- Binary and string columns of views. ---- */

/* Returns in `out` the binary column of these views: a value of up to 12 bytes is stored in its view, a longer one
 * in a data buffer.
 * Errors: SEL_ERROR_VALIDITY_LENGTH, SEL_ERROR_TOO_MANY_ROWS, SEL_ERROR_TOO_MANY_BUFFERS; then for each view in
 * order, in null slots too, SEL_ERROR_VIEW_RANGE, SEL_ERROR_VIEW_PREFIX. */
sel_status sel_binary_view_new(
    const sel_view *views,
    size_t views_len,
    const sel_bytes_ref *buffers,
    size_t buffers_len,
    const uint8_t *bits,
    size_t bits_len,
    bool has_bits,
    sel_column *out);

/* Returns in `out` the string column of these views: a value of up to 12 bytes is stored in its view, a longer one
 * in a data buffer.
 * Errors: SEL_ERROR_VALIDITY_LENGTH, SEL_ERROR_TOO_MANY_ROWS, SEL_ERROR_TOO_MANY_BUFFERS; then for each view in
 * order, in null slots too, SEL_ERROR_VIEW_RANGE, SEL_ERROR_VIEW_PREFIX; then SEL_ERROR_INVALID_UTF8, for rows that
 * are not null. */
sel_status sel_string_view_new(
    const sel_view *views,
    size_t views_len,
    const sel_bytes_ref *buffers,
    size_t buffers_len,
    const uint8_t *bits,
    size_t bits_len,
    bool has_bits,
    sel_column *out);

/* Copies the views to `out`, including those in null slots.
 * Errors: SEL_ERROR_NO_COLUMN: `of` is empty. SEL_ERROR_UNSUPPORTED_TYPE: its type is not SEL_TYPE_BINARY_VIEW or
 * SEL_TYPE_STRING_VIEW. SEL_ERROR_LENGTH_MISMATCH: `out_len` is not the number of rows. Never returns
 * SEL_ERROR_OUT_OF_MEMORY. */
sel_status sel_views(const sel_column *of, sel_view *out, size_t out_len);

/* Returns in `count` the number of data buffers of a view column.
 * Errors: SEL_ERROR_NO_COLUMN: `of` is empty. SEL_ERROR_UNSUPPORTED_TYPE: its type is not SEL_TYPE_BINARY_VIEW or
 * SEL_TYPE_STRING_VIEW. Never returns SEL_ERROR_OUT_OF_MEMORY. */
sel_status sel_buffer_count(const sel_column *of, size_t *count);

/* Returns in `len` the number of bytes of data buffer `i`, counted from 0.
 * Errors: SEL_ERROR_NO_COLUMN: `of` is empty. SEL_ERROR_UNSUPPORTED_TYPE: its type is not SEL_TYPE_BINARY_VIEW or
 * SEL_TYPE_STRING_VIEW. SEL_ERROR_INDEX_OUT_OF_BOUNDS: there is no data buffer `i`. Never returns
 * SEL_ERROR_OUT_OF_MEMORY. */
sel_status sel_buffer_len(const sel_column *of, size_t i, size_t *len);

/* Copies the bytes of data buffer `i`, counted from 0, to `out`.
 * Errors: SEL_ERROR_NO_COLUMN: `of` is empty. SEL_ERROR_UNSUPPORTED_TYPE: its type is not SEL_TYPE_BINARY_VIEW or
 * SEL_TYPE_STRING_VIEW. SEL_ERROR_INDEX_OUT_OF_BOUNDS: there is no data buffer `i`. SEL_ERROR_LENGTH_MISMATCH:
 * `out_len` is not the length of the buffer. Never returns SEL_ERROR_OUT_OF_MEMORY. */
sel_status sel_buffer(const sel_column *of, size_t i, uint8_t *out, size_t out_len);

/* ---- Properties and values of a column. ---- */

/* Returns the number of rows, or 0 if `of` is empty. */
size_t sel_len(const sel_column *of);

/* Returns the number of null rows, or 0 if `of` is empty. */
size_t sel_null_count(const sel_column *of);

/* Returns the type of the column, one of `enum sel_type_id`, or SEL_TYPE_NONE if `of` is empty. */
sel_type_id sel_type_of(const sel_column *of);

/* Copies the validity to `out`, of (rows + 7) / 8 bytes, and returns in `has` whether the column has one. If it has
 * none, `out` is unchanged and may have any length: each row is valid, or, in a column of SEL_TYPE_NULL, null.
 * Errors: SEL_ERROR_NO_COLUMN: `of` is empty. SEL_ERROR_LENGTH_MISMATCH: the column has a validity, and `out_len` is
 * not (rows + 7) / 8; `has` is true then. After another error `has` may be either. */
sel_status sel_validity(const sel_column *of, uint8_t *out, size_t out_len, bool *has);

/* Copies the values, including those in null slots, as packed bits to `out`.
 * Errors: SEL_ERROR_NO_COLUMN: `of` is empty. SEL_ERROR_UNSUPPORTED_TYPE: its type is not SEL_TYPE_BOOLEAN.
 * SEL_ERROR_LENGTH_MISMATCH: `out_len` is not (rows + 7) / 8. */
sel_status sel_boolean_values(const sel_column *of, uint8_t *out, size_t out_len);

/* Copies the values to `out`, including those in null slots.
 * Errors: SEL_ERROR_NO_COLUMN: `of` is empty. SEL_ERROR_UNSUPPORTED_TYPE: its type is not SEL_TYPE_INT8.
 * SEL_ERROR_LENGTH_MISMATCH: `out_len` is not the number of rows. */
sel_status sel_int8_values(const sel_column *of, int8_t *out, size_t out_len);

/* Copies the values to `out`, including those in null slots.
 * Errors: SEL_ERROR_NO_COLUMN: `of` is empty. SEL_ERROR_UNSUPPORTED_TYPE: its type is not SEL_TYPE_INT16.
 * SEL_ERROR_LENGTH_MISMATCH: `out_len` is not the number of rows. */
sel_status sel_int16_values(const sel_column *of, int16_t *out, size_t out_len);

/* Copies the values to `out`, including those in null slots.
 * Errors: SEL_ERROR_NO_COLUMN: `of` is empty. SEL_ERROR_UNSUPPORTED_TYPE: its type is not SEL_TYPE_INT32.
 * SEL_ERROR_LENGTH_MISMATCH: `out_len` is not the number of rows. */
sel_status sel_int32_values(const sel_column *of, int32_t *out, size_t out_len);

/* Copies the values to `out`, including those in null slots.
 * Errors: SEL_ERROR_NO_COLUMN: `of` is empty. SEL_ERROR_UNSUPPORTED_TYPE: its type is not SEL_TYPE_INT64.
 * SEL_ERROR_LENGTH_MISMATCH: `out_len` is not the number of rows. */
sel_status sel_int64_values(const sel_column *of, int64_t *out, size_t out_len);

/* Copies the values to `out`, including those in null slots.
 * Errors: SEL_ERROR_NO_COLUMN: `of` is empty. SEL_ERROR_UNSUPPORTED_TYPE: its type is not SEL_TYPE_UINT8.
 * SEL_ERROR_LENGTH_MISMATCH: `out_len` is not the number of rows. */
sel_status sel_uint8_values(const sel_column *of, uint8_t *out, size_t out_len);

/* Copies the values to `out`, including those in null slots.
 * Errors: SEL_ERROR_NO_COLUMN: `of` is empty. SEL_ERROR_UNSUPPORTED_TYPE: its type is not SEL_TYPE_UINT16.
 * SEL_ERROR_LENGTH_MISMATCH: `out_len` is not the number of rows. */
sel_status sel_uint16_values(const sel_column *of, uint16_t *out, size_t out_len);

/* Copies the values to `out`, including those in null slots.
 * Errors: SEL_ERROR_NO_COLUMN: `of` is empty. SEL_ERROR_UNSUPPORTED_TYPE: its type is not SEL_TYPE_UINT32.
 * SEL_ERROR_LENGTH_MISMATCH: `out_len` is not the number of rows. */
sel_status sel_uint32_values(const sel_column *of, uint32_t *out, size_t out_len);

/* Copies the values to `out`, including those in null slots.
 * Errors: SEL_ERROR_NO_COLUMN: `of` is empty. SEL_ERROR_UNSUPPORTED_TYPE: its type is not SEL_TYPE_UINT64.
 * SEL_ERROR_LENGTH_MISMATCH: `out_len` is not the number of rows. */
sel_status sel_uint64_values(const sel_column *of, uint64_t *out, size_t out_len);

/* ---- Offsets and bytes of binary and list columns. ---- */

/* Copies the offsets of a binary or list column to `out`. In a sliced column the first one may be above 0.
 * Errors: SEL_ERROR_NO_COLUMN: `of` is empty. SEL_ERROR_UNSUPPORTED_TYPE: its type has no offsets.
 * SEL_ERROR_LENGTH_MISMATCH: `out_len` is not the number of rows plus 1. Never returns SEL_ERROR_OUT_OF_MEMORY. */
sel_status sel_offsets(const sel_column *of, int64_t *out, size_t out_len);

/* Returns in `len` the number of bytes of a binary column with offsets, including bytes outside of the rows.
 * Errors: SEL_ERROR_NO_COLUMN: `of` is empty. SEL_ERROR_UNSUPPORTED_TYPE: its type is not SEL_TYPE_BINARY. Never
 * returns SEL_ERROR_OUT_OF_MEMORY. */
sel_status sel_bytes_len(const sel_column *of, size_t *len);

/* Copies the bytes of a binary column with offsets to `out`, including bytes outside of the rows.
 * Errors: SEL_ERROR_NO_COLUMN: `of` is empty. SEL_ERROR_UNSUPPORTED_TYPE: its type is not SEL_TYPE_BINARY.
 * SEL_ERROR_LENGTH_MISMATCH: `out_len` is not what `sel_bytes_len` returns. Never returns SEL_ERROR_OUT_OF_MEMORY. */
sel_status sel_bytes(const sel_column *of, uint8_t *out, size_t out_len);

/* ---- Filter. ---- */

/* Returns in `out` the rows of `of` where the boolean column `mask` is true. A null in the mask counts as false.
 * Errors: SEL_ERROR_NO_COLUMN: `of` or `mask` is empty. SEL_ERROR_UNSUPPORTED_TYPE: the type of `mask` is not
 * SEL_TYPE_BOOLEAN. SEL_ERROR_LENGTH_MISMATCH: `of` and `mask` have different lengths. */
sel_status sel_filter(const sel_column *of, const sel_column *mask, sel_column *out);

/* Returns in `out` the rows of `of` whose bit is set in `mask`, which has `len` packed bits.
 * Errors: SEL_ERROR_NO_COLUMN: `of` is empty. SEL_ERROR_LENGTH_MISMATCH: `of` does not have `len` rows, or `mask`
 * has fewer than (len + 7) / 8 bytes. */
sel_status sel_filter_bits(const sel_column *of, const uint8_t *mask, size_t mask_len, size_t len, sel_column *out);

/* ---- Masks that are prepared once, to filter any number of columns. ---- */

/* Returns in `out` the selection of the rows where the boolean column `mask` is true. A null counts as false.
 * Errors: SEL_ERROR_NO_COLUMN: `mask` is empty. SEL_ERROR_UNSUPPORTED_TYPE: the type of `mask` is not
 * SEL_TYPE_BOOLEAN. */
sel_status sel_selection_new(const sel_column *mask, sel_selection *out);

/* Returns in `out` the selection of the rows whose bit is set in `mask`, which has `len` packed bits.
 * Errors: SEL_ERROR_LENGTH_MISMATCH: `mask` has fewer than (len + 7) / 8 bytes. */
sel_status sel_selection_of_bits(const uint8_t *mask, size_t mask_len, size_t len, sel_selection *out);

/* Returns in `len` the number of rows that a column must have to be filtered by `of`.
 * Errors: SEL_ERROR_NO_COLUMN: `of` is empty. Never returns SEL_ERROR_OUT_OF_MEMORY. */
sel_status sel_selection_len(const sel_selection *of, size_t *len);

/* Returns in `count` the number of rows that `of` selects.
 * Errors: SEL_ERROR_NO_COLUMN: `of` is empty. Never returns SEL_ERROR_OUT_OF_MEMORY. */
sel_status sel_selection_count(const sel_selection *of, size_t *count);

/* Returns in `out` the rows of `of` that `by` selects.
 * Errors: SEL_ERROR_NO_COLUMN: `of` or `by` is empty. SEL_ERROR_LENGTH_MISMATCH: `of` does not have as many rows as
 * the mask of `by`. */
sel_status sel_filter_selection(const sel_column *of, const sel_selection *by, sel_column *out);

/* Frees the selection of `of`, if there is one. `of` is empty afterwards. */
void sel_selection_free(sel_selection *of);

/* ---- Take (gather). ---- */

/* Returns in `out` the rows of `of` at `indices`. A null index gives a null row.
 * Errors: SEL_ERROR_NO_COLUMN: `of` or `indices` is empty. SEL_ERROR_UNSUPPORTED_TYPE: the type of `indices` is not
 * SEL_TYPE_UINT32. SEL_ERROR_INDEX_OUT_OF_BOUNDS: an index that is not null is out of bounds. SEL_ERROR_ROW_LIMIT,
 * SEL_ERROR_OFFSET_LIMIT: the result exceeds a size limit. */
sel_status sel_take(const sel_column *of, const sel_column *indices, sel_column *out);

/* Returns in `out` the rows of `of` at `indices`. An index whose validity bit is 0 gives a null row.
 * Errors: SEL_ERROR_NO_COLUMN: `of` is empty. SEL_ERROR_TOO_MANY_ROWS: more than 4,294,967,295 indices.
 * SEL_ERROR_VALIDITY_LENGTH: the validity is too short. SEL_ERROR_INDEX_OUT_OF_BOUNDS: an index that is not null is
 * out of bounds. SEL_ERROR_ROW_LIMIT, SEL_ERROR_OFFSET_LIMIT: the result exceeds a size limit. */
sel_status sel_take_rows(
    const sel_column *of,
    const uint32_t *indices,
    size_t indices_len,
    const uint8_t *bits,
    size_t bits_len,
    bool has_bits,
    sel_column *out);

/* ---- Reversal. ---- */

/* Returns in `out` the rows of `of` in reverse order.
 * Errors: SEL_ERROR_NO_COLUMN: `of` is empty. */
sel_status sel_reverse(const sel_column *of, sel_column *out);

/* ---- If-then-else. ---- */

/* Returns in `out` the column whose row k is row k of `if_true` where the boolean column `mask` is true, else row k
 * of `if_false`. A null in the mask counts as false.
 * Errors: SEL_ERROR_NO_COLUMN: `mask`, `if_true` or `if_false` is empty. SEL_ERROR_UNSUPPORTED_TYPE: the type of
 * `mask` is not SEL_TYPE_BOOLEAN. SEL_ERROR_TYPE_MISMATCH: `if_true` and `if_false` have different types.
 * SEL_ERROR_LENGTH_MISMATCH: `if_true` or `if_false` does not have as many rows as `mask`. SEL_ERROR_ROW_LIMIT,
 * SEL_ERROR_OFFSET_LIMIT, SEL_ERROR_BUFFER_LIMIT: the result exceeds a size limit. */
sel_status sel_if_then_else(
    const sel_column *mask,
    const sel_column *if_true,
    const sel_column *if_false,
    sel_column *out);

/* As `sel_if_then_else`, with the true value broadcast: `if_true` has one row, which may be null.
 * Errors: SEL_ERROR_NO_COLUMN: `mask`, `if_true` or `if_false` is empty. SEL_ERROR_UNSUPPORTED_TYPE: the type of
 * `mask` is not SEL_TYPE_BOOLEAN. SEL_ERROR_TYPE_MISMATCH: `if_true` and `if_false` have different types.
 * SEL_ERROR_LENGTH_MISMATCH: `if_true` does not have one row, or `if_false` does not have as many rows as `mask`.
 * SEL_ERROR_ROW_LIMIT, SEL_ERROR_OFFSET_LIMIT, SEL_ERROR_BUFFER_LIMIT: the result exceeds a size limit. */
sel_status sel_if_then_else_broadcast_true(
    const sel_column *mask,
    const sel_column *if_true,
    const sel_column *if_false,
    sel_column *out);

/* As `sel_if_then_else`, with the false value broadcast: `if_false` has one row, which may be null.
 * Errors: SEL_ERROR_NO_COLUMN: `mask`, `if_true` or `if_false` is empty. SEL_ERROR_UNSUPPORTED_TYPE: the type of
 * `mask` is not SEL_TYPE_BOOLEAN. SEL_ERROR_TYPE_MISMATCH: `if_true` and `if_false` have different types.
 * SEL_ERROR_LENGTH_MISMATCH: `if_false` does not have one row, or `if_true` does not have as many rows as `mask`.
 * SEL_ERROR_ROW_LIMIT, SEL_ERROR_OFFSET_LIMIT, SEL_ERROR_BUFFER_LIMIT: the result exceeds a size limit. */
sel_status sel_if_then_else_broadcast_false(
    const sel_column *mask,
    const sel_column *if_true,
    const sel_column *if_false,
    sel_column *out);

/* As `sel_if_then_else`, with both values broadcast: `if_true` and `if_false` have one row each, which may be null.
 * The result has as many rows as `mask`.
 * Errors: SEL_ERROR_NO_COLUMN: `mask`, `if_true` or `if_false` is empty. SEL_ERROR_UNSUPPORTED_TYPE: the type of
 * `mask` is not SEL_TYPE_BOOLEAN. SEL_ERROR_TYPE_MISMATCH: `if_true` and `if_false` have different types.
 * SEL_ERROR_LENGTH_MISMATCH: `if_true` or `if_false` does not have one row. SEL_ERROR_ROW_LIMIT,
 * SEL_ERROR_OFFSET_LIMIT, SEL_ERROR_BUFFER_LIMIT: the result exceeds a size limit. */
sel_status sel_if_then_else_broadcast_both(
    const sel_column *mask,
    const sel_column *if_true,
    const sel_column *if_false,
    sel_column *out);

/* ---- List element access. ---- */

/* Returns in `out` the column whose row k is the element of list k at `index`, or null if the list is null or the
 * index is out of bounds. A negative index counts from the end of the list.
 * Errors: SEL_ERROR_NO_COLUMN: `of` is empty. SEL_ERROR_UNSUPPORTED_TYPE: the type of `of` is not SEL_TYPE_LIST.
 * SEL_ERROR_ROW_LIMIT, SEL_ERROR_OFFSET_LIMIT: the result exceeds a size limit. */
sel_status sel_list_get(const sel_column *of, int64_t index, sel_column *out);

/* Returns in `out` whether `index` is out of bounds in some list that is not null. Does not allocate; on error `out`
 * is unchanged.
 * Errors: SEL_ERROR_NO_COLUMN: `of` is empty. SEL_ERROR_UNSUPPORTED_TYPE: the type of `of` is not SEL_TYPE_LIST.
 * Never returns SEL_ERROR_OUT_OF_MEMORY. */
sel_status sel_list_index_is_oob(const sel_column *of, int64_t index, bool *out);

/* Returns in `out` the column whose row k is a list of one element, row k of `of`.
 * Errors: SEL_ERROR_NO_COLUMN: `of` is empty. SEL_ERROR_TOO_DEEP: `of` has 128 levels. */
sel_status sel_unit_list(const sel_column *of, sel_column *out);

/* ---- Fixed-size list element access. ---- */

/* Returns in `out` the column whose row k is the element of fixed-size list k at `index`, or null if the list is
 * null or, with `null_on_oob`, the index is out of bounds. A negative index counts from the end of the list.
 * Errors: SEL_ERROR_NO_COLUMN: `of` is empty. SEL_ERROR_UNSUPPORTED_TYPE: the type of `of` is not
 * SEL_TYPE_FIXED_SIZE_LIST. SEL_ERROR_LIST_INDEX_OUT_OF_BOUNDS: without `null_on_oob`, the index is out of bounds
 * and some list is not null. SEL_ERROR_ROW_LIMIT, SEL_ERROR_OFFSET_LIMIT: the result exceeds a size limit. */
sel_status sel_fixed_size_list_get(const sel_column *of, int64_t index, bool null_on_oob, sel_column *out);

/* ---- Fixed-size list element access with an index for each row. ---- */

/* Returns in `out` the column whose row k is the element of fixed-size list k at index k, or null if the list is
 * null or, with `null_on_oob`, the index is null or out of bounds. A negative index counts from the end of the list.
 * Errors: SEL_ERROR_NO_COLUMN: `of` or `indices` is empty. SEL_ERROR_UNSUPPORTED_TYPE: the type of `of` is not
 * SEL_TYPE_FIXED_SIZE_LIST, or the type of `indices` is not SEL_TYPE_INT64. SEL_ERROR_LENGTH_MISMATCH: `of` and
 * `indices` have different lengths. SEL_ERROR_LIST_INDEX_OUT_OF_BOUNDS: without `null_on_oob`, an index is null or
 * out of bounds and its list is not null. SEL_ERROR_ROW_LIMIT, SEL_ERROR_OFFSET_LIMIT: the result exceeds a size
 * limit. */
sel_status sel_fixed_size_list_get_each(
    const sel_column *of,
    const sel_column *indices,
    bool null_on_oob,
    sel_column *out);

/* ---- Several columns: flatten and gather rows. ---- */

/* Concatenates columns row by row. Returns in `out`, for each r below `height`, in order, `widths[i]` rows of each
 * column i: those from row `r * widths[i]` on, or, where the column has only `widths[i]` rows, all of them.
 * Errors: SEL_ERROR_NO_COLUMN: a column is empty. SEL_ERROR_TYPE_MISMATCH: the columns have different types.
 * SEL_ERROR_LENGTH_MISMATCH: there are no columns, `widths_len` is not `columns_len`, a width is 0, or a column has
 * neither `height * widths[i]` nor `widths[i]` rows. SEL_ERROR_ROW_LIMIT, SEL_ERROR_OFFSET_LIMIT,
 * SEL_ERROR_BUFFER_LIMIT: the result exceeds a size limit. */
sel_status sel_flatten(
    const sel_column *columns,
    size_t columns_len,
    const size_t *widths,
    size_t widths_len,
    size_t height,
    sel_column *out);

/* Returns in `out` the column whose row k is row `picks[k].row` of `sources[picks[k].source]`, or null if bit k of
 * the validity is 0.
 * Errors: SEL_ERROR_NO_COLUMN: a source is empty. SEL_ERROR_TOO_MANY_ROWS: more than 4,294,967,295 picks.
 * SEL_ERROR_VALIDITY_LENGTH: the validity is too short. SEL_ERROR_LENGTH_MISMATCH: there are no sources.
 * SEL_ERROR_TYPE_MISMATCH: the sources have different types. SEL_ERROR_INDEX_OUT_OF_BOUNDS: the source or the row of
 * a pick that is not null is out of bounds. SEL_ERROR_ROW_LIMIT, SEL_ERROR_OFFSET_LIMIT, SEL_ERROR_BUFFER_LIMIT: the
 * result exceeds a size limit. */
sel_status sel_collect_rows(
    const sel_column *sources,
    size_t sources_len,
    const sel_row_ref *picks,
    size_t picks_len,
    const uint8_t *bits,
    size_t bits_len,
    bool has_bits,
    sel_column *out);

/* ---- Dictionaries. ---- */

/* Removes the null values of a dictionary: returns in `out_values` the values that are not null, in order, and in
 * `out_keys` the keys of these. A key is null if it was null or if its value was null; else it refers to the same
 * value as before.
 * Errors: SEL_ERROR_NO_COLUMN: `keys` or `values` is empty. SEL_ERROR_UNSUPPORTED_TYPE: the type of `keys` is not
 * SEL_TYPE_UINT32, or the type of `values` is not SEL_TYPE_STRING_VIEW. SEL_ERROR_INDEX_OUT_OF_BOUNDS: a key that is
 * not null is out of bounds. */
sel_status sel_propagate_dictionary(
    const sel_column *keys,
    const sel_column *values,
    sel_column *out_keys,
    sel_column *out_values);

/* ---- Comparison, printing and parsing. ---- */

/* Returns in `equal` whether two columns have the same rows. It compares values, not types: 1 is equal to 1 in
 * columns of any integer types. Values in null slots are ignored. Does not allocate.
 * Errors: SEL_ERROR_NO_COLUMN: `of` or `other` is empty. Never returns SEL_ERROR_OUT_OF_MEMORY. */
sel_status sel_equal_rows(const sel_column *of, const sel_column *other, bool *equal);

/* Writes the rows as text, such as `[1,null,-3]`, without a terminating zero: as many bytes as fit into `out`.
 * Returns in `len` the number of bytes of the whole text. Strings are quoted as in JSON; binary is written as
 * `h"00ff"`, a list in brackets, a struct in parentheses.
 * Errors: SEL_ERROR_NO_COLUMN: `of` is empty. */
sel_status sel_print(const sel_column *of, uint8_t *out, size_t out_len, size_t *len);

/* Writes the type as text, such as `list<i64>`, without a terminating zero and without spaces: as many bytes as fit
 * into `out`. Returns in `len` the number of bytes of the whole text. `sel_parse` reads the types of at most 64
 * levels of children.
 * Errors: SEL_ERROR_NO_COLUMN: `of` is empty. */
sel_status sel_print_type(const sel_column *of, uint8_t *out, size_t out_len, size_t *len);

/* Returns in `out` the column of the type `dtype`, such as `struct<list<i8>,fixed<2,utf8>>`, with the rows of
 * `text`, in the format that `sel_print` writes. Both are UTF-8. Between tokens there may be white space as in JSON,
 * and strings may have all of JSON's escapes. The types are null, bool, i8 to i128, u8 to u128, binary (with
 * offsets), binview and utf8 (views), list<..>, fixed<n,..> and struct<..>.
 * Errors: SEL_ERROR_TYPE_SYNTAX: syntax error in `dtype`. SEL_ERROR_TEXT_LIMIT: the type has more than 64 levels of
 * children, or a list size of more than 4,294,967,295. SEL_ERROR_ROW_SYNTAX: `text` is not that of rows of any type.
 * SEL_ERROR_ROW_TYPE_MISMATCH: a value in `text` does not fit the type; values are compared with their types as they
 * end, so a list or struct of the wrong length comes after its values. SEL_ERROR_TEXT_LIMIT: the column exceeds a
 * size limit. After a syntax error `at` is the index of the first byte with which no type or no rows go on, or the
 * length if the text ends too soon; after SEL_ERROR_ROW_TYPE_MISMATCH it is the index of the first value that does
 * not fit; with any other status it is unchanged. */
sel_status sel_parse(
    const uint8_t *dtype,
    size_t dtype_len,
    const uint8_t *text,
    size_t text_len,
    size_t *at,
    sel_column *out);

/* ---- Children of lists and fields of structs. ---- */

/* Returns in `out` the child of a list column, including rows outside of the lists. The result shares the buffers of
 * `of`.
 * Errors: SEL_ERROR_NO_COLUMN: `of` is empty. SEL_ERROR_UNSUPPORTED_TYPE: its type is not SEL_TYPE_LIST or
 * SEL_TYPE_FIXED_SIZE_LIST. */
sel_status sel_child(const sel_column *of, sel_column *out);

/* Returns in `width` the list size of a column of fixed-size lists.
 * Errors: SEL_ERROR_NO_COLUMN: `of` is empty. SEL_ERROR_UNSUPPORTED_TYPE: its type is not SEL_TYPE_FIXED_SIZE_LIST.
 * Never returns SEL_ERROR_OUT_OF_MEMORY. */
sel_status sel_fixed_size_list_size(const sel_column *of, size_t *width);

/* Returns in `count` the number of fields of a struct column.
 * Errors: SEL_ERROR_NO_COLUMN: `of` is empty. SEL_ERROR_UNSUPPORTED_TYPE: its type is not SEL_TYPE_STRUCT. Never
 * returns SEL_ERROR_OUT_OF_MEMORY. */
sel_status sel_field_count(const sel_column *of, size_t *count);

/* Returns in `out` field `i` of a struct column, counted from 0. The result shares the buffers of `of`. A field's
 * value in a null struct is returned as stored.
 * Errors: SEL_ERROR_NO_COLUMN: `of` is empty. SEL_ERROR_INDEX_OUT_OF_BOUNDS: the column has no such field. */
sel_status sel_field(const sel_column *of, size_t i, sel_column *out);

#ifdef __cplusplus
}
#endif

#endif
