/* Arrow arrays in, level by level: numbers, bits, binary, strings and views; each error. Run under valgrind. */
#include "arrow_test.h"

#include <stdio.h>
#include <string.h>

/* Imports one level with a null count, and returns the status. The array is moved if the import succeeds, and only then;
 * test_lease.c has the tests of when it is released. */
static sel_status import_nulls(const char *format, int64_t length, int64_t offset, int64_t nulls, int64_t n_buffers, const void **buffers, sel_column *out) {
    struct ArrowArray array = {.length = length, .null_count = nulls, .offset = offset, .n_buffers = n_buffers, .buffers = buffers, .release = release_array};
    struct ArrowSchema schema = type_of_format(format);
    sel_status status = sel_import(&array, &schema, out, NULL);
    CHECK(status == SEL_OK ? !array.release : array.release == release_array);
    return status;
}

static sel_status import(const char *format, int64_t length, int64_t offset, int64_t n_buffers, const void **buffers, sel_column *out) {
    return import_nulls(format, length, offset, -1, n_buffers, buffers, out);
}

/* An import that is refused so, and leaves `out` as it was. */
static void refuses(sel_status status, const char *format, int64_t length, int64_t offset, int64_t n_buffers, const void **buffers) {
    sel_column out = {0};
    sel_status answer = import(format, length, offset, n_buffers, buffers, &out);
    if (answer != status) printf("format %s: %u, not %u\n", format, answer, status);
    CHECK(answer == status && !out.at);
    sel_free(&out);
}

static const uint8_t some_bits[2] = {0x6d, 0x01}; /* true at 0, 2, 3, 5, 6 and 8 */
static const uint8_t some_text[] = "abcdefgh";

static void numbers_come_in(void) {
    const int32_t values[4] = {7, 8, -9, 10};
    const void *buffers[2] = {some_bits, values};
    int32_t rows[3];
    uint8_t bits = 0;
    bool has = false;
    sel_column column = {0};
    CHECK(import("i", 3, 1, 2, buffers, &column) == SEL_OK);
    CHECK(sel_type_of(&column) == SEL_TYPE_INT32 && sel_len(&column) == 3 && sel_null_count(&column) == 1);
    CHECK(sel_int32_values(&column, rows, 3) == SEL_OK && rows[1] == -9 && rows[2] == 10);
    CHECK(sel_validity(&column, &bits, 1, &has) == SEL_OK && has && (bits & 7) == 6);
    sel_free(&column);
    CHECK(import("i", 0, 0, 2, buffers, &column) == SEL_OK && sel_len(&column) == 0);
    sel_free(&column);
}

static void numbers_that_are_not_aligned_come_in(void) {
    char room[33];
    const int64_t values[4] = {1, 2, 3, 4};
    int64_t rows[4];
    memcpy(room + 1, values, sizeof values);
    const void *buffers[2] = {NULL, room + 1};
    sel_column column = {0};
    CHECK(import("l", 4, 0, 2, buffers, &column) == SEL_OK);
    CHECK(sel_int64_values(&column, rows, 4) == SEL_OK && !memcmp(rows, values, sizeof rows));
    sel_int128 wide[2];
    CHECK(import("d:38,0", 2, 0, 2, buffers, &column) == SEL_OK);
    CHECK(sel_int128_values(&column, wide, 2) == SEL_OK && !memcmp(wide, values, sizeof wide));
    sel_free(&column);
}

static void truth_values_come_in(void) {
    const void *buffers[2] = {NULL, some_bits};
    uint8_t bits = 0;
    sel_column column = {0};
    CHECK(import("b", 6, 3, 2, buffers, &column) == SEL_OK && sel_type_of(&column) == SEL_TYPE_BOOLEAN);
    CHECK(sel_boolean_values(&column, &bits, 1) == SEL_OK && (bits & 0x3f) == 0x2d);
    sel_free(&column);
}

static void bytes_and_texts_come_in(void) {
    const int32_t narrow[4] = {2, 4, 4, 8};
    const int64_t wide[4] = {2, 4, 4, 8};
    const void *short_ones[3] = {NULL, narrow, some_text}, *long_ones[3] = {NULL, wide, some_text};
    int64_t offsets[3];
    uint8_t bytes[8];
    size_t len = 0;
    for (int i = 0; i < 2; i++) {
        sel_column column = {0};
        CHECK(import(i ? "Z" : "z", 2, 1, 3, i ? long_ones : short_ones, &column) == SEL_OK && sel_type_of(&column) == SEL_TYPE_BINARY);
        CHECK(sel_offsets(&column, offsets, 3) == SEL_OK && offsets[2] - offsets[1] == 4);
        CHECK(sel_bytes_len(&column, &len) == SEL_OK && len <= sizeof bytes && sel_bytes(&column, bytes, len) == SEL_OK);
        CHECK(!memcmp(bytes + offsets[1], "efgh", 4));
        sel_free(&column);
        CHECK(import(i ? "U" : "u", 2, 1, 3, i ? long_ones : short_ones, &column) == SEL_OK && sel_type_of(&column) == SEL_TYPE_STRING_VIEW);
        sel_view views[2];
        CHECK(sel_views(&column, views, 2) == SEL_OK && views[1].length == 4 && !memcmp(&views[1].prefix, "efgh", 4));
        sel_free(&column);
    }
}

static void leaves_are_refused(void) {
    const int64_t values[4] = {1, 2, 3, 4}, falling[4] = {0, 4, 2, 8}, below[4] = {-1, 0, 1, 2};
    const void *two[2] = {NULL, values}, *missing[2] = {NULL, NULL};
    const void *fall[3] = {NULL, falling, some_text}, *negative[3] = {NULL, below, some_text}, *no_bytes[3] = {NULL, values, NULL};
    const char *const unknown[] = {"", "x", "d:38", "d:38,0,255", "td", "tsu", "w:", "+x", "+us:0", "+ud:0,1", "+v", "vx", "ll", "ee", "tdd", "tsx:"};
    for (size_t i = 0; i < sizeof unknown / sizeof *unknown; i++) refuses(SEL_ERROR_ARROW_FORMAT, unknown[i], 2, 0, 2, two);
    refuses(SEL_ERROR_ARROW_LENGTH, "l", -1, 0, 2, two);
    refuses(SEL_ERROR_ARROW_LENGTH, "l", 1, -1, 2, two);
    refuses(SEL_ERROR_TOO_MANY_ROWS, "l", INT64_MAX, INT64_MAX, 2, two);
    refuses(SEL_ERROR_TOO_MANY_ROWS, "l", (int64_t)UINT32_MAX + 1, 0, 2, two);
    refuses(SEL_ERROR_TOO_MANY_ROWS, "b", (int64_t)UINT32_MAX + 1, 0, 2, two);
    refuses(SEL_ERROR_ARROW_BUFFERS, "vu", 1, 0, INT64_MIN, two);
    refuses(SEL_ERROR_ARROW_BUFFERS, "vz", 1, 0, INT64_MIN + 2, two);
    refuses(SEL_ERROR_ARROW_BUFFERS, "l", 2, 0, 1, two);
    refuses(SEL_ERROR_ARROW_BUFFERS, "l", 2, 0, 3, two);
    refuses(SEL_ERROR_ARROW_BUFFERS, "l", 2, 0, 2, missing);
    refuses(SEL_ERROR_ARROW_BUFFERS, "l", 2, 0, 2, NULL);
    refuses(SEL_ERROR_DECREASING_OFFSET, "Z", 3, 0, 3, fall);
    refuses(SEL_ERROR_DECREASING_OFFSET, "U", 3, 0, 3, fall);
    refuses(SEL_ERROR_NEGATIVE_OFFSET, "Z", 3, 0, 3, negative);
    refuses(SEL_ERROR_ARROW_BUFFERS, "Z", 3, 0, 3, no_bytes);
    refuses(SEL_ERROR_ARROW_BUFFERS, "vz", 0, 0, 2, two);
    struct ArrowSchema schema = type_of_format("l");
    struct ArrowArray gone = {.release = NULL};
    sel_column out = {0};
    CHECK(sel_import(&gone, &schema, &out, NULL) == SEL_ERROR_ARROW_RELEASED && !out.at);
}

static void views_are_refused(void) {
    const sel_view beyond = {13, 0x64636261, 0, 1}, other = {13, 0x64636261, 1, 0}, prefix = {13, 0, 0, 0};
    const int64_t lengths = 13, negative = -1;
    const uint8_t not_text[13] = {0xff};
    const sel_view bad_text = {1, 0xff, 0, 0};
    const void *buffers[4] = {NULL, &beyond, "abcdefghijklm", &lengths};
    refuses(SEL_ERROR_VIEW_RANGE, "vz", 1, 0, 4, buffers);
    buffers[1] = &other;
    refuses(SEL_ERROR_VIEW_RANGE, "vz", 1, 0, 4, buffers);
    buffers[1] = &prefix;
    refuses(SEL_ERROR_VIEW_PREFIX, "vz", 1, 0, 4, buffers);
    buffers[1] = &bad_text;
    refuses(SEL_ERROR_INVALID_UTF8, "vu", 1, 0, 4, buffers);
    buffers[3] = &negative;
    refuses(SEL_ERROR_ARROW_LENGTH, "vz", 1, 0, 4, buffers);
    buffers[3] = NULL;
    refuses(SEL_ERROR_ARROW_BUFFERS, "vz", 1, 0, 4, buffers);
    const int32_t offsets[2] = {0, 1};
    const void *text[3] = {NULL, offsets, not_text};
    refuses(SEL_ERROR_INVALID_UTF8, "u", 1, 0, 3, text);
}

/* A null count that is known is compared with the validity. */
static void null_counts_are_checked(void) {
    const int64_t values[4] = {1, 2, 3, 4};
    const void *buffers[2] = {some_bits, values}, *all_valid[2] = {NULL, values}; /* of the first four rows one is null */
    sel_column column = {0};
    for (int64_t nulls = -1; nulls <= 4; nulls++) {
        bool is_right = nulls <= 1;
        CHECK(import_nulls("l", 4, 0, nulls, 2, buffers, &column) == (is_right ? SEL_OK : SEL_ERROR_ARROW_LENGTH));
        if (is_right) CHECK(sel_null_count(&column) == (nulls == 0 ? 0 : 1));
        CHECK(import_nulls("l", 4, 0, nulls, 2, all_valid, &column) == (nulls <= 0 ? SEL_OK : SEL_ERROR_ARROW_LENGTH));
        /* two rows behind the second, of which none is null */
        if (nulls <= 2) CHECK(import_nulls("l", 2, 2, nulls, 2, buffers, &column) == (nulls <= 0 ? SEL_OK : SEL_ERROR_ARROW_LENGTH));
    }
    sel_free(&column);
}

/* A view in a null slot may be any bytes. */
static void views_in_null_slots_are_not_read(void) {
    const sel_view wild = {UINT32_MAX, 0x64636261, 7, UINT32_MAX}, bad_text = {2, 0xffff, 0, 0}, letter = {1, 'a', 0, 0};
    const sel_view rows[9] = {letter, wild, letter, letter, bad_text, letter, letter, wild, letter}; /* null where wild or bad */
    char unaligned[1 + sizeof rows];
    memcpy(unaligned + 1, rows, sizeof rows);
    for (int i = 0; i < 2; i++) {
        const void *buffers[3] = {some_bits, i ? (const void *)(unaligned + 1) : rows, NULL};
        sel_column column = {0};
        sel_view out[9];
        CHECK(import("vu", 9, 0, 3, buffers, &column) == SEL_OK && sel_null_count(&column) == 3);
        CHECK(sel_views(&column, out, 9) == SEL_OK && !memcmp(&out[8], &letter, 16) && out[1].length == 0 && out[4].length == 0);
        CHECK(import_nulls("vu", 9, 0, 0, 3, buffers, &column) == SEL_ERROR_VIEW_RANGE);
        sel_free(&column);
    }
}

/* The length and the offset together may be 4,294,967,295. */
static void most_rows_come_in(void) {
    sel_column column = {0};
    CHECK(import("n", (int64_t)UINT32_MAX - 5, 5, 0, NULL, &column) == SEL_OK && sel_len(&column) == UINT32_MAX - 5);
    CHECK(import("n", UINT32_MAX, 0, 0, NULL, &column) == SEL_OK && sel_null_count(&column) == UINT32_MAX);
    refuses(SEL_ERROR_TOO_MANY_ROWS, "n", UINT32_MAX, 1, 0, NULL);
    sel_free(&column);
}

static void strings_of_statuses(void) {
    for (int status = SEL_ERROR_ARROW_RELEASED; status <= SEL_ERROR_ARROW_STREAM; status++)
        CHECK((strcmp(sel_status_string((sel_status)status), "unknown status") == 0) == (status == 70));
    CHECK(!strcmp(sel_status_string(SEL_ERROR_ARROW_FORMAT), "unsupported Arrow format"));
}

void test_imports(void) {
    numbers_come_in();
    numbers_that_are_not_aligned_come_in();
    truth_values_come_in();
    bytes_and_texts_come_in();
    leaves_are_refused();
    views_are_refused();
    null_counts_are_checked();
    most_rows_come_in();
    views_in_null_slots_are_not_read();
    strings_of_statuses();
}
