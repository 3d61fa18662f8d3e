/* Arrow arrays out, without a type: formats, releases, values in null slots; each allocation refused. */
#include "arrow_test.h"

#include <string.h>

static const uint8_t some_bits[2] = {0x6d, 0x01}; /* true at 0, 2, 3, 5, 6 and 8 */

static void exports_are_released(void) {
    const int64_t offsets[3] = {0, 1, 3};
    sel_column column = {0}, list = {0}, again = {0};
    struct ArrowArray array;
    struct ArrowSchema schema;
    CHECK(sel_export(&column, NULL, &array, &schema) == SEL_ERROR_NO_COLUMN && !array.release && !schema.release);
    const int64_t values[3] = {1, 2, 3};
    CHECK(sel_int64_new(values, 3, some_bits, 1, true, &column) == SEL_OK);
    CHECK(sel_list_new(offsets, 3, some_bits, 1, true, &column, &list) == SEL_OK);
    CHECK(sel_export(&list, NULL, &array, &schema) == SEL_OK && !strcmp(schema.format, "+L") && array.null_count == 1);
    CHECK(!strcmp(schema.children[0]->format, "l") && array.children[0]->length == 3);
    CHECK(sel_import(&array, &schema, &again, NULL) == SEL_OK && !array.release && schema.release);
    schema.release(&schema);
    CHECK(sel_len(&again) == 2 && sel_null_count(&again) == 1);
    sel_free(&again);
    sel_free(&list);
    const sel_int128 most = {UINT64_MAX, INT64_MAX}, ten = {10, 0};
    CHECK(sel_int128_new(&most, 1, some_bits, 0, false, &column) == SEL_OK);
    CHECK(sel_export(&column, NULL, &array, &schema) == SEL_ERROR_ARROW_RANGE && !array.release && !schema.release);
    CHECK(sel_int128_new(&ten, 1, some_bits, 0, false, &column) == SEL_OK);
    CHECK(sel_export(&column, NULL, &array, &schema) == SEL_OK && !strcmp(schema.format, "d:38,0,128"));
    array.release(&array);
    schema.release(&schema);
    CHECK(sel_uint128_new(&ten, 1, some_bits, 0, false, &column) == SEL_OK);
    CHECK(sel_export(&column, NULL, &array, &schema) == SEL_OK && !strcmp(schema.format, "w:16") && !memcmp(array.buffers[1], &ten, 16));
    CHECK(sel_import(&array, &schema, &again, NULL) == SEL_OK && sel_type_of(&again) == SEL_TYPE_UINT128);
    schema.release(&schema);
    sel_free(&again);
    CHECK(sel_null_new(3, &column) == SEL_OK && sel_export(&column, NULL, &array, &schema) == SEL_OK);
    CHECK(array.length == 3 && array.null_count == 3 && array.n_buffers == 0);
    array.release(&array);
    schema.release(&schema);
    sel_free(&column);
    sel_free(&column);
}

/* A column without the storage of its type is reported before a value out of range, in whatever order the fields are. */
static void storage_is_checked_before_values(void) {
    const sel_int128 most = {UINT64_MAX, INT64_MAX};
    const int64_t number = 1;
    struct ArrowArray array;
    struct ArrowSchema schema;
    for (int decimal_first = 0; decimal_first < 2; decimal_first++) {
        sel_column fields[2] = {{0}, {0}}, both = {0};
        sel_type children[2] = {{0}, {0}}, type = {0};
        CHECK(sel_int128_new(&most, 1, some_bits, 0, false, &fields[!decimal_first]) == SEL_OK);
        CHECK(sel_int64_new(&number, 1, some_bits, 0, false, &fields[decimal_first]) == SEL_OK);
        CHECK(sel_struct_new(1, some_bits, 0, false, fields, 2, &both) == SEL_OK);
        CHECK(sel_type_new("d:38,0", NULL, 0, &children[!decimal_first]) == SEL_OK && sel_type_new("u", NULL, 0, &children[decimal_first]) == SEL_OK);
        CHECK(sel_type_new("+s", children, 2, &type) == SEL_OK);
        CHECK(sel_export(&both, &type, &array, &schema) == SEL_ERROR_TYPE_MISMATCH && !array.release && !schema.release);
        CHECK(sel_export(&both, NULL, &array, &schema) == SEL_ERROR_ARROW_RANGE && !array.release && !schema.release);
        sel_free(&both);
        sel_type_free(&children[0]);
        sel_type_free(&children[1]);
        sel_type_free(&type);
    }
}

/* Decimals have at most 38 digits: their absolute value is below 10 to the 38th. */
static void decimals_have_38_digits(void) {
    static const uint64_t high = 0x4b3b4ca85a86c47a, low = 0x098a224000000000; /* 10 to the 38th */
    static const struct { sel_int128 value; sel_status status; } given[] = {
        {{low - 1, high}, SEL_OK}, {{low, high}, SEL_ERROR_ARROW_RANGE}, {{0, high + 1}, SEL_ERROR_ARROW_RANGE}, {{0, INT64_MAX}, SEL_ERROR_ARROW_RANGE},
        {{0 - low + 1, ~high}, SEL_OK}, {{0 - low, ~high}, SEL_ERROR_ARROW_RANGE}, {{UINT64_MAX, ~high - 1}, SEL_ERROR_ARROW_RANGE}, {{0, (uint64_t)1 << 63}, SEL_ERROR_ARROW_RANGE},
    };
    sel_column column = {0};
    for (size_t i = 0; i < sizeof given / sizeof *given; i++) {
        struct ArrowArray array;
        struct ArrowSchema schema;
        CHECK(sel_int128_new(&given[i].value, 1, SEL_ALL_VALID, &column) == SEL_OK);
        CHECK(sel_export(&column, NULL, &array, &schema) == given[i].status);
        if (array.release) array.release(&array), schema.release(&schema);
    }
    sel_free(&column);
}

/* A struct has the storage of a type only if it has as many fields. */
static void fields_are_counted(void) {
    struct ArrowArray array;
    struct ArrowSchema schema;
    sel_type field = {0}, type = {0};
    CHECK(sel_type_new("n", NULL, 0, &field) == SEL_OK);
    for (size_t count = 0; count <= 2; count++) {
        const sel_type fields[2] = {field, field};
        sel_column columns[1] = {{0}}, column = {0};
        CHECK(sel_null_new(3, &columns[0]) == SEL_OK && sel_struct_new(3, SEL_ALL_VALID, columns, 1, &column) == SEL_OK);
        CHECK(sel_type_new("+s", fields, count, &type) == SEL_OK);
        CHECK(sel_export(&column, &type, &array, &schema) == (count == 1 ? SEL_OK : SEL_ERROR_TYPE_MISMATCH));
        if (array.release) array.release(&array), schema.release(&schema);
        sel_free(&column);
    }
    sel_type_free(&field);
    sel_type_free(&type);
}

/* Fixed-size binary has the storage of lists of unsigned bytes alone. */
static void bytes_are_unsigned(void) {
    const int8_t bytes[2] = {1, 2};
    struct ArrowArray array;
    struct ArrowSchema schema;
    sel_column child = {0}, column = {0};
    sel_type type = {0};
    CHECK(sel_int8_new(bytes, 2, SEL_ALL_VALID, &child) == SEL_OK && sel_fixed_size_list_new(2, 1, SEL_ALL_VALID, &child, &column) == SEL_OK);
    CHECK(sel_type_new("w:2", NULL, 0, &type) == SEL_OK && sel_export(&column, &type, &array, &schema) == SEL_ERROR_TYPE_MISMATCH);
    sel_free(&column);
    sel_type_free(&type);
}

/* A null string takes no bytes in an export with offsets. */
static void null_strings_have_no_bytes(void) {
    static const sel_view views[3] = {{13, 0x64636261, 0, 0}, {2, 0x6261, 0, 0}, {1, 'a', 0, 0}};
    const sel_bytes_ref slice = {(const uint8_t *)"abcdefghijklm", 13};
    const uint8_t valid[1] = {4};
    struct ArrowArray array;
    struct ArrowSchema schema;
    sel_column column = {0};
    sel_type type = {0};
    CHECK(sel_string_view_new(views, 3, &slice, 1, valid, 1, true, &column) == SEL_OK && sel_type_new("u", NULL, 0, &type) == SEL_OK);
    CHECK(sel_export(&column, &type, &array, &schema) == SEL_OK);
    const int32_t *offsets = array.buffers[1];
    CHECK(offsets[0] == 0 && offsets[1] == 0 && offsets[2] == 0 && offsets[3] == 1);
    array.release(&array);
    schema.release(&schema);
    sel_free(&column);
    sel_type_free(&type);
}

/* Exports a column and checks the status; if it is SEL_OK, imports the arrays again and compares the rows. Returns the
 * values of the 128-bit integers that lie `depth` levels below. */
static void export_wide_below(sel_column *of, int depth, sel_status wanted, sel_int128 *values, size_t count) {
    struct ArrowArray array;
    struct ArrowSchema schema;
    sel_column again = {0};
    bool is_equal = false;
    CHECK(sel_export(of, NULL, &array, &schema) == wanted);
    if (wanted != SEL_OK) return;
    const struct ArrowArray *below = &array;
    for (int i = 0; i < depth; i++) below = below->children[0];
    CHECK((size_t)below->length == count && below->n_buffers == 2);
    memcpy(values, below->buffers[1], count * sizeof *values);
    CHECK(sel_import(&array, &schema, &again, NULL) == SEL_OK);
    CHECK(sel_equal_rows(of, &again, &is_equal) == SEL_OK && is_equal);
    schema.release(&schema);
    sel_free(&again);
}

static const sel_int128 too_long = {UINT64_MAX, INT64_MAX};

static bool is_wide(sel_int128 value, uint64_t low) { return value.low == low && value.high == 0; }

/* Makes three rows of 128-bit integers, of which only the second has at most 38 digits. */
static void make_wide(sel_column *out) {
    const sel_int128 rows[3] = {too_long, {10, 0}, too_long};
    CHECK(sel_int128_new(rows, 3, some_bits, 0, false, out) == SEL_OK);
}

static const uint8_t second_valid[1] = {2}, last_two_valid[1] = {6};
static const int64_t one_each[4] = {0, 1, 2, 3};

/* Makes a struct, a list or a fixed-size list over three 128-bit integers, one for each row; without a validity if `bits` is null. */
static void make_over(int kind, const uint8_t *bits, sel_column *child, sel_column *out) {
    if (kind == 0) CHECK(sel_struct_new(3, bits, 1, bits, child, 1, out) == SEL_OK);
    if (kind == 1) CHECK(sel_list_new(one_each, 4, bits, 1, bits, child, out) == SEL_OK);
    if (kind == 2) CHECK(sel_fixed_size_list_new(1, 3, bits, 1, bits, child, out) == SEL_OK);
}

/* The value in a null slot has no meaning: it is no error, and is not exported. */
static void values_in_null_slots_are_not_exported(void) {
    sel_column child = {0}, over = {0}, outer = {0}, part = {0};
    sel_int128 values[3];
    for (int kind = 0; kind < 3; kind++) {
        make_wide(&child);
        make_over(kind, second_valid, &child, &over);
        export_wide_below(&over, 1, SEL_OK, values, 3);
        CHECK(is_wide(values[0], 0) && is_wide(values[1], 10) && is_wide(values[2], 0));
        CHECK(sel_slice(&over, 1, 1, &part) == SEL_OK);
        export_wide_below(&part, 1, SEL_OK, values, 1);
        CHECK(is_wide(values[0], 10));
        make_wide(&child);
        make_over(kind, last_two_valid, &child, &over);
        export_wide_below(&over, 1, SEL_ERROR_ARROW_RANGE, values, 0);
        for (int inner = 0; inner < 6; inner++) {
            make_wide(&child);
            make_over(inner % 3, inner < 3 ? last_two_valid : NULL, &child, &over);
            make_over(kind, second_valid, &over, &outer);
            export_wide_below(&outer, 2, SEL_OK, values, 3);
            CHECK(is_wide(values[0], 0) && is_wide(values[1], 10) && is_wide(values[2], 0));
        }
    }
    sel_free(&over);
    sel_free(&outer);
    sel_free(&part);
}

/* The elements of two null lists, with an empty list and one of 20 elements between them. */
static void elements_of_null_lists_are_not_exported(void) {
    enum { HIDDEN = 21, SHOWN = 20, BEHIND = 3, ALL = HIDDEN + SHOWN + BEHIND };
    static const int64_t offsets[5] = {0, HIDDEN, HIDDEN, HIDDEN + SHOWN, ALL};
    static const uint8_t valid[1] = {0x06};
    sel_int128 rows[ALL], values[ALL];
    sel_column child = {0}, lists = {0};
    for (int i = 0; i < ALL; i++) rows[i] = i < HIDDEN || i >= HIDDEN + SHOWN ? too_long : (sel_int128){(uint64_t)i, 0};
    CHECK(sel_int128_new(rows, ALL, SEL_ALL_VALID, &child) == SEL_OK && sel_list_new(offsets, 5, valid, 1, true, &child, &lists) == SEL_OK);
    export_wide_below(&lists, 1, SEL_OK, values, ALL);
    for (uint64_t i = 0; i < ALL; i++) CHECK(is_wide(values[i], i < HIDDEN || i >= HIDDEN + SHOWN ? 0 : i));
    sel_free(&lists);
}

/* A view that a null struct hides is exported as an empty one. */
static void views_in_null_slots_are_cleared(void) {
    static const sel_view hidden[2] = {{13, 0x64636261, 0, 0}, {0, 0, 0, 7}}; /* of bytes in a buffer, and with bytes behind its own */
    static const sel_view empty = {0, 0, 0, 0}, letter = {1, 'a', 0, 0};
    const sel_bytes_ref slice = {(const uint8_t *)"abcdefghijklm", 13};
    for (int i = 0; i < 2; i++) {
        const sel_view views[3] = {hidden[i], letter, hidden[i]};
        sel_column child = {0}, over = {0};
        struct ArrowArray array;
        struct ArrowSchema schema;
        CHECK(sel_string_view_new(views, 3, &slice, 1, some_bits, 0, false, &child) == SEL_OK);
        make_over(0, second_valid, &child, &over);
        CHECK(sel_export(&over, NULL, &array, &schema) == SEL_OK);
        const sel_view *rows = array.children[0]->buffers[1];
        CHECK(!memcmp(&rows[0], &empty, 16) && !memcmp(&rows[1], &letter, 16) && !memcmp(&rows[2], &empty, 16));
        array.release(&array);
        schema.release(&schema);
        sel_free(&over);
    }
}

/* Tuples of a list of texts and a list of two numbers each. */
static void make_tree(sel_column *out) {
    const sel_view views[3] = {{1, 'a', 0, 0}, {13, 0x64636261, 0, 0}, {0, 0, 0, 0}};
    const sel_bytes_ref slice = {(const uint8_t *)"abcdefghijklm", 13};
    const int64_t offsets[3] = {0, 2, 3}, numbers[4] = {1, 2, 3, 4};
    sel_column texts = {0}, values = {0}, fields[2] = {{0}, {0}};
    CHECK(sel_string_view_new(views, 3, &slice, 1, some_bits, 1, true, &texts) == SEL_OK);
    CHECK(sel_list_new(offsets, 3, some_bits, 1, true, &texts, &fields[0]) == SEL_OK);
    CHECK(sel_int64_new(numbers, 4, some_bits, 0, false, &values) == SEL_OK);
    CHECK(sel_fixed_size_list_new(2, 2, some_bits, 1, true, &values, &fields[1]) == SEL_OK);
    CHECK(sel_struct_new(2, some_bits, 0, false, fields, 2, out) == SEL_OK);
}

/* Exports a column and imports it again. */
static sel_status go_around(void *of) {
    struct ArrowArray array;
    struct ArrowSchema schema;
    sel_column again = {0};
    sel_status status = sel_export(of, NULL, &array, &schema);
    if (status != SEL_OK) {
        CHECK(!array.release && !schema.release);
        return status;
    }
    status = sel_import(&array, &schema, &again, NULL);
    CHECK((status == SEL_OK) == (again.at != NULL) && (status == SEL_OK) == !array.release);
    if (status != SEL_OK) CHECK(sel_import(&array, &schema, &again, NULL) == SEL_OK && !array.release); /* tried again */
    schema.release(&schema);
    sel_free(&again);
    return status;
}

static void each_allocation_is_refused(void) {
    sel_column tree = {0};
    make_tree(&tree);
    refuse_each(go_around, &tree, "export and import");
    CHECK(sel_len(&tree) == 2);
    sel_free(&tree);
}

/* In more than 65,536 rows that may have nulls, these are not counted. */
static void nulls_of_few_rows_are_counted(void) {
    static int8_t values[65537];
    static uint8_t valid[8193];
    memset(valid, 0xff, sizeof valid);
    valid[0] = 0xf6;
    for (size_t len = 65535; len <= 65537; len++) {
        sel_column column = {0}, again = {0};
        struct ArrowArray array;
        struct ArrowSchema schema;
        for (int has_nulls = 0; has_nulls < 2; has_nulls++) {
            CHECK(sel_int8_new(values, len, valid, sizeof valid, has_nulls, &column) == SEL_OK);
            CHECK(sel_export(&column, NULL, &array, &schema) == SEL_OK && !array.buffers[0] == !has_nulls);
            CHECK(array.null_count == (!has_nulls ? 0 : len <= 65536 ? 2 : -1));
            CHECK(sel_import(&array, &schema, &again, NULL) == SEL_OK && sel_null_count(&again) == (has_nulls ? 2 : 0));
            schema.release(&schema);
            sel_free(&again);
        }
        sel_free(&column);
    }
}

void test_exports(void) {
    exports_are_released();
    nulls_of_few_rows_are_counted();
    storage_is_checked_before_values();
    decimals_have_38_digits();
    fields_are_counted();
    bytes_are_unsigned();
    null_strings_have_no_bytes();
    values_in_null_slots_are_not_exported();
    elements_of_null_lists_are_not_exported();
    views_in_null_slots_are_cleared();
    each_allocation_is_refused();
}
