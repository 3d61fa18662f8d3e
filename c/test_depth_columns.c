/* Columns of up to 128 levels for test_depth.c, and checks of the rows of results. */
#include "test_depth.h"

#include <string.h>

/* The types of levels 3k, 3k + 1 and 3k + 2. */
static const sel_type_id shapes[][3] = {
    {SEL_TYPE_LIST, SEL_TYPE_LIST, SEL_TYPE_LIST},
    {SEL_TYPE_FIXED_SIZE_LIST, SEL_TYPE_FIXED_SIZE_LIST, SEL_TYPE_FIXED_SIZE_LIST},
    {SEL_TYPE_STRUCT, SEL_TYPE_STRUCT, SEL_TYPE_STRUCT},
    {SEL_TYPE_LIST, SEL_TYPE_FIXED_SIZE_LIST, SEL_TYPE_STRUCT},
    {SEL_TYPE_FIXED_SIZE_LIST, SEL_TYPE_STRUCT, SEL_TYPE_LIST},
    {SEL_TYPE_STRUCT, SEL_TYPE_LIST, SEL_TYPE_FIXED_SIZE_LIST},
};
_Static_assert(sizeof shapes / sizeof *shapes == SHAPES, "a shape for each number");

size_t shape;
sel_column pair[2], turned, below, leaf, mask, places;
sel_column *const deep = &pair[0], *const one = &pair[1];

sel_type_id type_of_level(size_t level) { return shapes[shape][level % 3]; }

/* ---- texts ---- */

static char wanted[ROOM], found[ROOM];

static void append(char *text, const char *more) {
    size_t len = strlen(text), more_len = strlen(more);
    if (len + more_len < ROOM) {
        memcpy(text + len, more, more_len + 1);
    }
}

/* Appends one row: its number is that of the leaf's row, or NONE for a null. */
static void append_row(char *text, size_t levels, int row) {
    static const char *const leaves[LEN] = {"7", "null", "9"}, *const opened[LEN] = {"(1,", "(2,", "(3,"};
    if (row == NONE) {
        append(text, "null");
        return;
    }
    for (size_t level = levels; level > 0; level -= 1) {
        append(text, type_of_level(level) == SEL_TYPE_STRUCT ? opened[row] : "[");
    }
    append(text, leaves[row]);
    for (size_t level = 1; level <= levels; level += 1) {
        append(text, type_of_level(level) == SEL_TYPE_STRUCT ? ")" : "]");
    }
}

void write_rows(char *text, size_t levels, const int *rows, size_t len) {
    text[0] = 0;
    append(text, "[");
    for (size_t i = 0; i < len; i += 1) {
        append(text, i > 0 ? "," : "");
        append_row(text, levels, rows[i]);
    }
    append(text, "]");
}

void write_type(char *text, size_t levels) {
    text[0] = 0;
    for (size_t level = levels; level > 0; level -= 1) {
        sel_type_id type = type_of_level(level);
        append(text, type == SEL_TYPE_LIST ? "list<" : type == SEL_TYPE_STRUCT ? "struct<i8," : "fixed<1,");
    }
    append(text, "i64");
    for (size_t level = levels; level > 0; level -= 1) {
        append(text, ">");
    }
}

void shows(const sel_column *column, size_t levels, const int *rows, size_t len, const char *file, int line) {
    size_t size = 0;
    write_rows(wanted, levels, rows, len);
    sel_status status = sel_print(column, (uint8_t *)found, sizeof found, &size);
    bool is_wanted = status != SEL_OK || (size == strlen(wanted) && memcmp(found, wanted, size) == 0);
    is_at(done(status) && is_wanted, wanted, file, line);
}

void makes(sel_status status, sel_column *out, size_t levels, const int *rows, size_t len, const char *file, int line) {
    is_at(done(status) && (status == SEL_OK) == (out->at != NULL), "the status of a result", file, line);
    if (status == SEL_OK) {
        shows(out, levels, rows, len, file, line);
    }
    sel_free(out);
}

/* ---- columns ---- */

const int64_t one_each[LEN + 1] = {0, 1, 2, 3};
const int8_t numbers[LEN] = {1, 2, 3};

sel_status add_level(sel_type_id type, bool has_null, sel_column *fields, sel_column *out) {
    const uint8_t bits[1] = {3};
    if (type == SEL_TYPE_LIST) {
        return sel_list_new(one_each, LEN + 1, bits, 1, has_null, &fields[1], out);
    }
    if (type == SEL_TYPE_FIXED_SIZE_LIST) {
        return sel_fixed_size_list_new(1, LEN, bits, 1, has_null, &fields[1], out);
    }
    return sel_struct_new(LEN, bits, 1, has_null, fields, 2, out);
}

void make_leaf(sel_column *out) {
    const int64_t values[LEN] = {7, 8, 9};
    const uint8_t bits[1] = {5};
    DONE(sel_int64_new(values, LEN, bits, 1, true, out));
}

static void make_levels(size_t levels, sel_column *out) {
    sel_column fields[2] = {{0}, {0}};
    make_leaf(out);
    for (size_t level = 1; level <= levels; level += 1) {
        fields[1] = *out;
        out->at = NULL;
        if (fields[0].at == NULL) {
            DONE(sel_int8_new(numbers, LEN, SEL_ALL_VALID, &fields[0]));
        }
        DONE(add_level(type_of_level(level), level == MOST, fields, out));
    }
    sel_free(&fields[0]);
}

void make_columns(void) {
    const uint32_t rows[LEN] = {1, 2, 0}, indices[LEN] = {2, 0, 0};
    const uint8_t bits[1] = {3}, flags[1] = {5};
    make_levels(MOST, deep);
    make_levels(MOST - 1, &below);
    make_leaf(&leaf);
    DONE(sel_take_rows(deep, rows, LEN, SEL_ALL_VALID, &turned));
    DONE(sel_slice(deep, 0, 1, one));
    DONE(sel_boolean_new(flags, 1, LEN, SEL_ALL_VALID, &mask));
    DONE(sel_uint32_new(indices, LEN, bits, 1, true, &places));
    SHOWS(deep, MOST, 0, 1, NONE);
    SHOWS(&below, MOST - 1, 0, 1, 2);
    SHOWS(&turned, MOST, 1, NONE, 0);
}

void free_columns(void) {
    sel_free(deep);
    sel_free(one);
    sel_free(&turned);
    sel_free(&below);
    sel_free(&leaf);
    sel_free(&mask);
    sel_free(&places);
}
