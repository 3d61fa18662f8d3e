/* Counts the allocations of a call and the most memory that is in use while it runs. Linked with build/libsel.a and with
 * -Wl,--wrap=malloc, realloc, calloc and free. Prints a line for each case: its name, the levels of its type, the allocations, the
 * bytes of the result, and the most bytes beyond those before the call. */
#include "../../c/wrapped.h"
#include "common.h"

#include <malloc.h>
#include <stdio.h>
#include <stdlib.h>
#include <string.h>

static size_t made = 0, in_use = 0, most = 0;

static void *counted(void *block) {
    made += 1;
    in_use += malloc_usable_size(block);
    most = in_use > most ? in_use : most;
    return block;
}

void *__wrap_malloc(size_t size) { return counted(__real_malloc(size)); }

void *__wrap_calloc(size_t count, size_t size) { return counted(__real_calloc(count, size)); }

/* A block that moves is in use twice until it is copied; one that grows or shrinks in place is not. */
void *__wrap_realloc(void *block, size_t size) {
    size_t before = malloc_usable_size(block);
    uintptr_t from = (uintptr_t)block;
    void *grown = __real_realloc(block, size);
    if (grown == NULL) {
        return NULL;
    }
    bool has_moved = (uintptr_t)grown != from;
    in_use -= has_moved ? 0 : before;
    counted(grown);
    in_use -= has_moved ? before : 0;
    return grown;
}

void __wrap_free(void *block) {
    in_use -= malloc_usable_size(block);
    __real_free(block);
}

enum { ROWS = 100000, ITEMS = 4 };

/* One bit for each of some rows; `of` of ten are set. */
static uint8_t *bits(size_t rows, uint32_t of) {
    uint8_t *made_bits = room(rows / 8 + 1, 1);
    for (size_t i = 0; i < rows; i += 1) {
        made_bits[i / 8] |= (uint8_t)((next() % 10 < of) << (i % 8));
    }
    return made_bits;
}

static void numbers(size_t rows, bool has_nulls, sel_column *out) {
    int64_t *values = room(rows, sizeof *values);
    uint8_t *valid = bits(rows, 8);
    for (size_t i = 0; i < rows; i += 1) {
        values[i] = next();
    }
    must(sel_int64_new(values, rows, valid, rows / 8 + 1, has_nulls, out));
    free(values);
    free(valid);
}

/* Lists of ITEMS rows each of a column, which is taken. */
static void lists(size_t rows, bool has_nulls, sel_column *child, sel_column *out) {
    int64_t *offsets = room(rows + 1, sizeof *offsets);
    uint8_t *valid = bits(rows, 8);
    for (size_t i = 0; i <= rows; i += 1) {
        offsets[i] = (int64_t)(i * ITEMS);
    }
    must(sel_list_new(offsets, rows + 1, valid, rows / 8 + 1, has_nulls, child, out));
    free(offsets);
    free(valid);
}

static void words(size_t rows, bool are_views, sel_column *out) {
    sel_bytes_ref *refs = room(rows, sizeof *refs);
    int64_t *offsets = room(rows + 1, sizeof *offsets);
    uint8_t *bytes = room(rows, 20);
    memset(bytes, 'x', rows * 20);
    if (are_views) {
        sel_view *views = room(rows, sizeof *views);
        for (size_t i = 0; i < rows; i += 1) {
            views[i] = (sel_view){20, 0x78787878, 0, (uint32_t)(20 * i)};
        }
        refs[0] = (sel_bytes_ref){bytes, rows * 20};
        must(sel_string_view_new(views, rows, refs, 1, SEL_ALL_VALID, out));
        free(views);
    } else {
        for (size_t i = 0; i <= rows; i += 1) {
            offsets[i] = (int64_t)(20 * i);
        }
        must(sel_binary_new(offsets, rows + 1, bytes, rows * 20, SEL_ALL_VALID, out));
    }
    free(refs);
    free(offsets);
    free(bytes);
}

/* ---- the columns ---- */

static void of_numbers(sel_column *out) { numbers(ROWS, false, out); }
static void of_nullable(sel_column *out) { numbers(ROWS, true, out); }
static void of_binary(sel_column *out) { words(ROWS, false, out); }
static void of_views(sel_column *out) { words(ROWS, true, out); }

static void of_struct(sel_column *out) {
    sel_column fields[2] = {{0}, {0}};
    numbers(ROWS, false, &fields[0]);
    numbers(ROWS, false, &fields[1]);
    must(sel_struct_new(ROWS, SEL_ALL_VALID, fields, 2, out));
}

static void of_fixed(sel_column *out) {
    sel_column child = {0};
    numbers((size_t)ROWS * ITEMS, false, &child);
    must(sel_fixed_size_list_new(ITEMS, ROWS, SEL_ALL_VALID, &child, out));
}

static void of_lists(sel_column *out) {
    sel_column child = {0};
    numbers((size_t)ROWS * ITEMS, false, &child);
    lists(ROWS, false, &child, out);
}

static void of_nullable_lists(sel_column *out) {
    sel_column child = {0};
    numbers((size_t)ROWS * ITEMS, true, &child);
    lists(ROWS, true, &child, out);
}

static void of_lists_of_lists(sel_column *out) {
    sel_column child = {0}, inner = {0};
    numbers((size_t)ROWS * ITEMS * ITEMS, false, &child);
    lists((size_t)ROWS * ITEMS, false, &child, &inner);
    lists(ROWS, false, &inner, out);
}

static const struct {
    const char *name;
    size_t levels;
    void (*make)(sel_column *out);
} columns[] = {
    {"i64", 1, of_numbers},
    {"i64 with nulls", 1, of_nullable},
    {"binary", 1, of_binary},
    {"utf8", 1, of_views},
    {"struct<i64,i64>", 2, of_struct},
    {"fixed<4,i64>", 2, of_fixed},
    {"list<i64>", 2, of_lists},
    {"list<i64> with nulls", 2, of_nullable_lists},
    {"list<list<i64>>", 3, of_lists_of_lists},
};

/* ---- the calls ---- */

static sel_column mask, indices;

static sel_status filtered(const sel_column *of, sel_column *out) { return sel_filter(of, &mask, out); }
static sel_status taken(const sel_column *of, sel_column *out) { return sel_take(of, &indices, out); }
static sel_status chosen(const sel_column *of, sel_column *out) { return sel_if_then_else(&mask, of, of, out); }

static const struct {
    const char *name;
    sel_status (*call)(const sel_column *of, sel_column *out);
} calls[] = {{"filter", filtered}, {"take", taken}, {"if_then_else", chosen}};

int main(void) {
    uint8_t *flags = bits(ROWS, 5);
    uint32_t *places = room(ROWS, sizeof *places);
    for (size_t i = 0; i < ROWS; i += 1) {
        places[i] = next() % ROWS;
    }
    must(sel_boolean_new(flags, ROWS / 8 + 1, ROWS, SEL_ALL_VALID, &mask));
    must(sel_uint32_new(places, ROWS, SEL_ALL_VALID, &indices));
    for (size_t i = 0; i < sizeof columns / sizeof *columns; i += 1) {
        sel_column of = {0};
        columns[i].make(&of);
        for (size_t k = 0; k < sizeof calls / sizeof *calls; k += 1) {
            sel_column out = {0};
            size_t before = in_use;
            made = 0;
            most = in_use;
            must(calls[k].call(&of, &out));
            printf("%s|%s|%zu|%zu|%zu|%zu\n", calls[k].name, columns[i].name, columns[i].levels, made, in_use - before, most - before);
            sel_free(&out);
        }
        sel_free(&of);
    }
    sel_free(&mask);
    sel_free(&indices);
    free(flags);
    free(places);
    return 0;
}
