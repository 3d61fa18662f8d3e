/* What the tests of columns of 128 levels share: the columns, and checks of the rows of results. */
#ifndef SEL_TEST_DEPTH_H
#define SEL_TEST_DEPTH_H

#include "sel_arrow.h"
#include "test.h"

enum { MOST = 128, PARSED = 64, LEN = 3, ROOM = 8192, NONE = -1 };

/* test_depth_columns.c */

/* The shapes are numbered from 0 to SHAPES - 1: lists, fixed-size lists and structs, alone and mixed. `shape` is the one that is tested. */
enum { SHAPES = 6 };
extern size_t shape;

/* Columns of this shape. `deep` has 128 levels and its last row is null, `one` is its first row, and `turned` has its rows in another
 * order; `below` has 127 levels, `leaf` none. `pair` has `deep` and `one`. */
extern sel_column pair[2], turned, below, leaf, mask, places;
extern sel_column *const deep, *const one;

void make_columns(void);
void free_columns(void);

/* Returns the type of a level; the leaf is below level 1. */
sel_type_id type_of_level(size_t level);

/* Offsets of lists of one row each, and values of a field. */
extern const int64_t one_each[LEN + 1];
extern const int8_t numbers[LEN];

/* Adds a level to fields[1]; that of a struct has the field fields[0] too. The last row is null with `has_null`. */
sel_status add_level(sel_type_id type, bool has_null, sel_column *fields, sel_column *out);

/* Makes a column of the leaf's rows. */
void make_leaf(sel_column *out);

/* Write the rows and the type of a column of this shape to ROOM bytes. The number of a row is that of the leaf's row, or NONE for a null. */
void write_rows(char *text, size_t levels, const int *rows, size_t len);
void write_type(char *text, size_t levels);

/* Checks the rows of a column. */
void shows(const sel_column *column, size_t levels, const int *rows, size_t len, const char *file, int line);

/* Checks the status of a call and the rows of its result, which is freed. */
void makes(sel_status status, sel_column *out, size_t levels, const int *rows, size_t len, const char *file, int line);

#define ROWS(...) (const int[]){__VA_ARGS__}, sizeof((const int[]){__VA_ARGS__}) / sizeof(int)
#define SHOWS(column, levels, ...) shows((column), (levels), ROWS(__VA_ARGS__), __FILE__, __LINE__)
#define MAKES(call, levels, ...) makes((call), &out, (levels), ROWS(__VA_ARGS__), __FILE__, __LINE__)
#define FAILS(call, status) IS(gives((call), (status)))
#define UNSUPPORTED(call) FAILS(call, SEL_ERROR_UNSUPPORTED_TYPE)

/* test_depth_calls.c */
void test_values(void);
void test_properties(void);
void test_children(void);
void test_parts(void);
void test_prepared_masks(void);
void test_selections(void);
void test_choices_of_deep_columns(void);
void test_elements(void);
void test_several_columns(void);
void test_comparison(void);
void test_type_text(void);
void test_parsing(void);
void test_leaves(void);

/* test_depth_arrow.c */
void test_arrow(void);
void test_types_of_levels(void);
void test_dictionary_of_levels(void);
void test_stream_of_levels(void);

/* test_depth_makers.c */
void test_level_129(void);
void test_unit_list_of_127_levels(void);
void test_flat_children(void);
void test_deep_lists(void);
void test_deep_fixed_size_lists(void);
void test_deep_structs(void);

#endif
