/* The arguments of a call, read from the fields of a line. */
#ifndef SEL_TESTS_ARGUMENTS_H
#define SEL_TESTS_ARGUMENTS_H

#include "lines.h"
#include "notation.h"

enum { MOST_COLUMNS = 8 };

struct arguments {
    struct arena *arena;
    const struct type *type;    /* what the fields of rows behind it are of; NULL if there is no such field */
    size_t column_count;        /* rows that are laid out as columns, in the order of the fields */
    struct rows columns[MOST_COLUMNS];
    size_t number_count;
    size_t numbers[2];
    int64_t index;
    bool flag;
    size_t offset_count;
    const int64_t *offsets;
    size_t bits_len;            /* a validity, that of picks or of indices; or the bits of a mask */
    const uint8_t *bits;
    bool has_bits;
    const uint32_t *indices;    /* those of `u32` rows; where one is null, an index that no column has */
    size_t width_count;
    const size_t *widths;
    size_t pick_count;
    const sel_row_ref *picks;
    const char *type_text;      /* texts of a type and of rows, as they are written in the line */
    const char *rows_text;
};

/* Reads the fields of a line behind the name of the call. `letters` has a letter for each:
 *   t  a type, of the fields of rows behind it
 *   r  rows of that type; M boolean, U `u32`, I `i64` and S `utf8` rows. A field may name its type: `TYPE ROWS`.
 *   c  any number of columns
 *   n  a number; i an index with a sign; f `true` or `false`
 *   o  offsets; v a validity, or nothing; w widths; p picks
 *   x  a text that may be that of a type; y a text that may be that of rows
 * Reports what is misspelled, and returns whether all could be read. */
bool read_arguments(struct arena *arena, const char *letters, const struct line *line, struct arguments *out);

#endif
