/* Columns built from rows by the calls that make columns, in several layouts. Null slots have other values in every layout:
 * numbers, true, bytes (in a column of strings such as are not UTF-8), lists with items, structs with fields. */
#ifndef SEL_TESTS_LAYOUT_H
#define SEL_TESTS_LAYOUT_H

#include "notation.h"

/* How a column holds its rows, at every depth. */
struct layout {
    const char *name;
    size_t offset;              /* a slice from this row on of a longer column; 0: a column of its own */
    bool is_bare;               /* a column without null rows has no validity, nor null rows before or behind a slice */
};

enum { LAYOUT_COUNT = 6 };

/* The plain layout, and slices at the offsets 1, 7, 8, 63 and 64. It and those at 8 and 63 have a validity only where a row is null. */
extern const struct layout layouts[LAYOUT_COUNT];

/* Builds the column of the rows. Returns the status of the call that failed, or SEL_OK. */
sel_status build_column(const struct layout *layout, const struct rows *rows, sel_column *out);

/* Returns whether rows of the type have so many items that the plain layout is the only one for them. */
bool is_only_plain(const struct type *type);

/* Packs booleans into (len + 7) / 8 bytes, the lowest bit of a byte first; the bits past the last one are set. */
uint8_t *packed_bits(struct arena *arena, const struct value *booleans, size_t len);

#endif
