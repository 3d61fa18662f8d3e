/* Types and rows by chance, and columns of them in layouts by chance. */
#ifndef SEL_TESTS_RANDOM_GENERATE_H
#define SEL_TESTS_RANDOM_GENERATE_H

#include "../notation.h"
#include "draw.h"

/* Returns a type with at most so many levels of lists and structs. */
const struct type *draw_type(struct draws *draws, struct arena *arena, size_t levels);

/* Returns a number of rows: mostly few, sometimes some words of bits. */
size_t draw_len(struct draws *draws, const struct type *type);

/* Returns `len` rows of the type; one in `nulls` is null, none if `nulls` is 0. */
struct rows draw_rows(struct draws *draws, struct arena *arena, const struct type *type, size_t len, size_t nulls);

/* Returns `len` booleans of which about `kept` in 16 are true, one by one or in runs; one in `nulls` is null. */
struct rows draw_mask(struct draws *draws, struct arena *arena, size_t len, size_t nulls);

/* Returns `len` indices below `below` of type `u32`; one in `nulls` is null, all of them if `below` is 0. */
struct rows draw_indices(struct draws *draws, struct arena *arena, size_t len, size_t below, size_t nulls);

/* Builds the column of rows in one of the layouts. Ends the program if there is no memory. */
sel_column draw_column(struct draws *draws, const struct rows *rows);

#endif
