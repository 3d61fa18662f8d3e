/* What the kernels return, by their definitions over lists of rows, as plain as they can be written. */
#ifndef SEL_TESTS_RANDOM_MODEL_H
#define SEL_TESTS_RANDOM_MODEL_H

#include "../notation.h"

/* Rows one after another: values of any rows, copied. */
struct listing {
    struct arena *arena;
    size_t len, room;
    struct value *values;
};

/* Appends a value; null if it is NULL. */
void list_value(struct listing *listing, const struct value *value);

/* Returns the values as rows of the type, with their text. */
struct rows listed_rows(const struct listing *listing, const struct type *type);

/* Returns whether a boolean row is true, and not null. */
bool is_true(const struct value *value);

/* Returns the rows from `start` on. */
struct rows model_slice(struct arena *arena, const struct rows *rows, size_t start, size_t len);

/* Returns the rows whose boolean is true. */
struct rows model_filter(struct arena *arena, const struct rows *rows, const struct rows *mask);

/* Returns the rows at the indices; null for a null index. */
struct rows model_take(struct arena *arena, const struct rows *rows, const struct rows *indices);

/* Returns row k of `yes` where boolean k is true, else row k of `no`; a side that is broadcast has one row. */
struct rows model_choose(struct arena *arena, const struct rows *mask, const struct rows *yes, const struct rows *no, bool yes_is_broadcast, bool no_is_broadcast);

/* Returns the item at the index of each list, from the end if it is negative; null if the list is null or has none there. */
struct rows model_items(struct arena *arena, const struct rows *lists, const int64_t *indices, bool one_index);

/* Returns whether a list that is not null has no item at the index. */
bool model_is_out_of_bounds(const struct value *list, int64_t index);

/* Returns each row in a list of its own. */
struct rows model_unit_lists(struct arena *arena, const struct rows *rows);
struct rows model_reverse(struct arena *arena, const struct rows *rows);

/* Returns the lists between the offsets, or of `list_size` items each; where `valid` is given and false, null. */
struct rows model_lists(struct arena *arena, const struct type *type, const struct rows *items, const int64_t *offsets, const bool *valid, size_t len);

/* Returns the structs of these fields; where `valid` is given and false, null. */
struct rows model_structs(struct arena *arena, const struct rows *fields, size_t count, const bool *valid, size_t len);

#endif
