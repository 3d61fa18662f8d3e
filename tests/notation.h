/* Types and rows of the notation, read into trees of values. This reader shares nothing with sel_parse. It reads what
 * sel_print writes and nothing else: without spaces, and with one spelling for each value. */
#ifndef SEL_TESTS_NOTATION_H
#define SEL_TESTS_NOTATION_H

#include "memory.h"
#include "sel.h"

/* The type of a column. */
struct type {
    sel_type_id kind;
    size_t list_size;            /* of fixed-size lists */
    size_t count;                /* one child for lists, a child for each field of a struct, else none */
    const struct type *children;
};

/* A row, or an item of one. */
struct value {
    bool is_null;
    uint64_t low, high;          /* a number in two's complement of 128 bits; a boolean is 0 or 1 */
    size_t len;                  /* of the bytes of a binary value or a string, or of the items */
    const uint8_t *bytes;
    const struct value *items;   /* of a list or a struct */
    const char *text;            /* how it is written */
    size_t text_len;
};

/* Rows of one type. */
struct rows {
    const struct type *type;
    size_t len;
    const struct value *values;
    const char *text;
};

/* Why a text could not be read. */
struct misread {
    const char *reason;
    size_t at;
};

/* Reads a type, such as `struct<list<i8>,fixed<2,utf8>>`. Returns NULL if it is none. */
const struct type *read_type(struct arena *arena, const char *text, struct misread *why);

/* Reads rows of the type, such as `[[1,null],null]`. Returns whether they are rows of the type. */
bool read_rows(struct arena *arena, const struct type *type, const char *text, struct rows *out, struct misread *why);

/* Returns the text of a type. */
const char *type_text(struct arena *arena, const struct type *type);

/* Returns the type of lists of `child`: fixed-size lists of `list_size` items if the kind says so. */
const struct type *list_type(struct arena *arena, sel_type_id kind, size_t list_size, const struct type *child);

/* Returns the type without children of this kind. */
const struct type *leaf_type(sel_type_id kind);

/* Returns how many of the rows are null. */
size_t null_count(const struct rows *rows);

/* Reads a decimal number of at most 64 bits that is all of the text. Returns whether it is one. */
bool read_size(const char *text, size_t *out);

/* The same, with a sign. */
bool read_index(const char *text, int64_t *out);

#endif
