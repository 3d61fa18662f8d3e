/* What the files of the Arrow C Data Interface share: limits, formats, logical types, and one level of an array that is imported or
 * exported.
 *
 * arrow_format.c: the formats and the storage of each. arrow_type.c: logical types; arrow_schema.c: to and from schemas;
 * arrow_text.c: as text. arrow_import.c: the tree of an array and its checks; arrow_lend.c: a column over the buffers of one level, which
 * are lent (arrow_lease.c); arrow_import_level.c: a column of buffers that cannot be lent;
 * arrow_convert.c: list views and runs, which become lists and values by a take. arrow_export.c: the tree of a column;
 * arrow_export_level.c: the buffers of one level of a column; arrow_share.c: those that are shared, and values that callers borrow.
 * arrow_dictionary.c: dictionaries. arrow_stream.c: streams. */
#ifndef SEL_ARROW_INTERNAL_H
#define SEL_ARROW_INTERNAL_H

#include "arrow_lease.h"

#include <limits.h>
#include <stdatomic.h>

/* The most levels of lists and structs of a column, and of a schema with its dictionaries. */
enum { MAX_LEVELS = 128 };

/* The most rows of a column, with those before its offset; a 32-bit index reaches each of them. */
#define MAX_ROWS UINT32_MAX

/* The most buffers and children of an array: the indices of both are signed 32-bit integers. */
#define MAX_COUNT INT32_MAX

typedef struct ArrowArray Array;
typedef struct ArrowSchema Schema;

static inline size_t bytes_of_bits(size_t len) { return len / 8 + (len % 8 != 0); }

static inline bool bit_at(const uint8_t *bits, size_t i) { return bits[i / 8] >> (i % 8) & 1; }

static inline void set_bit(uint8_t *bits, size_t i) { bits[i / 8] |= (uint8_t)(1u << (i % 8)); }

/* Returns the 12 bytes of a view behind its length, which are those of a short value. */
static inline uint8_t *bytes_in_view(const sel_view *view) { return (uint8_t *)view + sizeof view->length; }

/* An empty slice still has a pointer that is not null and is aligned. */
extern const int64_t sel_arrow_nothing[2];

/* ---- arrow_format.c */

/* The layouts of Arrow that are imported. */
enum layout { NO_LAYOUT, NULLS, BITS, NUMBERS, FIXED_BYTES, OFFSET_BYTES, VIEWS, LISTS, LIST_VIEWS, FIXED_LISTS, STRUCTS, RUNS };

/* A format that is understood. */
typedef struct format {
    enum layout layout;
    sel_type_id storage; /* the type of the column of this level; of runs, none */
    size_t width;        /* the bytes of a value, or the list size of fixed-size lists */
    bool wide;           /* the offsets have 64 bits */
    bool is_decimal, is_map;
} format;

/* Reads a format. The metadata of its field decides whether 16 bytes are an unsigned integer.
 * Errors: SEL_ERROR_ARROW_FORMAT, SEL_ERROR_LIST_SIZE. */
sel_status sel_arrow_read_format(const char *text, const char *metadata, format *out);

/* Tests whether a column of this layout has more levels than one. */
bool sel_arrow_is_nested(enum layout layout);

/* Tests whether two formats are equal, whether or not those of decimals say that they have 128 bits. */
bool sel_arrow_is_equal_format(const char *a, const char *b);

/* Tests whether two formats have one logical type: equal ones, and strings, binary or lists with
 * offsets of several widths. */
bool sel_arrow_is_same_format(const char *a, const char *b);

/* Returns in `len` the number of bytes of metadata. SEL_ERROR_ARROW_LENGTH if a count in it is negative. */
sel_status sel_arrow_metadata_len(const char *metadata, size_t *len);

/* Returns the value of a key of metadata and its length, or NULL if it has none. */
const char *sel_arrow_metadata_value(const char *metadata, const char *key, size_t *len);

/* Tests whether metadata names an extension type. */
bool sel_arrow_has_extension(const char *metadata);

/* The metadata of unsigned 128-bit integers: the extension name sel.uint128. */
const char *sel_arrow_uint128_metadata(void);

/* ---- arrow_type.c */

/* A level of a logical type: a field of a schema, as it is exported. Shared by an atomic count, and never changed once it is shared. */
typedef struct node {
    atomic_size_t count;
    char *text, *name, *metadata; /* the format; the name or metadata may be NULL */
    size_t metadata_len;
    int64_t flags;
    format format;
    size_t child_count;
    struct node **children;
    struct node *value_type; /* of the dictionary that this level has keys of, or NULL */
    sel_column values;       /* the dictionary's rows; none in a type of a schema alone */
} node;

static inline node *node_of(const sel_type *type) { return type ? type->at : NULL; }

/* Returns a level with copies of these texts, and room for children; or NULL if out of memory. */
node *sel_arrow_node(const char *text, const char *name, const char *metadata, size_t metadata_len, int64_t flags, size_t children);

/* Returns a level that shares the children and the dictionary of another, with this name and these flags; or NULL if out of memory. */
node *sel_arrow_node_renamed(const node *of, const char *name, int64_t flags);

/* Returns the type of the values of runs or of a dictionary as a field with the name of the runs or the keys, nullable if either is; or NULL
 * if out of memory. It has the metadata of the runs or the keys if there is some, unless the values would get another type by it. */
node *sel_arrow_node_under(const node *values, const char *name, const char *metadata, size_t metadata_len, int64_t flags);

node *sel_arrow_node_share(node *of);
void sel_arrow_node_free(node *of);

/* Returns in `out` the type of a column that has none: that of its storage. */
sel_status sel_arrow_node_of_column(const sel_column *of, const char *name, node **out);

/* Moves a level into a handle, whose type is freed. */
void sel_arrow_put(sel_type *out, node *type);

/* Tests whether a level, or one below it, has a dictionary. */
bool sel_arrow_has_dictionary(const node *of);

/* ---- arrow_schema.c */

/* Reads a schema. Its dictionaries have no values yet. */
sel_status sel_arrow_read_schema(const Schema *schema, unsigned depth, node **out);

/* ---- arrow_import.c */

/* Makes a column of an array; sets the values of the type's dictionaries. */
sel_status sel_arrow_import_node(const Array *array, const Schema *schema, node *type, sel_loan *loan, sel_column *out);

/* ---- arrow_import_level.c */

/* One level of an array that is imported, as the calls that make columns take it. */
typedef struct level {
    const Array *array;
    const Schema *schema;
    node *type;
    format format;      /* of the schema: list views and runs have another one than their type */
    size_t len, from;   /* the number of rows, and the first row in the buffers */
    uint8_t *bits;      /* the validity, packed from bit 0 on; NULL if every row is valid, or if only the lent one is used */
    size_t bits_len;
    sel_loan *loan;     /* of the import */
    const lent_buffer *validity; /* lent, from bit `from` on; empty if every row is valid */
    void *copy;         /* an aligned copy of a buffer, or NULL */
} level;

#define VALIDITY(l) (l)->bits, (l)->bits_len, (l)->bits != NULL

static inline bool is_valid(const level *l, size_t row) { return !l->bits || bit_at(l->bits, row); }

/* Returns a copy of the `len` bits from bit `from` on, packed from bit 0 on, or NULL if out of memory. */
uint8_t *sel_arrow_packed_bits(const uint8_t *bits, size_t from, size_t len);

/* Copies the validity that is lent to `bits`. */
sel_status sel_arrow_read_validity(level *l);

/* Reads the offsets of the level's rows as 64-bit integers, relative to the first of them. Checks that they do not
 * decrease, so that only bytes between the first and the last offset are read. The offsets of an array without rows are
 * not read: their buffer may be empty. */
sel_status sel_arrow_read_offsets(level *l, bool wide, int64_t **out, int64_t *first, int64_t *last);

/* Makes a column of the buffers of a level without children that are not lent: nulls, 128-bit integers, strings with offsets. */
sel_status sel_arrow_import_buffers(level *l, sel_column *out);

/* ---- arrow_lend.c */

/* Lends the validity. A null count of 0 says that there is none. */
sel_status sel_arrow_lend_validity(level *l);

/* Lends the offsets of the level's rows: as they are if they have 64 bits, else widened. */
sel_status sel_arrow_lend_offsets(level *l, const lent_buffer **out);

/* Makes a string column of views, a block that is taken, over slices that are lent. */
sel_status sel_arrow_lend_strings(level *l, sel_view *views, const sel_bytes_ref *slices, size_t count, sel_column *out);

/* Makes a column over the buffers of a level without children; copies what cannot be lent. */
sel_status sel_arrow_lend_buffers(level *l, sel_column *out);

/* ---- arrow_convert.c */

/* Makes lists of list views: the elements of each list are taken of the child. */
sel_status sel_arrow_import_list_views(level *l, const sel_column *child, sel_column *out);

/* Makes a column of runs: the value of each row's run is taken. The run ends are signed integers. */
sel_status sel_arrow_import_runs(level *l, const sel_column *ends, const sel_column *values, sel_column *out);

/* ---- arrow_export_level.c */

/* One level of a column that is exported. The release of the array frees all that it holds. */
typedef struct target {
    const sel_column *of;
    const node *type;
    Array *array;
    size_t len;
    const uint8_t *shown; /* a bit for each row: set if no null list or struct above hides it; NULL if none is hidden */
    bool is_dictionary;   /* the rows are the values of a dictionary, which are no field: whatever the flags are, some may be null */
} target;

/* Frees the buffers of an array that is exported: its own, and its owners of shared ones, which private_data has. */
void sel_arrow_free_buffers(Array *array);

/* Returns zeroed room for `count` items of `size` bytes as buffer `i` of the array, or NULL if out of memory. */
void *sel_arrow_buffer(target *t, int64_t i, size_t count, size_t size);

/* Makes room for the pointers to `count` buffers. Returns false if out of memory. */
bool sel_arrow_with_buffers(target *t, int64_t count);

/* Copies the validity to buffer 0, which stays NULL if the column has none, or if its type has no nulls and none is visible. */
sel_status sel_arrow_export_validity(target *t);

/* Tests whether a row's value can be seen: it is not null, and neither is a list or struct above it. The value in a null
 * slot has no meaning: it never makes an error, and is not exported. */
bool sel_arrow_is_seen(const target *t, size_t row);

/* Writes offsets as buffer 1, in the width of the type. Releases nothing. SEL_ERROR_ARROW_RANGE if one does not fit. */
sel_status sel_arrow_export_offsets(target *t, const int64_t *offsets);

/* Returns the number of buffers of a level. */
sel_status sel_arrow_buffer_count(const sel_column *of, const node *type, int64_t *count);

/* Fills the buffers behind the validity from a column without children in Arrow. */
sel_status sel_arrow_export_buffers(target *t);

/* ---- arrow_share.c */

/* Frees buffer `i`, which is NULL afterwards. */
void sel_arrow_drop_buffer(target *t, int64_t i);

/* Shares the validity, if the column has one, or the values of a column, as buffer 0 or 1, which stays NULL if the bits do not begin at a
 * byte. */
sel_status sel_arrow_share_validity(target *t, bool *has);
sel_status sel_arrow_share_values(target *t, const sel_column *of);

/* Shares the offsets of lists, or the offsets and the bytes of a binary column. */
sel_status sel_arrow_share_offsets(target *t);
sel_status sel_arrow_share_binary(target *t);

/* Shares the bytes of a binary column, from byte `from` on, as buffer 2. */
sel_status sel_arrow_share_bytes(target *t, size_t from);

/* Shares the views as buffer 1, which stays NULL if they have to be cleaned. */
sel_status sel_arrow_share_views(target *t);

/* Shares data buffer `i` of a column of views. */
sel_status sel_arrow_share_data(target *t, size_t i, size_t *len);

/* ---- arrow_export.c */

/* Checks that a column has the storage of a type, at every depth: SEL_ERROR_TYPE_MISMATCH. */
sel_status sel_arrow_check_storage(const sel_column *of, const node *type);

/* Checks that the dictionaries of a type have values: SEL_ERROR_ARROW_DICTIONARY. */
sel_status sel_arrow_check_dictionaries(const node *type);

/* Checks that the keys of a column have a row of their dictionary: SEL_ERROR_INDEX_OUT_OF_BOUNDS. */
sel_status sel_arrow_check_keys(const sel_column *of, const node *type);

/* Returns in `out`, which is empty, the items of lists. Those of null fixed-size lists are nulls if there is a dictionary without rows
 * below: a kernel leaves the key 0 there, which has no row. */
sel_status sel_arrow_items(const sel_column *lists, const node *type, sel_column *out);

/* Makes these checks, in this order. */
sel_status sel_arrow_check_fits(const sel_column *of, const node *type);

/* ---- arrow_dictionary.c */

/* Returns keys of any integer type as 32-bit indices; out of bounds of `count` rows is SEL_ERROR_INDEX_OUT_OF_BOUNDS. */
sel_status sel_arrow_indices(const sel_column *keys, size_t count, sel_column *out);

/* Checks that no key that is not null is out of bounds of `count` rows. */
sel_status sel_arrow_check_indices(const sel_column *keys, size_t count);

#endif
