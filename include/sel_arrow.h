/* Import and export of columns through the Arrow C Data Interface, with their logical types. Buffers are not copied,
 * except for those in the table below: an imported column reads the producer's memory, and an exported array points
 * into the column's. The rules of sel.h for handles, threads, errors and arguments hold here too.
 *
 *     copied on import                              copied on export
 *     buffers that are not aligned for their type   bits that do not begin at a byte
 *     32-bit offsets, which become 64-bit ones      offsets that the type has in 32 bits
 *     64-bit offsets of binary without any bytes
 *     128-bit integers                              128-bit integers
 *     views, if a null slot has one of more than    views, if one is hidden by a null or has bytes that are not 0
 *     12 bytes                                      behind its own
 *     views of strings with offsets, which are new  strings that the type has with offsets
 *     list views and runs, which become lists and   offsets of a part of a list column that do not begin at 0, if
 *     values                                        its elements are nested, fixed-size binary, strings, views,
 *                                                   128-bit integers or binary with 32-bit offsets, or not nullable
 *
 * The bytes, values and children that copied offsets and views refer to are not copied, except for 128-bit integers,
 * list views, runs, and strings that are exported with offsets.
 *
 * A column has a storage type, which the functions of sel.h see: integers, views, lists. A sel_type is the logical
 * type of a column: the Arrow schema that it was imported with, at every depth, and its dictionaries. It is a handle of
 * its own, not a part of the column: export a filtered or gathered column with the type of the column it was made from.
 * bindings/README.md has the storage of each Arrow format. */
#ifndef SEL_ARROW_H
#define SEL_ARROW_H

#include "sel.h"

#ifdef __cplusplus
extern "C" {
#endif

/* The two structures of the Arrow format; other headers that declare them use the same guard. */
#ifndef ARROW_C_DATA_INTERFACE
#define ARROW_C_DATA_INTERFACE

#define ARROW_FLAG_DICTIONARY_ORDERED 1
#define ARROW_FLAG_NULLABLE 2
#define ARROW_FLAG_MAP_KEYS_SORTED 4

struct ArrowSchema {
    const char *format;
    const char *name;
    const char *metadata;
    int64_t flags;
    int64_t n_children;
    struct ArrowSchema **children;
    struct ArrowSchema *dictionary;
    void (*release)(struct ArrowSchema *);
    void *private_data;
};

struct ArrowArray {
    int64_t length;
    int64_t null_count;
    int64_t offset;
    int64_t n_buffers;
    int64_t n_children;
    const void **buffers;
    struct ArrowArray **children;
    struct ArrowArray *dictionary;
    void (*release)(struct ArrowArray *);
    void *private_data;
};
#endif

#ifndef ARROW_C_STREAM_INTERFACE
#define ARROW_C_STREAM_INTERFACE

struct ArrowArrayStream {
    int (*get_schema)(struct ArrowArrayStream *, struct ArrowSchema *);
    int (*get_next)(struct ArrowArrayStream *, struct ArrowArray *);
    const char *(*get_last_error)(struct ArrowArrayStream *);
    void (*release)(struct ArrowArrayStream *);
    void *private_data;
};
#endif

/* A handle to a logical type; {0} is an empty handle. The rules of handles to columns hold: initialize it with {0},
 * free it with sel_type_free, share it with sel_type_share. Types are never changed, and any thread may read one. The
 * handle in which a function returns a type may be the handle of a type that it reads. */
typedef struct sel_type {
    void *at;
} sel_type;

/* ---- Import and export. ---- */

/* Makes a column of an array, at every depth, and returns its logical type in `type`, which may be a null pointer.
 * Moves the array: its `release` is null afterwards. The schema is only read. On error the array is not moved and `out`
 * and `type` are unchanged, so that the call can be tried again.
 *
 * The array is released once, after the last column, slice, result, selection, dictionary of a type or exported array
 * that uses one of its buffers is freed. The next call of sel_free (also of an empty handle) or sel_selection_free, or
 * the next release of an exported array or of a moved child of one, releases it, on the thread of that call. If imports
 * have more than 64 buffers in use, including those that the library allocated for them, some more calls of sel_free
 * may be needed: at most one for each 64 of these buffers. The other functions of this header free handles of their
 * own, so that any of them may release it. Until the release nobody may write to the array's buffers. The release may
 * call this library. If it frees the last user of another array, that array is released afterwards.
 *
 * Formats, with their storage: n; b; c C s S i I l L; e f g, as u16, u32, u64; tdD tdm tts ttm ttu ttn ts_:.. tD_ tiM
 * tiD, as i32 or i64; tin, as u128; d:P,S and d:P,S,B, as i32, i64, i128 or 32 bytes; w:N, as fixed-size lists of u8,
 * and as u128 with the extension name sel.uint128; z Z, as binary; u U vu, as string views; vz; +l +L; +w:N; +s; +m,
 * as lists of structs. List views (+vl, +vL) become +l and +L, and run-end encoded arrays (+r) become columns of
 * their values. Their types change too: the type of runs is that of the values, with the name of the runs, and with
 * the metadata of the runs unless the values have an extension type. Keys of a dictionary, integers of any width, stay
 * keys; the dictionary is a part of the type. For any other format the status is SEL_ERROR_ARROW_FORMAT, and
 * sel_unsupported_format returns the format.
 *
 * Before a buffer of an array is read, the counts of its level are checked: the length and the offset are not negative
 * and are at most 4,294,967,295 together, the null count is -1 or at most the length, the array has as many buffers and
 * children as its format (n and +r may have any buffers), and no more than 2,147,483,647. Then the rules of columns are
 * checked: a null count above 0 is the number of nulls in the validity, and run ends increase; a view or a key in a
 * null slot may be any bytes. The producer must ensure that the buffers are as long as the length, the offset and the
 * offsets buffer say: no call can check that.
 *
 * Errors: SEL_ERROR_ARROW_RELEASED: the array is released.
 * Then of the schema, of each level before those below it: SEL_ERROR_ARROW_RELEASED. SEL_ERROR_ARROW_LENGTH: a count in
 * the metadata is negative. SEL_ERROR_ARROW_FORMAT. SEL_ERROR_LIST_SIZE. SEL_ERROR_ARROW_DICTIONARY: its format is not
 * that of integers, and it has a dictionary. SEL_ERROR_TOO_DEEP: a list, struct or dictionary below 128 others, whose
 * children are not read. SEL_ERROR_ARROW_CHILDREN. SEL_ERROR_ARROW_FORMAT: run ends are not signed integers. After the
 * levels below it SEL_ERROR_ARROW_CHILDREN: the entries of a map are not structs of two fields.
 * Then SEL_ERROR_ARROW_DICTIONARY: the schema has a dictionary, and `type` is null.
 * Then of the array, of each level before those below it: SEL_ERROR_ARROW_RELEASED. SEL_ERROR_ARROW_DICTIONARY: only
 * the array or only the schema has a dictionary. SEL_ERROR_ARROW_LENGTH, SEL_ERROR_TOO_MANY_ROWS: the length, the
 * offset and the null count. SEL_ERROR_ARROW_CHILDREN. SEL_ERROR_ARROW_BUFFERS. SEL_ERROR_ARROW_LENGTH: there are
 * nulls, and no validity. After the levels below it the status of the rule of columns that is broken, or a
 * SEL_ERROR_ARROW_ status. SEL_ERROR_ROW_LIMIT, SEL_ERROR_OFFSET_LIMIT: the lists or values that list views and runs
 * become exceed a size limit. At last, of keys, the errors of the dictionary, and SEL_ERROR_INDEX_OUT_OF_BOUNDS: a key
 * has no row in it. */
sel_status sel_import(struct ArrowArray *array, const struct ArrowSchema *schema, sel_column *out, sel_type *type);

/* Writes the column to two structures, which the caller releases, in any order, on any thread, before or after the
 * column is freed. What the structures contained before is overwritten, not released. The column is unchanged; its
 * buffers are shared, and must not be written. A column that was imported is exported with the producer's buffers. If
 * there are more than 65,536 rows and a validity, nulls are not counted, and the null count is -1.
 *
 * With a type the schema is exactly that of the type: formats, names, metadata and flags. The column must have the
 * storage of the type at every depth, and each key must have a row in its dictionary. If `type` is a null pointer or
 * empty, the schema is that of the storage: binary columns are Z, views vz and vu, lists +L, signed 128-bit integers
 * d:38,0,128, unsigned ones w:16 with the extension name sel.uint128; fields are named by their numbers, "0", "1", ...
 * A decimal of 128 bits or a view in a null slot, also in that of a list or struct above it, is exported as 0 or as an
 * empty view. Keys that are null below a null list or struct keep their validity, even if the field is not nullable.
 *
 * Errors: SEL_ERROR_NO_COLUMN; SEL_ERROR_TYPE_MISMATCH: the column does not have the storage of the type;
 * SEL_ERROR_ARROW_DICTIONARY: the type has a dictionary without values; SEL_ERROR_INDEX_OUT_OF_BOUNDS: a key has no
 * row in its dictionary; SEL_ERROR_OUT_OF_MEMORY; then of each level, before those below it, SEL_ERROR_ARROW_NULL: a
 * null is visible in a field that is not nullable and has another format than n (a dictionary is no field, but its
 * values may have fields), or a byte of a visible w:N or decimal of 256 bits is null; SEL_ERROR_ARROW_RANGE: a row
 * shows a decimal of more than 38 digits, a view beyond byte 2,147,483,647 of a data buffer, or the values or elements
 * of all rows do not fit the type's 32-bit offsets. On error there is nothing to release. */
sel_status sel_export(const sel_column *of, const sel_type *type, struct ArrowArray *array, struct ArrowSchema *schema);

/* Returns the first format of a schema, at any depth, that sel_import does not support; the string lives as long as the
 * schema. Returns a null pointer if there is no such format, or none before a level that is below 128 others. Children
 * are read only if their number is that of the format. */
const char *sel_unsupported_format(const struct ArrowSchema *schema);

/* Returns in `values` the address of the values of a column of integers of 8 to 64 bits, and in `len` the number of
 * rows. There is one value for each row, also in null slots; the first one is that of the first row, also in a slice.
 * The address is that of the memory that the column reads: it is aligned for the type and not null, and it must not be
 * written to. The values stay there, unchanged, as long as `of` has this column. On error the outputs are unchanged.
 * Errors: SEL_ERROR_NO_COLUMN: `of` is empty. SEL_ERROR_UNSUPPORTED_TYPE: its type is another one, such as 128-bit
 * integers, whose values sel_int128_values copies. SEL_ERROR_OUT_OF_MEMORY. */
sel_status sel_borrow_values(const sel_column *of, const void **values, size_t *len);

/* ---- Logical types. ---- */

/* Returns in `out` the type of a schema, without the values of its dictionaries: a column cannot be exported with a
 * type that lacks them, but another type can be compared with it. Errors: those of sel_import for a schema. */
sel_status sel_type_import(const struct ArrowSchema *schema, sel_type *out);

/* Writes the schema of a type, which the caller releases. What `schema` contained before is overwritten, not released.
 * Errors: SEL_ERROR_NO_COLUMN: `of` is empty; then there is nothing to release. */
sel_status sel_type_export(const sel_type *of, struct ArrowSchema *schema);

/* Returns in `out` the type of the storage of a column, with which sel_export exports it if no type is given.
 * Errors: SEL_ERROR_NO_COLUMN: `of` is empty. */
sel_status sel_type_of_storage(const sel_column *of, sel_type *out);

/* Returns in `out` the nullable type of this format with these children, whose names are kept.
 * Errors: SEL_ERROR_NO_COLUMN: a child is empty. SEL_ERROR_ARROW_FORMAT: the format is unsupported, or one that an
 * import converts. SEL_ERROR_LIST_SIZE. SEL_ERROR_ARROW_CHILDREN: another number of children than the format has, or
 * the child of a map is not a struct of two fields. SEL_ERROR_TOO_DEEP. */
sel_status sel_type_new(const char *format, const sel_type *children, size_t children_len, sel_type *out);

/* Returns in `out` the type of keys with these dictionary values: `format` is that of the keys, c, C, s, S, i, I, l or
 * L. If `type`, the type of the values, is a null pointer or empty, it is that of their storage.
 * Errors: SEL_ERROR_NO_COLUMN: `values` is empty. SEL_ERROR_ARROW_FORMAT: `format` is no format of keys.
 * SEL_ERROR_TYPE_MISMATCH: the values do not have the storage of their type. SEL_ERROR_ARROW_DICTIONARY: their type has
 * a dictionary without values. SEL_ERROR_INDEX_OUT_OF_BOUNDS: a value is a key that has no row in its dictionary.
 * SEL_ERROR_TOO_DEEP. */
sel_status sel_type_dictionary_new(
    const char *format,
    const sel_column *values,
    const sel_type *type,
    bool is_ordered,
    sel_type *out);

/* Returns in `out` the type as a field with this name, which may be a null pointer, nullable or not.
 * Errors: SEL_ERROR_NO_COLUMN: `of` is empty. */
sel_status sel_type_as_field(const sel_type *of, const char *name, bool is_nullable, sel_type *out);

/* Returns in `out` a second handle to a type. Errors: SEL_ERROR_NO_COLUMN: `of` is empty. */
sel_status sel_type_share(const sel_type *of, sel_type *out);

/* Frees a type, if there is one. `of` is empty afterwards. */
void sel_type_free(sel_type *of);

/* Returns whether two types have the same schema: formats, names, metadata, flags, children and types of
 * dictionaries, at every depth. The formats d:P,S and d:P,S,128 are equal. The values of dictionaries are not
 * compared. Two empty types are equal. */
bool sel_type_equal(const sel_type *of, const sel_type *other);

/* Returns the number of children of a type, or 0 if it is empty. */
size_t sel_type_child_count(const sel_type *of);

/* Returns in `out` child `i` of a type, counted from 0: the element of lists, a field of a struct.
 * Errors: SEL_ERROR_NO_COLUMN: `of` is empty. SEL_ERROR_INDEX_OUT_OF_BOUNDS: there is no child `i`. */
sel_status sel_type_child(const sel_type *of, size_t i, sel_type *out);

/* Returns the name of a type as a field, which lives as long as the type; a null pointer if it has none. */
const char *sel_type_name(const sel_type *of);

/* Returns the Arrow format of a type, which lives as long as the type; a null pointer if `of` is empty. */
const char *sel_type_arrow_format(const sel_type *of);

/* Writes a type as text, such as `timestamp[ms, tz=UTC]`, `list<item: string>` or `dictionary<u32, string>`, without
 * a terminating zero: as many bytes as fit into `out`. Returns in `len` the number of bytes of the whole text.
 * Errors: SEL_ERROR_NO_COLUMN: `of` is empty. */
sel_status sel_type_format(const sel_type *of, uint8_t *out, size_t out_len, size_t *len);

/* ---- Dictionaries. ---- */

/* Returns in `values` the dictionary of a type, and in `type` the type of its values.
 * Errors: SEL_ERROR_NO_COLUMN: `of` is empty. SEL_ERROR_ARROW_DICTIONARY: it has no dictionary, or none with values.
 */
sel_status sel_type_dictionary(const sel_type *of, sel_column *values, sel_type *type);

/* Returns in `out` and `out_type` the column without dictionaries, at every depth: each key is replaced by the row of
 * the dictionary that it names, and is null if that is null. The type of the keys is that of the values, with the
 * name of the keys, and with their metadata unless the values have an extension type; it is nullable if the keys or the
 * values are, or if the dictionary has nulls. A column without a dictionary is shared.
 * Errors: SEL_ERROR_NO_COLUMN: `of` or `type` is empty. SEL_ERROR_TYPE_MISMATCH: the column does not have the storage
 * of the type. SEL_ERROR_ARROW_DICTIONARY: a dictionary has no values. SEL_ERROR_INDEX_OUT_OF_BOUNDS: a key has no
 * row in its dictionary. SEL_ERROR_ROW_LIMIT, SEL_ERROR_OFFSET_LIMIT: the result exceeds a size limit. */
sel_status sel_decode(const sel_column *of, const sel_type *type, sel_column *out, sel_type *out_type);

/* Returns in `out` the columns for a function that joins them, such as sel_if_then_else, and in `out_type` their common
 * type. The columns are shared if all have the same dictionaries, or dictionaries with equal rows; otherwise those with
 * dictionaries are decoded. An empty type stands for that of the storage. Strings, binary and lists may have offsets of
 * several widths; the fields of structs have the same names, unless they are the entries of maps; extension types have
 * the same names and parameters (ARROW:extension:metadata). The common type has the formats, names and metadata of the
 * first one; it is nullable where one of them is, and says that keys of maps are sorted or dictionaries are ordered
 * where all do. `out` has `len` handles, which are freed and filled if the call succeeds.
 * Errors: SEL_ERROR_NO_COLUMN: a column is empty. SEL_ERROR_LENGTH_MISMATCH: `len` is 0. SEL_ERROR_TYPE_MISMATCH: the
 * types differ, or a column does not have the storage of its type. SEL_ERROR_ARROW_DICTIONARY: a dictionary has no
 * values. SEL_ERROR_INDEX_OUT_OF_BOUNDS: a key has no row in its dictionary. SEL_ERROR_ROW_LIMIT,
 * SEL_ERROR_OFFSET_LIMIT: a result exceeds a size limit. */
sel_status sel_common_type(
    const sel_column *columns,
    const sel_type *types,
    size_t len,
    sel_column *out,
    sel_type *out_type);

/* ---- Streams of record batches: data larger than memory passes batch by batch. ---- */

/* A handle to a stream that is read; {0} is an empty handle. Only one thread at a time may use it. */
typedef struct sel_stream {
    void *at;
} sel_stream;

/* Moves a stream of a producer into `out` and gets its schema. On error the stream is not moved and `out` is
 * unchanged.
 * Errors: SEL_ERROR_ARROW_RELEASED. SEL_ERROR_OUT_OF_MEMORY. SEL_ERROR_ARROW_STREAM: the producer reports an error;
 * get_last_error of `source` returns its message. Then the errors of sel_import for a schema. */
sel_status sel_stream_open(struct ArrowArrayStream *source, sel_stream *out);

/* Returns in `type` the type of the batches, without the values of dictionaries.
 * Errors: SEL_ERROR_NO_COLUMN: `of` is empty. */
sel_status sel_stream_type(const sel_stream *of, sel_type *type);

/* Returns in `out` the next batch and in `type` its type; `type` may be a null pointer. At the end of the stream it
 * returns SEL_OK, and `out` and `type` are empty; after the end the producer is not called again. On error `out` and
 * `type` are unchanged; if an import failed, the next call imports the same batch again.
 * Errors: SEL_ERROR_NO_COLUMN: `of` is empty. SEL_ERROR_ARROW_STREAM: the producer reports an error. Then the errors of
 * sel_import. */
sel_status sel_stream_next(sel_stream *of, sel_column *out, sel_type *type);

/* Returns the producer's message if its last call returned an error, else a null pointer. The message lives until the
 * next call for this stream. */
const char *sel_stream_message(sel_stream *of);

/* Releases a stream, if there is one. `of` is empty afterwards. */
void sel_stream_free(sel_stream *of);

/* A producer of batches: returns in `out` the next batch and in `type` its type. Both handles are empty when it is
 * called; at the end it returns SEL_OK and leaves them empty. Any other status is an error of the stream. */
typedef sel_status (*sel_next_batch)(void *context, sel_column *out, sel_type *type);

/* Frees the context of a producer of batches. */
typedef void (*sel_free_context)(void *context);

/* Writes a stream that exports the batches which `next` returns for `context`. `type` is the type of all batches: the
 * type of a batch must be equal to it, or empty, which stands for `type`. If a batch cannot be produced or exported,
 * get_next of the stream returns ENOMEM (out of memory) or EINVAL, and get_last_error the text of the status. The
 * release of the stream calls `free_context`, which may be a null pointer, with `context`.
 * Errors: SEL_ERROR_NO_COLUMN: `type` is empty. SEL_ERROR_OUT_OF_MEMORY. On error `context` is not freed. */
sel_status sel_stream_export(
    const sel_type *type,
    sel_next_batch next,
    void *context,
    sel_free_context free_context,
    struct ArrowArrayStream *out);

#ifdef __cplusplus
}
#endif
#endif
