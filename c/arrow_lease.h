/* Memory that producers lend to columns, and the proved functions over it (crates/sel_c/src/lent_buffers.rt, lent_columns.rt).
 *
 * A producer's array is moved into an origin. Each of its buffers that a column uses is lent once: a lease keeps one owner of it.
 * The library counts all owners, and gives the memory back when the lease's is the last one. When the last lease of an origin
 * has ended, the array is released. A sweep, at sel_free, at sel_selection_free and at the release of an exported array, asks for each lease. */
#ifndef SEL_ARROW_LEASE_H
#define SEL_ARROW_LEASE_H

#include "sel_arrow.h"

/* One owner of a buffer, or none: {0}. It may be moved but not copied, as a column handle. */
typedef struct lent_buffer {
    void *at;
} lent_buffer;

/* Memory with `len` values and room for `room`. */
typedef struct lent_memory {
    void *at;
    size_t len, room;
} lent_memory;

/* ---- proved functions */

#define SEL_LENDS(type)                                                  \
    sel_status sel_##type##_lend(lent_memory *from, lent_buffer *out);     \
    sel_status sel_##type##_back(lent_buffer *of, lent_memory *out)

SEL_LENDS(int8);
SEL_LENDS(int16);
SEL_LENDS(int32);
SEL_LENDS(int64);
SEL_LENDS(uint8);
SEL_LENDS(uint16);
SEL_LENDS(uint32);
SEL_LENDS(uint64);
SEL_LENDS(views);
sel_status sel_bits_lend(lent_memory *from, size_t len, lent_buffer *out);
sel_status sel_bits_back(lent_buffer *of, lent_memory *out);
void sel_buffer_free(lent_buffer *of);

/* Columns over buffers. The validity is the bits of `validity` from bit `first` on, or none if it is empty. */
sel_status sel_integers_over(const lent_buffer *values, const lent_buffer *validity, size_t first, sel_column *out);
sel_status sel_booleans_over(const lent_buffer *values, size_t start, size_t len, const lent_buffer *validity, size_t first, sel_column *out);
sel_status sel_binary_over(const lent_buffer *offsets, const lent_buffer *bytes, const lent_buffer *validity, size_t first, sel_column *out);
sel_status sel_list_over(const lent_buffer *offsets, const sel_column *child, const lent_buffer *validity, size_t first, sel_column *out);
sel_status sel_fixed_size_list_over(size_t width, size_t len, const sel_column *child, const lent_buffer *validity, size_t first, sel_column *out);
sel_status sel_struct_over(size_t len, const sel_column *fields, size_t fields_len, const lent_buffer *validity, size_t first, sel_column *out);
sel_status sel_binary_views_over(const lent_buffer *views, const lent_buffer *buffers, size_t buffers_len, const lent_buffer *validity, size_t first, sel_column *out);
sel_status sel_string_views_over(const lent_buffer *views, const lent_buffer *buffers, size_t buffers_len, const lent_buffer *validity, size_t first, sel_column *out);

/* The buffers of columns; an empty validity if the column has none. */
sel_status sel_validity_of(const sel_column *of, lent_buffer *out);
sel_status sel_values_of(const sel_column *of, lent_buffer *out);
sel_status sel_offsets_of(const sel_column *of, lent_buffer *out);
sel_status sel_bytes_of(const sel_column *of, lent_buffer *out);
sel_status sel_data_of(const sel_column *of, size_t i, lent_buffer *out);

/* Returns the address of a buffer, the number of its values, and the index of the first bit of a bitmap in its first byte. The
 * values are there, unchanged, as long as the owner is not freed. */
sel_status sel_buffer_show(const lent_buffer *of, const void **at, size_t *len, size_t *first);

void sel_proved_free(sel_column *of);
void sel_proved_selection_free(sel_selection *of);

/* ---- loans: the leases of one import, until it succeeds */

typedef struct sel_loan {
    struct sel_lease *leases;
    struct sel_origin *origin;
} sel_loan;

/* Begins a loan. SEL_ERROR_OUT_OF_MEMORY. */
sel_status sel_loan_begin(sel_loan *loan);

/* Lends `len` values of a type to a buffer, whose address is `out`: integers of up to 64 bits, or views (SEL_TYPE_BINARY_VIEW). Values
 * that are not aligned are copied first. SEL_ERROR_ARROW_LENGTH if they would end past the last address. */
sel_status sel_loan_values(sel_loan *loan, sel_type_id type, const void *at, size_t len, const lent_buffer **out);

/* Lends `len` bits. */
sel_status sel_loan_bits(sel_loan *loan, const void *at, size_t len, const lent_buffer **out);

/* Lends values in a block of malloc, which is freed when it comes back, also if this returns an error. */
sel_status sel_loan_block(sel_loan *loan, sel_type_id type, void *block, size_t len, const lent_buffer **out);

/* Ends the loan of an import that failed: all columns over it are freed. */
void sel_loan_cancel(sel_loan *loan);

/* Ends the loan of an import that succeeded. Moves the array, which is released at once if none of its memory is lent. */
void sel_loan_commit(sel_loan *loan, struct ArrowArray *array);

/* Takes back the memory that no column uses any more, and releases the arrays with none left. */
void sel_sweep(void);

#endif
