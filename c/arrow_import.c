/* Imports arrays of the Arrow C Data Interface. The producer's buffers are lent to columns (arrow_lease.h), and the array is released when
 * no column uses them any more. The calls that make columns check the rules of a column. This file checks what comes before them: the counts of
 * buffers and children, missing pointers, lengths and offsets. Every count is checked before it is used in arithmetic or a
 * buffer is read. */
#include "arrow_internal.h"

#include <stdlib.h>

/* Imports child `i` with the type of it, which is that of the level if the level is converted to its child. */
static sel_status import_child(const level *l, size_t i, node *type, sel_column *out) {
    const Array *array = l->array->children[i];
    return array ? sel_arrow_import_node(array, l->schema->children[i], type, l->loan, out) : SEL_ERROR_ARROW_CHILDREN;
}

/* Imports the rows of child `i` that belong to the level's rows, `width` for each of them. */
static sel_status import_part(const level *l, size_t i, size_t width, sel_column *out) {
    sel_column whole = {0};
    sel_status status = import_child(l, i, l->type->children[i], &whole);
    if (status == SEL_OK) {
        size_t rows = sel_len(&whole);
        if (width > 0 && l->from + l->len > rows / width) status = SEL_ERROR_ARROW_LENGTH;
        else status = sel_slice(&whole, l->from * width, l->len * width, out);
    }
    sel_free(&whole);
    return status;
}

static sel_status import_list(level *l, sel_column *out) {
    const lent_buffer *offsets;
    sel_column child = {0};
    sel_status status = sel_arrow_lend_offsets(l, &offsets);
    if (status == SEL_OK) status = import_child(l, 0, l->type->children[0], &child);
    if (status == SEL_OK) status = sel_list_over(offsets, &child, l->validity, l->from, out);
    sel_free(&child);
    return status;
}

static sel_status import_list_views(level *l, sel_column *out) {
    sel_column child = {0};
    sel_status status = import_child(l, 0, l->type->children[0], &child);
    if (status == SEL_OK) status = sel_arrow_import_list_views(l, &child, out);
    sel_free(&child);
    return status;
}

static sel_status import_fixed_list(level *l, sel_column *out) {
    sel_column child = {0};
    sel_status status = import_part(l, 0, l->format.width, &child);
    if (status == SEL_OK) status = sel_fixed_size_list_over(l->format.width, l->len, &child, l->validity, l->from, out);
    sel_free(&child);
    return status;
}

static sel_status import_struct(level *l, sel_column *out) {
    size_t count = (size_t)l->array->n_children;
    sel_column *fields = calloc(count + 1, sizeof *fields);
    sel_status status = fields ? SEL_OK : SEL_ERROR_OUT_OF_MEMORY;
    for (size_t i = 0; status == SEL_OK && i < count; i++) status = import_part(l, i, 1, &fields[i]);
    if (status == SEL_OK) status = sel_struct_over(l->len, fields, count, l->validity, l->from, out);
    for (size_t i = 0; fields && i < count; i++) sel_free(&fields[i]);
    free(fields);
    return status;
}

static sel_status import_runs(level *l, sel_column *out) {
    node *integers = NULL;
    sel_column ends = {0}, values = {0};
    sel_status status = sel_arrow_read_schema(l->schema->children[0], 0, &integers);
    if (status == SEL_OK) status = import_child(l, 0, integers, &ends);
    if (status == SEL_OK) status = import_child(l, 1, l->type, &values);
    if (status == SEL_OK) status = sel_arrow_import_runs(l, &ends, &values, out);
    sel_arrow_node_free(integers);
    sel_free(&ends);
    sel_free(&values);
    return status;
}

/* Checks the number of children, which is that of the schema. */
static sel_status check_children(const level *l) {
    int64_t count = l->schema->n_children;
    if (l->array->n_children != count) return SEL_ERROR_ARROW_CHILDREN;
    return count > 0 && !l->array->children ? SEL_ERROR_ARROW_CHILDREN : SEL_OK;
}

/* Checks the number of buffers, and that none is missing which a row needs; a validity may be missing. */
static sel_status check_buffers(const level *l) {
    static const int64_t counts[] = {[BITS] = 2, [NUMBERS] = 2, [FIXED_BYTES] = 2, [OFFSET_BYTES] = 3, [VIEWS] = 3, [LISTS] = 2,
                                     [LIST_VIEWS] = 3, [FIXED_LISTS] = 1, [STRUCTS] = 1};
    enum layout layout = l->format.layout;
    int64_t count = l->array->n_buffers;
    if (layout == NULLS || layout == RUNS) return SEL_OK;
    if (count < 0 || count > MAX_COUNT || !l->array->buffers) return SEL_ERROR_ARROW_BUFFERS;
    if (layout == VIEWS ? count < counts[VIEWS] : count != counts[layout]) return SEL_ERROR_ARROW_BUFFERS;
    bool needs_second = l->len > 0 && counts[layout] > 1 && !(layout == FIXED_BYTES && l->format.width == 0);
    if (needs_second && !l->array->buffers[1]) return SEL_ERROR_ARROW_BUFFERS;
    return layout == LIST_VIEWS && l->len > 0 && !l->array->buffers[2] ? SEL_ERROR_ARROW_BUFFERS : SEL_OK;
}

/* Checks the number of rows, the offset and the number of nulls. */
static sel_status check_rows(const Array *array) {
    if (array->length < 0 || array->offset < 0) return SEL_ERROR_ARROW_LENGTH;
    if (array->length > MAX_ROWS || array->offset > MAX_ROWS - array->length) return SEL_ERROR_TOO_MANY_ROWS;
    return array->null_count < -1 || array->null_count > array->length ? SEL_ERROR_ARROW_LENGTH : SEL_OK;
}

static sel_status import_layout(level *l, sel_column *out) {
    switch (l->format.layout) {
    case LISTS: return import_list(l, out);
    case LIST_VIEWS: return import_list_views(l, out);
    case FIXED_LISTS: return import_fixed_list(l, out);
    case STRUCTS: return import_struct(l, out);
    case RUNS: return import_runs(l, out);
    default: return sel_arrow_lend_buffers(l, out);
    }
}

/* Imports the dictionary of keys into the type, and checks that each key has a row in it. */
static sel_status import_dictionary(const level *l, const sel_column *keys) {
    node *type = l->type;
    sel_status status = sel_arrow_import_node(l->array->dictionary, l->schema->dictionary, type->value_type, l->loan, &type->values);
    return status == SEL_OK ? sel_arrow_check_indices(keys, sel_len(&type->values)) : status;
}

static bool has_validity(enum layout layout) { return layout != NULLS && layout != RUNS; }

/* Tests whether the import looks at the nulls of a level, or copies its validity. */
static bool needs_packed_validity(const format *it) {
    bool is_wide = it->storage == SEL_TYPE_INT128 || it->storage == SEL_TYPE_UINT128;
    return it->layout == LIST_VIEWS || (it->layout == NUMBERS && is_wide) || (it->layout == OFFSET_BYTES && it->storage != SEL_TYPE_BINARY);
}

sel_status sel_arrow_import_node(const Array *array, const Schema *schema, node *type, sel_loan *loan, sel_column *out) {
    static const lent_buffer none;
    level l = {.array = array, .schema = schema, .type = type, .loan = loan, .validity = &none};
    sel_column made = {0};
    if (!array->release) return SEL_ERROR_ARROW_RELEASED;
    if (!array->dictionary != !schema->dictionary) return SEL_ERROR_ARROW_DICTIONARY;
    sel_status status = sel_arrow_read_format(schema->format, schema->metadata, &l.format);
    if (status == SEL_OK) status = check_rows(array);
    if (status != SEL_OK) return status;
    l.len = (size_t)array->length;
    l.from = (size_t)array->offset;
    if ((status = check_children(&l)) != SEL_OK || (status = check_buffers(&l)) != SEL_OK) return status;
    if (has_validity(l.format.layout)) status = sel_arrow_lend_validity(&l);
    if (status == SEL_OK && needs_packed_validity(&l.format)) status = sel_arrow_read_validity(&l);
    if (status == SEL_OK) status = import_layout(&l, &made);
    if (status == SEL_OK && l.validity->at && array->null_count > 0 && (size_t)array->null_count != sel_null_count(&made)) status = SEL_ERROR_ARROW_LENGTH;
    if (status == SEL_OK && array->dictionary) status = import_dictionary(&l, &made);
    if (status == SEL_OK) {
        sel_free(out);
        *out = made;
    } else sel_free(&made);
    free(l.bits);
    free(l.copy);
    return status;
}

sel_status sel_import(struct ArrowArray *array, const struct ArrowSchema *schema, sel_column *out, sel_type *type) {
    node *it = NULL;
    sel_loan loan = {0};
    sel_status status = array->release ? sel_arrow_read_schema(schema, 0, &it) : SEL_ERROR_ARROW_RELEASED;
    if (status == SEL_OK && !type && sel_arrow_has_dictionary(it)) status = SEL_ERROR_ARROW_DICTIONARY;
    if (status == SEL_OK) status = sel_loan_begin(&loan);
    if (status == SEL_OK) status = sel_arrow_import_node(array, schema, it, &loan, out);
    if (status == SEL_OK && type) sel_arrow_put(type, it);
    else sel_arrow_node_free(it);
    if (status == SEL_OK) sel_loan_commit(&loan, array);
    else sel_loan_cancel(&loan);
    return status;
}
