/* Exports columns through the Arrow C Data Interface. An exported array keeps owners of the buffers that it shares with its column. */
#include "arrow_internal.h"

#include <stdlib.h>
#include <string.h>

/* ---- does a column have the storage of a type */

typedef sel_status column_check(const sel_column *of, const node *type);

/* Makes a check of each child of a column. */
static sel_status check_children(const sel_column *of, const node *type, column_check *check) {
    sel_status status = SEL_OK;
    for (size_t i = 0; status == SEL_OK && i < type->child_count; i++) {
        sel_column child = {0};
        status = sel_type_of(of) == SEL_TYPE_STRUCT ? sel_field(of, i, &child) : sel_arrow_items(of, type, &child);
        if (status == SEL_OK) status = check(&child, type->children[i]);
        sel_free(&child);
    }
    return status;
}

static sel_status check_size(const sel_column *of, const node *type) {
    size_t size = 0;
    sel_status status = sel_fixed_size_list_size(of, &size);
    return status == SEL_OK && size != type->format.width ? SEL_ERROR_TYPE_MISMATCH : status;
}

static sel_status check_bytes(const sel_column *of) {
    sel_column bytes = {0};
    sel_status status = sel_child(of, &bytes);
    if (status == SEL_OK && sel_type_of(&bytes) != SEL_TYPE_UINT8) status = SEL_ERROR_TYPE_MISMATCH;
    sel_free(&bytes);
    return status;
}

static sel_status check_field_count(const sel_column *of, const node *type) {
    size_t count = 0;
    sel_status status = sel_field_count(of, &count);
    return status == SEL_OK && count != type->child_count ? SEL_ERROR_TYPE_MISMATCH : status;
}

sel_status sel_arrow_check_storage(const sel_column *of, const node *type) {
    sel_status status = SEL_OK;
    if (sel_type_of(of) != type->format.storage) return SEL_ERROR_TYPE_MISMATCH;
    if (type->format.storage == SEL_TYPE_FIXED_SIZE_LIST) status = check_size(of, type);
    if (status == SEL_OK && type->format.layout == FIXED_BYTES) status = check_bytes(of);
    if (status == SEL_OK && type->format.layout == STRUCTS) status = check_field_count(of, type);
    return status == SEL_OK ? check_children(of, type, sel_arrow_check_storage) : status;
}

sel_status sel_arrow_check_dictionaries(const node *type) {
    sel_status status = type->value_type && sel_type_of(&type->values) == SEL_TYPE_NONE ? SEL_ERROR_ARROW_DICTIONARY : SEL_OK;
    for (size_t i = 0; status == SEL_OK && i < type->child_count; i++) status = sel_arrow_check_dictionaries(type->children[i]);
    return status;
}

sel_status sel_arrow_check_keys(const sel_column *of, const node *type) {
    if (!sel_arrow_has_dictionary(type)) return SEL_OK;
    return type->value_type ? sel_arrow_check_indices(of, sel_len(&type->values)) : check_children(of, type, sel_arrow_check_keys);
}

sel_status sel_arrow_check_fits(const sel_column *of, const node *type) {
    sel_status status = sel_arrow_check_storage(of, type);
    if (status == SEL_OK) status = sel_arrow_check_dictionaries(type);
    return status == SEL_OK ? sel_arrow_check_keys(of, type) : status;
}

/* ---- export */

static void release_array(Array *array);

/* Frees an array that is exported, with its children and its dictionary, unless the consumer has moved these. */
static void free_array(Array *array) {
    for (int64_t i = 0; i <= array->n_children; i++) {
        Array *below = i < array->n_children ? array->children[i] : array->dictionary;
        if (below && below->release == release_array) free_array(below);
        else if (below && below->release) below->release(below);
        free(below);
    }
    if (array->buffers && array->private_data) sel_arrow_free_buffers(array);
    else free(array->private_data);
    free(array->children);
    free(array->buffers);
    array->release = NULL;
}

/* Releases an array, which may be a child that its consumer has moved, and then the imported ones of which it had the last buffers. */
static void release_array(Array *array) {
    free_array(array);
    sel_sweep();
}

static sel_status export_node(const sel_column *of, const node *type, const uint8_t *shown, Array *array);

static void set_bits(uint8_t *bits, size_t from, size_t to) {
    while (from < to && from % 8) set_bit(bits, from++);
    while (from < to && to % 8) set_bit(bits, --to);
    if (from < to) memset(bits + from / 8, 0xff, (to - from) / 8);
}

/* Tests whether an export looks at the values of a type, or of its children, or at its nulls. */
static bool looks_at_rows(const node *type) {
    enum layout layout = type->format.layout;
    bool has_nulls = type->flags & ARROW_FLAG_NULLABLE;
    return !has_nulls || type->format.storage == SEL_TYPE_INT128 || type->format.storage == SEL_TYPE_STRING_VIEW || layout == VIEWS || sel_arrow_is_nested(layout);
}

/* Finds which rows of a child with `len` rows can be seen: those of the level's rows that can. Row `i` has the child's
 * rows from offsets[i] to offsets[i + 1], or `width` rows each without offsets. `out` is NULL if all can be seen, or if no
 * value of the child is looked at; else the caller frees it. */
static sel_status find_shown(const target *t, const node *child, const int64_t *offsets, size_t width, size_t len, uint8_t **out) {
    *out = NULL;
    if ((!t->array->buffers[0] && !t->shown) || !looks_at_rows(child)) return SEL_OK;
    uint8_t *bits = calloc(bytes_of_bits(len) + 1, 1);
    if (!bits) return SEL_ERROR_OUT_OF_MEMORY;
    for (size_t i = 0; i < t->len; i++) {
        if (!sel_arrow_is_seen(t, i)) continue;
        if (offsets) set_bits(bits, (size_t)offsets[i], (size_t)offsets[i + 1]);
        else set_bits(bits, i * width, (i + 1) * width);
    }
    *out = bits;
    return SEL_OK;
}

static bool with_children(target *t, size_t count) {
    t->array->children = calloc(count + 1, sizeof *t->array->children);
    if (!t->array->children) return false;
    t->array->n_children = (int64_t)count;
    return true;
}

/* Exports child `i`, and frees it. Offsets or the width say which of its rows are whose. */
static sel_status export_child(target *t, size_t i, const int64_t *offsets, size_t width, sel_column *child) {
    const node *type = t->type->children[i];
    Array *array = calloc(1, sizeof *array);
    uint8_t *shown = NULL;
    t->array->children[i] = array;
    sel_status status = array ? find_shown(t, type, offsets, width, sel_len(child), &shown) : SEL_ERROR_OUT_OF_MEMORY;
    if (status == SEL_OK) status = export_node(child, type, shown, array);
    free(shown);
    sel_free(child);
    return status;
}

/* Returns the offsets from 0 on, in a copy that is exported in place of the shared ones; or NULL if they do not fit or out of memory. */
static sel_status rebase(target *t, const int64_t *shared, int64_t **out) {
    int64_t *offsets = malloc((t->len + 1) * sizeof *offsets);
    if (!offsets) return SEL_ERROR_OUT_OF_MEMORY;
    for (size_t i = 0; i <= t->len; i++) offsets[i] = shared[i] - shared[0];
    *out = offsets;
    sel_arrow_drop_buffer(t, 1);
    return sel_arrow_export_offsets(t, offsets);
}

/* Tests whether an export copies the values of a type: 128-bit integers, and the offsets of binary, which may have more bytes before those that are
 * exported than the offsets reach. */
static bool copies_rows(const node *type) {
    return type->format.storage == SEL_TYPE_UINT128 || (type->format.layout == OFFSET_BYTES && !type->format.wide);
}

/* Exports lists. Offsets that do not begin at 0 are shared with all of the child before them, unless its rows are looked at or copied. */
static sel_status export_list(target *t) {
    sel_column child = {0}, part = {0};
    int64_t *copy = NULL;
    sel_status status = with_children(t, 1) ? sel_arrow_share_offsets(t) : SEL_ERROR_OUT_OF_MEMORY;
    if (status == SEL_OK) status = sel_child(t->of, &child);
    if (status != SEL_OK) return status;
    const int64_t *offsets = t->array->buffers[1];
    const node *element = t->type->children[0];
    bool is_shared = t->type->format.wide && (offsets[0] == 0 || !(looks_at_rows(element) || copies_rows(element)));
    size_t first = is_shared ? 0 : (size_t)offsets[0];
    status = sel_slice(&child, first, (size_t)offsets[t->len] - first, &part);
    if (status == SEL_OK && !is_shared) status = rebase(t, offsets, &copy);
    sel_free(&child);
    if (status == SEL_OK) status = export_child(t, 0, copy ? copy : offsets, 0, &part);
    else sel_free(&part);
    free(copy);
    return status;
}

static sel_status export_fixed_list(target *t) {
    sel_column child = {0};
    if (!with_children(t, 1)) return SEL_ERROR_OUT_OF_MEMORY;
    sel_status status = sel_arrow_items(t->of, t->type, &child);
    return status == SEL_OK ? export_child(t, 0, NULL, t->type->format.width, &child) : status;
}

static sel_status export_struct(target *t) {
    size_t count = t->type->child_count;
    sel_status status = with_children(t, count) ? SEL_OK : SEL_ERROR_OUT_OF_MEMORY;
    for (size_t i = 0; status == SEL_OK && i < count; i++) {
        sel_column field = {0};
        status = sel_field(t->of, i, &field);
        if (status == SEL_OK) status = export_child(t, i, NULL, 1, &field);
    }
    return status;
}

static sel_status export_level(target *t) {
    int64_t buffers = 0;
    sel_status status = sel_arrow_buffer_count(t->of, t->type, &buffers);
    if (status != SEL_OK) return status;
    if (!sel_arrow_with_buffers(t, buffers)) return SEL_ERROR_OUT_OF_MEMORY;
    if (t->type->format.layout == NULLS) {
        t->array->null_count = t->array->length;
        return SEL_OK;
    }
    if ((status = sel_arrow_export_validity(t)) != SEL_OK) return status;
    switch (t->type->format.layout) {
    case LISTS: return export_list(t);
    case FIXED_LISTS: return export_fixed_list(t);
    case STRUCTS: return export_struct(t);
    default: return sel_arrow_export_buffers(t);
    }
}

static sel_status export_target(target *t);

static sel_status export_dictionary(const target *t) {
    const node *type = t->type;
    target values = {&type->values, type->value_type, calloc(1, sizeof(Array)), sel_len(&type->values), NULL, true};
    t->array->dictionary = values.array;
    return values.array ? export_target(&values) : SEL_ERROR_OUT_OF_MEMORY;
}

static sel_status export_target(target *t) {
    memset(t->array, 0, sizeof *t->array);
    t->array->length = (int64_t)t->len;
    t->array->release = release_array;
    sel_status status = export_level(t);
    return status == SEL_OK && t->type->value_type ? export_dictionary(t) : status;
}

static sel_status export_node(const sel_column *of, const node *type, const uint8_t *shown, Array *array) {
    target t = {of, type, array, sel_len(of), shown, false};
    return export_target(&t);
}

sel_status sel_export(const sel_column *of, const sel_type *type, struct ArrowArray *array, struct ArrowSchema *schema) {
    node *it = sel_arrow_node_share(node_of(type));
    memset(array, 0, sizeof *array);
    memset(schema, 0, sizeof *schema);
    sel_status status = sel_type_of(of) == SEL_TYPE_NONE ? SEL_ERROR_NO_COLUMN : SEL_OK;
    if (status == SEL_OK && !it) status = sel_arrow_node_of_column(of, "", &it);
    if (status == SEL_OK) status = sel_arrow_check_fits(of, it);
    if (status == SEL_OK) status = export_node(of, it, NULL, array);
    if (status == SEL_OK) status = sel_type_export(&(sel_type){it}, schema);
    sel_arrow_node_free(it);
    if (status != SEL_OK && array->release) array->release(array);
    return status;
}
