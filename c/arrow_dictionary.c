/* Dictionaries: keys as indices, columns without dictionaries, and the common type of columns that are joined. */
#include "arrow_internal.h"

#include <stdlib.h>
#include <string.h>

/* ---- keys */

/* Writes keys as indices: a key that is negative, which is a large number without its sign, or has no 32-bit index, becomes the largest one. */
#define READ_KEYS(type, read)                                                                                          \
    do {                                                                                                               \
        type *narrow = malloc((len + 1) * sizeof *narrow);                                                             \
        sel_status status = narrow ? read(keys, narrow, len) : SEL_ERROR_OUT_OF_MEMORY;                                \
        for (size_t i = 0; status == SEL_OK && i < len; i++)                                                           \
            out[i] = (uint64_t)narrow[i] < UINT32_MAX ? (uint32_t)narrow[i] : UINT32_MAX;                              \
        free(narrow);                                                                                                  \
        return status;                                                                                                 \
    } while (0)

static sel_status read_keys(const sel_column *keys, uint32_t *out, size_t len) {
    switch (sel_type_of(keys)) {
    case SEL_TYPE_INT8: READ_KEYS(int8_t, sel_int8_values);
    case SEL_TYPE_INT16: READ_KEYS(int16_t, sel_int16_values);
    case SEL_TYPE_INT32: READ_KEYS(int32_t, sel_int32_values);
    case SEL_TYPE_INT64: READ_KEYS(int64_t, sel_int64_values);
    case SEL_TYPE_UINT8: READ_KEYS(uint8_t, sel_uint8_values);
    case SEL_TYPE_UINT16: READ_KEYS(uint16_t, sel_uint16_values);
    case SEL_TYPE_UINT64: READ_KEYS(uint64_t, sel_uint64_values);
    default: return sel_uint32_values(keys, out, len);
    }
}

/* The validity of a column, as the calls that make columns take it. */
typedef struct validity {
    uint8_t *bits;
    size_t len;
    bool has;
} validity;

static sel_status read_validity(const sel_column *of, validity *out) {
    *out = (validity){NULL, bytes_of_bits(sel_len(of)), false};
    out->bits = malloc(out->len + 1);
    return out->bits ? sel_validity(of, out->bits, out->len, &out->has) : SEL_ERROR_OUT_OF_MEMORY;
}

static sel_status check_bounds(const uint32_t *indices, size_t len, const validity *valid, size_t count) {
    for (size_t i = 0; i < len; i++)
        if (indices[i] >= count && (!valid->has || bit_at(valid->bits, i))) return SEL_ERROR_INDEX_OUT_OF_BOUNDS;
    return SEL_OK;
}

/* Returns keys as indices, unless `out` is NULL, once each is found to have a row. */
static sel_status read_indices(const sel_column *keys, size_t count, sel_column *out) {
    size_t len = sel_len(keys);
    validity valid = {NULL, 0, false};
    uint32_t *indices = malloc((len + 1) * sizeof *indices);
    sel_status status = indices ? read_validity(keys, &valid) : SEL_ERROR_OUT_OF_MEMORY;
    if (status == SEL_OK) status = read_keys(keys, indices, len);
    if (status == SEL_OK) status = check_bounds(indices, len, &valid, count);
    if (status == SEL_OK && out) status = sel_uint32_new(indices, len, valid.bits, valid.len, valid.has, out);
    free(indices);
    free(valid.bits);
    return status;
}

sel_status sel_arrow_indices(const sel_column *keys, size_t count, sel_column *out) { return read_indices(keys, count, out); }

sel_status sel_arrow_check_indices(const sel_column *keys, size_t count) { return read_indices(keys, count, NULL); }

/* ---- items of null lists */

/* Tests whether a type, or one below it, has a dictionary without rows. */
static bool has_empty_dictionary(const node *type) {
    if (type->value_type && sel_len(&type->values) == 0) return true;
    for (size_t i = 0; i < type->child_count; i++)
        if (has_empty_dictionary(type->children[i])) return true;
    return false;
}

/* Returns in `out` the items of fixed-size lists, with nulls in the place of those of null lists. */
static sel_status items_of_valid(const sel_column *lists, const sel_column *items, size_t size, sel_column *out) {
    size_t len = sel_len(items);
    validity valid = {NULL, 0, false};
    uint32_t *rows = malloc((len + 1) * sizeof *rows);
    uint8_t *bits = calloc(bytes_of_bits(len) + 1, 1);
    sel_status status = rows && bits ? read_validity(lists, &valid) : SEL_ERROR_OUT_OF_MEMORY;
    for (size_t i = 0; status == SEL_OK && i < len; i++) {
        rows[i] = (uint32_t)i; /* a column has at most 2^32 - 1 rows */
        if (!valid.has || bit_at(valid.bits, i / size)) set_bit(bits, i);
    }
    if (status == SEL_OK) status = sel_take_rows(items, rows, len, bits, bytes_of_bits(len), true, out);
    free(rows);
    free(bits);
    free(valid.bits);
    return status;
}

sel_status sel_arrow_items(const sel_column *lists, const node *type, sel_column *out) {
    sel_column items = {0}, valid = {0};
    sel_status status = sel_child(lists, &items);
    bool is_fixed = type->format.layout == FIXED_LISTS;
    if (status == SEL_OK && is_fixed && sel_null_count(lists) > 0 && has_empty_dictionary(type->children[0])) {
        status = items_of_valid(lists, &items, type->format.width, &valid);
        sel_free(&items);
        items = valid;
    }
    if (status == SEL_OK) *out = items;
    return status;
}

/* ---- columns without dictionaries */

static sel_status decode_column(const sel_column *of, const node *type, sel_column *out);

/* Takes of the dictionary, which may have dictionaries itself, the row that each key names. */
static sel_status decode_keys(const sel_column *keys, const node *type, sel_column *out) {
    sel_column values = {0}, indices = {0};
    sel_status status = decode_column(&type->values, type->value_type, &values);
    if (status == SEL_OK) status = sel_arrow_indices(keys, sel_len(&values), &indices);
    if (status == SEL_OK) status = sel_take(&values, &indices, out);
    sel_free(&values);
    sel_free(&indices);
    return status;
}

static sel_status decode_list(const sel_column *of, const node *type, sel_column *child, sel_column *out) {
    size_t len = sel_len(of);
    bool has_offsets = type->format.layout == LISTS;
    validity valid = {NULL, 0, false};
    int64_t *offsets = malloc((len + 1) * sizeof *offsets);
    sel_status status = offsets ? read_validity(of, &valid) : SEL_ERROR_OUT_OF_MEMORY;
    if (status == SEL_OK && has_offsets) status = sel_offsets(of, offsets, len + 1);
    if (status == SEL_OK)
        status = has_offsets ? sel_list_new(offsets, len + 1, valid.bits, valid.len, valid.has, child, out)
                             : sel_fixed_size_list_new(type->format.width, len, valid.bits, valid.len, valid.has, child, out);
    free(offsets);
    free(valid.bits);
    return status;
}

static sel_status decode_children(const sel_column *of, const node *type, sel_column *children, sel_column *out) {
    bool is_struct = type->format.layout == STRUCTS;
    sel_status status = SEL_OK;
    for (size_t i = 0; status == SEL_OK && i < type->child_count; i++) {
        sel_column child = {0};
        status = is_struct ? sel_field(of, i, &child) : sel_arrow_items(of, type, &child);
        if (status == SEL_OK) status = decode_column(&child, type->children[i], &children[i]);
        sel_free(&child);
    }
    if (status != SEL_OK || !is_struct) return status == SEL_OK ? decode_list(of, type, children, out) : status;
    validity valid;
    status = read_validity(of, &valid);
    if (status == SEL_OK) status = sel_struct_new(sel_len(of), valid.bits, valid.len, valid.has, children, type->child_count, out);
    free(valid.bits);
    return status;
}

static sel_status decode_column(const sel_column *of, const node *type, sel_column *out) {
    if (!sel_arrow_has_dictionary(type)) return sel_share(of, out);
    if (type->value_type) return decode_keys(of, type, out);
    sel_column *children = calloc(type->child_count + 1, sizeof *children);
    sel_status status = children ? decode_children(of, type, children, out) : SEL_ERROR_OUT_OF_MEMORY;
    for (size_t i = 0; children && i < type->child_count; i++) sel_free(&children[i]);
    free(children);
    return status;
}

/* Returns a type without dictionaries, at every depth; or NULL if out of memory. A dictionary may have nulls whatever its flags and those of the
 * keys are: then the type is nullable. */
static node *decoded_type(const node *of) {
    if (of->value_type) {
        node *values = decoded_type(of->value_type);
        int64_t flags = of->flags | (sel_null_count(&of->values) > 0 ? ARROW_FLAG_NULLABLE : 0);
        node *it = values ? sel_arrow_node_under(values, of->name, of->metadata, of->metadata_len, flags) : NULL;
        sel_arrow_node_free(values);
        return it;
    }
    node *it = sel_arrow_node(of->text, of->name, of->metadata, of->metadata_len, of->flags, of->child_count);
    for (size_t i = 0; it && i < of->child_count; i++) {
        it->children[i] = decoded_type(of->children[i]);
        if (it->children[i]) continue;
        sel_arrow_node_free(it);
        return NULL;
    }
    return it;
}

sel_status sel_decode(const sel_column *of, const sel_type *type, sel_column *out, sel_type *out_type) {
    sel_column made = {0};
    node *it = NULL;
    if (sel_type_of(of) == SEL_TYPE_NONE || !node_of(type)) return SEL_ERROR_NO_COLUMN;
    sel_status status = sel_arrow_check_fits(of, type->at);
    if (status == SEL_OK) status = decode_column(of, type->at, &made);
    if (status == SEL_OK && !(it = decoded_type(type->at))) status = SEL_ERROR_OUT_OF_MEMORY;
    if (status != SEL_OK) {
        sel_free(&made);
        return status;
    }
    sel_free(out);
    *out = made;
    sel_arrow_put(out_type, it);
    return SEL_OK;
}

/* ---- the common type of columns */

/* Tests whether the metadata of two fields have equal bytes under a key. A missing key is equal to an empty value. */
static bool is_equal_value(const node *a, const node *b, const char *key) {
    size_t len = 0, other_len = 0;
    const char *value = sel_arrow_metadata_value(a->metadata, key, &len);
    const char *other = sel_arrow_metadata_value(b->metadata, key, &other_len);
    if (!value || !other) return (!value || len == 0) && (!other || other_len == 0);
    return len == other_len && !memcmp(value, other, len);
}

/* Tests whether two fields have the same extension type, with the same parameters, or none. */
static bool is_equal_extension(const node *a, const node *b) {
    if (sel_arrow_has_extension(a->metadata) != sel_arrow_has_extension(b->metadata)) return false;
    if (!sel_arrow_has_extension(a->metadata)) return true;
    return is_equal_value(a, b, "ARROW:extension:name") && is_equal_value(a, b, "ARROW:extension:metadata");
}

static bool is_equal_name(const node *a, const node *b) { return !strcmp(a->name ? a->name : "", b->name ? b->name : ""); }

static bool is_compatible(const node *a, const node *b, bool by_name);

/* Tests whether two dictionaries have equal rows; keys with and without a dictionary have not. */
static bool has_same_dictionary(const node *a, const node *b) {
    bool is_equal = false;
    if (!a->value_type || !b->value_type) return a->value_type == b->value_type;
    if (!is_compatible(a->value_type, b->value_type, true) || sel_type_of(&a->values) != sel_type_of(&b->values)) return false;
    return sel_equal_rows(&a->values, &b->values, &is_equal) == SEL_OK && is_equal;
}

/* Tests whether the rows of two types have the same meaning, the dictionaries included. The fields of structs have the same names;
 * those of the entries of maps, which are not compared by name, need not. */
static bool is_compatible(const node *a, const node *b, bool by_name) {
    if (a == b) return true;
    if (!sel_arrow_is_same_format(a->text, b->text) || !is_equal_extension(a, b) || a->child_count != b->child_count) return false;
    for (size_t i = 0; i < a->child_count; i++) {
        if (by_name && a->format.layout == STRUCTS && !is_equal_name(a->children[i], b->children[i])) return false;
        if (!is_compatible(a->children[i], b->children[i], !a->format.is_map)) return false;
    }
    return has_same_dictionary(a, b);
}

/* Returns the first type, nullable wherever the other one is, too, and with sorted keys or an ordered dictionary where both are; or NULL if out
 * of memory. */
static node *merged(node *a, const node *b) {
    const int64_t of_both = ARROW_FLAG_DICTIONARY_ORDERED | ARROW_FLAG_MAP_KEYS_SORTED;
    int64_t flags = (a->flags & (b->flags | ~of_both)) | (b->flags & ARROW_FLAG_NULLABLE);
    node *it = sel_arrow_node_renamed(a, a->name, flags);
    for (size_t i = 0; it && i < a->child_count; i++) {
        node *child = merged(a->children[i], b->children[i]);
        if (!child) {
            sel_arrow_node_free(it);
            return NULL;
        }
        sel_arrow_node_free(it->children[i]);
        it->children[i] = child;
    }
    return it;
}

/* Columns with their types. */
typedef struct set {
    sel_column *columns;
    node **types;
    size_t len;
} set;

static void free_types(node **types, size_t len) {
    for (size_t i = 0; types && i < len; i++) sel_arrow_node_free(types[i]);
    free(types);
}

static void free_set(set *it) {
    for (size_t i = 0; it->columns && i < it->len; i++) sel_free(&it->columns[i]);
    free(it->columns);
    free_types(it->types, it->len);
}

static sel_status make_set(const sel_column *columns, const sel_type *types, size_t len, set *out) {
    *out = (set){calloc(len + 1, sizeof *out->columns), calloc(len + 1, sizeof *out->types), len};
    sel_status status = out->columns && out->types ? SEL_OK : SEL_ERROR_OUT_OF_MEMORY;
    for (size_t i = 0; status == SEL_OK && i < len; i++) {
        status = sel_share(&columns[i], &out->columns[i]);
        out->types[i] = sel_arrow_node_share(types[i].at);
        if (status == SEL_OK && !types[i].at) status = sel_arrow_node_of_column(&columns[i], "", &out->types[i]);
        if (status == SEL_OK) status = sel_arrow_check_storage(&columns[i], out->types[i]);
    }
    return status;
}

static bool all_compatible(node *const *types, size_t len) {
    for (size_t i = 1; i < len; i++)
        if (!is_compatible(types[0], types[i], true)) return false;
    return true;
}

/* Returns the types without dictionaries. SEL_ERROR_TYPE_MISMATCH if they differ all the same. */
static sel_status decoded_types(const set *it, node ***out) {
    node **types = calloc(it->len + 1, sizeof *types);
    sel_status status = types ? SEL_OK : SEL_ERROR_OUT_OF_MEMORY;
    for (size_t i = 0; status == SEL_OK && i < it->len; i++) {
        types[i] = sel_arrow_has_dictionary(it->types[i]) ? decoded_type(it->types[i]) : sel_arrow_node_share(it->types[i]);
        if (!types[i]) status = SEL_ERROR_OUT_OF_MEMORY;
    }
    if (status == SEL_OK && !all_compatible(types, it->len)) status = SEL_ERROR_TYPE_MISMATCH;
    if (status == SEL_OK) *out = types;
    else free_types(types, it->len);
    return status;
}

static sel_status check_dictionaries(const set *it) {
    sel_status status = SEL_OK;
    for (size_t i = 0; status == SEL_OK && i < it->len; i++) status = sel_arrow_check_dictionaries(it->types[i]);
    for (size_t i = 0; status == SEL_OK && i < it->len; i++) status = sel_arrow_check_keys(&it->columns[i], it->types[i]);
    return status;
}

static sel_status decode_columns(set *it) {
    sel_status status = SEL_OK;
    for (size_t i = 0; status == SEL_OK && i < it->len; i++) {
        sel_column made = {0};
        status = decode_column(&it->columns[i], it->types[i], &made);
        if (status != SEL_OK) break;
        sel_free(&it->columns[i]);
        it->columns[i] = made;
    }
    return status;
}

/* Leaves the columns as they are if their types agree, else decodes them. All errors of types come before those of dictionaries. */
static sel_status make_compatible(set *it) {
    node **types = NULL;
    sel_status status = all_compatible(it->types, it->len) ? SEL_OK : decoded_types(it, &types);
    if (status == SEL_OK) status = check_dictionaries(it);
    if (status != SEL_OK || !types) {
        free_types(types, it->len);
        return status;
    }
    status = decode_columns(it);
    free_types(it->types, it->len);
    it->types = types;
    return status;
}

/* Merges all types into the first one. */
static sel_status merge_types(set *it) {
    for (size_t i = 1; i < it->len; i++) {
        node *type = it->types[0] == it->types[i] ? sel_arrow_node_share(it->types[0]) : merged(it->types[0], it->types[i]);
        if (!type) return SEL_ERROR_OUT_OF_MEMORY;
        sel_arrow_node_free(it->types[0]);
        it->types[0] = type;
    }
    return SEL_OK;
}

sel_status sel_common_type(const sel_column *columns, const sel_type *types, size_t len, sel_column *out, sel_type *out_type) {
    set it;
    for (size_t i = 0; i < len; i++)
        if (sel_type_of(&columns[i]) == SEL_TYPE_NONE) return SEL_ERROR_NO_COLUMN;
    if (len == 0) return SEL_ERROR_LENGTH_MISMATCH;
    sel_status status = make_set(columns, types, len, &it);
    if (status == SEL_OK) status = make_compatible(&it);
    if (status == SEL_OK) status = merge_types(&it);
    if (status == SEL_OK) {
        for (size_t i = 0; i < len; i++) {
            sel_column made = it.columns[i];
            it.columns[i] = out[i];
            out[i] = made;
        }
        sel_arrow_put(out_type, sel_arrow_node_share(it.types[0]));
    }
    free_set(&it);
    return status;
}
