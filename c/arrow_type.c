/* Logical types: the fields of schemas, shared by atomic counts. */
#include "arrow_internal.h"

#include <stdio.h>
#include <stdlib.h>
#include <string.h>

static char *copied(const char *bytes, size_t len) {
    char *copy = malloc(len + 1);
    if (!copy) return NULL;
    if (len > 0) memcpy(copy, bytes, len);
    copy[len] = 0;
    return copy;
}

static char *copied_text(const char *text) { return copied(text, strlen(text)); }

node *sel_arrow_node(const char *text, const char *name, const char *metadata, size_t metadata_len, int64_t flags, size_t children) {
    node *it = calloc(1, sizeof *it);
    if (!it) return NULL;
    atomic_init(&it->count, 1);
    it->flags = flags;
    it->metadata_len = metadata_len;
    it->text = copied_text(text);
    it->name = name ? copied_text(name) : NULL;
    it->metadata = metadata ? copied(metadata, metadata_len) : NULL;
    it->children = calloc(children + 1, sizeof(node *));
    it->child_count = it->children ? children : 0;
    bool holds = it->text && it->children && (it->name || !name) && (it->metadata || !metadata);
    if (holds && sel_arrow_read_format(text, it->metadata, &it->format) == SEL_OK) return it;
    sel_arrow_node_free(it);
    return NULL;
}

node *sel_arrow_node_share(node *of) {
    if (of) atomic_fetch_add_explicit(&of->count, 1, memory_order_relaxed);
    return of;
}

void sel_arrow_node_free(node *of) {
    if (!of || atomic_fetch_sub_explicit(&of->count, 1, memory_order_acq_rel) != 1) return;
    for (size_t i = 0; i < of->child_count; i++) sel_arrow_node_free(of->children[i]);
    sel_arrow_node_free(of->value_type);
    sel_free(&of->values);
    free(of->children);
    free(of->text);
    free(of->name);
    free(of->metadata);
    free(of);
}

/* Returns a level with other metadata, name and flags. */
static node *changed(const node *of, const char *name, const char *metadata, size_t metadata_len, int64_t flags) {
    node *it = sel_arrow_node(of->text, name, metadata, metadata_len, flags, of->child_count);
    if (!it) return NULL;
    for (size_t i = 0; i < of->child_count; i++) it->children[i] = sel_arrow_node_share(of->children[i]);
    it->value_type = sel_arrow_node_share(of->value_type);
    if (sel_type_of(&of->values) == SEL_TYPE_NONE || sel_share(&of->values, &it->values) == SEL_OK) return it;
    sel_arrow_node_free(it);
    return NULL;
}

node *sel_arrow_node_renamed(const node *of, const char *name, int64_t flags) {
    return changed(of, name, of->metadata, of->metadata_len, flags);
}

/* Tests whether values have the same type under other metadata: they have no extension type, and it does not change their storage. */
static bool keeps_type(const node *values, const char *metadata) {
    format format;
    if (sel_arrow_has_extension(values->metadata)) return false;
    return sel_arrow_read_format(values->text, metadata, &format) == SEL_OK && format.storage == values->format.storage;
}

node *sel_arrow_node_under(const node *values, const char *name, const char *metadata, size_t metadata_len, int64_t flags) {
    int64_t all = values->flags | (flags & ARROW_FLAG_NULLABLE);
    if (metadata && keeps_type(values, metadata)) return changed(values, name, metadata, metadata_len, all);
    return sel_arrow_node_renamed(values, name, all);
}

void sel_arrow_put(sel_type *out, node *type) {
    node *before = out->at;
    out->at = type;
    sel_arrow_node_free(before);
}

bool sel_arrow_has_dictionary(const node *of) {
    if (of->value_type) return true;
    for (size_t i = 0; i < of->child_count; i++)
        if (sel_arrow_has_dictionary(of->children[i])) return true;
    return false;
}

/* ---- the type of a column that has none */

static const char *storage_format(const sel_column *of, char room[32], const char **metadata) {
    static const char *const formats[] = {"n", "b", "c", "s", "i", "l", "d:38,0,128", "C", "S", "I", "L", "w:16", "Z", "vz", "vu", "+L", "+w:", "+s"};
    sel_type_id storage = sel_type_of(of);
    size_t width = 0;
    *metadata = storage == SEL_TYPE_UINT128 ? sel_arrow_uint128_metadata() : NULL;
    if (storage != SEL_TYPE_FIXED_SIZE_LIST) return formats[storage];
    sel_fixed_size_list_size(of, &width);
    snprintf(room, 32, "+w:%zu", width);
    return room;
}

/* Returns the number of children of a column, and sets one of them. */
static size_t children_of(const sel_column *of) {
    size_t count = 0;
    if (sel_type_of(of) == SEL_TYPE_STRUCT) sel_field_count(of, &count);
    else if (sel_type_of(of) == SEL_TYPE_LIST || sel_type_of(of) == SEL_TYPE_FIXED_SIZE_LIST) count = 1;
    return count;
}

sel_status sel_arrow_node_of_column(const sel_column *of, const char *name, node **out) {
    if (sel_type_of(of) >= SEL_TYPE_NONE) return SEL_ERROR_NO_COLUMN;
    char room[32];
    const char *metadata, *text = storage_format(of, room, &metadata);
    size_t count = children_of(of), metadata_len = 0;
    bool is_struct = sel_type_of(of) == SEL_TYPE_STRUCT;
    sel_status status = sel_arrow_metadata_len(metadata, &metadata_len);
    node *it = sel_arrow_node(text, name, metadata, metadata_len, ARROW_FLAG_NULLABLE, count);
    if (!it) return SEL_ERROR_OUT_OF_MEMORY;
    for (size_t i = 0; status == SEL_OK && i < count; i++) {
        sel_column child = {0};
        char number[24];
        snprintf(number, sizeof number, "%zu", i);
        status = is_struct ? sel_field(of, i, &child) : sel_child(of, &child);
        if (status == SEL_OK) status = sel_arrow_node_of_column(&child, is_struct ? number : "item", &it->children[i]);
        sel_free(&child);
    }
    if (status == SEL_OK) *out = it;
    else sel_arrow_node_free(it);
    return status;
}

/* ---- the calls on types */

sel_status sel_type_of_storage(const sel_column *of, sel_type *out) {
    node *it = NULL;
    sel_status status = sel_arrow_node_of_column(of, "", &it);
    if (status == SEL_OK) sel_arrow_put(out, it);
    return status;
}

/* Checks that a format can be that of a type with this number of children. */
static sel_status check_new(const char *text, size_t children) {
    format format;
    sel_status status = sel_arrow_read_format(text, NULL, &format);
    if (status != SEL_OK) return status;
    if (format.layout == LIST_VIEWS || format.layout == RUNS) return SEL_ERROR_ARROW_FORMAT;
    if (format.layout == STRUCTS) return children <= MAX_COUNT ? SEL_OK : SEL_ERROR_ARROW_CHILDREN;
    return children == (format.layout == LISTS || format.layout == FIXED_LISTS ? 1 : 0) ? SEL_OK : SEL_ERROR_ARROW_CHILDREN;
}

static unsigned levels_of(const node *of) {
    unsigned most = of->value_type ? levels_of(of->value_type) : 0;
    for (size_t i = 0; i < of->child_count; i++) {
        unsigned levels = levels_of(of->children[i]);
        if (levels > most) most = levels;
    }
    return most + (of->value_type || sel_arrow_is_nested(of->format.layout));
}

sel_status sel_type_new(const char *format, const sel_type *children, size_t children_len, sel_type *out) {
    for (size_t i = 0; i < children_len; i++)
        if (!children[i].at) return SEL_ERROR_NO_COLUMN;
    sel_status status = check_new(format, children_len);
    if (status != SEL_OK) return status;
    if (!strcmp(format, "+m")) {
        const node *entries = children[0].at;
        if (entries->format.layout != STRUCTS || entries->child_count != 2) return SEL_ERROR_ARROW_CHILDREN;
    }
    for (size_t i = 0; i < children_len; i++)
        if (levels_of(children[i].at) >= MAX_LEVELS) return SEL_ERROR_TOO_DEEP;
    node *it = sel_arrow_node(format, "", NULL, 0, ARROW_FLAG_NULLABLE, children_len);
    if (!it) return SEL_ERROR_OUT_OF_MEMORY;
    for (size_t i = 0; i < children_len; i++) it->children[i] = sel_arrow_node_share(children[i].at);
    sel_arrow_put(out, it);
    return SEL_OK;
}

sel_status sel_type_dictionary_new(const char *format, const sel_column *values, const sel_type *type, bool is_ordered, sel_type *out) {
    node *value_type = sel_arrow_node_share(node_of(type));
    sel_status status = sel_type_of(values) == SEL_TYPE_NONE ? SEL_ERROR_NO_COLUMN : SEL_OK;
    if (status == SEL_OK && (strlen(format) != 1 || !strchr("cCsSiIlL", format[0]))) status = SEL_ERROR_ARROW_FORMAT;
    if (status == SEL_OK && !value_type) status = sel_arrow_node_of_column(values, "", &value_type);
    if (status == SEL_OK) status = sel_arrow_check_fits(values, value_type);
    if (status == SEL_OK && levels_of(value_type) >= MAX_LEVELS) status = SEL_ERROR_TOO_DEEP;
    int64_t flags = ARROW_FLAG_NULLABLE | (is_ordered ? ARROW_FLAG_DICTIONARY_ORDERED : 0);
    node *it = status == SEL_OK ? sel_arrow_node(format, "", NULL, 0, flags, 0) : NULL;
    if (status == SEL_OK) status = it ? sel_share(values, &it->values) : SEL_ERROR_OUT_OF_MEMORY;
    if (status == SEL_OK) {
        it->value_type = value_type;
        sel_arrow_put(out, it);
        return SEL_OK;
    }
    sel_arrow_node_free(value_type);
    sel_arrow_node_free(it);
    return status;
}

sel_status sel_type_as_field(const sel_type *of, const char *name, bool is_nullable, sel_type *out) {
    const node *from = node_of(of);
    if (!from) return SEL_ERROR_NO_COLUMN;
    int64_t flags = is_nullable ? from->flags | ARROW_FLAG_NULLABLE : from->flags & ~(int64_t)ARROW_FLAG_NULLABLE;
    node *it = sel_arrow_node_renamed(from, name, flags);
    if (!it) return SEL_ERROR_OUT_OF_MEMORY;
    sel_arrow_put(out, it);
    return SEL_OK;
}

sel_status sel_type_share(const sel_type *of, sel_type *out) {
    if (!node_of(of)) return SEL_ERROR_NO_COLUMN;
    sel_arrow_put(out, sel_arrow_node_share(of->at));
    return SEL_OK;
}

void sel_type_free(sel_type *of) { sel_arrow_put(of, NULL); }

static bool is_equal_text(const char *a, const char *b) { return a && b ? !strcmp(a, b) : a == b; }

static bool is_equal_node(const node *a, const node *b) {
    if (a == b) return true;
    if (!a || !b) return false;
    if (!sel_arrow_is_equal_format(a->text, b->text) || !is_equal_text(a->name, b->name) || a->flags != b->flags) return false;
    if (!a->metadata != !b->metadata || a->metadata_len != b->metadata_len || a->child_count != b->child_count) return false;
    if (a->metadata && memcmp(a->metadata, b->metadata, a->metadata_len) != 0) return false;
    for (size_t i = 0; i < a->child_count; i++)
        if (!is_equal_node(a->children[i], b->children[i])) return false;
    return is_equal_node(a->value_type, b->value_type);
}

bool sel_type_equal(const sel_type *of, const sel_type *other) { return is_equal_node(node_of(of), node_of(other)); }

size_t sel_type_child_count(const sel_type *of) { return node_of(of) ? node_of(of)->child_count : 0; }

sel_status sel_type_child(const sel_type *of, size_t i, sel_type *out) {
    const node *it = node_of(of);
    if (!it) return SEL_ERROR_NO_COLUMN;
    if (i >= it->child_count) return SEL_ERROR_INDEX_OUT_OF_BOUNDS;
    sel_arrow_put(out, sel_arrow_node_share(it->children[i]));
    return SEL_OK;
}

const char *sel_type_name(const sel_type *of) { return node_of(of) ? node_of(of)->name : NULL; }

const char *sel_type_arrow_format(const sel_type *of) { return node_of(of) ? node_of(of)->text : NULL; }

sel_status sel_type_dictionary(const sel_type *of, sel_column *values, sel_type *type) {
    const node *it = node_of(of);
    if (!it) return SEL_ERROR_NO_COLUMN;
    if (!it->value_type || sel_type_of(&it->values) == SEL_TYPE_NONE) return SEL_ERROR_ARROW_DICTIONARY;
    sel_status status = sel_share(&it->values, values);
    if (status == SEL_OK) sel_arrow_put(type, sel_arrow_node_share(it->value_type));
    return status;
}
