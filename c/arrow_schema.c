/* Logical types from schemas of the Arrow C Data Interface, and schemas from types. */
#include "arrow_internal.h"

#include <stdlib.h>
#include <string.h>

/* ---- from schemas */

/* Returns the number of children of a layout, or -1 if it may have any number. */
static int64_t children_of(enum layout layout) {
    if (layout == STRUCTS) return -1;
    return layout == RUNS ? 2 : layout == LISTS || layout == LIST_VIEWS || layout == FIXED_LISTS;
}

static bool is_integer(const char *text) { return strlen(text) == 1 && strchr("cCsSiIlL", text[0]); }

/* Tests whether a schema can have so many children. */
static bool has_right_count(const Schema *schema, const format *format) {
    int64_t wanted = children_of(format->layout), count = schema->n_children;
    return count >= 0 && count <= MAX_COUNT && (wanted < 0 || count == wanted);
}

/* Checks the number of children of a schema, and that none is missing. */
static sel_status check_children(const Schema *schema, const format *format) {
    int64_t count = schema->n_children;
    if (!has_right_count(schema, format) || (count > 0 && !schema->children)) return SEL_ERROR_ARROW_CHILDREN;
    for (int64_t i = 0; i < count; i++)
        if (!schema->children[i]) return SEL_ERROR_ARROW_CHILDREN;
    return SEL_OK;
}

/* Checks that the entries of a map are structs of a key and a value. */
static sel_status check_entries(const node *entries) {
    return entries->format.layout == STRUCTS && entries->child_count == 2 ? SEL_OK : SEL_ERROR_ARROW_CHILDREN;
}

/* Checks that run ends are signed integers of 16, 32 or 64 bits. */
static sel_status check_ends(const Schema *ends) {
    if (!ends->release) return SEL_ERROR_ARROW_RELEASED;
    bool is_signed = ends->format && strlen(ends->format) == 1 && strchr("sil", ends->format[0]) && !ends->dictionary;
    return is_signed ? SEL_OK : SEL_ERROR_ARROW_FORMAT;
}

static sel_status read_children(const Schema *schema, unsigned depth, node *it) {
    sel_status status = SEL_OK;
    for (size_t i = 0; status == SEL_OK && i < it->child_count; i++) status = sel_arrow_read_schema(schema->children[i], depth + 1, &it->children[i]);
    return status;
}

/* Reads a schema with run ends and values, which becomes one of values. */
static sel_status read_runs(const Schema *schema, size_t metadata_len, unsigned depth, node **out) {
    node *ends = NULL, *values = NULL;
    sel_status status = check_ends(schema->children[0]);
    if (status == SEL_OK) status = sel_arrow_read_schema(schema->children[0], depth + 1, &ends);
    if (status == SEL_OK) status = sel_arrow_read_schema(schema->children[1], depth + 1, &values);
    if (status == SEL_OK && !(*out = sel_arrow_node_under(values, schema->name, schema->metadata, metadata_len, schema->flags))) status = SEL_ERROR_OUT_OF_MEMORY;
    sel_arrow_node_free(ends);
    sel_arrow_node_free(values);
    return status;
}

sel_status sel_arrow_read_schema(const Schema *schema, unsigned depth, node **out) {
    size_t metadata_len = 0;
    format format;
    if (!schema->release) return SEL_ERROR_ARROW_RELEASED;
    sel_status status = sel_arrow_metadata_len(schema->metadata, &metadata_len);
    if (status == SEL_OK) status = sel_arrow_read_format(schema->format, schema->metadata, &format);
    if (status != SEL_OK) return status;
    if (schema->dictionary && !is_integer(schema->format)) return SEL_ERROR_ARROW_DICTIONARY;
    if ((sel_arrow_is_nested(format.layout) || schema->dictionary) && depth >= MAX_LEVELS) return SEL_ERROR_TOO_DEEP;
    if ((status = check_children(schema, &format)) != SEL_OK) return status;
    if (format.layout == RUNS) return read_runs(schema, metadata_len, depth, out);
    const char *text = format.layout == LIST_VIEWS ? (format.wide ? "+L" : "+l") : schema->format;
    node *it = sel_arrow_node(text, schema->name, schema->metadata, metadata_len, schema->flags, (size_t)schema->n_children);
    if (!it) return SEL_ERROR_OUT_OF_MEMORY;
    status = read_children(schema, depth, it);
    if (status == SEL_OK && format.is_map) status = check_entries(it->children[0]);
    if (status == SEL_OK && schema->dictionary) status = sel_arrow_read_schema(schema->dictionary, depth + 1, &it->value_type);
    if (status == SEL_OK) *out = it;
    else sel_arrow_node_free(it);
    return status;
}

sel_status sel_type_import(const struct ArrowSchema *schema, sel_type *out) {
    node *it = NULL;
    sel_status status = sel_arrow_read_schema(schema, 0, &it);
    if (status == SEL_OK) sel_arrow_put(out, it);
    return status;
}

/* Stops the whole search below 128 levels, as an import does: a schema that is below itself has no end. Of a schema with another number of
 * children than its format has, which an import does not read, no child is looked at. */
static const char *find_unsupported(const Schema *schema, unsigned depth, bool *stops) {
    size_t metadata_len = 0;
    format format;
    *stops |= depth > MAX_LEVELS;
    if (*stops || !schema || !schema->release || sel_arrow_metadata_len(schema->metadata, &metadata_len) != SEL_OK) return NULL;
    if (!schema->format) return "";
    if (sel_arrow_read_format(schema->format, schema->metadata, &format) == SEL_ERROR_ARROW_FORMAT) return schema->format;
    bool has_ends = format.layout == RUNS && schema->n_children == 2 && schema->children && schema->children[0];
    if (has_ends && check_ends(schema->children[0]) == SEL_ERROR_ARROW_FORMAT) return schema->children[0]->format ? schema->children[0]->format : "";
    const char *found = NULL;
    int64_t count = schema->children && has_right_count(schema, &format) ? schema->n_children : 0;
    for (int64_t i = 0; !found && !*stops && i < count; i++) found = find_unsupported(schema->children[i], depth + 1, stops);
    return found ? found : find_unsupported(schema->dictionary, depth + 1, stops);
}

const char *sel_unsupported_format(const struct ArrowSchema *schema) {
    bool stops = false;
    return find_unsupported(schema, 0, &stops);
}

/* ---- to schemas */

static void release_schema(Schema *schema) {
    for (int64_t i = 0; i < schema->n_children; i++) {
        Schema *child = schema->children[i];
        if (child && child->release) child->release(child);
        free(child);
    }
    if (schema->dictionary && schema->dictionary->release) schema->dictionary->release(schema->dictionary);
    free(schema->dictionary);
    free(schema->children);
    sel_arrow_node_free(schema->private_data);
    schema->release = NULL;
}

/* Writes a schema whose texts are those of the type, which it shares. On error its release frees what it has. */
static sel_status write_schema(node *of, Schema *out) {
    memset(out, 0, sizeof *out);
    out->format = of->text;
    out->name = of->name;
    out->metadata = of->metadata;
    out->flags = of->flags;
    out->release = release_schema;
    out->private_data = sel_arrow_node_share(of);
    out->children = calloc(of->child_count + 1, sizeof *out->children);
    if (!out->children) return SEL_ERROR_OUT_OF_MEMORY;
    out->n_children = (int64_t)of->child_count;
    sel_status status = SEL_OK;
    for (size_t i = 0; status == SEL_OK && i < of->child_count; i++) {
        out->children[i] = calloc(1, sizeof(Schema));
        status = out->children[i] ? write_schema(of->children[i], out->children[i]) : SEL_ERROR_OUT_OF_MEMORY;
    }
    if (status != SEL_OK || !of->value_type) return status;
    out->dictionary = calloc(1, sizeof(Schema));
    return out->dictionary ? write_schema(of->value_type, out->dictionary) : SEL_ERROR_OUT_OF_MEMORY;
}

sel_status sel_type_export(const sel_type *of, struct ArrowSchema *schema) {
    memset(schema, 0, sizeof *schema);
    if (!node_of(of)) return SEL_ERROR_NO_COLUMN;
    sel_status status = write_schema(of->at, schema);
    if (status != SEL_OK) schema->release(schema);
    return status;
}
