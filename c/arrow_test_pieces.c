/* The arrays that the tests of the Arrow interface make, and an independent reader of rows and schemas. */
#include "arrow_test.h"

#include <stdio.h>
#include <stdlib.h>
#include <string.h>

int released;

/* ---- arrays */

enum { PIECES = 64, MOST_BUFFERS = 5 };

static struct ArrowArray arrays[PIECES], *array_children[PIECES][PIECES];
static struct ArrowSchema schemas[PIECES], *schema_children[PIECES][PIECES];
static const void *buffers[PIECES][MOST_BUFFERS];
static int pieces;

void release_array(struct ArrowArray *array) {
    released++;
    array->release = NULL;
}

void keep_array(struct ArrowArray *array) { array->release = NULL; }

static void release_schema(struct ArrowSchema *schema) { schema->release = NULL; }

struct ArrowSchema type_of_format(const char *format) {
    return (struct ArrowSchema){.format = format, .name = "", .flags = ARROW_FLAG_NULLABLE, .release = release_schema};
}

void forget_pieces(void) { pieces = 0; }

piece piece_of(const char *format, int64_t length, int64_t offset, int64_t n_buffers, const void *first, const void *second, const void *third) {
    int i = pieces++;
    if (i >= PIECES) printf("too many pieces\n"), exit(2);
    buffers[i][0] = first;
    buffers[i][1] = second;
    buffers[i][2] = third;
    arrays[i] = (struct ArrowArray){.length = length, .null_count = -1, .offset = offset, .n_buffers = n_buffers, .buffers = buffers[i], .release = release_array};
    schemas[i] = type_of_format(format);
    return (piece){&arrays[i], &schemas[i]};
}

piece piece_over(piece it, int64_t n_children, const piece *children, const char *const *names) {
    size_t own = (size_t)(it.array - arrays);
    for (int64_t i = 0; i < n_children; i++) {
        array_children[own][i] = children[i].array;
        schema_children[own][i] = children[i].schema;
        if (names) children[i].schema->name = names[i];
    }
    it.array->n_children = it.schema->n_children = n_children;
    it.array->children = array_children[own];
    it.schema->children = schema_children[own];
    return it;
}

piece piece_with(piece keys, piece dictionary) {
    keys.array->dictionary = dictionary.array;
    keys.schema->dictionary = dictionary.schema;
    return keys;
}

sel_status import_piece(piece it, sel_column *out, sel_type *type) {
    struct ArrowArray array = *it.array;
    return sel_import(&array, it.schema, out, type);
}

/* ---- texts of columns and types */

enum { TEXT_ROOM = 512 };

static bool is_text(const char *text, size_t len, const char *wanted) {
    bool is_equal = len == strlen(wanted) && !memcmp(text, wanted, len);
    if (!is_equal) printf("%.*s instead of %s\n", (int)len, text, wanted);
    return is_equal;
}

bool shows(const sel_column *column, const char *wanted) {
    char text[TEXT_ROOM];
    size_t len = 0;
    return sel_print(column, (uint8_t *)text, sizeof text, &len) == SEL_OK && is_text(text, len, wanted);
}

bool prints(const sel_type *type, const char *wanted) {
    char text[TEXT_ROOM];
    size_t len = 0;
    return sel_type_format(type, (uint8_t *)text, sizeof text, &len) == SEL_OK && is_text(text, len, wanted);
}

/* ---- an independent reader */

typedef struct writer {
    char *out;
    size_t room, len;
} writer;

static void put(writer *w, const char *text) {
    for (; *text && w->len + 1 < w->room; text++) w->out[w->len++] = *text;
    w->out[w->len] = 0;
}

/* Writes bytes from byte `from` of a buffer on, which may be a null pointer if there are none. */
static void put_hex(writer *w, const void *buffer, size_t from, size_t len) {
    for (size_t i = 0; i < len; i++) {
        char two[3];
        snprintf(two, sizeof two, "%02x", ((const uint8_t *)buffer)[from + i]);
        put(w, two);
    }
}

static int64_t offset_at(const void *at, int64_t i, bool wide) { return wide ? ((const int64_t *)at)[i] : ((const int32_t *)at)[i]; }

/* Returns the number of bytes of a format with values of one size, or 0. */
static size_t size_of_format(const char *format) {
    static const char *const by_size[][16] = {
        {"c", "C"}, {"s", "S", "e"}, {"i", "I", "f", "tdD", "tts", "ttm", "tiM"}, {"l", "L", "g", "tdm", "ttu", "ttn", "tDs", "tDm", "tDu", "tDn", "tiD"}, {"tin"},
    };
    for (size_t i = 0; i < 5; i++)
        for (size_t k = 0; by_size[i][k]; k++)
            if (!strcmp(by_size[i][k], format)) return (size_t)1 << i;
    if (!strncmp(format, "ts", 2)) return 8;
    if (!strncmp(format, "w:", 2)) return (size_t)atoi(format + 2);
    if (strncmp(format, "d:", 2) != 0) return 0;
    const char *bits = strchr(strchr(format, ',') + 1, ',');
    return bits ? (size_t)atoi(bits + 1) / 8 : 16;
}

static void put_row(writer *w, const struct ArrowArray *array, const struct ArrowSchema *schema, int64_t row);

static void put_rows(writer *w, const struct ArrowArray *array, const struct ArrowSchema *schema, int64_t from, int64_t to) {
    put(w, "[");
    for (int64_t i = from; i < to; i++) put_row(w, array, schema, i), put(w, ",");
    put(w, "]");
}

static void put_nested(writer *w, const struct ArrowArray *array, const struct ArrowSchema *schema, int64_t at) {
    const char *format = schema->format;
    if (!strcmp(format, "+s")) {
        put(w, "(");
        for (int64_t i = 0; i < array->n_children; i++) put_row(w, array->children[i], schema->children[i], at), put(w, ",");
        put(w, ")");
    } else if (!strncmp(format, "+w:", 3)) {
        int64_t size = atoi(format + 3);
        put_rows(w, array->children[0], schema->children[0], at * size, (at + 1) * size);
    } else if (format[1] == 'v') {
        int64_t from = offset_at(array->buffers[1], at, format[2] == 'L'), size = offset_at(array->buffers[2], at, format[2] == 'L');
        put_rows(w, array->children[0], schema->children[0], from, from + size);
    } else {
        bool wide = format[1] == 'L';
        put_rows(w, array->children[0], schema->children[0], offset_at(array->buffers[1], at, wide), offset_at(array->buffers[1], at + 1, wide));
    }
}

static void put_bytes(writer *w, const struct ArrowArray *array, const char *format, int64_t at) {
    if (format[0] == 'v') {
        const sel_view *view = (const sel_view *)array->buffers[1] + at;
        if (view->length <= 12) put_hex(w, view, sizeof view->length, view->length);
        else put_hex(w, array->buffers[2 + view->buffer], view->offset, view->length);
        return;
    }
    bool wide = format[0] == 'U' || format[0] == 'Z';
    int64_t from = offset_at(array->buffers[1], at, wide), to = offset_at(array->buffers[1], at + 1, wide);
    put_hex(w, array->buffers[2], (size_t)from, (size_t)(to - from));
}

static int64_t key_at(const struct ArrowArray *array, const char *format, int64_t at) {
    switch (format[0]) {
    case 'c': return ((const int8_t *)array->buffers[1])[at];
    case 'C': return ((const uint8_t *)array->buffers[1])[at];
    case 's': return ((const int16_t *)array->buffers[1])[at];
    case 'S': return ((const uint16_t *)array->buffers[1])[at];
    case 'i': return ((const int32_t *)array->buffers[1])[at];
    case 'I': return ((const uint32_t *)array->buffers[1])[at];
    default: return ((const int64_t *)array->buffers[1])[at];
    }
}

static void put_run(writer *w, const struct ArrowArray *array, const struct ArrowSchema *schema, int64_t at) {
    const struct ArrowArray *ends = array->children[0];
    int64_t run = 0;
    while (key_at(ends, schema->children[0]->format, run + ends->offset) <= at) run++;
    put_row(w, array->children[1], schema->children[1], run);
}

static void put_row(writer *w, const struct ArrowArray *array, const struct ArrowSchema *schema, int64_t row) {
    int64_t at = row + array->offset;
    const char *format = schema->format;
    const uint8_t *valid = array->n_buffers > 0 && array->null_count != 0 ? array->buffers[0] : NULL;
    if (!strcmp(format, "+r")) put_run(w, array, schema, at);
    else if (!strcmp(format, "n") || (valid && !(valid[at / 8] >> (at % 8) & 1))) put(w, "null");
    else if (schema->dictionary) put_row(w, array->dictionary, schema->dictionary, key_at(array, format, at));
    else if (!strcmp(format, "b")) put(w, ((const uint8_t *)array->buffers[1])[at / 8] >> (at % 8) & 1 ? "true" : "false");
    else if (format[0] == '+') put_nested(w, array, schema, at);
    else if (strchr("uUzZv", format[0])) put_bytes(w, array, format, at);
    else put_hex(w, array->buffers[1], (size_t)at * size_of_format(format), size_of_format(format));
}

void write_row(const struct ArrowArray *array, const struct ArrowSchema *schema, int64_t row, char *out, size_t room) {
    writer w = {out, room, 0};
    put(&w, "");
    put_row(&w, array, schema, row);
}

static size_t metadata_len(const char *metadata) {
    int32_t count, bytes;
    size_t len = 4;
    memcpy(&count, metadata, 4);
    for (int32_t i = 0; i < 2 * count; i++) {
        memcpy(&bytes, metadata + len, 4);
        len += 4 + (size_t)bytes;
    }
    return len;
}

static bool same_text(const char *a, const char *b) { return a && b ? !strcmp(a, b) : a == b; }

bool same_schema(const struct ArrowSchema *a, const struct ArrowSchema *b) {
    if (!same_text(a->format, b->format) || !same_text(a->name, b->name) || a->flags != b->flags || a->n_children != b->n_children) return false;
    if (!a->metadata != !b->metadata || !a->dictionary != !b->dictionary) return false;
    if (a->metadata && (metadata_len(a->metadata) != metadata_len(b->metadata) || memcmp(a->metadata, b->metadata, metadata_len(a->metadata)) != 0)) return false;
    for (int64_t i = 0; i < a->n_children; i++)
        if (!same_schema(a->children[i], b->children[i])) return false;
    return !a->dictionary || same_schema(a->dictionary, b->dictionary);
}
