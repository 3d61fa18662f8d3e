/* Tests random nested arrays: an import that lends their memory and the functions that copy it make columns with equal rows, also after
 * an export and an import of what was exported. The memory is mapped read-only, and each array is released once.
 *
 * test_lease_random COLUMNS [SEED] */
#define _DEFAULT_SOURCE
#include "sel_arrow.h"

#include <stdio.h>
#include <stdlib.h>
#include <string.h>
#include <sys/mman.h>

enum { ROOM = 1 << 18, MOST_NODES = 32, MOST_ROWS = 40 };

static unsigned long state;

static size_t below(size_t n) {
    state = state * 6364136223846793005U + 1442695040888963407U;
    return (size_t)(state >> 33) % n;
}

static void fail(const char *what, long column) {
    printf("column %ld: %s\n", column, what);
    exit(1);
}

/* ---- a producer of one nested array */

enum kind { INTEGERS, BOOLEANS, BINARY, STRINGS, VIEWS, LISTS, FIXED_LISTS, STRUCTS, KINDS };

typedef struct node {
    enum kind kind;
    size_t width, rows; /* the bytes of an integer or of an offset; the rows in the buffers */
    const uint8_t *bits;
    const void *values;
    const void *offsets;
    struct ArrowArray array, *children[2];
    struct ArrowSchema schema, *fields[2];
    const void *buffers[4];
    struct node *below[2];
} node;

typedef struct producer {
    char *memory;
    size_t used, count;
    int releases;
    node nodes[MOST_NODES];
} producer;

static void *room_for(producer *p, size_t size) {
    void *at = p->memory + p->used;
    p->used += (size + 127) / 64 * 64;
    if (p->used > ROOM) fail("no room", -1);
    return at;
}

static void *noise(producer *p, size_t size) {
    uint8_t *at = room_for(p, size);
    for (size_t i = 0; i < size; i++) at[i] = (uint8_t)below(256);
    return at;
}

static void release_root(struct ArrowArray *array) {
    producer *p = array->private_data;
    p->releases++;
    munmap(p->memory, ROOM);
    array->release = NULL;
}

static void release_child(struct ArrowArray *array) { array->release = NULL; }

static void release_schema(struct ArrowSchema *schema) { schema->release = NULL; }

static node *add(producer *p, unsigned depth, size_t least);

/* Writes offsets that do not decrease, of 4 or 8 bytes. Returns the last one. */
static size_t rising(producer *p, node *it, size_t most) {
    size_t at = below(3);
    char *out = room_for(p, (it->rows + 1) * 8);
    for (size_t i = 0; i <= it->rows; i++) {
        int32_t narrow = (int32_t)at;
        int64_t wide = (int64_t)at;
        memcpy(out + i * it->width, it->width == 4 ? (const void *)&narrow : &wide, it->width);
        if (i < it->rows) at += below(most + 1);
    }
    it->offsets = out;
    return at;
}

static const char *make_bytes(producer *p, node *it, bool texts) {
    size_t last = rising(p, it, 20);
    char *bytes = room_for(p, last + 1);
    for (size_t i = 0; i < last; i++) bytes[i] = (char)(texts ? 'a' + below(26) : below(256));
    it->values = bytes;
    it->buffers[1] = it->offsets;
    it->buffers[2] = bytes;
    it->array.n_buffers = 3;
    return texts ? (it->width == 4 ? "u" : "U") : (it->width == 4 ? "z" : "Z");
}

/* Makes views of up to 20 bytes over one data buffer. */
static const char *make_views(producer *p, node *it) {
    sel_view *views = room_for(p, it->rows * sizeof *views);
    char *bytes = room_for(p, it->rows * 20 + 1);
    int64_t *len = room_for(p, sizeof *len);
    *len = 0;
    for (size_t i = 0; i < it->rows; i++) {
        char text[20];
        uint32_t count = (uint32_t)below(21);
        for (size_t k = 0; k < count; k++) text[k] = (char)('a' + below(26));
        views[i] = (sel_view){count, 0, 0, 0};
        memcpy(&views[i].prefix, text, count < 4 ? count : 4);
        if (count > 12) {
            views[i].offset = (uint32_t)*len;
            memcpy(bytes + *len, text, count);
            *len += count;
        } else if (count > 4) memcpy((char *)&views[i] + 8, text + 4, count - 4);
    }
    it->values = views;
    it->offsets = bytes; /* the data buffer */
    it->buffers[1] = views;
    it->buffers[2] = bytes;
    it->buffers[3] = len;
    it->array.n_buffers = 4;
    return "vu";
}

static void adopt(node *it, size_t i, node *child) {
    it->below[i] = child;
    it->children[i] = &child->array;
    it->fields[i] = &child->schema;
    it->array.n_children = it->schema.n_children = (int64_t)i + 1;
    it->array.children = it->children;
    it->schema.children = it->fields;
}

static const char *make_values(producer *p, node *it, unsigned depth) {
    static const char *const integers[] = {[1] = "C", [2] = "s", [4] = "I", [8] = "l"};
    it->array.n_buffers = it->kind >= FIXED_LISTS ? 1 : 2;
    switch (it->kind) {
    case INTEGERS: it->buffers[1] = it->values = noise(p, it->rows * it->width); return integers[it->width];
    case BOOLEANS: it->buffers[1] = it->values = noise(p, it->rows / 8 + 1); return "b";
    case BINARY: return make_bytes(p, it, false);
    case STRINGS: return make_bytes(p, it, true);
    case VIEWS: return make_views(p, it);
    case LISTS:
        adopt(it, 0, add(p, depth + 1, rising(p, it, 2)));
        it->buffers[1] = it->offsets;
        return it->width == 4 ? "+l" : "+L";
    case FIXED_LISTS: adopt(it, 0, add(p, depth + 1, it->rows * 2)); return "+w:2";
    default:
        adopt(it, 0, add(p, depth + 1, it->rows));
        adopt(it, 1, add(p, depth + 1, it->rows));
        return "+s";
    }
}

/* Adds an array of at least so many rows, with the arrays below it. */
static node *add(producer *p, unsigned depth, size_t least) {
    static const size_t widths[] = {1, 2, 4, 8};
    node *it = &p->nodes[p->count++];
    size_t offset = below(2) ? below(20) : 0, length = least > 0 ? least + below(3) : below(MOST_ROWS);
    it->kind = depth < 3 && p->count < 16 ? (enum kind)below(KINDS) : (enum kind)below(LISTS);
    it->rows = offset + length;
    it->width = it->kind == INTEGERS ? widths[below(4)] : below(2) ? 4 : 8;
    it->bits = below(2) ? noise(p, it->rows / 8 + 1) : NULL;
    it->buffers[0] = it->bits;
    it->array = (struct ArrowArray){(int64_t)length, it->bits ? -1 : 0, (int64_t)offset, 0, 0, it->buffers, NULL, NULL, release_child, p};
    it->schema = (struct ArrowSchema){NULL, "", NULL, ARROW_FLAG_NULLABLE, 0, NULL, NULL, release_schema, NULL};
    it->schema.format = make_values(p, it, depth);
    return it;
}

/* ---- the copying way */

static uint8_t *packed(const uint8_t *bits, size_t from, size_t len) {
    uint8_t *out = calloc(len / 8 + 1, 1);
    for (size_t i = 0; bits && i < len; i++)
        if (bits[(from + i) / 8] >> ((from + i) % 8) & 1) out[i / 8] |= (uint8_t)(1u << (i % 8));
    return out;
}

static int64_t offset_at(const node *it, size_t i) {
    int32_t narrow;
    int64_t wide;
    memcpy(&narrow, (const char *)it->offsets + i * it->width, 4);
    memcpy(&wide, (const char *)it->offsets + i * 8 * (it->width == 8), 8 * (it->width == 8));
    return it->width == 4 ? narrow : wide;
}

static sel_status copy_of(const node *it, sel_column *out);

/* Copies the rows of a child that belong to the rows of its parent. */
static sel_status copy_part(const node *child, size_t from, size_t len, sel_column *out) {
    sel_column whole = {0};
    sel_status status = copy_of(child, &whole);
    if (status == SEL_OK) status = sel_slice(&whole, from, len, out);
    sel_free(&whole);
    return status;
}

static sel_status copy_strings(const node *it, size_t from, size_t len, const uint8_t *bits, sel_column *out) {
    sel_view *views = calloc(len + 1, sizeof *views);
    size_t end = (size_t)offset_at(it, it->rows);
    for (size_t i = 0; i < len; i++) {
        uint32_t at = (uint32_t)offset_at(it, from + i), count = (uint32_t)(offset_at(it, from + i + 1) - at);
        const char *text = (const char *)it->values + at;
        views[i] = (sel_view){count, 0, 0, 0};
        memcpy(&views[i].prefix, text, count < 4 ? count : 4);
        if (count > 12) views[i].offset = at;
        else if (count > 4) memcpy((char *)&views[i] + 8, text + 4, count - 4);
    }
    sel_status status = sel_string_view_new(views, len, &(sel_bytes_ref){it->values, end}, 1, bits, len / 8 + 1, it->bits != NULL, out);
    free(views);
    return status;
}

static sel_status copy_integers(const node *it, size_t from, size_t len, const uint8_t *bits, sel_column *out) {
    const bool has = it->bits != NULL;
    const size_t bytes = len / 8 + 1;
    switch (it->width) {
    case 1: return sel_uint8_new((const uint8_t *)it->values + from, len, bits, bytes, has, out);
    case 2: return sel_int16_new((const int16_t *)it->values + from, len, bits, bytes, has, out);
    case 4: return sel_uint32_new((const uint32_t *)it->values + from, len, bits, bytes, has, out);
    default: return sel_int64_new((const int64_t *)it->values + from, len, bits, bytes, has, out);
    }
}

static sel_status copy_values(const node *it, size_t from, size_t len, const uint8_t *bits, sel_column *out) {
    const bool has = it->bits != NULL;
    const size_t bytes = len / 8 + 1;
    sel_column children[2] = {{0}, {0}};
    int64_t *offsets = malloc((len + 1) * sizeof *offsets);
    uint8_t *truths = NULL;
    sel_status status = SEL_OK;
    for (size_t i = 0; it->offsets && it->kind != VIEWS && i <= len; i++) offsets[i] = offset_at(it, from + i);
    switch (it->kind) {
    case INTEGERS: status = copy_integers(it, from, len, bits, out); break;
    case BOOLEANS: status = sel_boolean_new(truths = packed(it->values, from, len), bytes, len, bits, bytes, has, out); break;
    case BINARY: status = sel_binary_new(offsets, len + 1, it->values, (size_t)offset_at(it, it->rows), bits, bytes, has, out); break;
    case STRINGS: status = copy_strings(it, from, len, bits, out); break;
    case VIEWS: {
        const sel_bytes_ref data = {it->offsets, (size_t)*(const int64_t *)it->buffers[3]};
        status = sel_string_view_new((const sel_view *)it->values + from, len, &data, 1, bits, bytes, has, out);
        break;
    }
    case LISTS:
        status = copy_of(it->below[0], &children[0]);
        if (status == SEL_OK) status = sel_list_new(offsets, len + 1, bits, bytes, has, &children[0], out);
        break;
    case FIXED_LISTS:
        status = copy_part(it->below[0], from * 2, len * 2, &children[0]);
        if (status == SEL_OK) status = sel_fixed_size_list_new(2, len, bits, bytes, has, &children[0], out);
        break;
    default:
        for (size_t i = 0; status == SEL_OK && i < 2; i++) status = copy_part(it->below[i], from, len, &children[i]);
        if (status == SEL_OK) status = sel_struct_new(len, bits, bytes, has, children, 2, out);
    }
    sel_free(&children[0]);
    sel_free(&children[1]);
    free(offsets);
    free(truths);
    return status;
}

static sel_status copy_of(const node *it, sel_column *out) {
    size_t from = (size_t)it->array.offset, len = (size_t)it->array.length;
    uint8_t *bits = packed(it->bits, from, len);
    sel_status status = copy_values(it, from, len, bits, out);
    free(bits);
    return status;
}

/* ---- one column */

static void check_equal(const sel_column *a, const sel_column *b, long column) {
    bool are_equal = false;
    if (sel_equal_rows(a, b, &are_equal) != SEL_OK || !are_equal) fail("rows differ", column);
}

static void try_column(long column) {
    static producer p;
    sel_column lent = {0}, copied = {0}, again = {0};
    struct ArrowArray array;
    struct ArrowSchema schema;
    memset(&p, 0, sizeof p);
    p.memory = mmap(NULL, ROOM, PROT_READ | PROT_WRITE, MAP_PRIVATE | MAP_ANONYMOUS, -1, 0);
    node *root = add(&p, 0, 0);
    root->array.release = release_root;
    mprotect(p.memory, ROOM, PROT_READ);
    if (copy_of(root, &copied) != SEL_OK) fail("no copy", column);
    if (sel_import(&root->array, &root->schema, &lent, NULL) != SEL_OK) fail("no import", column);
    check_equal(&lent, &copied, column);
    if (sel_export(&lent, NULL, &array, &schema) != SEL_OK) fail("no export", column);
    if (below(2)) sel_free(&lent);
    if (sel_import(&array, &schema, &again, NULL) != SEL_OK) fail("no import of the export", column);
    check_equal(&again, &copied, column);
    schema.release(&schema);
    sel_free(&copied);
    sel_free(&again);
    sel_free(&lent);
    if (p.releases != 1) fail("not released once", column);
}

int main(int argc, char **argv) {
    long columns = argc > 1 ? strtol(argv[1], NULL, 10) : 1000;
    state = argc > 2 ? strtoul(argv[2], NULL, 10) : 1;
    for (long i = 0; i < columns; i++) try_column(i);
    printf("%ld columns, by lending and by copying\n", columns);
    return 0;
}
