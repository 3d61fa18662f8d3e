/* Tests that imports lend the producer's memory and exports share the column's: addresses, counts of releases, every order in which
 * owners are freed, and each allocation refused. The producer's memory is mapped, and can only be read once it is imported. */
#define _DEFAULT_SOURCE
#include "sel_arrow.h"
#include "test.h"

#include <stdio.h>
#include <stdlib.h>
#include <string.h>
#include <sys/mman.h>

enum { ROOM = 1 << 16, MOST_NODES = 8, MOST_BUFFERS = 6, MOST_OWNERS = 5 };

/* ---- a producer */

typedef struct producer {
    char *memory;
    size_t used, nodes;
    int releases;
    struct ArrowArray arrays[MOST_NODES];
    struct ArrowArray *children[MOST_NODES];
    struct ArrowSchema schemas[MOST_NODES];
    struct ArrowSchema *fields[MOST_NODES];
    const void *buffers[MOST_NODES][MOST_BUFFERS];
} producer;

static void release_root(struct ArrowArray *array) {
    producer *p = array->private_data;
    p->releases++;
    munmap(p->memory, ROOM);
    array->release = NULL;
}

static void release_child(struct ArrowArray *array) { array->release = NULL; }

static void release_schema(struct ArrowSchema *schema) { schema->release = NULL; }

static void begin(producer *p) {
    memset(p, 0, sizeof *p);
    p->memory = mmap(NULL, ROOM, PROT_READ | PROT_WRITE, MAP_PRIVATE | MAP_ANONYMOUS, -1, 0);
}

/* Copies bytes into the producer's memory, aligned to 64. */
static const void *put(producer *p, const void *bytes, size_t len) {
    char *at = p->memory + p->used;
    memcpy(at, bytes, len);
    p->used += (len + 127) / 64 * 64;
    return at;
}

/* Adds an array with up to three buffers. The last node is the root. */
static struct ArrowArray *add(producer *p, const char *format, int64_t length, int64_t offset, int64_t nulls, int64_t n_buffers, const void *first, const void *second, const void *third) {
    size_t i = p->nodes++;
    p->buffers[i][0] = first, p->buffers[i][1] = second, p->buffers[i][2] = third;
    p->arrays[i] = (struct ArrowArray){length, nulls, offset, n_buffers, 0, p->buffers[i], NULL, NULL, release_child, p};
    p->schemas[i] = (struct ArrowSchema){format, "", NULL, ARROW_FLAG_NULLABLE, 0, NULL, NULL, release_schema, NULL};
    p->children[i] = &p->arrays[i];
    p->fields[i] = &p->schemas[i];
    return &p->arrays[i];
}

/* Makes the nodes before the last one, from `from` on, its children. */
static void adopt(producer *p, size_t from) {
    size_t root = p->nodes - 1;
    p->arrays[root].n_children = p->schemas[root].n_children = (int64_t)(root - from);
    p->arrays[root].children = &p->children[from];
    p->schemas[root].children = &p->fields[from];
}

/* Makes the memory read-only. Returns the root. */
static struct ArrowArray *seal(producer *p) {
    struct ArrowArray *root = &p->arrays[p->nodes - 1];
    root->release = release_root;
    mprotect(p->memory, ROOM, PROT_READ);
    return root;
}

/* Checks that a call succeeds, or is out of memory if an allocation was refused. Returns whether it succeeded. */
static bool works(sel_status status) {
    IS(gives(status, SEL_OK));
    return status == SEL_OK;
}

static bool import(producer *p, sel_column *out) {
    struct ArrowArray *root = seal(p);
    bool is_done = works(sel_import(root, &p->schemas[p->nodes - 1], out, NULL));
    IS(is_done == !root->release && p->releases == 0);
    if (!is_done && root->release) root->release(root);
    return is_done;
}

/* Frees a column that was the last owner of a producer's memory. */
static void ends(producer *p, sel_column *column) {
    IS(p->releases == 0);
    sel_free(column);
    IS(p->releases == 1);
}

/* ---- producers of each layout */

static const uint8_t some_bits[4] = {0xb5, 0x6e, 0xdb, 0x37};

static int64_t nulls_in(const uint8_t *bits, size_t from, size_t len) {
    int64_t nulls = 0;
    for (size_t i = from; i < from + len; i++) nulls += !(bits[i / 8] >> (i % 8) & 1);
    return nulls;
}

typedef struct integers {
    const char *format;
    size_t size;
} integers;

static const integers all_integers[] = {{"c", 1}, {"C", 1}, {"s", 2}, {"S", 2}, {"i", 4}, {"I", 4}, {"l", 8}, {"L", 8}};

enum { KINDS = 8 };

/* Makes 16 rows from row `offset` on, nulls among them. */
static void make_integers(producer *p, size_t kind, int64_t offset) {
    char values[32 * 8];
    for (size_t i = 0; i < sizeof values; i++) values[i] = (char)(i * 37 + 11);
    begin(p);
    const void *bits = put(p, some_bits, sizeof some_bits);
    add(p, all_integers[kind].format, 16, offset, nulls_in(some_bits, (size_t)offset, 16), 2, bits, put(p, values, 32 * all_integers[kind].size), NULL);
}

static void make_booleans(producer *p, int64_t offset) {
    static const uint8_t values[4] = {0x12, 0x34, 0x56, 0x78};
    begin(p);
    const void *bits = put(p, some_bits, sizeof some_bits);
    add(p, "b", 16, offset, -1, 2, bits, put(p, values, sizeof values), NULL);
}

static void make_binary(producer *p) {
    static const int64_t offsets[5] = {0, 3, 3, 7, 12};
    begin(p);
    const void *bits = put(p, some_bits, 1), *starts = put(p, offsets, sizeof offsets);
    add(p, "Z", 4, 0, -1, 3, bits, starts, put(p, "onethreetwelve", 12));
}

static void make_strings(producer *p, const char *format) {
    static const int32_t offsets[4] = {0, 20, 25, 60};
    static const int64_t wide[4] = {0, 20, 25, 60};
    begin(p);
    const void *starts = *format == 'U' ? put(p, wide, sizeof wide) : put(p, offsets, sizeof offsets);
    add(p, format, 3, 0, 0, 3, NULL, starts, put(p, "a string of 20 bytesfive.and one of thirty-five bytes, at last..", 60));
}

/* Makes views of a short string and two long ones in two data buffers. */
static void make_views(producer *p) {
    static const char first[] = "the first data buffer", second[] = "and the second data buffer";
    static const int64_t lengths[2] = {sizeof first - 1, sizeof second - 1};
    sel_view views[3] = {view_of("short", 5, 0), view_of(first, sizeof first - 1, 0), view_of(second + 4, 15, 4)};
    views[2].buffer = 1;
    begin(p);
    add(p, "vu", 3, 0, 0, 5, NULL, put(p, views, sizeof views), put(p, first, sizeof first - 1));
    p->buffers[0][3] = put(p, second, sizeof second - 1);
    p->buffers[0][4] = put(p, lengths, sizeof lengths);
}

/* ---- tests */

/* The address of a buffer of an array that is exported with a type, and that of the producer's, are the same. */
static void exports_with_type_at(const sel_column *column, const sel_type *type, int64_t buffer, const void *at) {
    struct ArrowArray array;
    struct ArrowSchema schema;
    if (!works(sel_export(column, type, &array, &schema))) return;
    IS(array.buffers[buffer] == at && array.offset == 0);
    array.release(&array);
    schema.release(&schema);
    IS(!array.release && !schema.release);
}

static void exports_at(const sel_column *column, int64_t buffer, const void *at) { exports_with_type_at(column, NULL, buffer, at); }

static void integers_keep_their_addresses(void) {
    static const int64_t offsets[] = {0, 1, 8, 13};
    for (size_t kind = 0; kind < KINDS; kind++)
        for (size_t i = 0; i < 4; i++) {
            producer p;
            sel_column column = {0};
            make_integers(&p, kind, offsets[i]);
            const char *bits = p.buffers[0][0], *values = p.buffers[0][1];
            if (!import(&p, &column)) continue;
            IS(sel_len(&column) == 16 && sel_null_count(&column) == (size_t)nulls_in(some_bits, (size_t)offsets[i], 16));
            exports_at(&column, 1, values + (size_t)offsets[i] * all_integers[kind].size);
            if (offsets[i] % 8 == 0) exports_at(&column, 0, bits + offsets[i] / 8);
            ends(&p, &column);
        }
}

static void booleans_keep_their_addresses(void) {
    for (int64_t offset = 0; offset < 16; offset++) {
        producer p;
        sel_column column = {0};
        uint8_t out[2];
        make_booleans(&p, offset);
        const uint8_t *values = p.buffers[0][1];
        if (!import(&p, &column)) continue;
        if (works(sel_boolean_values(&column, out, 2)))
            for (size_t i = 0; i < 16; i++) IS((out[i / 8] >> (i % 8) & 1) == (values[(i + (size_t)offset) / 8] >> ((i + (size_t)offset) % 8) & 1));
        if (offset % 8 == 0) exports_at(&column, 1, values + offset / 8);
        ends(&p, &column);
    }
}

static void bytes_keep_their_addresses(void) {
    producer p;
    sel_column column = {0};
    make_binary(&p);
    const void *offsets = p.buffers[0][1], *bytes = p.buffers[0][2];
    if (!import(&p, &column)) return;
    exports_at(&column, 0, p.buffers[0][0]);
    exports_at(&column, 1, offsets);
    exports_at(&column, 2, bytes);
    ends(&p, &column);
}

/* With 32-bit offsets, which are new, a binary column has the producer's bytes from its first row on. */
static void bytes_with_narrow_offsets_keep_their_addresses(void) {
    static const int32_t offsets[5] = {2, 5, 5, 9, 14};
    producer p;
    sel_column column = {0}, part = {0};
    sel_type type = {0};
    begin(&p);
    const void *starts = put(&p, offsets, sizeof offsets);
    add(&p, "z", 4, 0, 0, 3, NULL, starts, put(&p, "--onethreetwelve", 16));
    const char *bytes = p.buffers[0][2];
    if (!import(&p, &column)) return;
    if (works(sel_type_new("z", NULL, 0, &type))) {
        exports_with_type_at(&column, &type, 2, bytes + offsets[0]);
        for (size_t first = 0; first < 4; first++)
            if (works(sel_slice(&column, first, 4 - first, &part))) exports_with_type_at(&part, &type, 2, bytes + offsets[first]);
    }
    sel_free(&part);
    sel_type_free(&type);
    ends(&p, &column);
}

/* Strings with offsets get views of their own, over the producer's bytes. */
static void strings_share_their_bytes(void) {
    static const char *const formats[] = {"u", "U"};
    for (size_t i = 0; i < 2; i++) {
        producer p;
        sel_column column = {0};
        make_strings(&p, formats[i]);
        const void *bytes = p.buffers[0][2];
        if (!import(&p, &column)) continue;
        exports_at(&column, 2, bytes);
        ends(&p, &column);
    }
}

static void views_keep_their_addresses(void) {
    producer p;
    sel_column column = {0};
    make_views(&p);
    const void *views = p.buffers[0][1], *first = p.buffers[0][2], *second = p.buffers[0][3];
    if (!import(&p, &column)) return;
    exports_at(&column, 1, views);
    exports_at(&column, 2, first);
    exports_at(&column, 3, second);
    for (size_t i = 0; i < 2; i++) {
        size_t len = 0;
        IS(sel_buffer_len(&column, i, &len) == SEL_OK && (int64_t)len == ((const int64_t *)p.buffers[0][4])[i]);
    }
    ends(&p, &column);
}

/* Lists of fixed-size lists and structs of integers: every buffer of every level keeps its address. */
static void nested_arrays_keep_their_addresses(void) {
    static const int64_t offsets[4] = {0, 3, 3, 6};
    static const int32_t numbers[12] = {1, 2, 3, 4, 5, 6, 7, 8, 9, 10, 11, 12};
    producer p;
    sel_column column = {0};
    struct ArrowArray array;
    struct ArrowSchema schema;
    begin(&p);
    const void *bits = put(&p, some_bits, 2), *values = put(&p, numbers, sizeof numbers), *starts = put(&p, offsets, sizeof offsets);
    add(&p, "i", 12, 0, -1, 2, bits, values, NULL);
    add(&p, "+w:2", 6, 0, -1, 1, bits, NULL, NULL);
    adopt(&p, 0);
    add(&p, "+s", 6, 0, -1, 1, bits, NULL, NULL);
    adopt(&p, 1);
    add(&p, "+L", 3, 0, -1, 2, bits, starts, NULL);
    adopt(&p, 2);
    if (!import(&p, &column)) return;
    if (works(sel_export(&column, NULL, &array, &schema))) {
        const struct ArrowArray *rows = array.children[0], *lists = rows->children[0], *items = lists->children[0];
        IS(array.buffers[0] == bits && array.buffers[1] == starts && rows->buffers[0] == bits && lists->buffers[0] == bits);
        IS(items->buffers[0] == bits && items->buffers[1] == values);
        array.release(&array);
        schema.release(&schema);
    }
    ends(&p, &column);
}

/* Without rows nothing is lent: the array is released at once. */
static void empty_arrays_are_released(void) {
    static const char *const formats[] = {"l", "b", "Z", "z", "u", "vu"};
    static const int64_t counts[] = {2, 2, 3, 3, 3, 3};
    for (size_t i = 0; i < 6; i++) {
        producer p;
        sel_column column = {0};
        begin(&p);
        struct ArrowArray *root = add(&p, formats[i], 0, 0, 0, counts[i], NULL, NULL, NULL);
        root->release = release_root;
        if (works(sel_import(root, &p.schemas[0], &column, NULL))) IS(p.releases == 1 && sel_len(&column) == 0);
        else root->release(root);
        sel_free(&column);
        IS(p.releases == 1);
    }
}

/* An import that fails leaves the array with its producer, and lends nothing. */
static void failed_imports_lend_nothing(void) {
    static const int64_t offsets[3] = {0, 5, 2};
    producer p;
    sel_column column = {0};
    begin(&p);
    const void *starts = put(&p, offsets, sizeof offsets);
    add(&p, "Z", 2, 0, 0, 3, NULL, starts, put(&p, "bytes", 5));
    struct ArrowArray *root = seal(&p);
    IS(gives(sel_import(root, &p.schemas[0], &column, NULL), SEL_ERROR_DECREASING_OFFSET));
    IS(root->release && p.releases == 0 && sel_type_of(&column) == SEL_TYPE_NONE);
    root->release(root);
}

/* ---- every order of freeing */

/* What may own a producer's memory: an imported column, its second handle, a slice, and two exported arrays. */
typedef struct owners {
    sel_column columns[3];
    struct ArrowArray arrays[2];
    bool is_made;
} owners;

static bool export_one(const sel_column *column, struct ArrowArray *out) {
    struct ArrowSchema schema;
    if (!works(sel_export(column, NULL, out, &schema))) return false;
    schema.release(&schema);
    return true;
}

static void make_owners(producer *p, owners *it) {
    memset(it, 0, sizeof *it);
    if (!import(p, &it->columns[0])) return;
    it->is_made = works(sel_share(&it->columns[0], &it->columns[1])) && works(sel_slice(&it->columns[0], 3, 9, &it->columns[2])) &&
                  export_one(&it->columns[0], &it->arrays[0]) && export_one(&it->columns[2], &it->arrays[1]);
}

static void free_owner(owners *it, size_t i) {
    if (i < 3) sel_free(&it->columns[i]);
    else if (it->arrays[i - 3].release) it->arrays[i - 3].release(&it->arrays[i - 3]);
}

/* Frees the owners in an order. The producer's array is released at the last one, and not before. */
static void free_in_order(producer *p, owners *it, const size_t *order) {
    if (!it->is_made) {
        for (size_t i = 0; i < MOST_OWNERS; i++) free_owner(it, i);
        IS(p->releases == 1);
        return;
    }
    for (size_t i = 0; i < MOST_OWNERS; i++) {
        IS(p->releases == 0);
        free_owner(it, order[i]);
    }
    IS(p->releases == 1);
}

/* Makes the next permutation in lexical order. Returns false after the last one. */
static bool permute(size_t *order, size_t count) {
    size_t i = count - 1, k = count - 1;
    while (i > 0 && order[i - 1] > order[i]) i--;
    if (i == 0) return false;
    while (order[k] < order[i - 1]) k--;
    size_t swapped = order[i - 1];
    order[i - 1] = order[k], order[k] = swapped;
    for (k = count - 1; i < k; i++, k--) swapped = order[i], order[i] = order[k], order[k] = swapped;
    return true;
}

static void owners_are_freed_in_each_order(void) {
    size_t order[MOST_OWNERS] = {0, 1, 2, 3, 4}, orders = 0;
    do {
        for (size_t kind = orders % 2; kind < KINDS; kind += 7) {
            producer p;
            owners it;
            make_integers(&p, kind, 8);
            make_owners(&p, &it);
            free_in_order(&p, &it, order);
        }
        orders++;
    } while (permute(order, MOST_OWNERS));
    IS(orders == 120);
}

/* Two arrays, the columns of which are freed in turn, are released one by one. */
static void arrays_are_released_apart(void) {
    producer first, second;
    sel_column a = {0}, b = {0};
    make_integers(&first, 6, 0);
    make_integers(&second, 2, 8);
    if (import(&first, &a)) {
        if (import(&second, &b)) {
            sel_free(&a);
            IS(first.releases == 1 && second.releases == 0);
            sel_free(&b);
        } else sel_free(&a);
        IS(first.releases == 1 && second.releases == 1);
    } else {
        seal(&second);
        munmap(second.memory, ROOM);
    }
}

/* Checks the borrowed values of a column, whose number and address are given. */
static void borrows(const sel_column *column, size_t count, const void *at) {
    const void *values = &count;
    size_t len = 77;
    sel_status status = sel_borrow_values(column, &values, &len);
    if (!works(status)) IS(values == &count && len == 77);
    else IS(len == count && (count > 0 ? values == at : values != NULL));
}

/* A filter that keeps consecutive rows copies nothing: the values of its result, by the bits and by a selection, are the column's. */
static void kept_runs_are_borrowed(const sel_column *column, const char *at, size_t size) {
    static const uint8_t rows_3_to_11[2] = {0xf8, 0x0f};
    sel_column part = {0};
    sel_selection by = {0};
    if (works(sel_filter_bits(column, rows_3_to_11, 2, 16, &part))) borrows(&part, 9, at + 3 * size);
    sel_free(&part);
    if (works(sel_selection_of_bits(rows_3_to_11, 2, 16, &by)) && works(sel_filter_selection(column, &by, &part))) borrows(&part, 9, at + 3 * size);
    sel_free(&part);
    sel_selection_free(&by);
}

/* Borrowed values are the producer's: those of imports with an offset, of shares, of slices and of consecutive rows that a filter keeps; of another
 * filter they are new. */
static void values_are_borrowed(void) {
    static const uint8_t all_but_4[2] = {0xef, 0xff};
    for (size_t kind = 0; kind < KINDS; kind++) {
        producer p;
        sel_column column = {0}, part = {0};
        const size_t size = all_integers[kind].size;
        make_integers(&p, kind, 3);
        const char *at = (const char *)p.buffers[0][1] + 3 * size;
        if (!import(&p, &column)) continue;
        borrows(&column, 16, at);
        for (size_t first = 0; first <= 16; first++)
            if (works(sel_slice(&column, first, 16 - first, &part))) borrows(&part, 16 - first, at + first * size);
        kept_runs_are_borrowed(&column, at, size);
        if (works(sel_filter_bits(&column, all_but_4, 2, 16, &part))) {
            const void *values = NULL;
            size_t len = 0;
            if (works(sel_borrow_values(&part, &values, &len)))
                IS(len == 15 && values != at && memcmp(values, at, 4 * size) == 0 && memcmp((const char *)values + 4 * size, at + 5 * size, 11 * size) == 0);
        }
        if (works(sel_share(&column, &part))) {
            sel_free(&column);
            IS(p.releases == 0);
            borrows(&part, 16, at);
        }
        sel_free(&column);
        sel_free(&part);
        IS(p.releases == 1);
    }
}

/* A selection that was prepared from an imported mask is its last owner. */
static void selections_keep_their_mask(void) {
    static const uint8_t values[2] = {0x12, 0x34};
    static const int8_t numbers[16] = {0, 1, 2, 3, 4, 5, 6, 7, 8, 9, 10, 11, 12, 13, 14, 15}, wanted[5] = {1, 4, 10, 12, 13};
    producer p;
    sel_column mask = {0}, column = {0}, kept = {0};
    sel_selection by = {0};
    begin(&p);
    add(&p, "b", 16, 0, 0, 2, NULL, put(&p, values, sizeof values), NULL);
    if (!import(&p, &mask)) return;
    if (works(sel_selection_new(&mask, &by))) {
        sel_free(&mask);
        IS(p.releases == 0);
        int8_t read[5] = {0};
        if (works(sel_int8_new(numbers, 16, SEL_ALL_VALID, &column)) && works(sel_filter_selection(&column, &by, &kept)) && works(sel_int8_values(&kept, read, 5)))
            IS(memcmp(read, wanted, sizeof read) == 0);
        sel_free(&column);
        sel_free(&kept);
        IS(p.releases == 0);
        sel_selection_free(&by);
    } else sel_free(&mask);
    IS(p.releases == 1);
}

/* Columns of other types have no values to borrow, and errors change nothing. */
static void other_types_are_not_borrowed(void) {
    static const char *const types[] = {"null", "bool", "i128", "u128", "binary", "binview", "utf8", "list<i64>", "fixed<1,i64>", "struct<i64>"};
    sel_column column = {0};
    const void *values = NULL;
    size_t at = 0, len = 77;
    IS(sel_borrow_values(&column, &values, &len) == SEL_ERROR_NO_COLUMN);
    for (size_t i = 0; i < sizeof types / sizeof *types; i++)
        if (works(sel_parse((const uint8_t *)types[i], strlen(types[i]), (const uint8_t *)"[null]", 6, &at, &column)))
            IS(sel_borrow_values(&column, &values, &len) == SEL_ERROR_UNSUPPORTED_TYPE);
    IS(values == NULL && len == 77);
    sel_free(&column);
}

/* An exported array that is imported again is released by the last owner, and the producer's array then too. */
static void round_trips_end(void) {
    producer p;
    sel_column once = {0}, twice = {0};
    struct ArrowArray array;
    struct ArrowSchema schema;
    make_integers(&p, 6, 0);
    const void *values = p.buffers[0][1];
    if (!import(&p, &once)) return;
    if (works(sel_export(&once, NULL, &array, &schema))) {
        sel_free(&once);
        IS(p.releases == 0);
        if (works(sel_import(&array, &schema, &twice, NULL))) exports_at(&twice, 1, values);
        else array.release(&array);
        schema.release(&schema);
    }
    sel_free(&once);
    IS(p.releases == (sel_type_of(&twice) == SEL_TYPE_NONE));
    sel_free(&twice);
    IS(p.releases == 1);
}

/* A child that is moved out of an exported array has the last owner of its buffers: its release releases the producer's array. */
static void moved_children_release(void) {
    static const int64_t numbers[4] = {1, 2, 3, 4};
    producer p;
    sel_column column = {0};
    struct ArrowArray array;
    struct ArrowSchema schema;
    begin(&p);
    add(&p, "l", 4, 0, 0, 2, NULL, put(&p, numbers, sizeof numbers), NULL);
    add(&p, "+s", 4, 0, 0, 1, NULL, NULL, NULL);
    adopt(&p, 0);
    if (!import(&p, &column)) return;
    if (!works(sel_export(&column, NULL, &array, &schema))) {
        ends(&p, &column);
        return;
    }
    schema.release(&schema);
    struct ArrowArray moved = *array.children[0];
    array.children[0]->release = NULL;
    array.release(&array);
    sel_free(&column);
    IS(p.releases == 0 && ((const int64_t *)moved.buffers[1])[3] == 4);
    moved.release(&moved);
    IS(p.releases == 1);
}

int main(void) {
    static void (*const tests[])(void) = {integers_keep_their_addresses, booleans_keep_their_addresses, bytes_keep_their_addresses,
                                          bytes_with_narrow_offsets_keep_their_addresses, views_keep_their_addresses, empty_arrays_are_released, failed_imports_lend_nothing,
                                          arrays_are_released_apart, round_trips_end, strings_share_their_bytes,
                                          nested_arrays_keep_their_addresses, values_are_borrowed, other_types_are_not_borrowed,
                                          selections_keep_their_mask, moved_children_release};
    static void (*const orders[])(void) = {owners_are_freed_in_each_order};
    run_tests(tests, sizeof tests / sizeof *tests, 1);
    run_tests(orders, 1, 97);
    return finish();
}
