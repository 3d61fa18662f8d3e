/* What a type keeps where two of them meet (runs and keys over their values, columns that are joined), the order of errors, and schemas and
 * slices at the limits. */
#define _DEFAULT_SOURCE
#include "arrow_test.h"

#include <stdio.h>
#include <string.h>
#include <sys/mman.h>

static const char uint128[] = "\1\0\0\0\x14\0\0\0" "ARROW:extension:name" "\x0b\0\0\0" "sel.uint128";
static const char pair[] = "\1\0\0\0\3\0\0\0" "key" "\5\0\0\0" "value";
static const int64_t numbers[4] = {1, 2, 3, 4};

/* Frees two columns, two others and two types. */
static void free_pairs(sel_column *columns, sel_column *out, sel_type *types) {
    for (int k = 0; k < 2; k++) {
        sel_free(&columns[k]);
        sel_free(&out[k]);
        sel_type_free(&types[k]);
    }
}

/* Checks that a column can be exported with its type, whose schema has these metadata. */
static void exports_with(const sel_column *column, const sel_type *type, const char *metadata, size_t len) {
    struct ArrowArray array;
    struct ArrowSchema schema;
    bool is_done = sel_export(column, type, &array, &schema) == SEL_OK;
    CHECK(is_done);
    if (!is_done) return;
    CHECK(schema.metadata && !memcmp(schema.metadata, metadata, len));
    array.release(&array);
    schema.release(&schema);
}

/* Two unsigned 128-bit integers: their metadata say so. */
static piece large_numbers(void) {
    piece it = piece_of("w:16", 2, 0, 2, NULL, numbers, NULL);
    it.schema->metadata = uint128;
    return it;
}

static piece runs_of(piece values) {
    static const int32_t ends[2] = {1, 3};
    static const char *const names[] = {"run_ends", "values"};
    const piece parts[2] = {piece_of("i", 2, 0, 2, NULL, ends, NULL), values};
    return piece_over(piece_of("+r", 3, 0, 0, NULL, NULL, NULL), 2, parts, names);
}

/* Metadata of runs and of keys do not replace those that name the extension type of their values. */
static void extension_types_stay(void) {
    static const int32_t keys[3] = {1, 0, 1};
    sel_column column = {0}, decoded = {0};
    sel_type type = {0}, decoded_type = {0};
    forget_pieces();
    piece runs = runs_of(large_numbers());
    runs.schema->metadata = pair;
    CHECK(import_piece(runs, &column, &type) == SEL_OK && sel_type_of(&column) == SEL_TYPE_UINT128 && prints(&type, "u128"));
    exports_with(&column, &type, uint128, sizeof uint128 - 1);
    piece coded = piece_with(piece_of("i", 3, 0, 2, NULL, keys, NULL), large_numbers());
    coded.schema->metadata = pair;
    CHECK(import_piece(coded, &column, &type) == SEL_OK && sel_decode(&column, &type, &decoded, &decoded_type) == SEL_OK);
    CHECK(sel_type_of(&decoded) == SEL_TYPE_UINT128 && prints(&decoded_type, "u128"));
    exports_with(&decoded, &decoded_type, uint128, sizeof uint128 - 1);
    /* without an extension type the values get them, unless these would make another type */
    runs = runs_of(piece_of("l", 2, 0, 2, NULL, numbers, NULL));
    runs.schema->metadata = pair;
    CHECK(import_piece(runs, &column, &type) == SEL_OK && prints(&type, "i64"));
    exports_with(&column, &type, pair, sizeof pair - 1);
    runs = runs_of(piece_of("w:16", 2, 0, 2, NULL, numbers, NULL));
    runs.schema->metadata = uint128;
    CHECK(import_piece(runs, &column, &type) == SEL_OK && sel_type_of(&column) == SEL_TYPE_FIXED_SIZE_LIST && prints(&type, "fixed_size_binary[16]"));
    sel_free(&column);
    sel_free(&decoded);
    sel_type_free(&type);
    sel_type_free(&decoded_type);
}

/* A dictionary of keys of an ordered dictionary is decoded to values without dictionary, order or loss of metadata. */
static void keys_of_keys_are_decoded(void) {
    static const int32_t inner_keys[2] = {1, 0};
    static const uint8_t keys[3] = {0, 1, 1};
    sel_column column = {0}, decoded = {0};
    sel_type type = {0}, decoded_type = {0}, plain = {0};
    forget_pieces();
    piece inner = piece_with(piece_of("i", 2, 0, 2, NULL, inner_keys, NULL), piece_of("l", 2, 0, 2, NULL, numbers, NULL));
    inner.schema->flags |= ARROW_FLAG_DICTIONARY_ORDERED;
    piece outer = piece_with(piece_of("C", 3, 0, 2, NULL, keys, NULL), inner);
    outer.schema->metadata = pair;
    CHECK(import_piece(outer, &column, &type) == SEL_OK && sel_decode(&column, &type, &decoded, &decoded_type) == SEL_OK);
    exports_with(&decoded, &decoded_type, pair, sizeof pair - 1);
    struct ArrowSchema schema = *outer.schema;
    schema.format = "l";
    schema.dictionary = NULL;
    CHECK(sel_type_import(&schema, &plain) == SEL_OK && sel_type_equal(&plain, &decoded_type));
    sel_free(&column);
    sel_free(&decoded);
    sel_type_free(&type);
    sel_type_free(&decoded_type);
    sel_type_free(&plain);
}

/* A map of one row with two entries. */
static piece map_with(int64_t flags) {
    static const int32_t offsets[2] = {0, 2};
    static const char *const names[] = {"key", "value"}, *const entry_names[] = {"entries"};
    const piece fields[2] = {piece_of("l", 2, 0, 2, NULL, numbers, NULL), piece_of("l", 2, 0, 2, NULL, numbers, NULL)};
    const piece entries = piece_over(piece_of("+s", 2, 0, 1, NULL, NULL, NULL), 2, fields, names);
    piece it = piece_over(piece_of("+m", 1, 0, 2, NULL, offsets, NULL), 1, &entries, entry_names);
    it.schema->flags = ARROW_FLAG_NULLABLE | flags;
    return it;
}

/* The keys of joined maps are sorted only if those of both are. */
static void joined_maps_are_sorted_if_all_are(void) {
    for (int i = 0; i < 4; i++) {
        sel_column columns[2] = {{0}, {0}}, out[2] = {{0}, {0}};
        sel_type types[2] = {{0}, {0}}, common = {0};
        forget_pieces();
        for (int k = 0; k < 2; k++) CHECK(import_piece(map_with(i >> k & 1 ? ARROW_FLAG_MAP_KEYS_SORTED : 0), &columns[k], &types[k]) == SEL_OK);
        CHECK(sel_common_type(columns, types, 2, out, &common) == SEL_OK);
        CHECK(prints(&common, i == 3 ? "map<i64, i64, keys_sorted>" : "map<i64, i64>"));
        free_pairs(columns, out, types);
        sel_type_free(&common);
    }
}

/* A decimal has 128 bits if its format does not say how many. */
static void decimals_have_128_bits(void) {
    static const struct { const char *one, *other; sel_status status; } given[] = {
        {"d:38,0", "d:38,0,128", SEL_OK}, {"d:38,0,128", "d:38,0", SEL_OK}, {"d:38,0", "d:38,1", SEL_ERROR_TYPE_MISMATCH},
        {"d:38,128", "d:38", SEL_ERROR_ARROW_FORMAT}, {"d:38,128", "d:38,128,128", SEL_OK}, {"d:38,128", "d:38,12", SEL_ERROR_TYPE_MISMATCH},
    };
    const sel_int128 one = {1, 0};
    sel_column columns[2] = {{0}, {0}}, out[2] = {{0}, {0}};
    sel_type types[2] = {{0}, {0}}, common = {0};
    for (int k = 0; k < 2; k++) CHECK(sel_int128_new(&one, 1, SEL_ALL_VALID, &columns[k]) == SEL_OK);
    for (size_t i = 0; i < sizeof given / sizeof *given; i++) {
        sel_status status = sel_type_new(given[i].one, NULL, 0, &types[0]);
        if (status == SEL_OK) status = sel_type_new(given[i].other, NULL, 0, &types[1]);
        if (status == SEL_OK) CHECK(sel_type_equal(&types[0], &types[1]) == (given[i].status == SEL_OK));
        if (status == SEL_OK) status = sel_common_type(columns, types, 2, out, &common);
        CHECK(status == given[i].status);
    }
    free_pairs(columns, out, types);
    sel_type_free(&common);
}

#define EXTENSION "\x14\0\0\0" "ARROW:extension:name" "\6\0\0\0" "tensor"
#define PARAMETERS "\x18\0\0\0" "ARROW:extension:metadata"

/* Columns of an extension type are joined if it has the same parameters; none are the same as empty ones. */
static void extension_types_have_parameters(void) {
    static const char name_alone[] = "\1\0\0\0" EXTENSION, empty[] = "\2\0\0\0" EXTENSION PARAMETERS "\0\0\0\0";
    static const char wide[] = "\2\0\0\0" EXTENSION PARAMETERS "\5\0\0\0" "[2,3]", high[] = "\2\0\0\0" EXTENSION PARAMETERS "\5\0\0\0" "[3,2]";
    static const char no_name[] = "\1\0\0\0" PARAMETERS "\5\0\0\0" "[2,3]";
    static const struct { const char *one, *other; sel_status status; } given[] = {
        {wide, wide, SEL_OK}, {wide, high, SEL_ERROR_TYPE_MISMATCH}, {wide, name_alone, SEL_ERROR_TYPE_MISMATCH}, {empty, wide, SEL_ERROR_TYPE_MISMATCH},
        {name_alone, empty, SEL_OK}, {empty, name_alone, SEL_OK}, {no_name, NULL, SEL_OK}, {no_name, wide, SEL_ERROR_TYPE_MISMATCH},
    };
    for (size_t i = 0; i < sizeof given / sizeof *given; i++) {
        sel_column columns[2] = {{0}, {0}}, out[2] = {{0}, {0}};
        sel_type types[2] = {{0}, {0}}, common = {0};
        for (int k = 0; k < 2; k++) {
            struct ArrowSchema schema = type_of_format("l");
            schema.metadata = k == 0 ? given[i].one : given[i].other;
            CHECK(sel_type_import(&schema, &types[k]) == SEL_OK && sel_int64_new(numbers, 4, SEL_ALL_VALID, &columns[k]) == SEL_OK);
        }
        CHECK(sel_common_type(columns, types, 2, out, &common) == given[i].status);
        CHECK(given[i].status == SEL_OK ? sel_type_equal(&common, &types[0]) : !common.at && !out[0].at);
        free_pairs(columns, out, types);
        sel_type_free(&common);
    }
}

/* Of several errors the first one that the header lists is returned, at whatever depth they are. */
static void errors_come_in_order(void) {
    sel_column fields = {0}, columns[2] = {{0}, {0}}, out[2] = {{0}, {0}};
    sel_type type = {0}, types[2] = {{0}, {0}}, common = {0}, deep = {0};
    struct ArrowArray array;
    struct ArrowSchema schema, words = type_of_format("u"), keys = type_of_format("l"), other = type_of_format("u"), both = type_of_format("+s");
    struct ArrowSchema *below[2] = {&keys, &other};
    keys.dictionary = &words; /* without values */
    both.n_children = 2;
    both.children = below;
    CHECK(sel_type_import(&both, &type) == SEL_OK);
    for (int k = 0; k < 2; k++) CHECK(sel_int64_new(numbers, 4, SEL_ALL_VALID, &columns[k]) == SEL_OK && sel_type_child(&type, (size_t)k, &types[k]) == SEL_OK);
    CHECK(sel_common_type(columns, types, 2, out, &common) == SEL_ERROR_TYPE_MISMATCH);
    CHECK(sel_type_of_storage(&columns[1], &types[1]) == SEL_OK && sel_common_type(columns, types, 2, out, &common) == SEL_ERROR_TYPE_MISMATCH);
    CHECK(sel_struct_new(4, SEL_ALL_VALID, columns, 2, &fields) == SEL_OK);
    CHECK(sel_export(&fields, &type, &array, &schema) == SEL_ERROR_TYPE_MISMATCH && sel_decode(&fields, &type, out, &common) == SEL_ERROR_TYPE_MISMATCH);
    CHECK(sel_type_new("i", NULL, 0, &deep) == SEL_OK);
    for (int i = 0; i < 128; i++) CHECK(sel_type_new("+l", &deep, 1, &deep) == SEL_OK);
    CHECK(sel_type_new("+m", &deep, 1, &common) == SEL_ERROR_ARROW_CHILDREN);
    sel_free(&fields);
    for (int k = 0; k < 2; k++) sel_type_free(&types[k]);
    sel_type_free(&type);
    sel_type_free(&deep);
}

/* Mends error `i` of keys of a dictionary that have them all. Returns the status of the next one. */
static sel_status mend(int i, piece it) {
    static struct ArrowArray *dictionary;
    static const int32_t right[2] = {1, 0};
    struct ArrowArray *array = it.array;
    struct ArrowSchema *schema = it.schema;
    switch (i) {
    case 0: return array->release = NULL, schema->release = NULL, SEL_ERROR_ARROW_RELEASED;
    case 1: return array->release = release_array, SEL_ERROR_ARROW_RELEASED;
    case 2: return schema->release = type_of_format("i").release, schema->metadata = "\xff\xff\xff\xff", schema->format = "w:4294967296", SEL_ERROR_ARROW_LENGTH;
    case 3: return schema->metadata = NULL, SEL_ERROR_LIST_SIZE;
    case 4: return schema->format = "f", schema->n_children = 1, SEL_ERROR_ARROW_DICTIONARY;
    case 5: return schema->format = "i", SEL_ERROR_ARROW_CHILDREN;
    case 6: return schema->n_children = 0, dictionary = array->dictionary, array->dictionary = NULL, SEL_ERROR_ARROW_DICTIONARY;
    case 7: return array->dictionary = dictionary, array->length = -1, array->offset = UINT32_MAX, SEL_ERROR_ARROW_LENGTH;
    case 8: return array->length = 2, array->null_count = 3, SEL_ERROR_TOO_MANY_ROWS;
    case 9: return array->offset = 0, array->n_children = 1, SEL_ERROR_ARROW_LENGTH;
    case 10: return array->null_count = 1, array->n_buffers = 3, SEL_ERROR_ARROW_CHILDREN;
    case 11: return array->n_children = 0, SEL_ERROR_ARROW_BUFFERS;
    case 12: return array->n_buffers = 2, SEL_ERROR_ARROW_LENGTH; /* a null without a validity */
    case 13: return array->null_count = 0, dictionary->n_buffers = 3, SEL_ERROR_ARROW_BUFFERS;
    case 14: return dictionary->n_buffers = 2, SEL_ERROR_INDEX_OUT_OF_BOUNDS;
    default: return array->buffers[1] = right, SEL_OK;
    }
}

/* An import returns the first error that the header lists; once it is mended, the next one. */
static void imports_check_in_order(void) {
    static const int32_t wrong[2] = {7, -1};
    sel_column column = {0};
    sel_type type = {0};
    forget_pieces();
    piece it = piece_with(piece_of("i", 2, 0, 2, NULL, wrong, NULL), piece_of("l", 2, 0, 2, NULL, numbers, NULL));
    for (int i = 0; i <= 15; i++) {
        sel_status wanted = mend(i, it);
        CHECK(import_piece(it, &column, &type) == wanted && (wanted == SEL_OK) == (column.at != NULL));
        /* without room for the type, once the schema is right */
        if (i >= 6) CHECK(import_piece(it, &column, NULL) == SEL_ERROR_ARROW_DICTIONARY);
    }
    sel_free(&column);
    sel_type_free(&type);
}

/* The ends of runs are checked with the schema. A search for an unsupported format ends, though a schema is below itself. */
static void schemas_are_read_whole(void) {
    sel_type type = {0};
    struct ArrowSchema ends = type_of_format("i"), values = type_of_format("l"), child = type_of_format("l"), runs = type_of_format("+r");
    struct ArrowSchema *parts[2] = {&ends, &values}, *below[1] = {&child};
    runs.n_children = 2;
    runs.children = parts;
    CHECK(sel_type_import(&runs, &type) == SEL_OK);
    ends.n_children = 1;
    ends.children = below;
    CHECK(sel_type_import(&runs, &type) == SEL_ERROR_ARROW_CHILDREN);
    struct ArrowSchema self = type_of_format("+s");
    struct ArrowSchema *itself[2] = {&self, &self};
    self.n_children = 2;
    self.children = itself;
    CHECK(sel_type_import(&self, &type) == SEL_ERROR_TOO_DEEP && sel_unsupported_format(&self) == NULL);
    sel_type_free(&type);
}

/* Maps bytes that are all 0, without memory; or returns NULL if there are not so many addresses. */
static void *zeros(size_t bytes) {
    void *at = mmap(NULL, bytes, PROT_READ, MAP_PRIVATE | MAP_ANONYMOUS | MAP_NORESERVE, -1, 0);
    return at == MAP_FAILED ? NULL : at;
}

/* Exports a slice of one list, of one element: the elements before it are not exported. */
static void exports_one_element(const sel_column *lists, const sel_type *type) {
    sel_column part = {0};
    struct ArrowArray array;
    struct ArrowSchema schema;
    CHECK(sel_slice(lists, 1, 1, &part) == SEL_OK);
    bool is_done = sel_export(&part, type, &array, &schema) == SEL_OK;
    CHECK(is_done);
    sel_free(&part);
    if (!is_done) return;
    const int64_t *offsets = array.buffers[1];
    CHECK(array.children[0]->length == 1 && offsets[0] == 0 && offsets[1] == 1);
    array.release(&array);
    schema.release(&schema);
}

/* The elements of a part of a list column, if they are copied on export, are those of its own lists: the others may be too many bytes for
 * 32-bit offsets. */
static void slices_of_lists_have_their_own_elements(void) {
    static const int64_t lists[3] = {0, 1, 2}, offsets[3] = {0, (int64_t)3 << 30, ((int64_t)3 << 30) + 5};
    static const char *const names[] = {"item"};
    sel_column column = {0};
    sel_type element = {0}, type = {0};
    struct ArrowArray array;
    struct ArrowSchema schema;
    forget_pieces();
    CHECK(import_piece(piece_over(piece_of("+L", 2, 0, 2, NULL, lists, NULL), 1, (const piece[1]){large_numbers()}, names), &column, &type) == SEL_OK);
    exports_one_element(&column, &type);
    void *bytes = zeros((size_t)offsets[2]);
    if (!bytes) {
        printf("not run: slices of lists of binary, without 3 GB of addresses\n");
    } else {
        piece binary = piece_of("Z", 2, 0, 3, NULL, offsets, bytes);
        CHECK(import_piece(piece_over(piece_of("+L", 2, 0, 2, NULL, lists, NULL), 1, &binary, names), &column, NULL) == SEL_OK);
        CHECK(sel_type_new("z", NULL, 0, &element) == SEL_OK && sel_type_new("+L", &element, 1, &type) == SEL_OK);
        CHECK(sel_export(&column, &type, &array, &schema) == SEL_ERROR_ARROW_RANGE && !array.release && !schema.release);
        exports_one_element(&column, &type);
    }
    sel_free(&column);
    sel_type_free(&element);
    sel_type_free(&type);
    if (bytes) munmap(bytes, (size_t)offsets[2]);
}

/* The rows of a slice may be few, though the bytes before them are many; but not more than a column has, of bytes of the list's child. */
static void slices_of_fixed_bytes_may_begin_late(void) {
    enum { OFFSET = 300000000, LEN = 10, WIDTH = 16 };
    const size_t bytes = (size_t)(OFFSET + LEN) * WIDTH;
    sel_column column = {0};
    forget_pieces();
    CHECK(import_piece(piece_of("w:1000", 4294968, 0, 2, NULL, numbers, NULL), &column, NULL) == SEL_ERROR_TOO_MANY_ROWS);
    void *values = zeros(bytes);
    if (!values) {
        printf("not run: slices of fixed-size binary that begin late, without 5 GB of addresses\n");
        return;
    }
    CHECK(import_piece(piece_of("w:16", LEN, OFFSET, 2, NULL, values, NULL), &column, NULL) == SEL_OK && sel_len(&column) == LEN);
    sel_free(&column);
    munmap(values, bytes);
}

/* Strings with offsets that are too far apart for one data buffer are views of two; the null one between them is not read. */
static void strings_far_apart_have_two_buffers(void) {
    enum { LEN = 20 };
    static const int64_t offsets[5] = {0, LEN, (int64_t)3 << 30, ((int64_t)3 << 30) + LEN, ((int64_t)3 << 30) + 2 * LEN};
    static const uint8_t second_null[1] = {0x0d};
    static const sel_view wanted[4] = {{LEN, 0, 0, 0}, {0, 0, 0, 0}, {LEN, 0, 1, 0}, {LEN, 0, 1, LEN}};
    sel_column column = {0};
    sel_view views[4];
    size_t count = 0, len = 0;
    forget_pieces();
    void *bytes = zeros((size_t)offsets[4]);
    if (!bytes) {
        printf("not run: strings far apart, without 3 GB of addresses\n");
        return;
    }
    CHECK(import_piece(piece_of("U", 4, 0, 3, second_null, offsets, bytes), &column, NULL) == SEL_OK);
    CHECK(sel_views(&column, views, 4) == SEL_OK && !memcmp(views, wanted, sizeof wanted));
    CHECK(sel_buffer_count(&column, &count) == SEL_OK && count == 2);
    for (size_t i = 0; i < count; i++) CHECK(sel_buffer_len(&column, i, &len) == SEL_OK && len == (i + 1) * LEN);
    sel_free(&column);
    munmap(bytes, (size_t)offsets[4]);
}

/* A view that begins beyond byte 2,147,483,647 of its data buffer has no format; in a null slot it is exported as an empty one. */
static void far_views_are_not_exported(void) {
    static const sel_view views[2] = {{1, 'a', 0, 0}, {13, 0, 0, (uint32_t)3 << 30}};
    static const int64_t len[1] = {((int64_t)3 << 30) + 13};
    static const uint8_t first[1] = {1};
    forget_pieces();
    void *bytes = zeros((size_t)len[0]);
    if (!bytes) {
        printf("not run: views far behind, without 3 GB of addresses\n");
        return;
    }
    for (int has_null = 0; has_null < 2; has_null++) {
        sel_column column = {0}, part = {0};
        struct ArrowArray array;
        struct ArrowSchema schema;
        piece it = piece_of("vz", 2, 0, 4, NULL, views, bytes);
        it.array->buffers[3] = len;
        CHECK(import_piece(it, &column, NULL) == SEL_OK && sel_struct_new(2, first, 1, has_null, &column, 1, &part) == SEL_OK);
        CHECK(sel_export(&part, NULL, &array, &schema) == (has_null ? SEL_OK : SEL_ERROR_ARROW_RANGE));
        if (array.release) CHECK(((const sel_view *)array.children[0]->buffers[1])[1].length == 0), array.release(&array), schema.release(&schema);
        sel_free(&part);
    }
    munmap(bytes, (size_t)len[0]);
}

void test_rules(void) {
    extension_types_stay();
    keys_of_keys_are_decoded();
    joined_maps_are_sorted_if_all_are();
    decimals_have_128_bits();
    extension_types_have_parameters();
    errors_come_in_order();
    imports_check_in_order();
    schemas_are_read_whole();
    slices_of_fixed_bytes_may_begin_late();
    slices_of_lists_have_their_own_elements();
    strings_far_apart_have_two_buffers();
    far_views_are_not_exported();
    forget_pieces();
}
