/* Every format in and out: the storage of each, its name, the same schema and rows again, also of a filter and a take, with each
 * allocation refused. Rows are compared with those that an independent reader finds in the producer's buffers. */
#include "arrow_test.h"

#include <stdio.h>
#include <string.h>

enum { ROWS = 5, TEXT = 400 };

static const uint8_t all[] = {0xff}, some[] = {0x1b}; /* row 2 is null */
static const uint8_t random_bytes[ROWS * 32 + 8] = {
    0x01, 0x80, 0xff, 0x7f, 0x00, 0xfe, 0x12, 0x34, 0xc0, 0x7f, 0x01, 0x00, 0x01, 0x00, 0xf8, 0x7f, /* NaNs with payloads among them */
    0x01, 0x00, 0x00, 0x00, 0x00, 0x00, 0xf0, 0xff, 0x55, 0xaa, 0x55, 0xaa, 0x55, 0xaa, 0x55, 0x2a, 0x09, 0x08, 0x07, 0x06,
    0x05, 0x04, 0x03, 0x02, 0x01, 0x00, 0x99, 0x88, 0x77, 0x66, 0x55, 0x04, 0x33, 0x22, 0x11, 0x00, 0xde, 0xad, 0xbe, 0xef,
    0xde, 0xad, 0xbe, 0x0f, 0x10, 0x20, 0x30, 0x40, 0x50, 0x60, 0x70, 0x80, 0x90, 0xa0, 0xb0, 0x0c, 0x11, 0x21, 0x31, 0x41,
};
static const sel_int128 decimals[ROWS] = {{1, 0}, {UINT64_MAX, UINT64_MAX}, {0, 1}, {10, 0x4b3b4ca85a86c479}, {7, 0xb4c4b357a5793b86}}; /* at most 38 digits */
static const int32_t narrow[ROWS + 1] = {0, 1, 4, 4, 18, 20};
static const int64_t wide[ROWS + 1] = {0, 1, 4, 4, 18, 20};
static const uint8_t text[] = "abcdthirteen and xyz";
static const sel_view views[ROWS] = {{1, 'a', 0, 0}, {13, 0x72696874, 0, 4}, {77, 77, 77, 77}, {0, 0, 0, 0}, {3, 0x7a7978, 0, 0}};
static const int64_t text_len[1] = {sizeof text - 1};

/* Formats without children, their storage and their name. */
static const struct leaf {
    const char *format, *name;
    sel_type_id storage;
    int buffers;
    const void *second, *third;
} leaves[] = {
    {"n", "null", SEL_TYPE_NULL, 0, NULL, NULL}, {"b", "bool", SEL_TYPE_BOOLEAN, 2, random_bytes, NULL},
    {"c", "i8", SEL_TYPE_INT8, 2, random_bytes, NULL}, {"C", "u8", SEL_TYPE_UINT8, 2, random_bytes, NULL},
    {"s", "i16", SEL_TYPE_INT16, 2, random_bytes, NULL}, {"S", "u16", SEL_TYPE_UINT16, 2, random_bytes, NULL},
    {"i", "i32", SEL_TYPE_INT32, 2, random_bytes, NULL}, {"I", "u32", SEL_TYPE_UINT32, 2, random_bytes, NULL},
    {"l", "i64", SEL_TYPE_INT64, 2, random_bytes, NULL}, {"L", "u64", SEL_TYPE_UINT64, 2, random_bytes, NULL},
    {"e", "halffloat", SEL_TYPE_UINT16, 2, random_bytes, NULL}, {"f", "float", SEL_TYPE_UINT32, 2, random_bytes, NULL},
    {"g", "double", SEL_TYPE_UINT64, 2, random_bytes, NULL}, {"tdD", "date32[day]", SEL_TYPE_INT32, 2, random_bytes, NULL},
    {"tdm", "date64[ms]", SEL_TYPE_INT64, 2, random_bytes, NULL}, {"tts", "time32[s]", SEL_TYPE_INT32, 2, random_bytes, NULL},
    {"ttm", "time32[ms]", SEL_TYPE_INT32, 2, random_bytes, NULL}, {"ttu", "time64[us]", SEL_TYPE_INT64, 2, random_bytes, NULL},
    {"ttn", "time64[ns]", SEL_TYPE_INT64, 2, random_bytes, NULL}, {"tss:", "timestamp[s]", SEL_TYPE_INT64, 2, random_bytes, NULL},
    {"tsm:UTC", "timestamp[ms, tz=UTC]", SEL_TYPE_INT64, 2, random_bytes, NULL},
    {"tsu:Europe/Vienna", "timestamp[us, tz=Europe/Vienna]", SEL_TYPE_INT64, 2, random_bytes, NULL},
    {"tsn:+02:00", "timestamp[ns, tz=+02:00]", SEL_TYPE_INT64, 2, random_bytes, NULL},
    {"tDs", "duration[s]", SEL_TYPE_INT64, 2, random_bytes, NULL}, {"tDm", "duration[ms]", SEL_TYPE_INT64, 2, random_bytes, NULL},
    {"tDu", "duration[us]", SEL_TYPE_INT64, 2, random_bytes, NULL}, {"tDn", "duration[ns]", SEL_TYPE_INT64, 2, random_bytes, NULL},
    {"tiM", "month_interval", SEL_TYPE_INT32, 2, random_bytes, NULL}, {"tiD", "day_time_interval", SEL_TYPE_INT64, 2, random_bytes, NULL},
    {"tin", "month_day_nano_interval", SEL_TYPE_UINT128, 2, random_bytes, NULL},
    {"d:9,2,32", "decimal32(9, 2)", SEL_TYPE_INT32, 2, random_bytes, NULL}, {"d:18,-3,64", "decimal64(18, -3)", SEL_TYPE_INT64, 2, random_bytes, NULL},
    {"d:38,10", "decimal128(38, 10)", SEL_TYPE_INT128, 2, decimals, NULL}, {"d:5,0,128", "decimal128(5, 0)", SEL_TYPE_INT128, 2, decimals, NULL},
    {"d:76,10,256", "decimal256(76, 10)", SEL_TYPE_FIXED_SIZE_LIST, 2, random_bytes, NULL},
    {"w:3", "fixed_size_binary[3]", SEL_TYPE_FIXED_SIZE_LIST, 2, random_bytes, NULL}, {"w:0", "fixed_size_binary[0]", SEL_TYPE_FIXED_SIZE_LIST, 2, NULL, NULL},
    {"w:16", "fixed_size_binary[16]", SEL_TYPE_FIXED_SIZE_LIST, 2, random_bytes, NULL},
    {"z", "binary", SEL_TYPE_BINARY, 3, narrow, text}, {"Z", "large_binary", SEL_TYPE_BINARY, 3, wide, text},
    {"u", "string", SEL_TYPE_STRING_VIEW, 3, narrow, text}, {"U", "large_string", SEL_TYPE_STRING_VIEW, 3, wide, text},
    {"vz", "binary_view", SEL_TYPE_BINARY_VIEW, 4, views, text}, {"vu", "string_view", SEL_TYPE_STRING_VIEW, 4, views, text},
};
enum { LEAVES = sizeof leaves / sizeof *leaves };

static piece make_leaf(const struct leaf *of, const uint8_t *valid, int64_t length, int64_t offset) {
    piece it = piece_of(of->format, length, offset, of->buffers, valid, of->second, of->third);
    if (of->buffers == 4) it.array->buffers[3] = text_len;
    return it;
}

/* Checks that the rows of an exported array are these of a producer's. */
static void has_rows(const struct ArrowArray *array, const struct ArrowSchema *schema, piece from, const int64_t *rows, int64_t len) {
    char found[TEXT], wanted[TEXT];
    CHECK(array->length == len);
    for (int64_t i = 0; i < len && i < array->length; i++) {
        write_row(array, schema, i, found, sizeof found);
        if (rows[i] < 0) snprintf(wanted, sizeof wanted, "null");
        else write_row(from.array, from.schema, rows[i], wanted, sizeof wanted);
        if (strcmp(found, wanted) != 0) printf("format %s, row %d: %s instead of %s\n", from.schema->format, (int)i, found, wanted);
        CHECK(strcmp(found, wanted) == 0);
    }
}

static void is_exported(const sel_column *column, const sel_type *type, piece from, const struct ArrowSchema *wanted, const int64_t *rows, int64_t len) {
    struct ArrowArray array;
    struct ArrowSchema schema;
    sel_status status = sel_export(column, type, &array, &schema);
    if (status != SEL_OK) printf("format %s: status %u\n", from.schema->format, (unsigned)status);
    CHECK(status == SEL_OK);
    if (status != SEL_OK) return;
    CHECK(same_schema(&schema, wanted));
    has_rows(&array, &schema, from, rows, len);
    array.release(&array);
    schema.release(&schema);
}

static sel_status import_and_export(void *of) {
    const piece *it = of;
    struct ArrowArray array = *it->array;
    sel_column column = {0};
    sel_type type = {0};
    sel_status status = sel_import(&array, it->schema, &column, &type);
    CHECK((status == SEL_OK) == (column.at != NULL) && (status == SEL_OK) == (type.at != NULL) && (status == SEL_OK) == !array.release);
    if (status == SEL_OK) {
        struct ArrowArray out;
        struct ArrowSchema schema;
        status = sel_export(&column, &type, &out, &schema);
        CHECK((status == SEL_OK) == (out.release != NULL) && (status == SEL_OK) == (schema.release != NULL));
        if (status == SEL_OK) out.release(&out), schema.release(&schema);
    }
    sel_free(&column);
    sel_type_free(&type);
    return status;
}

/* Imports an array, and exports all of its rows, those of a filter, of a take and of a slice. The schema is the same again, or another one
 * where the format is converted. */
static void goes_around(piece from, const struct ArrowSchema *wanted, sel_type_id storage, const char *name) {
    static const int64_t same[ROWS] = {0, 1, 2, 3, 4}, kept[2] = {1, 4}, taken[4] = {4, -1, 0, 4}, sliced[3] = {1, 2, 3};
    const uint8_t mask[1] = {0x12}, valid[1] = {0x0d};
    const uint32_t indices[4] = {4, 0, 0, 4};
    struct ArrowArray array = *from.array;
    sel_column column = {0}, part = {0};
    sel_type type = {0};
    sel_status status = sel_import(&array, from.schema, &column, &type);
    if (status != SEL_OK) printf("format %s: status %u\n", from.schema->format, (unsigned)status);
    CHECK(status == SEL_OK && !array.release);
    if (status != SEL_OK) return;
    CHECK(sel_type_of(&column) == storage);
    CHECK(prints(&type, name));
    is_exported(&column, &type, from, wanted, same, ROWS);
    CHECK(sel_filter_bits(&column, mask, 1, ROWS, &part) == SEL_OK);
    is_exported(&part, &type, from, wanted, kept, 2);
    CHECK(sel_take_rows(&column, indices, 4, valid, 1, true, &part) == SEL_OK);
    is_exported(&part, &type, from, wanted, taken, 4);
    CHECK(sel_slice(&column, 1, 3, &part) == SEL_OK);
    is_exported(&part, &type, from, wanted, sliced, 3);
    sel_free(&part);
    sel_free(&column);
    sel_type_free(&type);
    refuse_each(import_and_export, &from, from.schema->format);
}

static void goes_unchanged(piece from, sel_type_id storage, const char *name) { goes_around(from, from.schema, storage, name); }

static const char metadata[] = "\1\0\0\0\3\0\0\0key\5\0\0\0value";

static void leaves_go_around(void) {
    for (size_t i = 0; i < LEAVES; i++) {
        const struct leaf *of = &leaves[i];
        forget_pieces();
        piece it = make_leaf(of, some, ROWS, 0);
        it.schema->name = i % 2 ? "name" : NULL;
        it.schema->metadata = i % 3 ? metadata : NULL;
        goes_unchanged(it, of->storage, of->name);
    }
}

/* The same behind an offset of the array, where the buffers have more rows than the array. */
static void leaves_behind_an_offset(void) {
    for (size_t i = 0; i < LEAVES; i++) {
        const struct leaf *of = &leaves[i];
        static const int64_t rows[3] = {0, 1, 2};
        forget_pieces();
        piece it = make_leaf(of, some, 3, 2);
        struct ArrowArray array = *it.array;
        sel_column column = {0};
        sel_type type = {0};
        CHECK(sel_import(&array, it.schema, &column, &type) == SEL_OK);
        is_exported(&column, &type, it, it.schema, rows, 3);
        sel_free(&column);
        sel_type_free(&type);
    }
}

static const struct leaf *leaf_of(const char *format) {
    for (size_t i = 0; i < LEAVES; i++)
        if (!strcmp(leaves[i].format, format)) return &leaves[i];
    return NULL;
}

static const int32_t short_lists[ROWS + 1] = {0, 1, 3, 3, 3, 5};
static const int64_t long_lists[ROWS + 1] = {0, 1, 3, 3, 3, 5};

/* Lists, fixed-size lists, structs and maps over each format without children. */
static void nested_go_around(void) {
    static const char *const item[] = {"element"}, *const fields[] = {"first", "second"}, *const entries[] = {"entries"};
    char name[TEXT];
    for (size_t i = 0; i < LEAVES; i++) {
        const struct leaf *of = &leaves[i];
        forget_pieces();
        piece child = make_leaf(of, some, ROWS, 0), list = piece_of("+l", ROWS, 0, 2, some, short_lists, NULL);
        snprintf(name, sizeof name, "list<element: %s>", of->name);
        goes_unchanged(piece_over(list, 1, &child, item), SEL_TYPE_LIST, name);
        list.schema->format = "+L";
        list.array->buffers[1] = long_lists;
        snprintf(name, sizeof name, "large_list<element: %s>", of->name);
        goes_unchanged(list, SEL_TYPE_LIST, name);
        forget_pieces();
        piece fixed_child = make_leaf(of, all, ROWS, 0), fixed = piece_of("+w:1", ROWS, 0, 1, some, NULL, NULL);
        fixed_child.schema->flags = of->buffers ? 0 : ARROW_FLAG_NULLABLE;
        if (of->second == views) fixed_child.array->buffers[0] = some, fixed_child.schema->flags = ARROW_FLAG_NULLABLE;
        snprintf(name, sizeof name, "fixed_size_list<element: %s%s>[1]", of->name, fixed_child.schema->flags ? "" : " not null");
        goes_unchanged(piece_over(fixed, 1, &fixed_child, item), SEL_TYPE_FIXED_SIZE_LIST, name);
        forget_pieces();
        piece both[2] = {make_leaf(of, some, ROWS, 0), make_leaf(leaf_of("u"), some, ROWS, 0)};
        piece record = piece_over(piece_of("+s", ROWS, 0, 1, NULL, NULL, NULL), 2, both, fields);
        record.schema->flags = ARROW_FLAG_NULLABLE;
        snprintf(name, sizeof name, "struct<first: %s, second: string>", of->name);
        goes_unchanged(record, SEL_TYPE_STRUCT, name);
        piece map = piece_over(piece_of("+m", ROWS, 0, 2, some, short_lists, NULL), 1, &record, entries);
        map.schema->flags = ARROW_FLAG_NULLABLE | ARROW_FLAG_MAP_KEYS_SORTED;
        snprintf(name, sizeof name, "map<%s, string, keys_sorted>", of->name);
        goes_unchanged(map, SEL_TYPE_LIST, name);
    }
}

/* List views in any order and overlapping become lists; a null one may have any bytes. */
static void list_views_become_lists(void) {
    static const int32_t offsets[ROWS] = {2, 3, -7, 5, 1}, sizes[ROWS] = {3, 1, INT32_MAX, 0, 4};
    static const int64_t long_offsets[ROWS] = {2, 3, -7, 5, 1}, long_sizes[ROWS] = {3, 1, INT64_MAX, 0, 4};
    static const char *const item[] = {"item"};
    for (int is_long = 0; is_long < 2; is_long++) {
        forget_pieces();
        piece child = make_leaf(leaf_of("u"), some, ROWS, 0);
        piece list = piece_of(is_long ? "+vL" : "+vl", ROWS, 0, 3, some, is_long ? (const void *)long_offsets : offsets, is_long ? (const void *)long_sizes : sizes);
        piece_over(list, 1, &child, item);
        struct ArrowSchema wanted = *list.schema;
        wanted.format = is_long ? "+L" : "+l";
        goes_around(list, &wanted, SEL_TYPE_LIST, is_long ? "large_list<item: string>" : "list<item: string>");
    }
}

/* Strings of 0 to 14 bytes, of which views hold up to 12: with offsets and as views in, in each format out. */
static void strings_of_each_length_go_around(void) {
    enum { LENGTHS = 15 };
    static const char letters[] = "abcdefghijklmnopqrstuvwxyzabcdefghijklmnopqrstuvwxyzabcdefghijklmnopqrstuvwxyzabcdefghijklmnopqrstuvwxyz";
    static const char *const formats[] = {"u", "U", "vu"};
    int32_t starts[LENGTHS + 1] = {0};
    sel_view found[LENGTHS];
    int64_t rows[LENGTHS];
    for (int i = 0; i < LENGTHS; i++) starts[i + 1] = starts[i] + i, rows[i] = i;
    for (size_t i = 0; i < 3; i++) {
        sel_column column = {0};
        sel_type type = {0};
        forget_pieces();
        piece from = piece_of("u", LENGTHS, 0, 3, NULL, starts, letters);
        struct ArrowSchema wanted = type_of_format(formats[i]);
        CHECK(import_piece(from, &column, NULL) == SEL_OK && sel_type_import(&wanted, &type) == SEL_OK);
        is_exported(&column, &type, from, &wanted, rows, LENGTHS);
        CHECK(sel_views(&column, found, LENGTHS) == SEL_OK && found[0].prefix == 0 && found[3].prefix >> 24 == 0 && found[12].offset != 0);
        sel_free(&column);
        sel_type_free(&type);
    }
}

static void list_views_are_refused(void) {
    static const struct { int32_t offset, size; sel_status status; } given[] = {
        {-1, 1, SEL_ERROR_NEGATIVE_OFFSET}, {1, -1, SEL_ERROR_NEGATIVE_OFFSET}, {6, 0, SEL_ERROR_OFFSET_RANGE},
        {5, 1, SEL_ERROR_OFFSET_RANGE}, {INT32_MAX, INT32_MAX, SEL_ERROR_OFFSET_RANGE}, {5, 0, SEL_OK}, {0, 5, SEL_OK},
    };
    for (size_t i = 0; i < sizeof given / sizeof *given; i++) {
        sel_column out = {0};
        forget_pieces();
        piece child = make_leaf(leaf_of("l"), some, ROWS, 0), list = piece_of("+vl", 1, 0, 3, NULL, &given[i].offset, &given[i].size);
        piece_over(list, 1, &child, NULL);
        CHECK(sel_import(list.array, list.schema, &out, NULL) == given[i].status);
        CHECK((given[i].status == SEL_OK) == (out.at != NULL));
        sel_free(&out);
    }
}

/* Runs of each width of ends become their values, also behind an offset of the runs and of the values. */
static void runs_become_values(void) {
    static const int16_t ends16[3] = {1, 4, 9};
    static const int32_t ends32[3] = {1, 4, 9};
    static const int64_t ends64[3] = {1, 4, 9};
    static const void *const ends[3] = {ends16, ends32, ends64};
    static const char *const formats[3] = {"s", "i", "l"}, *const names[] = {"run_ends", "values"};
    for (int i = 0; i < 3; i++) {
        for (int64_t offset = 0; offset < 4; offset++) {
            forget_pieces();
            piece both[2] = {piece_of(formats[i], 3, 0, 2, NULL, ends[i], NULL), make_leaf(leaf_of("tsm:UTC"), some, 4, 1)};
            piece runs = piece_over(piece_of("+r", ROWS, offset, 0, NULL, NULL, NULL), 2, both, names);
            both[0].schema->flags = 0;
            runs.schema->name = "runs";
            runs.schema->metadata = metadata;
            struct ArrowSchema wanted = *both[1].schema;
            wanted.name = "runs";
            wanted.metadata = metadata;
            goes_around(runs, &wanted, SEL_TYPE_INT64, "timestamp[ms, tz=UTC]");
        }
    }
}

static void runs_are_refused(void) {
    static const struct { int32_t ends[3]; int64_t count, values, length; sel_status status; } given[] = {
        {{1, 1, 9}, 3, 3, 5, SEL_ERROR_DECREASING_OFFSET}, {{4, 1, 9}, 3, 3, 5, SEL_ERROR_DECREASING_OFFSET},
        {{0, 1, 9}, 3, 3, 5, SEL_ERROR_DECREASING_OFFSET}, {{-1, 1, 9}, 3, 3, 5, SEL_ERROR_DECREASING_OFFSET},
        {{1, 2, 4}, 3, 3, 5, SEL_ERROR_ARROW_LENGTH}, {{1, 2, 9}, 3, 2, 5, SEL_ERROR_ARROW_LENGTH},
        {{1, 2, 9}, 0, 3, 5, SEL_ERROR_ARROW_LENGTH}, {{1, 2, 9}, 0, 3, 0, SEL_OK}, {{1, 2, 5}, 3, 3, 5, SEL_OK},
    };
    for (size_t i = 0; i < sizeof given / sizeof *given; i++) {
        sel_column out = {0};
        forget_pieces();
        piece both[2] = {piece_of("i", given[i].count, 0, 2, NULL, given[i].ends, NULL), make_leaf(leaf_of("l"), some, given[i].values, 0)};
        piece runs = piece_over(piece_of("+r", given[i].length, 0, 0, NULL, NULL, NULL), 2, both, NULL);
        CHECK(sel_import(runs.array, runs.schema, &out, NULL) == given[i].status);
        sel_free(&out);
        runs.array->release = release_array;
        both[0].array->buffers[0] = all;
        both[0].array->null_count = 0;
        both[0].schema->format = "u";
        CHECK(sel_import(runs.array, runs.schema, &out, NULL) == SEL_ERROR_ARROW_FORMAT && !strcmp(sel_unsupported_format(runs.schema), "u"));
        both[0].schema->format = "I";
        CHECK(sel_import(runs.array, runs.schema, &out, NULL) == SEL_ERROR_ARROW_FORMAT);
    }
    forget_pieces();
    const int32_t ends[5] = {1, 2, 3, 4, 5};
    piece both[2] = {piece_of("i", 5, 0, 2, some, ends, NULL), make_leaf(leaf_of("l"), some, 5, 0)};
    piece runs = piece_over(piece_of("+r", ROWS, 0, 0, NULL, NULL, NULL), 2, both, NULL);
    sel_column out = {0};
    CHECK(sel_import(runs.array, runs.schema, &out, NULL) == SEL_ERROR_ARROW_NULL && !out.at);
}

/* Runs of lists and list views of lists may have more elements than a column has rows. */
static void expanded_lists_have_a_limit(void) {
    enum { ELEMENTS = 1 << 20, LISTS = 1 << 12 };
    static const int32_t lists[2] = {0, ELEMENTS};
    static int32_t starts[LISTS], sizes[LISTS];
    const int32_t ends[1] = {LISTS};
    sel_column out = {0};
    for (int i = 0; i < LISTS; i++) sizes[i] = 1;
    for (int is_view = 0; is_view < 2; is_view++) {
        for (int64_t length = LISTS - 1; length <= LISTS; length++) {
            forget_pieces();
            piece elements = piece_of("n", ELEMENTS, 0, 0, NULL, NULL, NULL);
            piece list = piece_over(piece_of("+l", 1, 0, 2, NULL, lists, NULL), 1, &elements, NULL);
            piece both[2] = {piece_of("i", 1, 0, 2, NULL, ends, NULL), list};
            piece it = is_view ? piece_over(piece_of("+vl", length, 0, 3, NULL, starts, sizes), 1, &list, NULL)
                               : piece_over(piece_of("+r", length, 0, 0, NULL, NULL, NULL), 2, both, NULL);
            CHECK(import_piece(it, &out, NULL) == (length < LISTS ? SEL_OK : SEL_ERROR_ROW_LIMIT) && (length < LISTS) == (out.at != NULL));
            sel_free(&out);
        }
    }
}

static void unions_are_refused(void) {
    static const char *const formats[] = {"+us:0,1", "+ud:0,1", "+us:", "tsx:", "w:", "d:39,0", "d:10,0,32", "d:77,0,256", "d:5,x", "nonsense", ""};
    for (size_t i = 0; i < sizeof formats / sizeof *formats; i++) {
        sel_column out = {0};
        sel_type type = {0};
        forget_pieces();
        piece child = make_leaf(leaf_of("l"), some, ROWS, 0), list = piece_of("+l", 1, 0, 2, NULL, short_lists, NULL);
        piece_over(list, 1, &child, NULL);
        CHECK(!sel_unsupported_format(list.schema));
        child.schema->format = formats[i];
        CHECK(sel_import(list.array, list.schema, &out, &type) == SEL_ERROR_ARROW_FORMAT && !out.at && !type.at);
        CHECK(sel_unsupported_format(list.schema) == child.schema->format);
        CHECK(sel_type_import(list.schema, &type) == SEL_ERROR_ARROW_FORMAT && !type.at);
    }
}

/* Nulls that are visible in a field which has none are an error; those of a null struct are left out. */
static void fields_without_nulls(void) {
    static const char *const names[] = {"field"};
    const uint32_t indices[2] = {1, 2};
    const uint8_t second[1] = {2};
    struct ArrowArray array;
    struct ArrowSchema schema;
    sel_column column = {0}, part = {0};
    sel_type type = {0}, field = {0};
    forget_pieces();
    piece child = make_leaf(leaf_of("l"), NULL, ROWS, 0), record = piece_over(piece_of("+s", ROWS, 0, 1, some, NULL, NULL), 1, &child, names);
    child.schema->flags = 0;
    CHECK(sel_import(record.array, record.schema, &column, &type) == SEL_OK);
    CHECK(sel_take_rows(&column, indices, 2, second, 1, true, &part) == SEL_OK && sel_null_count(&part) == 2);
    CHECK(sel_export(&part, &type, &array, &schema) == SEL_OK && array.null_count == 2);
    CHECK(array.children[0]->null_count == 0 && !array.children[0]->buffers[0] && schema.children[0]->flags == 0);
    array.release(&array);
    schema.release(&schema);
    CHECK(sel_field(&column, 0, &part) == SEL_OK && sel_take_rows(&part, indices, 2, second, 1, true, &column) == SEL_OK);
    CHECK(sel_type_child(&type, 0, &field) == SEL_OK);
    CHECK(sel_export(&column, &field, &array, &schema) == SEL_ERROR_ARROW_NULL && !array.release && !schema.release);
    CHECK(sel_type_as_field(&field, "renamed", true, &field) == SEL_OK);
    CHECK(sel_export(&column, &field, &array, &schema) == SEL_OK && !strcmp(schema.name, "renamed") && schema.flags == ARROW_FLAG_NULLABLE);
    array.release(&array);
    schema.release(&schema);
    sel_free(&column);
    sel_free(&part);
    sel_type_free(&type);
    sel_type_free(&field);
}

/* A byte string with a null byte has no format; 32-bit offsets end at 2,147,483,647. */
static void values_out_of_range(void) {
    const uint8_t bytes[4] = {1, 2, 3, 4}, valid[1] = {0x0e};
    struct ArrowArray array;
    struct ArrowSchema schema;
    sel_column child = {0}, column = {0};
    sel_type type = {0};
    CHECK(sel_uint8_new(bytes, 4, valid, 1, true, &child) == SEL_OK);
    CHECK(sel_fixed_size_list_new(2, 2, SEL_ALL_VALID, &child, &column) == SEL_OK);
    CHECK(sel_type_new("w:2", NULL, 0, &type) == SEL_OK);
    CHECK(sel_export(&column, &type, &array, &schema) == SEL_ERROR_ARROW_NULL && !array.release && !schema.release);
    CHECK(sel_type_new("w:3", NULL, 0, &type) == SEL_OK);
    CHECK(sel_export(&column, &type, &array, &schema) == SEL_ERROR_TYPE_MISMATCH);
    /* lists of nulls, which take no memory: one element more than the offsets reach */
    const int64_t offsets[3] = {0, INT32_MAX, (int64_t)INT32_MAX + 1};
    sel_type nulls = {0};
    CHECK(sel_null_new((size_t)INT32_MAX + 1, &child) == SEL_OK && sel_list_new(offsets, 3, SEL_ALL_VALID, &child, &column) == SEL_OK);
    CHECK(sel_type_new("n", NULL, 0, &nulls) == SEL_OK && sel_type_new("+l", &nulls, 1, &type) == SEL_OK);
    CHECK(sel_export(&column, &type, &array, &schema) == SEL_ERROR_ARROW_RANGE && !array.release && !schema.release);
    CHECK(sel_type_new("+L", &nulls, 1, &type) == SEL_OK);
    CHECK(sel_export(&column, &type, &array, &schema) == SEL_OK);
    array.release(&array);
    schema.release(&schema);
    sel_free(&column);
    sel_type_free(&type);
    sel_type_free(&nulls);
}

/* A string of a megabyte in each of 2,048 rows, all of the same bytes: the last of them does not fit 32-bit offsets. */
static void strings_out_of_range(void) {
    enum { BYTES = 1 << 20, LEN = 2048 };
    static uint8_t bytes[BYTES];
    static uint32_t indices[LEN];
    sel_view view = {BYTES, 0x61616161, 0, 0};
    const sel_bytes_ref buffer = {bytes, BYTES};
    sel_column one = {0}, column = {0}, part = {0};
    sel_type type = {0};
    struct ArrowArray array;
    struct ArrowSchema schema;
    memset(bytes, 'a', sizeof bytes);
    CHECK(sel_string_view_new(&view, 1, &buffer, 1, SEL_ALL_VALID, &one) == SEL_OK && sel_take_rows(&one, indices, LEN, SEL_ALL_VALID, &column) == SEL_OK);
    CHECK(sel_type_new("u", NULL, 0, &type) == SEL_OK);
    CHECK(sel_export(&column, &type, &array, &schema) == SEL_ERROR_ARROW_RANGE && !array.release && !schema.release);
    CHECK(sel_slice(&column, 0, 3, &part) == SEL_OK && sel_export(&part, &type, &array, &schema) == SEL_OK);
    if (array.release) CHECK(((const int32_t *)array.buffers[1])[3] == 3 * BYTES), array.release(&array), schema.release(&schema);
    sel_free(&one);
    sel_free(&column);
    sel_free(&part);
    sel_type_free(&type);
}

void test_formats(void) {
    leaves_go_around();
    leaves_behind_an_offset();
    nested_go_around();
    strings_of_each_length_go_around();
    list_views_become_lists();
    list_views_are_refused();
    runs_become_values();
    runs_are_refused();
    expanded_lists_have_a_limit();
    unions_are_refused();
    fields_without_nulls();
    values_out_of_range();
    strings_out_of_range();
}
