/* Dictionaries: keys of each width in and out, decoded, and joined with others; each allocation refused. */
#include "arrow_test.h"

#include <stdio.h>
#include <string.h>

enum { ROWS = 4, ROOM = 200 };

static const char *const key_formats[] = {"c", "C", "s", "S", "i", "I", "l", "L"};
static const char *const key_names[] = {"i8", "u8", "i16", "u16", "i32", "u32", "i64", "u64"};
static const int8_t keys8[ROWS] = {2, 0, 99, 2};
static const int16_t keys16[ROWS] = {2, 0, 999, 2};
static const int32_t keys32[ROWS] = {2, 0, -1, 2};
static const int64_t keys64[ROWS] = {2, 0, INT64_MIN, 2};
static const void *const keys_of[] = {keys8, keys8, keys16, keys16, keys32, keys32, keys64, keys64};
static const uint8_t third_null[1] = {0x0b}, all[1] = {0xff}, second_null[1] = {0xfd};
static const int32_t offsets[5] = {0, 1, 2, 16, 17};
static const uint8_t text[] = "abfourteen charsd";
static const uint8_t other_text[] = "axfourteen charsd", third_text[] = "abfourteen chartd";

/* The dictionary "a", null, "fourteen chars", "d", in the format of a string. */
static piece words(const uint8_t *bytes) { return piece_of("u", 4, 0, 3, second_null, offsets, bytes); }

static piece coded(size_t format, const uint8_t *bytes) {
    piece keys = piece_of(key_formats[format], ROWS, 0, 2, third_null, keys_of[format], NULL);
    keys.schema->name = "coded";
    return piece_with(keys, words(bytes));
}

static void keys_go_around(void) {
    for (size_t i = 0; i < 8; i++) {
        sel_column column = {0}, part = {0}, values = {0};
        sel_type type = {0}, of_values = {0}, decoded = {0};
        struct ArrowArray array;
        struct ArrowSchema schema;
        char name[ROOM], found[ROOM];
        const uint8_t mask[1] = {0x0a};
        forget_pieces();
        piece it = coded(i, text);
        it.schema->flags = ARROW_FLAG_NULLABLE | ARROW_FLAG_DICTIONARY_ORDERED;
        CHECK(sel_import(it.array, it.schema, &column, NULL) == SEL_ERROR_ARROW_DICTIONARY && it.array->release == release_array);
        CHECK(import_piece(it, &column, &type) == SEL_OK);
        snprintf(name, sizeof name, "dictionary<%s, string, ordered>", key_names[i]);
        CHECK(prints(&type, name));
        CHECK(sel_type_dictionary(&type, &values, &of_values) == SEL_OK && shows(&values, "[\"a\",null,\"fourteen chars\",\"d\"]") && prints(&of_values, "string"));
        CHECK(sel_filter_bits(&column, mask, 1, ROWS, &part) == SEL_OK && sel_export(&part, &type, &array, &schema) == SEL_OK);
        CHECK(same_schema(&schema, it.schema) && array.length == 2);
        write_row(&array, &schema, 0, found, sizeof found);
        CHECK(!strcmp(found, "61"));
        write_row(&array, &schema, 1, found, sizeof found);
        CHECK(!strcmp(found, "666f75727465656e206368617273"));
        CHECK(sel_import(&array, &schema, &part, &of_values) == SEL_OK && sel_type_equal(&type, &of_values));
        schema.release(&schema);
        CHECK(sel_decode(&column, &type, &part, &decoded) == SEL_OK && prints(&decoded, "string") && !strcmp(sel_type_name(&decoded), "coded"));
        CHECK(shows(&part, "[\"fourteen chars\",\"a\",null,\"fourteen chars\"]"));
        sel_free(&column);
        sel_free(&part);
        sel_free(&values);
        sel_type_free(&type);
        sel_type_free(&of_values);
        sel_type_free(&decoded);
    }
}

static void keys_are_checked(void) {
    static const struct { int64_t key; sel_status status; } given[] = {
        {3, SEL_OK}, {0, SEL_OK}, {4, SEL_ERROR_INDEX_OUT_OF_BOUNDS}, {-1, SEL_ERROR_INDEX_OUT_OF_BOUNDS},
        {INT64_MAX, SEL_ERROR_INDEX_OUT_OF_BOUNDS}, {INT64_MIN, SEL_ERROR_INDEX_OUT_OF_BOUNDS}, {(int64_t)UINT32_MAX, SEL_ERROR_INDEX_OUT_OF_BOUNDS},
        {(int64_t)UINT32_MAX + 1, SEL_ERROR_INDEX_OUT_OF_BOUNDS},
    };
    for (size_t i = 0; i < sizeof given / sizeof *given; i++) {
        sel_column column = {0}, keys = {0}, out = {0};
        sel_type type = {0}, none = {0};
        struct ArrowArray array;
        struct ArrowSchema schema;
        forget_pieces();
        piece it = piece_with(piece_of("l", 1, 0, 2, NULL, &given[i].key, NULL), words(text));
        CHECK(import_piece(it, &column, &type) == given[i].status && (given[i].status == SEL_OK) == (type.at != NULL));
        /* the same keys, brought together with a dictionary in the library */
        forget_pieces();
        CHECK(import_piece(piece_with(piece_of("l", 1, 0, 2, NULL, keys64 + 1, NULL), words(text)), &column, &type) == SEL_OK);
        CHECK(sel_int64_new(&given[i].key, 1, SEL_ALL_VALID, &keys) == SEL_OK);
        CHECK(sel_export(&keys, &type, &array, &schema) == given[i].status && (given[i].status == SEL_OK) == (array.release != NULL));
        if (array.release) array.release(&array), schema.release(&schema);
        CHECK(sel_decode(&keys, &type, &out, &none) == given[i].status && (given[i].status == SEL_OK) == (none.at != NULL));
        CHECK(sel_common_type(&keys, &type, 1, &out, &none) == given[i].status);
        sel_free(&column);
        sel_free(&keys);
        sel_free(&out);
        sel_type_free(&type);
        sel_type_free(&none);
    }
}

/* Lists, fixed-size lists and structs of keys, and a dictionary of keys. */
static piece nested_keys(int kind, const uint8_t *bytes) {
    static const int32_t lists[4] = {0, 1, 1, 4};
    static const char *const names[] = {"x", "y"};
    piece keys = coded(4, bytes);
    if (kind == 0) return piece_over(piece_of("+l", 3, 0, 2, NULL, lists, NULL), 1, &keys, names);
    if (kind == 1) return piece_over(piece_of("+w:2", 2, 0, 1, NULL, NULL, NULL), 1, &keys, names);
    if (kind == 2) {
        piece both[2] = {keys, words(text)};
        return piece_over(piece_of("+s", 4, 0, 1, second_null, NULL, NULL), 2, both, names);
    }
    static const uint8_t outer[3] = {3, 2, 1};
    return piece_with(piece_of("C", 3, 0, 2, all, outer, NULL), keys);
}

static const char *const decoded_rows[] = {
    "[[\"fourteen chars\"],[],[\"a\",null,\"fourteen chars\"]]", "[[\"fourteen chars\",\"a\"],[null,\"fourteen chars\"]]",
    "[(\"fourteen chars\",\"a\"),null,(null,\"fourteen chars\"),(\"fourteen chars\",\"d\")]", "[\"fourteen chars\",null,\"a\"]",
};
static const char *const decoded_types[] = {"list<x: string>", "fixed_size_list<x: string>[2]", "struct<x: string, y: string>", "string"};
static const char *const coded_types[] = {
    "list<x: dictionary<i32, string>>", "fixed_size_list<x: dictionary<i32, string>>[2]", "struct<x: dictionary<i32, string>, y: string>",
    "dictionary<u8, dictionary<i32, string>>",
};

static void nested_keys_are_decoded(void) {
    for (int kind = 0; kind < 4; kind++) {
        sel_column column = {0}, out = {0}, part = {0};
        sel_type type = {0}, decoded = {0};
        forget_pieces();
        CHECK(import_piece(nested_keys(kind, text), &column, &type) == SEL_OK && prints(&type, coded_types[kind]));
        CHECK(sel_decode(&column, &type, &out, &decoded) == SEL_OK && shows(&out, decoded_rows[kind]) && prints(&decoded, decoded_types[kind]));
        CHECK(sel_slice(&column, 1, 1, &part) == SEL_OK && sel_decode(&part, &type, &out, &decoded) == SEL_OK && sel_len(&out) == 1);
        CHECK(sel_decode(&out, &decoded, &part, &type) == SEL_OK && sel_type_equal(&type, &decoded)); /* nothing to decode */
        sel_free(&column);
        sel_free(&out);
        sel_free(&part);
        sel_type_free(&type);
        sel_type_free(&decoded);
    }
}

/* Columns with the same dictionary, with dictionaries of equal rows, and with others. */
static void columns_are_joined(void) {
    for (int kind = 0; kind < 4; kind++) {
        sel_column in[3] = {{0}, {0}, {0}}, out[3] = {{0}, {0}, {0}};
        sel_type types[3] = {{0}, {0}, {0}}, type = {0};
        forget_pieces();
        CHECK(import_piece(nested_keys(kind, text), &in[0], &types[0]) == SEL_OK && import_piece(nested_keys(kind, text), &in[1], &types[1]) == SEL_OK);
        forget_pieces();
        CHECK(import_piece(nested_keys(kind, other_text), &in[2], &types[2]) == SEL_OK); /* the second word is null: equal rows */
        CHECK(sel_common_type(in, types, 3, out, &type) == SEL_OK && prints(&type, coded_types[kind]));
        for (int i = 0; i < 3; i++) CHECK(sel_type_of(&out[i]) == sel_type_of(&in[i]) && sel_len(&out[i]) == sel_len(&in[i]));
        forget_pieces();
        CHECK(import_piece(nested_keys(kind, third_text), &in[2], &types[2]) == SEL_OK);
        CHECK(sel_common_type(in, types, 3, out, &type) == SEL_OK && prints(&type, decoded_types[kind]));
        bool is_equal = true;
        CHECK(shows(&out[0], decoded_rows[kind]) && shows(&out[1], decoded_rows[kind]));
        CHECK(sel_equal_rows(&out[0], &out[2], &is_equal) == SEL_OK && !is_equal && sel_len(&out[2]) == sel_len(&in[2]));
        for (int i = 0; i < 3; i++) sel_free(&in[i]), sel_free(&out[i]), sel_type_free(&types[i]);
        sel_type_free(&type);
    }
}

/* Types that can be joined, and types that cannot. */
static void types_are_joined(void) {
    static const struct { const char *first, *second, *common; } given[] = {
        {"u", "vu", "string"}, {"vu", "U", "string_view"}, {"tsm:UTC", "tsm:UTC", "timestamp[ms, tz=UTC]"}, {"z", "Z", "binary"},
        {"tsm:UTC", "tsm:", NULL}, {"tsm:", "l", NULL}, {"g", "L", NULL}, {"u", "i", NULL}, {"vz", "z", NULL}, {"d:9,2", "d:9,3", NULL},
    };
    static const char *const texts[] = {"[null]"};
    for (size_t i = 0; i < sizeof given / sizeof *given; i++) {
        const char *const formats[2] = {given[i].first, given[i].second};
        sel_column in[2] = {{0}, {0}}, out[2] = {{0}, {0}};
        sel_type types[2] = {{0}, {0}}, type = {0};
        for (int k = 0; k < 2; k++) {
            struct ArrowSchema schema = type_of_format(formats[k]);
            static const int64_t zeros[4];
            const void *buffers[3] = {zeros, zeros, zeros};
            char first = formats[k][0];
            int64_t count = strchr("uUzZv", first) ? 3 : 2;
            struct ArrowArray array = {.length = 1, .null_count = 1, .n_buffers = count, .buffers = buffers, .release = keep_array};
            CHECK(sel_import(&array, &schema, &in[k], &types[k]) == SEL_OK && shows(&in[k], texts[0]));
        }
        CHECK(sel_common_type(in, types, 2, out, &type) == (given[i].common ? SEL_OK : SEL_ERROR_TYPE_MISMATCH));
        CHECK(given[i].common ? prints(&type, given[i].common) : !type.at && !out[0].at);
        for (int k = 0; k < 2; k++) sel_free(&in[k]), sel_free(&out[k]), sel_type_free(&types[k]);
        sel_type_free(&type);
    }
}

/* A column without a type has that of its storage; the common type is nullable where one of the two is. */
static void storage_is_joined(void) {
    const int64_t numbers[2] = {1, 2};
    sel_column in[2] = {{0}, {0}}, out[2] = {{0}, {0}}, none = {0};
    sel_type types[2] = {{0}, {0}}, type = {0};
    CHECK(sel_int64_new(numbers, 2, SEL_ALL_VALID, &in[0]) == SEL_OK && sel_share(&in[0], &in[1]) == SEL_OK);
    CHECK(sel_type_new("l", NULL, 0, &types[0]) == SEL_OK && sel_type_as_field(&types[0], "n", false, &types[0]) == SEL_OK);
    CHECK(sel_common_type(in, types, 2, out, &type) == SEL_OK && !strcmp(sel_type_name(&type), "n"));
    struct ArrowSchema schema;
    CHECK(sel_type_export(&type, &schema) == SEL_OK && schema.flags == ARROW_FLAG_NULLABLE);
    schema.release(&schema);
    CHECK(sel_common_type(in, types, 1, out, &type) == SEL_OK && sel_type_equal(&type, &types[0]));
    CHECK(sel_common_type(in, types, 0, out, &type) == SEL_ERROR_LENGTH_MISMATCH);
    CHECK(sel_common_type(&none, types, 1, out, &type) == SEL_ERROR_NO_COLUMN);
    CHECK(sel_type_new("u", NULL, 0, &types[1]) == SEL_OK);
    CHECK(sel_common_type(in, types, 2, out, &type) == SEL_ERROR_TYPE_MISMATCH && sel_type_equal(&type, &types[0]));
    for (int i = 0; i < 2; i++) sel_free(&in[i]), sel_free(&out[i]), sel_type_free(&types[i]);
    sel_type_free(&type);
}

/* Makes the type of a struct of two integers with these names, or of a map of them. */
static void make_pairs(const char *format, const char *key, const char *value, sel_type *out) {
    sel_type fields[2] = {{0}, {0}};
    CHECK(sel_type_new("l", NULL, 0, &fields[0]) == SEL_OK && sel_type_as_field(&fields[0], value, true, &fields[1]) == SEL_OK);
    CHECK(sel_type_as_field(&fields[0], key, true, &fields[0]) == SEL_OK && sel_type_new("+s", fields, 2, out) == SEL_OK);
    CHECK(sel_type_new(format, out, 1, out) == SEL_OK);
    sel_type_free(&fields[0]);
    sel_type_free(&fields[1]);
}

/* The names of fields have to be the same, but not those of a map's entries. */
static void names_are_compared(void) {
    const char *dtype = "list<struct<i64,i64>>", *rows = "[[(1,2)],null]";
    sel_column in[2] = {{0}, {0}}, out[2] = {{0}, {0}};
    sel_type types[2] = {{0}, {0}}, type = {0};
    size_t at = 0;
    for (int i = 0; i < 2; i++) CHECK(sel_parse((const uint8_t *)dtype, strlen(dtype), (const uint8_t *)rows, strlen(rows), &at, &in[i]) == SEL_OK);
    for (int is_map = 0; is_map < 2; is_map++) {
        make_pairs(is_map ? "+m" : "+l", "key", "value", &types[0]);
        make_pairs(is_map ? "+m" : "+l", "keys", "values", &types[1]);
        CHECK(sel_common_type(in, types, 2, out, &type) == (is_map ? SEL_OK : SEL_ERROR_TYPE_MISMATCH));
    }
    CHECK(prints(&type, "map<i64, i64>") && shows(&out[1], rows));
    for (int i = 0; i < 2; i++) sel_free(&in[i]), sel_free(&out[i]), sel_type_free(&types[i]);
    sel_type_free(&type);
}

/* Each field of the common type is nullable where it is in one of the two. */
static void fields_are_merged(void) {
    sel_column fields[2] = {{0}, {0}}, in[2] = {{0}, {0}}, out[2] = {{0}, {0}};
    sel_type leaves[2] = {{0}, {0}}, types[2] = {{0}, {0}}, type = {0};
    for (int i = 0; i < 2; i++) {
        for (int k = 0; k < 2; k++) CHECK(sel_null_new(1, &fields[k]) == SEL_OK && sel_type_new("n", NULL, 0, &leaves[k]) == SEL_OK);
        CHECK(sel_type_as_field(&leaves[i], "", false, &leaves[i]) == SEL_OK && sel_type_new("+s", leaves, 2, &types[i]) == SEL_OK);
        CHECK(sel_struct_new(1, SEL_ALL_VALID, fields, 2, &in[i]) == SEL_OK);
    }
    CHECK(prints(&types[0], "struct<: null not null, : null>") && prints(&types[1], "struct<: null, : null not null>"));
    CHECK(!sel_type_equal(&types[0], &types[1]));
    CHECK(sel_common_type(in, types, 2, out, &type) == SEL_OK && prints(&type, "struct<: null, : null>"));
    for (int i = 0; i < 2; i++) sel_free(&in[i]), sel_free(&out[i]), sel_type_free(&types[i]), sel_type_free(&leaves[i]);
    sel_type_free(&type);
}

static void dictionaries_are_made(void) {
    const int64_t numbers[2] = {5, 6};
    const uint8_t keys[3] = {1, 0, 1};
    sel_column values = {0}, column = {0}, out = {0};
    sel_type type = {0}, date = {0}, decoded = {0};
    CHECK(sel_type_dictionary_new("C", &values, NULL, false, &type) == SEL_ERROR_NO_COLUMN && !type.at);
    CHECK(sel_int64_new(numbers, 2, SEL_ALL_VALID, &values) == SEL_OK && sel_uint8_new(keys, 3, SEL_ALL_VALID, &column) == SEL_OK);
    CHECK(sel_type_new("tdm", NULL, 0, &date) == SEL_OK);
    CHECK(sel_type_dictionary_new("g", &values, &date, false, &type) == SEL_ERROR_ARROW_FORMAT);
    CHECK(sel_type_dictionary_new("", &values, &date, false, &type) == SEL_ERROR_ARROW_FORMAT);
    CHECK(sel_type_dictionary_new("C", &column, &date, false, &type) == SEL_ERROR_TYPE_MISMATCH && !type.at);
    CHECK(sel_type_dictionary(&date, &out, &decoded) == SEL_ERROR_ARROW_DICTIONARY && !out.at);
    CHECK(sel_type_dictionary_new("C", &values, NULL, true, &type) == SEL_OK && prints(&type, "dictionary<u8, i64, ordered>"));
    CHECK(sel_type_dictionary_new("C", &values, &date, false, &type) == SEL_OK && prints(&type, "dictionary<u8, date64[ms]>"));
    CHECK(sel_decode(&column, &type, &out, &decoded) == SEL_OK && shows(&out, "[6,5,6]") && prints(&decoded, "date64[ms]"));
    CHECK(sel_decode(&values, &type, &out, &decoded) == SEL_ERROR_TYPE_MISMATCH && sel_decode(&column, &(sel_type){0}, &out, &decoded) == SEL_ERROR_NO_COLUMN);
    /* the type of a schema alone has no values */
    struct ArrowSchema schema;
    struct ArrowArray array;
    CHECK(sel_type_export(&type, &schema) == SEL_OK && sel_type_import(&schema, &date) == SEL_OK && sel_type_equal(&type, &date));
    schema.release(&schema);
    CHECK(sel_export(&column, &date, &array, &schema) == SEL_ERROR_ARROW_DICTIONARY && !array.release && !schema.release);
    CHECK(sel_type_dictionary(&date, &out, &decoded) == SEL_ERROR_ARROW_DICTIONARY);
    sel_free(&values);
    sel_free(&column);
    sel_free(&out);
    sel_type_free(&type);
    sel_type_free(&date);
    sel_type_free(&decoded);
}

/* Imports two columns with dictionaries, joins them, and decodes one. */
static sel_status join_and_decode(void *of) {
    sel_column in[2] = {{0}, {0}}, out[2] = {{0}, {0}};
    sel_type types[2] = {{0}, {0}}, type = {0};
    const piece *pieces = of;
    sel_status status = import_piece(pieces[0], &in[0], &types[0]);
    if (status == SEL_OK) status = import_piece(pieces[1], &in[1], &types[1]);
    if (status == SEL_OK) status = sel_common_type(in, types, 2, out, &type);
    CHECK((status == SEL_OK) == (out[0].at && out[1].at && type.at));
    if (status == SEL_OK) status = sel_decode(&in[0], &types[0], &out[0], &type);
    for (int i = 0; i < 2; i++) sel_free(&in[i]), sel_free(&out[i]), sel_type_free(&types[i]);
    sel_type_free(&type);
    return status;
}

/* A key that is not nullable, below a null struct or list, is null and has no row in its dictionary: it goes around as a null. */
static void hidden_keys_go_around(void) {
    static const int32_t lists[3] = {0, 2, 4};
    static const char *const names[] = {"x"}, *const rows[] = {"[(2),(0),null,(2)]", "[[2,0],null]"};
    static const uint8_t second_list_null[1] = {0x01};
    for (int kind = 0; kind < 2; kind++) {
        sel_column column = {0}, again = {0};
        sel_type type = {0}, same = {0};
        struct ArrowArray array;
        struct ArrowSchema schema;
        forget_pieces();
        piece keys = coded(4, text);
        keys.schema->flags = 0;
        piece outer = kind == 0 ? piece_of("+s", ROWS, 0, 1, third_null, NULL, NULL) : piece_of("+l", 2, 0, 2, second_list_null, lists, NULL);
        CHECK(import_piece(piece_over(outer, 1, &keys, names), &column, &type) == SEL_OK && shows(&column, rows[kind]));
        CHECK(sel_export(&column, &type, &array, &schema) == SEL_OK && schema.children[0]->flags == 0);
        CHECK(array.children[0]->null_count == 1 && array.children[0]->buffers[0]);
        CHECK(sel_import(&array, &schema, &again, &same) == SEL_OK && shows(&again, rows[kind]) && sel_type_equal(&type, &same));
        schema.release(&schema);
        sel_free(&column);
        sel_free(&again);
        sel_type_free(&type);
        sel_type_free(&same);
    }
}

/* A dictionary may have nulls whatever its flags are, since it is no field; the fields below may not. */
static void dictionaries_may_have_nulls(void) {
    static const char *const names[] = {"x"};
    static const uint8_t first_two[2] = {0, 1};
    for (int kind = 0; kind < 3; kind++) {
        sel_column column = {0}, again = {0};
        sel_type type = {0}, same = {0};
        struct ArrowArray array;
        struct ArrowSchema schema;
        forget_pieces();
        piece values = words(text);
        if (kind > 0) values = piece_over(piece_of("+s", 4, 0, 1, kind == 1 ? second_null : NULL, NULL, NULL), 1, &values, names);
        if (kind > 0) values.schema->children[0]->flags = 0;
        values.schema->flags = 0;
        piece keys = piece_with(piece_of("C", 2, 0, 2, NULL, first_two, NULL), values);
        CHECK(import_piece(keys, &column, &type) == SEL_OK && shows(&column, "[0,1]"));
        sel_status status = sel_export(&column, &type, &array, &schema);
        CHECK(status == (kind == 2 ? SEL_ERROR_ARROW_NULL : SEL_OK));
        if (status == SEL_OK) {
            CHECK(same_schema(&schema, keys.schema) && array.dictionary->null_count == 1 && array.dictionary->buffers[0]);
            CHECK(sel_import(&array, &schema, &again, &same) == SEL_OK && sel_type_equal(&type, &same));
            schema.release(&schema);
        }
        sel_free(&column);
        sel_free(&again);
        sel_type_free(&type);
        sel_type_free(&same);
    }
}

/* Checks that a decoded column can be exported with its type, which is nullable if the dictionary has nulls. */
static void is_nullable_if(bool has_nulls, const sel_column *decoded, const sel_type *type) {
    struct ArrowArray array;
    struct ArrowSchema schema;
    sel_column again = {0};
    sel_status status = sel_export(decoded, type, &array, &schema);
    CHECK(status == SEL_OK);
    if (status != SEL_OK) return;
    CHECK(schema.flags == (has_nulls ? ARROW_FLAG_NULLABLE : 0));
    CHECK(sel_import(&array, &schema, &again, NULL) == SEL_OK && shows(&again, has_nulls ? "[\"a\",null,\"fourteen chars\"]" : "[\"a\",\"b\",\"fourteen chars\"]"));
    schema.release(&schema);
    sel_free(&again);
}

/* Words in which none is null, in a field that says so. */
static piece valid_words(void) {
    piece it = words(text);
    it.array->buffers[0] = all;
    it.schema->flags = 0;
    return it;
}

/* Keys that are not nullable, of a dictionary with nulls that does not say so: the decoded column has nulls, and its type is nullable. */
static void decoded_nulls_are_exported(void) {
    static const uint8_t keys[3] = {0, 1, 2};
    for (int has_nulls = 0; has_nulls < 2; has_nulls++) {
        sel_column in[2] = {{0}, {0}}, out[2] = {{0}, {0}};
        sel_type types[2] = {{0}, {0}}, type = {0};
        forget_pieces();
        piece values = valid_words();
        if (has_nulls) values.array->buffers[0] = second_null;
        piece it = piece_with(piece_of("C", 3, 0, 2, NULL, keys, NULL), values);
        it.schema->flags = 0;
        CHECK(import_piece(it, &in[0], &types[0]) == SEL_OK && import_piece(valid_words(), &in[1], &types[1]) == SEL_OK);
        CHECK(sel_decode(&in[0], &types[0], &out[0], &type) == SEL_OK);
        is_nullable_if(has_nulls, &out[0], &type);
        /* the same, joined with a column without a dictionary */
        CHECK(sel_common_type(in, types, 2, out, &type) == SEL_OK);
        is_nullable_if(has_nulls, &out[0], &type);
        for (int i = 0; i < 2; i++) sel_free(&in[i]), sel_free(&out[i]), sel_type_free(&types[i]);
        sel_type_free(&type);
    }
}

/* Returns no fixed-size lists of two, one level of them above the other, over keys of a dictionary without rows. */
static piece lists_without_rows(int depth) {
    static const char *const names[] = {"item"};
    static const int32_t no_offsets[1] = {0};
    piece it = piece_with(piece_of("i", 0, 0, 2, NULL, NULL, NULL), piece_of("u", 0, 0, 3, NULL, no_offsets, NULL));
    for (int i = 0; i < depth; i++) it = piece_over(piece_of("+w:2", 0, 0, 1, NULL, NULL, NULL), 1, &it, names);
    return it;
}

/* Imports an array without rows, and takes two nulls of it. */
static sel_status take_nulls(piece it, sel_column *out, sel_type *type) {
    const uint32_t none[2] = {0, 0};
    const uint8_t nulls[1] = {0};
    sel_column column = {0};
    sel_status status = import_piece(it, &column, type);
    if (status == SEL_OK) status = sel_take_rows(&column, none, 2, nulls, 1, true, out);
    sel_free(&column);
    return status;
}

static sel_status take_nulls_and_decode(void *of) {
    sel_column taken = {0}, made = {0};
    sel_type type = {0}, decoded = {0};
    struct ArrowArray array = {.release = NULL};
    struct ArrowSchema schema = {.release = NULL};
    sel_status status = take_nulls(*(const piece *)of, &taken, &type);
    if (status == SEL_OK) status = sel_decode(&taken, &type, &made, &decoded);
    if (status == SEL_OK) status = sel_export(&taken, &type, &array, &schema);
    if (array.release) array.release(&array);
    if (schema.release) schema.release(&schema);
    sel_free(&taken);
    sel_free(&made);
    sel_type_free(&type);
    sel_type_free(&decoded);
    return status;
}

/* A key of a null fixed-size list has no row in a dictionary without rows: it goes around as a null. */
static void null_lists_have_no_keys(void) {
    for (int depth = 1; depth <= 2; depth++) {
        sel_column taken = {0}, made = {0}, joined[2] = {{0}, {0}}, out[2] = {{0}, {0}};
        sel_type type = {0}, types[2] = {{0}, {0}}, common = {0};
        struct ArrowArray array;
        struct ArrowSchema schema;
        forget_pieces();
        piece it = lists_without_rows(depth);
        CHECK(take_nulls(it, &taken, &type) == SEL_OK);
        CHECK(sel_decode(&taken, &type, &made, &common) == SEL_OK && shows(&made, "[null,null]"));
        CHECK(sel_export(&taken, &type, &array, &schema) == SEL_OK && array.null_count == 2);
        const struct ArrowArray *keys = &array;
        while (keys->n_children == 1) keys = keys->children[0];
        CHECK(keys->length == 2 << depth && keys->null_count == keys->length && keys->dictionary->length == 0);
        CHECK(sel_import(&array, &schema, &made, &common) == SEL_OK && shows(&made, "[null,null]") && sel_type_equal(&type, &common));
        schema.release(&schema);
        for (int i = 0; i < 2; i++) CHECK(sel_share(&taken, &joined[i]) == SEL_OK && sel_type_share(&type, &types[i]) == SEL_OK);
        CHECK(sel_common_type(joined, types, 2, out, &common) == SEL_OK && sel_type_equal(&type, &common));
        for (int i = 0; i < 2; i++) {
            sel_free(&joined[i]);
            sel_free(&out[i]);
            sel_type_free(&types[i]);
        }
        sel_free(&taken);
        sel_free(&made);
        sel_type_free(&type);
        sel_type_free(&common);
        refuse_each(take_nulls_and_decode, &it, "null lists over a dictionary without rows");
    }
}

void test_dictionaries(void) {
    keys_go_around();
    null_lists_have_no_keys();
    hidden_keys_go_around();
    dictionaries_may_have_nulls();
    decoded_nulls_are_exported();
    keys_are_checked();
    nested_keys_are_decoded();
    columns_are_joined();
    types_are_joined();
    storage_is_joined();
    names_are_compared();
    fields_are_merged();
    dictionaries_are_made();
    for (int kind = 0; kind < 4; kind++) {
        forget_pieces();
        piece equal[2] = {nested_keys(kind, text), nested_keys(kind, text)};
        refuse_each(join_and_decode, equal, "columns with equal dictionaries");
        forget_pieces();
        piece others[2] = {nested_keys(kind, text), nested_keys(kind, third_text)};
        refuse_each(join_and_decode, others, "columns with other dictionaries");
    }
}
