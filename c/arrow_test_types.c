/* Logical types: made, compared, renamed, printed, and those of the storage; each error, and each allocation refused. */
#include "arrow_test.h"

#include <stdio.h>
#include <string.h>

static void types_are_made(void) {
    sel_type leaf = {0}, list = {0}, both[2] = {{0}, {0}}, out = {0}, other = {0};
    CHECK(sel_type_new("tsu:UTC", NULL, 0, &leaf) == SEL_OK && prints(&leaf, "timestamp[us, tz=UTC]"));
    CHECK(sel_type_new("+l", &leaf, 1, &list) == SEL_OK && prints(&list, "list<: timestamp[us, tz=UTC]>"));
    CHECK(sel_type_child_count(&list) == 1 && sel_type_child(&list, 0, &out) == SEL_OK && sel_type_equal(&out, &leaf));
    CHECK(sel_type_child(&list, 1, &out) == SEL_ERROR_INDEX_OUT_OF_BOUNDS && sel_type_equal(&out, &leaf));
    CHECK(sel_type_as_field(&leaf, "when", false, &both[0]) == SEL_OK && sel_type_as_field(&list, NULL, true, &both[1]) == SEL_OK);
    CHECK(!strcmp(sel_type_name(&both[0]), "when") && !sel_type_name(&both[1]) && !strcmp(sel_type_arrow_format(&both[1]), "+l"));
    CHECK(sel_type_new("+s", both, 2, &out) == SEL_OK);
    CHECK(prints(&out, "struct<when: timestamp[us, tz=UTC] not null, : list<: timestamp[us, tz=UTC]>>"));
    CHECK(sel_type_new("+s", both, 2, &other) == SEL_OK && sel_type_equal(&out, &other) && !sel_type_equal(&out, &list));
    CHECK(sel_type_as_field(&other, "", false, &other) == SEL_OK && !sel_type_equal(&out, &other));
    CHECK(sel_type_new("+w:7", &leaf, 1, &out) == SEL_OK && prints(&out, "fixed_size_list<: timestamp[us, tz=UTC]>[7]"));
    CHECK(sel_type_new("+s", both, 2, &other) == SEL_OK && sel_type_new("+m", &other, 1, &out) == SEL_OK);
    CHECK(prints(&out, "map<timestamp[us, tz=UTC], list<: timestamp[us, tz=UTC]>>"));
    sel_type *const each[] = {&leaf, &list, &both[0], &both[1], &out, &other};
    for (size_t i = 0; i < sizeof each / sizeof *each; i++) sel_type_free(each[i]);
    CHECK(!out.at);
}

static void types_are_refused(void) {
    static const struct { const char *format; size_t children; sel_status status; } given[] = {
        {"x", 0, SEL_ERROR_ARROW_FORMAT}, {"+us:0", 1, SEL_ERROR_ARROW_FORMAT}, {"+vl", 1, SEL_ERROR_ARROW_FORMAT}, {"+r", 2, SEL_ERROR_ARROW_FORMAT},
        {"i", 1, SEL_ERROR_ARROW_CHILDREN}, {"+l", 0, SEL_ERROR_ARROW_CHILDREN}, {"+l", 2, SEL_ERROR_ARROW_CHILDREN}, {"+w:1", 0, SEL_ERROR_ARROW_CHILDREN},
        {"+m", 1, SEL_ERROR_ARROW_CHILDREN}, {"+w:4294967296", 1, SEL_ERROR_LIST_SIZE}, {"w:4294967296", 0, SEL_ERROR_LIST_SIZE}, {"+s", 0, SEL_OK},
    };
    sel_type children[2] = {{0}, {0}}, out = {0}, before;
    struct ArrowSchema schema;
    uint8_t room[4] = {0, 0, 0, 9};
    size_t len = 7;
    CHECK(sel_type_new("+l", children, 1, &out) == SEL_ERROR_NO_COLUMN && !out.at);
    CHECK(sel_type_new("i", NULL, 0, &children[0]) == SEL_OK && sel_type_new("u", NULL, 0, &children[1]) == SEL_OK);
    for (size_t i = 0; i < sizeof given / sizeof *given; i++) {
        CHECK(sel_type_share(&children[0], &out) == SEL_OK);
        before = out;
        CHECK(sel_type_new(given[i].format, children, given[i].children, &out) == given[i].status);
        CHECK((given[i].status == SEL_OK) == (out.at != before.at));
    }
    sel_type_free(&out);
    CHECK(sel_type_share(&out, &children[0]) == SEL_ERROR_NO_COLUMN && prints(&children[0], "i32"));
    CHECK(sel_type_export(&out, &schema) == SEL_ERROR_NO_COLUMN && !schema.release);
    CHECK(sel_type_as_field(&out, "", true, &children[0]) == SEL_ERROR_NO_COLUMN && sel_type_child(&out, 0, &children[0]) == SEL_ERROR_NO_COLUMN);
    CHECK(sel_type_format(&out, room, 4, &len) == SEL_ERROR_NO_COLUMN && len == 7 && sel_type_child_count(&out) == 0);
    sel_column values = {0};
    CHECK(sel_type_dictionary(&out, &values, &children[0]) == SEL_ERROR_NO_COLUMN && !values.at && prints(&children[0], "i32"));
    CHECK(!sel_type_name(&out) && !sel_type_arrow_format(&out) && sel_type_equal(&out, &out) && !sel_type_equal(&out, &children[0]));
    CHECK(sel_type_format(&children[1], room, 3, &len) == SEL_OK && len == 6 && !memcmp(room, "str\t", 4));
    /* 128 levels, and no more */
    sel_type deep = {0};
    CHECK(sel_type_share(&children[0], &deep) == SEL_OK);
    for (int i = 0; i < 128; i++) CHECK(sel_type_new("+l", &deep, 1, &deep) == SEL_OK);
    CHECK(sel_type_new("+l", &deep, 1, &deep) == SEL_ERROR_TOO_DEEP);
    sel_type_free(&deep);
    sel_type_free(&children[0]);
    sel_type_free(&children[1]);
}

/* A pair of metadata, with a count of this kind of error in it. */
static void metadata_is_checked(void) {
    static const char *const given[] = {"\xff\xff\xff\xff", "\1\0\0\0\xff\xff\xff\xff", "\1\0\0\0\1\0\0\0k\xff\xff\xff\x80"};
    sel_type out = {0};
    for (size_t i = 0; i < sizeof given / sizeof *given; i++) {
        struct ArrowSchema schema = type_of_format("i");
        schema.metadata = given[i];
        CHECK(sel_type_import(&schema, &out) == SEL_ERROR_ARROW_LENGTH && !out.at);
    }
    struct ArrowSchema schema = type_of_format("i");
    schema.metadata = "\0\0\0\0";
    CHECK(sel_type_import(&schema, &out) == SEL_OK && prints(&out, "i32"));
    static const char *const others[] = {"\1\0\0\0\1\0\0\0k\1\0\0\0v", "\1\0\0\0\1\0\0\0k\1\0\0\0w", "\1\0\0\0\1\0\0\0k\2\0\0\0ww", NULL};
    for (size_t i = 0; i < 4; i++) {
        sel_type other = {0};
        schema.metadata = others[i];
        CHECK(sel_type_import(&schema, &other) == SEL_OK && !sel_type_equal(&out, &other) && sel_type_share(&other, &out) == SEL_OK);
        sel_type_free(&other);
    }
    schema.metadata = "\1\0\0\0\x14\0\0\0" "ARROW:extension:size" "\4\0\0\0" "uuid"; /* a key as long as that of the name */
    CHECK(sel_type_import(&schema, &out) == SEL_OK && prints(&out, "i32"));
    schema.format = "w:4";
    schema.metadata = "\2\0\0\0\1\0\0\0k\0\0\0\0\x14\0\0\0" "ARROW:extension:name" "\4\0\0\0" "uuid";
    CHECK(sel_type_import(&schema, &out) == SEL_OK && prints(&out, "extension<uuid, fixed_size_binary[4]>"));
    schema.format = "tin"; /* its storage is that of the extension type sel.uint128 */
    CHECK(sel_type_import(&schema, &out) == SEL_OK && prints(&out, "extension<uuid, month_day_nano_interval>"));
    sel_type_free(&out);
}

/* The child of a map is a struct of two fields. */
static void entries_are_checked(void) {
    struct ArrowSchema field = type_of_format("l"), entries = type_of_format("+s"), map = type_of_format("+m");
    struct ArrowSchema *fields[3] = {&field, &field, &field}, *below[1] = {&entries};
    sel_type out = {0};
    entries.children = fields;
    map.n_children = 1;
    map.children = below;
    for (entries.n_children = 0; entries.n_children <= 3; entries.n_children++) {
        CHECK(sel_type_import(&map, &out) == (entries.n_children == 2 ? SEL_OK : SEL_ERROR_ARROW_CHILDREN));
        CHECK((entries.n_children < 2) == !out.at);
    }
    entries.format = "+w:2";
    entries.n_children = 1;
    CHECK(sel_type_import(&map, &out) == SEL_ERROR_ARROW_CHILDREN && prints(&out, "map<i64, i64>"));
    sel_type_free(&out);
}

/* The type of a column that has none is that of its storage. */
static void types_of_storage(void) {
    static const char *const given[][3] = {
        {"null", "[null]", "null"}, {"bool", "[true]", "bool"}, {"i8", "[1]", "i8"}, {"i128", "[1]", "decimal128(38, 0)"}, {"u128", "[1]", "u128"},
        {"u64", "[1]", "u64"}, {"binary", "[null]", "large_binary"}, {"binview", "[null]", "binary_view"}, {"utf8", "[\"a\"]", "string_view"},
        {"list<i8>", "[[1]]", "large_list<item: i8>"}, {"fixed<2,i8>", "[[1,2]]", "fixed_size_list<item: i8>[2]"},
        {"struct<i8,list<utf8>>", "[(1,[])]", "struct<0: i8, 1: large_list<item: string_view>>"},
    };
    sel_column column = {0};
    sel_type type = {0};
    size_t at = 0;
    CHECK(sel_type_of_storage(&column, &type) == SEL_ERROR_NO_COLUMN && !type.at);
    for (size_t i = 0; i < sizeof given / sizeof *given; i++) {
        CHECK(sel_parse((const uint8_t *)given[i][0], strlen(given[i][0]), (const uint8_t *)given[i][1], strlen(given[i][1]), &at, &column) == SEL_OK);
        CHECK(sel_type_of_storage(&column, &type) == SEL_OK && prints(&type, given[i][2]));
    }
    sel_free(&column);
    sel_type_free(&type);
}

/* Every call that makes a type. */
static sel_status make_types(void *of) {
    sel_type leaf = {0}, list = {0}, out = {0}, field = {0};
    struct ArrowSchema schema = {.release = NULL};
    sel_status status = sel_type_new("i", NULL, 0, &leaf);
    if (status == SEL_OK) status = sel_type_new("+l", &leaf, 1, &list);
    if (status == SEL_OK) status = sel_type_as_field(&list, "name", false, &field);
    if (status == SEL_OK) status = sel_type_new("+s", &field, 1, &out);
    if (status == SEL_OK) status = sel_type_export(&out, &schema);
    if (status == SEL_OK) status = sel_type_import(&schema, &list);
    if (status == SEL_OK) CHECK(sel_type_equal(&list, &out));
    if (status == SEL_OK) status = sel_type_of_storage(of, &out);
    if (schema.release) schema.release(&schema);
    sel_type *const each[] = {&leaf, &list, &out, &field};
    for (size_t i = 0; i < sizeof each / sizeof *each; i++) sel_type_free(each[i]);
    return status;
}

void test_types(void) {
    const char *dtype = "struct<u128,list<utf8>,fixed<1,i8>>", *rows = "[(1,[],[1])]";
    sel_column column = {0};
    size_t at = 0;
    types_are_made();
    types_are_refused();
    metadata_is_checked();
    entries_are_checked();
    types_of_storage();
    CHECK(sel_parse((const uint8_t *)dtype, strlen(dtype), (const uint8_t *)rows, strlen(rows), &at, &column) == SEL_OK);
    refuse_each(make_types, &column, "types");
    sel_free(&column);
}
