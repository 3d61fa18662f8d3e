/* Tests for test_depth.c: the Arrow interface, logical types, dictionaries and streams of 128 levels. */
#include "test_depth.h"

#include <string.h>

/* ---- Arrow ---- */

static void keep_array(struct ArrowArray *array) { array->release = NULL; }
static void keep_schema(struct ArrowSchema *schema) { schema->release = NULL; }

/* Imports an array of 128 levels as the child of a struct, which has one level more. */
static void import_one_level_more(struct ArrowArray *array, struct ArrowSchema *schema) {
    const void *buffers[1] = {NULL};
    struct ArrowArray above = {.length = LEN, .n_buffers = 1, .n_children = 1, .buffers = buffers, .children = &array, .release = keep_array};
    struct ArrowSchema above_schema = {.format = "+s", .name = "", .n_children = 1, .children = &schema, .release = keep_schema};
    sel_column out = {0};
    FAILS(sel_import(&above, &above_schema, &out, NULL), SEL_ERROR_TOO_DEEP);
    IS(out.at == NULL && above.release == keep_array && array->release != NULL);
}

void test_arrow(void) {
    struct ArrowArray array;
    struct ArrowSchema schema;
    sel_column out = {0};
    bool is_equal = false;
    sel_status status = sel_export(deep, NULL, &array, &schema);
    IS(done(status) && (array.release != NULL) == (status == SEL_OK) && (schema.release != NULL) == (status == SEL_OK));
    if (status != SEL_OK) {
        return;
    }
    import_one_level_more(&array, &schema);
    status = sel_import(&array, &schema, &out, NULL);
    IS(done(status) && (array.release == NULL) == (status == SEL_OK) && (out.at != NULL) == (status == SEL_OK));
    if (status != SEL_OK) {
        IS(sel_import(&array, &schema, &out, NULL) == SEL_OK && array.release == NULL); /* tried again */
    }
    SHOWS(&out, MOST, 0, 1, NONE);
    IS(sel_equal_rows(&out, deep, &is_equal) == SEL_OK && is_equal);
    schema.release(&schema);
    sel_free(&out);
}

/* ---- logical types of 128 levels ---- */

/* Makes a type of the column `deep`, exports both and imports them again. */
static sel_status pass_type(const sel_type *type, sel_column *out, sel_type *again) {
    struct ArrowArray array;
    struct ArrowSchema schema;
    sel_status status = sel_export(deep, type, &array, &schema);
    if (status != SEL_OK) {
        return status;
    }
    IS(sel_unsupported_format(&schema) == NULL);
    status = sel_import(&array, &schema, out, again);
    if (status == SEL_OK) {
        IS(sel_type_equal(type, again));
        status = sel_type_import(&schema, again);
    } else {
        array.release(&array);
    }
    schema.release(&schema);
    return status;
}

void test_types_of_levels(void) {
    static uint8_t room[ROOM];
    sel_type type = {0}, child = {0}, again = {0};
    sel_column out = {0}, joined[2] = {{0}, {0}};
    const sel_column both[2] = {*deep, *deep};
    size_t len = 0;
    sel_status status = sel_type_of_storage(deep, &type);
    if (status == SEL_OK) {
        status = pass_type(&type, &out, &again);
    }
    if (status == SEL_OK) {
        IS(sel_type_format(&type, room, sizeof room, &len) == SEL_OK && len > MOST && strlen(sel_type_arrow_format(&type)) >= 2);
        IS(sel_type_child_count(&type) == sel_type_child_count(&again) && sel_type_child(&type, 0, &child) == SEL_OK && sel_type_name(&child) != NULL);
        IS(sel_type_share(&again, &child) == SEL_OK && sel_type_equal(&child, &type));
        IS(gives(sel_type_new("+l", &type, 1, &child), SEL_ERROR_TOO_DEEP) && sel_type_equal(&child, &type));
        status = sel_type_as_field(&type, "name", false, &child);
    }
    if (status == SEL_OK) {
        const sel_type types[2] = {type, child};
        status = sel_common_type(both, types, 2, joined, &again);
        IS((status == SEL_OK) == (joined[0].at != NULL && joined[1].at != NULL));
    }
    if (status == SEL_OK) {
        status = sel_decode(deep, &type, &out, &again);
    }
    if (status == SEL_OK) {
        SHOWS(&out, MOST, 0, 1, NONE);
    }
    IS(done(status));
    sel_free(&out);
    sel_free(&joined[0]);
    sel_free(&joined[1]);
    sel_type_free(&type);
    sel_type_free(&child);
    sel_type_free(&again);
}

/* Keys of a dictionary of 127 levels, which is one level more; of 128 levels it is too deep. */
void test_dictionary_of_levels(void) {
    static const uint8_t keys[LEN] = {2, 0, 1};
    sel_column column = {0}, out = {0};
    sel_type type = {0}, none_of = {0}, exported = {0};
    struct ArrowSchema schema = {.release = NULL};
    sel_status status = sel_uint8_new(keys, LEN, SEL_ALL_VALID, &column);
    if (status == SEL_OK) {
        IS(gives(sel_type_dictionary_new("C", deep, NULL, false, &type), SEL_ERROR_TOO_DEEP) && type.at == NULL);
        status = sel_type_dictionary_new("C", &below, NULL, false, &type);
    }
    if (status == SEL_OK) {
        status = sel_decode(&column, &type, &out, &none_of);
    }
    if (status == SEL_OK) {
        SHOWS(&out, MOST - 1, 2, 0, 1);
        status = sel_type_dictionary(&type, &out, &none_of);
    }
    if (status == SEL_OK) {
        SHOWS(&out, MOST - 1, 0, 1, 2);
        status = sel_type_export(&type, &schema);
    }
    if (status == SEL_OK) {
        status = sel_type_import(&schema, &exported);
        schema.release(&schema);
    }
    IS(done(status) && (status != SEL_OK || sel_type_equal(&type, &exported)));
    sel_free(&column);
    sel_free(&out);
    sel_type_free(&type);
    sel_type_free(&none_of);
    sel_type_free(&exported);
}

/* ---- streams ---- */

/* Returns `deep` once, and then the end. */
static sel_status next_deep(void *context, sel_column *out, sel_type *type) {
    int *calls = context;
    (void)type;
    *calls += 1;
    return *calls == 1 ? sel_share(deep, out) : SEL_OK;
}

void test_stream_of_levels(void) {
    int calls = 0;
    sel_type type = {0}, again = {0};
    sel_column out = {0};
    sel_stream stream = {0};
    struct ArrowArrayStream source = {.release = NULL};
    sel_status status = sel_type_of_storage(deep, &type);
    if (status == SEL_OK) {
        status = sel_stream_export(&type, next_deep, &calls, NULL, &source);
    }
    if (status == SEL_OK) {
        status = sel_stream_open(&source, &stream);
    }
    if (status == SEL_OK) {
        status = sel_stream_type(&stream, &again);
    }
    if (status == SEL_OK) {
        status = sel_stream_next(&stream, &out, &again);
    }
    if (status == SEL_ERROR_ARROW_STREAM) { /* the producer is out of memory */
        IS(stream.at == NULL || strcmp(sel_stream_message(&stream), "out of memory") == 0);
        status = SEL_ERROR_OUT_OF_MEMORY;
    }
    if (status == SEL_OK) {
        SHOWS(&out, MOST, 0, 1, NONE);
    }
    IS(done(status));
    sel_stream_free(&stream);
    if (source.release != NULL) {
        source.release(&source);
    }
    sel_free(&out);
    sel_type_free(&type);
    sel_type_free(&again);
}
