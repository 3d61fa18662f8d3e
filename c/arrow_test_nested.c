/* Arrow arrays with children in: lists, fixed-size lists and structs; how deep they may be. */
#include "arrow_test.h"

/* A level with one child of four numbers, and what an import of it answers. */
static sel_status import_over(const char *format, const char *below, int64_t length, int64_t offset, const void *own, sel_column *out) {
    static const int64_t values[4] = {10, 11, 12, 13};
    const void *child_buffers[2] = {NULL, values}, *buffers[2] = {NULL, own};
    struct ArrowArray child = {.length = 4, .n_buffers = 2, .buffers = child_buffers, .release = keep_array}, *children[1] = {&child};
    struct ArrowSchema child_type = type_of_format(below), *types[1] = {&child_type};
    struct ArrowArray array = {.length = length, .offset = offset, .n_buffers = own ? 2 : 1, .n_children = 1, .buffers = buffers, .children = children, .release = release_array};
    struct ArrowSchema schema = type_of_format(format);
    schema.n_children = 1;
    schema.children = types;
    return sel_import(&array, &schema, out, NULL);
}

static void trees_come_in(void) {
    const int32_t narrow[4] = {0, 1, 1, 3};
    const int64_t wide[4] = {0, 1, 1, 3};
    int64_t rows[4];
    sel_column out = {0}, below = {0};
    for (int i = 0; i < 2; i++) {
        CHECK(import_over(i ? "+L" : "+l", "l", 2, 1, i ? (const void *)wide : narrow, &out) == SEL_OK && sel_type_of(&out) == SEL_TYPE_LIST);
        int64_t offsets[3] = {0};
        CHECK(sel_offsets(&out, offsets, 3) == SEL_OK && offsets[1] == offsets[0] && offsets[2] == offsets[0] + 2);
        CHECK(sel_child(&out, &below) == SEL_OK && sel_len(&below) <= 4 && sel_int64_values(&below, rows, sel_len(&below)) == SEL_OK);
        CHECK(rows[offsets[0]] == 11 && rows[offsets[0] + 1] == 12);
        sel_free(&below);
        sel_free(&out);
    }
    CHECK(import_over("+w:2", "l", 1, 1, NULL, &out) == SEL_OK);
    CHECK(sel_child(&out, &below) == SEL_OK && sel_int64_values(&below, rows, 2) == SEL_OK && rows[0] == 12);
    sel_free(&below);
    sel_free(&out);
    CHECK(import_over("+s", "l", 2, 2, NULL, &out) == SEL_OK);
    CHECK(sel_field(&out, 0, &below) == SEL_OK && sel_int64_values(&below, rows, 2) == SEL_OK && rows[1] == 13);
    sel_free(&below);
    sel_free(&out);
}

static void trees_are_refused(void) {
    const int32_t past[4] = {0, 1, 1, 5}, fall[4] = {0, 2, 1, 3};
    sel_column out = {0};
    CHECK(import_over("+l", "l", 3, 0, past, &out) == SEL_ERROR_OFFSET_RANGE);
    CHECK(import_over("+l", "l", 3, 0, fall, &out) == SEL_ERROR_DECREASING_OFFSET);
    CHECK(import_over("+l", "tdd", 3, 0, past, &out) == SEL_ERROR_ARROW_FORMAT);
    CHECK(import_over("+w:2", "l", 3, 0, NULL, &out) == SEL_ERROR_ARROW_LENGTH);
    CHECK(import_over("+w:", "l", 1, 0, NULL, &out) == SEL_ERROR_ARROW_FORMAT);
    CHECK(import_over("+w:-1", "l", 1, 0, NULL, &out) == SEL_ERROR_ARROW_FORMAT);
    CHECK(import_over("+w:4294967296", "l", 0, 0, NULL, &out) == SEL_ERROR_LIST_SIZE);
    CHECK(import_over("+s", "l", 5, 0, NULL, &out) == SEL_ERROR_ARROW_LENGTH);
    CHECK(import_over("l", "l", 1, 0, past, &out) == SEL_ERROR_ARROW_CHILDREN);
    struct ArrowArray none = {.n_buffers = 1, .release = release_array};
    struct ArrowSchema list = type_of_format("+w:1");
    const void *buffers[1] = {NULL};
    none.buffers = buffers;
    CHECK(sel_import(&none, &list, &out, NULL) == SEL_ERROR_ARROW_CHILDREN && none.release == release_array);
    struct ArrowArray keyed = {.n_buffers = 1, .buffers = buffers, .dictionary = &none, .release = release_array};
    struct ArrowSchema integers = type_of_format("i");
    CHECK(sel_import(&keyed, &integers, &out, NULL) == SEL_ERROR_ARROW_DICTIONARY && !out.at);
}

/* The formats of nested levels, and the number of buffers of each. */
static const struct { const char *format; int64_t buffers; } nested[] = {{"+l", 2}, {"+L", 2}, {"+w:0", 1}, {"+w:1", 1}, {"+s", 1}};
enum { NESTED = sizeof nested / sizeof *nested, MOST = 128 };

/* Arrays without rows, each the child of the one before it; the last one may have no children. */
typedef struct chain {
    struct ArrowArray arrays[MOST + 2], *below[MOST + 2];
    struct ArrowSchema types[MOST + 2], *types_below[MOST + 2];
    const void *buffers[2];
} chain;

/* Makes level `i` of a chain with the format of number `which`, or a null column if that is negative. */
static void make_level(chain *it, int i, int which) {
    it->arrays[i] = (struct ArrowArray){.n_buffers = which < 0 ? 0 : nested[which].buffers, .n_children = which >= 0, .buffers = it->buffers,
                                        .children = &it->below[i], .release = keep_array};
    it->types[i] = type_of_format(which < 0 ? "n" : nested[which].format);
    it->types[i].n_children = which >= 0;
    it->types[i].children = &it->types_below[i];
    if (which >= 0) it->below[i] = &it->arrays[i + 1], it->types_below[i] = &it->types[i + 1];
}

/* An import that returns SEL_ERROR_TOO_DEEP, releases nothing, and leaves `out` unchanged. */
static void is_too_deep(chain *it) {
    sel_column out = {0};
    CHECK(sel_import(&it->arrays[0], &it->types[0], &out, NULL) == SEL_ERROR_TOO_DEEP && !out.at);
    CHECK(it->arrays[0].release == keep_array);
    sel_free(&out);
}

/* 128 levels are imported, of one format or of all in turn; level 129 is an error, whatever is below it. */
static void depth_has_an_end(void) {
    static chain it;
    for (int format = 0; format <= NESTED; format++) {
        sel_column out = {0};
        for (int i = 0; i < MOST; i++) make_level(&it, i, format < NESTED ? format : i % NESTED);
        make_level(&it, MOST, -1);
        CHECK(sel_import(&it.arrays[0], &it.types[0], &out, NULL) == SEL_OK && out.at && !it.arrays[0].release);
        sel_free(&out);
        it.arrays[0].release = keep_array;
        make_level(&it, MOST, format % NESTED);
        make_level(&it, MOST + 1, -1);
        is_too_deep(&it);
        /* level 129 is not read any further: it has other counts than its format, and no children */
        it.arrays[MOST].n_buffers = it.arrays[MOST].n_children = -1;
        it.arrays[MOST].children = NULL;
        it.types[MOST].children = NULL;
        is_too_deep(&it);
    }
    /* a struct without fields is a level too */
    make_level(&it, MOST, NESTED - 1);
    it.arrays[MOST].n_children = it.types[MOST].n_children = 0;
    is_too_deep(&it);
}

/* An array that is its own child, or that is below its child, has no end of levels. */
static void cycles_have_an_end(void) {
    static chain it;
    for (int format = 0; format < NESTED; format++) {
        for (int length = 1; length <= 3; length++) {
            for (int i = 0; i < length; i++) make_level(&it, i, (format + i) % NESTED);
            it.below[length - 1] = &it.arrays[0];
            it.types_below[length - 1] = &it.types[0];
            is_too_deep(&it);
        }
    }
}

void test_nested(void) {
    trees_come_in();
    trees_are_refused();
    depth_has_an_end();
    cycles_have_an_end();
}
