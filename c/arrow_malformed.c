/* Malformed arrays: for every format each count, flag, offset and pointer at its extremes, in the array and in its child.
 * Each import returns the status of the first broken rule, and then leaves `out` and the array unchanged; else it releases
 * the array once. sel_unsupported_format finds a format exactly if that is the broken rule. Built with AddressSanitizer and
 * UndefinedBehaviorSanitizer, which stop at any read outside of a buffer and any overflow. */
#include "sel_arrow.h"

#include <inttypes.h>
#include <stdio.h>
#include <stdlib.h>
#include <string.h>

typedef struct ArrowArray Array;
typedef struct ArrowSchema Schema;

enum { ROWS = 3, POINTERS = 8 };

/* How a format lays out its rows: its buffers (a column of views may have more) and its children (a struct any number). */
typedef struct format {
    const char *text;
    int64_t buffers, children;
    const void *second, *third; /* the buffers behind the validity */
} format;

static const uint8_t valid[1] = {0x05};
static const int64_t numbers[4 * ROWS + 2] = {1, 2, 3, 4, 5, 6, 7, 8, 9, 10, 11, 12, 13, 14}; /* also the ends of runs */
static const int32_t narrow[ROWS + 1] = {0, 1, 1, 3};
static const int64_t wide[ROWS + 1] = {0, 1, 1, 3};
static const int32_t starts[ROWS] = {4, 0, 1}, sizes[ROWS] = {2, 6, 0};
static const int64_t wide_starts[ROWS] = {4, 0, 1}, wide_sizes[ROWS] = {2, 6, 0};
static const uint8_t text[4] = "abc";
static const sel_view views[ROWS] = {{1, 'a', 0, 0}, {0, 0, 0, 0}, {2, 0x6261, 0, 0}};

static const format formats[] = {
    {"n", 0, 0, NULL, NULL}, {"b", 2, 0, valid, NULL}, {"c", 2, 0, numbers, NULL}, {"C", 2, 0, numbers, NULL},
    {"s", 2, 0, numbers, NULL}, {"S", 2, 0, numbers, NULL}, {"i", 2, 0, numbers, NULL}, {"I", 2, 0, numbers, NULL},
    {"l", 2, 0, numbers, NULL}, {"L", 2, 0, numbers, NULL}, {"d:1,0", 2, 0, numbers, NULL},
    {"d:38,0,128", 2, 0, numbers, NULL}, {"z", 3, 0, narrow, text}, {"Z", 3, 0, wide, text}, {"u", 3, 0, narrow, text},
    {"U", 3, 0, wide, text}, {"vz", 3, 0, views, NULL}, {"vu", 3, 0, views, NULL}, {"e", 2, 0, numbers, NULL},
    {"f", 2, 0, numbers, NULL}, {"g", 2, 0, numbers, NULL}, {"tdD", 2, 0, numbers, NULL}, {"tdm", 2, 0, numbers, NULL},
    {"tts", 2, 0, numbers, NULL}, {"ttn", 2, 0, numbers, NULL}, {"tsu:UTC", 2, 0, numbers, NULL}, {"tDm", 2, 0, numbers, NULL},
    {"tiM", 2, 0, numbers, NULL}, {"tiD", 2, 0, numbers, NULL}, {"tin", 2, 0, numbers, NULL}, {"d:9,2,32", 2, 0, numbers, NULL},
    {"d:18,2,64", 2, 0, numbers, NULL}, {"d:76,-2,256", 2, 0, numbers, NULL}, {"w:5", 2, 0, numbers, NULL},
    {"+l", 2, 1, narrow, NULL}, {"+L", 2, 1, wide, NULL}, {"+m", 2, 1, narrow, NULL}, {"+vl", 3, 1, starts, sizes},
    {"+vL", 3, 1, wide_starts, wide_sizes}, {"+r", 0, 2, NULL, NULL}, {"+w:2", 1, 1, NULL, NULL}, {"+s", 1, 2, NULL, NULL},
};
enum { FORMATS = sizeof formats / sizeof *formats };

static int cases, failures, releases;

static void release_array(Array *array) {
    releases++;
    array->release = NULL;
}
static void keep_array(Array *array) { array->release = NULL; }
static void release_schema(Schema *schema) { schema->release = NULL; }

/* An array of three rows, with children of six. */
typedef struct specimen {
    const format *of;
    Array array, child[2], *children[POINTERS];
    Schema schema, child_schema[2], *child_schemas[POINTERS];
    const void *buffers[POINTERS], *child_buffers[POINTERS];
    Array below[2], *below_children[2]; /* the fields of a map's entries */
    Schema below_schema[2], *below_schemas[2];
} specimen;

/* Makes the child of a map: a struct of two fields. */
static void make_entries(specimen *it) {
    for (int i = 0; i < 2; i++) {
        it->below[i] = it->child[i];
        it->below_schema[i] = it->child_schema[i];
        it->below_children[i] = &it->below[i];
        it->below_schemas[i] = &it->below_schema[i];
    }
    it->child[0].n_buffers = 1;
    it->child[0].n_children = it->child_schema[0].n_children = 2;
    it->child[0].children = it->below_children;
    it->child_schema[0].format = "+s";
    it->child_schema[0].children = it->below_schemas;
}

static void make(specimen *it, const format *of) {
    memset(it, 0, sizeof *it);
    it->of = of;
    it->buffers[0] = valid;
    it->buffers[1] = of->second;
    it->buffers[2] = of->third;
    it->child_buffers[1] = numbers;
    for (int i = 0; i < 2; i++) {
        it->child[i] = (Array){.length = 2 * ROWS, .n_buffers = 2, .buffers = it->child_buffers, .release = keep_array};
        it->child_schema[i] = (Schema){.format = "l", .name = "", .release = release_schema};
        it->children[i] = &it->child[i];
        it->child_schemas[i] = &it->child_schema[i];
    }
    if (!strcmp(of->text, "+m")) make_entries(it);
    it->array = (Array){.length = ROWS, .null_count = -1, .n_buffers = of->buffers, .n_children = of->children,
                        .buffers = it->buffers, .children = it->children, .release = release_array};
    it->schema = (Schema){.format = of->text, .name = "", .flags = ARROW_FLAG_NULLABLE, .n_children = of->children,
                          .children = it->child_schemas, .release = release_schema};
}

/* Exports an imported column with its type. Some values of a mixture have no format: a null where the flags allow none, or a decimal. */
static bool exports_again(const sel_column *column, const sel_type *type, bool is_any) {
    Array array;
    Schema schema;
    sel_status status = sel_export(column, type, &array, &schema);
    if (status != SEL_OK) return (is_any || status == SEL_ERROR_ARROW_NULL) && !array.release && !schema.release;
    bool holds = (size_t)array.length == sel_len(column);
    array.release(&array);
    schema.release(&schema);
    return holds;
}

/* Imports a specimen and compares its status; ANY allows every status, but all else is checked. */
enum { ANY = 1000, HUGE = 1001 };

static void imports(specimen *it, uint32_t wanted, const char *what, int64_t value) {
    sel_column out = {0}, before = {0};
    sel_type type = {0};
    void (*release)(Array *) = it->array.release;
    uint8_t shown[256];
    size_t len = 0;
    releases = 0;
    cases++;
    uint32_t status = sel_import(&it->array, &it->schema, &out, &type);
    bool holds = wanted == ANY || status == wanted;
    if (status == SEL_OK) {
        holds = holds && !it->array.release;
        holds = holds && out.at && sel_print(&out, shown, sizeof shown, &len) == SEL_OK && len >= 2;
    } else {
        holds = holds && releases == 0 && it->array.release == release && !memcmp(&out, &before, sizeof out) && !type.at;
    }
    holds = holds && (status != SEL_OK || exports_again(&out, &type, wanted == ANY));
    holds = holds && !sel_unsupported_format(&it->schema) == (status != SEL_ERROR_ARROW_FORMAT);
    sel_type_free(&type);
    sel_free(&out);
    holds = holds && releases == (status == SEL_OK);
    if (holds) return;
    failures++;
    printf("format %s, %s = %" PRId64 ": status %u instead of %u, %d releases\n", it->of->text, what, value, status, wanted, releases);
}

static bool is_view(const format *of) { return of->text[0] == 'v'; }
static bool is_struct(const format *of) { return !strcmp(of->text, "+s"); }
static bool has_offsets(const format *of) { return of->second == narrow || of->second == (const void *)wide; }

static const int64_t extremes[] = {
    INT64_MIN, INT64_MIN + 1, INT64_MIN + 2, INT64_MIN + 3, INT64_MIN / 8, -(int64_t)UINT32_MAX - 1, INT32_MIN, -3, -2, -1,
    (int64_t)UINT32_MAX + 1, INT64_MAX / 16, INT64_MAX / 8 + 1, INT64_MAX / 2, INT64_MAX - 2, INT64_MAX - 1, INT64_MAX,
};
enum { EXTREMES = sizeof extremes / sizeof *extremes };

/* The length, the offset and the number of nulls of an array or of its child. */
static void rows_at_extremes(specimen *it, const format *of, bool below) {
    for (int i = 0; i < EXTREMES; i++) {
        int64_t value = extremes[i];
        Array *array = below ? &it->child[0] : &it->array;
        uint32_t range = value < 0 ? SEL_ERROR_ARROW_LENGTH : SEL_ERROR_TOO_MANY_ROWS;
        make(it, of);
        array->length = value;
        imports(it, range, below ? "child length" : "length", value);
        make(it, of);
        array->offset = value;
        imports(it, range, below ? "child offset" : "offset", value);
        make(it, of);
        array->length = array->offset = value;
        imports(it, range, below ? "child length and offset" : "length and offset", value);
        make(it, of);
        array->null_count = value;
        imports(it, value == -1 ? SEL_OK : SEL_ERROR_ARROW_LENGTH, below ? "child null_count" : "null_count", value);
    }
    Array *array = below ? &it->child[0] : &it->array;
    make(it, of);
    array->offset = (int64_t)UINT32_MAX + 1 - array->length;
    imports(it, SEL_ERROR_TOO_MANY_ROWS, below ? "child offset" : "offset", array->offset);
}

static void counts_at_extremes(specimen *it, const format *of) {
    for (int i = 0; i < EXTREMES; i++) {
        int64_t value = extremes[i];
        make(it, of);
        it->array.n_buffers = value;
        imports(it, of->buffers == 0 ? SEL_OK : SEL_ERROR_ARROW_BUFFERS, "n_buffers", value);
        make(it, of);
        it->array.n_children = value;
        imports(it, SEL_ERROR_ARROW_CHILDREN, "n_children", value);
        make(it, of);
        it->schema.n_children = value;
        imports(it, SEL_ERROR_ARROW_CHILDREN, "n_children of the schema", value);
        make(it, of);
        it->array.n_children = it->schema.n_children = value;
        imports(it, SEL_ERROR_ARROW_CHILDREN, "n_children of both", value);
        make(it, of);
        it->schema.flags = value;
        imports(it, SEL_OK, "flags", value);
    }
    for (int64_t count = 0; count < POINTERS; count++) {
        make(it, of);
        it->array.n_buffers = count;
        bool fits = of->buffers == 0 || count == of->buffers;
        imports(it, fits ? SEL_OK : SEL_ERROR_ARROW_BUFFERS, "n_buffers", count);
        make(it, of);
        it->array.n_children = it->schema.n_children = count;
        fits = count == of->children || (is_struct(of) && count <= 2);
        imports(it, fits ? SEL_OK : SEL_ERROR_ARROW_CHILDREN, "n_children of both", count);
    }
}

/* Arrays of no rows to three rows, also behind an offset; all of them are right. */
static void lengths_that_fit(specimen *it, const format *of) {
    for (int64_t length = 0; length <= ROWS; length++) {
        make(it, of);
        it->array.length = length;
        it->array.offset = ROWS - length;
        imports(it, SEL_OK, "length and offset that fit", length);
        make(it, of);
        it->array.null_count = length; /* of the three rows one is null */
        imports(it, length <= 1 || of->buffers == 0 ? SEL_OK : SEL_ERROR_ARROW_LENGTH, "null_count", length);
    }
    make(it, of);
    it->array.null_count = ROWS + 1;
    imports(it, SEL_ERROR_ARROW_LENGTH, "null_count", ROWS + 1);
    make(it, of);
    it->array.length = 0;
    memset(it->buffers, 0, sizeof it->buffers);
    imports(it, SEL_OK, "no rows and no buffer", 0);
}

static void missing_pointers(specimen *it, const format *of) {
    bool has_child = of->children > 0, has_second = of->buffers > 1;
    make(it, of);
    it->array.buffers = NULL;
    imports(it, of->buffers == 0 ? SEL_OK : SEL_ERROR_ARROW_BUFFERS, "no buffers", 0);
    make(it, of);
    it->buffers[1] = NULL;
    imports(it, has_second ? SEL_ERROR_ARROW_BUFFERS : SEL_OK, "no second buffer", 0);
    make(it, of);
    it->buffers[2] = NULL;
    imports(it, of->third ? SEL_ERROR_ARROW_BUFFERS : SEL_OK, "no third buffer", 0);
    make(it, of);
    it->array.children = NULL;
    imports(it, has_child ? SEL_ERROR_ARROW_CHILDREN : SEL_OK, "no children", 0);
    make(it, of);
    it->schema.children = NULL;
    imports(it, has_child ? SEL_ERROR_ARROW_CHILDREN : SEL_OK, "no children of the schema", 0);
    make(it, of);
    it->children[0] = NULL;
    imports(it, has_child ? SEL_ERROR_ARROW_CHILDREN : SEL_OK, "no first child", 0);
    make(it, of);
    it->child_schemas[0] = NULL;
    imports(it, has_child ? SEL_ERROR_ARROW_CHILDREN : SEL_OK, "no first child of the schema", 0);
    make(it, of);
    it->schema.format = NULL;
    imports(it, SEL_ERROR_ARROW_FORMAT, "no format", 0);
}

/* Structures that have a dictionary, and structures that are released. */
static void dictionaries_and_releases(specimen *it, const format *of) {
    make(it, of);
    it->array.dictionary = &it->child[0];
    imports(it, SEL_ERROR_ARROW_DICTIONARY, "a dictionary", 0);
    make(it, of);
    it->schema.dictionary = &it->child_schema[0];
    imports(it, SEL_ERROR_ARROW_DICTIONARY, "a dictionary of the schema", 0);
    make(it, of);
    it->schema.release = NULL;
    imports(it, SEL_ERROR_ARROW_RELEASED, "a released schema", 0);
    make(it, of);
    it->array.release = NULL;
    imports(it, SEL_ERROR_ARROW_RELEASED, "a released array", 0);
    make(it, of);
    it->child[0].release = NULL;
    imports(it, of->children > 0 ? SEL_ERROR_ARROW_RELEASED : SEL_OK, "a released child", 0);
}

/* The status of offsets that rise past every buffer: they are past the child, a string is too long for a view, or no
 * memory has so many bytes. */
static uint32_t status_of_huge(const format *of) {
    if (of->children > 0) return SEL_ERROR_OFFSET_RANGE;
    return of->text[0] == 'U' ? SEL_ERROR_ARROW_RANGE : SEL_ERROR_ARROW_LENGTH;
}

/* Offsets at their extremes. */
static void offsets_at_extremes(specimen *it, const format *of) {
    static const struct { int64_t offsets[ROWS + 1]; uint32_t status; bool fits_narrow; } given[] = {
        {{-1, 0, 1, 3}, SEL_ERROR_NEGATIVE_OFFSET, true}, {{INT32_MIN, 0, 0, 0}, SEL_ERROR_NEGATIVE_OFFSET, true},
        {{INT64_MIN, 0, 0, 0}, SEL_ERROR_NEGATIVE_OFFSET, false}, {{INT64_MIN, INT64_MAX, 0, 0}, SEL_ERROR_NEGATIVE_OFFSET, false},
        {{0, 2, 1, 3}, SEL_ERROR_DECREASING_OFFSET, true}, {{0, 0, 0, -1}, SEL_ERROR_NEGATIVE_OFFSET, true},
        {{0, INT32_MAX, 0, 0}, SEL_ERROR_DECREASING_OFFSET, true}, {{INT32_MAX, 0, INT32_MAX, 0}, SEL_ERROR_DECREASING_OFFSET, true},
        {{0, INT64_MAX, INT64_MIN, 0}, SEL_ERROR_NEGATIVE_OFFSET, false}, {{INT64_MAX, 0, 0, 0}, SEL_ERROR_DECREASING_OFFSET, false},
        {{INT32_MAX, INT32_MAX, INT32_MAX, INT32_MAX}, SEL_OK, true},
        {{INT64_MAX, INT64_MAX, INT64_MAX, INT64_MAX}, SEL_OK, false},
        {{0, INT64_MAX, INT64_MAX, INT64_MAX}, HUGE, false}, {{0, 0, 0, INT64_MAX}, HUGE, false},
    };
    for (size_t i = 0; i < sizeof given / sizeof *given; i++) {
        int32_t small[ROWS + 1];
        bool is_narrow = of->second == narrow;
        if (is_narrow && !given[i].fits_narrow) continue;
        for (int k = 0; k <= ROWS; k++) small[k] = (int32_t)given[i].offsets[k];
        make(it, of);
        it->buffers[1] = is_narrow ? (const void *)small : given[i].offsets;
        uint32_t status = given[i].status == HUGE ? status_of_huge(of) : given[i].status;
        if (status == SEL_OK && of->children > 0) status = SEL_ERROR_OFFSET_RANGE; /* the child has six rows */
        imports(it, status, "offsets of number", (int64_t)i);
    }
}

/* Views and the lengths of their data buffers at their extremes. */
static void views_at_extremes(specimen *it, const format *of) {
    static const sel_view given[] = {
        {UINT32_MAX, 0, 0, 0}, {13, 0, UINT32_MAX, 0}, {13, 0, 0, UINT32_MAX}, {UINT32_MAX, 0, UINT32_MAX, UINT32_MAX},
        {UINT32_MAX, 0x64636261, 0, 1}, {INT32_MAX, 0x64636261, 0, INT32_MAX},
    };
    static const int64_t lengths[] = {INT64_MIN, -1, 0, 4, INT64_MAX};
    for (size_t i = 0; i < sizeof given / sizeof *given; i++) {
        sel_view rows[ROWS] = {given[i], given[i], given[i]};
        for (size_t k = 0; k < sizeof lengths / sizeof *lengths; k++) {
            char unaligned[9];
            memcpy(unaligned + 1, &lengths[k], 8);
            make(it, of);
            it->array.n_buffers = 4;
            it->array.null_count = 0;
            it->buffers[1] = rows;
            it->buffers[2] = "abcd";
            it->buffers[3] = unaligned + 1;
            uint32_t status = lengths[k] < 0 || lengths[k] > 4 ? SEL_ERROR_ARROW_LENGTH : SEL_ERROR_VIEW_RANGE;
            imports(it, status, "a view beside a length", lengths[k]);
        }
    }
}

static void formats_that_are_none(specimen *it) {
    static const char *const given[] = {
        "", " ", "N", "nn", "bb", "d", "d:", "d:0,0", "d:00,0", "d:01,0", "d:-5,0", "d:+5,0", "d: 5,0", "d:5 ,0", "d:39,0",
        "d:99,0", "d:39,0,128", "d:100,0", "d:4294967297,0", "d:18446744073709551617,0", "d:5", "d:5,", "d:5,-", "d:5,x",
        "d:5,0,", "d:5,0,12", "d:5,0,1280", "d:5,0,256,", "d:5,0 ", "d:10,0,32", "d:19,0,64", "d:77,0,256", "d:5,2147483648", "w:", "w:x", "w:1x",
        "w:-1", "td", "tdd", "tt", "ttx", "ts", "tss", "tsx:", "tD", "tix", "ee", "+vx", "+mm", "+r:", "+ud:0", "v", "vx", "+", "+w", "+w:", "+w:-1", "+w:+1", "+w: 1",
        "+w:1 ", "+w:0x2", "+ll", "+x", "+us:", "\xff\xff",
    };
    static const char *const precisions[] = {"d:1,0", "d:9,0", "d:10,0", "d:38,0", "d:38,0,128"};
    for (size_t i = 0; i < sizeof given / sizeof *given; i++) {
        make(it, &formats[1]);
        it->schema.format = given[i];
        imports(it, SEL_ERROR_ARROW_FORMAT, given[i], 0);
    }
    for (size_t i = 0; i < sizeof precisions / sizeof *precisions; i++) {
        make(it, &formats[10]);
        it->schema.format = precisions[i];
        imports(it, SEL_OK, precisions[i], 0);
    }
    static const char *const widths[] = {"+w:4294967296", "+w:18446744073709551615", "+w:18446744073709551616", "+w:99999999999999999999999"};
    for (size_t i = 0; i < sizeof widths / sizeof *widths; i++) {
        make(it, &formats[FORMATS - 2]);
        it->schema.format = widths[i];
        imports(it, SEL_ERROR_LIST_SIZE, widths[i], 0);
    }
    make(it, &formats[FORMATS - 2]);
    it->schema.format = "+w:4294967295";
    imports(it, SEL_ERROR_ARROW_LENGTH, "+w:4294967295", 0);
}

/* Several fields at once, by a generator of pseudorandom numbers with a fixed seed. */
static void random_mixtures(specimen *it) {
    uint64_t state = 1;
    for (int i = 0; i < 20000; i++) {
        uint64_t picks[6];
        for (int k = 0; k < 6; k++) {
            state = state * 6364136223846793005U + 1442695040888963407U;
            picks[k] = state >> 33;
        }
        make(it, &formats[picks[0] % FORMATS]);
        int64_t *fields[] = {
            &it->array.length, &it->array.offset, &it->array.null_count, &it->array.n_buffers, &it->array.n_children,
            &it->schema.n_children, &it->schema.flags, &it->child[0].length, &it->child[0].offset, &it->child[0].n_buffers,
            &it->child[1].null_count, &it->child_schema[0].n_children,
        };
        for (int k = 1; k < 5; k += 2) *fields[picks[k] % (sizeof fields / sizeof *fields)] = extremes[picks[k + 1] % EXTREMES];
        if (picks[5] % 4 == 0) it->buffers[picks[5] / 4 % 3] = NULL;
        imports(it, ANY, "a mixture", i);
    }
}

int main(void) {
    specimen it;
    for (int i = 0; i < FORMATS; i++) {
        const format *of = &formats[i];
        rows_at_extremes(&it, of, false);
        if (of->children > 0) rows_at_extremes(&it, of, true);
        counts_at_extremes(&it, of);
        lengths_that_fit(&it, of);
        missing_pointers(&it, of);
        dictionaries_and_releases(&it, of);
        if (has_offsets(of)) offsets_at_extremes(&it, of);
        if (is_view(of)) views_at_extremes(&it, of);
    }
    formats_that_are_none(&it);
    int exact = cases;
    random_mixtures(&it);
    printf("%d malformed arrays with their statuses and %d mixtures, %d failed\n", exact, cases - exact, failures);
    return failures != 0;
}
