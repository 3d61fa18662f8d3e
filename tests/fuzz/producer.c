#include "producer.h"

#include <stdio.h>
#include <stdlib.h>
#include <string.h>

typedef struct ArrowArray Array;
typedef struct ArrowSchema Schema;

enum { MOST_BLOCKS = 4096, MOST_LEVELS = 4, MOST_ROWS = 20, MOST_CHILDREN = 3, MOST_BYTES = 64 };

/* ---- memory: blocks of exactly the sizes that are asked for */

static struct {
    uint8_t *at;
    size_t size;
} blocks[MOST_BLOCKS];
static size_t block_count, releases;

static void *block_of(size_t size) {
    void *block = calloc(1, size == 0 ? 1 : size);
    if (block == NULL || block_count == MOST_BLOCKS) {
        abort();
    }
    blocks[block_count].at = block;
    blocks[block_count].size = size;
    block_count += 1;
    return block;
}

/* The hash FNV-1a. */
uint64_t producer_hash(void) {
    uint64_t hash = 0xcbf29ce484222325U;
    for (size_t i = 0; i < block_count; i += 1) {
        for (size_t k = 0; k < blocks[i].size; k += 1) {
            hash = (hash ^ blocks[i].at[k]) * 0x100000001b3U;
        }
    }
    return hash;
}

void producer_end(void) {
    while (block_count > 0) {
        block_count -= 1;
        free(blocks[block_count].at);
    }
    releases = 0;
}

size_t producer_releases(void) {
    return releases;
}

static void release_array(Array *array) {
    releases += 1;
    array->release = NULL;
}

static void release_child(Array *array) { array->release = NULL; }

static void release_schema(Schema *schema) { schema->release = NULL; }

/* ---- formats */

/* What the buffers behind the validity hold. */
enum content { NONE, BITS, FIXED, NARROW_BYTES, WIDE_BYTES, VIEWS, NARROW_LISTS, WIDE_LISTS, LIST_VIEWS, WIDE_LIST_VIEWS, CHILDREN, RUN_ENDS, UNION };

struct form {
    const char *format;
    enum content content;
    size_t size;                /* the bytes of a value, or the list size */
    size_t children;
};

static const struct form forms[] = {
    {"n", NONE, 0, 0}, {"b", BITS, 0, 0}, {"c", FIXED, 1, 0}, {"C", FIXED, 1, 0}, {"s", FIXED, 2, 0}, {"S", FIXED, 2, 0}, {"i", FIXED, 4, 0},
    {"I", FIXED, 4, 0}, {"l", FIXED, 8, 0}, {"L", FIXED, 8, 0}, {"e", FIXED, 2, 0}, {"f", FIXED, 4, 0}, {"g", FIXED, 8, 0},
    {"z", NARROW_BYTES, 0, 0}, {"Z", WIDE_BYTES, 0, 0}, {"u", NARROW_BYTES, 0, 0}, {"U", WIDE_BYTES, 0, 0}, {"vz", VIEWS, 0, 0}, {"vu", VIEWS, 0, 0},
    {"d:5,2", FIXED, 16, 0}, {"d:38,0", FIXED, 16, 0}, {"d:38,0,128", FIXED, 16, 0}, {"d:5,2,32", FIXED, 4, 0}, {"d:5,2,64", FIXED, 8, 0},
    {"d:60,2,256", FIXED, 32, 0}, {"w:0", FIXED, 0, 0}, {"w:1", FIXED, 1, 0}, {"w:3", FIXED, 3, 0}, {"w:16", FIXED, 16, 0}, {"tdD", FIXED, 4, 0},
    {"tdm", FIXED, 8, 0}, {"tts", FIXED, 4, 0}, {"ttm", FIXED, 4, 0}, {"ttu", FIXED, 8, 0}, {"ttn", FIXED, 8, 0}, {"tss:", FIXED, 8, 0},
    {"tsm:UTC", FIXED, 8, 0}, {"tsn:Europe/Paris", FIXED, 8, 0}, {"tDs", FIXED, 8, 0}, {"tDn", FIXED, 8, 0}, {"tiM", FIXED, 4, 0}, {"tiD", FIXED, 8, 0},
    {"tin", FIXED, 16, 0}, {"+l", NARROW_LISTS, 0, 1}, {"+L", WIDE_LISTS, 0, 1}, {"+m", NARROW_LISTS, 0, 1}, {"+w:0", CHILDREN, 0, 1},
    {"+w:2", CHILDREN, 2, 1}, {"+s", CHILDREN, 1, MOST_CHILDREN}, {"+vl", LIST_VIEWS, 0, 1}, {"+vL", WIDE_LIST_VIEWS, 0, 1},
    {"+r", RUN_ENDS, 0, 2}, {"+us:0,1", UNION, 0, 2}, {"+ud:0,1", UNION, 0, 2}, {"", NONE, 0, 0}, {"+", NONE, 0, 0}, {"d:39,0", FIXED, 16, 0},
    {"d:5", FIXED, 16, 0}, {"w:", FIXED, 0, 0}, {"w:99999999999999999999", FIXED, 0, 0}, {"w:-1", FIXED, 0, 0}, {"+w:", CHILDREN, 0, 1},
    {"+w:-1", CHILDREN, 0, 1}, {"+w:99999999999999999999", CHILDREN, 0, 1}, {"t", NONE, 0, 0}, {"tsx:", FIXED, 8, 0}, {"tdX", FIXED, 8, 0}, {"l ", FIXED, 8, 0},
};

/* ---- one level */

static void fill(struct draws *draws, uint8_t *bytes, size_t len) {
    for (size_t i = 0; i < len; i += 1) {
        bytes[i] = (uint8_t)draw(draws, 256);
    }
}

static const void *bytes_by_chance(struct draws *draws, size_t len) {
    uint8_t *bytes = block_of(len);
    fill(draws, bytes, len);
    return bytes;
}

/* Returns offsets into `most` bytes or items: mostly rising, else with one that is too small or, if `may_exceed`, too large. */
static int64_t *offsets_by_chance(struct draws *draws, size_t count, size_t most, bool may_exceed) {
    int64_t *offsets = block_of(count * sizeof *offsets);
    for (size_t i = 0; i < count; i += 1) {
        size_t before = i == 0 ? 0 : (size_t)offsets[i - 1];
        offsets[i] = (int64_t)(before + draw(draws, (most - before < 5 ? most - before : 4) + 1));
    }
    if (count > 0 && draw_one_in(draws, 8)) {
        static const int64_t wrong[] = {-1, 0, INT64_MIN, INT32_MIN, INT64_MAX, INT32_MAX};
        offsets[draw(draws, count)] = wrong[draw(draws, may_exceed ? 6 : 4)];
    }
    return offsets;
}

static const void *narrowed(const int64_t *offsets, size_t count) {
    int32_t *narrow = block_of(count * sizeof *narrow);
    for (size_t i = 0; i < count; i += 1) {
        narrow[i] = (int32_t)(offsets[i] < INT32_MIN ? INT32_MIN : offsets[i] > INT32_MAX ? INT32_MAX : offsets[i]);
    }
    return narrow;
}

/* Bytes that may be UTF-8. */
static const void *text_by_chance(struct draws *draws, size_t len) {
    uint8_t *bytes = block_of(len);
    for (size_t i = 0; i < len; i += 1) {
        bytes[i] = (uint8_t)(draw_one_in(draws, 40) ? draw(draws, 256) : 'a' + draw(draws, 26));
    }
    return bytes;
}

/* Fills the buffers of views: the views, two data buffers, and their lengths. */
static void make_views(struct draws *draws, Array *array, const void **buffers, size_t rows) {
    size_t count = draw(draws, 3);
    sel_view *views = block_of(rows * sizeof *views);
    int64_t *lens = block_of(count * sizeof *lens);
    for (size_t i = 0; i < count; i += 1) {
        size_t len = draw(draws, MOST_BYTES);
        buffers[2 + i] = text_by_chance(draws, len);
        lens[i] = draw_one_in(draws, 20) ? -1 : (int64_t)len;
    }
    for (size_t i = 0; i < rows; i += 1) {
        uint8_t *view = (uint8_t *)&views[i];
        uint32_t words[4] = {(uint32_t)draw(draws, 30), 0, (uint32_t)draw(draws, 3), (uint32_t)draw(draws, MOST_BYTES)};
        bool in_buffer = words[0] > 12 && words[2] < count && words[3] + words[0] <= (size_t)(lens[words[2]] < 0 ? 0 : lens[words[2]]);
        if (in_buffer) {
            memcpy(&words[1], (const uint8_t *)buffers[2 + words[2]] + words[3], 4);
        } else if (draw_one_in(draws, 6)) {
            fill(draws, (uint8_t *)words, sizeof words);
        } else {
            words[0] %= 13;
            memset(&words[1], 'v', 12);
        }
        memcpy(view, words, sizeof words);
    }
    buffers[1] = views;
    buffers[2 + count] = lens;
    array->n_buffers = (int64_t)(3 + count);
}

static bool is_wide(enum content content) {
    return content == WIDE_BYTES || content == WIDE_LISTS || content == WIDE_LIST_VIEWS;
}

/* Makes a buffer of `count` offsets or sizes into `most` bytes or items, in 64 or 32 bits. */
static const void *make_offsets(struct draws *draws, enum content content, size_t count, size_t most, bool may_exceed) {
    const int64_t *offsets = offsets_by_chance(draws, count, most, may_exceed);
    return is_wide(content) ? (const void *)offsets : narrowed(offsets, count);
}

/* Fills the buffers behind the validity. Returns how many buffers there are. */
static int64_t make_contents(struct draws *draws, const struct form *form, const void **buffers, size_t rows, size_t child_rows) {
    switch (form->content) {
    case BITS:
        buffers[1] = bytes_by_chance(draws, (rows + 7) / 8);
        return 2;
    case FIXED:
        buffers[1] = bytes_by_chance(draws, rows * form->size);
        return 2;
    case NARROW_BYTES:
    case WIDE_BYTES:
        buffers[1] = make_offsets(draws, form->content, rows + 1, MOST_BYTES, false);
        buffers[2] = text_by_chance(draws, MOST_BYTES);
        return 3;
    case NARROW_LISTS:
    case WIDE_LISTS:
        buffers[1] = make_offsets(draws, form->content, rows + 1, child_rows, true);
        return 2;
    case LIST_VIEWS:
    case WIDE_LIST_VIEWS:
        buffers[1] = make_offsets(draws, form->content, rows, child_rows, true);
        buffers[2] = make_offsets(draws, form->content, rows, child_rows < 3 ? child_rows : 3, true);
        return 3;
    case UNION:
        buffers[0] = bytes_by_chance(draws, rows);
        buffers[1] = bytes_by_chance(draws, rows * 4);
        return 2;
    case CHILDREN:
        return 1;
    default:
        return 0;
    }
}

static void make_buffers(struct draws *draws, const struct form *form, Array *array, size_t rows, size_t child_rows) {
    const void **buffers = block_of(6 * sizeof *buffers);
    array->buffers = buffers;
    buffers[0] = draw_one_in(draws, 2) ? bytes_by_chance(draws, (rows + 7) / 8) : NULL;
    if (form->content == VIEWS) {
        make_views(draws, array, buffers, rows);
    } else {
        array->n_buffers = make_contents(draws, form, buffers, rows, child_rows);
    }
}

/* Makes one count, flag, offset or pointer wrong, in a way that does not promise more memory than there is. */
static void spoil(struct draws *draws, Array *array, Schema *schema) {
    static const int64_t numbers[] = {-1, INT64_MIN, INT64_MAX, (int64_t)UINT32_MAX + 1, -2, INT64_MAX / 16, INT64_MIN / 2};
    int64_t number = numbers[draw(draws, sizeof numbers / sizeof numbers[0])];
    switch (draw(draws, 10)) {
    case 0: array->length = number; break;
    case 1: array->offset = number; break;
    case 2: array->null_count = (int64_t)draw(draws, MOST_ROWS + 2) - 1; break;
    case 3: array->null_count = number; break;
    case 4: array->n_buffers = draw_one_in(draws, 2) ? number : array->n_buffers > 3 ? 2 : array->n_buffers - (array->n_buffers > 0); break;
    case 5: array->n_children = draw_one_in(draws, 2) ? number : array->n_children - (array->n_children > 0); break;
    case 6: schema->n_children = draw_one_in(draws, 2) ? number : schema->n_children - (schema->n_children > 0); break;
    case 7: schema->flags = (int64_t)draw_bits(draws); break;
    case 8: array->n_buffers > 0 ? (void)(array->buffers[draw(draws, (size_t)array->n_buffers)] = NULL) : (void)(array->buffers = NULL); break;
    default: draw_one_in(draws, 2) ? (void)(array->children = NULL) : (void)(array->buffers = NULL); break;
    }
}

/* ---- the tree */

static void make_level(struct draws *draws, Array *array, Schema *schema, size_t rows, size_t levels);

/* Makes the run ends of run-end encoded rows: rising, mostly up to the number of rows. */
static void make_run_ends(struct draws *draws, Array *array, Schema *schema, size_t runs, size_t rows) {
    int32_t *ends = block_of(runs * sizeof *ends);
    const void **buffers = block_of(2 * sizeof *buffers);
    for (size_t i = 0; i < runs; i += 1) {
        ends[i] = (int32_t)(i + 1 == runs && !draw_one_in(draws, 10) ? rows : 1 + draw(draws, rows + 1));
    }
    buffers[1] = ends;
    *array = (Array){.length = (int64_t)runs, .n_buffers = 2, .buffers = buffers, .release = release_child};
    *schema = (Schema){.format = "i", .name = "run_ends", .release = release_schema};
}

static void make_children(struct draws *draws, const struct form *form, Array *array, Schema *schema, size_t rows, size_t child_rows, size_t levels) {
    size_t count = form->children == MOST_CHILDREN ? draw(draws, MOST_CHILDREN + 1) : form->children;
    array->children = block_of(count * sizeof *array->children);
    schema->children = block_of(count * sizeof *schema->children);
    for (size_t i = 0; i < count; i += 1) {
        array->children[i] = block_of(sizeof **array->children);
        schema->children[i] = block_of(sizeof **schema->children);
        if (form->content == RUN_ENDS && i == 0) {
            make_run_ends(draws, array->children[i], schema->children[i], child_rows, rows);
        } else {
            make_level(draws, array->children[i], schema->children[i], child_rows, levels);
        }
    }
    array->n_children = schema->n_children = (int64_t)count;
}

static void make_level(struct draws *draws, Array *array, Schema *schema, size_t rows, size_t levels) {
    const struct form *form = &forms[draw(draws, sizeof forms / sizeof forms[0])];
    if (levels == 0 && form->children > 0) {
        form = &forms[draw(draws, 19)];
    }
    size_t offset = draw_one_in(draws, 3) ? draw(draws, MOST_ROWS) : 0, all = rows + offset;
    size_t child_rows = form->content == CHILDREN ? all * form->size : draw(draws, MOST_ROWS);
    child_rows -= child_rows > 0 && draw_one_in(draws, 30);
    char *format = block_of(strlen(form->format) + 1);
    strcpy(format, form->format);
    *array = (Array){.length = (int64_t)rows, .null_count = -1, .offset = (int64_t)offset, .release = release_child};
    *schema = (Schema){.format = format, .name = "field", .flags = ARROW_FLAG_NULLABLE, .release = release_schema};
    make_buffers(draws, form, array, all, child_rows);
    make_children(draws, form, array, schema, all, child_rows, levels == 0 ? 0 : levels - 1);
    bool may_have_dictionary = form->content == FIXED && form->children == 0 && levels > 0;
    if (may_have_dictionary && draw_one_in(draws, 12)) {
        array->dictionary = block_of(sizeof *array->dictionary);
        schema->dictionary = block_of(sizeof *schema->dictionary);
        make_level(draws, array->dictionary, schema->dictionary, draw(draws, MOST_ROWS), levels - 1);
    }
    if (draw_one_in(draws, 10)) {
        spoil(draws, array, schema);
    }
}

void producer_make(struct draws *draws, Array *array, Schema *schema) {
    make_level(draws, array, schema, draw(draws, MOST_ROWS), draw(draws, MOST_LEVELS));
    array->release = release_array;
}
