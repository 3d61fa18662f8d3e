/* Times imports, filters and exports of Arrow arrays whose memory is lent, the filters over columns that own their memory, and the
 * calls that copy values in and out. Prints a line for each time: the column, the operation, the best and the median of all rounds in ns.
 *
 * lending ROWS LONGER ROUNDS   ROWS integers, a tenth as many strings and lists; LONGER is how many times longer a short column gets */
#define _DEFAULT_SOURCE
#include "sel_arrow.h"

#include <stdio.h>
#include <stdlib.h>
#include <string.h>
#include <sys/mman.h>
#include <time.h>

enum { MOST_ROUNDS = 101, STRING_BYTES = 100, LIST_ROWS = 4, MOST_BUFFERS = 4 };

#define MUST(call)                                                                    \
    do {                                                                              \
        sel_status status_ = (call);                                                  \
        if (status_ != SEL_OK) {                                                      \
            fprintf(stderr, "%s: %s\n", #call, sel_status_string(status_));           \
            exit(1);                                                                  \
        }                                                                             \
    } while (0)

static uint64_t next_random(void) {
    static uint64_t state = 1;
    state = state * 6364136223846793005u + 1442695040888963407u;
    return state >> 33;
}

/* Returns memory as the library takes it: of malloc, with huge pages asked for. */
static void *room(size_t size) {
    char *at = malloc(size + 64);
    if (!at) exit(1);
    size_t before = (size_t)(-(uintptr_t)at & 4095);
    if (size > (size_t)4 << 20) (void)madvise(at + before, (size - before) & ~(size_t)4095, MADV_HUGEPAGE);
    return at;
}

/* ---- a producer, whose arrays do not own their buffers */

typedef struct producer {
    const char *name;
    struct ArrowSchema schema, field, *fields[1];
    struct ArrowArray array, child, *children[1];
    const void *buffers[MOST_BUFFERS], *child_buffers[2];
    int64_t data_lengths[1];
    sel_column mask; /* one row of a hundred */
    int64_t *read;   /* room for what is read of the column */
} producer;

static void release_array(struct ArrowArray *array) { array->release = NULL; }

static void release_schema(struct ArrowSchema *schema) { schema->release = NULL; }

static void make_mask(size_t rows, sel_column *out) {
    uint8_t *bits = calloc((rows + 7) / 8, 1);
    if (!bits) exit(1);
    for (size_t i = 0; i < rows; i++)
        if (next_random() % 100 == 0) bits[i / 8] |= (uint8_t)(1u << (i % 8));
    MUST(sel_boolean_new(bits, (rows + 7) / 8, rows, SEL_ALL_VALID, out));
    free(bits);
}

static void begin(producer *p, const char *name, const char *format, size_t rows, int64_t buffers) {
    memset(p, 0, sizeof *p);
    p->name = name;
    p->schema = (struct ArrowSchema){format, "", NULL, ARROW_FLAG_NULLABLE, 0, NULL, NULL, release_schema, NULL};
    p->array = (struct ArrowArray){(int64_t)rows, 0, 0, buffers, 0, p->buffers, NULL, NULL, release_array, NULL};
    make_mask(rows, &p->mask);
}

static int64_t *random_integers(size_t rows) {
    int64_t *values = room(rows * sizeof *values);
    for (size_t i = 0; i < rows; i++) values[i] = (int64_t)next_random();
    return values;
}

static void make_integers(producer *p, const char *name, size_t rows, bool with_nulls) {
    begin(p, name, "l", rows, 2);
    p->buffers[1] = random_integers(rows);
    p->read = room(rows * sizeof *p->read);
    if (!with_nulls) return;
    uint8_t *bits = room((rows + 7) / 8);
    memset(bits, 0, (rows + 7) / 8);
    for (size_t i = 0; i < rows; i++)
        if (next_random() % 10) bits[i / 8] |= (uint8_t)(1u << (i % 8));
    p->buffers[0] = bits;
    p->array.null_count = -1;
}

static uint8_t *random_text(size_t bytes) {
    uint8_t *text = room(bytes);
    for (size_t i = 0; i < bytes; i++) text[i] = (uint8_t)('a' + next_random() % 26);
    return text;
}

static void make_views(producer *p, const char *name, size_t rows) {
    uint8_t *text = random_text(rows * STRING_BYTES);
    sel_view *views = room(rows * sizeof *views);
    for (size_t i = 0; i < rows; i++) {
        views[i] = (sel_view){STRING_BYTES, 0, 0, (uint32_t)(i * STRING_BYTES)};
        memcpy(&views[i].prefix, text + i * STRING_BYTES, 4);
    }
    begin(p, name, "vu", rows, 4);
    p->data_lengths[0] = (int64_t)(rows * STRING_BYTES);
    p->buffers[1] = views, p->buffers[2] = text, p->buffers[3] = p->data_lengths;
    p->read = room(rows * (STRING_BYTES + sizeof *views));
}

static void make_strings(producer *p, const char *name, size_t rows) {
    int32_t *offsets = room((rows + 1) * sizeof *offsets);
    for (size_t i = 0; i <= rows; i++) offsets[i] = (int32_t)(i * STRING_BYTES);
    begin(p, name, "u", rows, 3);
    p->buffers[1] = offsets, p->buffers[2] = random_text(rows * STRING_BYTES);
}

static void make_lists(producer *p, const char *name, size_t rows) {
    int64_t *offsets = room((rows + 1) * sizeof *offsets);
    for (size_t i = 0; i <= rows; i++) offsets[i] = (int64_t)(i * LIST_ROWS);
    begin(p, name, "+L", rows, 2);
    p->buffers[1] = offsets, p->child_buffers[1] = random_integers(rows * LIST_ROWS);
    p->field = (struct ArrowSchema){"l", "item", NULL, ARROW_FLAG_NULLABLE, 0, NULL, NULL, release_schema, NULL};
    p->child = (struct ArrowArray){(int64_t)(rows * LIST_ROWS), 0, 0, 2, 0, p->child_buffers, NULL, NULL, release_array, NULL};
    p->fields[0] = &p->field, p->children[0] = &p->child;
    p->schema.n_children = p->array.n_children = 1;
    p->schema.children = p->fields, p->array.children = p->children;
    p->read = room(rows * (LIST_ROWS + 1) * sizeof *p->read + 8);
}

/* ---- what is timed */

static sel_column lent, owned;

static void import(producer *p, sel_column *out) {
    struct ArrowArray array = p->array;
    MUST(sel_import(&array, &p->schema, out, NULL));
}

static void import_and_free(producer *p) {
    sel_column column = {0};
    import(p, &column);
    sel_free(&column);
}

static void export_of(const sel_column *column) {
    struct ArrowArray array;
    struct ArrowSchema schema;
    MUST(sel_export(column, NULL, &array, &schema));
    array.release(&array);
    schema.release(&schema);
}

static void export_lent(producer *p) {
    (void)p;
    export_of(&lent);
}

static void import_and_export(producer *p) {
    sel_column column = {0};
    import(p, &column);
    export_of(&column);
    sel_free(&column);
}

static void filter_of(producer *p, const sel_column *column) {
    sel_column kept = {0};
    MUST(sel_filter(column, &p->mask, &kept));
    sel_free(&kept);
}

static void filter_lent(producer *p) { filter_of(p, &lent); }

static void filter_owned(producer *p) { filter_of(p, &owned); }

/* Makes the column by the calls that copy. */
static void make(producer *p, sel_column *out) {
    const size_t rows = (size_t)p->array.length, bytes = (rows + 7) / 8;
    const uint8_t *bits = p->buffers[0];
    switch (p->schema.format[0]) {
    case 'l': MUST(sel_int64_new(p->buffers[1], rows, bits, bits ? bytes : 0, bits != NULL, out)); break;
    case 'v': MUST(sel_string_view_new(p->buffers[1], rows, &(sel_bytes_ref){p->buffers[2], (size_t)p->data_lengths[0]}, 1, SEL_ALL_VALID, out)); break;
    default: {
        sel_column child = {0};
        MUST(sel_int64_new(p->child_buffers[1], (size_t)p->child.length, SEL_ALL_VALID, &child));
        MUST(sel_list_new(p->buffers[1], rows + 1, SEL_ALL_VALID, &child, out));
    }
    }
}

static void make_and_free(producer *p) {
    sel_column column = {0};
    make(p, &column);
    sel_free(&column);
}

/* Reads all values by the calls that copy. */
static void read(producer *p) {
    const size_t rows = (size_t)p->array.length;
    switch (p->schema.format[0]) {
    case 'l': MUST(sel_int64_values(&owned, p->read, rows)); break;
    case 'v':
        MUST(sel_views(&owned, (sel_view *)p->read, rows));
        MUST(sel_buffer(&owned, 0, (uint8_t *)p->read + rows * sizeof(sel_view), (size_t)p->data_lengths[0]));
        break;
    default: {
        sel_column child = {0};
        MUST(sel_offsets(&owned, p->read, rows + 1));
        MUST(sel_child(&owned, &child));
        MUST(sel_int64_values(&child, p->read + rows + 1, rows * LIST_ROWS));
        sel_free(&child);
    }
    }
}

typedef struct operation {
    const char *name;
    void (*run)(producer *);
    double times[MOST_ROUNDS];
    size_t repeats;
} operation;

static double now(void) {
    struct timespec at;
    clock_gettime(CLOCK_THREAD_CPUTIME_ID, &at);
    return (double)at.tv_sec * 1e9 + (double)at.tv_nsec;
}

/* Times an operation after one that is not timed, so that the caches do not depend on the operation before it. */
static double timed(const operation *o, producer *p) {
    o->run(p);
    double start = now();
    for (size_t i = 0; i < o->repeats; i++) o->run(p);
    return (now() - start) / (double)o->repeats;
}

static int compare(const void *a, const void *b) {
    double first = *(const double *)a, second = *(const double *)b;
    return (first > second) - (first < second);
}

/* Times the operations in turns, each as often in a round as fits into about a millisecond. */
static void time_all(producer *p, operation *operations, size_t count, size_t rounds) {
    for (size_t i = 0; i < count; i++) {
        operations[i].repeats = 1;
        double first = timed(&operations[i], p);
        operations[i].repeats = first > 1e6 ? 1 : (size_t)(1e6 / (first + 1)) + 1;
    }
    for (size_t round = 0; round < rounds; round++)
        for (size_t i = 0; i < count; i++) operations[i].times[round] = timed(&operations[i], p);
    for (size_t i = 0; i < count; i++) {
        qsort(operations[i].times, rounds, sizeof(double), compare);
        printf("%s|%s|%.1f|%.1f\n", p->name, operations[i].name, operations[i].times[0], operations[i].times[rounds / 2]);
    }
}

/* Times a column. Strings with offsets have no maker: their own memory is that of the strings of views, which are timed before. */
static void time_column(producer *p, size_t rounds) {
    operation all[] = {{.name = "import", .run = import_and_free}, {.name = "export", .run = export_lent}, {.name = "both", .run = import_and_export},
                       {.name = "filter lent", .run = filter_lent}, {.name = "filter owned", .run = filter_owned}, {.name = "make", .run = make_and_free},
                       {.name = "read", .run = read}};
    bool equal = false, has_maker = p->schema.format[0] != 'u';
    sel_column first = {0}, second = {0};
    import(p, &lent);
    if (has_maker) {
        make(p, &owned);
        MUST(sel_filter(&lent, &p->mask, &first));
        MUST(sel_filter(&owned, &p->mask, &second));
        MUST(sel_equal_rows(&first, &second, &equal));
        if (!equal) fprintf(stderr, "%s: the filters differ\n", p->name), exit(1);
    }
    time_all(p, all, has_maker ? sizeof all / sizeof *all : 4, rounds);
    sel_free(&first);
    sel_free(&second);
    sel_free(&lent);
    sel_free(&owned);
    sel_free(&p->mask);
}

int main(int argc, char **argv) {
    if (argc != 4) return 2;
    const size_t rows = strtoul(argv[1], NULL, 10), longer = strtoul(argv[2], NULL, 10), rounds = strtoul(argv[3], NULL, 10);
    if (rows == 0 || longer == 0 || rounds == 0 || rounds > MOST_ROUNDS) return 2;
    producer p;
    make_integers(&p, "short", rows / longer, false), time_column(&p, rounds);
    make_integers(&p, "integers", rows, false), time_column(&p, rounds);
    make_integers(&p, "nulls", rows, true), time_column(&p, rounds);
    make_views(&p, "views", rows / 10), time_column(&p, rounds);
    make_strings(&p, "strings", rows / 10), time_column(&p, rounds);
    make_lists(&p, "lists", rows / 10), time_column(&p, rounds);
    return 0;
}
