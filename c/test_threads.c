/* Eight threads read the same handles at once: each function of both headers that reads a handle, on columns of every type, also with
 * the same handle twice in one call. Each thread shares, slices, filters, takes, prints, exports and frees results of its own, and
 * passes shares of a column of its own to all threads, each of which frees one: the last share is freed by any of them. What a thread
 * reads is compared with what one thread alone reads.
 *
 * test_threads [ROUNDS]   the exit status is 0 if all results are equal
 * test_threads race       two threads write one variable, to see that a checker of races finds it
 *
 * Run plainly, under valgrind's memcheck and helgrind, and built with ThreadSanitizer together with c/arrow_*.c; the proved functions
 * themselves are not instrumented then, but helgrind sees their reads and writes. */
#define _POSIX_C_SOURCE 200809L

#include "sel_arrow.h"

#include <pthread.h>
#include <stdio.h>
#include <stdlib.h>
#include <string.h>

enum { THREADS = 8, LEN = 100, TAKEN = 60, ROOM = 1 << 16 };

/* ---- the columns ---- */

/* The type and four rows of each column, which has LEN of these rows. */
static const char *const sources[][2] = {
    {"null", "[null,null,null,null]"},
    {"bool", "[true,false,null,true]"},
    {"i8", "[1,null,-3,4]"},
    {"i16", "[1,null,-3,4]"},
    {"i32", "[1,null,-3,4]"},
    {"i64", "[1,null,-3,4]"},
    {"i128", "[1,null,-3,4]"},
    {"u8", "[1,null,3,4]"},
    {"u16", "[1,null,3,4]"},
    {"u32", "[1,null,3,4]"},
    {"u64", "[1,null,3,4]"},
    {"u128", "[1,null,3,4]"},
    {"binary", "[h\"\",h\"00ff\",null,h\"0102030405060708090a0b0c0d0e0f\"]"},
    {"binview", "[h\"\",h\"00ff\",null,h\"0102030405060708090a0b0c0d0e0f\"]"},
    {"utf8", "[\"a\",null,\"a string of more than twelve bytes\",\"\"]"},
    {"list<utf8>", "[[\"a\",null],[],null,[\"a string of more than twelve bytes\"]]"},
    {"fixed<2,i64>", "[[1,2],null,[null,4],[5,6]]"},
    {"struct<i64,list<bool>>", "[(1,[true]),null,(null,null),(4,[])]"},
    {"list<list<struct<utf8,fixed<1,i8>>>>", "[[[(\"x\",[1])]],null,[],[[],null]]"},
};
enum { COLUMNS = sizeof sources / sizeof *sources };

static sel_column shared[COLUMNS], mask, indices, places, keys, words, lists;
static sel_selection selection; /* of the rows where the mask is true */
static sel_type types[COLUMNS], coded; /* of the columns, and of the keys, with the words as their dictionary */

static void stop(const char *what, sel_status status) {
    printf("%s: %s\n", what, sel_status_string(status));
    exit(2);
}

static void must(sel_status status) {
    if (status != SEL_OK) stop("a column could not be made", status);
}

static void parse(const char *dtype, const char *text, sel_column *out) {
    size_t at = 0;
    must(sel_parse((const uint8_t *)dtype, strlen(dtype), (const uint8_t *)text, strlen(text), &at, out));
}

/* Makes LEN rows of the four of a source, some of them null. */
static void make_source(size_t i, sel_column *out) {
    uint32_t rows[LEN];
    uint8_t bits[(LEN + 7) / 8] = {0};
    sel_column four = {0};
    parse(sources[i][0], sources[i][1], &four);
    for (uint32_t row = 0; row < LEN; row++) {
        rows[row] = (row * 7 + row / 9) % 4;
        if (row % 11 != 5) bits[row / 8] = (uint8_t)(bits[row / 8] | 1u << (row % 8));
    }
    must(sel_take_rows(&four, rows, LEN, bits, sizeof bits, true, out));
    sel_free(&four);
}

static void make_columns(void) {
    uint8_t flags[(LEN + 7) / 8], valid[(LEN + 7) / 8];
    uint32_t rows[TAKEN], small[LEN];
    int64_t each[LEN];
    for (size_t i = 0; i < sizeof flags; i++) flags[i] = (uint8_t)(0x5b + 37 * i), valid[i] = (uint8_t)(0xf7 - 16 * (i % 3));
    for (uint32_t i = 0; i < TAKEN; i++) rows[i] = i * 31 % LEN;
    for (uint32_t i = 0; i < LEN; i++) small[i] = i % 4, each[i] = (int64_t)(i % 3) - 1;
    for (size_t i = 0; i < COLUMNS; i++) make_source(i, &shared[i]), must(sel_type_of_storage(&shared[i], &types[i]));
    must(sel_boolean_new(flags, sizeof flags, LEN, valid, sizeof valid, true, &mask));
    must(sel_selection_new(&mask, &selection));
    must(sel_uint32_new(rows, TAKEN, valid, sizeof valid, true, &indices));
    must(sel_int64_new(each, LEN, SEL_ALL_VALID, &places));
    must(sel_uint32_new(small, LEN, valid, sizeof valid, true, &keys));
    parse("utf8", "[\"a\",null,\"a string of more than twelve bytes\",\"d\"]", &words);
    parse("list<i64>", "[[1,2],[3]]", &lists);
    must(sel_type_dictionary_new("I", &words, NULL, false, &coded));
}

static void free_columns(void) {
    sel_column *const all[] = {&mask, &indices, &places, &keys, &words, &lists};
    for (size_t i = 0; i < COLUMNS; i++) sel_free(&shared[i]), sel_type_free(&types[i]);
    sel_type_free(&coded);
    for (size_t i = 0; i < sizeof all / sizeof *all; i++) sel_free(all[i]);
    sel_selection_free(&selection);
}

/* ---- what a thread reads, as one number ---- */

/* A thread: its number, what it has read, and how many of its results differ from those of one thread. */
typedef struct worker {
    size_t number, rounds, wrong, checked;
    uint64_t hash;
    union {
        uint8_t bytes[ROOM];
        sel_int128 integers[ROOM / 16];
    } room;
} worker;

static void mix(worker *w, uint64_t value) {
    for (int i = 0; i < 8; i++, value >>= 8) w->hash = (w->hash ^ (value & 0xff)) * UINT64_C(0x100000001b3);
}

static void mix_room(worker *w, size_t len) {
    if (len > ROOM) stop("the room of a thread is too small", SEL_OK);
    for (size_t i = 0; i < len; i++) w->hash = (w->hash ^ w->room.bytes[i]) * UINT64_C(0x100000001b3);
}

static void mix_text(worker *w, const sel_column *of) {
    size_t len = 0;
    mix(w, sel_print(of, w->room.bytes, ROOM, &len));
    mix(w, len);
    mix_room(w, len);
    mix(w, sel_print_type(of, w->room.bytes, ROOM, &len));
    mix(w, len);
    mix_room(w, len);
}

/* Mixes the status of a call and the column that it made, which is freed. */
static void mix_made(worker *w, sel_status status, sel_column *made) {
    mix(w, status);
    mix(w, (uint64_t)(status == SEL_OK) == (uint64_t)(made->at != NULL));
    if (status == SEL_OK) {
        mix(w, sel_type_of(made));
        mix(w, sel_len(made));
        mix(w, sel_null_count(made));
        mix_text(w, made);
    }
    sel_free(made);
}

#define MADE(call) mix_made(w, (call), &out)

/* ---- the readers ---- */

static void mix_bits(worker *w, sel_status status, size_t len) {
    mix(w, status);
    if (len % 8 != 0) w->room.bytes[len / 8] = (uint8_t)(w->room.bytes[len / 8] & ((1u << len % 8) - 1));
    mix_room(w, (len + 7) / 8);
}

#define READ(call, type, len)                           \
    do {                                                \
        memset(w->room.bytes, 0, (len) * sizeof(type)); \
        mix(w, call(of, (type *)&w->room, (len)));      \
        mix_room(w, (len) * sizeof(type));              \
    } while (0)

static void read_values(worker *w, const sel_column *of) {
    const size_t len = sel_len(of);
    READ(sel_int8_values, int8_t, len);
    READ(sel_int16_values, int16_t, len);
    READ(sel_int32_values, int32_t, len);
    READ(sel_int64_values, int64_t, len);
    READ(sel_int128_values, sel_int128, len);
    READ(sel_uint8_values, uint8_t, len);
    READ(sel_uint16_values, uint16_t, len);
    READ(sel_uint32_values, uint32_t, len);
    READ(sel_uint64_values, uint64_t, len);
    READ(sel_uint128_values, sel_int128, len);
    READ(sel_views, sel_view, len);
    READ(sel_offsets, int64_t, len + 1);
    memset(w->room.bytes, 0, (len + 7) / 8);
    mix_bits(w, sel_boolean_values(of, w->room.bytes, (len + 7) / 8), len);
}

static void read_buffers(worker *w, const sel_column *of) {
    size_t count = 0, len = 0;
    mix(w, sel_buffer_count(of, &count));
    mix(w, count);
    for (size_t i = 0; i < count; i++) {
        mix(w, sel_buffer_len(of, i, &len));
        if (len > ROOM) stop("the room of a thread is too small", SEL_OK);
        mix(w, sel_buffer(of, i, w->room.bytes, len));
        mix_room(w, len);
    }
    len = 0;
    mix(w, sel_bytes_len(of, &len));
    if (len > ROOM) stop("the room of a thread is too small", SEL_OK);
    mix(w, sel_bytes(of, w->room.bytes, len));
    mix_room(w, len);
}

static void read_properties(worker *w, const sel_column *of) {
    const size_t len = sel_len(of);
    size_t width = 0, count = 0;
    bool has = false;
    sel_column out = {0};
    mix(w, len);
    mix(w, sel_null_count(of));
    mix(w, sel_type_of(of));
    memset(w->room.bytes, 0, (len + 7) / 8);
    mix_bits(w, sel_validity(of, w->room.bytes, (len + 7) / 8, &has), len);
    mix(w, has);
    mix(w, sel_fixed_size_list_size(of, &width));
    mix(w, sel_field_count(of, &count));
    mix(w, width);
    mix(w, count);
    MADE(sel_child(of, &out));
    MADE(sel_field(of, 0, &out));
    MADE(sel_field(of, 1, &out));
    mix_text(w, of);
}

static void read_borrowed(worker *w, const sel_column *of) {
    const void *values = NULL;
    size_t count = 0;
    mix(w, sel_borrow_values(of, &values, &count));
    mix(w, count);
    for (size_t i = 0; i < count; i++) mix(w, ((const uint8_t *)values)[i]);
}

/* ---- the kernels ---- */

static void select_rows(worker *w, const sel_column *of) {
    const uint8_t flags[(LEN + 7) / 8] = {0xa5, 0x3c, 0, 0xff, 0x11};
    const uint32_t rows[4] = {99, 0, 50, 50};
    sel_column out = {0};
    MADE(sel_slice(of, 13, 70, &out));
    MADE(sel_share(of, &out));
    MADE(sel_filter(of, &mask, &out));
    MADE(sel_filter_bits(of, flags, sizeof flags, LEN, &out));
    MADE(sel_filter_selection(of, &selection, &out));
    MADE(sel_take(of, &indices, &out));
    MADE(sel_take_rows(of, rows, 4, SEL_ALL_VALID, &out));
    MADE(sel_reverse(of, &out));
    MADE(sel_filter(of, of, &out));
    MADE(sel_take(of, of, &out));
}

static void choose_rows(worker *w, const sel_column *of) {
    sel_column out = {0}, one = {0};
    MADE(sel_if_then_else(&mask, of, of, &out));
    MADE(sel_if_then_else(of, of, of, &out));
    if (sel_slice(of, 1, 1, &one) == SEL_OK) {
        MADE(sel_if_then_else_broadcast_true(&mask, &one, of, &out));
        MADE(sel_if_then_else_broadcast_false(&mask, of, &one, &out));
        MADE(sel_if_then_else_broadcast_both(&mask, &one, &one, &out));
    }
    sel_free(&one);
}

static void get_elements(worker *w, const sel_column *of) {
    bool is_oob = false;
    sel_column out = {0};
    MADE(sel_list_get(of, 0, &out));
    MADE(sel_list_get(&lists, 1, &out));
    mix(w, sel_list_index_is_oob(of, 1, &is_oob));
    mix(w, is_oob);
    MADE(sel_fixed_size_list_get(of, -1, true, &out));
    MADE(sel_fixed_size_list_get_each(of, &places, true, &out));
    MADE(sel_fixed_size_list_get_each(of, of, true, &out));
    MADE(sel_unit_list(of, &out));
}

static void combine_columns(worker *w, const sel_column *of) {
    const size_t widths[2] = {1, 1};
    const sel_row_ref picks[3] = {{0, 99}, {1, 0}, {1, 42}};
    sel_column two[2] = {{0}, {0}}, out = {0}, values = {0};
    bool is_equal = false;
    if (sel_share(of, &two[0]) == SEL_OK && sel_share(of, &two[1]) == SEL_OK) {
        MADE(sel_flatten(two, 2, widths, 2, LEN, &out));
        MADE(sel_collect_rows(two, 2, picks, 3, SEL_ALL_VALID, &out));
    }
    mix(w, sel_equal_rows(of, of, &is_equal));
    mix(w, is_equal);
    mix(w, sel_equal_rows(of, &two[1], &is_equal));
    mix(w, is_equal);
    sel_free(&two[0]);
    sel_free(&two[1]);
    mix(w, sel_propagate_dictionary(&keys, &words, &out, &values));
    mix_made(w, SEL_OK, &out);
    mix_made(w, SEL_OK, &values);
    mix(w, sel_propagate_dictionary(of, of, &out, &values));
}

/* Makes columns over shares of the column, which only this thread has. */
static void nest(worker *w, const sel_column *of) {
    int64_t offsets[3] = {0, LEN / 2, LEN};
    sel_column child = {0}, out = {0};
    for (int i = 0; i < 3; i++) {
        if (sel_share(of, &child) != SEL_OK) return;
        MADE(i == 0 ? sel_list_new(offsets, 3, SEL_ALL_VALID, &child, &out)
             : i == 1 ? sel_fixed_size_list_new(LEN / 2, 2, SEL_ALL_VALID, &child, &out)
                      : sel_struct_new(LEN, SEL_ALL_VALID, &child, 1, &out));
        sel_free(&child);
    }
}

/* Reads a type that all threads share, and frees handles of its own. */
static void read_type(worker *w, const sel_type *of) {
    sel_type again = {0}, child = {0};
    struct ArrowSchema schema;
    size_t len = 0;
    mix(w, sel_type_share(of, &again));
    mix(w, sel_type_equal(of, &again));
    mix(w, sel_type_format(of, w->room.bytes, ROOM, &len));
    mix_room(w, len);
    mix(w, strlen(sel_type_arrow_format(of)) + strlen(sel_type_name(of)));
    for (size_t i = 0; i < sel_type_child_count(of); i++) mix(w, sel_type_child(of, i, &child));
    mix(w, sel_type_as_field(of, "name", false, &child));
    mix(w, sel_type_new("+l", of, 1, &child));
    if (sel_type_export(of, &schema) == SEL_OK) {
        mix(w, sel_unsupported_format(&schema) == NULL);
        mix(w, sel_type_import(&schema, &child));
        schema.release(&schema);
    }
    mix(w, sel_type_equal(of, &child));
    sel_type_free(&again);
    sel_type_free(&child);
}

/* Decodes keys of a dictionary that all threads share, and joins them with a column. */
static void read_dictionary(worker *w, const sel_column *of, const sel_type *type) {
    const sel_column two[2] = {keys, *of}, same[2] = {keys, keys};
    const sel_type types_of_two[2] = {coded, *type}, same_types[2] = {coded, coded};
    sel_column out[2] = {{0}, {0}};
    sel_type found = {0};
    sel_status status = sel_decode(&keys, &coded, &out[0], &found);
    mix_made(w, status, &out[0]);
    mix(w, sel_type_dictionary(&coded, &out[0], &found));
    mix(w, sel_common_type(same, same_types, 2, out, &found));
    mix(w, sel_common_type(two, types_of_two, 2, out, &found));
    sel_free(&out[0]);
    sel_free(&out[1]);
    sel_type_free(&found);
}

/* The batch of a stream: a column, once. */
static sel_status next_batch(void *context, sel_column *out, sel_type *type) {
    const sel_column **of = context;
    sel_status status = *of ? sel_share(*of, out) : SEL_OK;
    (void)type;
    *of = NULL;
    return status;
}

/* Passes a column through a stream of this thread. */
static void go_through_stream(worker *w, const sel_column *of, const sel_type *type) {
    const sel_column *batch = of;
    struct ArrowArrayStream source;
    sel_stream stream = {0};
    sel_column out = {0};
    sel_type found = {0};
    if (sel_stream_export(type, next_batch, &batch, NULL, &source) != SEL_OK) return;
    mix(w, sel_stream_open(&source, &stream));
    mix(w, sel_stream_type(&stream, &found));
    mix(w, sel_stream_message(&stream) == NULL);
    sel_status status = sel_stream_next(&stream, &out, &found);
    mix_made(w, status, &out);
    mix(w, sel_stream_next(&stream, &out, &found));
    sel_stream_free(&stream);
    sel_free(&out);
    sel_type_free(&found);
}

static void go_through_arrow(worker *w, const sel_column *of, const sel_type *type) {
    struct ArrowArray array;
    struct ArrowSchema schema;
    bool is_equal = false;
    sel_column out = {0};
    sel_type again = {0};
    sel_status status = sel_export(of, type, &array, &schema);
    mix(w, status);
    if (status != SEL_OK) return;
    mix(w, (uint64_t)array.length);
    mix(w, (uint64_t)array.null_count);
    mix(w, (uint64_t)schema.format[0]);
    status = sel_import(&array, &schema, &out, &again);
    schema.release(&schema);
    mix(w, status);
    mix(w, sel_type_equal(type, &again));
    sel_type_free(&again);
    mix(w, sel_equal_rows(&out, of, &is_equal));
    mix(w, is_equal);
    mix_made(w, status, &out);
}

/* Returns a number of all that the calls return for a column. */
static uint64_t read_all(worker *w, const sel_column *of, const sel_type *type) {
    w->hash = UINT64_C(0xcbf29ce484222325);
    read_properties(w, of);
    read_borrowed(w, of);
    read_values(w, of);
    read_buffers(w, of);
    select_rows(w, of);
    choose_rows(w, of);
    get_elements(w, of);
    combine_columns(w, of);
    nest(w, of);
    read_type(w, type);
    read_dictionary(w, of, type);
    go_through_stream(w, of, type);
    go_through_arrow(w, of, type);
    return w->hash;
}

/* ---- the threads ---- */

static uint64_t wanted[COLUMNS];
static pthread_barrier_t barrier;

/* letters[i][j]: a share of a column that thread i made, for thread j. */
static sel_column letters[THREADS][THREADS];

static void check(worker *w, bool holds) {
    w->checked++;
    w->wrong += !holds;
}

/* Makes a column that no other thread has, passes a share of it to each thread, and frees its own handle. */
static void send_letters(worker *w, size_t column) {
    sel_column own = {0};
    make_source(column, &own);
    for (size_t to = 0; to < THREADS; to++) check(w, sel_share(&own, &letters[w->number][to]) == SEL_OK);
    sel_free(&own);
}

/* Reads and frees the shares that were passed to this thread, beginning with that of another thread each. */
static void take_letters(worker *w, const uint64_t *hashes) {
    for (size_t i = 0; i < THREADS; i++) {
        size_t from = (w->number + i) % THREADS;
        sel_column *letter = &letters[from][w->number], again = {0};
        check(w, sel_share(letter, &again) == SEL_OK);
        sel_free(letter);
        w->hash = 0;
        mix_text(w, &again);
        check(w, w->hash == hashes[from]);
        sel_free(&again);
    }
}

static void wait_for_all(void) { pthread_barrier_wait(&barrier); }

static void *work(void *of) {
    worker *w = of;
    for (size_t round = 0; round < w->rounds; round++) {
        uint64_t hashes[THREADS];
        wait_for_all();
        /* in every other round all threads read the same column at once */
        for (size_t i = 0; i < COLUMNS; i++) {
            size_t column = (i + (round % 2) * w->number) % COLUMNS;
            check(w, read_all(w, &shared[column], &types[column]) == wanted[column]);
        }
        for (size_t from = 0; from < THREADS; from++) {
            w->hash = 0;
            mix_text(w, &shared[(round + from) % COLUMNS]);
            hashes[from] = w->hash;
        }
        send_letters(w, (round + w->number) % COLUMNS);
        wait_for_all();
        take_letters(w, hashes);
    }
    return NULL;
}

static worker workers[THREADS];

static int run(size_t rounds) {
    pthread_t threads[THREADS];
    size_t wrong = 0, checked = 0;
    make_columns();
    for (size_t i = 0; i < COLUMNS; i++) {
        wanted[i] = read_all(&workers[0], &shared[i], &types[i]);
        for (size_t k = 0; k < i; k++)
            if (wanted[k] == wanted[i]) wrong++; /* the number says nothing of the column */
    }
    if (pthread_barrier_init(&barrier, NULL, THREADS) != 0) stop("no barrier", SEL_OK);
    for (size_t i = 0; i < THREADS; i++) {
        workers[i].number = i;
        workers[i].rounds = rounds;
        if (pthread_create(&threads[i], NULL, work, &workers[i]) != 0) stop("no thread", SEL_OK);
    }
    for (size_t i = 0; i < THREADS; i++) {
        if (pthread_join(threads[i], NULL) != 0) stop("a thread does not end", SEL_OK);
        wrong += workers[i].wrong;
        checked += workers[i].checked;
    }
    pthread_barrier_destroy(&barrier);
    /* the shared columns are unchanged */
    for (size_t i = 0; i < COLUMNS; i++) wrong += read_all(&workers[0], &shared[i], &types[i]) != wanted[i];
    free_columns();
    printf("%d threads, %zu rounds, %d columns: %zu results compared, %zu wrong\n", THREADS, rounds, COLUMNS, checked, wrong);
    return wrong == 0 && checked > 0 ? 0 : 1;
}

/* ---- a race ---- */

static size_t unguarded, sum;

/* A function of the library and this one write the same variables in two threads. */
static void *write_unguarded(void *of) {
    for (int i = 0; i < 100; i++) {
        if (sel_print(of, NULL, 0, &unguarded) != SEL_OK) return NULL;
        sum += unguarded;
    }
    return NULL;
}

static int run_race(void) {
    pthread_t threads[2];
    make_columns();
    for (size_t i = 0; i < 2; i++)
        if (pthread_create(&threads[i], NULL, write_unguarded, &shared[0]) != 0) stop("no thread", SEL_OK);
    for (size_t i = 0; i < 2; i++) pthread_join(threads[i], NULL);
    free_columns();
    printf("two threads wrote %zu\n", sum);
    return 0;
}

int main(int count, char **given) {
    if (count == 2 && strcmp(given[1], "race") == 0) return run_race();
    return run(count == 2 ? strtoul(given[1], NULL, 10) : 20);
}
