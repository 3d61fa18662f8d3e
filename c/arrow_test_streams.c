/* Streams: batches of a producer one by one, errors of the producer, and a stream of what a callback returns. */
#include "arrow_test.h"

#include <errno.h>
#include <string.h>

enum { BATCHES = 3, ROWS = 2 };

/* A producer of batches of two rows, one of which may be an error. */
typedef struct producer {
    piece it;
    int next, fails_at, releases, has_error;
    bool fails_with_schema;
} producer;

static int64_t rows_of_batches[BATCHES][ROWS] = {{1, 2}, {3, 4}, {5, 6}};

static void keep_schema(struct ArrowSchema *schema) { schema->release = NULL; }

static int get_schema(struct ArrowArrayStream *stream, struct ArrowSchema *out) {
    producer *it = stream->private_data;
    if (it->fails_with_schema) return it->has_error = EIO;
    *out = *it->it.schema;
    out->release = keep_schema;
    return 0;
}

/* What a producer leaves in the array of an error is not released. */
static void release_of_error(struct ArrowArray *array) { CHECK(!array); }

static int get_next(struct ArrowArrayStream *stream, struct ArrowArray *out) {
    producer *it = stream->private_data;
    if (it->next == it->fails_at) {
        it->fails_at = -1;
        *out = (struct ArrowArray){.length = -1, .release = release_of_error};
        return it->has_error = ENOMEM;
    }
    *out = *it->it.array;
    if (it->next < BATCHES) out->children[0]->buffers[1] = rows_of_batches[it->next];
    else out->release = NULL;
    it->next++;
    return 0;
}

static const char *get_last_error(struct ArrowArrayStream *stream) { return ((producer *)stream->private_data)->has_error ? "no more" : NULL; }

static void release_stream(struct ArrowArrayStream *stream) {
    ((producer *)stream->private_data)->releases++;
    stream->release = NULL;
}

static struct ArrowArrayStream stream_of(producer *it, int fails_at) {
    static const char *const names[] = {"number"};
    forget_pieces();
    piece child = piece_of("tsm:UTC", ROWS, 0, 2, NULL, rows_of_batches[0], NULL);
    *it = (producer){piece_over(piece_of("+s", ROWS, 0, 1, NULL, NULL, NULL), 1, &child, names), 0, fails_at, 0, 0, false};
    it->it.schema->flags = 0;
    return (struct ArrowArrayStream){get_schema, get_next, get_last_error, release_stream, it};
}

static const char *const printed[BATCHES] = {"[(1),(2)]", "[(3),(4)]", "[(5),(6)]"};

static void streams_are_read(void) {
    for (int fails_at = -1; fails_at < BATCHES; fails_at++) {
        producer from;
        struct ArrowArrayStream source = stream_of(&from, fails_at);
        sel_stream stream = {0};
        sel_column batch = {0};
        sel_type type = {0}, whole = {0};
        CHECK(sel_stream_open(&source, &stream) == SEL_OK && !source.release && stream.at);
        CHECK(sel_stream_type(&stream, &whole) == SEL_OK && !strcmp(sel_type_arrow_format(&whole), "+s"));
        released = 0;
        for (int i = 0; i < BATCHES; i++) {
            if (i == fails_at) {
                void *before = batch.at;
                CHECK(!sel_stream_message(&stream));
                CHECK(sel_stream_next(&stream, &batch, &type) == SEL_ERROR_ARROW_STREAM && batch.at == before);
                CHECK(!strcmp(sel_stream_message(&stream), "no more"));
            }
            CHECK(sel_stream_next(&stream, &batch, &type) == SEL_OK && shows(&batch, printed[i]) && sel_type_equal(&type, &whole));
            CHECK(released == i); /* the batch before this one */
        }
        CHECK(sel_stream_next(&stream, &batch, &type) == SEL_OK && !batch.at && !type.at);
        /* the producer is not called after its end, when it would return an error or begin again */
        from.fails_at = from.next;
        CHECK(sel_stream_next(&stream, &batch, NULL) == SEL_OK && !batch.at && !sel_stream_message(&stream));
        from.next = 0;
        CHECK(sel_stream_next(&stream, &batch, NULL) == SEL_OK && !batch.at && from.next == 0);
        CHECK(from.releases == 0);
        sel_stream_free(&stream);
        CHECK(from.releases == 1 && !stream.at);
        sel_type_free(&whole);
    }
}

static void streams_are_refused(void) {
    producer from;
    struct ArrowArrayStream source = stream_of(&from, -1), gone = {.release = NULL};
    sel_stream stream = {0};
    sel_column batch = {0};
    sel_type type = {0};
    CHECK(sel_stream_open(&gone, &stream) == SEL_ERROR_ARROW_RELEASED && !stream.at);
    CHECK(sel_stream_next(&stream, &batch, &type) == SEL_ERROR_NO_COLUMN && sel_stream_type(&stream, &type) == SEL_ERROR_NO_COLUMN);
    CHECK(!sel_stream_message(&stream));
    from.fails_with_schema = true;
    CHECK(sel_stream_open(&source, &stream) == SEL_ERROR_ARROW_STREAM && source.release && !stream.at);
    from.fails_with_schema = false;
    from.it.schema->children[0]->format = "+us:0";
    CHECK(sel_stream_open(&source, &stream) == SEL_ERROR_ARROW_FORMAT && source.release && !stream.at);
    from.it.schema->children[0]->format = "l";
    CHECK(sel_stream_open(&source, &stream) == SEL_OK);
    /* a batch that is refused is imported again by the next call */
    released = 0;
    from.it.array->children[0]->n_buffers = 1;
    CHECK(sel_stream_next(&stream, &batch, &type) == SEL_ERROR_ARROW_BUFFERS && released == 0 && !batch.at && !type.at);
    from.it.array->children[0]->n_buffers = 2;
    CHECK(sel_stream_next(&stream, &batch, &type) == SEL_OK && released == 0 && shows(&batch, printed[0]));
    /* a batch that waits is released with the stream */
    from.it.array->children[0]->n_buffers = 1;
    CHECK(sel_stream_next(&stream, &batch, &type) == SEL_ERROR_ARROW_BUFFERS && shows(&batch, printed[0]));
    sel_stream_free(&stream);
    CHECK(released == 1 && from.releases == 1);
    sel_stream_free(&stream);
    sel_free(&batch);
    sel_type_free(&type);
}

/* The batches of a stream in the library. */
typedef struct batches {
    sel_stream stream;
    int calls, frees;
    sel_status fails;
} batches;

static sel_status next_batch(void *context, sel_column *out, sel_type *type) {
    batches *it = context;
    if (it->calls++ == 1 && it->fails != SEL_OK) return it->fails;
    return sel_stream_next(&it->stream, out, type);
}

static void free_batches(void *context) {
    batches *it = context;
    it->frees++;
    sel_stream_free(&it->stream);
}

/* Passes batches through the library twice. Prints them if `printing` is not null, which allocates memory. */
static sel_status pass_batches(void *printing) {
    producer from;
    batches between = {{0}, 0, 0, SEL_OK};
    struct ArrowArrayStream source = stream_of(&from, -1), out = {.release = NULL};
    sel_stream again = {0};
    sel_column batch = {0};
    sel_type type = {0};
    sel_status status = sel_stream_open(&source, &between.stream);
    if (status == SEL_OK) status = sel_stream_type(&between.stream, &type);
    if (status == SEL_OK) status = sel_stream_export(&type, next_batch, &between, free_batches, &out);
    bool is_exported = out.release;
    if (status == SEL_OK) status = sel_stream_open(&out, &again);
    if (status == SEL_ERROR_ARROW_STREAM) status = SEL_ERROR_OUT_OF_MEMORY;
    for (int i = 0; status == SEL_OK && i < BATCHES; i++) {
        status = sel_stream_next(&again, &batch, &type);
        if (status == SEL_ERROR_ARROW_STREAM) CHECK(!strcmp(sel_stream_message(&again), "out of memory")), status = SEL_ERROR_OUT_OF_MEMORY;
        if (status == SEL_OK) CHECK(sel_len(&batch) == ROWS && (!printing || shows(&batch, printed[i])));
    }
    if (status == SEL_OK) status = sel_stream_next(&again, &batch, &type);
    if (status == SEL_OK) CHECK(!batch.at && !type.at);
    sel_stream_free(&again);
    if (out.release) out.release(&out);
    CHECK(between.frees == is_exported);
    sel_stream_free(&between.stream);
    sel_free(&batch);
    sel_type_free(&type);
    return status;
}

static void exports_are_checked(void) {
    producer from;
    struct ArrowArrayStream source = stream_of(&from, -1), out;
    struct ArrowArray array;
    batches between = {{0}, 0, 0, SEL_ERROR_ROW_LIMIT};
    sel_type type = {0}, other = {0};
    CHECK(sel_stream_export(&type, next_batch, &between, free_batches, &out) == SEL_ERROR_NO_COLUMN && between.frees == 0);
    CHECK(sel_stream_open(&source, &between.stream) == SEL_OK && sel_stream_type(&between.stream, &type) == SEL_OK);
    CHECK(sel_stream_export(&type, next_batch, &between, free_batches, &out) == SEL_OK);
    CHECK(out.get_next(&out, &array) == 0 && array.length == ROWS && !out.get_last_error(&out));
    array.release(&array);
    CHECK(out.get_next(&out, &array) == EINVAL && !array.release && !strcmp(out.get_last_error(&out), sel_status_string(SEL_ERROR_ROW_LIMIT)));
    CHECK(out.get_next(&out, &array) == 0 && array.length == ROWS && !out.get_last_error(&out));
    array.release(&array);
    out.release(&out);
    CHECK(!out.release && between.frees == 1 && from.releases == 1);
    /* a batch of another schema */
    source = stream_of(&from, -1);
    between = (batches){{0}, 0, 0, SEL_OK};
    CHECK(sel_type_as_field(&type, "other", true, &other) == SEL_OK && sel_stream_open(&source, &between.stream) == SEL_OK);
    CHECK(sel_stream_export(&other, next_batch, &between, NULL, &out) == SEL_OK);
    CHECK(out.get_next(&out, &array) == EINVAL && !array.release && !strcmp(out.get_last_error(&out), sel_status_string(SEL_ERROR_TYPE_MISMATCH)));
    out.release(&out);
    CHECK(between.frees == 0);
    sel_stream_free(&between.stream);
    sel_type_free(&type);
    sel_type_free(&other);
}

void test_streams(void) {
    streams_are_read();
    streams_are_refused();
    exports_are_checked();
    CHECK(pass_batches(&(bool){true}) == SEL_OK);
    refuse_each(pass_batches, NULL, "streams");
}
