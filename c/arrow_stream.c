/* Streams of record batches: a reader that imports one batch after the other, and a stream that exports what a callback returns. */
#include "arrow_internal.h"

#include <errno.h>
#include <stdlib.h>
#include <string.h>

typedef struct ArrowArrayStream Stream;

/* ---- import */

/* A stream that is read: its schema and its type, and a batch whose import failed. */
typedef struct reader {
    Stream source;
    Schema schema;
    Array pending;
    node *type;
    bool has_failed; /* the last call of the producer: only then it may be asked for a message */
    bool has_ended;  /* the producer, which is not called again */
} reader;

static void free_reader(reader *it) {
    if (!it) return;
    if (it->pending.release) it->pending.release(&it->pending);
    if (it->schema.release) it->schema.release(&it->schema);
    if (it->source.release) it->source.release(&it->source);
    sel_arrow_node_free(it->type);
    free(it);
}

sel_status sel_stream_open(struct ArrowArrayStream *source, sel_stream *out) {
    if (!source->release) return SEL_ERROR_ARROW_RELEASED;
    reader *it = calloc(1, sizeof *it);
    if (!it) return SEL_ERROR_OUT_OF_MEMORY;
    sel_status status = source->get_schema(source, &it->schema) == 0 ? SEL_OK : SEL_ERROR_ARROW_STREAM;
    if (status != SEL_OK) it->schema.release = NULL;
    if (status == SEL_OK) status = sel_arrow_read_schema(&it->schema, 0, &it->type);
    if (status != SEL_OK) {
        free_reader(it);
        return status;
    }
    it->source = *source;
    source->release = NULL;
    free_reader(out->at);
    out->at = it;
    return SEL_OK;
}

sel_status sel_stream_type(const sel_stream *of, sel_type *type) {
    const reader *it = of->at;
    if (!it) return SEL_ERROR_NO_COLUMN;
    sel_arrow_put(type, sel_arrow_node_share(it->type));
    return SEL_OK;
}

sel_status sel_stream_next(sel_stream *of, sel_column *out, sel_type *type) {
    reader *it = of->at;
    if (!it) return SEL_ERROR_NO_COLUMN;
    if (!it->pending.release && !it->has_ended) it->has_failed = it->source.get_next(&it->source, &it->pending) != 0;
    if (it->has_failed) {
        it->pending.release = NULL;
        return SEL_ERROR_ARROW_STREAM;
    }
    if (it->pending.release) return sel_import(&it->pending, &it->schema, out, type);
    it->has_ended = true;
    sel_free(out);
    if (type) sel_type_free(type);
    return SEL_OK;
}

const char *sel_stream_message(sel_stream *of) {
    reader *it = of->at;
    return it && it->has_failed && it->source.get_last_error ? it->source.get_last_error(&it->source) : NULL;
}

void sel_stream_free(sel_stream *of) {
    free_reader(of->at);
    of->at = NULL;
}

/* ---- export */

/* A stream that is written: the type of its batches, and their producer. */
typedef struct producer {
    sel_type type;
    sel_next_batch next;
    void *context;
    sel_free_context free_context;
    sel_status status; /* of the last call */
} producer;

static int code_of(sel_status status) {
    if (status == SEL_OK) return 0;
    return status == SEL_ERROR_OUT_OF_MEMORY ? ENOMEM : EINVAL;
}

static int get_schema(Stream *stream, Schema *out) {
    producer *it = stream->private_data;
    it->status = sel_type_export(&it->type, out);
    return code_of(it->status);
}

/* Exports a batch with its own type if that has the stream's schema, else with the stream's. */
static sel_status export_batch(const producer *it, const sel_column *batch, const sel_type *type, Array *out) {
    Schema schema;
    if (type->at && !sel_type_equal(type, &it->type)) return SEL_ERROR_TYPE_MISMATCH;
    sel_status status = sel_export(batch, type->at ? type : &it->type, out, &schema);
    if (status == SEL_OK) schema.release(&schema);
    return status;
}

static int get_next(Stream *stream, Array *out) {
    producer *it = stream->private_data;
    sel_column batch = {0};
    sel_type type = {0};
    memset(out, 0, sizeof *out);
    it->status = it->next(it->context, &batch, &type);
    if (it->status == SEL_OK && batch.at) it->status = export_batch(it, &batch, &type, out);
    sel_free(&batch);
    sel_type_free(&type);
    return code_of(it->status);
}

static const char *get_last_error(Stream *stream) {
    const producer *it = stream->private_data;
    return it->status == SEL_OK ? NULL : sel_status_string(it->status);
}

static void release_stream(Stream *stream) {
    producer *it = stream->private_data;
    if (it->free_context) it->free_context(it->context);
    sel_type_free(&it->type);
    free(it);
    stream->release = NULL;
}

sel_status sel_stream_export(const sel_type *type, sel_next_batch next, void *context, sel_free_context free_context, struct ArrowArrayStream *out) {
    if (!node_of(type)) return SEL_ERROR_NO_COLUMN;
    producer *it = calloc(1, sizeof *it);
    if (!it) return SEL_ERROR_OUT_OF_MEMORY;
    *it = (producer){{sel_arrow_node_share(type->at)}, next, context, free_context, SEL_OK};
    *out = (Stream){get_schema, get_next, get_last_error, release_stream, it};
    return SEL_OK;
}
