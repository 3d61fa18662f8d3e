/* Fills the buffers of one level of an Arrow array with those of a column, which are shared until the array is released. Copied are
 * bits that do not begin at a byte, offsets that the type has in 32 bits, and views that have to be cleaned. Borrows the values of
 * columns. */
#include "arrow_internal.h"

#include <stdlib.h>
#include <string.h>

void sel_arrow_free_buffers(Array *array) {
    lent_buffer *owners = array->private_data;
    for (int64_t i = 0; i < array->n_buffers; i++) {
        if (owners[i].at) sel_buffer_free(&owners[i]);
        else free((void *)array->buffers[i]);
    }
    free(owners);
}

/* Makes a shared buffer buffer `i` of the array, which keeps its owner. */
static void keep(target *t, int64_t i, const void *at, lent_buffer *owner) {
    lent_buffer *owners = t->array->private_data;
    t->array->buffers[i] = at;
    owners[i] = *owner;
    owner->at = NULL;
}

void sel_arrow_drop_buffer(target *t, int64_t i) {
    lent_buffer *owners = t->array->private_data;
    if (owners[i].at) sel_buffer_free(&owners[i]);
    else free((void *)t->array->buffers[i]);
    t->array->buffers[i] = NULL;
}

typedef sel_status part(const sel_column *of, lent_buffer *out);

/* Shares a part of a column as buffer `i`; its address stays NULL if the bits do not begin at a byte. Returns in `has` whether the column
 * has such a part. */
static sel_status share(target *t, int64_t i, part *part_of, const sel_column *of, bool *has) {
    lent_buffer owner = {NULL};
    const void *at = NULL;
    size_t len = 0, first = 0;
    sel_status status = part_of(of, &owner);
    *has = owner.at != NULL;
    if (status == SEL_OK && *has) status = sel_buffer_show(&owner, &at, &len, &first);
    if (status == SEL_OK && *has && first == 0) keep(t, i, at, &owner);
    sel_buffer_free(&owner);
    return status;
}

sel_status sel_arrow_share_validity(target *t, bool *has) { return share(t, 0, sel_validity_of, t->of, has); }

sel_status sel_arrow_share_values(target *t, const sel_column *of) {
    bool has;
    return share(t, 1, sel_values_of, of, &has);
}

sel_status sel_arrow_share_offsets(target *t) {
    bool has;
    return share(t, 1, sel_offsets_of, t->of, &has);
}

sel_status sel_arrow_share_binary(target *t) {
    sel_status status = sel_arrow_share_offsets(t);
    return status == SEL_OK ? sel_arrow_share_bytes(t, 0) : status;
}

sel_status sel_arrow_share_bytes(target *t, size_t from) {
    lent_buffer owner = {NULL};
    const void *at = NULL;
    size_t len = 0, first = 0;
    sel_status status = sel_bytes_of(t->of, &owner);
    if (status == SEL_OK) status = sel_buffer_show(&owner, &at, &len, &first);
    if (status == SEL_OK) keep(t, 2, (const char *)at + from, &owner);
    sel_buffer_free(&owner);
    return status;
}

/* Tests whether a view can be exported as it is: it can be seen, its indices fit, and the bytes behind a short one's own are 0. */
static bool is_clean(const target *t, const sel_view *view, size_t row) {
    if (!sel_arrow_is_seen(t, row)) return view->length == 0 && view->prefix == 0 && view->buffer == 0 && view->offset == 0;
    if (view->length > 12) return view->length <= INT32_MAX && view->offset <= INT32_MAX && view->buffer <= INT32_MAX;
    for (size_t i = view->length; i < 12; i++)
        if (bytes_in_view(view)[i] != 0) return false;
    return true;
}

sel_status sel_arrow_share_views(target *t) {
    sel_status status = sel_arrow_share_values(t, t->of);
    const sel_view *views = t->array->buffers[1];
    bool all = true;
    for (size_t i = 0; status == SEL_OK && all && i < t->len; i++) all = is_clean(t, &views[i], i);
    if (status == SEL_OK && !all) sel_arrow_drop_buffer(t, 1);
    return status;
}

sel_status sel_arrow_share_data(target *t, size_t i, size_t *len) {
    lent_buffer owner = {NULL};
    const void *at = NULL;
    size_t first = 0;
    sel_status status = sel_data_of(t->of, i, &owner);
    if (status == SEL_OK) status = sel_buffer_show(&owner, &at, len, &first);
    if (status == SEL_OK) keep(t, (int64_t)i + 2, at, &owner);
    sel_buffer_free(&owner);
    return status;
}

static bool is_integer(sel_type_id type) {
    switch (type) {
    case SEL_TYPE_INT8: case SEL_TYPE_INT16: case SEL_TYPE_INT32: case SEL_TYPE_INT64:
    case SEL_TYPE_UINT8: case SEL_TYPE_UINT16: case SEL_TYPE_UINT32: case SEL_TYPE_UINT64: return true;
    default: return false;
    }
}

sel_status sel_borrow_values(const sel_column *of, const void **values, size_t *len) {
    lent_buffer owner = {NULL};
    const void *at = NULL;
    size_t count = 0, first = 0;
    sel_type_id type = sel_type_of(of);
    if (type == SEL_TYPE_NONE) return SEL_ERROR_NO_COLUMN;
    if (!is_integer(type)) return SEL_ERROR_UNSUPPORTED_TYPE;
    sel_status status = sel_values_of(of, &owner);
    if (status == SEL_OK) status = sel_buffer_show(&owner, &at, &count, &first);
    /* the column owns the buffer, too */
    sel_buffer_free(&owner);
    if (status != SEL_OK) return status;
    *values = count > 0 ? at : sel_arrow_nothing;
    *len = count;
    return SEL_OK;
}
