/* Layouts of Arrow that become others on import, by a take: list views, and run-end encoded arrays. */
#include "arrow_internal.h"

#include <stdlib.h>
#include <string.h>

/* Reads an offset or a size of a list view. */
static int64_t number_at(const level *l, int64_t buffer, size_t row) {
    const char *at = l->array->buffers[buffer];
    int64_t number;
    int32_t narrow;
    if (l->format.wide) memcpy(&number, at + (l->from + row) * 8, 8);
    else memcpy(&narrow, at + (l->from + row) * 4, 4), number = narrow;
    return number;
}

/* Checks that each list that is not null lies within the child, and returns the offsets of the lists one after the other. */
static sel_status check_list_views(const level *l, size_t child_len, int64_t *offsets) {
    for (size_t i = 0; i < l->len; i++) {
        offsets[i + 1] = offsets[i];
        if (!is_valid(l, i)) continue;
        int64_t offset = number_at(l, 1, i), size = number_at(l, 2, i);
        if (offset < 0 || size < 0) return SEL_ERROR_NEGATIVE_OFFSET;
        if ((uint64_t)offset > child_len || (uint64_t)size > child_len - (uint64_t)offset) return SEL_ERROR_OFFSET_RANGE;
        if (size > MAX_ROWS - offsets[i]) return SEL_ERROR_TOO_MANY_ROWS;
        offsets[i + 1] += size;
    }
    return SEL_OK;
}

/* Returns the index in the child of each element, list after list, or NULL if out of memory. */
static uint32_t *elements_of(const level *l, const int64_t *offsets) {
    uint32_t *indices = malloc(((size_t)offsets[l->len] + 1) * sizeof *indices);
    for (size_t i = 0; indices && i < l->len; i++) {
        int64_t count = offsets[i + 1] - offsets[i], begin = count > 0 ? number_at(l, 1, i) : 0;
        for (int64_t k = 0; k < count; k++) indices[offsets[i] + k] = (uint32_t)(begin + k);
    }
    return indices;
}

sel_status sel_arrow_import_list_views(level *l, const sel_column *child, sel_column *out) {
    sel_column taken = {0};
    int64_t *offsets = calloc(l->len + 1, sizeof *offsets);
    uint32_t *indices = NULL;
    sel_status status = offsets ? check_list_views(l, sel_len(child), offsets) : SEL_ERROR_OUT_OF_MEMORY;
    if (status == SEL_OK && !(indices = elements_of(l, offsets))) status = SEL_ERROR_OUT_OF_MEMORY;
    if (status == SEL_OK) status = sel_take_rows(child, indices, (size_t)offsets[l->len], SEL_ALL_VALID, &taken);
    if (status == SEL_OK) status = sel_list_new(offsets, l->len + 1, VALIDITY(l), &taken, out);
    free(offsets);
    free(indices);
    sel_free(&taken);
    return status;
}

#define READ_ENDS(type, read)                                                              \
    do {                                                                                   \
        type *narrow = malloc((count + 1) * sizeof *narrow);                               \
        sel_status status = narrow ? read(ends, narrow, count) : SEL_ERROR_OUT_OF_MEMORY;  \
        for (size_t i = 0; status == SEL_OK && i < count; i++) out[i] = (int64_t)narrow[i]; \
        free(narrow);                                                                      \
        return status;                                                                     \
    } while (0)

static sel_status read_ends(const sel_column *ends, int64_t *out, size_t count) {
    switch (sel_type_of(ends)) {
    case SEL_TYPE_INT16: READ_ENDS(int16_t, sel_int16_values);
    case SEL_TYPE_INT32: READ_ENDS(int32_t, sel_int32_values);
    default: return sel_int64_values(ends, out, count);
    }
}

/* Checks that the run ends increase, reach all rows, and have a value each. */
static sel_status check_ends(const level *l, const int64_t *ends, size_t count, size_t values) {
    size_t rows = l->from + l->len;
    if (count > values) return SEL_ERROR_ARROW_LENGTH;
    for (size_t i = 0; i < count; i++)
        if (ends[i] <= (i ? ends[i - 1] : 0)) return SEL_ERROR_DECREASING_OFFSET;
    return rows > 0 && (count == 0 || (uint64_t)ends[count - 1] < rows) ? SEL_ERROR_ARROW_LENGTH : SEL_OK;
}

sel_status sel_arrow_import_runs(level *l, const sel_column *ends, const sel_column *values, sel_column *out) {
    size_t count = sel_len(ends), run = 0;
    if (sel_null_count(ends) > 0) return SEL_ERROR_ARROW_NULL;
    int64_t *at = malloc((count + 1) * sizeof *at);
    uint32_t *indices = malloc((l->len + 1) * sizeof *indices);
    sel_status status = at && indices ? read_ends(ends, at, count) : SEL_ERROR_OUT_OF_MEMORY;
    if (status == SEL_OK) status = check_ends(l, at, count, sel_len(values));
    for (size_t i = 0; status == SEL_OK && i < l->len; i++) {
        while ((uint64_t)at[run] <= l->from + i) run++;
        indices[i] = (uint32_t)run;
    }
    if (status == SEL_OK) status = sel_take_rows(values, indices, l->len, SEL_ALL_VALID, out);
    free(at);
    free(indices);
    return status;
}
