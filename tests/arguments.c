#include "arguments.h"

#include "layout.h"
#include "report.h"

#include <string.h>

/* ---- rows and columns ---- */

/* Reads rows of a type, or of the type that the text itself names: `TYPE ROWS`. */
static bool read_column(struct arguments *out, const struct type *type, const char *text) {
    struct misread why = {"", 0};
    const char *space = strchr(text, ' ');
    if (out->column_count == MOST_COLUMNS) {
        return fail("more than %d columns", MOST_COLUMNS);
    }
    if (*text != '[') {
        if (space == NULL) {
            return fail("no rows: %s", text);
        }
        type = read_type(out->arena, arena_text(out->arena, text, (size_t)(space - text)), &why);
        text = space + 1;
    }
    if (type == NULL) {
        return fail("no type: %s at byte %zu", why.reason, why.at);
    }
    if (!read_rows(out->arena, type, text, &out->columns[out->column_count], &why)) {
        return fail("no rows of the type %s: %s at byte %zu of %s", type_text(out->arena, type), why.reason, why.at, text);
    }
    out->column_count += 1;
    return true;
}

static bool read_own_type(struct arguments *out, const char *text) {
    struct misread why;
    out->type_text = text;
    out->type = read_type(out->arena, text, &why);
    return out->type != NULL || fail("no type: %s at byte %zu of %s", why.reason, why.at, text);
}

/* Cuts the next part off a text with separators. Returns it, or NULL at the end. */
static char *next_part(char **rest, const char *separator) {
    char *part = *rest;
    if (part != NULL) {
        char *end = strstr(part, separator);
        *rest = end == NULL ? NULL : end + strlen(separator);
        if (end != NULL) {
            *end = 0;
        }
    }
    return part;
}

/* Returns a copy of a text that can be cut, NULL for one of no parts. */
static char *parts_of(struct arguments *out, const char *text) {
    return *text == 0 ? NULL : arena_text(out->arena, text, strlen(text));
}

static bool read_columns(struct arguments *out, const char *text) {
    char *rest = parts_of(out, text);
    for (const char *part = next_part(&rest, " ; "); part != NULL; part = next_part(&rest, " ; ")) {
        if (*part == '[') {
            return fail("a column without a type: %s", part);
        }
        if (!read_column(out, NULL, part)) {
            return false;
        }
    }
    return true;
}

/* Reads rows that are no column here, none of which may be null. */
static bool read_values(struct arguments *out, sel_type_id kind, const char *text, struct rows *rows) {
    struct misread why;
    if (!read_rows(out->arena, leaf_type(kind), text, rows, &why)) {
        return fail("no rows of the type %s: %s at byte %zu of %s", type_text(out->arena, leaf_type(kind)), why.reason, why.at, text);
    }
    return null_count(rows) == 0 || fail("a null that is not to be here: %s", text);
}

/* Reads a mask, and packs its bits. */
static bool read_mask(struct arguments *out, const char *text) {
    if (!read_column(out, leaf_type(SEL_TYPE_BOOLEAN), text)) {
        return false;
    }
    const struct rows *rows = &out->columns[out->column_count - 1];
    out->bits = packed_bits(out->arena, rows->values, rows->len);
    out->bits_len = (rows->len + 7) / 8;
    return true;
}

/* Reads indices, also as numbers with a validity. */
static bool read_indices(struct arguments *out, const char *text) {
    if (!read_column(out, leaf_type(SEL_TYPE_UINT32), text)) {
        return false;
    }
    const struct rows *rows = &out->columns[out->column_count - 1];
    uint32_t *indices = arena_take(out->arena, rows->len, sizeof *indices);
    struct value *valid = arena_take(out->arena, rows->len, sizeof *valid);
    for (size_t i = 0; i < rows->len; i += 1) {
        indices[i] = rows->values[i].is_null ? UINT32_MAX : (uint32_t)rows->values[i].low;
        valid[i].low = !rows->values[i].is_null;
    }
    out->indices = indices;
    out->bits = packed_bits(out->arena, valid, rows->len);
    out->bits_len = (rows->len + 7) / 8;
    out->has_bits = null_count(rows) > 0;
    return true;
}

/* ---- other arguments ---- */

static bool read_number(struct arguments *out, const char *text) {
    size_t *number = &out->numbers[out->number_count];
    out->number_count += 1;
    return read_size(text, number) || fail("no number: %s", text);
}

static bool read_flag(struct arguments *out, const char *text) {
    out->flag = strcmp(text, "true") == 0;
    return out->flag || strcmp(text, "false") == 0 || fail("neither true nor false: %s", text);
}

static bool read_offsets(struct arguments *out, const char *text) {
    struct rows rows;
    if (!read_values(out, SEL_TYPE_INT64, text, &rows)) {
        return false;
    }
    int64_t *offsets = arena_take(out->arena, rows.len, sizeof *offsets);
    for (size_t i = 0; i < rows.len; i += 1) {
        offsets[i] = (int64_t)rows.values[i].low;
    }
    out->offsets = offsets;
    out->offset_count = rows.len;
    return true;
}

/* Checks that a validity has a boolean for each row, or fills fewer bytes than the rows need. The rows are one fewer than the
 * offsets if there are offsets, else as many as the number that was read last says. */
static bool check_validity_length(const struct arguments *out, size_t len) {
    size_t rows = out->offsets == NULL ? out->numbers[out->number_count - 1] : out->offset_count - (out->offset_count > 0);
    bool is_short = out->bits_len < rows / 8 + (rows % 8 > 0);
    return is_short || len == rows || fail("a validity of %zu rows for %zu", len, rows);
}

static bool read_validity(struct arguments *out, const char *text) {
    struct rows rows;
    out->bits = arena_take(out->arena, 0, 1);
    out->has_bits = *text != 0;
    if (!out->has_bits) {
        return true;
    }
    if (!read_values(out, SEL_TYPE_BOOLEAN, text, &rows)) {
        return false;
    }
    out->bits = packed_bits(out->arena, rows.values, rows.len);
    out->bits_len = (rows.len + 7) / 8;
    return check_validity_length(out, rows.len);
}

static bool read_widths(struct arguments *out, const char *text) {
    char *rest = parts_of(out, text);
    size_t *widths = arena_take(out->arena, strlen(text) / 2 + 1, sizeof *widths);
    for (const char *part = next_part(&rest, " "); part != NULL; part = next_part(&rest, " ")) {
        if (!read_size(part, &widths[out->width_count])) {
            return fail("no width: %s", part);
        }
        out->width_count += 1;
    }
    out->widths = widths;
    return true;
}

/* ---- picks ---- */

/* A pick, or a run of them: `COLUMN:ROW`, `_`, and either with `+COUNT` behind it. */
struct run {
    bool is_null;
    size_t source, row, count;
};

static bool read_run(char *text, struct run *out) {
    char *count = text, *row;
    char *from = next_part(&count, "+");
    *out = (struct run){.count = 1};
    if (count != NULL && !read_size(count, &out->count)) {
        return false;
    }
    out->is_null = strcmp(from, "_") == 0;
    row = from;
    const char *source = next_part(&row, ":");
    bool is_read = out->is_null || (row != NULL && read_size(source, &out->source) && read_size(row, &out->row));
    return is_read && out->source <= UINT32_MAX && out->row <= UINT32_MAX;
}

/* Returns how many picks a text stands for, which are written if there is a place for them; SIZE_MAX if it is misspelled. A
 * null pick names a row that no column has. */
static size_t write_picks(struct arguments *out, const char *text, sel_row_ref *picks, struct value *valid) {
    char *rest = parts_of(out, text);
    size_t count = 0;
    for (char *part = next_part(&rest, " "); part != NULL; part = next_part(&rest, " ")) {
        struct run run;
        if (!read_run(part, &run) || run.count > 1000000) {
            return SIZE_MAX;
        }
        for (size_t i = 0; i < run.count && picks != NULL; i += 1) {
            picks[count + i] = run.is_null ? (sel_row_ref){UINT32_MAX, UINT32_MAX} : (sel_row_ref){(uint32_t)run.source, (uint32_t)(run.row + i)};
            valid[count + i].low = !run.is_null;
            out->has_bits = out->has_bits || run.is_null;
        }
        count += run.count;
    }
    return count;
}

static bool read_picks(struct arguments *out, const char *text) {
    size_t count = write_picks(out, text, NULL, NULL);
    if (count == SIZE_MAX) {
        return fail("no picks: %s", text);
    }
    sel_row_ref *picks = arena_take(out->arena, count, sizeof *picks);
    struct value *valid = arena_take(out->arena, count, sizeof *valid);
    write_picks(out, text, picks, valid);
    out->picks = picks;
    out->pick_count = count;
    out->bits = packed_bits(out->arena, valid, count);
    out->bits_len = (count + 7) / 8;
    return true;
}

/* ---- lines ---- */

static bool read_argument(struct arguments *out, char letter, const char *text) {
    switch (letter) {
    case 't': return read_own_type(out, text);
    case 'r': return read_column(out, out->type, text);
    case 'M': return read_mask(out, text);
    case 'U': return read_indices(out, text);
    case 'I': return read_column(out, leaf_type(SEL_TYPE_INT64), text);
    case 'S': return read_column(out, leaf_type(SEL_TYPE_STRING_VIEW), text);
    case 'c': return read_columns(out, text);
    case 'n': return read_number(out, text);
    case 'i': return read_index(text, &out->index) || fail("no index: %s", text);
    case 'f': return read_flag(out, text);
    case 'o': return read_offsets(out, text);
    case 'v': return read_validity(out, text);
    case 'w': return read_widths(out, text);
    case 'p': return read_picks(out, text);
    case 'x': out->type_text = text; return true;
    default: out->rows_text = text; return true;
    }
}

bool read_arguments(struct arena *arena, const char *letters, const struct line *line, struct arguments *out) {
    *out = (struct arguments){.arena = arena};
    if (line->count < 2 + strlen(letters)) {
        return fail("%zu fields in place of %zu", line->count, 2 + strlen(letters));
    }
    for (size_t i = 0; letters[i] != 0; i += 1) {
        if (!read_argument(out, letters[i], line->fields[1 + i])) {
            return false;
        }
    }
    return true;
}
