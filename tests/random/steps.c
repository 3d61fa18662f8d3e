#include "steps.h"

#include "../../c/arrow_lease.h"
#include "../check.h"
#include "../report.h"
#include "generate.h"
#include "model.h"

#include <inttypes.h>
#include <stdio.h>
#include <string.h>

/* Rows whose text is longer are not put into the pool, so that calls do not make them longer and longer. */
enum { LONGEST_TEXT = 4000, MOST_LEVELS = 4 };

/* The same for columns with more data buffers. */
enum { MOST_BUFFERS = 64 };

/* A call that is being made. */
struct step {
    const struct pool *pool;
    struct arena *arena;
    struct draws *draws;
    struct entry *made;
};

/* A column that is part of another one, or made for a call; it is freed after the call. */
struct argument {
    sel_column column;
    struct rows rows;
};

/* ---- arguments ---- */

static const struct entry *any_entry(const struct step *step) {
    return &step->pool->entries[draw(step->draws, step->pool->count)];
}

static bool have_one_type(const struct step *step, const struct rows *one, const struct rows *other) {
    return strcmp(type_text(step->arena, one->type), type_text(step->arena, other->type)) == 0;
}

/* Returns an entry of the type of `rows`: perhaps its own. */
static const struct entry *like(const struct step *step, const struct entry *entry) {
    const struct entry *other = any_entry(step);
    return have_one_type(step, &entry->rows, &other->rows) ? other : entry;
}

static struct argument column_of(const struct step *step, struct rows rows) {
    return (struct argument){draw_column(step->draws, &rows), rows};
}

/* Returns rows `start` to `start + len` of an entry, as a slice. */
static struct argument part_of(const struct step *step, const struct entry *entry, size_t start, size_t len) {
    struct argument part = {{0}, model_slice(step->arena, &entry->rows, start, len)};
    sel_status status = sel_slice(&entry->column, start, len, &part.column);
    if (status != SEL_OK) {
        fail("sel_slice: %s", status_text(step->arena, status));
    }
    return part;
}

static size_t nulls_by_chance(const struct step *step) {
    return draw_one_in(step->draws, 3) ? 0 : 2 + draw(step->draws, 6);
}

/* ---- results ---- */

/* Compares a status and, on success, the rows of a column, which becomes the result of the step. */
static bool ends(const struct step *step, const char *call, sel_status status, sel_status wanted, sel_column *column, const struct rows *rows) {
    bool is_right = status == wanted
        || fail("%s: expected %s, got %s", call, status_text(step->arena, wanted), status_text(step->arena, status));
    if (status != SEL_OK) {
        is_right = (column->at == NULL || fail("%s: a column in spite of an error", call)) && is_right;
        sel_free(column);
        return is_right;
    }
    /* where an error is wanted there are no rows to compare with */
    is_right = is_right && check_column(column, rows, call);
    if (is_right && strlen(rows->text) <= LONGEST_TEXT) {
        *step->made = (struct entry){*column, *rows};
    } else {
        sel_free(column);
    }
    return is_right;
}

/* ---- one column ---- */

/* Filters by a mask that is prepared, twice; the results must be equal. */
static sel_status filter_by_selection(const struct entry *entry, const sel_column *mask, sel_column *out) {
    sel_selection by = {0};
    sel_column again = {0};
    bool is_equal = false;
    sel_status status = sel_selection_new(mask, &by);
    if (status == SEL_OK) {
        status = sel_filter_selection(&entry->column, &by, out);
    }
    if (status == SEL_OK) {
        status = sel_filter_selection(&entry->column, &by, &again);
    }
    if (status == SEL_OK) {
        status = sel_equal_rows(out, &again, &is_equal);
    }
    sel_free(&again);
    sel_selection_free(&by);
    return status == SEL_OK && !is_equal ? SEL_ERROR_TYPE_MISMATCH : status;
}

static bool step_filter(const struct step *step) {
    const struct entry *entry = any_entry(step);
    bool by_bits = draw_one_in(step->draws, 3), by_selection = draw_one_in(step->draws, 2), is_short = entry->rows.len > 0 && draw_one_in(step->draws, 30);
    struct rows mask = draw_mask(step->draws, step->arena, entry->rows.len - is_short, by_bits ? 0 : nulls_by_chance(step));
    struct rows wanted = is_short ? mask : model_filter(step->arena, &entry->rows, &mask);
    sel_column out = {0}, bits = draw_column(step->draws, &mask);
    sel_status status;
    if (by_bits) {
        uint8_t *packed = arena_take(step->arena, (mask.len + 7) / 8, 1);
        for (size_t i = 0; i < mask.len; i += 1) {
            packed[i / 8] |= (uint8_t)(is_true(&mask.values[i]) << (i % 8));
        }
        status = sel_filter_bits(&entry->column, packed, (mask.len + 7) / 8, mask.len, &out);
    } else if (by_selection) {
        status = filter_by_selection(entry, &bits, &out);
    } else {
        status = sel_filter(&entry->column, &bits, &out);
    }
    sel_free(&bits);
    return ends(step, by_bits ? "sel_filter_bits" : by_selection ? "sel_filter_selection" : "sel_filter", status, is_short ? SEL_ERROR_LENGTH_MISMATCH : SEL_OK, &out, &wanted);
}

/* Takes rows at indices; once in a while an index that is not null is one too large. */
static bool step_take(const struct step *step) {
    const struct entry *entry = any_entry(step);
    bool is_out = draw_one_in(step->draws, 30);
    size_t len = draw_len(step->draws, entry->rows.type), below = entry->rows.len;
    struct rows indices = draw_indices(step->draws, step->arena, len, below + is_out, nulls_by_chance(step));
    sel_status wanted_status = SEL_OK;
    for (size_t i = 0; i < indices.len; i += 1) {
        if (!indices.values[i].is_null && indices.values[i].low >= below) {
            wanted_status = SEL_ERROR_INDEX_OUT_OF_BOUNDS;
        }
    }
    struct rows wanted = wanted_status == SEL_OK ? model_take(step->arena, &entry->rows, &indices) : indices;
    sel_column out = {0}, column = draw_column(step->draws, &indices);
    sel_status status = sel_take(&entry->column, &column, &out);
    sel_free(&column);
    return ends(step, "sel_take", status, wanted_status, &out, &wanted);
}

static bool step_slice(const struct step *step) {
    const struct entry *entry = any_entry(step);
    size_t start = draw(step->draws, entry->rows.len + 1), len = draw(step->draws, entry->rows.len - start + 1);
    struct argument part = part_of(step, entry, start, len);
    return ends(step, "sel_slice", SEL_OK, SEL_OK, &part.column, &part.rows);
}

static bool step_share(const struct step *step) {
    const struct entry *entry = any_entry(step);
    sel_column out = {0};
    sel_status status = sel_share(&entry->column, &out);
    struct rows wanted = model_slice(step->arena, &entry->rows, 0, entry->rows.len);
    return ends(step, "sel_share", status, SEL_OK, &out, &wanted);
}

static bool step_reverse(const struct step *step) {
    const struct entry *entry = any_entry(step);
    sel_column out = {0};
    struct rows wanted = model_reverse(step->arena, &entry->rows);
    return ends(step, "sel_reverse", sel_reverse(&entry->column, &out), SEL_OK, &out, &wanted);
}

static bool step_unit_list(const struct step *step) {
    const struct entry *entry = any_entry(step);
    sel_column out = {0};
    struct rows wanted = model_unit_lists(step->arena, &entry->rows);
    return ends(step, "sel_unit_list", sel_unit_list(&entry->column, &out), SEL_OK, &out, &wanted);
}

static bool step_parse(const struct step *step) {
    const struct entry *entry = any_entry(step);
    sel_column out = {0};
    const char *type = type_text(step->arena, entry->rows.type);
    size_t place = 0;
    sel_status status = sel_parse((const uint8_t *)type, strlen(type), (const uint8_t *)entry->rows.text, strlen(entry->rows.text), &place, &out);
    struct rows wanted = model_slice(step->arena, &entry->rows, 0, entry->rows.len);
    return ends(step, "sel_parse", status, SEL_OK, &out, &wanted);
}

static bool step_arrow(const struct step *step) {
    const struct entry *entry = any_entry(step);
    sel_column column = {0};
    sel_status status = sel_share(&entry->column, &column);
    bool is_right = status == SEL_OK ? check_through_arrow(&column, &entry->rows) : fail("sel_share: %s", status_text(step->arena, status));
    sel_free(&column);
    return is_right;
}

static bool step_equal(const struct step *step) {
    const struct entry *entry = any_entry(step), *other = like(step, entry);
    bool equal = false;
    sel_column again = draw_column(step->draws, &entry->rows);
    sel_status status = sel_equal_rows(&entry->column, &again, &equal);
    bool is_right = (status == SEL_OK && equal) || fail("sel_equal_rows of a column built again: %s", status_text(step->arena, status));
    status = sel_equal_rows(&again, &other->column, &equal);
    bool wanted = strcmp(entry->rows.text, other->rows.text) == 0;
    is_right = ((status == SEL_OK && equal == wanted)
        || fail("sel_equal_rows: expected %d, got %d, %s", wanted, equal, status_text(step->arena, status))) && is_right;
    sel_free(&again);
    return is_right;
}

/* ---- lists ---- */

/* Returns an index that most lists have, or few. */
static int64_t any_index(const struct step *step) {
    return draw_one_in(step->draws, 12) ? (int64_t)(draw_bits(step->draws) ^ UINT64_C(1) << 63) : (int64_t)draw(step->draws, 7) - 3;
}

static bool step_list_get(const struct step *step, const struct entry *lists) {
    int64_t index = any_index(step);
    bool found = false, wanted_found = false;
    sel_column out = {0};
    struct rows wanted = model_items(step->arena, &lists->rows, &index, true);
    for (size_t i = 0; i < lists->rows.len; i += 1) {
        wanted_found = wanted_found || model_is_out_of_bounds(&lists->rows.values[i], index);
    }
    sel_status status = sel_list_index_is_oob(&lists->column, index, &found);
    bool is_right = (status == SEL_OK && found == wanted_found)
        || fail("sel_list_index_is_oob at %" PRId64 ": expected %d, got %d, %s", index, wanted_found, found, status_text(step->arena, status));
    return ends(step, "sel_list_get", sel_list_get(&lists->column, index, &out), SEL_OK, &out, &wanted) && is_right;
}

static bool step_fixed_size_list_get(const struct step *step, const struct entry *lists) {
    bool null_on_oob = !draw_one_in(step->draws, 3), one_index = draw_one_in(step->draws, 2), is_error = false;
    size_t len = lists->rows.len;
    int64_t *indices = arena_take(step->arena, len + 1, sizeof *indices);
    for (size_t i = 0; i < len + 1; i += 1) {
        indices[i] = any_index(step);
    }
    for (size_t i = 0; i < len; i += 1) {
        is_error = is_error || (!null_on_oob && model_is_out_of_bounds(&lists->rows.values[i], indices[one_index ? 0 : i]));
    }
    struct rows wanted = model_items(step->arena, &lists->rows, indices, one_index);
    sel_column out = {0}, column = {0};
    sel_status status = sel_int64_new(indices, len, SEL_ALL_VALID, &column);
    if (status == SEL_OK && one_index) {
        status = sel_fixed_size_list_get(&lists->column, indices[0], null_on_oob, &out);
    } else if (status == SEL_OK) {
        status = sel_fixed_size_list_get_each(&lists->column, &column, null_on_oob, &out);
    }
    sel_free(&column);
    return ends(step, "sel_fixed_size_list_get", status, is_error ? SEL_ERROR_LIST_INDEX_OUT_OF_BOUNDS : SEL_OK, &out, &wanted);
}

static bool step_get(const struct step *step) {
    const struct entry *entry = any_entry(step);
    switch (entry->rows.type->kind) {
    case SEL_TYPE_LIST:
        return step_list_get(step, entry);
    case SEL_TYPE_FIXED_SIZE_LIST:
        return step_fixed_size_list_get(step, entry);
    default: {
        sel_column out = {0};
        struct rows none = {0};
        return ends(step, "sel_list_get", sel_list_get(&entry->column, 0, &out), SEL_ERROR_UNSUPPORTED_TYPE, &out, &none);
    }
    }
}

/* ---- several columns ---- */

/* Chooses between parts of two columns of one type; either may be one row. */
static bool step_choose(const struct step *step) {
    const struct entry *first = any_entry(step), *second = like(step, first);
    size_t shorter = first->rows.len < second->rows.len ? first->rows.len : second->rows.len;
    bool yes_is_broadcast = first->rows.len > 0 && draw_one_in(step->draws, 3);
    bool no_is_broadcast = second->rows.len > 0 && draw_one_in(step->draws, 3);
    size_t len = !yes_is_broadcast ? (no_is_broadcast ? first->rows.len : shorter) : no_is_broadcast ? draw(step->draws, 90) : second->rows.len;
    struct argument yes = yes_is_broadcast ? part_of(step, first, draw(step->draws, first->rows.len), 1) : part_of(step, first, 0, len);
    struct argument no = no_is_broadcast ? part_of(step, second, draw(step->draws, second->rows.len), 1) : part_of(step, second, 0, len);
    struct argument mask = column_of(step, draw_mask(step->draws, step->arena, len, nulls_by_chance(step)));
    struct rows wanted = model_choose(step->arena, &mask.rows, &yes.rows, &no.rows, yes_is_broadcast, no_is_broadcast);
    sel_column out = {0};
    sel_status (*const calls[])(const sel_column *, const sel_column *, const sel_column *, sel_column *) = {
        sel_if_then_else, sel_if_then_else_broadcast_true, sel_if_then_else_broadcast_false, sel_if_then_else_broadcast_both};
    sel_status status = calls[yes_is_broadcast + 2 * no_is_broadcast](&mask.column, &yes.column, &no.column, &out);
    sel_free(&mask.column);
    sel_free(&yes.column);
    sel_free(&no.column);
    return ends(step, "sel_if_then_else", status, SEL_OK, &out, &wanted);
}

/* Puts parts of columns of one type next to each other; a part of `width` rows is repeated. */
static bool step_flatten(const struct step *step) {
    enum { MOST = 3 };
    const struct entry *first = any_entry(step);
    size_t count = 1 + draw(step->draws, MOST), height = draw(step->draws, 9), widths[MOST];
    sel_column columns[MOST] = {{0}}, out = {0};
    struct argument parts[MOST];
    struct listing rows = {.arena = step->arena};
    for (size_t i = 0; i < count; i += 1) {
        const struct entry *entry = i == 0 ? first : like(step, first);
        size_t most = height == 0 ? 3 : entry->rows.len / height;
        bool is_repeated = most == 0 || draw_one_in(step->draws, 4);
        widths[i] = is_repeated ? 1 : 1 + draw(step->draws, most < 3 ? most : 3);
        size_t len = is_repeated ? widths[i] : widths[i] * height;
        if (len > entry->rows.len) {
            for (size_t k = 0; k < i; k += 1) {
                sel_free(&columns[k]);
            }
            return true;
        }
        parts[i] = part_of(step, entry, draw(step->draws, entry->rows.len - len + 1), len);
        columns[i] = parts[i].column;
    }
    for (size_t row = 0; row < height; row += 1) {
        for (size_t i = 0; i < count; i += 1) {
            size_t start = parts[i].rows.len == widths[i] ? 0 : row * widths[i];
            for (size_t k = 0; k < widths[i]; k += 1) {
                list_value(&rows, &parts[i].rows.values[start + k]);
            }
        }
    }
    struct rows wanted = listed_rows(&rows, first->rows.type);
    sel_status status = sel_flatten(columns, count, widths, count, height, &out);
    for (size_t i = 0; i < count; i += 1) {
        sel_free(&columns[i]);
    }
    return ends(step, "sel_flatten", status, SEL_OK, &out, &wanted);
}

static bool step_collect_rows(const struct step *step) {
    enum { MOST = 3 };
    const struct entry *first = any_entry(step), *entries[MOST];
    size_t count = 1 + draw(step->draws, MOST), len = draw_len(step->draws, first->rows.type);
    sel_column columns[MOST] = {{0}}, out = {0};
    sel_row_ref *picks = arena_take(step->arena, len, sizeof *picks);
    uint8_t *bits = arena_take(step->arena, (len + 7) / 8, 1);
    struct listing rows = {.arena = step->arena};
    sel_status status = SEL_OK;
    for (size_t i = 0; i < count; i += 1) {
        entries[i] = i == 0 ? first : like(step, first);
        if (status == SEL_OK) {
            status = sel_share(&entries[i]->column, &columns[i]);
        }
    }
    for (size_t i = 0; i < len; i += 1) {
        size_t source = draw(step->draws, count), row = draw(step->draws, entries[source]->rows.len);
        bool is_null = entries[source]->rows.len == 0 || draw_one_in(step->draws, 6);
        picks[i] = (sel_row_ref){(uint32_t)source, (uint32_t)row};
        bits[i / 8] |= (uint8_t)(!is_null << (i % 8));
        list_value(&rows, is_null ? NULL : &entries[source]->rows.values[row]);
    }
    struct rows wanted = listed_rows(&rows, first->rows.type);
    if (status == SEL_OK) {
        status = sel_collect_rows(columns, count, picks, len, bits, (len + 7) / 8, true, &out);
    }
    for (size_t i = 0; i < count; i += 1) {
        sel_free(&columns[i]);
    }
    return ends(step, "sel_collect_rows", status, SEL_OK, &out, &wanted);
}

static bool step_dictionary(const struct step *step) {
    const struct type *string = leaf_type(SEL_TYPE_STRING_VIEW), *index = leaf_type(SEL_TYPE_UINT32);
    struct argument values = column_of(step, draw_rows(step->draws, step->arena, string, draw(step->draws, 12), 3));
    struct argument keys = column_of(step, draw_indices(step->draws, step->arena, draw(step->draws, 70), values.rows.len, nulls_by_chance(step)));
    struct listing kept = {.arena = step->arena}, renumbered = {.arena = step->arena};
    struct value *numbers = arena_take(step->arena, values.rows.len, sizeof *numbers);
    for (size_t i = 0; i < values.rows.len; i += 1) {
        char *text = arena_take(step->arena, 24, 1);
        numbers[i] = (struct value){.low = kept.len, .text = text, .text_len = (size_t)snprintf(text, 24, "%zu", kept.len)};
        if (!values.rows.values[i].is_null) {
            list_value(&kept, &values.rows.values[i]);
        }
    }
    for (size_t i = 0; i < keys.rows.len; i += 1) {
        const struct value *key = &keys.rows.values[i];
        bool is_null = key->is_null || values.rows.values[key->low].is_null;
        list_value(&renumbered, is_null ? NULL : &numbers[key->low]);
    }
    struct rows wanted_keys = listed_rows(&renumbered, index), wanted_values = listed_rows(&kept, string);
    sel_column new_keys = {0}, new_values = {0};
    sel_status status = sel_propagate_dictionary(&keys.column, &values.column, &new_keys, &new_values);
    bool is_right = status != SEL_OK || check_column(&new_values, &wanted_values, "the values of sel_propagate_dictionary");
    sel_free(&new_values);
    sel_free(&keys.column);
    sel_free(&values.column);
    return ends(step, "sel_propagate_dictionary", status, SEL_OK, &new_keys, &wanted_keys) && is_right;
}

/* ---- columns with children ---- */

/* Returns a validity of `len` rows and its bits, or NULL for none. */
static bool *any_validity(const struct step *step, size_t len, uint8_t *bits) {
    if (draw_one_in(step->draws, 2)) {
        return NULL;
    }
    bool *valid = arena_take(step->arena, len, sizeof *valid);
    for (size_t i = 0; i < len; i += 1) {
        valid[i] = !draw_one_in(step->draws, 4);
        bits[i / 8] |= (uint8_t)(valid[i] << (i % 8));
    }
    return valid;
}

static bool step_list_new(const struct step *step) {
    const struct entry *entry = any_entry(step);
    size_t len = draw(step->draws, 20), items = entry->rows.len;
    bool is_fixed = draw_one_in(step->draws, 3);
    size_t size = is_fixed ? draw(step->draws, 4) : 0;
    len = is_fixed && size > 0 ? items / size : len;
    int64_t *offsets = arena_take(step->arena, len + 1, sizeof *offsets);
    offsets[0] = (int64_t)draw(step->draws, items + 1);
    for (size_t i = 0; i < len; i += 1) {
        size_t left = items - (size_t)offsets[i];
        offsets[i + 1] = offsets[i] + (int64_t)draw(step->draws, left < 5 ? left + 1 : 5);
    }
    uint8_t *bits = arena_take(step->arena, (len + 7) / 8, 1);
    bool *valid = any_validity(step, len, bits);
    struct argument child = part_of(step, entry, 0, is_fixed ? len * size : items);
    const struct type *type = list_type(step->arena, is_fixed ? SEL_TYPE_FIXED_SIZE_LIST : SEL_TYPE_LIST, size, entry->rows.type);
    struct rows wanted = model_lists(step->arena, type, &child.rows, is_fixed ? NULL : offsets, valid, len);
    sel_column out = {0};
    sel_status status = is_fixed ? sel_fixed_size_list_new(size, len, bits, (len + 7) / 8, valid != NULL, &child.column, &out)
                                 : sel_list_new(offsets, len + 1, bits, (len + 7) / 8, valid != NULL, &child.column, &out);
    sel_free(&child.column);
    return ends(step, is_fixed ? "sel_fixed_size_list_new" : "sel_list_new", status, SEL_OK, &out, &wanted);
}

static bool step_struct_new(const struct step *step) {
    const struct entry *entries[2] = {any_entry(step), any_entry(step)};
    size_t len = entries[0]->rows.len < entries[1]->rows.len ? entries[0]->rows.len : entries[1]->rows.len;
    uint8_t *bits = arena_take(step->arena, (len + 7) / 8, 1);
    bool *valid = any_validity(step, len, bits);
    struct argument parts[2] = {part_of(step, entries[0], 0, len), part_of(step, entries[1], entries[1]->rows.len - len, len)};
    struct rows fields[2] = {parts[0].rows, parts[1].rows}, wanted = model_structs(step->arena, fields, 2, valid, len);
    sel_column columns[2] = {parts[0].column, parts[1].column}, out = {0};
    sel_status status = sel_struct_new(len, bits, (len + 7) / 8, valid != NULL, columns, 2, &out);
    sel_free(&columns[0]);
    sel_free(&columns[1]);
    return ends(step, "sel_struct_new", status, SEL_OK, &out, &wanted);
}

/* ---- the pool ---- */

static size_t levels_of(const struct type *type) {
    size_t deepest = 0;
    for (size_t i = 0; i < type->count; i += 1) {
        size_t levels = levels_of(&type->children[i]);
        deepest = levels > deepest ? levels : deepest;
    }
    return deepest + 1;
}

void pool_fill(struct pool *pool, struct draws *draws) {
    const struct type *type = draw_type(draws, &pool->arena, draw(draws, 4));
    pool->count = 2 + draw(draws, 3);
    for (size_t i = 0; i < pool->count; i += 1) {
        size_t nulls = draw_one_in(draws, 3) ? 0 : 2 + draw(draws, 8);
        struct rows rows = draw_rows(draws, &pool->arena, type, draw_len(draws, type), nulls);
        pool->entries[i] = (struct entry){draw_column(draws, &rows), rows};
    }
}

bool pool_step(const struct pool *pool, struct arena *arena, struct draws *draws, struct entry *made) {
    static bool (*const steps[])(const struct step *) = {
        step_filter, step_take, step_choose, step_collect_rows, step_flatten, step_get, step_filter, step_take, step_choose,
        step_slice, step_list_new, step_struct_new, step_unit_list, step_dictionary, step_equal, step_parse, step_arrow, step_share,
        step_reverse,
    };
    struct step step = {pool, arena, draws, made};
    return steps[draw(draws, sizeof steps / sizeof steps[0])](&step);
}

/* Tests whether a column has many data buffers at some level: kernels that combine columns add up those of all arguments. */
static bool has_many_buffers(const sel_column *column) {
    sel_type_id type = sel_type_of(column);
    bool is_struct = type == SEL_TYPE_STRUCT;
    size_t count = 0;
    if (type == SEL_TYPE_BINARY_VIEW || type == SEL_TYPE_STRING_VIEW) {
        return sel_buffer_count(column, &count) == SEL_OK && count > MOST_BUFFERS;
    }
    if (is_struct && sel_field_count(column, &count) != SEL_OK) {
        return true;
    }
    bool has_many = false;
    for (size_t i = 0; i < (is_struct ? count : type == SEL_TYPE_LIST || type == SEL_TYPE_FIXED_SIZE_LIST); i += 1) {
        sel_column child = {0};
        sel_status status = is_struct ? sel_field(column, i, &child) : sel_child(column, &child);
        has_many = has_many || status != SEL_OK || has_many_buffers(&child);
        sel_free(&child);
    }
    return has_many;
}

void pool_put(struct pool *pool, struct draws *draws, const struct entry *made) {
    if (levels_of(made->rows.type) > MOST_LEVELS || has_many_buffers(&made->column)) {
        sel_column column = made->column;
        sel_free(&column);
        return;
    }
    size_t place = draw(draws, pool->count < POOL_SIZE ? pool->count + 1 : POOL_SIZE);
    if (place == pool->count) {
        pool->count += 1;
    } else {
        sel_free(&pool->entries[place].column);
    }
    pool->entries[place] = *made;
}

bool pool_check(struct pool *pool) {
    bool is_right = true;
    for (size_t i = 0; i < pool->count; i += 1) {
        is_right = check_column(&pool->entries[i].column, &pool->entries[i].rows, "a column of the pool") && is_right;
    }
    return is_right;
}

void pool_end(struct pool *pool) {
    for (size_t i = 0; i < pool->count; i += 1) {
        sel_free(&pool->entries[i].column);
    }
    /* while many buffers are lent, not each call of sel_free looks for those that nothing uses any more */
    sel_sweep();
    arena_free(&pool->arena);
    *pool = (struct pool){0};
}
