#include "model.h"

#include <string.h>

static const struct value null_value = {.is_null = true, .text = "null", .text_len = 4};

void list_value(struct listing *listing, const struct value *value) {
    if (listing->len == listing->room) {
        listing->room = 2 * listing->room + 8;
        struct value *moved = arena_take(listing->arena, listing->room, sizeof *moved);
        if (listing->len > 0) {
            memcpy(moved, listing->values, listing->len * sizeof *moved);
        }
        listing->values = moved;
    }
    listing->values[listing->len] = value == NULL ? null_value : *value;
    listing->len += 1;
}

/* Returns the texts of values between brackets. */
static char *joined(struct arena *arena, const struct value *values, size_t len, const char *brackets) {
    size_t room = 3 + len;
    for (size_t i = 0; i < len; i += 1) {
        room += values[i].text_len;
    }
    char *text = arena_take(arena, room, 1), *at = text;
    *at++ = brackets[0];
    for (size_t i = 0; i < len; i += 1) {
        if (i > 0) {
            *at++ = ',';
        }
        memcpy(at, values[i].text, values[i].text_len);
        at += values[i].text_len;
    }
    *at = brackets[1];
    return text;
}

struct rows listed_rows(const struct listing *listing, const struct type *type) {
    return (struct rows){type, listing->len, listing->values, joined(listing->arena, listing->values, listing->len, "[]")};
}

bool is_true(const struct value *value) {
    return !value->is_null && value->low == 1;
}

struct rows model_slice(struct arena *arena, const struct rows *rows, size_t start, size_t len) {
    struct listing out = {.arena = arena};
    for (size_t i = start; i < start + len; i += 1) {
        list_value(&out, &rows->values[i]);
    }
    return listed_rows(&out, rows->type);
}

struct rows model_filter(struct arena *arena, const struct rows *rows, const struct rows *mask) {
    struct listing out = {.arena = arena};
    for (size_t i = 0; i < rows->len; i += 1) {
        if (is_true(&mask->values[i])) {
            list_value(&out, &rows->values[i]);
        }
    }
    return listed_rows(&out, rows->type);
}

struct rows model_take(struct arena *arena, const struct rows *rows, const struct rows *indices) {
    struct listing out = {.arena = arena};
    for (size_t i = 0; i < indices->len; i += 1) {
        const struct value *index = &indices->values[i];
        list_value(&out, index->is_null ? NULL : &rows->values[index->low]);
    }
    return listed_rows(&out, rows->type);
}

struct rows model_reverse(struct arena *arena, const struct rows *rows) {
    struct listing out = {.arena = arena};
    for (size_t i = rows->len; i > 0; i -= 1) {
        list_value(&out, &rows->values[i - 1]);
    }
    return listed_rows(&out, rows->type);
}

struct rows model_choose(struct arena *arena, const struct rows *mask, const struct rows *yes, const struct rows *no, bool yes_is_broadcast, bool no_is_broadcast) {
    struct listing out = {.arena = arena};
    for (size_t i = 0; i < mask->len; i += 1) {
        list_value(&out, is_true(&mask->values[i]) ? &yes->values[yes_is_broadcast ? 0 : i] : &no->values[no_is_broadcast ? 0 : i]);
    }
    return listed_rows(&out, yes->type);
}

/* Returns the item of a list at an index, NULL if there is none. */
static const struct value *item_at(const struct value *list, int64_t index) {
    uint64_t from_end = index < 0 ? (uint64_t)-(index + 1) + 1 : 0;
    if (list->is_null || (index < 0 ? from_end > list->len : (uint64_t)index >= list->len)) {
        return NULL;
    }
    return &list->items[index < 0 ? list->len - from_end : (uint64_t)index];
}

bool model_is_out_of_bounds(const struct value *list, int64_t index) {
    return !list->is_null && item_at(list, index) == NULL;
}

struct rows model_items(struct arena *arena, const struct rows *lists, const int64_t *indices, bool one_index) {
    struct listing out = {.arena = arena};
    for (size_t i = 0; i < lists->len; i += 1) {
        list_value(&out, item_at(&lists->values[i], indices[one_index ? 0 : i]));
    }
    return listed_rows(&out, lists->type->children);
}

/* Returns the list or struct of these items. */
static struct value value_of_items(struct arena *arena, const struct value *items, size_t len, const char *brackets) {
    char *text = joined(arena, items, len, brackets);
    return (struct value){.len = len, .items = items, .text = text, .text_len = strlen(text)};
}

struct rows model_unit_lists(struct arena *arena, const struct rows *rows) {
    struct listing out = {.arena = arena};
    for (size_t i = 0; i < rows->len; i += 1) {
        struct value list = value_of_items(arena, &rows->values[i], 1, "[]");
        list_value(&out, &list);
    }
    return listed_rows(&out, list_type(arena, SEL_TYPE_LIST, 0, rows->type));
}

struct rows model_lists(struct arena *arena, const struct type *type, const struct rows *items, const int64_t *offsets, const bool *valid, size_t len) {
    struct listing out = {.arena = arena};
    for (size_t i = 0; i < len; i += 1) {
        size_t start = offsets == NULL ? i * type->list_size : (size_t)offsets[i];
        size_t count = offsets == NULL ? type->list_size : (size_t)(offsets[i + 1] - offsets[i]);
        struct value list = value_of_items(arena, count == 0 ? NULL : &items->values[start], count, "[]");
        list_value(&out, valid == NULL || valid[i] ? &list : NULL);
    }
    return listed_rows(&out, type);
}

struct rows model_structs(struct arena *arena, const struct rows *fields, size_t count, const bool *valid, size_t len) {
    struct listing out = {.arena = arena};
    struct type *type = arena_take(arena, 1, sizeof *type), *children = arena_take(arena, count, sizeof *children);
    for (size_t field = 0; field < count; field += 1) {
        children[field] = *fields[field].type;
    }
    *type = (struct type){SEL_TYPE_STRUCT, 0, count, children};
    for (size_t i = 0; i < len; i += 1) {
        struct value *items = arena_take(arena, count, sizeof *items);
        for (size_t field = 0; field < count; field += 1) {
            items[field] = fields[field].values[i];
        }
        struct value row = value_of_items(arena, items, count, "()");
        list_value(&out, valid == NULL || valid[i] ? &row : NULL);
    }
    return listed_rows(&out, type);
}
