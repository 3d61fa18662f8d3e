#include "layout.h"

#include <string.h>

const struct layout layouts[LAYOUT_COUNT] = {
    {"plain", 0, true}, {"1", 1, false}, {"7", 7, false}, {"8", 8, true}, {"63", 63, true}, {"64", 64, false},
};

enum { ROWS_BEHIND = 3, MOST_ITEMS = 1000 };

/* What is being built: its memory, and how it is laid out. */
struct builder {
    struct arena arena;
    const struct layout *layout;
};

/* The rows of one level: the value of each slot, and which of them are null. */
struct slots {
    const struct type *type;
    size_t len;
    const struct value **values;
    uint8_t *bits;
    size_t bits_len;
    bool has_bits;
};

#define VALIDITY(slots) (slots)->bits, (slots)->bits_len, (slots)->has_bits

bool is_only_plain(const struct type *type) {
    if (type->kind == SEL_TYPE_FIXED_SIZE_LIST && type->list_size > MOST_ITEMS) {
        return true;
    }
    for (size_t i = 0; i < type->count; i += 1) {
        if (is_only_plain(&type->children[i])) {
            return true;
        }
    }
    return false;
}

static bool is_plain(const struct builder *builder) {
    return builder->layout->offset == 0;
}

/* ---- values that no line has ---- */

static const struct value *value_at(struct builder *builder, const struct type *type, size_t seed, size_t depth);

/* Returns items that no line has, of one type if `step` is 0, else of one type each. */
static const struct value *items_at(struct builder *builder, const struct type *types, size_t step, size_t len, size_t seed, size_t depth) {
    struct value *items = arena_take(&builder->arena, len, sizeof *items);
    for (size_t i = 0; i < len; i += 1) {
        items[i] = *value_at(builder, &types[step * i], seed + i, depth);
    }
    return items;
}

/* Sets the bytes of one of four strings: of none, of few, of 12 and of more bytes than a view has room for. */
static void other_bytes(struct value *out, size_t seed) {
    static const char *const texts[] = {"~few", "~more than twelve bytes", "~twelve byte", ""};
    out->bytes = (const uint8_t *)texts[seed % 4];
    out->len = strlen(texts[seed % 4]);
}

/* Returns the same for an item at a depth. Lists of lists of lists have one item each, so that deep ones do not become too
 * many. */
static const struct value *value_at(struct builder *builder, const struct type *type, size_t seed, size_t depth) {
    struct value *value = arena_take(&builder->arena, 1, sizeof *value);
    switch (type->kind) {
    case SEL_TYPE_NULL:
        value->is_null = true;
        break;
    case SEL_TYPE_BOOLEAN:
        value->low = 1;
        break;
    case SEL_TYPE_BINARY:
    case SEL_TYPE_BINARY_VIEW:
    case SEL_TYPE_STRING_VIEW:
        other_bytes(value, seed);
        break;
    case SEL_TYPE_LIST:
        value->len = is_only_plain(type) ? 0 : depth < 2 ? 1 + seed % 3 : 1;
        value->items = items_at(builder, type->children, 0, value->len, seed, depth + 1);
        break;
    case SEL_TYPE_FIXED_SIZE_LIST:
        value->len = type->list_size;
        value->items = type->children->kind == SEL_TYPE_NULL ? NULL : items_at(builder, type->children, 0, value->len, seed, depth + 1);
        break;
    case SEL_TYPE_STRUCT:
        value->len = type->count;
        value->items = items_at(builder, type->children, 1, value->len, seed, depth + 1);
        break;
    default:
        value->low = 0x5a5a5a5a5a5a5a5aU + seed % 32;
        value->high = 0x5a5a;
    }
    return value;
}

/* Returns a value of the type that is not null, but in a column of nulls, and that no line has. */
static const struct value *other_value(struct builder *builder, const struct type *type, size_t seed) {
    return value_at(builder, type, seed, 0);
}

/* Returns what lies in the slot of a null. */
static const struct value *null_slot(struct builder *builder, const struct type *type, size_t seed) {
    static const struct value not_utf8 = {.bytes = (const uint8_t *)"\xff\xfe", .len = 2};
    return type->kind == SEL_TYPE_STRING_VIEW && seed % 2 == 0 ? &not_utf8 : other_value(builder, type, seed);
}

/* Returns a row before or behind the rows of a slice: null, if the layout allows it, or another value. */
static const struct value *padding(struct builder *builder, const struct type *type, size_t place) {
    static const struct value nothing = {.is_null = true};
    return place % 3 == 1 && !builder->layout->is_bare ? &nothing : other_value(builder, type, place);
}

/* ---- leaves ---- */

#define NUMBERS(number, make)                                                                           \
    do {                                                                                                \
        number *numbers = arena_take(&builder->arena, slots->len, sizeof *numbers);                     \
        for (size_t i = 0; i < slots->len; i += 1) {                                                    \
            numbers[i] = (number)slots->values[i]->low;                                                 \
        }                                                                                               \
        return make(numbers, slots->len, VALIDITY(slots), out);                                         \
    } while (0)

static sel_status build_wide_numbers(struct builder *builder, const struct slots *slots, sel_column *out) {
    sel_int128 *numbers = arena_take(&builder->arena, slots->len, sizeof *numbers);
    for (size_t i = 0; i < slots->len; i += 1) {
        numbers[i] = (sel_int128){slots->values[i]->low, slots->values[i]->high};
    }
    bool is_signed = slots->type->kind == SEL_TYPE_INT128;
    return (is_signed ? sel_int128_new : sel_uint128_new)(numbers, slots->len, VALIDITY(slots), out);
}

static sel_status build_numbers(struct builder *builder, const struct slots *slots, sel_column *out) {
    switch (slots->type->kind) {
    case SEL_TYPE_INT8: NUMBERS(int8_t, sel_int8_new);
    case SEL_TYPE_INT16: NUMBERS(int16_t, sel_int16_new);
    case SEL_TYPE_INT32: NUMBERS(int32_t, sel_int32_new);
    case SEL_TYPE_INT64: NUMBERS(int64_t, sel_int64_new);
    case SEL_TYPE_UINT8: NUMBERS(uint8_t, sel_uint8_new);
    case SEL_TYPE_UINT16: NUMBERS(uint16_t, sel_uint16_new);
    case SEL_TYPE_UINT32: NUMBERS(uint32_t, sel_uint32_new);
    case SEL_TYPE_UINT64: NUMBERS(uint64_t, sel_uint64_new);
    default: return build_wide_numbers(builder, slots, out);
    }
}

/* Returns room for so many bits, all of them set, those past the last one too. */
static uint8_t *set_bits(struct arena *arena, size_t len) {
    uint8_t *bits = arena_take(arena, (len + 7) / 8, 1);
    memset(bits, 0xff, (len + 7) / 8);
    return bits;
}

static void clear_bit(uint8_t *bits, size_t place) {
    bits[place / 8] &= (uint8_t)~(1U << (place % 8));
}

uint8_t *packed_bits(struct arena *arena, const struct value *booleans, size_t len) {
    uint8_t *bits = set_bits(arena, len);
    for (size_t i = 0; i < len; i += 1) {
        if (booleans[i].low == 0) {
            clear_bit(bits, i);
        }
    }
    return bits;
}

static sel_status build_booleans(struct builder *builder, const struct slots *slots, sel_column *out) {
    uint8_t *bits = set_bits(&builder->arena, slots->len);
    for (size_t i = 0; i < slots->len; i += 1) {
        if (slots->values[i]->low == 0) {
            clear_bit(bits, i);
        }
    }
    return sel_boolean_new(bits, (slots->len + 7) / 8, slots->len, VALIDITY(slots), out);
}

/* Bytes that are appended. */
struct bytes {
    uint8_t *at;
    size_t len;
};

static void append(struct bytes *bytes, const void *more, size_t len) {
    if (len > 0) {
        memcpy(bytes->at + bytes->len, more, len);
    }
    bytes->len += len;
}

/* Returns room for the bytes of all slots, and for a few more. */
static struct bytes room_for(struct builder *builder, const struct slots *slots) {
    size_t room = 8;
    for (size_t i = 0; i < slots->len; i += 1) {
        room += slots->values[i]->len;
    }
    return (struct bytes){arena_take(&builder->arena, room, 1), 0};
}

static sel_status build_binary(struct builder *builder, const struct slots *slots, sel_column *out) {
    struct bytes bytes = room_for(builder, slots);
    int64_t *offsets = arena_take(&builder->arena, slots->len + 1, sizeof *offsets);
    append(&bytes, "before", is_plain(builder) ? 0 : 3);
    for (size_t i = 0; i < slots->len; i += 1) {
        offsets[i] = (int64_t)bytes.len;
        append(&bytes, slots->values[i]->bytes, slots->values[i]->len);
    }
    offsets[slots->len] = (int64_t)bytes.len;
    append(&bytes, "behind", is_plain(builder) ? 0 : 2);
    return sel_binary_new(offsets, slots->len + 1, bytes.at, bytes.len, VALIDITY(slots), out);
}

/* Returns the view of bytes, which are appended to a buffer if they are more than 12. Other layouts than the plain one have
 * something behind the bytes of a short view. */
static sel_view view_of(const struct builder *builder, const struct value *value, uint32_t place, struct bytes *buffer) {
    uint32_t words[3] = {0, 0, 0};
    if (value->len > 12) {
        memcpy(words, value->bytes, 4);
        words[1] = place;
        words[2] = (uint32_t)buffer->len;
        append(buffer, value->bytes, value->len);
    } else {
        memset(words, is_plain(builder) ? 0 : 0x7e, sizeof words);
        memcpy(words, value->bytes == NULL ? (const uint8_t *)"" : value->bytes, value->len);
    }
    return (sel_view){(uint32_t)value->len, words[0], words[1], words[2]};
}

/* Builds a column of views: over one buffer, or over three that begin with other bytes, of which two have the long values in
 * turn. */
static sel_status build_views(struct builder *builder, const struct slots *slots, sel_column *out) {
    size_t count = is_plain(builder) ? 1 : 3;
    sel_view *views = arena_take(&builder->arena, slots->len, sizeof *views);
    struct bytes buffers[3];
    sel_bytes_ref slices[3];
    for (size_t i = 0; i < count; i += 1) {
        buffers[i] = room_for(builder, slots);
        append(&buffers[i], "other", is_plain(builder) ? 0 : i + 1);
    }
    for (size_t i = 0; i < slots->len; i += 1) {
        size_t place = count == 1 ? 0 : 1 + i % 2;
        views[i] = view_of(builder, slots->values[i], (uint32_t)place, &buffers[place]);
    }
    for (size_t i = 0; i < count; i += 1) {
        slices[i] = (sel_bytes_ref){buffers[i].at, buffers[i].len};
    }
    bool is_string = slots->type->kind == SEL_TYPE_STRING_VIEW;
    return (is_string ? sel_string_view_new : sel_binary_view_new)(views, slots->len, slices, count, VALIDITY(slots), out);
}

/* ---- columns with children ---- */

static sel_status build(struct builder *, const struct type *, const struct value *const *rows, size_t len, sel_column *out);

/* Builds the child of these items, or of nothing but nulls. */
static sel_status build_child(struct builder *builder, const struct type *type, const struct value **items, size_t len, sel_column *out) {
    return type->kind == SEL_TYPE_NULL ? sel_null_new(len, out) : build(builder, type, items, len, out);
}

/* Lists: other layouts than the plain one have two items before the first list, and one behind the last. */
static sel_status build_lists(struct builder *builder, const struct slots *slots, sel_column *out) {
    const struct type *item = slots->type->children;
    size_t before = is_plain(builder) ? 0 : 2, behind = before / 2, len = before + behind;
    int64_t *offsets = arena_take(&builder->arena, slots->len + 1, sizeof *offsets);
    sel_column child = {0};
    for (size_t i = 0; i < slots->len; i += 1) {
        len += slots->values[i]->len;
    }
    const struct value **items = arena_take(&builder->arena, len, sizeof *items);
    len = 0;
    for (; len < before; len += 1) {
        items[len] = padding(builder, item, len);
    }
    for (size_t i = 0; i < slots->len; i += 1) {
        offsets[i] = (int64_t)len;
        for (size_t k = 0; k < slots->values[i]->len; k += 1, len += 1) {
            items[len] = &slots->values[i]->items[k];
        }
    }
    offsets[slots->len] = (int64_t)len;
    for (size_t k = 0; k < behind; k += 1, len += 1) {
        items[len] = padding(builder, item, k);
    }
    sel_status status = build_child(builder, item, items, len, &child);
    if (status == SEL_OK) {
        status = sel_list_new(offsets, slots->len + 1, VALIDITY(slots), &child, out);
    }
    sel_free(&child);
    return status;
}

static sel_status build_fixed_size_lists(struct builder *builder, const struct slots *slots, sel_column *out) {
    const struct type *item = slots->type->children;
    size_t size = slots->type->list_size, count = item->kind == SEL_TYPE_NULL ? 0 : slots->len * size;
    const struct value **items = arena_take(&builder->arena, count, sizeof *items);
    sel_column child = {0};
    for (size_t i = 0; i < count; i += 1) {
        items[i] = &slots->values[i / size]->items[i % size];
    }
    sel_status status = build_child(builder, item, items, slots->len * size, &child);
    if (status == SEL_OK) {
        status = sel_fixed_size_list_new(size, slots->len, VALIDITY(slots), &child, out);
    }
    sel_free(&child);
    return status;
}

static sel_status build_structs(struct builder *builder, const struct slots *slots, sel_column *out) {
    size_t count = slots->type->count;
    const struct value **items = arena_take(&builder->arena, slots->len, sizeof *items);
    sel_column *fields = arena_take(&builder->arena, count, sizeof *fields);
    sel_status status = SEL_OK;
    for (size_t field = 0; field < count && status == SEL_OK; field += 1) {
        for (size_t i = 0; i < slots->len; i += 1) {
            items[i] = &slots->values[i]->items[field];
        }
        status = build(builder, &slots->type->children[field], items, slots->len, &fields[field]);
    }
    if (status == SEL_OK) {
        status = sel_struct_new(slots->len, VALIDITY(slots), fields, count, out);
    }
    for (size_t field = 0; field < count; field += 1) {
        sel_free(&fields[field]);
    }
    return status;
}

/* ---- columns of any type ---- */

static sel_status build_slots(struct builder *builder, const struct slots *slots, sel_column *out) {
    switch (slots->type->kind) {
    case SEL_TYPE_NULL:
        return sel_null_new(slots->len, out);
    case SEL_TYPE_BOOLEAN:
        return build_booleans(builder, slots, out);
    case SEL_TYPE_BINARY:
        return build_binary(builder, slots, out);
    case SEL_TYPE_BINARY_VIEW:
    case SEL_TYPE_STRING_VIEW:
        return build_views(builder, slots, out);
    case SEL_TYPE_LIST:
        return build_lists(builder, slots, out);
    case SEL_TYPE_FIXED_SIZE_LIST:
        return build_fixed_size_lists(builder, slots, out);
    case SEL_TYPE_STRUCT:
        return build_structs(builder, slots, out);
    default:
        return build_numbers(builder, slots, out);
    }
}

/* Builds the column of rows, with no other rows before or behind them. A validity is given if a row is null, and always in
 * layouts that are not bare. */
static sel_status build_whole(struct builder *builder, const struct type *type, const struct value *const *rows, size_t len, sel_column *out) {
    struct slots slots = {
        type, len, arena_take(&builder->arena, len, sizeof *slots.values), set_bits(&builder->arena, len), (len + 7) / 8,
        !builder->layout->is_bare,
    };
    for (size_t i = 0; i < len; i += 1) {
        slots.values[i] = rows[i];
        if (rows[i]->is_null) {
            slots.values[i] = null_slot(builder, type, i);
            slots.has_bits = true;
            clear_bit(slots.bits, i);
        }
    }
    return build_slots(builder, &slots, out);
}

/* Builds the column of rows as a slice of one with other rows before and behind them, as the layout says. */
static sel_status build(struct builder *builder, const struct type *type, const struct value *const *rows, size_t len, sel_column *out) {
    size_t offset = builder->layout->offset, whole_len = offset + len + ROWS_BEHIND;
    if (is_plain(builder)) {
        return build_whole(builder, type, rows, len, out);
    }
    const struct value **all = arena_take(&builder->arena, whole_len, sizeof *all);
    sel_column whole = {0};
    for (size_t i = 0; i < whole_len; i += 1) {
        all[i] = i < offset || i >= offset + len ? padding(builder, type, i) : rows[i - offset];
    }
    sel_status status = build_whole(builder, type, all, whole_len, &whole);
    if (status == SEL_OK) {
        status = sel_slice(&whole, offset, len, out);
    }
    sel_free(&whole);
    return status;
}

sel_status build_column(const struct layout *layout, const struct rows *rows, sel_column *out) {
    struct builder builder = {{NULL}, is_only_plain(rows->type) ? &layouts[0] : layout};
    const struct value **values = arena_take(&builder.arena, rows->len, sizeof *values);
    for (size_t i = 0; i < rows->len; i += 1) {
        values[i] = &rows->values[i];
    }
    sel_status status = build(&builder, rows->type, values, rows->len, out);
    arena_free(&builder.arena);
    return status;
}
