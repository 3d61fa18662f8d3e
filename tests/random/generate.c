#include "generate.h"

#include "../layout.h"

#include <inttypes.h>
#include <stdio.h>
#include <stdlib.h>
#include <string.h>

/* A text that grows. */
struct text {
    struct arena *arena;
    char *at;
    size_t len, room;
};

static void append(struct text *text, const char *more, size_t len) {
    if (text->len + len + 1 > text->room) {
        text->room = 2 * (text->len + len + 1);
        char *moved = arena_take(text->arena, text->room, 1);
        if (text->len > 0) {
            memcpy(moved, text->at, text->len);
        }
        text->at = moved;
    }
    memcpy(text->at + text->len, more, len);
    text->len += len;
    text->at[text->len] = 0;
}

static void append_word(struct text *text, const char *word) {
    append(text, word, strlen(word));
}

/* ---- types ---- */

const struct type *draw_type(struct draws *draws, struct arena *arena, size_t levels) {
    size_t kind = draw(draws, levels == 0 ? (size_t)SEL_TYPE_LIST : (size_t)SEL_TYPE_NONE);
    struct type *type = arena_take(arena, 1, sizeof *type), *children;
    *type = (struct type){(sel_type_id)kind, 0, 0, NULL};
    if (kind < SEL_TYPE_LIST) {
        return type;
    }
    type->count = kind == SEL_TYPE_STRUCT ? draw(draws, 4) : 1;
    type->list_size = kind == SEL_TYPE_FIXED_SIZE_LIST ? draw(draws, 4) : 0;
    type->children = children = arena_take(arena, type->count, sizeof *children);
    for (size_t i = 0; i < type->count; i += 1) {
        children[i] = *draw_type(draws, arena, levels - 1);
    }
    return type;
}

/* ---- rows ---- */

static void append_value(struct draws *draws, struct text *text, const struct type *type, size_t nulls);

/* Numbers near zero and near the ends of their range are as frequent as others. */
static void append_number(struct draws *draws, struct text *text, sel_type_id kind) {
    static const char *const least[] = {"-128", "-32768", "-2147483648", "-9223372036854775808", "-170141183460469231731687303715884105728"};
    static const char *const most[] = {"127", "32767", "2147483647", "9223372036854775807", "170141183460469231731687303715884105727"};
    static const char *const unsigned_most[] = {"255", "65535", "4294967295", "18446744073709551615", "340282366920938463463374607431768211455"};
    bool is_signed = kind <= SEL_TYPE_INT128;
    size_t width = (size_t)(is_signed ? kind - SEL_TYPE_INT8 : kind - SEL_TYPE_UINT8);
    char digits[48];
    switch (draw(draws, 4)) {
    case 0:
        append_word(text, is_signed ? least[width] : "0");
        return;
    case 1:
        append_word(text, is_signed ? most[width] : unsigned_most[width]);
        return;
    default:
        snprintf(digits, sizeof digits, "%" PRIu64, draw_bits(draws) >> (64 - (7U << (width < 3 ? width : 3))));
        append_word(text, digits);
    }
}

static void append_hex(struct draws *draws, struct text *text) {
    char digits[3];
    append_word(text, "h\"");
    for (size_t left = draw(draws, 20); left > 0; left -= 1) {
        snprintf(digits, sizeof digits, "%02x", (unsigned)draw(draws, 256));
        append_word(text, digits);
    }
    append_word(text, "\"");
}

/* Characters of one to four bytes, and those that are escaped. */
static void append_string(struct draws *draws, struct text *text) {
    static const char *const pieces[] = {"a", "b", "0", "~", " ", "\\n", "\\\"", "\\\\", "\\u0001", "\xc3\xa9", "\xe2\x82\xac", "\xf0\x9f\x99\x82"};
    append_word(text, "\"");
    for (size_t left = draw(draws, 18); left > 0; left -= 1) {
        append_word(text, pieces[draw(draws, sizeof pieces / sizeof pieces[0])]);
    }
    append_word(text, "\"");
}

/* Appends values between brackets: `len` of one type, or one of each. */
static void append_items(struct draws *draws, struct text *text, const struct type *types, size_t step, size_t len, const char *brackets, size_t nulls) {
    append(text, brackets, 1);
    for (size_t i = 0; i < len; i += 1) {
        append(text, ",", i > 0);
        append_value(draws, text, &types[step * i], nulls);
    }
    append(text, brackets + 1, 1);
}

static void append_value(struct draws *draws, struct text *text, const struct type *type, size_t nulls) {
    if (type->kind == SEL_TYPE_NULL || (nulls > 0 && draw_one_in(draws, nulls))) {
        append_word(text, "null");
        return;
    }
    switch (type->kind) {
    case SEL_TYPE_BOOLEAN:
        append_word(text, draw(draws, 2) == 0 ? "false" : "true");
        break;
    case SEL_TYPE_BINARY:
    case SEL_TYPE_BINARY_VIEW:
        append_hex(draws, text);
        break;
    case SEL_TYPE_STRING_VIEW:
        append_string(draws, text);
        break;
    case SEL_TYPE_LIST:
        append_items(draws, text, type->children, 0, draw(draws, 4), "[]", nulls);
        break;
    case SEL_TYPE_FIXED_SIZE_LIST:
        append_items(draws, text, type->children, 0, type->list_size, "[]", nulls);
        break;
    case SEL_TYPE_STRUCT:
        append_items(draws, text, type->children, 1, type->count, "()", nulls);
        break;
    default:
        append_number(draws, text, type->kind);
    }
}

/* Returns the rows that the text has. */
static struct rows rows_of_text(struct arena *arena, const struct type *type, const char *text) {
    struct misread why;
    struct rows rows;
    if (!read_rows(arena, type, text, &rows, &why)) {
        printf("%s at %zu of %s\n", why.reason, why.at, text);
        abort();
    }
    return rows;
}

size_t draw_len(struct draws *draws, const struct type *type) {
    bool is_nested = type->kind >= SEL_TYPE_LIST;
    switch (draw(draws, 8)) {
    case 0:
        return draw(draws, 3);
    case 1:
        return draw(draws, is_nested ? 70 : 300);
    default:
        return draw(draws, is_nested ? 12 : 70);
    }
}

struct rows draw_rows(struct draws *draws, struct arena *arena, const struct type *type, size_t len, size_t nulls) {
    struct text text = {.arena = arena};
    append_items(draws, &text, type, 0, len, "[]", nulls);
    return rows_of_text(arena, type, text.at);
}

struct rows draw_mask(struct draws *draws, struct arena *arena, size_t len, size_t nulls) {
    struct text text = {.arena = arena};
    size_t kept = draw(draws, 17), longest = draw_one_in(draws, 3) ? 40 : 1;
    size_t left = 0;
    bool is_kept = false;
    append_word(&text, "[");
    for (size_t i = 0; i < len; i += 1) {
        if (left == 0) {
            left = 1 + draw(draws, longest);
            is_kept = draw(draws, 16) < kept;
        }
        left -= 1;
        append(&text, ",", i > 0);
        bool is_null = nulls > 0 && draw_one_in(draws, nulls);
        append_word(&text, is_null ? "null" : is_kept ? "true" : "false");
    }
    append_word(&text, "]");
    return rows_of_text(arena, leaf_type(SEL_TYPE_BOOLEAN), text.at);
}

struct rows draw_indices(struct draws *draws, struct arena *arena, size_t len, size_t below, size_t nulls) {
    struct text text = {.arena = arena};
    char digits[24];
    bool is_rising = draw_one_in(draws, 4);
    size_t index = 0;
    append_word(&text, "[");
    for (size_t i = 0; i < len; i += 1) {
        index = is_rising && index + 1 < below ? index + 1 : draw(draws, below);
        snprintf(digits, sizeof digits, "%zu", index);
        append(&text, ",", i > 0);
        bool is_null = below == 0 || (nulls > 0 && draw_one_in(draws, nulls));
        append_word(&text, is_null ? "null" : digits);
    }
    append_word(&text, "]");
    return rows_of_text(arena, leaf_type(SEL_TYPE_UINT32), text.at);
}

sel_column draw_column(struct draws *draws, const struct rows *rows) {
    sel_column column = {0};
    sel_status status = build_column(&layouts[draw(draws, LAYOUT_COUNT)], rows, &column);
    if (status != SEL_OK) {
        printf("building a column failed: %s\n", sel_status_string(status));
        exit(2);
    }
    return column;
}
