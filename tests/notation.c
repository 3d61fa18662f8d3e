#include "notation.h"

#include <stdio.h>
#include <string.h>

__extension__ typedef unsigned __int128 wide;

/* A text that is being read. */
struct reader {
    struct arena *arena;
    const char *text, *at;
    struct misread *why;
};

/* Notes why the text cannot be read on; returns false. */
static bool stop(struct reader *reader, const char *reason) {
    *reader->why = (struct misread){reason, (size_t)(reader->at - reader->text)};
    return false;
}

/* Passes a word if it comes next. */
static bool passes(struct reader *reader, const char *word) {
    size_t len = strlen(word);
    if (strncmp(reader->at, word, len) != 0) {
        return false;
    }
    reader->at += len;
    return true;
}

static bool expects(struct reader *reader, const char *word, const char *reason) {
    return passes(reader, word) || stop(reader, reason);
}

static bool is_digit(char byte) {
    return byte >= '0' && byte <= '9';
}

/* Reads the digits of a number up to `most`, without zeros before them. */
static bool read_digits(struct reader *reader, wide most, wide *out) {
    wide number = 0;
    if (!is_digit(*reader->at) || (reader->at[0] == '0' && is_digit(reader->at[1]))) {
        return stop(reader, "no number");
    }
    for (; is_digit(*reader->at); reader->at += 1) {
        wide digit = (wide)(*reader->at - '0');
        if (number > (most - digit) / 10) {
            return stop(reader, "a number that is too large");
        }
        number = 10 * number + digit;
    }
    *out = number;
    return true;
}

bool read_size(const char *text, size_t *out) {
    struct misread why;
    struct reader reader = {NULL, text, text, &why};
    wide number = 0;
    bool is_read = read_digits(&reader, SIZE_MAX, &number) && *reader.at == 0;
    *out = (size_t)number;
    return is_read;
}

bool read_index(const char *text, int64_t *out) {
    struct misread why;
    struct reader reader = {NULL, text, text, &why};
    wide number = 0, most = INT64_MAX;
    bool is_negative = passes(&reader, "-");
    bool is_read = read_digits(&reader, most + is_negative, &number) && *reader.at == 0;
    if (is_negative && number == 0) {
        return false;
    }
    *out = is_negative ? -(int64_t)(number - 1) - 1 : (int64_t)number;
    return is_read;
}

/* ---- types ---- */

static const char *const kind_names[] = {
    "null", "bool", "i8", "i16", "i32", "i64", "i128", "u8", "u16", "u32", "u64", "u128", "binary", "binview", "utf8",
    "list", "fixed", "struct",
};

enum { KIND_COUNT = sizeof kind_names / sizeof kind_names[0] };

const struct type *leaf_type(sel_type_id kind) {
    static struct type types[KIND_COUNT];
    types[kind].kind = kind;
    return &types[kind];
}

const struct type *list_type(struct arena *arena, sel_type_id kind, size_t list_size, const struct type *child) {
    struct type *type = arena_take(arena, 1, sizeof *type);
    *type = (struct type){kind, kind == SEL_TYPE_FIXED_SIZE_LIST ? list_size : 0, 1, child};
    return type;
}

static bool read_type_into(struct reader *reader, struct type *out);

/* Adds a child, for which room is taken by powers of two. */
static struct type *new_child(struct reader *reader, struct type *parent) {
    size_t count = parent->count;
    struct type *children = (struct type *)parent->children;
    if ((count & (count - 1)) == 0) {
        children = arena_take(reader->arena, count == 0 ? 1 : 2 * count, sizeof *children);
        if (count > 0) {
            memcpy(children, parent->children, count * sizeof *children);
        }
        parent->children = children;
    }
    parent->count += 1;
    return &children[count];
}

static bool read_fields(struct reader *reader, struct type *out) {
    if (passes(reader, ">")) {
        return true;
    }
    do {
        if (!read_type_into(reader, new_child(reader, out))) {
            return false;
        }
    } while (passes(reader, ","));
    return expects(reader, ">", "the fields do not end with >");
}

/* Reads the text between the brackets of a type with children. */
static bool read_children(struct reader *reader, struct type *out) {
    wide number = 0;
    if (!expects(reader, "<", "no < after the name of a nested type")) {
        return false;
    }
    if (out->kind == SEL_TYPE_STRUCT) {
        return read_fields(reader, out);
    }
    if (out->kind == SEL_TYPE_FIXED_SIZE_LIST) {
        if (!read_digits(reader, SIZE_MAX, &number) || !expects(reader, ",", "no comma after the list size")) {
            return false;
        }
        out->list_size = (size_t)number;
    }
    return read_type_into(reader, new_child(reader, out)) && expects(reader, ">", "the child does not end with >");
}

static bool read_type_into(struct reader *reader, struct type *out) {
    size_t len = strspn(reader->at, "abcdefghijklmnopqrstuvwxyz0123456789");
    for (uint32_t kind = 0; kind < KIND_COUNT; kind += 1) {
        if (strlen(kind_names[kind]) == len && strncmp(reader->at, kind_names[kind], len) == 0) {
            reader->at += len;
            *out = (struct type){kind, 0, 0, NULL};
            return kind < SEL_TYPE_LIST || read_children(reader, out);
        }
    }
    return stop(reader, "no name of a type");
}

const struct type *read_type(struct arena *arena, const char *text, struct misread *why) {
    struct reader reader = {arena, text, text, why};
    struct type *type = arena_take(arena, 1, sizeof *type);
    if (!read_type_into(&reader, type)) {
        return NULL;
    }
    return *reader.at == 0 || stop(&reader, "more than a type") ? type : NULL;
}

/* Returns how long the text of a type is; writes it if there is a place for it. */
static size_t write_type(const struct type *type, char *out) {
    char head[40];
    size_t len = (size_t)snprintf(head, sizeof head, "%s", kind_names[type->kind]);
    if (type->kind >= SEL_TYPE_LIST) {
        len += (size_t)snprintf(head + len, sizeof head - len, "<");
    }
    if (type->kind == SEL_TYPE_FIXED_SIZE_LIST) {
        len += (size_t)snprintf(head + len, sizeof head - len, "%zu,", type->list_size);
    }
    if (out != NULL) {
        memcpy(out, head, len);
    }
    for (size_t i = 0; i < type->count; i += 1) {
        if (i > 0 && out != NULL) {
            out[len] = ',';
        }
        len += i > 0;
        len += write_type(&type->children[i], out == NULL ? NULL : out + len);
    }
    if (type->kind >= SEL_TYPE_LIST && out != NULL) {
        out[len] = '>';
    }
    return len + (type->kind >= SEL_TYPE_LIST);
}

const char *type_text(struct arena *arena, const struct type *type) {
    char *text = arena_take(arena, write_type(type, NULL) + 1, 1);
    write_type(type, text);
    return text;
}

/* ---- rows ---- */

static bool read_value(struct reader *reader, const struct type *type, struct value *out);

/* Returns how many bits a number of this kind has. */
static unsigned bits_of(sel_type_id kind) {
    return 8U << (kind <= SEL_TYPE_INT128 ? kind - SEL_TYPE_INT8 : kind - SEL_TYPE_UINT8);
}

static bool read_number(struct reader *reader, sel_type_id kind, struct value *out) {
    bool is_signed = kind <= SEL_TYPE_INT128, is_negative = passes(reader, "-");
    wide most = ~(wide)0 >> (128 - bits_of(kind)), number = 0;
    if (is_signed) {
        most = most / 2 + is_negative;
    }
    if (is_negative && (!is_signed || *reader->at == '0')) {
        return stop(reader, "a sign that is not to be here");
    }
    if (!read_digits(reader, most, &number)) {
        return false;
    }
    number = is_negative ? -number : number;
    out->low = (uint64_t)number;
    out->high = (uint64_t)(number >> 64);
    return true;
}

static bool read_boolean(struct reader *reader, struct value *out) {
    out->low = passes(reader, "true");
    return out->low == 1 || expects(reader, "false", "no boolean");
}

static int hex_digit(char byte) {
    return is_digit(byte) ? byte - '0' : byte >= 'a' && byte <= 'f' ? byte - 'a' + 10 : -1;
}

/* Reads a byte of two lower-case hexadecimal digits. */
static bool read_hex_byte(struct reader *reader, uint8_t *out) {
    int high = hex_digit(reader->at[0]), low = high < 0 ? -1 : hex_digit(reader->at[1]);
    if (low < 0) {
        return stop(reader, "no byte of two hexadecimal digits");
    }
    *out = (uint8_t)(16 * high + low);
    reader->at += 2;
    return true;
}

static bool read_binary(struct reader *reader, struct value *out) {
    if (!expects(reader, "h\"", "no bytes")) {
        return false;
    }
    uint8_t *bytes = arena_take(reader->arena, strcspn(reader->at, "\"") / 2 + 1, 1);
    out->bytes = bytes;
    while (!passes(reader, "\"")) {
        if (!read_hex_byte(reader, &bytes[out->len])) {
            return false;
        }
        out->len += 1;
    }
    return true;
}

/* Reads the escape of a byte, behind its backslash: each byte has only one. */
static bool read_escape(struct reader *reader, uint8_t *out) {
    static const char letters[] = "\"\\nrtbf", bytes[] = "\"\\\n\r\t\b\f";
    const char *letter = *reader->at == 0 ? NULL : strchr(letters, *reader->at);
    if (letter != NULL) {
        *out = (uint8_t)bytes[letter - letters];
        reader->at += 1;
        return true;
    }
    if (!expects(reader, "u00", "no escape") || !read_hex_byte(reader, out)) {
        return false;
    }
    bool has_letter = *out != 0 && strchr(bytes, *out) != NULL;
    return (*out < 0x20 && !has_letter) || stop(reader, "an escape that is written otherwise");
}

/* Returns how many bytes a character of UTF-8 has that begins here, 0 if none does. */
static size_t character_len(const uint8_t *at, size_t len) {
    size_t count = at[0] < 0x80 ? 1 : at[0] < 0xc2 ? 0 : at[0] < 0xe0 ? 2 : at[0] < 0xf0 ? 3 : at[0] < 0xf5 ? 4 : 0;
    if (count > len) {
        return 0;
    }
    for (size_t i = 1; i < count; i += 1) {
        if ((at[i] & 0xc0) != 0x80) {
            return 0;
        }
    }
    bool is_short = (at[0] == 0xe0 && at[1] < 0xa0) || (at[0] == 0xf0 && at[1] < 0x90);
    bool is_outside = (at[0] == 0xed && at[1] >= 0xa0) || (at[0] == 0xf4 && at[1] >= 0x90);
    return is_short || is_outside ? 0 : count;
}

static bool is_utf8(const uint8_t *at, size_t len) {
    while (len > 0) {
        size_t count = character_len(at, len);
        if (count == 0) {
            return false;
        }
        at += count;
        len -= count;
    }
    return true;
}

static bool read_string(struct reader *reader, struct value *out) {
    if (!expects(reader, "\"", "no string")) {
        return false;
    }
    uint8_t *bytes = arena_take(reader->arena, strlen(reader->at) + 1, 1);
    out->bytes = bytes;
    while (!passes(reader, "\"")) {
        if (passes(reader, "\\")) {
            if (!read_escape(reader, &bytes[out->len])) {
                return false;
            }
        } else if ((uint8_t)*reader->at < 0x20) {
            return stop(reader, "no end of a string");
        } else {
            bytes[out->len] = (uint8_t)*reader->at;
            reader->at += 1;
        }
        out->len += 1;
    }
    return is_utf8(bytes, out->len) || stop(reader, "a string that is not UTF-8");
}

/* Returns how many items stand before the bracket that closes these; a guess where they are misspelled. */
static size_t item_count(const char *at) {
    size_t count = 1, depth = 0;
    bool is_quoted = false;
    if (*at == ']') {
        return 0;
    }
    for (; *at != 0; at += 1) {
        if (is_quoted) {
            if (*at == '\\' && at[1] != 0) {
                at += 1;
            } else {
                is_quoted = *at != '"';
            }
        } else if (*at == '"') {
            is_quoted = true;
        } else if (*at == '[' || *at == '(') {
            depth += 1;
        } else if (*at == ']' || *at == ')') {
            if (depth == 0) {
                return count;
            }
            depth -= 1;
        } else if (*at == ',' && depth == 0) {
            count += 1;
        }
    }
    return count;
}

/* Reads items of one type between brackets. */
static bool read_items(struct reader *reader, const struct type *type, struct value *out) {
    if (!expects(reader, "[", "no [")) {
        return false;
    }
    size_t count = item_count(reader->at);
    struct value *items = arena_take(reader->arena, count, sizeof *items);
    *out = (struct value){.len = count, .items = items};
    for (size_t i = 0; i < count; i += 1) {
        if ((i > 0 && !expects(reader, ",", "no comma")) || !read_value(reader, type, &items[i])) {
            return false;
        }
    }
    return expects(reader, "]", "no ]");
}

static bool read_fixed_items(struct reader *reader, const struct type *type, struct value *out) {
    if (!read_items(reader, type->children, out)) {
        return false;
    }
    return out->len == type->list_size || stop(reader, "a fixed-size list of another size");
}

static bool read_struct(struct reader *reader, const struct type *type, struct value *out) {
    struct value *items = arena_take(reader->arena, type->count, sizeof *items);
    *out = (struct value){.len = type->count, .items = items};
    if (!expects(reader, "(", "no (")) {
        return false;
    }
    for (size_t i = 0; i < type->count; i += 1) {
        if ((i > 0 && !expects(reader, ",", "no comma")) || !read_value(reader, &type->children[i], &items[i])) {
            return false;
        }
    }
    return expects(reader, ")", "no )");
}

static bool read_present(struct reader *reader, const struct type *type, struct value *out) {
    switch (type->kind) {
    case SEL_TYPE_NULL:
        return stop(reader, "a value in a column of nulls");
    case SEL_TYPE_BOOLEAN:
        return read_boolean(reader, out);
    case SEL_TYPE_BINARY:
    case SEL_TYPE_BINARY_VIEW:
        return read_binary(reader, out);
    case SEL_TYPE_STRING_VIEW:
        return read_string(reader, out);
    case SEL_TYPE_LIST:
        return read_items(reader, type->children, out);
    case SEL_TYPE_FIXED_SIZE_LIST:
        return read_fixed_items(reader, type, out);
    case SEL_TYPE_STRUCT:
        return read_struct(reader, type, out);
    default:
        return read_number(reader, type->kind, out);
    }
}

static bool read_value(struct reader *reader, const struct type *type, struct value *out) {
    const char *start = reader->at;
    *out = (struct value){.is_null = passes(reader, "null")};
    bool is_read = out->is_null || read_present(reader, type, out);
    out->text = start;
    out->text_len = (size_t)(reader->at - start);
    return is_read;
}

bool read_rows(struct arena *arena, const struct type *type, const char *text, struct rows *out, struct misread *why) {
    struct reader reader = {arena, text, text, why};
    struct value all;
    if (!read_items(&reader, type, &all)) {
        return false;
    }
    if (*reader.at != 0) {
        return stop(&reader, "more than rows");
    }
    *out = (struct rows){type, all.len, all.items, text};
    return true;
}

size_t null_count(const struct rows *rows) {
    size_t count = 0;
    for (size_t i = 0; i < rows->len; i += 1) {
        count += rows->values[i].is_null;
    }
    return count;
}
