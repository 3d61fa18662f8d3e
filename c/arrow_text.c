/* Logical types as text, in the names of pyarrow; integers have the short names of sel_parse. */
#include "arrow_internal.h"

#include <string.h>

/* Text that is written up to the end of some room, and counted beyond it. */
typedef struct writer {
    uint8_t *out;
    size_t room, len;
} writer;

static void put_bytes(writer *w, const char *bytes, size_t len) {
    for (size_t i = 0; i < len; i++, w->len++)
        if (w->len < w->room) w->out[w->len] = (uint8_t)bytes[i];
}

static void put(writer *w, const char *text) { put_bytes(w, text, strlen(text)); }

static const char *plain_name(const char *text) {
    static const char *const names[][2] = {
        {"n", "null"}, {"b", "bool"}, {"c", "i8"}, {"C", "u8"}, {"s", "i16"}, {"S", "u16"}, {"i", "i32"}, {"I", "u32"},
        {"l", "i64"}, {"L", "u64"}, {"e", "halffloat"}, {"f", "float"}, {"g", "double"}, {"tdD", "date32[day]"},
        {"tdm", "date64[ms]"}, {"tts", "time32[s]"}, {"ttm", "time32[ms]"}, {"ttu", "time64[us]"}, {"ttn", "time64[ns]"},
        {"tDs", "duration[s]"}, {"tDm", "duration[ms]"}, {"tDu", "duration[us]"}, {"tDn", "duration[ns]"},
        {"tiM", "month_interval"}, {"tiD", "day_time_interval"}, {"tin", "month_day_nano_interval"}, {"z", "binary"},
        {"Z", "large_binary"}, {"vz", "binary_view"}, {"u", "string"}, {"U", "large_string"}, {"vu", "string_view"},
    };
    for (size_t i = 0; i < sizeof names / sizeof *names; i++)
        if (!strcmp(names[i][0], text)) return names[i][1];
    return NULL;
}

/* Writes `ts?:zone` as timestamp[unit, tz=zone]. */
static void put_timestamp(writer *w, const char *text) {
    static const char *const units[][2] = {{"s", "s"}, {"m", "ms"}, {"u", "us"}, {"n", "ns"}};
    put(w, "timestamp[");
    for (size_t i = 0; i < 4; i++)
        if (units[i][0][0] == text[2]) put(w, units[i][1]);
    if (text[4]) put(w, ", tz="), put(w, text + 4);
    put(w, "]");
}

/* Writes `d:P,S` or `d:P,S,B` as decimalB(P, S). */
static void put_decimal(writer *w, const char *text) {
    const char *precision = text + 2, *scale = strchr(precision, ',') + 1, *bits = strchr(scale, ',');
    put(w, "decimal");
    put(w, bits ? bits + 1 : "128");
    put(w, "(");
    put_bytes(w, precision, (size_t)(scale - 1 - precision));
    put(w, ", ");
    put_bytes(w, scale, bits ? (size_t)(bits - scale) : strlen(scale));
    put(w, ")");
}

static void put_type(writer *w, const node *of);

static void put_field(writer *w, const node *of) {
    put(w, of->name ? of->name : "");
    put(w, ": ");
    put_type(w, of);
    if (!(of->flags & ARROW_FLAG_NULLABLE)) put(w, " not null");
}

static void put_nested(writer *w, const node *of) {
    if (of->format.is_map) {
        put(w, "map<");
        put_type(w, of->children[0]->children[0]);
        put(w, ", ");
        put_type(w, of->children[0]->children[1]);
        put(w, of->flags & ARROW_FLAG_MAP_KEYS_SORTED ? ", keys_sorted>" : ">");
        return;
    }
    enum layout layout = of->format.layout;
    put(w, layout == STRUCTS ? "struct<" : layout == FIXED_LISTS ? "fixed_size_list<" : of->format.wide ? "large_list<" : "list<");
    for (size_t i = 0; i < of->child_count; i++) {
        if (i > 0) put(w, ", ");
        put_field(w, of->children[i]);
    }
    put(w, ">");
    if (layout == FIXED_LISTS) put(w, "["), put(w, of->text + 3), put(w, "]");
}

static void put_storage(writer *w, const node *of) {
    const char *name = plain_name(of->text);
    if (name) put(w, name);
    else if (of->text[0] == '+') put_nested(w, of);
    else if (of->format.is_decimal) put_decimal(w, of->text);
    else if (of->text[0] == 't') put_timestamp(w, of->text);
    else if (of->format.layout == NUMBERS) put(w, "u128");
    else put(w, "fixed_size_binary["), put(w, of->text + 2), put(w, "]");
}

static void put_type(writer *w, const node *of) {
    size_t len = 0;
    const char *extension = sel_arrow_metadata_value(of->metadata, "ARROW:extension:name", &len);
    bool is_uint128 = of->format.storage == SEL_TYPE_UINT128 && of->text[0] == 'w';
    bool has_extension = extension && !is_uint128;
    if (has_extension) put(w, "extension<"), put_bytes(w, extension, len), put(w, ", ");
    if (of->value_type) put(w, "dictionary<");
    put_storage(w, of);
    if (of->value_type) {
        put(w, ", ");
        put_type(w, of->value_type);
        put(w, of->flags & ARROW_FLAG_DICTIONARY_ORDERED ? ", ordered>" : ">");
    }
    if (has_extension) put(w, ">");
}

sel_status sel_type_format(const sel_type *of, uint8_t *out, size_t out_len, size_t *len) {
    if (!node_of(of)) return SEL_ERROR_NO_COLUMN;
    writer w = {out, out_len, 0};
    put_type(&w, of->at);
    *len = w.len;
    return SEL_OK;
}
