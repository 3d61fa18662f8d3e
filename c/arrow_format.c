/* The formats of the Arrow C Data Interface, the storage of each, and the metadata of fields. */
#include "arrow_internal.h"

#include <string.h>

const int64_t sel_arrow_nothing[2];

/* ---- metadata: the number of pairs; then for each the lengths and the bytes of the key and of the value */

static const char extension_name[] = "ARROW:extension:name", uint128_name[] = "sel.uint128";

static int32_t number_at(const char *at) {
    int32_t number;
    memcpy(&number, at, sizeof number);
    return number;
}

sel_status sel_arrow_metadata_len(const char *metadata, size_t *len) {
    *len = 0;
    if (!metadata) return SEL_OK;
    int32_t pairs = number_at(metadata);
    if (pairs < 0) return SEL_ERROR_ARROW_LENGTH;
    *len = 4;
    for (int64_t i = 0; i < 2 * (int64_t)pairs; i++) {
        int32_t bytes = number_at(metadata + *len);
        if (bytes < 0) return SEL_ERROR_ARROW_LENGTH;
        *len += 4 + (size_t)bytes;
    }
    return SEL_OK;
}

const char *sel_arrow_metadata_value(const char *metadata, const char *key, size_t *len) {
    if (!metadata) return NULL;
    int32_t pairs = number_at(metadata);
    const char *at = metadata + 4;
    for (int32_t i = 0; i < pairs; i++) {
        size_t key_len = (size_t)number_at(at);
        const char *value = at + 4 + key_len;
        *len = (size_t)number_at(value);
        if (key_len == strlen(key) && !memcmp(at + 4, key, key_len)) return value + 4;
        at = value + 4 + *len;
    }
    return NULL;
}

bool sel_arrow_has_extension(const char *metadata) {
    size_t len = 0;
    return sel_arrow_metadata_value(metadata, extension_name, &len) != NULL;
}

static bool is_uint128(const char *metadata) {
    size_t len = 0;
    const char *name = sel_arrow_metadata_value(metadata, extension_name, &len);
    return name && len == strlen(uint128_name) && !memcmp(name, uint128_name, len);
}

const char *sel_arrow_uint128_metadata(void) {
    /* one pair; both lengths are little-endian, as the processors are that the library is built for */
    static const char bytes[] = "\1\0\0\0\x14\0\0\0" "ARROW:extension:name" "\x0b\0\0\0" "sel.uint128";
    return bytes;
}

/* ---- formats */

typedef struct known {
    const char *text;
    enum layout layout;
    sel_type_id storage;
    size_t width;
    bool wide;
} known;

static const known fixed_formats[] = {
    {"n", NULLS, SEL_TYPE_NULL, 0, false}, {"b", BITS, SEL_TYPE_BOOLEAN, 0, false},
    {"c", NUMBERS, SEL_TYPE_INT8, 1, false}, {"C", NUMBERS, SEL_TYPE_UINT8, 1, false},
    {"s", NUMBERS, SEL_TYPE_INT16, 2, false}, {"S", NUMBERS, SEL_TYPE_UINT16, 2, false},
    {"i", NUMBERS, SEL_TYPE_INT32, 4, false}, {"I", NUMBERS, SEL_TYPE_UINT32, 4, false},
    {"l", NUMBERS, SEL_TYPE_INT64, 8, false}, {"L", NUMBERS, SEL_TYPE_UINT64, 8, false},
    {"e", NUMBERS, SEL_TYPE_UINT16, 2, false}, {"f", NUMBERS, SEL_TYPE_UINT32, 4, false},
    {"g", NUMBERS, SEL_TYPE_UINT64, 8, false}, {"tdD", NUMBERS, SEL_TYPE_INT32, 4, false},
    {"tdm", NUMBERS, SEL_TYPE_INT64, 8, false}, {"tts", NUMBERS, SEL_TYPE_INT32, 4, false},
    {"ttm", NUMBERS, SEL_TYPE_INT32, 4, false}, {"ttu", NUMBERS, SEL_TYPE_INT64, 8, false},
    {"ttn", NUMBERS, SEL_TYPE_INT64, 8, false}, {"tDs", NUMBERS, SEL_TYPE_INT64, 8, false},
    {"tDm", NUMBERS, SEL_TYPE_INT64, 8, false}, {"tDu", NUMBERS, SEL_TYPE_INT64, 8, false},
    {"tDn", NUMBERS, SEL_TYPE_INT64, 8, false}, {"tiM", NUMBERS, SEL_TYPE_INT32, 4, false},
    {"tiD", NUMBERS, SEL_TYPE_INT64, 8, false}, {"tin", NUMBERS, SEL_TYPE_UINT128, 16, false},
    {"z", OFFSET_BYTES, SEL_TYPE_BINARY, 0, false}, {"Z", OFFSET_BYTES, SEL_TYPE_BINARY, 0, true},
    {"u", OFFSET_BYTES, SEL_TYPE_STRING_VIEW, 0, false}, {"U", OFFSET_BYTES, SEL_TYPE_STRING_VIEW, 0, true},
    {"vz", VIEWS, SEL_TYPE_BINARY_VIEW, 0, false}, {"vu", VIEWS, SEL_TYPE_STRING_VIEW, 0, false},
    {"+l", LISTS, SEL_TYPE_LIST, 0, false}, {"+L", LISTS, SEL_TYPE_LIST, 0, true},
    {"+vl", LIST_VIEWS, SEL_TYPE_LIST, 0, false}, {"+vL", LIST_VIEWS, SEL_TYPE_LIST, 0, true},
    {"+m", LISTS, SEL_TYPE_LIST, 0, false}, {"+s", STRUCTS, SEL_TYPE_STRUCT, 0, false},
    {"+r", RUNS, SEL_TYPE_NONE, 0, false},
};

/* Reads decimal digits up to the end of the text or a comma, as a number of at most `most`. Returns what is behind them, or NULL if there
 * are none; a larger number is read as `most` + 1. */
static const char *read_number(const char *at, uint64_t most, uint64_t *out) {
    if (*at < '0' || *at > '9') return NULL;
    for (*out = 0; *at >= '0' && *at <= '9'; at++)
        if (*out <= most) *out = *out * 10 + (uint64_t)(*at - '0');
    if (*out > most) *out = most + 1;
    return *at == 0 || *at == ',' ? at : NULL;
}

/* Reads the size of `w:N` or `+w:N`. */
static sel_status read_size(const char *digits, size_t *out) {
    uint64_t number = 0;
    const char *rest = read_number(digits, UINT32_MAX, &number);
    if (!rest || *rest) return SEL_ERROR_ARROW_FORMAT;
    *out = (size_t)number;
    return number > UINT32_MAX ? SEL_ERROR_LIST_SIZE : SEL_OK;
}

/* Reads a decimal behind `d:`, of the precision, the scale, and the bits if they are not 128. */
static bool read_decimal(const char *at, format *out) {
    static const struct { uint64_t bits, precision; sel_type_id storage; } sizes[] = {
        {32, 9, SEL_TYPE_INT32}, {64, 18, SEL_TYPE_INT64}, {128, 38, SEL_TYPE_INT128}, {256, 76, SEL_TYPE_FIXED_SIZE_LIST},
    };
    uint64_t precision = 0, scale = 0, bits = 128;
    if (*at == '0' || !(at = read_number(at, 76, &precision)) || *at++ != ',') return false;
    if (*at == '-') at++;
    if (!(at = read_number(at, INT32_MAX, &scale)) || scale > INT32_MAX) return false;
    if (*at == ',' && (!(at = read_number(at + 1, 256, &bits)) || *at)) return false;
    for (size_t i = 0; i < sizeof sizes / sizeof *sizes; i++) {
        if (sizes[i].bits != bits || precision > sizes[i].precision) continue;
        enum layout layout = bits == 256 ? FIXED_BYTES : NUMBERS;
        *out = (format){layout, sizes[i].storage, (size_t)bits / 8, false, true, false};
        return true;
    }
    return false;
}

static bool is_timestamp(const char *text) { return !strncmp(text, "ts", 2) && text[2] && strchr("smun", text[2]) && text[3] == ':'; }

sel_status sel_arrow_read_format(const char *text, const char *metadata, format *out) {
    sel_status status = SEL_OK;
    *out = (format){NO_LAYOUT, SEL_TYPE_NONE, 0, false, false, false};
    if (!text) return SEL_ERROR_ARROW_FORMAT;
    for (size_t i = 0; i < sizeof fixed_formats / sizeof *fixed_formats; i++) {
        const known *it = &fixed_formats[i];
        if (strcmp(it->text, text) != 0) continue;
        *out = (format){it->layout, it->storage, it->width, it->wide, false, !strcmp(text, "+m")};
        return SEL_OK;
    }
    if (is_timestamp(text)) *out = (format){NUMBERS, SEL_TYPE_INT64, 8, false, false, false};
    else if (!strncmp(text, "w:", 2)) {
        *out = (format){FIXED_BYTES, SEL_TYPE_FIXED_SIZE_LIST, 0, false, false, false};
        status = read_size(text + 2, &out->width);
        if (out->width == 16 && is_uint128(metadata)) *out = (format){NUMBERS, SEL_TYPE_UINT128, 16, false, false, false};
    } else if (!strncmp(text, "+w:", 3)) {
        *out = (format){FIXED_LISTS, SEL_TYPE_FIXED_SIZE_LIST, 0, false, false, false};
        status = read_size(text + 3, &out->width);
    } else if (strncmp(text, "d:", 2) != 0 || !read_decimal(text + 2, out)) status = SEL_ERROR_ARROW_FORMAT;
    return status;
}

bool sel_arrow_is_nested(enum layout layout) {
    return layout == FIXED_BYTES || layout == LISTS || layout == LIST_VIEWS || layout == FIXED_LISTS || layout == STRUCTS || layout == RUNS;
}

/* Returns the length of a format without the bits of a decimal of 128 bits, which d:P,S has too. */
static size_t len_without_bits(const char *text) {
    size_t len = strlen(text);
    const char *scale = strncmp(text, "d:", 2) ? NULL : strchr(text, ',');
    const char *bits = scale ? strchr(scale + 1, ',') : NULL;
    return bits && !strcmp(bits, ",128") ? len - strlen(bits) : len;
}

bool sel_arrow_is_equal_format(const char *a, const char *b) {
    size_t len = len_without_bits(a);
    return len == len_without_bits(b) && !memcmp(a, b, len);
}

bool sel_arrow_is_same_format(const char *a, const char *b) {
    static const char *const groups[][4] = {{"u", "U", "vu", NULL}, {"z", "Z", NULL, NULL}, {"+l", "+L", NULL, NULL}};
    if (sel_arrow_is_equal_format(a, b)) return true;
    for (size_t i = 0; i < sizeof groups / sizeof *groups; i++) {
        int found = 0;
        for (size_t k = 0; groups[i][k]; k++) found += !strcmp(groups[i][k], a) + !strcmp(groups[i][k], b);
        if (found == 2) return true;
    }
    return false;
}
