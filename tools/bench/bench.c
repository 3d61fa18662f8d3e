/* The contenders that tools/bench/run.py times: calls of libsel, the plain loops that a user would write instead, and a copy of the
 * bytes that must be read and written. Each repeats its whole job, with the allocation of the result, and returns the time of this
 * thread in nanoseconds. */
#define _POSIX_C_SOURCE 200809L
#include "sel.h"

#include <stdlib.h>
#include <string.h>
#include <time.h>

/* A job. The contender determines which fields are set. 64 more bits can be read after the last bit of a mask. */
typedef struct job {
    size_t rows, made;          /* rows of the first column, and of the result */
    size_t size;                /* bytes of a value */
    size_t copied;              /* bytes that the copy reads, and writes */
    size_t width, height;
    const uint8_t *mask, *valid; /* packed; `valid` may be null */
    const uint8_t *values, *others; /* values, 16-byte views, or packed bits */
    const int64_t *offsets;
    const uint32_t *indices;
    const uint8_t *source;      /* what the copy reads */
    int64_t index;
    sel_column *first, *second, *third;
} job;

static double now_ns(void) {
    struct timespec t;
    clock_gettime(CLOCK_THREAD_CPUTIME_ID, &t);
    return (double)t.tv_sec * 1e9 + (double)t.tv_nsec;
}

static volatile uint8_t sink;

/* Reads a result, so that it is not optimized away, and frees it. */
static void keep(uint8_t *at) {
    sink = *(volatile uint8_t *)at;
    free(at);
}

static uint8_t *room(size_t bytes) { return malloc(bytes + 64); }

static bool bit(const uint8_t *bits, size_t i) { return bits[i / 8] >> (i % 8) & 1; }

static uint64_t word_at(const uint8_t *bits, size_t word) {
    uint64_t value;
    memcpy(&value, bits + word * 8, 8);
    return value;
}

#define TIMED(name)                                                  \
    double bench_##name(job *j, size_t repeats) {                    \
        double start = now_ns();                                     \
        for (size_t k = 0; k < repeats; k++)                         \
            if (!name(j)) return -1;                                 \
        return now_ns() - start;                                     \
    }

/* ---- calls of libsel */

#define CALL(name, call)                                             \
    static bool name(job *j) {                                       \
        sel_column out = {0};                                        \
        bool done = (call) == SEL_OK;                                \
        sel_free(&out);                                              \
        return done;                                                 \
    }                                                                \
    TIMED(name)

CALL(filter, sel_filter(j->first, j->second, &out))
CALL(take, sel_take(j->first, j->second, &out))
CALL(choose, sel_if_then_else(j->first, j->second, j->third, &out))
CALL(choose_one, sel_if_then_else_broadcast_true(j->first, j->second, j->third, &out))
CALL(choose_of_two, sel_if_then_else_broadcast_both(j->first, j->second, j->third, &out))
CALL(sublist_get, sel_list_get(j->first, j->index, &out))
CALL(fixed_get, sel_fixed_size_list_get(j->first, j->index, true, &out))
CALL(collect_rows, sel_collect_rows(j->first, 2, (const sel_row_ref *)j->values, j->made, (const uint8_t[1]){0}, 0, false, &out))

static bool flatten(job *j) {
    const size_t widths[2] = {j->width, j->width};
    sel_column out = {0};
    bool done = sel_flatten(j->first, 2, widths, 2, j->height, &out) == SEL_OK;
    sel_free(&out);
    return done;
}
TIMED(flatten)

static bool propagate(job *j) {
    sel_column keys = {0}, texts = {0};
    bool done = sel_propagate_dictionary(j->first, j->second, &keys, &texts) == SEL_OK;
    sel_free(&keys);
    sel_free(&texts);
    return done;
}
TIMED(propagate)

/* ---- the copy */

static bool copy(job *j) {
    uint8_t *out = room(j->copied);
    memcpy(out, j->source, j->copied);
    keep(out);
    return true;
}
TIMED(copy)

/* ---- filter loops: they count the kept rows before they allocate, since they do not know the number */

static size_t kept_of(const job *j) {
    size_t count = 0;
    for (size_t w = 0; w < (j->rows + 63) / 64; w++) count += (size_t)__builtin_popcountll(word_at(j->mask, w));
    return count;
}

typedef struct wide { uint64_t low, high; } wide;

/* For each word of the mask: copies the whole block, the values of the set bits, or writes each value and keeps it if its bit is set. */
#define FILTER(name, type)                                                      \
    static size_t name(const job *j, const uint8_t *from, type *out) {          \
        const type *values = (const type *)from;                                \
        size_t count = 0;                                                       \
        for (size_t w = 0; w < (j->rows + 63) / 64; w++) {                      \
            uint64_t m = word_at(j->mask, w);                                   \
            const type *block = values + w * 64;                                \
            if (m == ~(uint64_t)0) {                                            \
                memcpy(out + count, block, 64 * sizeof(type));                  \
                count += 64;                                                    \
            } else if (__builtin_popcountll(m) <= 16) {                         \
                for (; m; m &= m - 1) out[count++] = block[__builtin_ctzll(m)]; \
            } else {                                                            \
                for (unsigned i = 0; i < 64; i++) {                             \
                    out[count] = block[i];                                      \
                    count += m >> i & 1;                                        \
                }                                                               \
            }                                                                   \
        }                                                                       \
        return count;                                                           \
    }
FILTER(kept_1, uint8_t)
FILTER(kept_2, uint16_t)
FILTER(kept_4, uint32_t)
FILTER(kept_8, uint64_t)
FILTER(kept_16, wide)

/* Returns the bits of v where m is set, packed, in six rounds, each of which moves bits by a power of two. */
static uint64_t compress(uint64_t v, uint64_t m) {
    v &= m;
    uint64_t below = ~m << 1;
    for (unsigned round = 0; round < 6; round++) {
        uint64_t parity = below;
        for (unsigned by = 1; by < 64; by *= 2) parity ^= parity << by;
        uint64_t moved = parity & m, part;
        m = (m ^ moved) | (moved >> (1u << round));
        part = v & moved;
        v = (v ^ part) | (part >> (1u << round));
        below &= ~parity;
    }
    return v;
}

static uint8_t *kept_bits(const job *j, const uint8_t *bits, size_t made) {
    uint8_t *out = room(made / 8 + 16);
    uint64_t pending = 0;
    size_t words = 0;
    unsigned held = 0;
    for (size_t w = 0; w < (j->rows + 63) / 64; w++) {
        uint64_t m = word_at(j->mask, w), kept = compress(word_at(bits, w), m);
        unsigned count = (unsigned)__builtin_popcountll(m);
        pending |= kept << held;
        if (held + count >= 64) {
            memcpy(out + words++ * 8, &pending, 8);
            pending = held ? kept >> (64 - held) : 0;
            held = held + count - 64;
        } else {
            held += count;
        }
    }
    memcpy(out + words * 8, &pending, 8);
    return out;
}

static bool loop_filter(job *j) {
    size_t made = kept_of(j);
    uint8_t *out = room((made + 64) * j->size);
    switch (j->size) {
    case 1: kept_1(j, j->values, (uint8_t *)out); break;
    case 2: kept_2(j, j->values, (uint16_t *)out); break;
    case 4: kept_4(j, j->values, (uint32_t *)out); break;
    case 8: kept_8(j, j->values, (uint64_t *)out); break;
    default: kept_16(j, j->values, (wide *)out); break;
    }
    if (j->valid) keep(kept_bits(j, j->valid, made));
    keep(out);
    return true;
}
TIMED(loop_filter)

static bool loop_filter_bits(job *j) {
    keep(kept_bits(j, j->values, kept_of(j)));
    return true;
}
TIMED(loop_filter_bits)

/* Two fields of 8 bytes. */
static bool loop_filter_pairs(job *j) {
    size_t made = kept_of(j);
    uint8_t *first = room((made + 64) * 8), *second = room((made + 64) * 8);
    kept_8(j, j->values, (uint64_t *)first);
    kept_8(j, j->others, (uint64_t *)second);
    keep(first);
    keep(second);
    return true;
}
TIMED(loop_filter_pairs)

/* Fixed-size lists of 8-byte values; then lists with offsets. */
static bool loop_filter_blocks(job *j) {
    size_t bytes = j->width * 8, count = 0;
    uint8_t *out = room(kept_of(j) * bytes);
    for (size_t i = 0; i < j->rows; i++)
        if (bit(j->mask, i)) memcpy(out + count++ * bytes, j->values + i * bytes, bytes);
    keep(out);
    return true;
}
TIMED(loop_filter_blocks)

static bool lists_of(job *j, bool taken) {
    size_t bytes = 0, made = 0, count = 0;
    for (size_t i = 0; i < j->rows; i++) {
        size_t row = taken ? j->indices[i] : i;
        if (!taken && !bit(j->mask, i)) continue;
        bytes += (size_t)(j->offsets[row + 1] - j->offsets[row]) * j->size;
        made++;
    }
    uint8_t *out = room(bytes);
    int64_t *ends = (int64_t *)room((made + 1) * 8), end = 0;
    ends[count++] = 0;
    for (size_t i = 0; i < j->rows; i++) {
        size_t row = taken ? j->indices[i] : i;
        if (!taken && !bit(j->mask, i)) continue;
        int64_t len = j->offsets[row + 1] - j->offsets[row];
        memcpy(out + (size_t)end * j->size, j->values + (size_t)j->offsets[row] * j->size, (size_t)len * j->size);
        ends[count++] = end += len;
    }
    keep(out);
    keep((uint8_t *)ends);
    return true;
}

static bool loop_filter_lists(job *j) { return lists_of(j, false); }
TIMED(loop_filter_lists)

static bool loop_take_lists(job *j) { return lists_of(j, true); }
TIMED(loop_take_lists)

/* ---- take loops */

#define TAKE(type)                                                   \
    for (size_t i = 0; i < j->made; i++) ((type *)out)[i] = ((const type *)j->values)[j->indices[i]];

static bool loop_take(job *j) {
    uint8_t *out = room(j->made * j->size);
    switch (j->size) {
    case 1: TAKE(uint8_t) break;
    case 4: TAKE(uint32_t) break;
    case 8: TAKE(uint64_t) break;
    default: TAKE(wide) break;
    }
    if (j->valid) {
        uint8_t *bits = room(j->made / 8 + 8);
        memset(bits, 0, j->made / 8 + 8);
        for (size_t i = 0; i < j->made; i++) bits[i / 8] |= (uint8_t)(bit(j->valid, j->indices[i]) << (i % 8));
        keep(bits);
    }
    keep(out);
    return true;
}
TIMED(loop_take)

static bool loop_take_bits(job *j) {
    uint8_t *out = room(j->made / 8 + 8);
    for (size_t i = 0; i < j->made; i += 8) {
        unsigned byte = 0;
        for (size_t k = 0; k < 8 && i + k < j->made; k++) byte |= (unsigned)bit(j->values, j->indices[i + k]) << k;
        out[i / 8] = (uint8_t)byte;
    }
    keep(out);
    return true;
}
TIMED(loop_take_bits)

/* Returns whether each index that is not null is less than the number of rows. (32-bit integers, so that the compiler can vectorize) */
static bool loop_in_bounds(job *j) {
    uint32_t all = 1, rows = (uint32_t)j->rows;
    if (j->valid)
        for (size_t i = 0; i < j->made; i++) all &= (j->indices[i] < rows) | !bit(j->valid, i);
    else
        for (size_t i = 0; i < j->made; i++) all &= j->indices[i] < rows;
    return all;
}
TIMED(loop_in_bounds)

/* ---- if-then-else loops */

static bool loop_choose(job *j) {
    uint64_t *out = (uint64_t *)room((j->rows + 64) * 8);
    const uint64_t *first = (const uint64_t *)j->values, *second = (const uint64_t *)j->others;
    for (size_t i = 0; i < j->rows; i++) out[i] = bit(j->mask, i) ? first[i] : second[i];
    keep((uint8_t *)out);
    return true;
}
TIMED(loop_choose)

static bool loop_choose_one(job *j) {
    uint64_t *out = (uint64_t *)room((j->rows + 64) * 8);
    const uint64_t one = *(const uint64_t *)j->values, *second = (const uint64_t *)j->others;
    for (size_t i = 0; i < j->rows; i++) out[i] = bit(j->mask, i) ? one : second[i];
    keep((uint8_t *)out);
    return true;
}
TIMED(loop_choose_one)

static bool loop_choose_of_two(job *j) {
    uint64_t *out = (uint64_t *)room((j->rows + 64) * 8);
    const uint64_t one = *(const uint64_t *)j->values, two = *(const uint64_t *)j->others;
    for (size_t i = 0; i < j->rows; i++) out[i] = bit(j->mask, i) ? one : two;
    keep((uint8_t *)out);
    return true;
}
TIMED(loop_choose_of_two)

static bool loop_choose_views(job *j) {
    wide *out = (wide *)room((j->rows + 64) * 16);
    const wide *first = (const wide *)j->values, *second = (const wide *)j->others;
    for (size_t i = 0; i < j->rows; i++) out[i] = bit(j->mask, i) ? first[i] : second[i];
    keep((uint8_t *)out);
    return true;
}
TIMED(loop_choose_views)

/* ---- loops over lists and several columns */

static bool loop_sublist_get(job *j) {
    uint64_t *out = (uint64_t *)room(j->rows * 8);
    uint8_t *bits = room(j->rows / 8 + 8);
    memset(bits, 0, j->rows / 8 + 8);
    for (size_t i = 0; i < j->rows; i++) {
        bool there = j->index < j->offsets[i + 1] - j->offsets[i];
        out[i] = there ? ((const uint64_t *)j->values)[j->offsets[i] + j->index] : 0;
        bits[i / 8] |= (uint8_t)(there << (i % 8));
    }
    keep((uint8_t *)out);
    keep(bits);
    return true;
}
TIMED(loop_sublist_get)

static bool loop_fixed_get(job *j) {
    uint64_t *out = (uint64_t *)room(j->rows * 8);
    for (size_t i = 0; i < j->rows; i++) out[i] = ((const uint64_t *)j->values)[i * j->width + (size_t)j->index];
    keep((uint8_t *)out);
    return true;
}
TIMED(loop_fixed_get)

static bool loop_flatten(job *j) {
    size_t bytes = j->width * 8;
    uint8_t *out = room(2 * j->height * bytes);
    for (size_t i = 0; i < j->height; i++) {
        memcpy(out + 2 * i * bytes, j->values + i * bytes, bytes);
        memcpy(out + (2 * i + 1) * bytes, j->others + i * bytes, bytes);
    }
    keep(out);
    return true;
}
TIMED(loop_flatten)

/* Gathers rows from two columns: `values` are the row references, `others` and `offsets` the values of the two columns. */
static bool loop_collect_rows(job *j) {
    const uint64_t *const sources[2] = {(const uint64_t *)j->others, (const uint64_t *)j->offsets};
    const sel_row_ref *picks = (const sel_row_ref *)j->values;
    uint64_t *out = (uint64_t *)room(j->made * 8);
    for (size_t i = 0; i < j->made; i++) out[i] = sources[picks[i].source][picks[i].row];
    keep((uint8_t *)out);
    return true;
}
TIMED(loop_collect_rows)

/* Drops the null values of a dictionary: `mask` is the validity of the values, `values` are their views, `indices` the keys. */
static bool loop_propagate(job *j) {
    uint32_t *ranks = (uint32_t *)room(j->height * 4), *keys = (uint32_t *)room(j->rows * 4), rank = 0;
    wide *views = (wide *)room(j->height * 16);
    uint8_t *bits = room(j->rows / 8 + 8);
    memset(bits, 0, j->rows / 8 + 8);
    for (size_t i = 0; i < j->height; i++) {
        ranks[i] = rank;
        views[rank] = ((const wide *)j->values)[i];
        rank += bit(j->mask, i);
    }
    for (size_t i = 0; i < j->rows; i++) {
        keys[i] = ranks[j->indices[i]];
        bits[i / 8] |= (uint8_t)(bit(j->mask, j->indices[i]) << (i % 8));
    }
    keep((uint8_t *)ranks);
    keep((uint8_t *)keys);
    keep((uint8_t *)views);
    keep(bits);
    return true;
}
TIMED(loop_propagate)
