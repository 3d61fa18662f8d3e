/* The loops that a user would write instead of the operations of crates/bench_internals: they read the same lines of stdin, use the
 * same data and print the same checksums. A line is `NAME ROWS LEFT RIGHT REPEATS`.
 * `pext_bits` and `pext_four_bits` go bit by bit; `pext` and `pext_four` use the processor's instruction. */
#include <inttypes.h>
#include <stdbool.h>
#include <stdint.h>
#include <stdio.h>
#include <stdlib.h>
#include <string.h>
#ifdef __BMI2__
#include <immintrin.h>
#endif

/* Keeps the compiler from merging repeated calls. */
#define CALL __attribute__((noinline, noipa)) static

enum { LEFT = 1, RIGHT = 2 };

/* ---- the data */

static uint64_t next(uint64_t state) { return state * UINT64_C(6364136223846793005) + UINT64_C(1442695040888963407); }

static uint64_t word_of(uint64_t state) {
    uint64_t folded = (state ^ state >> 32) * UINT64_C(0xD6E8FEB86659FD93);
    return folded ^ folded >> 32;
}

static uint64_t word_of_four(uint64_t word) {
    return UINT64_C(1) << (word & 15) | UINT64_C(1) << (16 + (word >> 4 & 15)) | UINT64_C(1) << (32 + (word >> 8 & 15)) |
           UINT64_C(1) << (48 + (word >> 12 & 15));
}

static uint64_t same(uint64_t word) { return word; }

/* Allocates `count` words and two more, so that each word can be read with the next one. */
static uint64_t *room(size_t count) {
    uint64_t *at = malloc((count + 2) * sizeof *at);
    if (!at) exit(1);
    return at;
}

static uint64_t *words(uint64_t state, size_t count, uint64_t (*made)(uint64_t)) {
    uint64_t *at = room(count);
    for (size_t i = 0; i < count; i++) {
        state = next(state);
        at[i] = made(word_of(state));
    }
    at[count] = at[count + 1] = 0;
    return at;
}

/* Returns the bits of one operand, with 64 more for the repeats that begin later. */
static const uint8_t *side(uint64_t seed, size_t offset, size_t rows) {
    return (const uint8_t *)words(seed, (offset + rows + 64 + 63) / 64, same);
}

/* ---- the operations */

/* Returns word k of the bits that begin at bit `shift` of the first byte. */
static inline uint64_t word_at(const uint8_t *first, unsigned shift, size_t k) {
    uint64_t low, high;
    memcpy(&low, first + 8 * k, 8);
    memcpy(&high, first + 8 * k + 8, 8);
    return low >> shift | high << 1 << (63 - shift);
}

static inline uint64_t low_bits(uint64_t word, size_t count) { return word & ((UINT64_C(1) << count) - 1); }

CALL uint64_t *and(const uint8_t *left, size_t left_at, const uint8_t *right, size_t right_at, size_t rows) {
    size_t whole = rows / 64;
    uint64_t *made = room(whole + 1);
    const uint8_t *x = left + left_at / 8, *y = right + right_at / 8;
    unsigned shift_x = left_at % 8, shift_y = right_at % 8;
    for (size_t k = 0; k < whole; k++) made[k] = word_at(x, shift_x, k) & word_at(y, shift_y, k);
    made[whole] = low_bits(word_at(x, shift_x, whole) & word_at(y, shift_y, whole), rows % 64);
    return made;
}

CALL size_t set_bits(const uint8_t *bits, size_t at, size_t rows) {
    size_t count = 0, whole = rows / 64;
    const uint8_t *first = bits + at / 8;
    unsigned shift = at % 8;
    for (size_t k = 0; k < whole; k++) count += (size_t)__builtin_popcountll(word_at(first, shift, k));
    return count + (size_t)__builtin_popcountll(low_bits(word_at(first, shift, whole), rows % 64));
}

static inline uint64_t pext_by_bits(uint64_t value, uint64_t mask) {
    uint64_t packed = 0;
    for (unsigned place = 0; mask; mask &= mask - 1, place++) packed |= (value >> __builtin_ctzll(mask) & 1) << place;
    return packed;
}

CALL uint64_t sum_of_bits(const uint64_t *values, const uint64_t *masks, size_t rows, uint64_t repeat) {
    uint64_t total = 0;
    for (size_t i = 0; i < rows; i++) total += pext_by_bits(values[i] ^ repeat, masks[i]);
    return total;
}

#ifdef __BMI2__
CALL uint64_t sum_of(const uint64_t *values, const uint64_t *masks, size_t rows, uint64_t repeat) {
    uint64_t total = 0;
    for (size_t i = 0; i < rows; i++) total += _pext_u64(values[i] ^ repeat, masks[i]);
    return total;
}
#endif

/* ---- the repeats */

typedef struct job {
    char name[32];
    size_t rows, left, right;
    uint64_t repeats;
} job;

/* Every second repeat begins 64 bits later. */
static size_t first(size_t offset, uint64_t repeat) { return repeat % 2 ? offset + 64 : offset; }

static uint64_t repeat_and(const job *j) {
    const uint8_t *left = side(LEFT, j->left, j->rows), *right = side(RIGHT, j->right, j->rows);
    uint64_t total = 0;
    for (uint64_t k = 0; k < j->repeats; k++) {
        uint64_t *made = and(left, first(j->left, k), right, first(j->right, k), j->rows);
        if (k + 1 == j->repeats) total += set_bits((const uint8_t *)made, 0, j->rows);
        total += made[0] & 1;
        free(made);
    }
    return total;
}

static uint64_t repeat_set_bits(const job *j) {
    const uint8_t *left = side(LEFT, j->left, j->rows);
    uint64_t total = 0;
    for (uint64_t k = 0; k < j->repeats; k++) total += set_bits(left, first(j->left, k), j->rows);
    return total;
}

typedef uint64_t summed(const uint64_t *values, const uint64_t *masks, size_t rows, uint64_t repeat);

static uint64_t repeat_pext(const job *j, uint64_t (*mask)(uint64_t), summed *sum) {
    const uint64_t *values = words(LEFT, j->rows, same), *masks = words(RIGHT, j->rows, mask);
    uint64_t total = 0;
    for (uint64_t k = 0; k < j->repeats; k++) total += sum(values, masks, j->rows, k);
    return total;
}

static bool compute(const job *j, uint64_t *number) {
    const char *name = j->name;
    if (!strcmp(name, "and")) *number = repeat_and(j);
    else if (!strcmp(name, "set_bits")) *number = repeat_set_bits(j);
    else if (!strcmp(name, "pext_bits")) *number = repeat_pext(j, same, sum_of_bits);
    else if (!strcmp(name, "pext_four_bits")) *number = repeat_pext(j, word_of_four, sum_of_bits);
#ifdef __BMI2__
    else if (!strcmp(name, "pext")) *number = repeat_pext(j, same, sum_of);
    else if (!strcmp(name, "pext_four")) *number = repeat_pext(j, word_of_four, sum_of);
#endif
    else return false;
    return true;
}

int main(void) {
    job j;
    while (scanf("%31s %zu %zu %zu %" SCNu64, j.name, &j.rows, &j.left, &j.right, &j.repeats) == 5) {
        uint64_t number;
        if (j.rows > 0 && compute(&j, &number)) printf("%" PRIu64 "\n", number);
        else puts("no answer");
    }
    return 0;
}
