/* Times a filter of many columns by one mask, with the mask for each column and with one selection for all. Prints a line for each
 * case: the rows, the percentage of the mask's values that are true, whether the mask has nulls, and both times of a column in ns. */
#define _POSIX_C_SOURCE 200809L

#include "common.h"

#include <stdio.h>
#include <stdlib.h>
#include <time.h>

enum { COLUMNS = 1000, ROUNDS = 30 };

static double now(void) {
    struct timespec at;
    clock_gettime(CLOCK_MONOTONIC, &at);
    return 1e9 * (double)at.tv_sec + (double)at.tv_nsec;
}

static sel_column table[COLUMNS], results[COLUMNS];

static void by_mask(const sel_column *mask) {
    for (size_t i = 0; i < COLUMNS; i += 1) {
        must(sel_filter(&table[i], mask, &results[i]));
    }
}

static void by_selection(const sel_column *mask) {
    sel_selection by = {0};
    must(sel_selection_new(mask, &by));
    for (size_t i = 0; i < COLUMNS; i += 1) {
        must(sel_filter_selection(&table[i], &by, &results[i]));
    }
    sel_selection_free(&by);
}

/* Returns the best time of a column in ns; a result is freed by the next call that writes its handle. */
static double best(void (*filter)(const sel_column *mask), const sel_column *mask) {
    double least = 0;
    filter(mask);
    for (size_t round = 0; round < ROUNDS; round += 1) {
        double start = now();
        filter(mask);
        double took = (now() - start) / COLUMNS;
        least = round == 0 || took < least ? took : least;
    }
    return least;
}

static void time_table(size_t rows, bool has_nulls, uint32_t kept_of_hundred) {
    int64_t *values = room(rows, sizeof *values);
    uint8_t *bits = room(rows / 8 + 1, 1), *valid = room(rows / 8 + 1, 1);
    sel_column mask = {0};
    for (size_t i = 0; i < rows; i += 1) {
        values[i] = next();
        bits[i / 8] |= (uint8_t)((next() % 100 < kept_of_hundred) << (i % 8));
        valid[i / 8] |= (uint8_t)((next() % 10 < 9) << (i % 8));
    }
    must(sel_boolean_new(bits, rows / 8 + 1, rows, valid, rows / 8 + 1, has_nulls, &mask));
    for (size_t i = 0; i < COLUMNS; i += 1) {
        must(sel_int64_new(values, rows, SEL_ALL_VALID, &table[i]));
    }
    printf("%zu|%u|%s|%.1f|%.1f\n", rows, kept_of_hundred, has_nulls ? "yes" : "no", best(by_mask, &mask), best(by_selection, &mask));
    for (size_t i = 0; i < COLUMNS; i += 1) {
        sel_free(&table[i]);
        sel_free(&results[i]);
    }
    sel_free(&mask);
    free(values);
    free(bits);
    free(valid);
}

int main(void) {
    static const size_t sizes[] = {1, 64, 1000, 16384};
    for (size_t i = 0; i < sizeof sizes / sizeof *sizes; i += 1) {
        for (int has_nulls = 0; has_nulls < 2; has_nulls += 1) {
            time_table(sizes[i], has_nulls != 0, sizes[i] == 1 ? 100 : 1);
            if (sizes[i] > 1) {
                time_table(sizes[i], has_nulls != 0, 50);
            }
        }
    }
    return 0;
}
