/* What the programs that count and time calls share. */
#ifndef SEL_BENCH_COMMON_H
#define SEL_BENCH_COMMON_H

#include "sel.h"

#include <stdio.h>
#include <stdlib.h>

static inline void must(sel_status status) {
    if (status != SEL_OK) {
        fprintf(stderr, "a call failed: %s\n", sel_status_string(status));
        exit(1);
    }
}

/* Memory of `count` times `size` bytes, all 0. */
static inline void *room(size_t count, size_t size) {
    void *block = calloc(count, size);
    if (block == NULL) {
        fprintf(stderr, "out of memory\n");
        exit(1);
    }
    return block;
}

/* The next number of a fixed sequence. */
static inline uint32_t next(void) {
    static uint64_t state = 7;
    state = state * 6364136223846793005u + 1442695040888963407u;
    return (uint32_t)(state >> 33);
}

#endif
