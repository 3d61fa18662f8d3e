/* Calls by chance on a pool of columns, each result compared with the model's. */
#ifndef SEL_TESTS_RANDOM_STEPS_H
#define SEL_TESTS_RANDOM_STEPS_H

#include "../notation.h"
#include "draw.h"

enum { POOL_SIZE = 6 };

/* A column, and the rows that it must have. */
struct entry {
    sel_column column;
    struct rows rows;
};

/* Columns that calls take, with the memory of their rows. */
struct pool {
    struct arena arena;
    size_t count;
    struct entry entries[POOL_SIZE];
};

/* Fills an empty pool with columns of one type, in layouts by chance. */
void pool_fill(struct pool *pool, struct draws *draws);

/* Makes one call on columns of the pool, which it only reads, and compares its status and its result with the model's. Reports
 * what differs by `fail`, and returns whether nothing does. A result that may be put into a pool is in `made`, which is empty
 * before; the memory of its rows is in `arena`. */
bool pool_step(const struct pool *pool, struct arena *arena, struct draws *draws, struct entry *made);

/* Puts a column in the place of one of the pool. Its rows must be in the pool's arena. */
void pool_put(struct pool *pool, struct draws *draws, const struct entry *made);

/* Checks that the columns of the pool still have their rows. */
bool pool_check(struct pool *pool);

/* Frees the columns of the pool, and the memory of their rows. */
void pool_end(struct pool *pool);

#endif
