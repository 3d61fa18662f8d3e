/* An Arrow array and its schema, made of choices: each buffer is as long as the array says, and every count, flag, offset and
 * format is free. */
#ifndef SEL_TESTS_FUZZ_PRODUCER_H
#define SEL_TESTS_FUZZ_PRODUCER_H

#include "../random/draw.h"
#include "sel_arrow.h"

/* Makes an array and its schema. Their memory stays until producer_end. */
void producer_make(struct draws *draws, struct ArrowArray *array, struct ArrowSchema *schema);

/* Returns a hash of all memory of the array and its schema, but for the two structures that were passed. */
uint64_t producer_hash(void);

/* Returns how often the array was released. */
size_t producer_releases(void);

/* Frees the memory of the array that was made last. */
void producer_end(void);

#endif
