/* Choices: pseudo-random ones that a seed determines, or those that the bytes of a fuzzer's input name. */
#ifndef SEL_TESTS_RANDOM_DRAW_H
#define SEL_TESTS_RANDOM_DRAW_H

#include <stdbool.h>
#include <stddef.h>
#include <stdint.h>

/* A source of choices. Once an input has ended, every choice is 0. */
struct draws {
    uint64_t state;             /* of the generator, if there is no input */
    const uint8_t *input;
    size_t left;                /* bytes of the input that are left */
};

/* Returns the choices of a seed. */
struct draws draws_of_seed(uint64_t seed);

/* Returns the choices of an input, which must not be null and stays as long as they are used. */
struct draws draws_of_input(const uint8_t *input, size_t len);

/* Returns a number below `below`, which is at least 1. */
size_t draw(struct draws *draws, size_t below);

/* Returns true once in `times` on average. */
bool draw_one_in(struct draws *draws, size_t times);

/* Returns 64 bits. */
uint64_t draw_bits(struct draws *draws);

/* Returns whether an input has ended; choices of a seed never end. */
bool draws_ended(const struct draws *draws);

#endif
