#include "draw.h"

struct draws draws_of_seed(uint64_t seed) {
    return (struct draws){seed, NULL, 0};
}

struct draws draws_of_input(const uint8_t *input, size_t len) {
    return (struct draws){0, input, len};
}

bool draws_ended(const struct draws *draws) {
    return draws->input != NULL && draws->left == 0;
}

/* The generator splitmix64. */
static uint64_t next_of_seed(struct draws *draws) {
    draws->state += 0x9e3779b97f4a7c15U;
    uint64_t mixed = draws->state;
    mixed = (mixed ^ (mixed >> 30)) * 0xbf58476d1ce4e5b9U;
    mixed = (mixed ^ (mixed >> 27)) * 0x94d049bb133111ebU;
    return mixed ^ (mixed >> 31);
}

/* Returns the number of the next `len` bytes of the input, which are 0 past its end. */
static uint64_t next_of_input(struct draws *draws, size_t len) {
    uint64_t number = 0;
    for (size_t i = 0; i < len && draws->left > 0; i += 1) {
        number = number << 8 | *draws->input;
        draws->input += 1;
        draws->left -= 1;
    }
    return number;
}

/* Returns how many bytes of an input make a number below `below`. */
static size_t bytes_for(size_t below) {
    size_t bytes = 1;
    for (size_t most = (below - 1) >> 8; most > 0; most >>= 8) {
        bytes += 1;
    }
    return bytes;
}

size_t draw(struct draws *draws, size_t below) {
    if (below <= 1) {
        return 0;
    }
    uint64_t number = draws->input == NULL ? next_of_seed(draws) >> 11 : next_of_input(draws, bytes_for(below));
    return (size_t)(number % below);
}

bool draw_one_in(struct draws *draws, size_t times) {
    return draw(draws, times) == times - 1;
}

uint64_t draw_bits(struct draws *draws) {
    return draws->input == NULL ? next_of_seed(draws) : next_of_input(draws, 8);
}
