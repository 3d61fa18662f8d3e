/* What the tests of the library for C share. */
#ifndef SEL_TEST_H
#define SEL_TEST_H

#include "sel.h"

/* An allocation was refused in this run of a test, so that a column may be missing. */
extern bool refused;

/* Refuses the allocation with this number, counted from 0 from now on; none if it is negative. Sets `refused` to false. */
void refuse(long number);

/* Returns the number of blocks that are not freed. */
long blocks_in_use(void);

/* Returns the number of bytes in the blocks that are not freed. */
size_t bytes_in_use(void);

/* Begins to record the largest number of bytes in use; bytes_above returns by how much it was above `before`. */
void watch_bytes(void);
size_t bytes_above(size_t before);

/* Tests whether an allocation was refused since the last check. */
bool was_refused(void);

/* Tests whether the status is the wanted one, or out of memory exactly if an allocation was refused since the last check. */
bool gives(sel_status status, sel_status wanted);

void is_at(bool holds, const char *what, const char *file, int line);

#define IS(holds) is_at((holds), #holds, __FILE__, __LINE__)

/* The same for a call that succeeds. */
bool done(sel_status status);

#define DONE(call) is_at(done(call), #call, __FILE__, __LINE__)

extern const uint8_t no_bits[1];

/* The view of up to 12 bytes, and one of more of them in a data buffer. */
sel_view view_of(const char *text, uint32_t len, uint32_t offset);

/* Runs each test, then again with each `step`-th of its allocations refused in turn, and checks that all blocks are freed. */
void run_tests(void (*const *tests)(void), size_t count, long step);

/* Prints the number of tests, refused allocations and failures; returns the exit status. */
int finish(void);

/* test_several.c */
void test_choices(void);
void test_broadcasts(void);
void test_chosen_kinds(void);
void test_flattens(void);
void test_collected_rows(void);
void test_dictionaries(void);
void test_equal_rows(void);
void test_prints(void);
void test_prints_types(void);
void test_parses(void);
void test_misread_texts(void);
void test_parse_memory(void);
void test_flatten_limits(void);
void test_list_limits(void);

/* test_empty.c */
void test_empty_inputs(void);
void test_empty_outputs(void);
void test_strings(void);

#endif
