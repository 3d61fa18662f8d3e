/* Columns of 128 levels, the most that a column can have: every function of both headers on a thread whose stack is measured, with
 * allocations refused in turn; no call may use more than 256 KiB of it. The tests are those of test_depth_calls.c, test_depth_arrow.c and
 * test_depth_makers.c. */
#define _POSIX_C_SOURCE 200809L

#include "test_depth.h"

#include <pthread.h>
#include <stdio.h>
#include <string.h>

enum { STACK = 256 * 1024 };

static void (*const tests[])(void) = {
    test_values, test_properties, test_children, test_comparison, test_type_text, test_level_129, test_unit_list_of_127_levels, test_flat_children,
    test_deep_lists, test_deep_fixed_size_lists, test_deep_structs, test_leaves,
};

/* Each of these makes some thousand allocations, of which every 37th is refused; those of Arrow are some ten thousand. */
static void (*const long_tests[])(void) = {
    test_parts, test_elements, test_parsing, test_selections, test_prepared_masks, test_choices_of_deep_columns, test_several_columns,
};
static void (*const longest_tests[])(void) = {test_arrow, test_types_of_levels, test_dictionary_of_levels, test_stream_of_levels};
enum { STEP = 37, LONG_STEP = 499 };

static void *run_shapes(void *unused) {
    (void)unused;
    for (shape = 0; shape < SHAPES; shape += 1) {
        make_columns();
        run_tests(tests, sizeof tests / sizeof *tests, 1);
        run_tests(long_tests, sizeof long_tests / sizeof *long_tests, STEP);
        run_tests(longest_tests, sizeof longest_tests / sizeof *longest_tests, LONG_STEP);
        free_columns();
    }
    return NULL;
}

/* The stack of the thread: larger than what a call may use, so that a call that uses more is measured and does not end the test. */
static _Alignas(4096) unsigned char stack[4 * STACK];
enum { UNTOUCHED = 0xA5 };

/* Returns how many bytes of the stack, from its top on, a call has written to. */
static size_t stack_used(void) {
    size_t left = 0;
    while (left < sizeof stack && stack[left] == UNTOUCHED) {
        left += 1;
    }
    return sizeof stack - left;
}

int main(void) {
    pthread_attr_t attributes;
    pthread_t thread;
    memset(stack, UNTOUCHED, sizeof stack);
    if (pthread_attr_init(&attributes) != 0 || pthread_attr_setstack(&attributes, stack, sizeof stack) != 0
        || pthread_create(&thread, &attributes, run_shapes, NULL) != 0 || pthread_join(thread, NULL) != 0) {
        printf("no thread with a stack of this program\n");
        return 1;
    }
    size_t used = stack_used();
    printf("the calls use %zu KiB of stack at most, of %d that they may use\n", (used + 1023) / 1024, STACK / 1024);
    return used > STACK ? 1 : finish();
}
