/* The allocator of the tests of the Arrow interface, and all of these tests. */
#include "arrow_test.h"
#include "wrapped.h"

#include <stdio.h>
#include <stdlib.h>

/* ---- the allocator: linked with --wrap, it refuses one allocation and counts blocks */

static long until_refused = -1, held;
static bool was_refused;

static bool is_refused(void) {
    bool refuses = until_refused >= 0 && until_refused-- == 0;
    was_refused = was_refused || refuses;
    return refuses;
}

static void *counted(void *at) {
    held += at != NULL;
    return at;
}

void *__wrap_malloc(size_t size) { return is_refused() ? NULL : counted(__real_malloc(size)); }
void *__wrap_calloc(size_t count, size_t size) { return is_refused() ? NULL : counted(__real_calloc(count, size)); }
void *__wrap_realloc(void *at, size_t size) {
    if (is_refused()) return NULL;
    void *moved = __real_realloc(at, size);
    held += !at && moved;
    return moved;
}
void __wrap_free(void *at) {
    held -= at != NULL;
    __real_free(at);
}

bool refuse(long number) {
    bool before = was_refused;
    until_refused = number;
    was_refused = false;
    return before;
}

long blocks(void) { return held; }

static int failures;

void check(bool holds, const char *what, const char *file, int line) {
    if (holds) return;
    printf("%s:%d: %s\n", file, line, what);
    failures++;
}

static long refusals;

void refuse_each(sel_status (*call)(void *), void *with, const char *what) {
    const long before = held;
    for (long number = 0;; number++) {
        refuse(number);
        sel_status status = call(with);
        bool refused = refuse(-1);
        if (status != (refused ? SEL_ERROR_OUT_OF_MEMORY : SEL_OK) || held != before || number > 100000) {
            printf("%s, allocation %ld: status %u, %ld blocks more\n", what, number, (unsigned)status, held - before);
            failures++;
            return;
        }
        if (!refused) return;
        refusals++;
    }
}

/* ---- all tests */

int main(void) {
    test_imports();
    test_nested();
    test_exports();
    test_formats();
    test_types();
    test_dictionaries();
    test_rules();
    test_streams();
    CHECK(held == 0 && refusals > 1000);
    printf("arrow: %ld refused allocations, %d failures\n", refusals, failures);
    return failures != 0;
}
