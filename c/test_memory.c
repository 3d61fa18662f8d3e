/* What the tests of the library for C share: the allocator, which counts blocks and fails on request, and the checks. A test is
 * linked with -Wl,--wrap=NAME for each of the four functions below. */

#include "test.h"
#include "wrapped.h"

#include <malloc.h>
#include <stdio.h>
#include <stdlib.h>
#include <string.h>

/* ---- the allocator ---- */

static long blocks = 0;
static long until_refused = -1;
static long refusals = 0;
bool refused = false;

/* an allocation was refused since the last check */
static bool is_pending = false;

static bool refuses(void) {
    if (until_refused < 0) {
        return false;
    }
    if (until_refused == 0) {
        refused = is_pending = true;
        refusals += 1;
        until_refused = -1;
        return true;
    }
    until_refused -= 1;
    return false;
}

static size_t bytes = 0, most_bytes = 0;

static void *counted(void *block) {
    blocks += block != NULL;
    bytes += malloc_usable_size(block);
    most_bytes = bytes > most_bytes ? bytes : most_bytes;
    return block;
}

void *__wrap_malloc(size_t size) { return refuses() ? NULL : counted(__real_malloc(size)); }

void *__wrap_calloc(size_t count, size_t size) { return refuses() ? NULL : counted(__real_calloc(count, size)); }

void *__wrap_realloc(void *block, size_t size) {
    if (refuses()) {
        return NULL;
    }
    /* while the block is moved, both are in use */
    size_t before = malloc_usable_size(block);
    void *moved = __real_realloc(block, size);
    if (moved == NULL) {
        return NULL;
    }
    blocks -= block != NULL;
    (void)counted(moved);
    bytes -= before;
    return moved;
}

void __wrap_free(void *block) {
    blocks -= block != NULL;
    bytes -= malloc_usable_size(block);
    __real_free(block);
}

void refuse(long number) {
    until_refused = number;
    refused = is_pending = false;
}

long blocks_in_use(void) { return blocks; }

void watch_bytes(void) { most_bytes = bytes; }

size_t bytes_above(size_t before) { return most_bytes - before; }

size_t bytes_in_use(void) { return bytes; }

/* ---- what a test says ---- */

enum { PRINTED = 50 };

static int failures = 0;

void is_at(bool holds, const char *what, const char *file, int line) {
    if (!holds) {
        const char *slash = strrchr(file, '/');
        failures += 1;
        if (failures <= PRINTED) {
            printf("%s:%d: %s\n", slash == NULL ? file : slash + 1, line, what);
        }
    }
}

bool was_refused(void) {
    const bool was = is_pending;
    is_pending = false;
    return was;
}

bool gives(sel_status status, sel_status wanted) { return status == (was_refused() ? SEL_ERROR_OUT_OF_MEMORY : wanted); }

bool done(sel_status status) { return gives(status, SEL_OK); }

const uint8_t no_bits[1] = {0};

sel_view view_of(const char *text, uint32_t len, uint32_t offset) {
    sel_view view = {len, 0, 0, 0};
    if (len <= 12) {
        memcpy(&view.prefix, text, len);
    } else {
        memcpy(&view.prefix, text, 4);
        view.offset = offset;
    }
    return view;
}

/* ---- tests ---- */

static size_t tests_run = 0;

/* Lets arrays that nothing uses any more be released: with many buffers lent, sel_free does not look at them in each call. */
static void release_unused(void) {
    sel_column none = {0};
    for (int i = 0; i < 100; i += 1) {
        sel_free(&none);
    }
}

void run_tests(void (*const *tests)(void), size_t count, long step) {
    for (size_t i = 0; i < count; i += 1) {
        const long before = blocks;
        refuse(-1);
        tests[i]();
        release_unused();
        IS(blocks == before);
        /* again, with the first allocation refused, then a later one, and so on */
        for (long n = 0;; n += step) {
            refuse(n);
            tests[i]();
            until_refused = -1;
            release_unused();
            IS(blocks == before && !was_refused()); /* each refusal was seen by the check of its call */
            if (!refused) {
                break;
            }
        }
        tests_run += 1;
    }
    refuse(-1);
}

int finish(void) {
    IS(blocks == 0 && refusals > 0);
    printf("%zu tests, %ld refused allocations, %d failures\n", tests_run, refusals, failures);
    return failures == 0 ? 0 : 1;
}
