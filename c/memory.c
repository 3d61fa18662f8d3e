/* The memory of the proved functions: that of malloc, with huge pages asked for in large blocks where the system has them. A new
 * block of many small pages costs a fault for each, which threads wait for in turn; see docs/BENCHMARKS.md. */
#define _DEFAULT_SOURCE
#include <errno.h>
#include <stdatomic.h>
#include <stdbool.h>
#include <stdint.h>
#include <stdlib.h>
#include <string.h>

#include <sys/mman.h>

/* What malloc, realloc and free of the proved functions' archive are named in the library. */
void *sel_memory_malloc(size_t size);
void *sel_memory_realloc(void *block, size_t size);
void sel_memory_free(void *block);

/* Blocks of fewer bytes are left as they are. */
#define LEAST_BYTES ((size_t)4 << 20)

/* The start of a range that madvise takes is a multiple of this. */
#define PAGE ((uintptr_t)4096)

enum { UNKNOWN, WANTED, UNWANTED };

/* Returns whether huge pages are asked for: always, unless SEL_HUGE_PAGES is 0 when the first large block is made. */
static bool wants_huge_pages(void) {
    static atomic_int state = UNKNOWN;
    int known = atomic_load(&state);
    if (known == UNKNOWN) {
        const char *said = getenv("SEL_HUGE_PAGES");
        known = said && !strcmp(said, "0") ? UNWANTED : WANTED;
        atomic_store(&state, known);
    }
    return known == WANTED;
}

/* Asks for huge pages in the whole pages of a block. It is a hint: if the system refuses it, nothing changes. */
static void *advised(void *block, size_t size) {
    if (block && size >= LEAST_BYTES && wants_huge_pages()) {
        int kept = errno;
        char *at = block;
        size_t before = (size_t)(-(uintptr_t)at & (PAGE - 1));
        (void)madvise(at + before, (size - before) & ~(size_t)(PAGE - 1), MADV_HUGEPAGE);
        errno = kept;
    }
    return block;
}

void *sel_memory_malloc(size_t size) { return advised(malloc(size), size); }

void *sel_memory_realloc(void *block, size_t size) { return advised(realloc(block, size), size); }

void sel_memory_free(void *block) { free(block); }
