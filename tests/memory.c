#include "memory.h"
#include "../c/wrapped.h"

#include <stdatomic.h>
#include <stdint.h>
#include <stdio.h>
#include <stdlib.h>
#include <string.h>

/* ---- the allocator ---- */

/* Several threads may allocate at once, but not while allocations are refused. */
static atomic_long in_use;
static bool is_refusing, refuses_later;
static long until_refused, refused;

void memory_refuse(long number, bool and_later) {
    is_refusing = true;
    refuses_later = and_later;
    until_refused = number;
    refused = 0;
}

long memory_allow(void) {
    is_refusing = false;
    return refused;
}

long memory_in_use(void) {
    return in_use;
}

/* Counts down to the allocation that is to be refused; returns whether this one is. */
static bool is_refused(void) {
    if (!is_refusing) {
        return false;
    }
    if (until_refused > 0) {
        until_refused -= 1;
        return false;
    }
    is_refusing = refuses_later;
    refused += 1;
    return true;
}

static void *counted(void *block) {
    in_use += block != NULL;
    return block;
}

void *__wrap_malloc(size_t size) {
    return is_refused() ? NULL : counted(__real_malloc(size));
}

void *__wrap_calloc(size_t count, size_t size) {
    return is_refused() ? NULL : counted(__real_calloc(count, size));
}

void *__wrap_realloc(void *block, size_t size) {
    if (is_refused()) {
        return NULL;
    }
    void *moved = __real_realloc(block, size);
    in_use += block == NULL && moved != NULL;
    return moved;
}

void __wrap_free(void *block) {
    in_use -= block != NULL;
    __real_free(block);
}

/* ---- arenas ---- */

struct block {
    struct block *before;
    max_align_t room[];
};

void *arena_take(struct arena *arena, size_t count, size_t size) {
    struct block *block = NULL;
    if (size == 0 || count <= (SIZE_MAX - sizeof *block) / size) {
        block = calloc(1, sizeof *block + count * size);
    }
    if (block == NULL) {
        fprintf(stderr, "the runner is out of memory\n");
        exit(2);
    }
    block->before = arena->last;
    arena->last = block;
    return block->room;
}

char *arena_text(struct arena *arena, const char *text, size_t len) {
    char *copy = arena_take(arena, len + 1, 1);
    memcpy(copy, text, len);
    return copy;
}

void arena_free(struct arena *arena) {
    while (arena->last != NULL) {
        struct block *block = arena->last;
        arena->last = block->before;
        free(block);
    }
}
