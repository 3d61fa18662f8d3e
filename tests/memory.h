/* Memory of the runner, and an allocator that counts the blocks in use and refuses allocations on demand.
 * A program with this file is linked with -Wl,--wrap=malloc,--wrap=calloc,--wrap=realloc,--wrap=free. */
#ifndef SEL_TESTS_MEMORY_H
#define SEL_TESTS_MEMORY_H

#include <stdbool.h>
#include <stddef.h>

/* Refuses the allocation with this number, counted from 0 and from now on; with `and_later` each one after it, too. */
void memory_refuse(long number, bool and_later);

/* Ends the refusals. Returns how many allocations were refused since the last call of memory_refuse. */
long memory_allow(void);

/* Returns how many blocks are in use. */
long memory_in_use(void);

/* Blocks that are freed together. {0} is an arena without blocks. */
struct arena {
    struct block *last;
};

/* Returns zeroed room for `count` items of `size` bytes; ends the program if there is no memory. Room of no bytes is a
 * valid pointer, too. Each piece of room is a block of the allocator of its own, so that valgrind sees its end. */
void *arena_take(struct arena *arena, size_t count, size_t size);

/* Returns a copy of `len` bytes with a zero behind them. */
char *arena_text(struct arena *arena, const char *text, size_t len);

/* Frees all blocks of the arena, which is {0} afterwards. */
void arena_free(struct arena *arena);

#endif
