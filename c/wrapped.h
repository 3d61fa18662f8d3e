/* The allocator that a program has in place of the system's, and the system's own: it is linked with -Wl,--wrap=malloc,
 * --wrap=calloc, --wrap=realloc and --wrap=free. */
#ifndef SEL_WRAPPED_H
#define SEL_WRAPPED_H

#include <stddef.h>

void *__real_malloc(size_t size);
void *__real_calloc(size_t count, size_t size);
void *__real_realloc(void *block, size_t size);
void __real_free(void *block);
void *__wrap_malloc(size_t size);
void *__wrap_calloc(size_t count, size_t size);
void *__wrap_realloc(void *block, size_t size);
void __wrap_free(void *block);

#endif
