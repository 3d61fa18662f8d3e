#include "arrow_lease.h"

#include <assert.h>
#include <pthread.h>
#include <stdatomic.h>
#include <stdlib.h>
#include <string.h>

typedef struct sel_origin {
    struct ArrowArray array;
    size_t leases; /* those that have not ended */
    struct sel_origin *next;
} origin;

typedef struct sel_lease {
    struct sel_lease *next;
    lent_buffer buffer;
    sel_type_id type; /* SEL_TYPE_BOOLEAN: bits */
    const void *at;
    void *block;      /* is freed when it comes back, or NULL */
    origin *from;     /* the array whose memory it is, or NULL if it is a block's */
} lease;

/* All leases of imports that succeeded. */
static lease *leases;
static pthread_mutex_t lock = PTHREAD_MUTEX_INITIALIZER;
static atomic_size_t lease_count;

/* The calls that freed an owner since the last sweep, and the number of leases up to which each call sweeps. */
static atomic_size_t frees;
enum { LEASES_AT_ONCE = 64 };

/* The address of empty memory. */
static int64_t nothing[2];

/* ---- one lease */

static sel_status lend(lease *l, size_t len) {
    lent_memory memory = {(void *)l->at, len, len};
    switch (l->type) {
    case SEL_TYPE_INT8: return sel_int8_lend(&memory, &l->buffer);
    case SEL_TYPE_INT16: return sel_int16_lend(&memory, &l->buffer);
    case SEL_TYPE_INT32: return sel_int32_lend(&memory, &l->buffer);
    case SEL_TYPE_INT64: return sel_int64_lend(&memory, &l->buffer);
    case SEL_TYPE_UINT8: return sel_uint8_lend(&memory, &l->buffer);
    case SEL_TYPE_UINT16: return sel_uint16_lend(&memory, &l->buffer);
    case SEL_TYPE_UINT32: return sel_uint32_lend(&memory, &l->buffer);
    case SEL_TYPE_UINT64: return sel_uint64_lend(&memory, &l->buffer);
    default: return sel_views_lend(&memory, &l->buffer);
    }
}

static sel_status lend_bits(lease *l, size_t len) {
    size_t bytes = len / 8 + (len % 8 != 0);
    return sel_bits_lend(&(lent_memory){(void *)l->at, bytes, bytes}, len, &l->buffer);
}

static sel_status back(lease *l, lent_memory *memory) {
    switch (l->type) {
    case SEL_TYPE_BOOLEAN: return sel_bits_back(&l->buffer, memory);
    case SEL_TYPE_INT8: return sel_int8_back(&l->buffer, memory);
    case SEL_TYPE_INT16: return sel_int16_back(&l->buffer, memory);
    case SEL_TYPE_INT32: return sel_int32_back(&l->buffer, memory);
    case SEL_TYPE_INT64: return sel_int64_back(&l->buffer, memory);
    case SEL_TYPE_UINT8: return sel_uint8_back(&l->buffer, memory);
    case SEL_TYPE_UINT16: return sel_uint16_back(&l->buffer, memory);
    case SEL_TYPE_UINT32: return sel_uint32_back(&l->buffer, memory);
    case SEL_TYPE_UINT64: return sel_uint64_back(&l->buffer, memory);
    default: return sel_views_back(&l->buffer, memory);
    }
}

/* Takes the memory of a lease back, unless another owner of the buffer is left. */
static bool comes_back(lease *l) {
    lent_memory memory = {nothing, 0, 0};
    if (back(l, &memory) != SEL_OK) return false;
    assert(memory.at == l->at);
    return true;
}

static void free_lease(lease *l) {
    free(l->block);
    free(l);
}

/* ---- loans */

sel_status sel_loan_begin(sel_loan *loan) {
    *loan = (sel_loan){NULL, calloc(1, sizeof(origin))};
    return loan->origin ? SEL_OK : SEL_ERROR_OUT_OF_MEMORY;
}

/* Lends memory, which is the block's if there is one. Frees the block on error. */
static sel_status add(sel_loan *loan, sel_type_id type, const void *at, size_t len, void *block, const lent_buffer **out) {
    lease *l = calloc(1, sizeof *l);
    sel_status status = l ? SEL_OK : SEL_ERROR_OUT_OF_MEMORY;
    if (l) {
        *l = (lease){loan->leases, {NULL}, type, len > 0 ? at : nothing, block, block || len == 0 ? NULL : loan->origin};
        status = type == SEL_TYPE_BOOLEAN ? lend_bits(l, len) : lend(l, len);
    }
    if (status != SEL_OK) {
        free(block);
        free(l);
        return status;
    }
    if (l->from) l->from->leases++;
    loan->leases = l;
    *out = &l->buffer;
    return SEL_OK;
}

static size_t size_of(sel_type_id type) {
    switch (type) {
    case SEL_TYPE_INT8: case SEL_TYPE_UINT8: return 1;
    case SEL_TYPE_INT16: case SEL_TYPE_UINT16: return 2;
    case SEL_TYPE_INT32: case SEL_TYPE_UINT32: return 4;
    case SEL_TYPE_INT64: case SEL_TYPE_UINT64: return 8;
    default: return sizeof(sel_view);
    }
}

/* Tests whether there can be so much memory at an address: it would not end past the last address. */
static bool fits(const void *at, size_t len, size_t size) {
    return len <= PTRDIFF_MAX / size && (uintptr_t)at <= (uintptr_t)PTRDIFF_MAX - len * size;
}

sel_status sel_loan_values(sel_loan *loan, sel_type_id type, const void *at, size_t len, const lent_buffer **out) {
    size_t size = size_of(type), align = size < 16 ? size : _Alignof(sel_view);
    if (!fits(at, len, size)) return SEL_ERROR_ARROW_LENGTH;
    if (len == 0 || (uintptr_t)at % align == 0) return add(loan, type, at, len, NULL, out);
    void *copy = malloc(len * size);
    return copy ? sel_loan_block(loan, type, memcpy(copy, at, len * size), len, out) : SEL_ERROR_OUT_OF_MEMORY;
}

sel_status sel_loan_bits(sel_loan *loan, const void *at, size_t len, const lent_buffer **out) {
    return add(loan, SEL_TYPE_BOOLEAN, at, len, NULL, out);
}

sel_status sel_loan_block(sel_loan *loan, sel_type_id type, void *block, size_t len, const lent_buffer **out) {
    return add(loan, type, block, len, block, out);
}

void sel_loan_cancel(sel_loan *loan) {
    while (loan->leases) {
        lease *l = loan->leases;
        loan->leases = l->next;
        bool is_back = comes_back(l);
        assert(is_back);
        (void)is_back;
        free_lease(l);
    }
    free(loan->origin);
    loan->origin = NULL;
}

/* A fork waits for the lock, and both processes give it back: the child has only the thread that forked, so that nobody else could. */
static void lock_leases(void) { pthread_mutex_lock(&lock); }

static void unlock_leases(void) { pthread_mutex_unlock(&lock); }

__attribute__((constructor)) static void prepare_for_forks(void) { (void)pthread_atfork(lock_leases, unlock_leases, unlock_leases); }

void sel_loan_commit(sel_loan *loan, struct ArrowArray *array) {
    lease *first = loan->leases, *last = first;
    origin *from = loan->origin;
    struct ArrowArray moved = *array;
    size_t count = first != NULL;
    bool is_lent = from->leases > 0;
    array->release = NULL;
    from->array = moved;
    while (last && last->next) last = last->next, count++;
    if (first) {
        pthread_mutex_lock(&lock);
        last->next = leases;
        leases = first;
        atomic_fetch_add(&lease_count, count);
        pthread_mutex_unlock(&lock);
    }
    *loan = (sel_loan){NULL, NULL};
    if (is_lent) return;
    free(from);
    moved.release(&moved);
}

/* ---- sweeping */

/* Removes the leases that end, and returns the origins with none left. */
static origin *end_leases(void) {
    origin *ended = NULL;
    for (lease **place = &leases; *place;) {
        lease *l = *place;
        if (!comes_back(l)) {
            place = &l->next;
            continue;
        }
        *place = l->next;
        atomic_fetch_sub(&lease_count, 1);
        if (l->from && --l->from->leases == 0) {
            l->from->next = ended;
            ended = l->from;
        }
        free_lease(l);
    }
    return ended;
}

/* Ends what leases can end, and releases the arrays of which none is left. */
static void sweep_once(void) {
    pthread_mutex_lock(&lock);
    origin *ended = end_leases();
    pthread_mutex_unlock(&lock);
    while (ended) {
        origin *next = ended->next;
        struct ArrowArray array = ended->array;
        free(ended);
        array.release(&array);
        ended = next;
    }
}

/* Whether this thread sweeps, and whether a release that the sweep called asked for another one. */
static _Thread_local bool is_sweeping, sweeps_again;

/* A release may call this library, and may free the last owner of another array. That one is released when the release has
 * returned: a chain of arrays, each of which holds the one before, does not nest on the stack. */
void sel_sweep(void) {
    if (atomic_load(&lease_count) == 0) return;
    sweeps_again = true;
    if (is_sweeping) return;
    is_sweeping = true;
    while (sweeps_again) {
        sweeps_again = false;
        sweep_once();
    }
    is_sweeping = false;
}

/* Sweeps after an owner was freed. A sweep asks for each lease: with many of them, not at each call. */
static void sweep_in_turn(void) {
    size_t count = atomic_load(&lease_count);
    if (count == 0) return;
    if (atomic_fetch_add(&frees, 1) < (count - 1) / LEASES_AT_ONCE) return;
    atomic_store(&frees, 0);
    sel_sweep();
}

void sel_free(sel_column *of) {
    sel_proved_free(of);
    sweep_in_turn();
}

/* The mask of a selection may be lent memory. */
void sel_selection_free(sel_selection *of) {
    sel_proved_selection_free(of);
    sweep_in_turn();
}
