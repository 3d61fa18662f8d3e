/* Tests lent memory on several threads: columns over it are shared, sliced, exported, passed to the next thread and freed there. Each
 * array is released once, by whatever thread frees its last owner; also in a process that is forked meanwhile. Made to be run under helgrind.
 *
 * test_lease_threads ROUNDS */
#define _POSIX_C_SOURCE 200809L
#include "sel_arrow.h"

#include <pthread.h>
#include <stdatomic.h>
#include <stdio.h>
#include <stdlib.h>
#include <string.h>
#include <sys/wait.h>
#include <unistd.h>

enum { THREADS = 8, ROWS = 64 };

static int failures;

static void check(bool holds, const char *what, int line) {
    if (holds) return;
    failures++;
    printf("test_lease_threads.c:%d: %s\n", line, what);
}

#define CHECK(holds) check((holds), #holds, __LINE__)

/* ---- a producer */

typedef struct producer {
    int64_t values[ROWS];
    const void *buffers[2];
    atomic_int releases;
    struct ArrowArray array;
    struct ArrowSchema schema;
} producer;

static void release(struct ArrowArray *array) {
    producer *p = array->private_data;
    array->release = NULL;
    atomic_fetch_add(&p->releases, 1);
}

static void release_schema(struct ArrowSchema *schema) { schema->release = NULL; }

static bool import(producer *p, int64_t first, sel_column *out) {
    for (int64_t i = 0; i < ROWS; i++) p->values[i] = first + i;
    p->buffers[0] = NULL;
    p->buffers[1] = p->values;
    atomic_init(&p->releases, 0);
    p->array = (struct ArrowArray){ROWS, 0, 0, 2, 0, p->buffers, NULL, NULL, release, p};
    p->schema = (struct ArrowSchema){"l", "", NULL, ARROW_FLAG_NULLABLE, 0, NULL, NULL, release_schema, NULL};
    return sel_import(&p->array, &p->schema, out, NULL) == SEL_OK;
}

static bool begins_with(const sel_column *column, int64_t first) {
    int64_t values[ROWS] = {0};
    size_t len = sel_len(column);
    return len <= ROWS && sel_int64_values(column, values, len) == SEL_OK && values[0] == first;
}

/* ---- a place where a thread leaves an array for the next one */

typedef struct place {
    pthread_mutex_t lock;
    struct ArrowArray array;
} place;

static place places[THREADS];

/* Puts an array into a place, and releases the one that was there. */
static void leave(place *at, struct ArrowArray array) {
    pthread_mutex_lock(&at->lock);
    struct ArrowArray before = at->array;
    at->array = array;
    pthread_mutex_unlock(&at->lock);
    if (before.release) before.release(&before);
}

static sel_column common;
static producer shared;
static long rounds;

typedef struct worker {
    size_t index;
    long wrong;
    producer *producers; /* one for each round */
} worker;

/* Imports an array, and leaves a slice of it and one of the common column, exported, for the next thread. */
static bool one_round(worker *it, producer *p, int64_t first) {
    sel_column own = {0}, part = {0}, of_common = {0};
    struct ArrowArray array, other;
    struct ArrowSchema schema, other_schema;
    bool is_right = import(p, first, &own) && sel_slice(&own, 7, 9, &part) == SEL_OK && sel_slice(&common, 5, 20, &of_common) == SEL_OK &&
                    begins_with(&part, first + 7) && begins_with(&of_common, 5) && sel_export(&part, NULL, &array, &schema) == SEL_OK &&
                    sel_export(&of_common, NULL, &other, &other_schema) == SEL_OK;
    sel_free(&own);
    sel_free(&part);
    sel_free(&of_common);
    if (!is_right) return false;
    schema.release(&schema);
    other_schema.release(&other_schema);
    is_right = ((const int64_t *)array.buffers[1])[0] == first + 7 && other.buffers[1] == shared.values + 5;
    leave(&places[(it->index + 1) % THREADS], array);
    other.release(&other);
    return is_right;
}

static void *work(void *with) {
    worker *it = with;
    for (long i = 0; i < rounds; i++) it->wrong += !one_round(it, &it->producers[i], (int64_t)it->index * 1000 + i);
    return NULL;
}

/* Makes a chain of exported arrays, each of which is imported and holds the one before, and frees the last owner. The first array is released
 * by it, and the stack that this takes does not depend on the length of the chain. */
static void *free_chain(void *with) {
    producer *p = with;
    sel_column last = {0};
    CHECK(import(p, 0, &last));
    for (long i = 0; i < rounds; i++) {
        sel_column next = {0};
        struct ArrowArray array;
        struct ArrowSchema schema;
        CHECK(sel_export(&last, NULL, &array, &schema) == SEL_OK);
        CHECK(sel_import(&array, &schema, &next, NULL) == SEL_OK);
        schema.release(&schema);
        sel_free(&last);
        last = next;
    }
    sel_free(&last);
    for (long i = 0; i <= rounds / 64; i++) sel_free(&last);
    CHECK(atomic_load(&p->releases) == 1);
    return NULL;
}

enum { SMALL_STACK = 128 * 1024 };

static void chains_need_no_stack(void) {
    static producer first;
    pthread_attr_t attributes;
    pthread_t thread;
    CHECK(pthread_attr_init(&attributes) == 0 && pthread_attr_setstacksize(&attributes, SMALL_STACK) == 0);
    CHECK(pthread_create(&thread, &attributes, free_chain, &first) == 0 && pthread_join(thread, NULL) == 0);
    pthread_attr_destroy(&attributes);
}

/* ---- forks */

enum { HELD = 500, SECONDS = 60 };

static producer producers[HELD];
static sel_column held[HELD];
static atomic_bool is_over;

/* Frees all columns. Returns whether each array was released once. */
static bool free_held(void) {
    bool is_right = true;
    for (size_t i = 0; i < HELD; i++) sel_free(&held[i]);
    for (size_t i = 0; i <= HELD / 64; i++) sel_free(&held[0]);
    for (size_t i = 0; i < HELD; i++) is_right = is_right && atomic_load(&producers[i].releases) == 1;
    return is_right;
}

/* Looks for arrays to release, again and again, which takes the lock of the library for most of the time. */
static void *sweep(void *unused) {
    sel_column column = {0};
    struct ArrowArray array;
    struct ArrowSchema schema;
    (void)unused;
    CHECK(sel_null_new(1, &column) == SEL_OK);
    while (!atomic_load(&is_over) && sel_export(&column, NULL, &array, &schema) == SEL_OK) {
        schema.release(&schema);
        array.release(&array);
    }
    CHECK(atomic_load(&is_over));
    sel_free(&column);
    return NULL;
}

/* A process that is forked while another thread has the lock frees its columns, and releases their arrays. */
static void forks_have_the_lock(void) {
    pthread_t thread;
    for (size_t i = 0; i < HELD; i++) CHECK(import(&producers[i], 0, &held[i]));
    CHECK(pthread_create(&thread, NULL, sweep, NULL) == 0);
    for (long i = 0; i <= rounds / 20; i++) {
        int status = -1;
        pid_t child = fork();
        if (child == 0) {
            alarm(SECONDS);
            _exit(free_held() ? 0 : 1);
        }
        CHECK(child > 0 && waitpid(child, &status, 0) == child && status == 0);
        if (status != 0) break;
    }
    atomic_store(&is_over, true);
    CHECK(pthread_join(thread, NULL) == 0 && free_held());
}

int main(int argc, char **argv) {
    pthread_t threads[THREADS];
    worker workers[THREADS];
    rounds = argc > 1 ? strtol(argv[1], NULL, 10) : 100;
    CHECK(import(&shared, 0, &common));
    for (size_t i = 0; i < THREADS; i++) pthread_mutex_init(&places[i].lock, NULL);
    for (size_t i = 0; i < THREADS; i++) {
        workers[i] = (worker){i, 0, calloc((size_t)rounds, sizeof(producer))};
        CHECK(pthread_create(&threads[i], NULL, work, &workers[i]) == 0);
    }
    for (size_t i = 0; i < THREADS; i++) pthread_join(threads[i], NULL);
    for (size_t i = 0; i < THREADS; i++) leave(&places[i], (struct ArrowArray){0});
    CHECK(atomic_load(&shared.releases) == 0);
    sel_free(&common);
    CHECK(atomic_load(&shared.releases) == 1);
    for (size_t i = 0; i < THREADS; i++) {
        CHECK(workers[i].wrong == 0);
        for (long k = 0; k < rounds; k++) CHECK(atomic_load(&workers[i].producers[k].releases) == 1);
        free(workers[i].producers);
    }
    chains_need_no_stack();
    forks_have_the_lock();
    printf("%d threads, %ld rounds, %d failures\n", THREADS, rounds, failures);
    return failures ? 1 : 0;
}
