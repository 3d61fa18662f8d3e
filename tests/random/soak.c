/* Random nested columns against the model: calls by chance on columns by chance, for a number of calls or seconds.
 *
 * soak [--seed N] [--calls N] [--seconds N] [--threads N]
 *
 * Each round makes columns from a seed and calls on them and on their results; with threads, that many make calls on the same
 * columns at once. A failure names its seed; `--seed N --calls 1` runs that round again. The last line has the numbers of the run.
 * The exit status is 0 if no failure was reported and there was a round. */
#include "../report.h"
#include "steps.h"

#include <inttypes.h>
#include <pthread.h>
#include <stdio.h>
#include <stdlib.h>
#include <string.h>
#include <time.h>

enum { STEPS_ALONE = 16, STEPS_OF_THREAD = 8, MOST_THREADS = 64 };

struct options {
    uint64_t seed, calls, seconds;
    size_t threads;
};

/* What one thread does on the columns that all share. */
struct worker {
    pthread_t thread;
    const struct pool *pool;
    struct draws draws;
    bool is_right;
};

static void *work(void *argument) {
    struct worker *worker = argument;
    worker->is_right = true;
    for (size_t i = 0; i < STEPS_OF_THREAD; i += 1) {
        struct arena arena = {NULL};
        struct entry made = {0};
        worker->is_right = pool_step(worker->pool, &arena, &worker->draws, &made) && worker->is_right;
        sel_free(&made.column);
        arena_free(&arena);
    }
    return NULL;
}

static bool share_among(const struct pool *pool, struct draws *draws, size_t threads) {
    struct worker workers[MOST_THREADS];
    bool is_right = true;
    for (size_t i = 0; i < threads; i += 1) {
        workers[i] = (struct worker){.pool = pool, .draws = draws_of_seed(draw_bits(draws))};
        if (pthread_create(&workers[i].thread, NULL, work, &workers[i]) != 0) {
            fprintf(stderr, "no thread could be made\n");
            exit(2);
        }
    }
    for (size_t i = 0; i < threads; i += 1) {
        is_right = pthread_join(workers[i].thread, NULL) == 0 && workers[i].is_right && is_right;
    }
    return is_right;
}

/* Runs the round of a seed. Returns whether nothing failed. */
static bool run_round(uint64_t seed, size_t threads) {
    static struct line line = {.file = "seed", .count = 1, .fields = {"random"}};
    long before = memory_in_use();
    struct draws draws = draws_of_seed(seed);
    struct pool pool = {0};
    bool is_right = true;
    line.number = (size_t)seed;
    report_line(&line);
    pool_fill(&pool, &draws);
    for (size_t i = 0; i < STEPS_ALONE; i += 1) {
        struct entry made = {0};
        is_right = pool_step(&pool, &pool.arena, &draws, &made) && is_right;
        if (made.column.at != NULL) {
            pool_put(&pool, &draws, &made);
        }
    }
    if (threads > 0) {
        is_right = share_among(&pool, &draws, threads) && is_right;
    }
    is_right = pool_check(&pool) && is_right;
    pool_end(&pool);
    is_right = (memory_in_use() == before || fail("%ld blocks are lost", memory_in_use() - before)) && is_right;
    return is_right && failures_of_line() == 0;
}

static bool read_options(int count, char **words, struct options *out) {
    for (int i = 1; i < count; i += 2) {
        char *end = NULL;
        uint64_t number = i + 1 < count ? strtoull(words[i + 1], &end, 10) : 0;
        if (end == NULL || end == words[i + 1] || *end != 0) {
            return false;
        }
        if (strcmp(words[i], "--seed") == 0) {
            out->seed = number;
        } else if (strcmp(words[i], "--calls") == 0) {
            out->calls = number;
        } else if (strcmp(words[i], "--seconds") == 0) {
            out->seconds = number;
        } else if (strcmp(words[i], "--threads") == 0 && number <= MOST_THREADS) {
            out->threads = (size_t)number;
        } else {
            return false;
        }
    }
    return true;
}

int main(int count, char **words) {
    struct options options = {.seed = 1, .calls = UINT64_MAX, .seconds = UINT64_MAX};
    if (!read_options(count, words, &options) || (options.calls == UINT64_MAX && options.seconds == UINT64_MAX)) {
        fprintf(stderr, "usage: soak [--seed N] [--calls N] [--seconds N] [--threads N]\n");
        return 2;
    }
    uint64_t calls = 0, rounds = 0, failed = 0;
    time_t start = time(NULL);
    report_signals();
    for (; calls < options.calls && (uint64_t)(time(NULL) - start) < options.seconds; rounds += 1) {
        failed += !run_round(options.seed + rounds, options.threads);
        calls += STEPS_ALONE + options.threads * STEPS_OF_THREAD;
    }
    printf("%" PRIu64 " calls in %" PRIu64 " rounds from seed %" PRIu64 ", %zu threads, %" PRIu64 " rounds failed\n", calls, rounds, options.seed,
        options.threads, failed);
    return failed > 0 || rounds == 0 ? 1 : 0;
}
