/* Fuzz target: a sequence of calls on a pool of handles. The bytes choose the columns, the calls and their arguments; each status
 * and each result is compared with the model's. */
#include "../random/steps.h"

#include "../report.h"

#include <stdlib.h>

int LLVMFuzzerTestOneInput(const uint8_t *input, size_t len);

enum { MOST_STEPS = 40 };

int LLVMFuzzerTestOneInput(const uint8_t *input, size_t len) {
    static const struct line line = {.file = "input", .number = 1, .count = 1, .fields = {"calls"}};
    static const uint8_t nothing;
    long before = memory_in_use();
    struct draws draws = draws_of_input(len == 0 ? &nothing : input, len);
    struct pool pool = {0};
    bool is_right = true;
    report_line(&line);
    pool_fill(&pool, &draws);
    for (size_t i = 0; i < MOST_STEPS && !draws_ended(&draws); i += 1) {
        struct entry made = {0};
        is_right = pool_step(&pool, &pool.arena, &draws, &made) && is_right;
        if (made.column.at != NULL) {
            pool_put(&pool, &draws, &made);
        }
    }
    is_right = pool_check(&pool) && is_right;
    pool_end(&pool);
    if (!is_right || failures_of_line() > 0 || memory_in_use() != before) {
        abort();
    }
    return 0;
}
