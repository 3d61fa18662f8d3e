/* Runs the lines of the suite over the library. README.md says what a line is and what is done with it.
 *
 * run [--layout NAME] [--no-refusals] [--line FILE:NUMBER] [--must-fail] [FILE ..]
 *
 * Without files it runs all of the folder `rows` beside this file. NAME is that of a layout: plain, 1, 7, 8, 63, 64 or mixed,
 * where the columns of one call are laid out differently. With --must-fail each line has to fail, and to say what the comment
 * `#! ..` before it says. The exit status is 0 if nothing failed and there was a line, 2 if nothing could be run. */
#define _POSIX_C_SOURCE 200809L

#include "cases.h"
#include "notation.h"
#include "report.h"

#include <dirent.h>
#include <stdio.h>
#include <stdlib.h>
#include <string.h>

/* What is run, and what came of it. */
struct suite {
    struct choice choice;
    const char *file;           /* of the only line that is run, or NULL */
    size_t line;                /* its number, 0: all lines */
    bool must_fail;
    struct kinds kinds;
    struct counts counts;
    size_t lines, failed;
};

/* ---- lines ---- */

/* Checks that a line that must fail did, and said why. */
static bool check_failed(const struct line *line, bool has_failed) {
    bool says = has_failed && line->wanted != NULL && strstr(first_failure(), line->wanted) != NULL;
    if (!says) {
        printf("%s:%zu: %s\n", line->file, line->number, line->text);
        printf("    it must fail, and say: %s\n", line->wanted == NULL ? "what no comment before it says" : line->wanted);
        printf("    it %s%s\n", has_failed ? "says: " : "passes", first_failure());
    }
    return says;
}

/* Runs all lines that a text stands for. */
static void run_text(struct suite *suite, struct line line, const char *text) {
    for (size_t i = 0; i < lines_of(&suite->kinds, text); i += 1) {
        struct arena arena = {NULL};
        fill_line(&arena, &suite->kinds, text, i, &line);
        bool is_right = run_line(&suite->choice, &line, &suite->counts) && failures_of_line() == 0;
        if (suite->must_fail) {
            is_right = check_failed(&line, !is_right);
        }
        suite->lines += 1;
        suite->failed += !is_right;
        arena_free(&arena);
    }
}

static void run_file(struct suite *suite, const char *path) {
    struct arena arena = {NULL};
    char *rest = file_text(&arena, path);
    const char *text;
    struct line line = {.file = path};
    while ((text = next_line(&rest)) != NULL) {
        line.number += 1;
        if (strncmp(text, "#! ", 3) == 0) {
            line.wanted = text + 3;
        } else if (*text != '#' && *text != 0) {
            if (suite->line == 0 || suite->line == line.number) {
                run_text(suite, line, text);
            }
            line.wanted = NULL;
        }
    }
    arena_free(&arena);
}

/* ---- the folder beside this file ---- */

/* Returns the path of a file in a folder beside this file. */
static char *beside(struct arena *arena, const char *folder, const char *name) {
    const char *end = strrchr(__FILE__, '/');
    size_t len = end == NULL ? 0 : (size_t)(end - __FILE__) + 1;
    char *path = arena_take(arena, len + strlen(folder) + strlen(name) + 1, 1);
    memcpy(path, __FILE__, len);
    strcat(path, folder);
    return strcat(path, name);
}

static int is_text_file(const struct dirent *entry) {
    size_t len = strlen(entry->d_name);
    return len > 4 && strcmp(entry->d_name + len - 4, ".txt") == 0;
}

/* Runs all files of the folder `rows`, in the order of their names. */
static void run_folder(struct suite *suite, struct arena *arena) {
    struct dirent **entries = NULL;
    int count = scandir(beside(arena, "rows", ""), &entries, is_text_file, alphasort);
    for (int i = 0; i < count; i += 1) {
        run_file(suite, beside(arena, "rows/", entries[i]->d_name));
        free(entries[i]);
    }
    free(entries);
}

/* ---- the command line ---- */

static _Noreturn void misused(void) {
    fprintf(stderr, "run [--layout plain|1|7|8|63|64|mixed] [--no-refusals] [--line FILE:NUMBER] [--must-fail] [FILE ..]\n");
    exit(2);
}

static void choose_line(struct suite *suite, struct arena *arena, const char *text) {
    const char *colon = strrchr(text, ':');
    if (colon == NULL || !read_size(colon + 1, &suite->line) || suite->line == 0) {
        misused();
    }
    suite->file = arena_text(arena, text, (size_t)(colon - text));
}

/* Reads the options. Returns where the files begin. */
static int read_options(struct suite *suite, struct arena *arena, int count, char **words) {
    int i = 1;
    for (; i < count && strncmp(words[i], "--", 2) == 0; i += 1) {
        bool has_more = i + 1 < count;
        if (strcmp(words[i], "--no-refusals") == 0) {
            suite->choice.has_refusals = false;
        } else if (strcmp(words[i], "--must-fail") == 0) {
            suite->must_fail = true;
        } else if (strcmp(words[i], "--layout") == 0 && has_more && is_layout(words[i + 1])) {
            i += 1;
            suite->choice.layout = words[i];
        } else if (strcmp(words[i], "--line") == 0 && has_more) {
            i += 1;
            choose_line(suite, arena, words[i]);
        } else {
            misused();
        }
    }
    return i;
}

int main(int count, char **words) {
    struct arena arena = {NULL};
    struct suite suite = {.choice = {.has_refusals = true}};
    int first = read_options(&suite, &arena, count, words);
    read_kinds(&arena, beside(&arena, "", "kinds.txt"), &suite.kinds);
    report_quietly(suite.must_fail);
    report_signals();
    if (suite.file != NULL) {
        run_file(&suite, suite.file);
    } else if (first == count) {
        run_folder(&suite, &arena);
    }
    for (int i = first; i < count; i += 1) {
        run_file(&suite, words[i]);
    }
    printf("%zu lines, %zu cases, %ld allocations refused, %zu failed\n", suite.lines, suite.counts.cases, suite.counts.refused, suite.failed);
    arena_free(&arena);
    return suite.failed > 0 || suite.lines == 0 ? 1 : 0;
}
