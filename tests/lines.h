/* Lines of the suite: fields separated by ` | `, and lines that stand for one of every type. */
#ifndef SEL_TESTS_LINES_H
#define SEL_TESTS_LINES_H

#include "memory.h"

enum { MOST_FIELDS = 12 };

/* A line of a file. */
struct line {
    const char *file;
    size_t number;
    const char *text;
    const char *wanted;         /* in a file of lines that must fail: what the failure must say, or NULL */
    size_t count;               /* of the fields, MOST_FIELDS + 1 if there are more */
    const char *fields[MOST_FIELDS + 1];
};

/* The rows of tests/kinds.txt: for each type its fields, the type and seven values. */
struct kinds {
    size_t count;
    struct kind {
        char section;           /* the letter of the first section of a line's that has it: N, C or T */
        struct line fields;
    } *kinds;
};

/* Returns the text of a file; ends the program if it cannot be read. */
char *file_text(struct arena *arena, const char *path);

/* Cuts the next line off a text. Returns it, or NULL at the end. */
char *next_line(char **rest);

/* Splits a text into the fields of a line. */
void split_line(struct arena *arena, const char *text, struct line *out);

/* Reads the types and their values; ends the program if the file is not as README.md says. */
void read_kinds(struct arena *arena, const char *path, struct kinds *out);

/* Returns how many lines a text stands for. */
size_t lines_of(const struct kinds *kinds, const char *text);

/* Fills `out` with the line of this number, counted from 0, that a text stands for. */
void fill_line(struct arena *arena, const struct kinds *kinds, const char *text, size_t place, struct line *out);

#endif
