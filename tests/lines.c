#include "lines.h"

#include <stdio.h>
#include <stdlib.h>
#include <string.h>

static const char BETWEEN[] = " | ";

/* Ends the program, which cannot go on with this file. */
static _Noreturn void unusable(const char *path, const char *reason) {
    fprintf(stderr, "%s: %s\n", path, reason);
    exit(2);
}

char *file_text(struct arena *arena, const char *path) {
    FILE *file = fopen(path, "rb");
    long size = -1;
    if (file != NULL && fseek(file, 0, SEEK_END) == 0) {
        size = ftell(file);
        rewind(file);
    }
    if (file == NULL || size < 0) {
        unusable(path, "cannot be read");
    }
    char *text = arena_take(arena, (size_t)size + 1, 1);
    if (fread(text, 1, (size_t)size, file) != (size_t)size) {
        unusable(path, "cannot be read");
    }
    fclose(file);
    return text;
}

char *next_line(char **rest) {
    char *line = *rest;
    if (*line == 0) {
        return NULL;
    }
    size_t len = strcspn(line, "\n");
    *rest = line[len] == 0 ? line + len : line + len + 1;
    line[len] = 0;
    return line;
}

void split_line(struct arena *arena, const char *text, struct line *out) {
    char *rest = arena_text(arena, text, strlen(text));
    out->text = text;
    out->count = 0;
    while (rest != NULL && out->count <= MOST_FIELDS) {
        char *end = strstr(rest, BETWEEN);
        out->fields[out->count] = rest;
        out->count += 1;
        if (end != NULL) {
            *end = 0;
            end += strlen(BETWEEN);
        }
        rest = end;
    }
}

/* ---- one line for every type ---- */

/* Returns the letter of a section of kinds.txt, 0 if none begins with this line. */
static char section_of(const char *line) {
    return strcmp(line, "== flat") == 0 ? 'N' : strcmp(line, "== lists") == 0 ? 'C' : strcmp(line, "== others") == 0 ? 'T' : 0;
}

void read_kinds(struct arena *arena, const char *path, struct kinds *out) {
    char *rest = file_text(arena, path), section = 0;
    const char *text;
    *out = (struct kinds){0, arena_take(arena, strlen(rest) / 2 + 1, sizeof *out->kinds)};
    while ((text = next_line(&rest)) != NULL) {
        if (*text == 0 || *text == '#') {
            continue;
        }
        if (*text == '=') {
            section = section_of(text);
        } else {
            struct kind *kind = &out->kinds[out->count];
            kind->section = section;
            split_line(arena, text, &kind->fields);
            out->count += 1;
            if (kind->fields.count != 8) {
                unusable(path, "a line has not a type and seven values");
            }
        }
        if (section == 0) {
            unusable(path, "a line stands in no known section");
        }
    }
}

/* Returns the letter that stands for types in a line: T, C or N; 0 if there is none. */
static char letter_of(const char *text) {
    return strstr(text, "$T") != NULL ? 'T' : strstr(text, "$C") != NULL ? 'C' : strstr(text, "$N") != NULL ? 'N' : 0;
}

/* Returns whether a letter stands for the types of a section: N for those of the first, C of the first two, T of all. */
static bool stands_for(char letter, char section) {
    return letter == 'T' || (letter == 'C' && section != 'T') || letter == section;
}

size_t lines_of(const struct kinds *kinds, const char *text) {
    char letter = letter_of(text);
    size_t count = 0;
    for (size_t i = 0; i < kinds->count; i += 1) {
        count += stands_for(letter, kinds->kinds[i].section);
    }
    return letter == 0 ? 1 : count;
}

/* Returns which field of a type replaces the letter or digit behind a dollar sign; MOST_FIELDS if none does. */
static size_t field_for(char mark) {
    return mark >= '1' && mark <= '7' ? (size_t)(mark - '0') : mark != 0 && strchr("TCN", mark) != NULL ? 0 : MOST_FIELDS;
}

/* Returns the text with the type and the values of a kind in it. */
static const char *filled(struct arena *arena, const char *text, const struct line *kind) {
    size_t room = 1, len = 0;
    for (const char *at = text; *at != 0; at += 1) {
        size_t field = *at == '$' ? field_for(at[1]) : MOST_FIELDS;
        room += field == MOST_FIELDS ? 1 : strlen(kind->fields[field]);
    }
    char *out = arena_take(arena, room, 1);
    for (const char *at = text; *at != 0; at += 1) {
        size_t field = *at == '$' ? field_for(at[1]) : MOST_FIELDS;
        if (field == MOST_FIELDS) {
            out[len] = *at;
            len += 1;
        } else {
            len += (size_t)snprintf(out + len, room - len, "%s", kind->fields[field]);
            at += 1;
        }
    }
    return out;
}

void fill_line(struct arena *arena, const struct kinds *kinds, const char *text, size_t place, struct line *out) {
    char letter = letter_of(text);
    for (size_t i = 0; letter != 0 && i < kinds->count; i += 1) {
        if (stands_for(letter, kinds->kinds[i].section)) {
            if (place == 0) {
                text = filled(arena, text, &kinds->kinds[i].fields);
                break;
            }
            place -= 1;
        }
    }
    split_line(arena, text, out);
}
