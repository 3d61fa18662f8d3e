/* What the tests of the Arrow interface share: an allocator that refuses allocations, arrays that are made piece by piece, and an
 * independent reader of their rows. */
#ifndef SEL_ARROW_TEST_H
#define SEL_ARROW_TEST_H

#include "sel_arrow.h"

/* The number of arrays that were released, of those whose release is release_array. */
extern int released;

/* Refuses the allocation with this number, counted from 0 from now on; none if it is negative. Returns whether one was refused since. */
bool refuse(long number);

/* Returns the number of blocks that are not freed. */
long blocks(void);

void check(bool holds, const char *what, const char *file, int line);

#define CHECK(holds) check((holds), #holds, __FILE__, __LINE__)

/* Calls a function, again and again, with one allocation refused in turn: it returns SEL_OK if none was, else SEL_ERROR_OUT_OF_MEMORY,
 * and then frees all that it has allocated. */
void refuse_each(sel_status (*call)(void *), void *with, const char *what);

void release_array(struct ArrowArray *array);
void keep_array(struct ArrowArray *array);

/* Returns a schema of a format, without children. */
struct ArrowSchema type_of_format(const char *format);

/* An array and its schema, which last until forget_pieces. */
typedef struct piece {
    struct ArrowArray *array;
    struct ArrowSchema *schema;
} piece;

/* Returns an array of this length and offset with these buffers. */
piece piece_of(const char *format, int64_t length, int64_t offset, int64_t n_buffers, const void *first, const void *second, const void *third);

/* Returns an array with children, which get these names. */
piece piece_over(piece it, int64_t n_children, const piece *children, const char *const *names);

/* Returns an array of keys with a dictionary. */
piece piece_with(piece keys, piece dictionary);

void forget_pieces(void);

/* Imports a copy of an array, so that the array itself can be imported again. */
sel_status import_piece(piece it, sel_column *out, sel_type *type);

/* Tests whether the rows of a column, or a type, are printed as this text. Prints the text that is found if it is another one. */
bool shows(const sel_column *column, const char *wanted);
bool prints(const sel_type *type, const char *wanted);

/* Writes a row of an array as text, read from its buffers alone: numbers as hexadecimal bytes, keys as the values that they name. */
void write_row(const struct ArrowArray *array, const struct ArrowSchema *schema, int64_t row, char *out, size_t room);

/* Tests whether two schemas are the same, with names, metadata, flags, children and dictionaries. */
bool same_schema(const struct ArrowSchema *a, const struct ArrowSchema *b);

/* The tests of each file. */
void test_imports(void);
void test_nested(void);
void test_exports(void);
void test_formats(void);
void test_types(void);
void test_dictionaries(void);
void test_rules(void);
void test_streams(void);

#endif
