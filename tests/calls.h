/* The calls that lines name, by the calls of sel.h. */
#ifndef SEL_TESTS_CALLS_H
#define SEL_TESTS_CALLS_H

#include "arguments.h"

/* What a line has for a result. */
enum result {
    RESULT_ROWS,                /* the rows of the column that was made */
    RESULT_TWO_ROWS,            /* the same of two columns */
    RESULT_PRINTED,             /* rows that were printed */
    RESULT_FLAG,                /* true or false */
    RESULT_ITEMS,               /* the rows of a child that lie in the lists that are not null */
    RESULT_FIELD,               /* the rows of a field at the structs that are not null */
    RESULT_TYPE                 /* the type of the column that was made */
};

/* What a call made or wrote. */
struct outcome {
    sel_column columns[2];
    bool flag;
    size_t place;
    size_t room;                /* of the text */
    size_t len;
    uint8_t *text;
};

struct call {
    const char *name;
    const char *letters;        /* its arguments, as read_arguments has them */
    enum result result;
    const char *called;         /* what is called */
    /* Returns the type of the rows of a result, NULL if there is none for these arguments. */
    const struct type *(*type_of_result)(const struct arguments *given);
    sel_status (*run)(const struct arguments *given, sel_column *columns, struct outcome *out);
    /* Returns whether these arguments can be given by this call; NULL: always. */
    bool (*applies)(const struct arguments *given);
    bool takes_columns;         /* it takes the columns that it is given, if it succeeds */
    bool takes_no_memory;       /* the header says so */
};

extern const struct call calls[];
extern const size_t call_count;

/* The value of `place` before a call: no text is as long. */
enum { NO_PLACE = 77777 };

#endif
