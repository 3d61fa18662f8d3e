/* The strings of the statuses, and the version. A proved library cannot return a pointer to a constant of its own. */
#include "sel.h"

const char *sel_status_string(sel_status status) {
    static const struct { sel_status status; const char *string; } strings[] = {
        /* begin: written by tools/statuses.py */
        {SEL_OK, "success"},
        {SEL_ERROR_OUT_OF_MEMORY, "out of memory"},
        {SEL_ERROR_NO_COLUMN, "a handle has no column"},
        {SEL_ERROR_UNSUPPORTED_TYPE, "wrong column type for this call"},
        {SEL_ERROR_TYPE_MISMATCH, "column types do not match"},
        {SEL_ERROR_LENGTH_MISMATCH, "lengths do not match"},
        {SEL_ERROR_INDEX_OUT_OF_BOUNDS, "index out of bounds"},
        {SEL_ERROR_LIST_INDEX_OUT_OF_BOUNDS, "get index is out of bounds"},
        {SEL_ERROR_ROW_LIMIT, "size limit exceeded: rows"},
        {SEL_ERROR_OFFSET_LIMIT, "size limit exceeded: bytes"},
        {SEL_ERROR_BUFFER_LIMIT, "size limit exceeded: data buffers"},
        {SEL_ERROR_VIEW_LIMIT, "size limit exceeded: bytes of a view"},
        {SEL_ERROR_TOO_DEEP, "too many levels of nesting"},
        {SEL_ERROR_NO_OFFSETS, "no offsets"},
        {SEL_ERROR_NEGATIVE_OFFSET, "negative offset"},
        {SEL_ERROR_DECREASING_OFFSET, "offsets decrease"},
        {SEL_ERROR_TOO_MANY_ROWS, "too many rows"},
        {SEL_ERROR_TOO_MANY_BUFFERS, "too many data buffers"},
        {SEL_ERROR_LIST_SIZE, "list size exceeds its limit"},
        {SEL_ERROR_OFFSET_RANGE, "the last offset exceeds the length of the values"},
        {SEL_ERROR_CHILD_LENGTH, "the length of the child is not the number of rows times the list size"},
        {SEL_ERROR_FIELD_LENGTH, "the length of a field is not that of its struct"},
        {SEL_ERROR_VALIDITY_LENGTH, "the validity is too short"},
        {SEL_ERROR_VIEW_RANGE, "a view refers to bytes outside of its data buffer"},
        {SEL_ERROR_VIEW_PREFIX, "the prefix of a view differs from its bytes"},
        {SEL_ERROR_INVALID_UTF8, "a string is not valid UTF-8"},
        {SEL_ERROR_TYPE_SYNTAX, "syntax error in the type"},
        {SEL_ERROR_ROW_SYNTAX, "syntax error in the row text"},
        {SEL_ERROR_ROW_TYPE_MISMATCH, "a value in the row text does not fit the type"},
        {SEL_ERROR_TEXT_LIMIT, "the parsed type or column exceeds a limit"},
        {SEL_ERROR_ARROW_RELEASED, "the Arrow array or schema is released"},
        {SEL_ERROR_ARROW_FORMAT, "unsupported Arrow format"},
        {SEL_ERROR_ARROW_BUFFERS, "wrong number of Arrow buffers, or a missing one"},
        {SEL_ERROR_ARROW_CHILDREN, "wrong number of Arrow children, or a missing one"},
        {SEL_ERROR_ARROW_LENGTH, "an Arrow length, offset or null count is out of range, or a child is too short"},
        {SEL_ERROR_ARROW_DICTIONARY, "an Arrow dictionary is missing, or has no type to be kept in"},
        {SEL_ERROR_ARROW_RANGE, "a value or offset that the Arrow format cannot represent"},
        {SEL_ERROR_ARROW_NULL, "a null in an Arrow field that is not nullable"},
        {SEL_ERROR_ARROW_STREAM, "the producer of the Arrow stream reports an error"},
        /* end: written by tools/statuses.py */
    };
    for (size_t i = 0; i < sizeof strings / sizeof *strings; i++)
        if (strings[i].status == status) return strings[i].string;
    return "unknown status";
}

#define STRING(number) #number
#define VERSION(major, minor, patch) STRING(major) "." STRING(minor) "." STRING(patch)

const char *sel_version(void) { return VERSION(SEL_VERSION_MAJOR, SEL_VERSION_MINOR, SEL_VERSION_PATCH); }
