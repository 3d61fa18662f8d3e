/* Fuzz target: sel_parse. The input is a type, a line break, and rows. What is read is printed and read again, and must be equal;
 * an error must leave the handle as it is and name a position in one of the two texts. */
#include "sel.h"

#include <stdlib.h>
#include <string.h>

int LLVMFuzzerTestOneInput(const uint8_t *input, size_t len);

enum { NO_PLACE = 77777, REACHED = 4096 };

/* The parser is proved and not instrumented, so the fuzzer is shown how far each text was read. */
__attribute__((section("__libfuzzer_extra_counters"))) static uint8_t reached[REACHED];

static void require(bool holds) {
    if (!holds) {
        abort();
    }
}

/* Prints a column, and reads the text again: the rows are equal. */
static void check_printed(const uint8_t *type, size_t type_len, const sel_column *column) {
    size_t len = 0, again_len = 0, place = NO_PLACE;
    uint8_t none[1];
    bool equal = false;
    sel_column again = {0};
    require(sel_print(column, none, 0, &len) == SEL_OK);
    uint8_t *text = malloc(len + 1);
    require(text != NULL);
    require(sel_print(column, text, len, &again_len) == SEL_OK && again_len == len);
    require(sel_parse(type, type_len, text, len, &place, &again) == SEL_OK && place == NO_PLACE);
    require(sel_equal_rows(column, &again, &equal) == SEL_OK && equal);
    require(sel_type_of(column) == sel_type_of(&again) && sel_null_count(column) == sel_null_count(&again));
    free(text);
    sel_free(&again);
}

int LLVMFuzzerTestOneInput(const uint8_t *input, size_t len) {
    static const uint8_t nothing[1];
    const uint8_t *end = len == 0 ? NULL : memchr(input, '\n', len);
    size_t type_len = end == NULL ? len : (size_t)(end - input), rows_len = end == NULL ? 0 : len - type_len - 1;
    /* copies of exactly these bytes, so that a read outside of them is found */
    uint8_t *type = malloc(type_len + (type_len == 0)), *rows = malloc(rows_len + (rows_len == 0));
    require(type != NULL && rows != NULL);
    memcpy(type, len == 0 ? nothing : input, type_len);
    memcpy(rows, end == NULL ? nothing : end + 1, rows_len);
    sel_column column = {0};
    size_t place = NO_PLACE;
    sel_status status = sel_parse(type, type_len, rows, rows_len, &place, &column);
    if (status == SEL_OK) {
        require(column.at != NULL && place == NO_PLACE);
        check_printed(type, type_len, &column);
    } else {
        bool in_type = status == SEL_ERROR_TYPE_SYNTAX, in_rows = status == SEL_ERROR_ROW_SYNTAX || status == SEL_ERROR_ROW_TYPE_MISMATCH;
        require(in_type || in_rows || status == SEL_ERROR_TEXT_LIMIT || status == SEL_ERROR_OUT_OF_MEMORY);
        require(column.at == NULL);
        reached[(status % 4 * (REACHED / 4) + (place < REACHED / 4 ? place : 0)) % REACHED] = 1;
        require(in_type || in_rows ? place <= (in_type ? type_len : rows_len) : place == NO_PLACE);
    }
    sel_free(&column);
    free(type);
    free(rows);
    return 0;
}
