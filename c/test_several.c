/* Calls on several columns: if_then_else, flatten, picked rows, dictionaries; rows compared, printed and read; and limits that
 * columns of nulls reach without memory. */

#include "test.h"

#include <string.h>

/* The column of numbers under a validity. */
static sel_column numbers(const int64_t *values, size_t len, uint8_t bits) {
    sel_column column = {0};
    DONE(sel_int64_new(values, len, &bits, 1, true, &column));
    return column;
}

static sel_column truths(uint8_t values, size_t len, uint8_t bits) {
    sel_column column = {0};
    DONE(sel_boolean_new(&values, 1, len, &bits, 1, true, &column));
    return column;
}

/* Returns the string column of these strings of up to 12 bytes. */
static sel_column texts(const char *const *words, size_t len, uint8_t bits) {
    sel_view views[8];
    const sel_bytes_ref nothing[1] = {{no_bits, 0}};
    sel_column column = {0};
    for (size_t i = 0; i < len; i += 1) {
        views[i] = view_of(words[i], (uint32_t)strlen(words[i]), 0);
    }
    DONE(sel_string_view_new(views, len, nothing, 0, &bits, 1, true, &column));
    return column;
}

/* Returns whether the column prints as this text, or an allocation failed. */
static bool prints(sel_column *column, const char *text) {
    uint8_t room[256];
    size_t len = 0;
    if (column->at == NULL) {
        return refused;
    }
    sel_status status = sel_print(column, room, sizeof room, &len);
    if (status != SEL_OK) {
        return done(status);
    }
    return len == strlen(text) && memcmp(room, text, len) == 0;
}

/* A call is done and its answer has the text; the answer is freed. */
static void answers(sel_status status, sel_column *out, const char *text, int line) {
    is_at(done(status), "the call is done", __FILE__, line);
    is_at(status != SEL_OK || prints(out, text), text, __FILE__, line);
    sel_free(out);
}

#define ANSWERS(call, out, text) answers((call), (out), (text), __LINE__)

static void free_all(sel_column *columns, size_t len) {
    for (size_t i = 0; i < len; i += 1) {
        sel_free(&columns[i]);
    }
}

static bool all_made(const sel_column *columns, size_t len) {
    for (size_t i = 0; i < len; i += 1) {
        if (columns[i].at == NULL) {
            return false;
        }
    }
    return true;
}

/* ---- choices ---- */

void test_choices(void) {
    const int64_t first[4] = {1, 2, 3, 4}, second[4] = {10, 20, 30, 40};
    sel_column out = {0}, sides[5] = {{0}, {0}, {0}, {0}, {0}};
    IS(sel_if_then_else(&sides[0], &sides[1], &sides[2], &out) == SEL_ERROR_NO_COLUMN);
    /* true, null, true, false */
    sides[0] = truths(7, 4, 13);
    IS(sel_if_then_else(&sides[0], &sides[1], &sides[2], &out) == SEL_ERROR_NO_COLUMN);
    sides[1] = numbers(first, 4, 14);
    IS(sel_if_then_else(&sides[0], &sides[1], &sides[2], &out) == SEL_ERROR_NO_COLUMN);
    sides[2] = numbers(second, 4, 13);
    sides[3] = numbers(first, 3, 7);
    sides[4] = truths(1, 4, 15);
    if (all_made(sides, 5)) {
        ANSWERS(sel_if_then_else(&sides[0], &sides[1], &sides[2], &out), &out, "[null,null,3,40]");
        ANSWERS(sel_if_then_else(&sides[0], &sides[2], &sides[1], &out), &out, "[10,2,30,4]");
        IS(gives(sel_if_then_else(&sides[1], &sides[2], &sides[3], &out), SEL_ERROR_UNSUPPORTED_TYPE));
        IS(gives(sel_if_then_else(&sides[0], &sides[1], &sides[4], &out), SEL_ERROR_TYPE_MISMATCH));
        IS(gives(sel_if_then_else(&sides[0], &sides[1], &sides[3], &out), SEL_ERROR_LENGTH_MISMATCH));
        IS(gives(sel_if_then_else(&sides[0], &sides[3], &sides[1], &out), SEL_ERROR_LENGTH_MISMATCH));
        IS(out.at == NULL && prints(&sides[0], "[true,null,true,false]"));
        IS(prints(&sides[1], "[null,2,3,4]") && prints(&sides[2], "[10,null,30,40]"));
    }
    free_all(sides, 5);
}

void test_broadcasts(void) {
    const int64_t values[3] = {1, 2, 3};
    sel_column out = {0}, given[5] = {truths(5, 3, 7), numbers(values, 3, 3), numbers(values + 2, 1, 1), numbers(values, 1, 0), {0}};
    IS(sel_if_then_else_broadcast_true(&given[0], &given[2], &given[4], &out) == SEL_ERROR_NO_COLUMN);
    IS(sel_if_then_else_broadcast_false(&given[0], &given[4], &given[2], &out) == SEL_ERROR_NO_COLUMN);
    IS(sel_if_then_else_broadcast_both(&given[4], &given[2], &given[3], &out) == SEL_ERROR_NO_COLUMN);
    if (all_made(given, 4)) {
        ANSWERS(sel_if_then_else_broadcast_true(&given[0], &given[2], &given[1], &out), &out, "[3,2,3]");
        ANSWERS(sel_if_then_else_broadcast_true(&given[0], &given[3], &given[1], &out), &out, "[null,2,null]");
        ANSWERS(sel_if_then_else_broadcast_false(&given[0], &given[1], &given[2], &out), &out, "[1,3,null]");
        ANSWERS(sel_if_then_else_broadcast_false(&given[0], &given[1], &given[3], &out), &out, "[1,null,null]");
        ANSWERS(sel_if_then_else_broadcast_both(&given[0], &given[2], &given[3], &out), &out, "[3,null,3]");
        ANSWERS(sel_if_then_else_broadcast_both(&given[0], &given[3], &given[2], &out), &out, "[null,3,null]");
        IS(gives(sel_if_then_else_broadcast_true(&given[0], &given[1], &given[1], &out), SEL_ERROR_LENGTH_MISMATCH));
        IS(gives(sel_if_then_else_broadcast_false(&given[0], &given[2], &given[3], &out), SEL_ERROR_LENGTH_MISMATCH));
        IS(gives(sel_if_then_else_broadcast_both(&given[0], &given[1], &given[2], &out), SEL_ERROR_LENGTH_MISMATCH));
        IS(gives(sel_if_then_else_broadcast_true(&given[0], &given[2], &given[3], &out), SEL_ERROR_LENGTH_MISMATCH));
        IS(gives(sel_if_then_else_broadcast_true(&given[0], &given[2], &given[0], &out), SEL_ERROR_TYPE_MISMATCH));
        IS(gives(sel_if_then_else_broadcast_both(&given[1], &given[2], &given[3], &out), SEL_ERROR_UNSUPPORTED_TYPE));
    }
    free_all(given, 5);
    sel_free(&out);
}

/* Both sides are columns of one kind; the mask is true, false. */
static void chooses(sel_column *first, sel_column *second, const char *chosen, const char *turned) {
    sel_column mask = truths(1, 2, 3), out = {0};
    if (first->at != NULL && second->at != NULL && mask.at != NULL) {
        ANSWERS(sel_if_then_else(&mask, first, second, &out), &out, chosen);
        ANSWERS(sel_if_then_else(&mask, second, first, &out), &out, turned);
    }
    sel_free(first);
    sel_free(second);
    sel_free(&mask);
}

void test_chosen_kinds(void) {
    const char *const words[2] = {"ada", "grace"}, *const others[2] = {"tim", "don"};
    const int64_t offsets[3] = {0, 1, 3}, values[4] = {1, 2, 3, 4};
    sel_column first = texts(words, 2, 3), second = texts(others, 2, 1);
    chooses(&first, &second, "[\"ada\",null]", "[\"tim\",\"grace\"]");
    DONE(sel_null_new(2, &first));
    DONE(sel_null_new(2, &second));
    chooses(&first, &second, "[null,null]", "[null,null]");
    DONE(sel_binary_new(offsets, 3, (const uint8_t *)"abc", 3, SEL_ALL_VALID, &first));
    DONE(sel_binary_new(offsets, 3, (const uint8_t *)"xyz", 3, SEL_ALL_VALID, &second));
    chooses(&first, &second, "[h\"61\",h\"797a\"]", "[h\"78\",h\"6263\"]");
    first = truths(2, 2, 3), second = truths(1, 2, 2);
    chooses(&first, &second, "[false,false]", "[null,true]");
    for (int kind = 0; kind < 3; kind += 1) {
        sel_column below[2] = {numbers(values, kind == 0 ? 3 : 2, 7), numbers(values + 1, kind == 0 ? 3 : 2, 5)}, made[2] = {{0}, {0}};
        for (int side = 0; side < 2 && all_made(below, 2); side += 1) {
            sel_column child = {0};
            DONE(sel_share(&below[side], &child));
            if (child.at != NULL) {
                DONE(kind == 0 ? sel_list_new(offsets, 3, SEL_ALL_VALID, &child, &made[side])
                    : kind == 1 ? sel_fixed_size_list_new(1, 2, SEL_ALL_VALID, &child, &made[side])
                    : sel_struct_new(2, SEL_ALL_VALID, &child, 1, &made[side]));
            }
            sel_free(&child);
        }
        free_all(below, 2);
        const char *const chosen[3] = {"[[1],[null,4]]", "[[1],[null]]", "[(1),(null)]"};
        const char *const turned[3] = {"[[2],[2,3]]", "[[2],[2]]", "[(2),(2)]"};
        chooses(&made[0], &made[1], chosen[kind], turned[kind]);
    }
}

/* ---- flatten and collect_rows ---- */

void test_flattens(void) {
    const int64_t values[4] = {1, 2, 3, 4};
    const size_t widths[2] = {2, 1}, none[2] = {2, 0};
    sel_column out = {0}, given[2] = {{0}, {0}};
    IS(gives(sel_flatten(given, 0, widths, 0, 2, &out), SEL_ERROR_LENGTH_MISMATCH));
    given[0] = numbers(values, 4, 15);
    IS(gives(sel_flatten(given, 2, widths, 2, 2, &out), SEL_ERROR_NO_COLUMN));
    given[1] = numbers(values + 3, 1, 0);
    if (all_made(given, 2)) {
        ANSWERS(sel_flatten(given, 2, widths, 2, 2, &out), &out, "[1,2,null,3,4,null]");
        IS(gives(sel_flatten(given, 2, widths, 1, 2, &out), SEL_ERROR_LENGTH_MISMATCH));
        IS(gives(sel_flatten(given, 2, none, 2, 2, &out), SEL_ERROR_LENGTH_MISMATCH));
        IS(gives(sel_flatten(given, 2, widths, 2, 3, &out), SEL_ERROR_LENGTH_MISMATCH));
        IS(gives(sel_flatten(given + 1, 1, widths + 1, 1, (size_t)4294967296, &out), SEL_ERROR_ROW_LIMIT));
        ANSWERS(sel_flatten(given + 1, 1, widths + 1, 1, 3, &out), &out, "[null,null,null]");
        sel_free(&given[1]);
        given[1] = truths(1, 1, 1);
        IS(given[1].at == NULL || gives(sel_flatten(given, 2, widths, 2, 2, &out), SEL_ERROR_TYPE_MISMATCH));
        IS(sel_len(&given[0]) == 4);
    }
    free_all(given, 2);
}

void test_collected_rows(void) {
    const int64_t values[3] = {1, 2, 3};
    const sel_row_ref picks[4] = {{1, 1}, {0, 2}, {9, 9}, {1, 0}};
    const uint8_t bits[1] = {11};
    sel_column out = {0}, given[2] = {{0}, {0}};
    IS(gives(sel_collect_rows(given, 0, picks, 0, SEL_ALL_VALID, &out), SEL_ERROR_LENGTH_MISMATCH));
    given[0] = numbers(values, 3, 7);
    IS(gives(sel_collect_rows(given, 2, picks, 0, SEL_ALL_VALID, &out), SEL_ERROR_NO_COLUMN));
    given[1] = numbers(values + 1, 2, 2);
    if (all_made(given, 2)) {
        ANSWERS(sel_collect_rows(given, 2, picks, 4, bits, 1, true, &out), &out, "[3,3,null,null]");
        ANSWERS(sel_collect_rows(given, 2, picks, 0, SEL_ALL_VALID, &out), &out, "[]");
        IS(gives(sel_collect_rows(given, 2, picks, 4, SEL_ALL_VALID, &out), SEL_ERROR_INDEX_OUT_OF_BOUNDS));
        IS(gives(sel_collect_rows(given, 1, picks, 1, SEL_ALL_VALID, &out), SEL_ERROR_INDEX_OUT_OF_BOUNDS));
        IS(gives(sel_collect_rows(given, 2, picks, 4, no_bits, 0, true, &out), SEL_ERROR_VALIDITY_LENGTH));
        IS(gives(sel_collect_rows(given, 2, picks, (size_t)4294967296, SEL_ALL_VALID, &out), SEL_ERROR_TOO_MANY_ROWS));
        sel_free(&given[1]);
        given[1] = truths(1, 1, 1);
        IS(given[1].at == NULL || gives(sel_collect_rows(given, 2, picks, 0, SEL_ALL_VALID, &out), SEL_ERROR_TYPE_MISMATCH));
        IS(prints(&given[0], "[1,2,3]"));
    }
    free_all(given, 2);
}

/* ---- dictionaries ---- */

void test_dictionaries(void) {
    const uint32_t keys[4] = {0, 1, 2, 9}, far[1] = {3};
    const char *const words[3] = {"a", "", "c"};
    const uint8_t bits[1] = {7};
    sel_column given[2] = {{0}, {0}}, out[2] = {{0}, {0}};
    IS(sel_propagate_dictionary(&given[0], &given[1], &out[0], &out[1]) == SEL_ERROR_NO_COLUMN);
    DONE(sel_uint32_new(keys, 4, bits, 1, true, &given[0]));
    IS(sel_propagate_dictionary(&given[0], &given[1], &out[0], &out[1]) == SEL_ERROR_NO_COLUMN);
    given[1] = texts(words, 3, 5);
    if (all_made(given, 2)) {
        sel_status status = sel_propagate_dictionary(&given[0], &given[1], &out[0], &out[1]);
        IS(done(status) && (out[0].at == NULL) == (status != SEL_OK) && (out[1].at == NULL) == (status != SEL_OK));
        IS(status != SEL_OK || (prints(&out[0], "[0,null,1,null]") && prints(&out[1], "[\"a\",\"c\"]")));
        IS(prints(&given[0], "[0,1,2,null]") && prints(&given[1], "[\"a\",null,\"c\"]"));
        IS(gives(sel_propagate_dictionary(&given[1], &given[0], &out[0], &out[1]), SEL_ERROR_UNSUPPORTED_TYPE));
        /* the keys before stay if there is no memory for others */
        status = sel_uint32_new(far, 1, SEL_ALL_VALID, &given[0]);
        const sel_status wanted = status == SEL_OK ? SEL_ERROR_INDEX_OUT_OF_BOUNDS : SEL_OK;
        IS(done(status) && gives(sel_propagate_dictionary(&given[0], &given[1], &out[0], &out[1]), wanted));
    }
    free_all(given, 2);
    free_all(out, 2);
}

/* ---- rows compared and printed ---- */

void test_equal_rows(void) {
    const int64_t values[3] = {1, 2, 3};
    const int8_t small[3] = {1, 9, 3};
    const uint8_t bits[1] = {5};
    bool equal = false;
    sel_column given[3] = {{0}, {0}, {0}};
    IS(sel_equal_rows(&given[0], &given[1], &equal) == SEL_ERROR_NO_COLUMN);
    given[0] = numbers(values, 3, 5);
    IS(sel_equal_rows(&given[0], &given[1], &equal) == SEL_ERROR_NO_COLUMN);
    DONE(sel_int8_new(small, 3, bits, 1, true, &given[1]));
    given[2] = numbers(values, 3, 7);
    if (all_made(given, 3)) {
        IS(sel_equal_rows(&given[0], &given[1], &equal) == SEL_OK && equal);
        IS(sel_equal_rows(&given[0], &given[2], &equal) == SEL_OK && !equal);
        IS(sel_len(&given[0]) == 3 && sel_len(&given[1]) == 3);
    }
    free_all(given, 3);
}

void test_prints(void) {
    const int64_t values[3] = {1, 2, -3};
    uint8_t room[12] = "zzzzzzzzzzz";
    size_t len = 9;
    sel_column column = {0};
    IS(sel_print(&column, room, 12, &len) == SEL_ERROR_NO_COLUMN && len == 9);
    column = numbers(values, 3, 5);
    if (column.at != NULL) {
        sel_status status = sel_print(&column, room, 4, &len);
        IS(done(status) && (status != SEL_OK || (len == 11 && memcmp(room, "[1,nzzzzzzz", 11) == 0)));
        status = sel_print(&column, room, 0, &len);
        IS(done(status) && (status != SEL_OK || len == 11));
        status = sel_print(&column, room, 12, &len);
        IS(done(status) && (status != SEL_OK || memcmp(room, "[1,null,-3]", 11) == 0));
    }
    sel_free(&column);
}

void test_prints_types(void) {
    const int64_t values[3] = {1, 2, -3};
    const char *const type = "fixed<2,struct<i64,list<utf8>>>";
    uint8_t room[40] = "zzzzzzzzzzz";
    size_t len = 9, at = 0;
    sel_column column = {0};
    IS(sel_print_type(&column, room, sizeof room, &len) == SEL_ERROR_NO_COLUMN && len == 9 && room[0] == 'z');
    column = numbers(values, 3, 5);
    if (column.at != NULL) {
        sel_status status = sel_print_type(&column, room, 2, &len);
        IS(done(status) && (status != SEL_OK || (len == 3 && memcmp(room, "i6zzzzzzzzz", 11) == 0)));
        status = sel_print_type(&column, NULL, 0, &len);
        IS(done(status) && (status != SEL_OK || len == 3));
    }
    sel_free(&column);
    sel_status status = sel_parse((const uint8_t *)type, strlen(type), (const uint8_t *)"[]", 2, &at, &column);
    IS(done(status));
    if (status == SEL_OK) {
        status = sel_print_type(&column, room, sizeof room, &len);
        IS(done(status) && (status != SEL_OK || (len == strlen(type) && memcmp(room, type, len) == 0)));
    }
    sel_free(&column);
}

/* ---- columns read from texts ---- */

static sel_status parse(const char *dtype, const char *text, size_t *at, sel_column *out) {
    return sel_parse((const uint8_t *)dtype, strlen(dtype), (const uint8_t *)text, strlen(text), at, out);
}

/* The texts name the column that was made, which is freed, and the rows are printed as told. */
static void reads(const char *dtype, const char *text, const char *printed, sel_column *made, int line) {
    size_t at = 77;
    bool equal = false;
    sel_column out = {0};
    sel_status status = parse(dtype, text, &at, &out);
    is_at(done(status) && at == 77 && (out.at == NULL) == (status != SEL_OK), dtype, __FILE__, line);
    if (status == SEL_OK && made->at != NULL) {
        is_at(sel_equal_rows(&out, made, &equal) == SEL_OK && equal, text, __FILE__, line);
        is_at(sel_type_of(&out) == sel_type_of(made) && prints(&out, printed), printed, __FILE__, line);
    }
    sel_free(&out);
    sel_free(made);
}

#define READS(dtype, text, printed, made) reads((dtype), (text), (printed), (made), __LINE__)

void test_parses(void) {
    const int64_t values[4] = {1, 2, -3, 4}, offsets[4] = {0, 2, 2, 2};
    const char *const words[2] = {"ada", "a, b] c"};
    const uint8_t outer[1] = {5}, first[1] = {1};
    sel_column made = numbers(values, 3, 5), below[2] = {{0}, {0}};
    READS("i64", " [1, null ,-3] ", "[1,null,-3]", &made);
    made = numbers(values, 0, 0);
    READS(" i64 ", "[ ]", "[]", &made);
    made = truths(1, 3, 5);
    READS("bool", "[true,null,false]", "[true,null,false]", &made);
    made = truths(1, 3, 5);
    READS("\tbool\r\n", "\n[\r\n\ttrue ,\nnull\r,\tfalse\n]\n", "[true,null,false]", &made);
    below[0] = texts(words, 2, 3);
    IS(below[0].at == NULL || done(sel_list_new(offsets, 4, outer, 1, true, &below[0], &made)));
    READS("list< utf8 >", "[[\"ada\", \"a, b] c\"], null, []]", "[[\"ada\",\"a, b] c\"],null,[]]", &made);
    free_all(below, 1);
    below[0] = numbers(values, 4, 11);
    IS(below[0].at == NULL || done(sel_fixed_size_list_new(2, 2, first, 1, true, &below[0], &made)));
    READS("fixed<2,i64>", "[[1,2],null]", "[[1,2],null]", &made);
    free_all(below, 1);
    below[0] = numbers(values, 2, 3), below[1] = truths(1, 2, 3);
    if (all_made(below, 2)) {
        DONE(sel_struct_new(2, first, 1, true, below, 2, &made));
    }
    READS("struct<i64, bool>", "[(1, true), null]", "[(1,true),null]", &made);
    free_all(below, 2);
}

/* The rows below a null fixed-size list take less than four bytes each while they are parsed, if they take less than one in the column. */
void test_parse_memory(void) {
    const char *const types[3] = {"fixed<1000000,bool>", "fixed<1000000,struct<bool>>", "fixed<500000,fixed<2,bool>>"};
    for (size_t i = 0; i < 3; i++) {
        sel_column out = {0};
        size_t place = 0, before = bytes_in_use();
        watch_bytes();
        DONE(sel_parse((const uint8_t *)types[i], strlen(types[i]), (const uint8_t *)"[null]", 6, &place, &out));
        IS(bytes_above(before) < 4000000);
        IS(out.at == NULL || (sel_len(&out) == 1 && sel_null_count(&out) == 1));
        sel_free(&out);
    }
}

/* Checks that sel_parse returns the status, writes the place of a fault, and leaves the column of `out`. */
static void misreads(sel_status status, const char *dtype, const char *text, size_t place, sel_column *out, int line) {
    size_t at = 77;
    const void *const before = out->at;
    sel_status answer = parse(dtype, text, &at, out);
    is_at(gives(answer, status), text, __FILE__, line);
    is_at(at == (answer == status ? place : 77), dtype, __FILE__, line);
    is_at(out->at == before && prints(out, "[1,2]"), "the column stays", __FILE__, line);
}

#define MISREADS(status, dtype, text, place) misreads((status), (dtype), (text), (place), &out, __LINE__)

void test_misread_texts(void) {
    const int64_t values[2] = {1, 2};
    char deep[65 * 6 + 3] = "";
    sel_column out = numbers(values, 2, 3);
    for (size_t i = 0; i < 65; i += 1) {
        memcpy(deep + 5 * i, "list<", 5);
        deep[65 * 5 + 2 + i] = '>';
    }
    memcpy(deep + 65 * 5, "i8", 2);
    MISREADS(SEL_ERROR_TYPE_SYNTAX, "", "[]", 0);
    MISREADS(SEL_ERROR_TYPE_SYNTAX, "i7", "[]", 1);
    MISREADS(SEL_ERROR_TYPE_SYNTAX, "list< float >", "[]", 7);
    MISREADS(SEL_ERROR_TYPE_SYNTAX, "list<i8", "[]", 7);
    MISREADS(SEL_ERROR_TYPE_SYNTAX, "i8\xFF", "[]", 2);
    MISREADS(SEL_ERROR_ROW_SYNTAX, "i8", "", 0);
    MISREADS(SEL_ERROR_ROW_SYNTAX, "i8", "[1, ]", 4);
    MISREADS(SEL_ERROR_ROW_SYNTAX, "i8", "[1] 2", 4);
    MISREADS(SEL_ERROR_TYPE_SYNTAX, "l\xFF", "[]", 1);
    MISREADS(SEL_ERROR_TYPE_SYNTAX, "x\xFF", "[]", 0);
    MISREADS(SEL_ERROR_ROW_SYNTAX, "utf8", "[\"a\xFF\"]", 3);
    MISREADS(SEL_ERROR_ROW_SYNTAX, "utf8", "[1;\"\xFF\"]", 2);
    MISREADS(SEL_ERROR_ROW_SYNTAX, "utf8", "[\"\xC3", 3);
    MISREADS(SEL_ERROR_ROW_SYNTAX, "utf8", "[\"\xC3x\"]", 3);
    MISREADS(SEL_ERROR_ROW_SYNTAX, "utf8", "[\"\xE0\x9F\x80\"]", 3);
    MISREADS(SEL_ERROR_ROW_SYNTAX, "utf8", "[\"\xED\xA0\x80\"]", 3);
    MISREADS(SEL_ERROR_ROW_SYNTAX, "utf8", "[\"\xF0\x9F\x98\"]", 5);
    MISREADS(SEL_ERROR_ROW_SYNTAX, "utf8", "[\"\xF4\x90\x80\x80\"]", 3);
    MISREADS(SEL_ERROR_ROW_SYNTAX, "utf8", "[\"\xC1\x81\"]", 2);
    MISREADS(SEL_ERROR_ROW_SYNTAX, "utf8", "[\"\n\"]", 2);
    MISREADS(SEL_ERROR_ROW_TYPE_MISMATCH, "i8", "[0, 128]", 4);
    MISREADS(SEL_ERROR_ROW_TYPE_MISMATCH, "list<bool>", "[[true], 2]", 9);
    MISREADS(SEL_ERROR_TEXT_LIMIT, deep, "[]", 77);
    MISREADS(SEL_ERROR_TEXT_LIMIT, "fixed<4294967296,i8>", "[]", 77);
    MISREADS(SEL_ERROR_TEXT_LIMIT, "fixed<18446744073709551616,i8>", "[]", 77);
    sel_free(&out);
}

/* ---- limits that columns of nulls reach without memory ---- */

static const int64_t most_rows = 4294967295;

/* Builds lists of nulls between offsets. */
static void lists_of_nulls(const int64_t *offsets, size_t len, uint8_t bits, sel_column *out) {
    sel_column child = {0};
    DONE(sel_null_new((size_t)offsets[len], &child));
    IS(child.at == NULL || done(sel_list_new(offsets, len + 1, &bits, 1, true, &child, out)));
    sel_free(&child);
}

/* Checks the status of a call and the length of its result, which is freed. */
static void has_rows(sel_status status, sel_status wanted, size_t len, sel_column *out, int line) {
    is_at(gives(status, wanted), "the status of a limit", __FILE__, line);
    is_at(sel_len(out) == (status == SEL_OK ? len : 0), "the length of the result", __FILE__, line);
    sel_free(out);
}

#define HAS_ROWS(call, len, out) has_rows((call), SEL_OK, (len), (out), __LINE__)
#define EXCEEDS(call, out) has_rows((call), SEL_ERROR_ROW_LIMIT, 0, (out), __LINE__)

void test_flatten_limits(void) {
    const size_t widths[2] = {65536, 65537};
    sel_column out = {0}, given[2] = {{0}, {0}};
    DONE(sel_null_new(widths[0], &given[0]));
    DONE(sel_null_new(widths[1], &given[1]));
    if (all_made(given, 2)) {
        EXCEEDS(sel_flatten(&given[0], 1, &widths[0], 1, 65536, &out), &out);
        HAS_ROWS(sel_flatten(&given[1], 1, &widths[1], 1, 65535, &out), (size_t)most_rows, &out);
    }
    free_all(given, 2);
}

/* The longest list, a null list over as many items, two lists of which the longest is the first or the second, the mask
 * true, false, and the longest list again. */
void test_list_limits(void) {
    const int64_t one[2] = {0, most_rows}, first[3] = {0, most_rows, most_rows}, second[3] = {0, 0, most_rows};
    const uint32_t twice[2] = {0, 0};
    const sel_row_ref picks[2] = {{0, 0}, {1, 0}};
    const size_t widths[1] = {1};
    sel_column out = {0}, given[6] = {{0}, {0}, {0}, {0}, truths(1, 2, 3), {0}};
    lists_of_nulls(one, 1, 1, &given[0]);
    lists_of_nulls(one, 1, 0, &given[1]);
    lists_of_nulls(first, 2, 3, &given[2]);
    lists_of_nulls(second, 2, 3, &given[3]);
    lists_of_nulls(one, 1, 1, &given[5]);
    if (all_made(given, 6)) {
        EXCEEDS(sel_take_rows(&given[0], twice, 2, SEL_ALL_VALID, &out), &out);
        HAS_ROWS(sel_take_rows(&given[0], twice, 1, SEL_ALL_VALID, &out), 1, &out);
        HAS_ROWS(sel_take_rows(&given[1], twice, 2, SEL_ALL_VALID, &out), 2, &out);
        HAS_ROWS(sel_list_get(&given[0], -1, &out), 1, &out);
        EXCEEDS(sel_if_then_else(&given[4], &given[2], &given[3], &out), &out);
        HAS_ROWS(sel_if_then_else(&given[4], &given[3], &given[2], &out), 2, &out);
        EXCEEDS(sel_if_then_else_broadcast_true(&given[4], &given[0], &given[3], &out), &out);
        HAS_ROWS(sel_if_then_else_broadcast_true(&given[4], &given[0], &given[2], &out), 2, &out);
        EXCEEDS(sel_if_then_else_broadcast_false(&given[4], &given[2], &given[0], &out), &out);
        EXCEEDS(sel_if_then_else_broadcast_both(&given[4], &given[0], &given[5], &out), &out);
        EXCEEDS(sel_collect_rows(given, 2, (const sel_row_ref[2]){picks[0], picks[0]}, 2, SEL_ALL_VALID, &out), &out);
        HAS_ROWS(sel_collect_rows(given, 2, picks, 2, SEL_ALL_VALID, &out), 2, &out);
        EXCEEDS(sel_flatten(given, 1, widths, 1, 2, &out), &out);
    }
    free_all(given, 6);
}
