/* Fuzz target: the Arrow interface. The bytes make an array and its schema, whose buffers are as long as the array says. What is
 * imported has the rows that an independent reader finds in the buffers. It is filtered, taken, decoded, exported and imported again, and
 * must be equal, its type too; an array is released once, or stays with the producer, and nothing of it is written. */
#include "producer.h"

#include "../../c/arrow_test.h"
#include "../memory.h"

#include <stdlib.h>
#include <string.h>

int LLVMFuzzerTestOneInput(const uint8_t *input, size_t len);

static void require(bool holds) {
    if (!holds) {
        abort();
    }
}

static void check_equal(const sel_column *one, const sel_column *other) {
    bool equal = false;
    require(sel_equal_rows(one, other, &equal) == SEL_OK && equal);
    require(sel_len(one) == sel_len(other) && sel_null_count(one) == sel_null_count(other));
}

/* Exports the column with a type, or with that of its storage, and imports it again: the same rows and the same type, or one of the
 * errors that a column can have which does not fit the type. */
static void check_round_trip(const sel_column *column, const sel_type *type) {
    struct ArrowArray array;
    struct ArrowSchema schema;
    sel_column again = {0};
    sel_type same = {0};
    sel_status status = sel_export(column, type, &array, &schema);
    require(status == SEL_OK || status == SEL_ERROR_ARROW_RANGE || (type != NULL && status == SEL_ERROR_ARROW_NULL));
    if (status == SEL_OK) {
        require(sel_import(&array, &schema, &again, &same) == SEL_OK && array.release == NULL);
        schema.release(&schema);
        check_equal(column, &again);
        require(type == NULL || sel_type_equal(type, &same));
        sel_free(&again);
        sel_type_free(&same);
    }
}

/* Filters by a mask and takes the same rows by their indices: the results are equal. */
static void check_kernels(struct draws *draws, const sel_column *column, const sel_type *type) {
    enum { MOST_ROWS = 64 };
    uint8_t bits[MOST_ROWS / 8] = {0};
    uint32_t rows[MOST_ROWS];
    size_t len = sel_len(column), kept = 0;
    sel_column filtered = {0}, taken = {0};
    if (len > MOST_ROWS) {
        return;
    }
    for (size_t i = 0; i < len; i += 1) {
        if (draw_one_in(draws, 2)) {
            bits[i / 8] |= (uint8_t)(1U << (i % 8));
            rows[kept] = (uint32_t)i;
            kept += 1;
        }
    }
    require(sel_filter_bits(column, bits, (len + 7) / 8, len, &filtered) == SEL_OK);
    require(sel_take_rows(column, rows, kept, SEL_ALL_VALID, &taken) == SEL_OK);
    require(sel_len(&filtered) == kept);
    check_equal(&filtered, &taken);
    check_round_trip(&taken, type);
    check_round_trip(&filtered, NULL);
    sel_free(&filtered);
    sel_free(&taken);
}

/* Compares the rows of an export with those of the array that was imported. */
static void check_rows(const sel_column *column, const sel_type *type, const struct ArrowArray *from, const struct ArrowSchema *from_schema) {
    static char found[1 << 16], wanted[1 << 16];
    struct ArrowArray array;
    struct ArrowSchema schema;
    if (sel_export(column, type, &array, &schema) != SEL_OK) {
        return;
    }
    require(array.length == from->length);
    for (int64_t row = 0; row < array.length; row += 1) {
        write_row(from, from_schema, row, wanted, sizeof wanted);
        write_row(&array, &schema, row, found, sizeof found);
        require(strcmp(found, wanted) == 0);
    }
    array.release(&array);
    schema.release(&schema);
}

/* Exports the column with a type, and releases what is exported. */
static sel_status export_once(const sel_column *column, const sel_type *type) {
    struct ArrowArray array;
    struct ArrowSchema schema;
    sel_status status = sel_export(column, type, &array, &schema);
    if (status == SEL_OK) {
        array.release(&array);
        schema.release(&schema);
    }
    return status;
}

/* Decodes the keys of dictionaries: the decoded column can be exported with its type if the column can be. */
static void check_decoded(const sel_column *column, const sel_type *type) {
    sel_column decoded = {0};
    sel_type decoded_type = {0};
    require(sel_decode(column, type, &decoded, &decoded_type) == SEL_OK && sel_len(&decoded) == sel_len(column));
    require(export_once(column, type) != SEL_OK || export_once(&decoded, &decoded_type) == SEL_OK);
    sel_free(&decoded);
    sel_type_free(&decoded_type);
}

static void check_imported(struct draws *draws, const sel_column *column, const sel_type *type) {
    size_t len = 0;
    uint8_t none[1];
    require(column->at != NULL && sel_print(column, none, 0, &len) == SEL_OK && len >= 2);
    check_kernels(draws, column, type);
    check_round_trip(column, type);
    check_decoded(column, type);
}

int LLVMFuzzerTestOneInput(const uint8_t *input, size_t len) {
    static const uint8_t nothing;
    struct draws draws = draws_of_input(len == 0 ? &nothing : input, len);
    struct ArrowArray array, before;
    struct ArrowSchema schema;
    sel_column column = {0};
    sel_type type = {0};
    long blocks = memory_in_use();
    producer_make(&draws, &array, &schema);
    before = array;
    uint64_t hash = producer_hash();
    sel_status status = sel_import(&array, &schema, &column, &type);
    require(status != SEL_ERROR_OUT_OF_MEMORY);
    const char *unsupported = sel_unsupported_format(&schema);
    require(status == SEL_OK ? unsupported == NULL : status != SEL_ERROR_ARROW_FORMAT || unsupported != NULL);
    if (status == SEL_OK) {
        require(array.release == NULL);
        check_rows(&column, &type, &before, &schema);
        check_imported(&draws, &column, &type);
        sel_free(&column);
        sel_type_free(&type);
        require(producer_releases() == 1);
    } else {
        require(column.at == NULL && type.at == NULL && producer_releases() == 0);
        require(memcmp(&array, &before, sizeof array) == 0);
    }
    require(producer_hash() == hash);
    producer_end();
    require(memory_in_use() == blocks);
    return 0;
}
