/* Imports a column from an Arrow array, filters it, and exports it with its type.  cc arrow_roundtrip.c -I../include ../build/libsel.a -pthread */
#include "sel_arrow.h"

#include <stdio.h>

/* Arrays of constants have nothing to free. */
static void release_array(struct ArrowArray *array) { array->release = NULL; }
static void release_schema(struct ArrowSchema *schema) { schema->release = NULL; }

int main(void) {
    /* The strings "one", null, "three", "four", with 32-bit offsets and a validity; the array is the slice from the second row on. */
    static const int32_t offsets[] = {0, 3, 3, 8, 12};
    static const uint8_t valid = 0x0d;
    const void *buffers[] = {&valid, offsets, "onethreefour"};
    struct ArrowArray array = {.length = 3, .null_count = -1, .offset = 1, .n_buffers = 3, .buffers = buffers, .release = release_array};
    struct ArrowSchema schema = {.format = "u", .name = "words", .flags = ARROW_FLAG_NULLABLE, .release = release_schema};

    sel_column column = {0}, kept = {0};
    sel_type logical = {0}; /* the type that the schema describes */
    const uint8_t keep = 0x05; /* the first and the third row */
    sel_status status = sel_import(&array, &schema, &column, &logical);
    if (array.release) array.release(&array); /* an import that fails leaves the array to its caller */
    schema.release(&schema);
    if (status == SEL_OK) status = sel_filter_bits(&column, &keep, 1, 3, &kept);
    sel_free(&column);

    struct ArrowArray out;
    struct ArrowSchema type;
    if (status == SEL_OK) status = sel_export(&kept, &logical, &out, &type);
    sel_free(&kept);
    sel_type_free(&logical);
    if (status != SEL_OK) return (int)status;

    printf("%s of format %s: %d rows, %d null\n", type.name, type.format, (int)out.length, (int)out.null_count);
    const int32_t *ends = out.buffers[1];
    printf("%.*s\n", (int)(ends[2] - ends[1]), (const char *)out.buffers[2] + ends[1]);
    out.release(&out);
    type.release(&type);
    return 0;
}
