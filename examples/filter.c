/* Filters a column by a mask, and takes rows of it by their numbers.  cc filter.c -I../include ../build/libsel.a -pthread */
#include "sel_arrow.h"

#include <inttypes.h>
#include <stdio.h>

static int fail(sel_status status) {
    fprintf(stderr, "%s\n", sel_status_string(status));
    return 1;
}

/* Prints the rows of a column of at most 8 integers. */
static sel_status print(sel_column *column) {
    int64_t values[8];
    uint8_t valid = 0;
    bool has_validity = false;
    size_t len = sel_len(column);
    sel_status status = sel_int64_values(column, values, len);
    if (status == SEL_OK) status = sel_validity(column, &valid, 1, &has_validity);
    for (size_t i = 0; status == SEL_OK && i < len; i++) {
        if (!has_validity || (valid >> i & 1)) printf("%" PRId64 "\n", values[i]);
        else printf("null\n");
    }
    return status;
}

int main(void) {
    /* bit i of a byte belongs to row i: row 1 is null, and the mask keeps rows 0, 1 and 3 */
    const int64_t values[4] = {31, 0, 27, 45};
    const uint8_t valid = 0x0d, mask = 0x0b;
    const uint32_t rows[2] = {3, 0};
    sel_column ages = {0}, kept = {0}, taken = {0};
    sel_status status = sel_int64_new(values, 4, &valid, 1, true, &ages);
    if (status == SEL_OK) status = sel_filter_bits(&ages, &mask, 1, 4, &kept);           /* 31, null, 45 */
    if (status == SEL_OK) status = sel_take_rows(&ages, rows, 2, SEL_ALL_VALID, &taken); /* 45, 31 */
    sel_free(&ages);

    if (status == SEL_OK) status = print(&kept);
    if (status == SEL_OK) status = print(&taken);
    sel_free(&kept);
    sel_free(&taken);
    return status == SEL_OK ? 0 : fail(status);
}
