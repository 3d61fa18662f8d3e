/* A real producer: the Arrow streams of GDAL's layers, a CSV, a GeoPackage and one of lists, with all field types of GDAL and nulls. Each
 * batch is imported, filtered, gathered and exported; its values are compared with those that GDAL's own reader of features gives, and its
 * schema with the one that came in.  test_gdal FOLDER */
#include "arrow_test.h"

#include <cpl_conv.h>
#include <cpl_error.h>
#include <gdal.h>
#include <inttypes.h>
#include <ogr_api.h>
#include <ogr_srs_api.h>
#include <stdio.h>
#include <stdlib.h>
#include <string.h>

enum { ROWS = 40, ROOM = 400, BATCH = 9 };

static int failures, compared;

#define FAILED(...) (printf(__VA_ARGS__), failures++)

/* ---- text of a value, of an array and of a feature */

typedef struct writer {
    char text[ROOM];
    size_t len;
} writer;

static void put(writer *w, const char *text) {
    for (; *text && w->len + 1 < ROOM; text++) w->text[w->len++] = *text;
    w->text[w->len] = 0;
}

static void put_hex(writer *w, const void *bytes, size_t len) {
    for (size_t i = 0; i < len; i++) {
        char two[3];
        snprintf(two, sizeof two, "%02x", ((const uint8_t *)bytes)[i]);
        put(w, two);
    }
}

static void put_integer(writer *w, int64_t value) {
    char digits[24];
    snprintf(digits, sizeof digits, "%" PRId64, value);
    put(w, digits);
}

static void put_real(writer *w, double value) {
    char digits[40];
    snprintf(digits, sizeof digits, "%.17g", value);
    put(w, digits);
}

static void put_value(writer *w, const struct ArrowArray *array, const char *format, int64_t row);

static void put_list(writer *w, const struct ArrowArray *array, const struct ArrowSchema *schema, int64_t row) {
    const int32_t *offsets = (const int32_t *)array->buffers[1] + row;
    put(w, "[");
    for (int32_t i = offsets[0]; i < offsets[1]; i++) put_value(w, array->children[0], schema->children[0]->format, i), put(w, ",");
    put(w, "]");
}

static void put_value(writer *w, const struct ArrowArray *array, const char *format, int64_t row) {
    int64_t at = row + array->offset;
    const uint8_t *valid = array->buffers[0];
    const void *values = array->buffers[1];
    if (valid && array->null_count != 0 && !(valid[at / 8] >> (at % 8) & 1)) put(w, "null");
    else if (!strcmp(format, "b")) put_integer(w, ((const uint8_t *)values)[at / 8] >> (at % 8) & 1);
    else if (!strcmp(format, "s")) put_integer(w, ((const int16_t *)values)[at]);
    else if (!strcmp(format, "i") || !strcmp(format, "tdD") || !strcmp(format, "ttm")) put_integer(w, ((const int32_t *)values)[at]);
    else if (!strcmp(format, "l") || !strncmp(format, "tsm:", 4)) put_integer(w, ((const int64_t *)values)[at]);
    else if (!strcmp(format, "f")) put_real(w, (double)((const float *)values)[at]);
    else if (!strcmp(format, "g")) put_real(w, ((const double *)values)[at]);
    else if (!strcmp(format, "u") || !strcmp(format, "z")) {
        const int32_t *offsets = (const int32_t *)values + at;
        put_hex(w, (const uint8_t *)array->buffers[2] + offsets[0], (size_t)(offsets[1] - offsets[0]));
    } else FAILED("a format that this test does not read: %s\n", format);
}

/* Returns the days from 1970-01-01 to a date. */
static int64_t days_of(int year, int month, int day) {
    int64_t y = year - (month <= 2), era = (y >= 0 ? y : y - 399) / 400, of_era = y - era * 400;
    int64_t of_year = (153 * (month + (month > 2 ? -3 : 9)) + 2) / 5 + day - 1;
    return era * 146097 + of_era * 365 + of_era / 4 - of_era / 100 + of_year - 719468;
}

static void put_date(writer *w, OGRFeatureH feature, int field, OGRFieldType type) {
    int year = 0, month = 0, day = 0, hour = 0, minute = 0, zone = 0;
    float second = 0;
    OGR_F_GetFieldAsDateTimeEx(feature, field, &year, &month, &day, &hour, &minute, &second, &zone);
    int64_t ms = ((int64_t)hour * 60 + minute) * 60000 + (int64_t)((double)second * 1000 + 0.5);
    int64_t days = type == OFTTime ? 0 : days_of(year, month, day);
    put_integer(w, type == OFTDate ? days : days * 86400000 + ms);
}

static void put_feature_list(writer *w, OGRFeatureH feature, int field, OGRFieldType type) {
    int count = 0;
    put(w, "[");
    if (type == OFTIntegerList) {
        const int *values = OGR_F_GetFieldAsIntegerList(feature, field, &count);
        for (int i = 0; i < count; i++) put_integer(w, values[i]), put(w, ",");
    } else if (type == OFTInteger64List) {
        const GIntBig *values = OGR_F_GetFieldAsInteger64List(feature, field, &count);
        for (int i = 0; i < count; i++) put_integer(w, values[i]), put(w, ",");
    } else if (type == OFTRealList) {
        const double *values = OGR_F_GetFieldAsDoubleList(feature, field, &count);
        for (int i = 0; i < count; i++) put_real(w, values[i]), put(w, ",");
    } else {
        char **values = OGR_F_GetFieldAsStringList(feature, field);
        for (; values && *values; values++) put_hex(w, *values, strlen(*values)), put(w, ",");
    }
    put(w, "]");
}

static void put_field(writer *w, OGRFeatureH feature, int field) {
    OGRFieldType type = OGR_Fld_GetType(OGR_F_GetFieldDefnRef(feature, field));
    int count = 0;
    if (!OGR_F_IsFieldSetAndNotNull(feature, field)) put(w, "null");
    else if (type == OFTInteger || type == OFTInteger64) put_integer(w, OGR_F_GetFieldAsInteger64(feature, field));
    else if (type == OFTReal) put_real(w, OGR_F_GetFieldAsDouble(feature, field));
    else if (type == OFTDate || type == OFTTime || type == OFTDateTime) put_date(w, feature, field, type);
    else if (type == OFTBinary) {
        const GByte *bytes = OGR_F_GetFieldAsBinary(feature, field, &count);
        put_hex(w, bytes, (size_t)count);
    } else if (type == OFTString) {
        const char *text = OGR_F_GetFieldAsString(feature, field);
        put_hex(w, text, strlen(text));
    } else put_feature_list(w, feature, field, type);
}

/* Writes the geometry of a feature as well-known binary. */
static void put_geometry(writer *w, OGRFeatureH feature) {
    OGRGeometryH geometry = OGR_F_GetGeometryRef(feature);
    if (!geometry) {
        put(w, "null");
        return;
    }
    size_t size = (size_t)OGR_G_WkbSize(geometry);
    unsigned char *bytes = malloc(size);
    if (bytes && OGR_G_ExportToIsoWkb(geometry, wkbNDR, bytes) == OGRERR_NONE) put_hex(w, bytes, size);
    free(bytes);
}

/* ---- the layers */

static void add_field(OGRLayerH layer, const char *name, OGRFieldType type, OGRFieldSubType subtype) {
    OGRFieldDefnH field = OGR_Fld_Create(name, type);
    OGR_Fld_SetSubType(field, subtype);
    if (OGR_L_CreateField(layer, field, TRUE) != OGRERR_NONE) FAILED("no field %s\n", name);
    OGR_Fld_Destroy(field);
}

/* Dates begin with a year: those before 1970 are a day too late in the streams of some drivers of GDAL. */
static void set_scalars(OGRFeatureH feature, int row, int year) {
    static const char *const names[] = {"", "one", "a name of more than twelve bytes", "\xc3\xa9t\xc3\xa9"};
    OGR_F_SetFieldInteger(feature, OGR_F_GetFieldIndex(feature, "small"), row - 7);
    OGR_F_SetFieldInteger64(feature, OGR_F_GetFieldIndex(feature, "large"), INT64_MAX - row);
    OGR_F_SetFieldDouble(feature, OGR_F_GetFieldIndex(feature, "real"), row / 3.0);
    OGR_F_SetFieldInteger(feature, OGR_F_GetFieldIndex(feature, "flag"), row % 2);
    OGR_F_SetFieldInteger(feature, OGR_F_GetFieldIndex(feature, "short"), -row);
    OGR_F_SetFieldDouble(feature, OGR_F_GetFieldIndex(feature, "single"), row * 0.25);
    OGR_F_SetFieldString(feature, OGR_F_GetFieldIndex(feature, "name"), names[row % 4]);
    OGR_F_SetFieldDateTimeEx(feature, OGR_F_GetFieldIndex(feature, "day"), year + 3 * row, 1 + row % 12, 1 + row % 28, 0, 0, 0, 0);
    OGR_F_SetFieldDateTimeEx(feature, OGR_F_GetFieldIndex(feature, "moment"), 1960 + 2 * row, 2, 3, row % 24, 59, 30.125f, 100);
    OGR_F_SetFieldBinary(feature, OGR_F_GetFieldIndex(feature, "bytes"), row % 5, "\0\1\2\377\376");
}

static void set_lists(OGRFeatureH feature, int row) {
    const int integers[3] = {row, -row, INT32_MIN};
    const GIntBig longs[3] = {row, INT64_MIN, INT64_MAX};
    const double reals[3] = {row / 7.0, -0.0, 1e300};
    const char *const texts[] = {"first", "", "a text of more than twelve bytes", NULL};
    OGR_F_SetFieldIntegerList(feature, OGR_F_GetFieldIndex(feature, "integers"), row % 4, integers);
    OGR_F_SetFieldInteger64List(feature, OGR_F_GetFieldIndex(feature, "longs"), (row + 1) % 4, longs);
    OGR_F_SetFieldDoubleList(feature, OGR_F_GetFieldIndex(feature, "reals"), (row + 2) % 4, reals);
    OGR_F_SetFieldStringList(feature, OGR_F_GetFieldIndex(feature, "texts"), (CSLConstList)(texts + row % 4));
    OGR_F_SetFieldDateTimeEx(feature, OGR_F_GetFieldIndex(feature, "clock"), 0, 0, 0, row % 24, row % 60, 12.5f, 0);
}

static void add_scalars(OGRLayerH layer) {
    add_field(layer, "small", OFTInteger, OFSTNone);
    add_field(layer, "large", OFTInteger64, OFSTNone);
    add_field(layer, "real", OFTReal, OFSTNone);
    add_field(layer, "flag", OFTInteger, OFSTBoolean);
    add_field(layer, "short", OFTInteger, OFSTInt16);
    add_field(layer, "single", OFTReal, OFSTFloat32);
    add_field(layer, "name", OFTString, OFSTNone);
    add_field(layer, "day", OFTDate, OFSTNone);
    add_field(layer, "moment", OFTDateTime, OFSTNone);
    add_field(layer, "bytes", OFTBinary, OFSTNone);
}

static void add_lists(OGRLayerH layer) {
    add_field(layer, "integers", OFTIntegerList, OFSTNone);
    add_field(layer, "longs", OFTInteger64List, OFSTNone);
    add_field(layer, "reals", OFTRealList, OFSTNone);
    add_field(layer, "texts", OFTStringList, OFSTNone);
    add_field(layer, "clock", OFTTime, OFSTNone);
}

/* Makes rows with points, where every fifth value of a field is null. */
static void fill(OGRLayerH layer, bool has_lists) {
    OGRFeatureDefnH definition = OGR_L_GetLayerDefn(layer);
    for (int row = 0; row < ROWS; row++) {
        OGRFeatureH feature = OGR_F_Create(definition);
        OGRGeometryH point = OGR_G_CreateGeometry(wkbPoint);
        set_scalars(feature, row, has_lists ? 1970 : 1950);
        if (has_lists) set_lists(feature, row);
        for (int i = 0; i < OGR_FD_GetFieldCount(definition); i++)
            if ((row + i) % 5 == 0) OGR_F_SetFieldNull(feature, i);
        OGR_G_SetPoint_2D(point, 0, row, -row / 2.0);
        if (row % 6 != 5) OGR_F_SetGeometry(feature, point);
        if (OGR_L_CreateFeature(layer, feature) != OGRERR_NONE) FAILED("no feature %d\n", row);
        OGR_G_DestroyGeometry(point);
        OGR_F_Destroy(feature);
    }
}

static GDALDatasetH made(const char *driver, const char *path, bool has_lists) {
    GDALDatasetH set = GDALCreate(GDALGetDriverByName(driver), path, 0, 0, 0, GDT_Unknown, NULL);
    OGRLayerH layer = set ? GDALDatasetCreateLayer(set, "rows", NULL, wkbPoint, NULL) : NULL;
    if (!layer) {
        FAILED("no layer of %s\n", driver);
        return set;
    }
    add_scalars(layer);
    if (has_lists) add_lists(layer);
    fill(layer, has_lists);
    return set;
}

static bool write_csv(const char *path) {
    FILE *file = fopen(path, "w");
    if (!file) return false;
    fputs("id,large,ratio,name,day,moment,clock\n", file);
    for (int row = 0; row < ROWS; row++) {
        fprintf(file, "%d,%s%d,", row - 3, row % 2 ? "90000000000" : "-", row);
        if (row % 3) fprintf(file, "%g", row / 8.0);
        fprintf(file, ",%s,", row % 4 ? "a name of more than twelve bytes" : "b");
        if (row % 5) fprintf(file, "%d/%02d/%02d", 1990 + row, 1 + row % 12, 1 + row % 28);
        fputs(",", file);
        if (row % 6) fprintf(file, "20%02d/03/04 %02d:05:06", row, row % 24);
        fputs(",", file);
        if (row % 7) fprintf(file, "%02d:10:%02d", row % 24, row);
        fputs("\n", file);
    }
    return fclose(file) == 0;
}

/* ---- the comparison */

/* What the reader of features gives for each row: the fields, then the number of the feature and the geometry. */
typedef struct expected {
    writer *texts;
    int rows, fields;
} expected;

static writer *text_at(const expected *it, int row, int field) { return &it->texts[row * (it->fields + 2) + field]; }

static expected read_features(OGRLayerH layer) {
    expected it = {NULL, 0, OGR_FD_GetFieldCount(OGR_L_GetLayerDefn(layer))};
    OGRFeatureH feature;
    it.texts = calloc((size_t)(ROWS * (it.fields + 2)), sizeof *it.texts);
    OGR_L_ResetReading(layer);
    while (it.texts && it.rows < ROWS && (feature = OGR_L_GetNextFeature(layer)) != NULL) {
        writer *row = it.texts + it.rows++ * (it.fields + 2);
        for (int i = 0; i < it.fields; i++) put_field(&row[i], feature, i);
        put_integer(&row[it.fields], OGR_F_GetFID(feature));
        put_geometry(&row[it.fields + 1], feature);
        OGR_F_Destroy(feature);
    }
    return it;
}

/* Returns the number of the field of a child of the stream, or that of the feature's number or geometry. */
static int field_of(const expected *it, OGRLayerH layer, const struct ArrowSchema *child) {
    int field = OGR_FD_GetFieldIndex(OGR_L_GetLayerDefn(layer), child->name);
    return field >= 0 ? field : child->format[0] == 'z' ? it->fields + 1 : it->fields;
}

static writer read_value(const struct ArrowArray *array, const struct ArrowSchema *schema, int64_t row) {
    writer found = {"", 0};
    int64_t at = row + array->offset;
    const uint8_t *valid = array->buffers[0];
    bool is_list = !strcmp(schema->format, "+l"), is_null = valid && !(valid[at / 8] >> (at % 8) & 1);
    if (is_list && !is_null) put_list(&found, array, schema, at);
    else put_value(&found, array, is_list ? "u" : schema->format, row);
    return found;
}

/* Reads the stream without the library, and takes over the booleans that it gives: the GeoPackages of some versions of GDAL give others
 * than their features have. Returns their number. */
static int take_booleans(expected *it, OGRLayerH layer, char **options) {
    struct ArrowArrayStream source;
    struct ArrowSchema schema;
    struct ArrowArray batch;
    int first = 0, differences = 0;
    OGR_L_ResetReading(layer);
    if (!OGR_L_GetArrowStream(layer, &source, options) || source.get_schema(&source, &schema) != 0) return 0;
    while (source.get_next(&source, &batch) == 0 && batch.release) {
        for (int64_t i = 0; i < batch.n_children; i++) {
            if (strcmp(schema.children[i]->format, "b") != 0) continue;
            for (int row = 0; row < batch.length && first + row < it->rows; row++) {
                writer found = read_value(batch.children[i], schema.children[i], row);
                writer *wanted = text_at(it, first + row, field_of(it, layer, schema.children[i]));
                differences += strcmp(found.text, wanted->text) != 0;
                *wanted = found;
            }
        }
        first += (int)batch.length;
        batch.release(&batch);
    }
    schema.release(&schema);
    source.release(&source);
    return differences;
}

/* Compares the rows of a batch with those of features: row `i` is that of feature `rows[i]`. */
static void compare(const expected *wanted, OGRLayerH layer, const struct ArrowArray *array, const struct ArrowSchema *schema, const int *rows, int64_t len) {
    if (array->length != len) FAILED("%" PRId64 " rows instead of %" PRId64 "\n", array->length, len);
    for (int64_t i = 0; i < array->n_children; i++) {
        const struct ArrowSchema *type = schema->children[i];
        int field = field_of(wanted, layer, type);
        for (int64_t row = 0; row < len && row < array->length; row++) {
            writer found = read_value(array->children[i], type, row);
            compared++;
            if (strcmp(found.text, text_at(wanted, rows[row], field)->text) != 0)
                FAILED("%s (%s), row %d: %s instead of %s\n", type->name, type->format, rows[row], found.text, text_at(wanted, rows[row], field)->text);
        }
    }
}

static void is_done(sel_status status, const char *what) {
    if (status != SEL_OK) FAILED("%s: %s\n", what, sel_status_string(status));
}

/* Exports rows of a batch and compares them and the schema. */
static void export_and_compare(const sel_column *of, const sel_type *type, const expected *wanted, OGRLayerH layer, const struct ArrowSchema *given,
                               const int *rows, int64_t len) {
    struct ArrowArray array;
    struct ArrowSchema schema;
    sel_status status = sel_export(of, type, &array, &schema);
    is_done(status, "export");
    if (status != SEL_OK) return;
    if (!same_schema(&schema, given)) FAILED("the schema is not the one that came in\n");
    compare(wanted, layer, &array, &schema, rows, len);
    array.release(&array);
    schema.release(&schema);
}

/* Compares a batch: all rows, every other one by a filter, and all of them backwards by a take. */
static void check_batch(const sel_column *batch, const sel_type *type, const expected *wanted, OGRLayerH layer, const struct ArrowSchema *given, int first) {
    const uint8_t mask[2] = {0x55, 0x55};
    int len = (int)sel_len(batch), rows[BATCH];
    uint32_t indices[BATCH];
    sel_column part = {0};
    for (int i = 0; i < len && i < BATCH; i++) rows[i] = first + i;
    export_and_compare(batch, type, wanted, layer, given, rows, len);
    for (int i = 0; 2 * i < len; i++) rows[i] = first + 2 * i;
    is_done(sel_filter_bits(batch, mask, 2, (size_t)len, &part), "filter");
    export_and_compare(&part, type, wanted, layer, given, rows, (len + 1) / 2);
    for (int i = 0; i < len && i < BATCH; i++) indices[i] = (uint32_t)(len - 1 - i), rows[i] = first + len - 1 - i;
    is_done(sel_take_rows(batch, indices, (size_t)len, SEL_ALL_VALID, &part), "take");
    export_and_compare(&part, type, wanted, layer, given, rows, len);
    sel_free(&part);
}

static void check_layer(const char *name, GDALDatasetH set) {
    OGRLayerH layer = set ? GDALDatasetGetLayer(set, 0) : NULL;
    struct ArrowArrayStream source;
    struct ArrowSchema given;
    char *options[] = {(char *)"MAX_FEATURES_IN_BATCH=9", NULL};
    sel_stream stream = {0};
    sel_column batch = {0};
    sel_type type = {0};
    int before = compared, first = 0;
    if (!layer) {
        FAILED("%s: no layer\n", name);
        return;
    }
    expected wanted = read_features(layer);
    int booleans = take_booleans(&wanted, layer, options);
    if (booleans > 0) printf("%s: GDAL's stream and its features differ in %d booleans\n", name, booleans);
    OGR_L_ResetReading(layer);
    if (!OGR_L_GetArrowStream(layer, &source, options) || source.get_schema(&source, &given) != 0) {
        FAILED("%s: no Arrow stream\n", name);
        return;
    }
    is_done(sel_stream_open(&source, &stream), "the stream is opened");
    while (failures == 0) {
        is_done(sel_stream_next(&stream, &batch, &type), "the next batch");
        if (!batch.at) break;
        check_batch(&batch, &type, &wanted, layer, &given, first);
        first += (int)sel_len(&batch);
    }
    if (first != ROWS || wanted.rows != ROWS) FAILED("%s: %d rows in batches, %d features\n", name, first, wanted.rows);
    printf("%s: %d values of %d fields compared\n", name, compared - before, (int)given.n_children);
    given.release(&given);
    sel_stream_free(&stream);
    sel_free(&batch);
    sel_type_free(&type);
    free(wanted.texts);
}

int main(int count, char **arguments) {
    const char *const types[] = {"AUTODETECT_TYPE=YES", NULL};
    char path[1000];
    if (count != 2) return 2;
    GDALAllRegister();
    snprintf(path, sizeof path, "%s/rows.csv", arguments[1]);
    if (!write_csv(path)) return 2;
    GDALDatasetH csv = GDALOpenEx(path, GDAL_OF_VECTOR, NULL, types, NULL);
    check_layer("CSV", csv);
    GDALClose(csv);
    snprintf(path, sizeof path, "%s/rows.gpkg", arguments[1]);
    GDALClose(made("GPKG", path, false));
    GDALDatasetH package = GDALOpenEx(path, GDAL_OF_VECTOR, NULL, NULL, NULL);
    check_layer("GeoPackage", package);
    GDALClose(package);
    GDALDatasetH lists = made(GDALGetDriverByName("Memory") ? "Memory" : "MEM", "", true);
    check_layer("lists", lists);
    GDALClose(lists);
    GDALDestroyDriverManager();
    printf("GDAL %s: %d failures\n", GDALVersionInfo("RELEASE_NAME"), failures);
    return failures != 0;
}
