/* Sizes in SQL: a loadable extension for SQLite 3.31 or later.
 *
 *     size_parse(text [, flags])                  the number of bytes that a text such as '1.5 KiB' represents
 *     size_try(text [, flags])                    the same, NULL if the text is not a size
 *     size_explain(text [, flags])                why a text is not a size; NULL if it is one
 *     size_sum(text [, flags])                    an aggregate: the exact sum of sizes
 *     size_text(n [, precision] [, flags])        the text of n bytes with a unit, '1.5 KiB'
 *     size_in(n, unit [, precision] [, flags])    the text of n bytes in a unit, '0.001536 MB'
 *     size_pretty(n [, type [, places [, flags]]])  the text of n bytes in the largest unit of a type, rounded
 *     COLLATE SIZE                                orders texts by the sizes that they represent
 *
 * Flags are words in a text, separated by spaces: 'bits' for bits in place of bytes, 'ignore-case' for `b` as bytes,
 * 'binary' for `K` and `KB` as 1024, 'words' for words such as `bytes`.
 * README.md says more, and Makefile builds it.
 */
#include <sqlite3ext.h>
SQLITE_EXTENSION_INIT1

#include "arguments.h"

/* SQLITE_INNOCUOUS is from 3.31.0. */
enum { OLDEST_SQLITE = 3031000 };

/* ---- From texts to sizes. ---- */

/* Whether a value is read as a text: that of an INTEGER is its digits; a REAL may be rounded already, a BLOB is none. */
static bool is_text(sqlite3_value *value)
{
    int type = sqlite3_value_type(value);

    return type == SQLITE_TEXT || type == SQLITE_INTEGER;
}

/* Whether a size fits an INTEGER. */
static bool is_integer(byte_unit_number size)
{
    return size.high == 0 && size.low <= INT64_MAX;
}

/* A text, and its size, or the code of its error. `text.at` is NULL if the value is neither TEXT nor an INTEGER. */
struct reading {
    struct text text;
    byte_unit_number size;
    uint32_t flags;
    uint32_t code;
};

/* Parses the first argument. Returns false if it is NULL, or if the call has failed: the flags are invalid. */
static bool read_text(sqlite3_context *context, int argc, sqlite3_value **argv, struct reading *reading)
{
    reading->text.at = NULL;
    reading->flags = 0;
    reading->code = BYTE_UNIT_INVALID_ARGUMENT;
    if ((argc > 1 && !get_flags(context, argv[1], SIZE_FLAGS, &reading->flags))
        || sqlite3_value_type(argv[0]) == SQLITE_NULL)
        return false;
    if (!is_text(argv[0]))
        return true;
    if (!get_text(context, argv[0], &reading->text))
        return false;
    reading->code = parse(reading->text, reading->flags, &reading->size);
    return true;
}

/* The same, but if the argument is not a size, the call has failed, and it returns false. */
static bool get_reading(sqlite3_context *context, int argc, sqlite3_value **argv, struct reading *reading)
{
    if (!read_text(context, argc, argv, reading))
        return false;
    if (reading->text.at == NULL)
        reject_type(context, argv[0], true);
    else if (reading->code != BYTE_UNIT_OK)
        reject_text(context, byte_unit_explain, reading->text, reading->flags, reading->code);
    return reading->code == BYTE_UNIT_OK;
}

/* Makes the call fail: the size is above the greatest INTEGER. */
static void reject_above_integers(sqlite3_context *context, const struct reading *reading)
{
    sqlite3_str *message = sqlite3_str_new(sqlite3_context_db_handle(context));

    append_quoted(message, reading->text);
    sqlite3_str_appendall(message, " is ");
    append_digits(message, reading->size);
    sqlite3_str_appendf(message, " %s, above the greatest INTEGER, %lld",
                        reading->flags & BYTE_UNIT_BITS ? "bits" : "bytes", (sqlite3_int64)INT64_MAX);
    return_message(context, message, true);
}

static void size_parse(sqlite3_context *context, int argc, sqlite3_value **argv)
{
    struct reading reading;

    if (!get_reading(context, argc, argv, &reading))
        return;
    if (is_integer(reading.size))
        sqlite3_result_int64(context, (sqlite3_int64)reading.size.low);
    else
        reject_above_integers(context, &reading);
}

static void size_try(sqlite3_context *context, int argc, sqlite3_value **argv)
{
    struct reading reading;

    if (read_text(context, argc, argv, &reading) && reading.code == BYTE_UNIT_OK && is_integer(reading.size))
        sqlite3_result_int64(context, (sqlite3_int64)reading.size.low);
}

static void size_explain(sqlite3_context *context, int argc, sqlite3_value **argv)
{
    struct reading reading;

    if (!read_text(context, argc, argv, &reading) || reading.code == BYTE_UNIT_OK)
        return;
    if (reading.text.at == NULL) {
        reject_type(context, argv[0], false);
    } else {
        sqlite3_str *reason = sqlite3_str_new(sqlite3_context_db_handle(context));
        append_reason(reason, byte_unit_explain, reading.text, reading.flags);
        return_message(context, reason, false);
    }
}

/* ---- The sum. ---- */

/* The exact sum of `count` sizes: `rest`, which is below the limit of sizes, and `limits` times the limit, since a
 * window may add rows before it takes others away. */
struct total {
    byte_unit_number rest;
    uint64_t limits;
    uint64_t count;
};

static const byte_unit_number greatest = { BYTE_UNIT_SIZE_LIMIT_LOW - 1, BYTE_UNIT_SIZE_LIMIT_HIGH }, one = { 1, 0 };

static void add(struct total *total, byte_unit_number size)
{
    byte_unit_number room;

    total->count++;
    if (byte_unit_add(total->rest, size, &total->rest))
        return;
    /* The limit is no size, so that one is taken away apart. */
    byte_unit_subtract(greatest, size, &room);
    byte_unit_subtract(total->rest, room, &total->rest);
    byte_unit_subtract(total->rest, one, &total->rest);
    total->limits++;
}

/* Takes away a size that was added before. */
static void subtract(struct total *total, byte_unit_number size)
{
    byte_unit_number room;

    total->count--;
    if (byte_unit_subtract(total->rest, size, &total->rest))
        return;
    byte_unit_subtract(greatest, size, &room);
    byte_unit_add(total->rest, room, &total->rest);
    byte_unit_add(total->rest, one, &total->rest);
    total->limits--;
}

/* Adds the size of a row to the total of the aggregate, or takes it away. NULL changes nothing. */
static void change_sum(sqlite3_context *context, int argc, sqlite3_value **argv,
                       void (*change)(struct total *total, byte_unit_number size))
{
    struct total *total = sqlite3_aggregate_context(context, sizeof *total);
    struct reading reading;

    if (total == NULL)
        sqlite3_result_error_nomem(context);
    else if (get_reading(context, argc, argv, &reading))
        change(total, reading.size);
}

static void sum_step(sqlite3_context *context, int argc, sqlite3_value **argv)
{
    change_sum(context, argc, argv, add);
}

static void sum_inverse(sqlite3_context *context, int argc, sqlite3_value **argv)
{
    change_sum(context, argc, argv, subtract);
}

/* Returns NULL if there is no size, else the sum: an INTEGER, or its digits as TEXT if it is too large for one. */
static void sum_value(sqlite3_context *context)
{
    const struct total *total = sqlite3_aggregate_context(context, 0);

    if (total == NULL || total->count == 0)
        return;
    if (total->limits > 0) {
        sqlite3_result_error(context, "the sum of the sizes is 10^30 or more", -1);
    } else if (is_integer(total->rest)) {
        sqlite3_result_int64(context, (sqlite3_int64)total->rest.low);
    } else {
        sqlite3_str *digits = sqlite3_str_new(sqlite3_context_db_handle(context));
        append_digits(digits, total->rest);
        return_message(context, digits, false);
    }
}

/* ---- From sizes to texts. ---- */

/* Returns the text of a form, by a longer buffer if it needs one. */
static void return_form(sqlite3_context *context, const struct form *form)
{
    char buffer[BYTE_UNIT_BUFFER_SIZE];
    size_t len = write_form(form, buffer, sizeof buffer);
    char *out = len <= sizeof buffer ? buffer : sqlite3_malloc64(len);

    if (out == NULL) {
        sqlite3_result_error_nomem(context);
    } else if (out == buffer) {
        sqlite3_result_text(context, buffer, (int)len, SQLITE_TRANSIENT);
    } else {
        write_form(form, out, len);
        sqlite3_result_text(context, out, (int)len, sqlite3_free);
    }
}

static void size_text(sqlite3_context *context, int argc, sqlite3_value **argv)
{
    struct form form = { .spec = { .alternate = 1 } };

    if (get_options(context, argc - 1, argv + 1, BYTE_UNIT_BITS, &form)
        && sqlite3_value_type(argv[0]) != SQLITE_NULL && get_size(context, argv[0], &form.size))
        return_form(context, &form);
}

static void size_in(sqlite3_context *context, int argc, sqlite3_value **argv)
{
    struct form form = { .write = byte_unit_adjusted_text };

    if (get_options(context, argc - 2, argv + 2, UNIT_FLAGS, &form) && sqlite3_value_type(argv[0]) != SQLITE_NULL
        && sqlite3_value_type(argv[1]) != SQLITE_NULL && get_size(context, argv[0], &form.size)
        && get_unit(context, argv[1], form.flags, &form.unit_or_type))
        return_form(context, &form);
}

/* Gets the type of the units from which one is chosen. */
static bool get_type(sqlite3_context *context, sqlite3_value *value, uint32_t *type)
{
    struct text name = { "", 0 };

    if (sqlite3_value_type(value) == SQLITE_TEXT && !get_text(context, value, &name))
        return false;
    return set_unit_type(name.at, name.len, type)
           || reject(context, value, " is not a type of units: 'binary', 'decimal' or 'both' is expected");
}

static void size_pretty(sqlite3_context *context, int argc, sqlite3_value **argv)
{
    struct form form = { .write = byte_unit_approximate_text, .spec = { .precision = 1, .has_precision = 1 } };

    if ((argc < 2 || get_type(context, argv[1], &form.unit_or_type))
        && (argc < 3 || get_precision(context, argv[2], &form.spec))
        && (argc < 4 || get_flags(context, argv[3], BYTE_UNIT_BITS, &form.flags))
        && sqlite3_value_type(argv[0]) != SQLITE_NULL && get_size(context, argv[0], &form.size))
        return_form(context, &form);
}

/* ---- The collation: sizes by their numbers of bytes, then the texts that are not sizes by their bytes. ---- */

/* Returns a negative number, 0 or a positive one. A text is after each beginning of it. */
static int compare_bytes(struct text a, struct text b)
{
    size_t shorter = a.len < b.len ? a.len : b.len;
    int order = shorter == 0 ? 0 : memcmp(a.at, b.at, shorter);

    return order != 0 ? order : (a.len > b.len) - (a.len < b.len);
}

/* The comparison of the collation, as SQLite calls it. */
static int compare_texts(void *unused, int a_len, const void *a_at, int b_len, const void *b_at)
{
    struct text a = { a_at, (size_t)a_len }, b = { b_at, (size_t)b_len };
    byte_unit_number a_size, b_size;
    bool a_is_size = parse(a, 0, &a_size) == BYTE_UNIT_OK, b_is_size = parse(b, 0, &b_size) == BYTE_UNIT_OK;

    (void)unused;
    if (a_is_size != b_is_size)
        return a_is_size ? -1 : 1;
    return a_is_size ? byte_unit_compare(a_size, b_size) : compare_bytes(a, b);
}

/* What each function is: its result depends on its arguments alone, so that indexes and generated columns may call it,
 * and it has no effects, so that a schema may call it that is not trusted. */
enum { KIND = SQLITE_UTF8 | SQLITE_DETERMINISTIC | SQLITE_INNOCUOUS };

/* Adds each function once for each number of arguments that it takes. */
static int add_functions(sqlite3 *db)
{
    static const struct {
        const char *name;
        int least, most;
        void (*call)(sqlite3_context *, int, sqlite3_value **);
    } functions[] = { { "size_parse", 1, 2, size_parse },     { "size_try", 1, 2, size_try },
                      { "size_explain", 1, 2, size_explain }, { "size_text", 1, 3, size_text },
                      { "size_in", 2, 4, size_in },           { "size_pretty", 1, 4, size_pretty } };
    int status = SQLITE_OK;

    for (size_t at = 0; at < sizeof functions / sizeof *functions; at++)
        for (int count = functions[at].least; count <= functions[at].most && status == SQLITE_OK; count++)
            status = sqlite3_create_function_v2(db, functions[at].name, count, KIND, NULL, functions[at].call, NULL,
                                                NULL, NULL);
    for (int count = 1; count <= 2 && status == SQLITE_OK; count++)
        status = sqlite3_create_window_function(db, "size_sum", count, KIND, NULL, sum_step, sum_value, sum_value,
                                                sum_inverse, NULL);
    return status;
}

/* What SQLite calls when it loads the extension: the name is that of the file, byte_unit.so, in letters alone. It is the
 * only symbol that the compiler exports under -fvisibility=hidden. */
__attribute__((visibility("default")))
int sqlite3_byteunit_init(sqlite3 *db, char **error, const sqlite3_api_routines *api);

int sqlite3_byteunit_init(sqlite3 *db, char **error, const sqlite3_api_routines *api)
{
    int status;

    SQLITE_EXTENSION_INIT2(api)
    if (sqlite3_libversion_number() < OLDEST_SQLITE) {
        *error = sqlite3_mprintf("byte_unit: SQLite %s is too old: 3.31.0 or later is needed", sqlite3_libversion());
        return SQLITE_ERROR;
    }
    if ((status = add_functions(db)) != SQLITE_OK)
        return status;
    return sqlite3_create_collation_v2(db, "SIZE", SQLITE_UTF8, NULL, compare_texts, NULL);
}
