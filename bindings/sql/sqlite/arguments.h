/* What the functions in byte_unit_sqlite.c, which includes this file once, have in common: texts and numbers, messages,
 * and arguments. */
#ifndef BYTE_UNIT_SQLITE_ARGUMENTS_H
#define BYTE_UNIT_SQLITE_ARGUMENTS_H

#include <sqlite3ext.h>
SQLITE_EXTENSION_INIT3

#include "../forms.h"
#include "../words.h"

/* The flags of the functions that take a unit, and of those that parse a size. */
enum {
    UNIT_FLAGS = BYTE_UNIT_BITS | BYTE_UNIT_IGNORE_CASE,
    SIZE_FLAGS = UNIT_FLAGS | BYTE_UNIT_BINARY_PREFIXES | BYTE_UNIT_WORDS
};

/* A text of `len` bytes, which may have zero bytes inside. */
struct text {
    const char *at;
    size_t len;
};

/* ---- Messages: each names the value and the reason. ---- */

/* Appends a text between quotes. */
static void append_quoted(sqlite3_str *out, struct text text)
{
    char quoted[BYTE_UNIT_QUOTE_SIZE];

    sqlite3_str_appendf(out, "'%.*s'", (int)byte_unit_quote(text.at, text.len, quoted, sizeof quoted), quoted);
}

/* Returns the text of a value. `at` is NULL if the value is NULL or if there is no memory. */
static struct text text_of(sqlite3_value *value)
{
    const char *at = (const char *)sqlite3_value_text(value);
    struct text text = { at, at == NULL ? 0 : (size_t)sqlite3_value_bytes(value) };

    return text;
}

/* Parses a size, and returns the code. */
static uint32_t parse(struct text text, uint32_t flags, byte_unit_number *size)
{
    return byte_unit_parse(text.at, text.len, flags, size, NULL);
}

/* Appends a value for a message: a number, a text in quotes, or what else it is. */
static void append_value(sqlite3_str *out, sqlite3_value *value)
{
    int type = sqlite3_value_type(value);

    if (type == SQLITE_NULL)
        sqlite3_str_appendall(out, "NULL");
    else if (type == SQLITE_INTEGER)
        sqlite3_str_appendf(out, "%lld", sqlite3_value_int64(value));
    else if (type == SQLITE_FLOAT)
        sqlite3_str_appendf(out, "the REAL value %!.15g", sqlite3_value_double(value));
    else if (type == SQLITE_BLOB)
        sqlite3_str_appendf(out, "a BLOB of length %d", sqlite3_value_bytes(value));
    else
        append_quoted(out, text_of(value));
}

/* Ends a message and returns it, as the error of the call or as its result. */
static void return_message(sqlite3_context *context, sqlite3_str *message, bool is_error)
{
    int len = sqlite3_str_length(message);
    char *text = sqlite3_str_finish(message);

    if (text == NULL) {
        sqlite3_result_error_nomem(context);
    } else if (is_error) {
        sqlite3_result_error(context, text, len);
        sqlite3_free(text);
    } else {
        sqlite3_result_text(context, text, len, sqlite3_free);
    }
}

/* Returns a message: the value, and the reason. */
static void return_reason(sqlite3_context *context, sqlite3_value *value, const char *reason, bool is_error)
{
    sqlite3_str *message = sqlite3_str_new(sqlite3_context_db_handle(context));

    append_value(message, value);
    sqlite3_str_appendall(message, reason);
    return_message(context, message, is_error);
}

/* Makes the call fail for this reason, and returns false. */
static bool reject(sqlite3_context *context, sqlite3_value *value, const char *reason)
{
    return_reason(context, value, reason, true);
    return false;
}

/* Gives the message about a value of a wrong type, as an error or as the result. */
static void reject_type(sqlite3_context *context, sqlite3_value *value, bool is_error)
{
    return_reason(context, value, " is not a size: TEXT or an INTEGER is expected", is_error);
}

/* byte_unit_explain or byte_unit_explain_unit. */
typedef size_t explain_call(const char *text, size_t len, uint32_t flags, char *out, size_t out_len);

/* Appends why a text is rejected. */
static void append_reason(sqlite3_str *out, explain_call *call, struct text text, uint32_t flags)
{
    char reason[BYTE_UNIT_BUFFER_SIZE];

    sqlite3_str_append(out, reason, (int)call(text.at, text.len, flags, reason, sizeof reason));
}

/* Appends how the size is written that a text was meant to be, if there is a hint. */
static void append_hint(sqlite3_str *out, struct text text)
{
    char hint[BYTE_UNIT_HINT_SIZE];
    size_t len = byte_unit_hint(text.at, text.len, hint, sizeof hint);

    if (len > 0)
        sqlite3_str_appendf(out, "; hint: %.*s", (int)len, hint);
}

/* Returns the error of a text that the library rejects with this code: the text, what it is not, the reason, and a hint
 * unless it is the text of a size that is too large. */
static void reject_text(sqlite3_context *context, explain_call *call, struct text text, uint32_t flags, uint32_t code)
{
    sqlite3_str *message = sqlite3_str_new(sqlite3_context_db_handle(context));

    append_quoted(message, text);
    sqlite3_str_appendf(message, " is not a %s: ", call == byte_unit_explain ? "size" : "unit");
    append_reason(message, call, text, flags);
    if (call == byte_unit_explain && code != BYTE_UNIT_EXCEEDED_BOUNDS)
        append_hint(message, text);
    return_message(context, message, true);
}

/* Appends the digits of a size. */
static void append_digits(sqlite3_str *out, byte_unit_number size)
{
    byte_unit_spec digits_only = { 0 };
    char digits[BYTE_UNIT_BUFFER_SIZE];
    size_t len = byte_unit_text(size, 0, digits_only, digits, sizeof digits);

    sqlite3_str_append(out, digits, len <= sizeof digits ? (int)len : 0);
}

/* ---- Arguments. Each function returns false if the argument is invalid, and then the call has failed. ---- */

/* Gets the text of a value that is not NULL. */
static bool get_text(sqlite3_context *context, sqlite3_value *value, struct text *text)
{
    *text = text_of(value);
    if (text->at == NULL)
        sqlite3_result_error_nomem(context);
    return text->at != NULL;
}

/* Gets the flags in an argument, which has to be TEXT, and adds them. */
static bool get_flags(sqlite3_context *context, sqlite3_value *value, uint32_t allowed, uint32_t *flags)
{
    struct text words;

    if (sqlite3_value_type(value) != SQLITE_TEXT)
        return reject(context, value, " is not a text of flags");
    if (!get_text(context, value, &words))
        return false;
    if (add_flags(words.at, words.len, allowed, flags))
        return true;
    return reject(context, value,
                  allowed == SIZE_FLAGS   ? " has flags other than 'bits', 'ignore-case', 'binary' and 'words'"
                  : allowed == UNIT_FLAGS ? " has flags other than 'bits' and 'ignore-case'"
                                          : " has flags other than 'bits'");
}

static bool is_digits(struct text text)
{
    size_t at = 0;

    while (at < text.len && text.at[at] >= '0' && text.at[at] <= '9')
        at++;
    return at > 0 && at == text.len;
}

/* Gets a number: an INTEGER, or the digits of one, which size_sum returns if it is too large for that. */
static bool get_size(sqlite3_context *context, sqlite3_value *value, byte_unit_number *size)
{
    sqlite3_int64 n = sqlite3_value_int64(value);
    struct text digits = { "", 0 };
    uint32_t code;

    if (sqlite3_value_type(value) == SQLITE_INTEGER) {
        size->low = (uint64_t)n;
        size->high = 0;
        return n >= 0 || reject(context, value, " is not a size: it is negative");
    }
    if (sqlite3_value_type(value) == SQLITE_TEXT && !get_text(context, value, &digits))
        return false;
    if (!is_digits(digits))
        return reject(context, value, " is not an INTEGER such as size_parse returns");
    code = parse(digits, 0, size);
    if (code != BYTE_UNIT_OK)
        reject_text(context, byte_unit_explain, digits, 0, code);
    return code == BYTE_UNIT_OK;
}

/* Gets a unit. */
static bool get_unit(sqlite3_context *context, sqlite3_value *value, uint32_t flags, uint32_t *unit)
{
    struct text name = { "", 0 };
    uint32_t code;

    if (sqlite3_value_type(value) == SQLITE_TEXT && !get_text(context, value, &name))
        return false;
    code = byte_unit_parse_unit(name.at, name.len, flags, unit, NULL);
    if (code != BYTE_UNIT_OK)
        reject_text(context, byte_unit_explain_unit, name, flags, code);
    else if (is_blank(name.at, name.len, *unit))
        return reject(context, value, " is not a unit such as 'KiB' or 'MB'");
    return code == BYTE_UNIT_OK;
}

/* Gets a precision, and sets it in the spec. */
static bool get_precision(sqlite3_context *context, sqlite3_value *value, byte_unit_spec *spec)
{
    sqlite3_int64 precision = sqlite3_value_int64(value);

    if (sqlite3_value_type(value) != SQLITE_INTEGER || precision < 0 || precision > GREATEST_PRECISION)
        return reject(context, value, " is not a precision: an INTEGER from 0 to 65535 is expected");
    spec->has_precision = 1;
    spec->precision = (uint32_t)precision;
    return true;
}

/* Gets the arguments at the end: a precision, unless the first of them is TEXT, and flags. */
static bool get_options(sqlite3_context *context, int count, sqlite3_value **values, uint32_t allowed,
                        struct form *form)
{
    int at = 0;

    if (at < count && sqlite3_value_type(values[at]) != SQLITE_TEXT
        && !get_precision(context, values[at++], &form->spec))
        return false;
    if (at < count && !get_flags(context, values[at++], allowed, &form->flags))
        return false;
    return at == count || reject(context, values[at], " is after the flags, where no argument is expected");
}

#endif
