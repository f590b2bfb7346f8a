/* Texts of the type bytesize: input, output, and the functions of SQLite's extension by the same names.
 *
 * The calls of the library do not allocate, keep no state and never jump: an error of the server is raised between them
 * alone, and memory of the server is all that a longjmp has to give back.
 */
#include "bytesize.h"

#include "../forms.h"
#include "../words.h"
#include "libpq/pqformat.h"
#include "message.h"
#include "utils/builtins.h"

PG_MODULE_MAGIC;

/* Soft errors are from PostgreSQL 16. Before it each error ends the statement. */
#ifndef ereturn
#define ereturn(context, result, ...) ereport(ERROR, __VA_ARGS__)
#endif

/* Returns the SQLSTATE of an error of parsing. */
static int sqlstate_of(uint32 code)
{
    return code == BYTE_UNIT_EXCEEDED_BOUNDS ? ERRCODE_NUMERIC_VALUE_OUT_OF_RANGE : ERRCODE_INVALID_TEXT_REPRESENTATION;
}

/* Adds a hint to the error of a text that is rejected with this code: how the size that was meant is written. The text
 * of a size that is too large has none. */
static int add_hint(Text text, uint32 code)
{
    char hint[BYTE_UNIT_HINT_SIZE];
    size_t len = code == BYTE_UNIT_EXCEEDED_BOUNDS ? 0 : byte_unit_hint(text.at, text.len, hint, sizeof hint);

    return len == 0 ? 0 : errhint("%.*s", (int)len, hint);
}

/* Returns the size of a text, or an error of which `soft`, the context of the call, may take account. */
static Datum parsed(Text text, uint32 flags, fmNodePtr soft)
{
    ByteSize size;
    uint32 code = byte_unit_parse(text.at, text.len, flags, &size, NULL);

    (void)soft;
    if (code == BYTE_UNIT_OK)
        return result_of(size);
    ereturn(soft, (Datum)0,
            (errcode(sqlstate_of(code)),
             errmsg("invalid input syntax for type %s: \"%s\"", "bytesize", quoted(text, code)),
             errdetail("%s", sentence_of(reason_of(byte_unit_explain, text, flags))), add_hint(text, code)));
}

/* ---- Input and output. ---- */

SQL_FUNCTION(bytesize_in)
{
    const char *text = PG_GETARG_CSTRING(0);

    return parsed(text_of(text, strlen(text)), 0, fcinfo->context);
}

/* The form of a size as digits, or with the unit that represents it exactly. */
static struct form form_of(ByteSize size, bool with_unit)
{
    return (struct form){ .size = size, .spec = { .alternate = with_unit } };
}

/* Returns the text of a form, zero-terminated, and its length. */
static char *written(const struct form *form, size_t *len)
{
    char buffer[BYTE_UNIT_BUFFER_SIZE];
    char *text;

    *len = write_form(form, buffer, sizeof buffer);
    if (*len == 0)
        ereport(ERROR, (errcode(ERRCODE_INTERNAL_ERROR), errmsg("byte_unit wrote no text")));
    text = palloc(*len + 1);
    if (*len > sizeof buffer)
        write_form(form, text, *len);
    else
        memcpy(text, buffer, *len);
    text[*len] = '\0';
    return text;
}

char *bytesize_digits(ByteSize size)
{
    struct form form = form_of(size, false);
    size_t len;

    return written(&form, &len);
}

SQL_FUNCTION(bytesize_out)
{
    struct form form = form_of(argument(fcinfo, 0), true);
    size_t len;

    PG_RETURN_CSTRING(written(&form, &len));
}

/* The binary form: two integers of 64 bits, the high one first. */
SQL_FUNCTION(bytesize_recv)
{
    StringInfo message = (StringInfo)PG_GETARG_POINTER(0);
    uint128_value high = (uint64)pq_getmsgint64(message);

    return result_in_range((high << 64) | (uint64)pq_getmsgint64(message));
}

SQL_FUNCTION(bytesize_send)
{
    ByteSize size = argument(fcinfo, 0);
    StringInfoData message;

    pq_begintypsend(&message);
    pq_sendint64(&message, size.high);
    pq_sendint64(&message, size.low);
    PG_RETURN_BYTEA_P(pq_endtypsend(&message));
}

/* ---- The functions of SQLite's extension, by the same names. ---- */

/* Rejects NULL in an argument that says how: a CHECK is met by NULL, so that NULL there would let all rows pass. */
static void reject_null(FunctionCallInfo fcinfo, int n, const char *what)
{
    if (PG_ARGISNULL(n))
        ereport(ERROR, (errcode(ERRCODE_NULL_VALUE_NOT_ALLOWED), errmsg("%s cannot be NULL", what)));
}

/* Returns the flags in an argument. */
static uint32 flags_argument(FunctionCallInfo fcinfo, int n, uint32 allowed)
{
    uint32 flags = 0;
    text *words;

    reject_null(fcinfo, n, "flags");
    words = PG_GETARG_TEXT_PP(n);
    if (!add_flags(VARDATA_ANY(words), VARSIZE_ANY_EXHDR(words), allowed, &flags))
        ereport(ERROR, (errcode(ERRCODE_INVALID_PARAMETER_VALUE),
                        errmsg("\"%s\" has flags other than %s", quoted_argument(fcinfo, n),
                               allowed & BYTE_UNIT_WORDS ? "ignore-case, binary and words" : "ignore-case")));
    return flags;
}

/* The flags of the functions that parse a size. */
static const uint32 READING = BYTE_UNIT_IGNORE_CASE | BYTE_UNIT_BINARY_PREFIXES | BYTE_UNIT_WORDS;

SQL_FUNCTION(size_parse)
{
    uint32 flags = flags_argument(fcinfo, 1, READING);

    if (PG_ARGISNULL(0))
        PG_RETURN_NULL();
    return parsed(text_argument(fcinfo, 0), flags, NULL);
}

SQL_FUNCTION(size_try)
{
    uint32 flags = flags_argument(fcinfo, 1, READING);
    Text text;
    ByteSize size;

    if (PG_ARGISNULL(0))
        PG_RETURN_NULL();
    text = text_argument(fcinfo, 0);
    if (byte_unit_parse(text.at, text.len, flags, &size, NULL) != BYTE_UNIT_OK)
        PG_RETURN_NULL();
    return result_of(size);
}

SQL_FUNCTION(size_explain)
{
    uint32 flags = flags_argument(fcinfo, 1, READING);
    char *reason;

    if (PG_ARGISNULL(0))
        PG_RETURN_NULL();
    reason = reason_of(byte_unit_explain, text_argument(fcinfo, 0), flags);
    if (*reason == '\0')
        PG_RETURN_NULL();
    PG_RETURN_TEXT_P(cstring_to_text(reason));
}

/* Returns the text of the first argument in a form, or NULL if that is NULL. */
static Datum text_result(FunctionCallInfo fcinfo, struct form form)
{
    size_t len;
    char *text;

    if (PG_ARGISNULL(0))
        PG_RETURN_NULL();
    form.size = argument(fcinfo, 0);
    text = written(&form, &len);
    PG_RETURN_TEXT_P(cstring_to_text_with_len(text, (int)len));
}

/* Sets the precision to the n-th argument, if the call has so many. */
static void set_precision(FunctionCallInfo fcinfo, int n, struct form *form)
{
    int32 precision;

    if (n >= PG_NARGS())
        return;
    reject_null(fcinfo, n, "the precision");
    precision = PG_GETARG_INT32(n);
    if (precision < 0 || precision > GREATEST_PRECISION)
        ereport(ERROR, (errcode(ERRCODE_INVALID_PARAMETER_VALUE),
                        errmsg("%d is not a precision: an integer from 0 to %d is expected", precision,
                               GREATEST_PRECISION)));
    form->spec.has_precision = 1;
    form->spec.precision = (uint32)precision;
}

SQL_FUNCTION(size_text)
{
    struct form form = form_of((ByteSize){ 0 }, true);

    set_precision(fcinfo, 1, &form);
    return text_result(fcinfo, form);
}

/* Returns the unit of a name. */
static uint32 unit_of(Text name, uint32 flags)
{
    uint32 unit, code = byte_unit_parse_unit(name.at, name.len, flags, &unit, NULL);

    if (code != BYTE_UNIT_OK)
        ereport(ERROR, (errcode(ERRCODE_INVALID_PARAMETER_VALUE), errmsg("\"%s\" is not a unit", quoted(name, code)),
                        errdetail("%s", sentence_of(reason_of(byte_unit_explain_unit, name, flags)))));
    if (is_blank(name.at, name.len, unit))
        ereport(ERROR, (errcode(ERRCODE_INVALID_PARAMETER_VALUE),
                        errmsg("\"%s\" is not a unit such as KiB or MB", quoted(name, code))));
    return unit;
}

/* Returns the result of size_in, of whose arguments the precision and the flags are at these places. */
static Datum in_unit(FunctionCallInfo fcinfo, int precision_at, int flags_at)
{
    uint32 flags = flags_argument(fcinfo, flags_at, BYTE_UNIT_IGNORE_CASE);
    struct form form = form_of((ByteSize){ 0 }, false);

    set_precision(fcinfo, precision_at, &form);
    if (PG_ARGISNULL(0) || PG_ARGISNULL(1))
        PG_RETURN_NULL();
    form.write = byte_unit_adjusted_text;
    form.unit_or_type = unit_of(text_argument(fcinfo, 1), flags);
    return text_result(fcinfo, form);
}

/* size_in(size, unit [, precision [, flags]]) */
SQL_FUNCTION(size_in)
{
    return in_unit(fcinfo, 2, 3);
}

/* size_in(size, unit, flags) */
SQL_FUNCTION(size_in_with_flags)
{
    return in_unit(fcinfo, PG_NARGS(), 2); /* no argument is the precision */
}

/* Returns the unit type in an argument. */
static uint32 unit_type_argument(FunctionCallInfo fcinfo, int n)
{
    uint32 type;
    text *name;

    reject_null(fcinfo, n, "the unit type");
    name = PG_GETARG_TEXT_PP(n);
    if (!set_unit_type(VARDATA_ANY(name), VARSIZE_ANY_EXHDR(name), &type))
        ereport(ERROR, (errcode(ERRCODE_INVALID_PARAMETER_VALUE),
                        errmsg("\"%s\" is not a unit type: binary, decimal or both is expected",
                               quoted_argument(fcinfo, n))));
    return type;
}

SQL_FUNCTION(size_pretty)
{
    struct form form = form_of((ByteSize){ 0 }, false);

    form.write = byte_unit_approximate_text;
    form.unit_or_type = unit_type_argument(fcinfo, 1);
    set_precision(fcinfo, 2, &form);
    return text_result(fcinfo, form);
}
