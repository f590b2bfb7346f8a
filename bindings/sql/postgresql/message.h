/* What the functions of text.c, which includes this file once, have in common: texts in UTF-8, and messages about them.
 *
 * The library reads UTF-8 and writes ASCII but for the character that a message repeats, so texts are converted from
 * and to the encoding of the database, without an error: a text that has no UTF-8 is not a size. */
#ifndef BYTE_UNIT_POSTGRESQL_MESSAGE_H
#define BYTE_UNIT_POSTGRESQL_MESSAGE_H

#include "bytesize.h"

#include "byte_unit.h"
#include "catalog/namespace.h"
#include "mb/pg_wchar.h"

#if PG_VERSION_NUM < 140000
#error "PostgreSQL 14 or later is needed, for its conversions without an error"
#endif

/* A text in UTF-8. If a character of it has no UTF-8, `at` is not UTF-8 either, so that the library rejects it. In any
 * case `raw` has the bytes in the encoding of the database. */
typedef struct Text {
    const char *at;
    size_t len;
    const char *raw;
    size_t raw_len;
} Text;

static bool is_ascii(const char *text, size_t len)
{
    for (size_t at = 0; at < len; at++)
        if ((text[at] & 0x80) != 0)
            return false;
    return true;
}

/* Returns a text in UTF-8, zero-terminated, or a byte that is not UTF-8 if a character of it has none, as all that are
 * not ASCII in MULE_INTERNAL, from which there is no conversion. */
static const char *converted(const char *text, int len)
{
    Oid conversion = FindDefaultConversionProc(GetDatabaseEncoding(), PG_UTF8);
    char *utf8;

    if (!OidIsValid(conversion))
        return "\xff";
    utf8 = MemoryContextAllocHuge(CurrentMemoryContext, (Size)len * MAX_CONVERSION_GROWTH + 1);
    /* The last argument, true, asks for the number of bytes that can be converted in place of an error. */
    if (DatumGetInt32(OidFunctionCall6(conversion, Int32GetDatum(GetDatabaseEncoding()), Int32GetDatum(PG_UTF8),
                                       CStringGetDatum(text), CStringGetDatum(utf8), Int32GetDatum(len),
                                       BoolGetDatum(true))) < len)
        return "\xff";
    return utf8;
}

/* ASCII is the same in each encoding of a database, and bytes in SQL_ASCII are taken for UTF-8. */
static Text text_of(const char *raw, size_t len)
{
    int encoding = GetDatabaseEncoding();
    const char *utf8;

    if (encoding == PG_UTF8 || encoding == PG_SQL_ASCII || is_ascii(raw, len))
        return (Text){ raw, len, raw, len };
    utf8 = converted(raw, (int)len);
    return (Text){ utf8, strlen(utf8), raw, len };
}

/* Returns a text of UTF-8, zero-terminated, in the encoding of the database. */
static char *to_server(char *text)
{
    size_t len = strlen(text);

    return is_ascii(text, len) ? text : pg_any_to_server(text, (int)len, PG_UTF8);
}

static Text text_argument(FunctionCallInfo fcinfo, int n)
{
    text *value = PG_GETARG_TEXT_PP(n);

    return text_of(VARDATA_ANY(value), VARSIZE_ANY_EXHDR(value));
}

/* byte_unit_explain or byte_unit_explain_unit. */
typedef size_t explain_call(const char *text, size_t len, uint32 flags, char *out, size_t out_len);

/* Returns why a text is rejected, or an empty string if it is not. */
static char *reason_of(explain_call *call, Text text, uint32 flags)
{
    char reason[BYTE_UNIT_BUFFER_SIZE];

    return to_server(pnstrdup(reason, call(text.at, text.len, flags, reason, sizeof reason)));
}

/* Returns a sentence: the reason with a capital letter and a full stop. */
static char *sentence_of(const char *reason)
{
    char *sentence = psprintf("%s.", reason);

    sentence[0] = pg_toupper((unsigned char)sentence[0]);
    return sentence;
}

/* Returns a text, of which a call has returned this code, for a message. */
static char *quoted(Text text, uint32 code)
{
    char out[BYTE_UNIT_QUOTE_SIZE];

    if (code == BYTE_UNIT_NOT_UTF8) {
        /* A byte that is not UTF-8 goes before the text, so that each byte past ASCII is escaped, and its own escape is
         * left out. So of these texts at most 79 bytes are shown. */
        char *marked = psprintf("\xff%.*s", (int)Min(text.raw_len, sizeof out), text.raw);
        size_t len = byte_unit_quote(marked, strlen(marked), out, sizeof out), mark = strlen("\\xff");

        return pnstrdup(out + mark, len - mark);
    }
    return to_server(pnstrdup(out, byte_unit_quote(text.at, text.len, out, sizeof out)));
}

/* Returns an argument for a message. */
static char *quoted_argument(FunctionCallInfo fcinfo, int n)
{
    Text text = text_argument(fcinfo, n);
    ByteSize unused;

    return quoted(text, byte_unit_parse(text.at, text.len, 0, &unused, NULL));
}

#endif
