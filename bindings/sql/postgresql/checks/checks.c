/* What a test links into the extension: means of more rows than a test has, and allocations that fail. By --wrap each
 * call of a function of the server that allocates comes here. */
#include "postgres.h"

#include "fmgr.h"
#include "lib/stringinfo.h"
#include "mb/pg_wchar.h"
#include "utils/builtins.h"
#include "utils/memutils.h"

PGDLLEXPORT Datum bytesize_avg_add(PG_FUNCTION_ARGS);
PGDLLEXPORT Datum bytesize_avg_combine(PG_FUNCTION_ARGS);

/* A step of an aggregate: adds a size to a mean, and then the mean to itself, which doubles its sum and its count. */
PG_FUNCTION_INFO_V1(add_and_double);
Datum add_and_double(PG_FUNCTION_ARGS)
{
    Datum mean = bytesize_avg_add(fcinfo);

    fcinfo->args[0] = fcinfo->args[1] = (NullableDatum){ mean, false };
    return bytesize_avg_combine(fcinfo);
}

static int before_failure = -1; /* how many more calls succeed; no limit if negative */

/* fail_after(n): lets n allocations succeed and then one fail, or none if n is negative. Returns whether one has failed
 * since it was called last. */
PG_FUNCTION_INFO_V1(fail_after);
Datum fail_after(PG_FUNCTION_ARGS)
{
    bool failed = before_failure == -2;

    before_failure = PG_GETARG_INT32(0);
    PG_RETURN_BOOL(failed);
}

static void count(void)
{
    if (before_failure >= 0 && before_failure-- == 0) {
        before_failure = -2;
        ereport(ERROR, (errcode(ERRCODE_OUT_OF_MEMORY), errmsg("out of memory")));
    }
}

/* Defines what is called in place of a function of the server. */
#define WRAPPED(type, name, parameters, arguments) \
    type __real_##name parameters;                 \
    type __wrap_##name parameters;                 \
                                                   \
    type __wrap_##name parameters                  \
    {                                              \
        count();                                   \
        return __real_##name arguments;            \
    }

/* No text of the extension is longer. */
enum { LONGEST = 1024 };
char *__wrap_psprintf(const char *format, ...);

char *__wrap_psprintf(const char *format, ...)
{
    char *text = palloc(LONGEST);
    va_list arguments;

    va_start(arguments, format);
    vsnprintf(text, LONGEST, format, arguments);
    va_end(arguments);
    return text;
}

WRAPPED(void *, palloc, (Size size), (size))
WRAPPED(void *, MemoryContextAllocHuge, (MemoryContext context, Size size), (context, size))
WRAPPED(void *, MemoryContextAllocZero, (MemoryContext context, Size size), (context, size))
WRAPPED(char *, pnstrdup, (const char *text, Size len), (text, len))
WRAPPED(char *, text_to_cstring, (const text *value), (value))
WRAPPED(text *, cstring_to_text, (const char *text), (text))
WRAPPED(text *, cstring_to_text_with_len, (const char *text, int len), (text, len))
WRAPPED(struct varlena *, pg_detoast_datum_packed, (struct varlena *value), (value))
WRAPPED(char *, pg_any_to_server, (const char *text, int len, int encoding), (text, len, encoding))
WRAPPED(void, pq_begintypsend, (StringInfo message), (message))
WRAPPED(Datum, DirectFunctionCall1Coll, (PGFunction call, Oid collation, Datum a), (call, collation, a))
WRAPPED(Datum, DirectFunctionCall2Coll, (PGFunction call, Oid collation, Datum a, Datum b), (call, collation, a, b))
WRAPPED(Datum, DirectFunctionCall3Coll, (PGFunction call, Oid collation, Datum a, Datum b, Datum c),
        (call, collation, a, b, c))
