/* What the files of the extension share: values of the type bytesize as arguments, as results and as numbers, their order
 * and their range. */
#ifndef BYTE_UNIT_BYTESIZE_H
#define BYTE_UNIT_BYTESIZE_H

#include "postgres.h"

#include "fmgr.h"

#include "byte_unit.h"

/* A value of the type: 16 bytes with the alignment of a double. An unsigned __int128 has another alignment, so a value
 * is read and written by its halves, and a pointer to one is never cast. */
typedef byte_unit_number ByteSize;
typedef unsigned __int128 uint128_value;

StaticAssertDecl(sizeof(ByteSize) == 16, "INTERNALLENGTH of bytesize is 16");
StaticAssertDecl(_Alignof(ByteSize) <= 8, "ALIGNMENT of bytesize is that of a double");

/* Declares a function of SQL, and begins its definition. */
#define SQL_FUNCTION(name)     \
    PG_FUNCTION_INFO_V1(name); \
    Datum name(PG_FUNCTION_ARGS)

static inline uint128_value value_of(ByteSize size)
{
    return ((uint128_value)size.high << 64) | size.low;
}

static inline ByteSize size_of(uint128_value value)
{
    return (ByteSize){ .low = (uint64)value, .high = (uint64)(value >> 64) };
}

static inline bool is_size(uint128_value value)
{
    return value < value_of((ByteSize)BYTE_UNIT_SIZE_LIMIT_INIT);
}

/* Returns the n-th argument. */
static inline ByteSize argument(FunctionCallInfo fcinfo, int n)
{
    return *(const ByteSize *)PG_GETARG_POINTER(n);
}

/* Returns -1, 0 or 1. */
static inline int compare(ByteSize a, ByteSize b)
{
    if (a.high != b.high)
        return a.high < b.high ? -1 : 1;
    return (a.low > b.low) - (a.low < b.low);
}

/* Returns a copy of the size as a result. */
static inline Datum result_of(ByteSize size)
{
    ByteSize *result = palloc(sizeof *result);

    *result = size;
    return PointerGetDatum(result);
}

/* Ends the statement with the error of a number that is no size. */
static inline void reject_range(void)
{
    ereport(ERROR, (errcode(ERRCODE_NUMERIC_VALUE_OUT_OF_RANGE), errmsg("bytesize out of range"),
                    errdetail("A size is not negative and less than 10^30 bytes.")));
}

/* Returns the value as a result, or ends the statement with an error if it is no size. */
static inline Datum result_in_range(uint128_value value)
{
    if (!is_size(value))
        reject_range();
    return result_of(size_of(value));
}

/* Returns the digits of a size, zero-terminated. */
char *bytesize_digits(ByteSize size);

#endif
