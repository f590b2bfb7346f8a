/* Casts from and to the numbers of SQL, and calculations. A product is rounded up to a whole byte, as the number of a
 * text is; a quotient down, as `Byte::divide` does. */
#include "bytesize.h"

#include "utils/builtins.h"
#include "utils/numeric.h"

SQL_FUNCTION(bytesize_from_int8)
{
    int64 n = PG_GETARG_INT64(0);

    if (n < 0)
        reject_range();
    return result_of(size_of((uint128_value)n));
}

SQL_FUNCTION(bytesize_from_int4)
{
    return DirectFunctionCall1(bytesize_from_int8, Int64GetDatum(PG_GETARG_INT32(0)));
}

SQL_FUNCTION(bytesize_from_int2)
{
    return DirectFunctionCall1(bytesize_from_int8, Int64GetDatum(PG_GETARG_INT16(0)));
}

/* Returns the size in the first argument as an integer of a type, or ends the statement with an error. */
static int64 integer_argument(FunctionCallInfo fcinfo, uint64 greatest, const char *type)
{
    ByteSize size = argument(fcinfo, 0);

    if (size.high != 0 || size.low > greatest)
        ereport(ERROR, (errcode(ERRCODE_NUMERIC_VALUE_OUT_OF_RANGE), errmsg("%s out of range", type)));
    return (int64)size.low;
}

SQL_FUNCTION(bytesize_to_int8)
{
    PG_RETURN_INT64(integer_argument(fcinfo, PG_INT64_MAX, "bigint"));
}

SQL_FUNCTION(bytesize_to_int4)
{
    PG_RETURN_INT32((int32)integer_argument(fcinfo, PG_INT32_MAX, "integer"));
}

/* Returns the size of a numeric, rounded up to a whole byte. */
static Datum from_numeric(Datum number)
{
    const char *digits = DatumGetCString(DirectFunctionCall1(numeric_out, number));
    ByteSize size;

    if (digits[0] == '-')
        reject_range();
    if (strchr(digits, '.') != NULL)
        digits = DatumGetCString(DirectFunctionCall1(numeric_out, DirectFunctionCall1(numeric_ceil, number)));
    /* NaN and Infinity are no texts of sizes, and each whole number below 10^30 is one. */
    if (byte_unit_parse(digits, strlen(digits), 0, &size, NULL) != BYTE_UNIT_OK)
        reject_range();
    return result_of(size);
}

/* Returns the numeric of a size: from a number of 64 bits, or else from the digits. A typmod of -1 sets no precision. */
static Datum to_numeric(ByteSize size)
{
    if (size.high == 0 && size.low <= PG_INT64_MAX)
        return DirectFunctionCall1(int8_numeric, Int64GetDatum((int64)size.low));
    return DirectFunctionCall3(numeric_in, CStringGetDatum(bytesize_digits(size)), ObjectIdGetDatum(InvalidOid),
                               Int32GetDatum(-1));
}

SQL_FUNCTION(bytesize_from_numeric)
{
    return from_numeric(PG_GETARG_DATUM(0));
}

SQL_FUNCTION(bytesize_to_numeric)
{
    return to_numeric(argument(fcinfo, 0));
}

/* Also the transition and the combination of sum(bytesize), where the first argument is the state, changed in place:
 * sizes are not negative, so a sum is out of range in every order or in none. */
SQL_FUNCTION(bytesize_add)
{
    ByteSize sum;

    if (!byte_unit_add(argument(fcinfo, 0), argument(fcinfo, 1), &sum))
        reject_range();
    if (AggCheckCallContext(fcinfo, NULL) == 0)
        return result_of(sum);
    *(ByteSize *)PG_GETARG_POINTER(0) = sum;
    return PG_GETARG_DATUM(0);
}

SQL_FUNCTION(bytesize_subtract)
{
    ByteSize difference;

    if (!byte_unit_subtract(argument(fcinfo, 0), argument(fcinfo, 1), &difference))
        reject_range();
    return result_of(difference);
}

SQL_FUNCTION(bytesize_times_numeric)
{
    return from_numeric(DirectFunctionCall2(numeric_mul, to_numeric(argument(fcinfo, 0)), PG_GETARG_DATUM(1)));
}

SQL_FUNCTION(numeric_times_bytesize)
{
    return from_numeric(DirectFunctionCall2(numeric_mul, PG_GETARG_DATUM(0), to_numeric(argument(fcinfo, 1))));
}

SQL_FUNCTION(bytesize_by_numeric)
{
    return from_numeric(DirectFunctionCall2(numeric_div_trunc, to_numeric(argument(fcinfo, 0)), PG_GETARG_DATUM(1)));
}

SQL_FUNCTION(bytesize_by_bytesize)
{
    return DirectFunctionCall2(numeric_div, to_numeric(argument(fcinfo, 0)), to_numeric(argument(fcinfo, 1)));
}
