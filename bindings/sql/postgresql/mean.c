/* avg(bytesize): the sum has up to 192 bits, so that every mean is in range. It is rounded down, as a quotient is. */
#include "bytesize.h"

#include "libpq/pqformat.h"

typedef struct Mean {
    ByteSize sum;
    uint64 carry; /* the sum is carry * 2^128 + sum */
    uint64 count;
} Mean;

/* Adds the sum and the count of another mean. */
static void add_to_mean(Mean *mean, Mean other)
{
    uint128_value before = value_of(mean->sum), sum = before + value_of(other.sum);

    mean->sum = size_of(sum);
    mean->carry += other.carry + (sum < before);
    mean->count += other.count;
}

/* Returns the state of the aggregate, all zero before the first row. */
static Mean *state_of(FunctionCallInfo fcinfo)
{
    MemoryContext context;

    if (AggCheckCallContext(fcinfo, &context) == 0)
        elog(ERROR, "the state of avg(bytesize) outside an aggregate");
    return PG_ARGISNULL(0) ? MemoryContextAllocZero(context, sizeof(Mean)) : (Mean *)PG_GETARG_POINTER(0);
}

SQL_FUNCTION(bytesize_avg_add)
{
    Mean *mean = state_of(fcinfo);

    if (!PG_ARGISNULL(1))
        add_to_mean(mean, (Mean){ .sum = argument(fcinfo, 1), .count = 1 });
    PG_RETURN_POINTER(mean);
}

SQL_FUNCTION(bytesize_avg_combine)
{
    Mean *mean = state_of(fcinfo);

    if (!PG_ARGISNULL(1))
        add_to_mean(mean, *(const Mean *)PG_GETARG_POINTER(1));
    PG_RETURN_POINTER(mean);
}

SQL_FUNCTION(bytesize_avg_serialize)
{
    const Mean *mean = (const Mean *)PG_GETARG_POINTER(0);
    StringInfoData message;

    pq_begintypsend(&message);
    pq_sendint64(&message, mean->carry);
    pq_sendint64(&message, mean->sum.high);
    pq_sendint64(&message, mean->sum.low);
    pq_sendint64(&message, mean->count);
    PG_RETURN_BYTEA_P(pq_endtypsend(&message));
}

SQL_FUNCTION(bytesize_avg_deserialize)
{
    bytea *bytes = PG_GETARG_BYTEA_PP(0);
    Mean *mean = palloc(sizeof *mean);
    StringInfoData message;

    if (AggCheckCallContext(fcinfo, NULL) == 0)
        elog(ERROR, "the state of avg(bytesize) outside an aggregate");
    initStringInfo(&message);
    appendBinaryStringInfo(&message, VARDATA_ANY(bytes), VARSIZE_ANY_EXHDR(bytes));
    mean->carry = (uint64)pq_getmsgint64(&message);
    mean->sum.high = (uint64)pq_getmsgint64(&message);
    mean->sum.low = (uint64)pq_getmsgint64(&message);
    mean->count = (uint64)pq_getmsgint64(&message);
    pq_getmsgend(&message);
    PG_RETURN_POINTER(mean);
}

/* Each size is less than 2^100, so the carry is less than the count, and each step of the long division by it has a
 * quotient of 64 bits. */
SQL_FUNCTION(bytesize_avg)
{
    const Mean *mean = PG_ARGISNULL(0) ? NULL : (const Mean *)PG_GETARG_POINTER(0);
    uint128_value high, low;

    if (mean == NULL || mean->count == 0)
        PG_RETURN_NULL();
    high = ((uint128_value)mean->carry << 64) | mean->sum.high;
    low = ((high % mean->count) << 64) | mean->sum.low;
    return result_in_range(((high / mean->count) << 64) | (low / mean->count));
}
