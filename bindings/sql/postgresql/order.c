/* The order of sizes: comparisons, and what btree, hash and BRIN indexes call. */
#include "bytesize.h"

#include "common/hashfn.h"
#include "utils/sortsupport.h"

/* Defines the function of an operator of SQL: the same operator of C compares what `compare` returns with 0. */
#define COMPARISON(name, operator)                                                    \
    SQL_FUNCTION(name)                                                                \
    {                                                                                 \
        PG_RETURN_BOOL(compare(argument(fcinfo, 0), argument(fcinfo, 1)) operator 0); \
    }

COMPARISON(bytesize_eq, ==)
COMPARISON(bytesize_ne, !=)
COMPARISON(bytesize_lt, <)
COMPARISON(bytesize_le, <=)
COMPARISON(bytesize_gt, >)
COMPARISON(bytesize_ge, >=)

SQL_FUNCTION(bytesize_cmp)
{
    PG_RETURN_INT32(compare(argument(fcinfo, 0), argument(fcinfo, 1)));
}

SQL_FUNCTION(bytesize_smaller)
{
    return PG_GETARG_DATUM(compare(argument(fcinfo, 0), argument(fcinfo, 1)) <= 0 ? 0 : 1);
}

SQL_FUNCTION(bytesize_larger)
{
    return PG_GETARG_DATUM(compare(argument(fcinfo, 0), argument(fcinfo, 1)) >= 0 ? 0 : 1);
}

/* Hashes the 16 bytes of a size: equal sizes have the same. */
SQL_FUNCTION(bytesize_hash)
{
    return hash_any((const unsigned char *)PG_GETARG_POINTER(0), sizeof(ByteSize));
}

SQL_FUNCTION(bytesize_hash_extended)
{
    return hash_any_extended((const unsigned char *)PG_GETARG_POINTER(0), sizeof(ByteSize), PG_GETARG_INT64(1));
}

static int compare_datums(Datum a, Datum b, SortSupport unused)
{
    (void)unused;
    return compare(*(const ByteSize *)DatumGetPointer(a), *(const ByteSize *)DatumGetPointer(b));
}

/* Compares two results of `abbreviated`, as unsigned numbers. */
static int compare_abbreviated(Datum a, Datum b, SortSupport unused)
{
    (void)unused;
    return (a > b) - (a < b);
}

/* A number of 64 bits in the order of the sizes: the size itself, but all of 2^64 - 1 and more have the greatest. */
static Datum abbreviated(Datum original, SortSupport unused)
{
    ByteSize size = *(const ByteSize *)DatumGetPointer(original);

    (void)unused;
    return UInt64GetDatum(size.high == 0 ? size.low : PG_UINT64_MAX);
}

/* Abbreviations cost nothing to make, so sorting never gives them up. */
static bool never_abort(int count, SortSupport unused)
{
    (void)count, (void)unused;
    return false;
}

/* Sorts by abbreviations, which need no pointer, and by the sizes themselves where two abbreviations are equal. */
SQL_FUNCTION(bytesize_sortsupport)
{
    SortSupport sort = (SortSupport)PG_GETARG_POINTER(0);

    sort->comparator = compare_datums;
    if (sort->abbreviate && sizeof(Datum) == sizeof(uint64)) {
        sort->comparator = compare_abbreviated;
        sort->abbrev_converter = abbreviated;
        sort->abbrev_abort = never_abort;
        sort->abbrev_full_comparator = compare_datums;
    }
    PG_RETURN_VOID();
}
