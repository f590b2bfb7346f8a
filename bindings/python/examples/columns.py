"""Columns of texts with numpy, pandas and Dask, each if it is installed. Stops at a result that is not as expected."""

from array import array

import byte_unit


def with_numpy() -> None:
    """Parses texts in Arrow's layout, and views the results without copying."""
    import numpy

    data = numpy.frombuffer(b"1 KB1 x2 KiB", numpy.uint8)
    offsets = numpy.array([0, 4, 7, 12], numpy.int64)
    column = byte_unit.parse_buffers(data, offsets)
    sizes, missing = numpy.asarray(column.int64()), numpy.asarray(column.mask())
    assert sizes.tolist() == [1000, 0, 2048] and not sizes.flags.owndata
    assert missing.tolist() == [False, True, False]
    assert sizes[~missing].sum() == 3048 == column.sum()


def with_pandas() -> None:
    """Parses a series, in which a missing text and one that is not a size become missing numbers."""
    import pandas

    from byte_unit.pandas import format_sizes, to_sizes

    quota = pandas.Series(["1 KB", None, "1 x", "2 KiB"], ["a", "b", "c", "d"])
    sizes = to_sizes(quota, errors="coerce")  # the default raises an error with row, text and reason
    assert sizes.dropna().to_dict() == {"a": 1000, "d": 2048}
    assert sizes.dtype == "Int64"
    assert format_sizes(sizes).dropna().to_dict() == {"a": "1 KB", "d": "2 KiB"}
    rejected = byte_unit.parse_many(quota).errors(quota)
    assert [(quota.index[row], error.text, error.name) for row, error in rejected] == [("c", "1 x", "unit")]


def with_dask() -> None:
    """Parses the partitions of a Dask series."""
    import pandas
    from dask import dataframe

    from byte_unit.pandas import to_sizes

    texts = pandas.Series([f"{number} KiB" for number in range(1000)])
    quota = dataframe.from_pandas(texts, npartitions=4)
    sizes = quota.map_partitions(to_sizes, meta=("quota", "Int64"))
    assert sizes.sum().compute() == 1024 * 499500


def with_the_standard_library() -> None:
    """Parses texts in Arrow's layout with 32-bit offsets."""
    column = byte_unit.parse_buffers(b"1 KB1 x999 RB", array("i", [0, 4, 7, 13]))
    assert column.ints() == [1000, None, 999 * 10**27]
    assert column.validity() == b"\5"
    assert column.int64(overflow="saturate").tolist() == [1000, 0, 2**63 - 1]
    column = byte_unit.parse_buffers(b"1 KB2 KB", array("i", [0, 4, 4, 8]), validity=b"\5")
    assert column.ints() == [1000, None, 2000] and not list(column.errors())


for part in (with_the_standard_library, with_numpy, with_pandas, with_dask):
    try:
        part()
    except ImportError as error:
        print(f"skipped: {part.__name__}: {error}")
    else:
        print(f"{part.__name__}: as expected")
