"""Series of pandas: texts to sizes, and sizes to texts. Nothing else in this package needs pandas and numpy.

>>> import pandas
>>> from byte_unit.pandas import format_sizes, to_sizes
>>> to_sizes(pandas.Series(["1.5 KiB", None, "2 KB"])).tolist()
[1536, <NA>, 2000]
>>> format_sizes(pandas.Series([1536, None], dtype="Int64")).tolist()
['1.5 KiB', <NA>]
"""

from collections.abc import Callable
from functools import partial
from typing import Any, Literal

import numpy
import pandas  # type: ignore[import]

from . import SIZE_LIMIT, ByteUnitError, Column, adjusted_text, approximate_text, parse_many, text
from ._errors import quoted
from ._native import first_large


def _check_series(name: str, series: "pandas.Series") -> None:
    """Raises an error if an argument is not a series."""
    if not isinstance(series, pandas.Series):
        kind = f"{type(series).__module__}.{type(series).__qualname__}".removeprefix("builtins.")
        raise TypeError(f"{name} must be a Series of pandas, such as a column of a DataFrame, not {kind}")


def _reject_large(column: Column, texts: Any, bits: bool) -> None:
    """Raises an error that has the row and the text of the first size of 2^63 or more, if there is one."""
    row = first_large(column.sizes, column.codes)
    if row < len(column):
        kind = "bits" if bits else "bytes"
        raise ByteUnitError(f"texts[{row}]: {quoted(texts[row])} is {column[row]} {kind}, which is 2**63 or more")


def _digits(row: int, item: Any, errors: str) -> Any:
    """Returns a text as it is, a whole number as its digits, and a null, or with "coerce" all else, as `None`."""
    if isinstance(item, (float, numpy.floating)) and (number := float(item)).is_integer() and abs(number) < 2**53:
        item = int(number)  # exact: pandas makes floats of integers beside a null
    if isinstance(item, (int, numpy.integer)) and not isinstance(item, bool):
        # Python makes no text of an int with too many digits.
        return str(item) if errors == "raise" or -SIZE_LIMIT < item < SIZE_LIMIT else None
    if isinstance(item, (str, bytes)):
        return item
    if errors == "coerce" or (pandas.api.types.is_scalar(item) and pandas.isna(item)):
        return None
    raise TypeError(f"texts[{row}] must be str, bytes, a whole number or null, not {type(item).__name__} {item!r}")


def _parsed(texts: Any, errors: Literal["coerce", "raise"], **flags: bool) -> tuple[Any, Column]:
    """Returns texts, and numbers as texts, with their column."""
    try:
        return texts, parse_many(texts, errors=errors, **flags)
    except TypeError:
        pass  # not all are texts or null
    texts = [_digits(row, item, errors) for row, item in enumerate(texts)]
    return texts, parse_many(texts, errors=errors, **flags)


def to_sizes(
    texts: "pandas.Series",
    *,
    bits: bool = False,
    ignore_case: bool = False,
    binary: bool = False,
    words: bool = False,
    errors: Literal["coerce", "raise"] = "raise",
    overflow: Literal["raise", "null", "saturate"] | None = None,
) -> "pandas.Series":
    """Returns the sizes of a series of texts and numbers as nullable integers, `Int64`, with its index and name.

    A null is `NA`. A whole number is a size, as `parse` has it; a float too, if it is below 2^53, since pandas makes
    floats of integers beside a null. The first text that is not a size, or is empty, and the first number below 0 or of
    10^30 or more raise `SizeError`, whose message has the row, counted from 0, the text and the reason; what is neither
    a text, a whole number nor null raises `TypeError`. With `errors="coerce"` each of these is `NA`.

    `Int64` holds sizes below 2^63. If one is not, `overflow` decides: `"raise"`, the default, raises `ByteUnitError`
    with the row and the text of the first one, `"null"`, the default with `errors="coerce"`, makes it `NA`, and
    `"saturate"` makes it 2^63 - 1. The series may be of objects, of strings, of numbers, or backed by Arrow. The flags
    are those of `parse`. Raises `TypeError` if `texts` is not a series.

    The sum of an `Int64` series wraps past 2^63, in pandas; `parse_many(texts).sum()` is exact.

    >>> quota = pandas.Series(["1 KB", "", "1 RB"], ["a", "b", "c"])
    >>> to_sizes(quota, errors="coerce", overflow="null").to_dict()
    {'a': 1000, 'b': <NA>, 'c': <NA>}
    >>> to_sizes(pandas.Series(["1 KB", 1536, 1.5, "18 EB"]), errors="coerce").tolist()
    [1000, 1536, <NA>, <NA>]
    >>> to_sizes(quota)
    Traceback (most recent call last):
    byte_unit.SizeError: texts[1]: '' is not a size: no value can be found (at the end of the text)
    """
    _check_series("texts", texts)
    flags = {"bits": bits, "ignore_case": ignore_case, "binary": binary, "words": words}
    many, column = _parsed(texts.to_numpy(object), errors, **flags)
    overflow = overflow or ("raise" if errors == "raise" else "null")
    if overflow == "raise":
        _reject_large(column, many, bits)
    numbers = numpy.array(column.int64(overflow=overflow))
    mask = numpy.array(column.mask(hide_large=overflow == "null"))
    return pandas.Series(pandas.arrays.IntegerArray(numbers, mask), texts.index, name=texts.name)


def format_sizes(
    sizes: "pandas.Series",
    *,
    unit: str | None = None,
    unit_type: Literal["binary", "decimal", "both"] | None = None,
    **options: Any,
) -> "pandas.Series":
    """Returns the texts of a series of integers as strings, with its index and name.

    Each is what `text` returns, with `unit` what `adjusted_text` does, or with `unit_type` what `approximate_text`
    does. The options are the other arguments of that call, with its defaults and errors. A null is `NA`. The series may
    be of objects or categories, too. Raises `TypeError` if both are given, or if the series is of floats, even of nulls
    alone or empty, since floats are not exact: make it `Int64` first.

    >>> format_sizes(pandas.Series([1536, 123456]), unit="KiB", precision=1).tolist()
    ['1.5 KiB', '120.6 KiB']
    >>> format_sizes(pandas.Series([1536, 123456789]), unit_type="binary").tolist()
    ['1.5 KiB', '117.7 MiB']
    """
    _check_series("sizes", sizes)
    function: Callable[..., str] = text
    if unit is not None:
        function, options["unit"] = adjusted_text, unit
    if unit_type is not None:
        function, options["unit_type"] = approximate_text, unit_type
    call = partial(function, **options)
    call(0)  # wrong options raise an error for a series without a size, too
    is_categorical = isinstance(sizes.dtype, pandas.CategoricalDtype)
    dtype = sizes.dtype.categories.dtype if is_categorical else sizes.dtype
    if pandas.api.types.is_float_dtype(dtype):
        raise TypeError(f"sizes must be a Series of integers, not of {dtype}: make it Int64 first")
    values = sizes.astype(object) if is_categorical else sizes  # else pandas makes floats of integers beside a null
    rows = zip(values.to_numpy(object), sizes.isna(), strict=True)
    texts = [pandas.NA if is_null else call(size) for size, is_null in rows]
    return pandas.Series(pandas.array(texts, "string"), sizes.index, name=sizes.name)
