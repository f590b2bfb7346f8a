"""Exact sizes in bytes and in bits: parsing, formatting and choice of units.

A size is an `int`, of bytes or with `bits=True` of bits, below `SIZE_LIMIT`, 10^30.

>>> import byte_unit
>>> byte_unit.parse("1.5 KiB")
1536
>>> byte_unit.text(1536)
'1.5 KiB'
>>> byte_unit.adjusted_text(1536, "MB")
'0.001536 MB'
>>> byte_unit.approximate_text(123456789)
'117.7 MiB'

A text that is not a size raises `SizeError`, an argument out of range `ByteUnitError`, which is the base class of both
and a `ValueError`, and an argument of the wrong type `TypeError`. Flags are keyword-only.

Every call may be made from any thread. `parse_many` and `parse_buffers` release the GIL while they parse, the former
from some thousand texts on; the other calls hold it.
"""

from ._columns import ERROR_NAMES, Column, parse_buffers, parse_many
from ._errors import ByteUnitError, SizeError
from ._native import (
    SIZE_LIMIT,
    UNITS,
    adjusted_text,
    appropriate_unit,
    approximate_text,
    exact_unit,
    explain,
    explain_unit,
    from_unit,
    parse,
    parse_unit,
    recoverable_unit,
    text,
)
from ._native import VERSION as __version__

__all__ = [
    "ERROR_NAMES",
    "SIZE_LIMIT",
    "UNITS",
    "ByteUnitError",
    "Column",
    "SizeError",
    "__version__",
    "adjusted_text",
    "appropriate_unit",
    "approximate_text",
    "exact_unit",
    "explain",
    "explain_unit",
    "from_unit",
    "parse",
    "parse_buffers",
    "parse_many",
    "parse_unit",
    "recoverable_unit",
    "text",
]
