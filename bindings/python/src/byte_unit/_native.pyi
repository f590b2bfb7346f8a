"""The extension module, in bindings/python/native."""

from decimal import Decimal
from typing import Final, Literal, SupportsIndex, TypeAlias

_Sign: TypeAlias = Literal["plus", "minus"]
_Align: TypeAlias = Literal["left", "center", "right"]
_UnitType: TypeAlias = Literal["binary", "decimal", "both"]

VERSION: Final[str]
SIZE_LIMIT: Final[int]
UNITS: Final[tuple[str, ...]]
CODES: Final[tuple[str, ...]]

def parse(
    text: str | bytes | SupportsIndex, *, bits: bool = False, ignore_case: bool = False, binary: bool = False,
    words: bool = False,
) -> int: ...  # fmt: skip
def explain(
    text: str | bytes, *, bits: bool = False, ignore_case: bool = False, binary: bool = False, words: bool = False
) -> str | None: ...
def parse_unit(text: str | bytes, *, bits: bool = False, ignore_case: bool = False) -> str: ...
def explain_unit(text: str | bytes, *, bits: bool = False, ignore_case: bool = False) -> str | None: ...
def text(
    size: SupportsIndex,
    *,
    bits: bool = False,
    precision: SupportsIndex | None = None,
    width: SupportsIndex | None = None,
    align: _Align | None = None,
    sign: _Sign | None = None,
    alternate: bool = True,
) -> str: ...
def adjusted_text(
    size: SupportsIndex,
    unit: str,
    *,
    bits: bool = False,
    precision: SupportsIndex | None = None,
    width: SupportsIndex | None = None,
    align: _Align | None = None,
    sign: _Sign | None = None,
    alternate: bool = False,
) -> str: ...
def approximate_text(
    size: SupportsIndex,
    *,
    bits: bool = False,
    unit_type: _UnitType = "binary",
    precision: SupportsIndex | None = 1,
    width: SupportsIndex | None = None,
    align: _Align | None = None,
    sign: _Sign | None = None,
    alternate: bool = False,
) -> str: ...
def appropriate_unit(size: SupportsIndex, *, bits: bool = False, unit_type: _UnitType = "binary") -> str: ...
def exact_unit(size: SupportsIndex, *, bits: bool = False, either_kind: bool = False) -> tuple[int, str]: ...
def recoverable_unit(
    size: SupportsIndex, *, bits: bool = False, either_kind: bool = False, precision: SupportsIndex = 3
) -> tuple[Decimal, str]: ...
def from_unit(count: SupportsIndex, unit: str, *, bits: bool = False) -> int: ...
def hint(text: str | bytes, /) -> str | None: ...
def parse_many(
    texts: object, bits: bool, ignore_case: bool, binary: bool, words: bool, is_strict: bool, /
) -> tuple[bytes, bytes]: ...
def parse_buffers(
    data: object,
    offsets: object,
    validity: object,
    validity_offset: SupportsIndex,
    bits: bool,
    ignore_case: bool,
    binary: bool,
    words: bool,
    is_strict: bool,
    /,
) -> tuple[bytes, bytes]: ...
def ints(sizes: bytes, codes: bytes, start: int, stop: int, /) -> list[int | None]: ...
def part(sizes: bytes, codes: bytes, start: int, step: int, count: int, /) -> tuple[bytes, bytes]: ...
def sum(sizes: bytes, codes: bytes, /) -> int: ...
def extremum(sizes: bytes, codes: bytes, is_greatest: bool, /) -> int | None: ...
def first_large(sizes: bytes, codes: bytes, /) -> int: ...
def int64(sizes: bytes, codes: bytes, saturates: bool, /) -> bytes: ...
def float64(sizes: bytes, codes: bytes, /) -> bytes: ...
def mask(sizes: bytes, codes: bytes, hide_large: bool, /) -> bytes: ...
