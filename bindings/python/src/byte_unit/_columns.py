"""Parsing of many texts in one call, and the column that it gives."""

# As collections.abc has them, whose import takes longer than all of this package.
from _collections_abc import Mapping, Sequence
from itertools import compress

from . import _native
from ._errors import ByteUnitError, SizeError

TYPE_CHECKING = False  # true for type checkers: an import of typing takes longer than that of this package
if TYPE_CHECKING:
    from collections.abc import Iterable, Iterator
    from typing import Final, Literal, SupportsIndex, TypeAlias, overload

    Errors: TypeAlias = Literal["coerce", "raise"]
    Overflow: TypeAlias = Literal["raise", "null", "saturate"]

#: The names of the codes in `Column.codes`: `ok`, the names of `SizeError`, and `null`.
ERROR_NAMES: "Final[tuple[str, ...]]" = _native.CODES

# The code of a null, whether each code is that of a rejected text, and how many rows an iterator reads at once.
_NULL = ERROR_NAMES.index("null")
_REJECTED = bytes(code not in (0, _NULL) for code in range(256))
_AT_A_TIME = 1024


def _check(name: str, value: object, names: tuple[str, ...]) -> None:
    """Raises an error if an argument is not one of the names."""
    if not isinstance(value, str):
        raise TypeError(f"{name} must be str, not {type(value).__name__}")
    if value not in names:
        raise ByteUnitError(f"{name} must be one of {', '.join(map(repr, names))}, not {value!r}")


def _view(data: bytes, code: str) -> memoryview:
    """Returns a view of items of eight bytes."""
    # A view without an item cannot be cast, so without data it is a part of another.
    return memoryview(data or bytes(8)).cast("B").cast(code)[: len(data) // 8]


class Column(Sequence["int | None"]):
    """The sizes of many texts: a sequence of integers, with `None` for a text that is null or is not a size.

    Two buffers have it. `codes` has a byte for each text: 0, or the index in `ERROR_NAMES` of why it has no size: an
    empty text is `no_value`, a null one `null`. `sizes` has sixteen bytes for each text, its size as a little-endian
    number, which is zero if it has none. A column cannot be changed.

    >>> column = parse_many(["1 KB", "1 x", None, "999 RB"])
    >>> column
    <Column: 4 texts, 1 rejected, 1 null>
    >>> list(column.codes), [ERROR_NAMES[code] for code in column.codes]
    ([0, 5, 7, 0], ['ok', 'unit', 'null', 'ok'])
    >>> column[0], column[1:3].ints(), list(column)
    (1000, [None, None], [1000, None, None, 999000000000000000000000000000])
    >>> column.sum(), column.min(), column.max()
    (999000000000000000000000001000, 1000, 999000000000000000000000000000)
    """

    __slots__ = ("_codes", "_sizes")
    __match_args__ = ("sizes", "codes")

    def __init__(self, sizes: bytes, codes: bytes) -> None:
        """Raises `ByteUnitError` if the lengths of the buffers do not fit."""
        if not (isinstance(sizes, bytes) and isinstance(codes, bytes)):
            raise TypeError("sizes and codes must be bytes")
        if len(sizes) != 16 * len(codes):
            raise ByteUnitError("sizes must have sixteen bytes for each byte of codes")
        self._sizes = sizes
        self._codes = codes

    @property
    def sizes(self) -> bytes:
        """Sixteen bytes for each text: its size, or zero."""
        return self._sizes

    @property
    def codes(self) -> bytes:
        """A byte for each text: 0, or the index in `ERROR_NAMES` of why it has no size."""
        return self._codes

    def __len__(self) -> int:
        """Returns the number of texts."""
        return len(self._codes)

    if TYPE_CHECKING:

        @overload
        def __getitem__(self, place: SupportsIndex) -> int | None: ...

        @overload
        def __getitem__(self, place: slice) -> "Column": ...

    def __getitem__(self, place: "SupportsIndex | slice") -> "int | None | Column":
        """Returns the size at a place, or `None` if it has none; of a slice, a column."""
        rows = range(len(self._codes))[place]
        if isinstance(rows, range):
            start = rows.start if rows else 0  # -1, if an empty range begins before the first row
            return Column(*_native.part(self._sizes, self._codes, start, rows.step, len(rows)))
        return _native.ints(self._sizes, self._codes, rows, rows + 1)[0]

    def __iter__(self) -> "Iterator[int | None]":
        """Returns an iterator over the sizes, with `None` for a text without one."""
        for start in range(0, len(self._codes), _AT_A_TIME):
            stop = min(start + _AT_A_TIME, len(self._codes))
            yield from _native.ints(self._sizes, self._codes, start, stop)

    def __eq__(self, other: object) -> bool:
        """Returns whether both have the same sizes and codes."""
        if not isinstance(other, Column):
            return NotImplemented
        return self._codes == other._codes and self._sizes == other._sizes

    def __hash__(self) -> int:
        """Returns a hash of the buffers."""
        return hash((self._sizes, self._codes))

    def __reduce__(self) -> "tuple[type[Column], tuple[bytes, bytes]]":
        """Returns what a copy is made of."""
        return type(self), (self._sizes, self._codes)

    def __repr__(self) -> str:
        """Returns the number of texts, and of those without a size."""
        nulls = self._codes.count(_NULL)
        rejected = len(self._codes) - self._codes.count(0) - nulls
        return f"<Column: {len(self._codes)} texts, {rejected} rejected, {nulls} null>"

    if TYPE_CHECKING:

        @overload
        def errors(
            self, texts: None = None, *, bits: bool = False, ignore_case: bool = False, binary: bool = False,
            words: bool = False,
        ) -> Iterator[tuple[int, str]]: ...  # fmt: skip

        @overload
        def errors(
            self,
            texts: Iterable[str | bytes | None],
            *,
            bits: bool = False,
            ignore_case: bool = False,
            binary: bool = False,
            words: bool = False,
        ) -> Iterator[tuple[int, SizeError]]: ...

    def errors(
        self,
        texts: "Iterable[str | bytes | None] | None" = None,
        *,
        bits: bool = False,
        ignore_case: bool = False,
        binary: bool = False,
        words: bool = False,
    ) -> "Iterator[tuple[int, str]] | Iterator[tuple[int, SizeError]]":
        """Returns an iterator over the row of each text that is rejected, and the reason.

        The reason is the name of the error. With the texts and the flags that were parsed, it is the `SizeError` that
        `parse` raises, whose message says which text is rejected, why, and where. A null is not rejected.

        >>> texts = ["1 KB", "", None, "1 Kx"]
        >>> list(parse_many(texts).errors())
        [(1, 'no_value'), (3, 'unit')]
        >>> for row, error in parse_many(texts).errors(texts):
        ...     print(row, error)
        1 '' is not a size: no value can be found (at the end of the text)
        3 '1 Kx' is not a size: the character 'x' is incorrect ('B' or 'b' or no character is expected) (character 4)
        """
        if texts is None:
            rows = compress(range(len(self._codes)), self._codes.translate(_REJECTED))
            return ((row, ERROR_NAMES[self._codes[row]]) for row in rows)
        return self._size_errors(texts, {"bits": bits, "ignore_case": ignore_case, "binary": binary, "words": words})

    def _size_errors(
        self, texts: "Iterable[str | bytes | None]", flags: "dict[str, bool]"
    ) -> "Iterator[tuple[int, SizeError]]":
        rows = zip(range(len(self._codes)), texts, strict=True)
        for row, text in compress(rows, self._codes.translate(_REJECTED)):
            try:
                _native.parse(text, **flags)  # type: ignore[arg-type]
            except SizeError as error:
                yield row, error
            else:
                raise ByteUnitError(f"texts[{row}]: {text!r} is a size, but it was parsed as one that is none")

    def ints(self) -> "list[int | None]":
        """Returns the sizes as a list, with `None` for a text without one."""
        return _native.ints(self._sizes, self._codes, 0, len(self._codes))

    def sum(self) -> int:
        """Returns the exact sum of the sizes. A text without a size counts as 0.

        >>> parse_many(["9 EB", "9 EB", None]).sum()
        18000000000000000000
        """
        return _native.sum(self._sizes, self._codes)

    def min(self) -> "int | None":
        """Returns the least size, or `None` if there is none."""
        return _native.extremum(self._sizes, self._codes, False)

    def max(self) -> "int | None":
        """Returns the greatest size, or `None` if there is none."""
        return _native.extremum(self._sizes, self._codes, True)

    def int64(self, *, overflow: "Overflow" = "raise") -> memoryview:
        """Returns the sizes as signed integers of 64 bits. A text without a size is a zero: see `mask`.

        If a size is 2^63 or more, `overflow` decides: `"raise"` raises `ByteUnitError` and names the first such row,
        `"null"` makes it a zero, and `"saturate"` makes it 2^63 - 1. Without such a size, this is a view without
        copying, one in every sixteen bytes, which `numpy.asarray` takes without copying, too.

        >>> parse_many(["1 KB", "2 KB"]).int64().tolist()
        [1000, 2000]
        >>> parse_many(["1 KB", "1 RB"]).int64(overflow="saturate").tolist()
        [1000, 9223372036854775807]
        >>> parse_many(["1 KB", "1 RB"]).int64()
        Traceback (most recent call last):
        byte_unit.ByteUnitError: column[1]: the size 1000000000000000000000000000 is 2**63 or more
        """
        _check("overflow", overflow, ("raise", "null", "saturate"))
        row = _native.first_large(self._sizes, self._codes)
        if row == len(self._codes):
            return _view(self._sizes, "q")[::2]
        if overflow == "raise":
            raise ByteUnitError(f"column[{row}]: the size {self[row]} is 2**63 or more")
        return _view(_native.int64(self._sizes, self._codes, overflow == "saturate"), "q")

    def uint128(self) -> tuple[memoryview, memoryview]:
        """Returns views of the lower and the upper 64 bits of the sizes, without copying.

        >>> low, high = parse_many(["1 KB", "18446744073709551617"]).uint128()
        >>> low.tolist(), high.tolist()
        ([1000, 1], [0, 1])
        """
        halves = _view(self._sizes, "Q")
        return halves[::2], halves[1::2]

    def float64(self) -> memoryview:
        """Returns the sizes as floats of 64 bits. A text without a size is NaN.

        A size up to 2^53 is exact. A larger one is rounded to the nearest float, of two to that with an even last bit.

        >>> parse_many(["1 KB", "9007199254740993", None]).float64().tolist()
        [1000.0, 9007199254740992.0, nan]
        """
        return _view(_native.float64(self._sizes, self._codes), "d")

    def mask(self, *, hide_large: bool = False) -> memoryview:
        """Returns whether each text has no size, in the form of a mask of numpy and pandas.

        With `hide_large`, a size of 2^63 or more counts as none, as `int64(overflow="null")` has it.

        >>> parse_many(["1 KB", "1 x", None, "1 RB"]).mask().tolist()
        [False, True, True, False]
        """
        return memoryview(_native.mask(self._sizes, self._codes, hide_large)).cast("B").cast("?")

    def validity(self) -> bytes:
        """Returns a bit for each text, 1 if it has a size, in Arrow's order: the least significant bit first.

        >>> parse_many(["1", "x", "2"]).validity()
        b'\\x05'
        """
        # The digits of a binary number, the last row first: 1 for the code 0.
        bits = self._codes.translate(b"1" + b"0" * 255)[::-1]
        return int(bits or b"0", 2).to_bytes((len(bits) + 7) // 8, "little")


def _items(texts: "Iterable[str | bytes | None]") -> "Iterable[str | bytes | None]":
    """Returns what the texts are read from. Raises `TypeError` if its items are parts of a text, or names."""
    if isinstance(texts, (list, tuple)):
        return texts
    kind = type(texts).__name__
    if isinstance(texts, (str, bytes)):
        raise TypeError(f"texts must be an iterable of texts, not one {kind}")
    if isinstance(texts, Mapping):
        raise TypeError(f"texts must be an iterable of texts, not {kind}: pass its keys() or its values()")
    if hasattr(type(texts), "columns"):  # not of the object: a series has its labels as attributes
        raise TypeError(f"texts must be an iterable of texts, not {kind}: pass one of its columns")
    tolist = getattr(texts, "tolist", None)  # of an array: faster than to iterate over it
    many: Iterable[str | bytes | None] = texts if tolist is None else tolist()
    if isinstance(many, (str, bytes)):
        raise TypeError("texts must be an iterable of texts, not an array without a dimension")
    return many


def parse_many(
    texts: "Iterable[str | bytes | None]",
    *,
    bits: bool = False,
    ignore_case: bool = False,
    binary: bool = False,
    words: bool = False,
    errors: "Errors" = "coerce",
) -> Column:
    """Parses each text of a list or another iterable, such as an array of numpy or a series of pandas, as `parse` does.

    A null is null in the column: `None`, a float NaN, and `NA` and `NaT` of pandas. A text that is not a size has its
    code in `Column.codes`, and raises nothing; with `errors="raise"` the first one raises `SizeError`, whose message
    has the row, the text and the reason. Raises `TypeError` if one of `texts` is anything else, or if `texts` is a
    mapping or a frame, whose items are keys or names of columns.

    From some thousand texts on, the GIL is released while copies of the texts are parsed.

    >>> parse_many(["1.5 KiB", None, b"9 b"]).ints()
    [1536, None, 2]
    >>> parse_many(["1.5 KiB", "-1"], errors="raise")
    Traceback (most recent call last):
    byte_unit.SizeError: texts[1]: '-1' is not a size: the character '-' is not a number (character 1)
    """
    _check("errors", errors, ("coerce", "raise"))
    return Column(*_native.parse_many(_items(texts), bits, ignore_case, binary, words, errors == "raise"))


def parse_buffers(
    data: object,
    offsets: object,
    *,
    validity: object = None,
    validity_offset: "SupportsIndex" = 0,
    bits: bool = False,
    ignore_case: bool = False,
    binary: bool = False,
    words: bool = False,
    errors: "Errors" = "coerce",
) -> Column:
    """Parses texts in Arrow's layout: text `i` is `data[offsets[i]:offsets[i + 1]]`. No object is made of a text.

    `data` is an object with the buffer protocol (`bytes`, `memoryview`, an array of numpy, a buffer of Arrow),
    contiguous and in UTF-8. `offsets` is another, of signed integers of 32 or 64 bits at any address, one more than
    there are texts. If the elements of a buffer are bytes, as those of Arrow are, cast it:
    `memoryview(buffer).cast("i")`, or `"q"`. `validity`, if it is not `None`, is a third one, with a bit for each text
    in Arrow's order, from bit `validity_offset` on: a text whose bit is 0 is null. `errors` is that of `parse_many`.

    Raises `ByteUnitError` if an offset is negative, less than the one before it, or past the end of `data`, if
    `validity` has too few bits, or if a buffer is not contiguous. Raises `TypeError` if an argument is not a buffer, or
    `offsets` not of such integers.

    The GIL is released, so other threads run meanwhile. Offsets and validity are copied before that, and the texts
    during it, 1,024 at a time. A change of the former has no effect; a change of `data` is seen or is not.

    >>> from array import array
    >>> parse_buffers(b"1 KB2 KiB", array("q", [0, 4, 9])).ints()
    [1000, 2048]
    >>> parse_buffers(b"1 KB2 KiB", array("q", [0, 4, 9]), validity=b"\\2").ints()
    [None, 2048]
    """
    _check("errors", errors, ("coerce", "raise"))
    flags = bits, ignore_case, binary, words, errors == "raise"
    try:
        found = _native.parse_buffers(data, offsets, validity, validity_offset, *flags)
    except ByteUnitError:
        raise
    except (BufferError, ValueError) as error:
        raise ByteUnitError(f"data, offsets and validity must be contiguous buffers: {error}") from None
    return Column(*found)
