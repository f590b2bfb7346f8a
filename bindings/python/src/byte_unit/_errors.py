"""The exceptions."""

TYPE_CHECKING = False  # true for type checkers
if TYPE_CHECKING:
    from decimal import Decimal

_SHOWN = 80  # the characters, or bytes, of a text that a message repeats


def quoted(text: "str | bytes") -> str:
    """Returns a text between quotes, with what cannot be printed escaped. Of a long one it is the beginning."""
    return repr(text[:_SHOWN]) + ".." * (len(text) > _SHOWN)


class ByteUnitError(ValueError):
    """The base class of this package's errors.

    Raised itself if an argument is out of range.

    >>> text(10**30)
    Traceback (most recent call last):
    byte_unit.ByteUnitError: size must be from 0 to 10**30 - 1, not 1000000000000000000000000000000
    """

    __module__ = "byte_unit"


class SizeError(ByteUnitError):
    """A text is not a size, or not the name of a unit.

    >>> try:
    ...     parse("1 Kx")
    ... except SizeError as error:
    ...     print(error)
    ...     print(error.text, error.name, error.character, error.expected, error.also_expect_no_character)
    ...     print(error.position, error.text[error.position])
    '1 Kx' is not a size: the character 'x' is incorrect ('B' or 'b' or no character is expected) (character 4)
    1 Kx unit x Bb True
    3 x

    The message has the text, of a long one the first 80 characters, or bytes, and the reason that `explain` returns,
    which ends with the number of the first wrong character, from 1, or says that the text ends there. `args[0]` is the
    reason.

    `text` is the text, as a `str`: of `bytes` what they are in UTF-8, with what is not as lone surrogates, as
    `surrogateescape` has it. `data` is those `bytes`, and else `None`. The names are those of the codes in byte_unit.h:

    - `no_value`: the text is empty or has only white space.
    - `not_number`: a digit is expected in place of `character`, or after it if the text ends there.
    - `number_too_long`: the whole part is 2^112 or more, or more than 28 digits follow the decimal point.
    - `exceeded_bounds`: the size is 10^30 or more. `number` is the number in the text, without its unit.
    - `unit`: the unit is misspelled at `character`. In its place one of the characters in `expected` is expected, or
      the end of the text if `also_expect_no_character` is true.
    - `not_utf8`: the text has bytes that are not UTF-8, or a lone surrogate.

    `character` and `number` are `None` if the name does not use them.

    `position` is the index in `text` of the first wrong character, which no size, or unit, can have there; if `data` is
    not `None`, that of a byte in it. If the text ends too early, it is the index of its end, before white space there;
    of white space alone, its length. It is `None` if only the size is too large, and for `not_utf8`.

    `hint` tells how the size that was meant is written, as `write 'GB'` for `2 gigs`, or is `None`. A unit has none.

    `row` is the place of the text in a column, if `parse_many` or `parse_buffers` raises the error; then the message
    has it too.

    An instance can be pickled and copied.
    """

    __module__ = "byte_unit"

    # The extension module sets all fields itself but those that are `None`, without a call of `__init__`.
    text: str = ""
    data: "bytes | None" = None
    position: "int | None" = None
    row: "int | None" = None
    character: "str | None" = None
    number: "Decimal | None" = None
    _of_unit: "bool | None" = None  # true if the text was parsed as a unit

    def __init__(
        self,
        reason: str,
        name: str,
        character: "str | None" = None,
        expected: str = "",
        also_expect_no_character: bool = False,
        number: "Decimal | None" = None,
    ) -> None:
        """Creates the error. All arguments are in `args`, from which it is pickled and copied."""
        super().__init__(reason, name, character, expected, also_expect_no_character, number)
        self.character = character
        self.expected = expected
        self.also_expect_no_character = also_expect_no_character
        self.number = number

    @property
    def name(self) -> str:
        """The name of the code. It is read from `args`, so that the dictionary of an error has at most five fields."""
        name: str = self.args[1]
        return name

    @property
    def hint(self) -> "str | None":
        """How the size that was meant is written, or `None`. It is found when it is read."""
        # A text that is too large has one only if it is a size in words, which was read.
        if "text" not in vars(self) or self._of_unit or self.name == "exceeded_bounds":
            return None
        from . import _native  # which imports this module

        return _native.hint(self.text)

    def __str__(self) -> str:
        """Returns the message, which is the reason alone if there is no text."""
        reason = str(self.args[0])
        if "text" not in vars(self):
            return reason
        row = "" if self.row is None else f"texts[{self.row}]: "
        what = "unit" if self._of_unit else "size"
        return f"{row}{quoted(self.text if self.data is None else self.data)} is not a {what}: {reason}"
