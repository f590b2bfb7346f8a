"""Reads lines, and prints for each the size and its text with a unit, or the error, as byte_unit_lines does.

The argument is `byte` or `bit`. Parses the lines as bytes, as strings and as a column, and prints each result once.
"""

import sys

import byte_unit

# What byte_unit_lines calls each error.
WORDS = {"no_value": "no value", "not_number": "not a number", "number_too_long": "number too long",
         "exceeded_bounds": "out of range", "unit": "bad unit", "not_utf8": "not text"}  # fmt: skip
BITS = sys.argv[1] == "bit"


def shown(size: int) -> str:
    return f"{byte_unit.text(size, bits=BITS, alternate=False)} = {byte_unit.text(size, bits=BITS)}"


def parsed(text: str | bytes) -> str:
    try:
        size = byte_unit.parse(text, bits=BITS)
        return shown(byte_unit.parse(size, bits=BITS))
    except byte_unit.SizeError as error:
        given: str = error.text  # as mypy has it, for a text of each type
        return WORDS[error.name] if text in (given, error.data) else given


lines = sys.stdin.buffer.read().split(b"\n")[:-1]
column = byte_unit.parse_many(lines, bits=BITS)
for line, code, size in zip(lines, column.codes, column.ints(), strict=True):
    of_column = WORDS[byte_unit.ERROR_NAMES[code]] if size is None else shown(size)
    # If the three ways differ, the line has all results, which no other program prints.
    print(" or ".join(sorted({parsed(line), parsed(line.decode("utf-8", "surrogateescape")), of_column})))
