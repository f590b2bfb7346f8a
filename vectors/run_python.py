"""Answers test vectors by the Python package byte_unit. Reads records that end with a zero byte, each a call of
the file of rows, whose head has the forms, with its text unescaped and without the quote after it. Writes a line for each:
the answer, or `-` for a call that the package does not have."""

import re
import sys

import byte_unit

# The values of keyword arguments, by their signs in a format string.
ALIGNS = {"<": "left", "^": "center", ">": "right"}
SIGNS = {"+": "plus", "-": "minus"}


def spec(word):
    """Returns the keyword arguments of a format string of the Rust crate."""
    pattern = r"\{(?::([<^>]?)([+-]?)(#?)(\d*)(?:\.(\d+))?)?\}"
    align, sign, alternate, width, precision = re.fullmatch(pattern, word).groups()
    return {"align": ALIGNS.get(align), "sign": SIGNS.get(sign), "alternate": alternate == "#",
            "width": int(width) if width else None, "precision": int(precision) if precision else None}


def error_of(error):
    """Returns the name and the fields of an error."""
    fields = {"exceeded_bounds": f" {error.number}", "not_number": f' "{error.character}"',
              "unit": f' "{error.character}" [{error.expected}]' + " end" * error.also_expect_no_character}
    return "".join(word.title() for word in error.name.split("_")) + fields.get(error.name, "")


def position(of, given):
    """Returns the index in bytes of the first wrong character of a text, if it has one."""
    try:
        byte_unit.parse_unit(given) if of == "unit" else byte_unit.parse(given, bits=of == "bit")
    except byte_unit.SizeError as error:
        if error.position is not None:
            return len(given[: error.position].encode())
    return "none"


def hint(given):
    """Returns the hint for a text, if it is rejected and has one."""
    try:
        byte_unit.parse(given)
    except byte_unit.SizeError as error:
        return f'"{error.hint}"' if error.hint else "none"
    return "none"


def says(given, **how):
    """Returns the message of a text without its last words. If the error has a position, these have to be the number of
    the character there, or to say that only white space follows."""
    message = byte_unit.explain(given, **how)
    try:
        byte_unit.parse(given, **how)
    except byte_unit.SizeError as error:
        at = error.position
        where = "" if at is None else f" (character {at + 1})" if given[at:].strip() else " (at the end of the text)"
        return message.removesuffix(where) if message.endswith(where) else f"without{where}: {message}"


def plain(count):
    """Returns a count without an exponent."""
    return f"{count:f}".rstrip("0").rstrip(".") if "." in f"{count:f}" else f"{count:f}"


def text(words, bits):
    """Returns the text of a size: formatted, or adjusted `in` a unit or `by` a type of units."""
    size = int(words[2])
    if words[3].startswith("{"):
        return byte_unit.text(size, bits=bits, **spec(words[3]))
    unit = words[4] if words[3] == "in" else byte_unit.appropriate_unit(size, unit_type=words[4], bits=bits)
    return byte_unit.adjusted_text(size, unit, bits=bits, **spec(words[5]))


def answer(words, given):
    """Returns the answer to a call, by its words and its text; without one the text is empty."""
    bits, uncased, either_kind = "bit" in words[1:2], "uncased" in words, words[2:3] == ["any"]
    if words[0] in ("parse", "parse_binary"):
        return byte_unit.parse(given, bits=bits, ignore_case=uncased, binary=words[0] == "parse_binary")
    if words[0] == "words":
        return byte_unit.parse(given, bits=bits, ignore_case=uncased, binary=words[2] == "binary", words=True)
    if words[0] == "hint":
        return hint(given)
    if words[0] == "position":
        return position(words[1], given)
    if words[0] == "unit":
        return byte_unit.parse_unit(given, bits=words[2] == "bits", ignore_case=uncased)
    if words[0] == "says":
        return f'"{says(given, bits=bits, ignore_case=uncased)}"'
    if words[0] == "text":
        return f'"{text(words, bits)}"'
    if words[0] == "exact":
        return "{} {}".format(*byte_unit.exact_unit(int(words[3]), bits=bits, either_kind=either_kind))
    if words[0] == "recoverable":
        places, size = map(int, words[3:])
        count, unit = byte_unit.recoverable_unit(size, precision=places, bits=bits, either_kind=either_kind)
        return f"{plain(count)} {unit}"
    if words[0] == "make_in":
        return byte_unit.from_unit(int(words[2]), words[3], bits=bits)
    return "-"


for record in sys.stdin.buffer.read().decode().split("\0")[:-1]:
    call, _, given = record.partition(' "')
    try:
        print(answer(call.split(), given))
    except byte_unit.SizeError as error:
        print(error_of(error))
    except byte_unit.ByteUnitError:
        print("none")
