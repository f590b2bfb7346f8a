"""An exact model of how sizes are read and printed, and of the messages of errors, by integers of any length.

Follows docs/DEFINITIONS.md and shares no code with the crates. The tests compare the built code with it, on random
lines too: numbers, valid and invalid units, white space, bytes that are not UTF-8. A kind is `byte` or `bit`.
"""

import functools
import re
import unicodedata
from collections import namedtuple
from decimal import Decimal, getcontext

LETTERS = "KMGTPEZYR"
# What a whole part and a size are below; the digits after the point that a number has at most, and a formatted size.
WHOLE_LIMIT, SIZE_LIMIT = 2**112, 10**30
FRACTION_PLACES, FORM_PLACES = 28, 3
# The bits of one, and the name of the unit without a prefix.
SCALE, BASE = {"byte": 8, "bit": 1}, {"byte": "B", "bit": "b"}
# The bits of each unit, in the order of the units' codes.
BITS = {"b": 1, "B": 8, **{
    letter + infix + end: base**power * scale for power, letter in enumerate(LETTERS, 1)
    for end, scale in (("b", 1), ("B", 8)) for infix, base in (("", 1000), ("i", 1024))}}  # fmt: skip
UNITS = list(BITS)
# The characters with the Unicode property White_Space: of Python's, all but four separators.
WHITE_SPACE = "".join(c for c in map(chr, range(0x3001)) if c.isspace() and c not in "\x1c\x1d\x1e\x1f")
NUMBER = re.compile(r"([0-9]*)(\.([0-9]*))?")
# The flags `ai` take letters of ASCII in either case, and none else for them, such as the sign of Kelvin for `K`.
SPELLING = re.compile(r"(?ai:([KMGTPEZYR])(i?))?(B|b|(?ai:bits?))?")
# The characters that Rust escapes by a letter or as they are.
SHORT_ESCAPES = {"\0": "\\0", "\t": "\\t", "\n": "\\n", "\r": "\\r", "'": "\\'", "\\": "\\\\"}
# Parts of random lines: ends of units, texts that are mostly no sizes, and bytes that are mostly not UTF-8.
WORDS = ["", "B", "b", "bit", "bits", "BIT", "bItS", "bi", "bitx", "byte"]
ODD = ["", " ", "\t", "x", "-1", "+1", ".5", "1.", "1 .5", "1,000", "1_000", "1e3", "\ufeff1",
       "é", "1é", "1 Ké", "1😀"]  # fmt: skip
# The parser takes eight digits at a time, nineteen fit 64 bits, and a fraction is split into two halves of fourteen.
DIGITS = [1, 2, 3, 4, 6, 8, 9, 12, 15, 16, 18, 19, 20, 24, 27, 28, 29, 30, 34, 35]
PLACES = [1, 1, 2, 2, 3, 6, 8, 12, 14, 15, 19, 20, 27, 28, 29]
BROKEN = [b"\xff", b"1\xff", b"1\xc3", b"1\xed\xa0\x80", b"1\xc0\x80", b"1\x00", b"1KB\r", b"\r", b"1\x1c", b"1\x85"]
getcontext().prec = 500  # each quotient below is exact

# Why a text is not a size: what byte_unit_lines prints, the message of the library, and the answer of the test vectors.
Rejected = namedtuple("Rejected", "name message answer")


def debug_char(c):
    """Returns a character as `{:?}` of Rust quotes it: escaped if it is not printable or extends the one before it."""
    if c in SHORT_ESCAPES:
        return f"'{SHORT_ESCAPES[c]}'"
    # The two marks of halfwidth Katakana extend a character, though they are letters by their category.
    extends = unicodedata.category(c) in ("Mn", "Me") or c in "\uff9e\uff9f"
    return f"'\\u{{{ord(c):x}}}'" if extends or not c.isprintable() else f"'{c}'"


def unit_of(text, kind, ignore_case=False):
    """Returns the unit that a text spells, or `None`."""
    found = SPELLING.fullmatch(text)
    if not found:
        return None
    letter, infix, word = found.groups("")
    is_byte = word == "B" or word == "b" and ignore_case if word else kind == "byte"
    return letter.upper() + infix.lower() + ("B" if is_byte else "b")


def bad_unit(text, kind, ignore_case=False):
    """Returns why a text spells no unit: its first character that cannot continue one."""
    letter, rest = re.match(f"([{LETTERS}{LETTERS.lower()}][Ii]?)?(.*)", text, re.S).groups()
    expected, or_none = (BASE[kind] if ignore_case else "Bb") if letter else "B" + LETTERS, True
    if rest[0] in "Bb":
        word = re.match("(?ai)b(i(ts?)?)?", rest)[0].lower()
        # A string that ends after `bi` is rejected at the `i`.
        expected = {"b": "i", "bi": "t" * (len(rest) > 2), "bit": "s", "bits": ""}[word]
        or_none, rest = word != "bi" or len(rest) == 2, rest[len(word) :] or "i"
    *most, last = [*map(debug_char, expected)] or [""]
    words = " or ".join(filter(None, [", ".join(most), last, "no character" * or_none]))
    message = f"the character {debug_char(rest[0])} is incorrect ({words} is expected)"
    return Rejected("bad unit", message, f'Unit "{rest[0]}" [{expected}]' + " end" * or_none)


def read(text, kind, ignore_case=False):
    """Returns the number scaled by 10^28 and the unit, or why the text has none. It has no white space at its ends."""
    if not text:
        return Rejected("no value", "no value can be found", "NoValue")
    digits, point, fraction = NUMBER.match(text).groups("")
    # Of a longer whole part 40 digits are enough to be above its limit, which has 34.
    whole = int(digits.lstrip("0")[:40] or "0")
    if digits and (whole >= WHOLE_LIMIT or len(fraction) > FRACTION_PLACES):
        return Rejected("number too long", "value number is too long", "NumberTooLong")
    if not digits or point == ".":
        wrong = text[len(digits) + bool(digits) :][:1] or "."
        return Rejected("not a number", f"the character {debug_char(wrong)} is not a number", f'NotNumber "{wrong}"')
    spelling = text[len(digits + point) :].lstrip(" ")
    unit = unit_of(spelling, kind, ignore_case)
    number = whole * 10**FRACTION_PLACES + int(fraction.ljust(FRACTION_PLACES, "0"))
    return (number, unit) if unit else bad_unit(spelling, kind, ignore_case)


@functools.lru_cache(maxsize=1 << 10)
def size_of(data, kind, ignore_case=False, binary=False, reader=read):
    """Returns the size that bytes represent, or why they represent none. If `binary`, all prefixes are by 1024; `reader`
    reads the number and the unit."""
    try:
        found = reader(data.decode().strip(WHITE_SPACE), kind, ignore_case)
    except UnicodeDecodeError:
        return Rejected("not text", "the text is not UTF-8", "NotUtf8")
    if isinstance(found, Rejected):
        return found
    number, unit = found
    unit = f"{unit[0]}i{unit[1]}" if binary and len(unit) == 2 else unit
    size, shown = -(-number * BITS[unit] // (10**FRACTION_PLACES * SCALE[kind])), Decimal(number) / 10**FRACTION_PLACES
    if size < SIZE_LIMIT:
        return size
    return Rejected("out of range", f"the value {shown:f} exceeds the valid range", f"ExceededBounds {shown:f}")


def value_of(size, kind, unit):
    """Returns the exact number of units."""
    return Decimal(size * SCALE[kind]) / BITS[unit]


def largest(size, kind, units):
    """Returns the largest of these units that is not above the size, or `B` or `b`."""
    return max((unit for unit in units if BITS[unit] <= size * SCALE[kind]), key=BITS.get, default=BASE[kind])


def best_unit(size, kind, either=False, precision=FORM_PLACES):
    """Returns the largest unit, not above the size, in which this number of decimals represents it exactly: a unit with
    a prefix, of its kind or of either, or that of its kind without one."""
    scaled = size * SCALE[kind] * 10 ** min(precision, FRACTION_PLACES)
    return largest(size, kind, [unit for unit in UNITS[2:] if (either or unit[-1] == BASE[kind])
                                and scaled % BITS[unit] == 0])  # fmt: skip


def form(size, kind):
    """Returns the size with its best unit."""
    unit = best_unit(size, kind)
    return f"{value_of(size, kind, unit):f} {unit}"


def output_for(line, kind):
    """Returns the output of byte_unit_lines for a line, given as bytes without its line ending."""
    size = size_of(line, kind)
    return size.name if isinstance(size, Rejected) else f"{size} = {form(size, kind)}"


def some_unit(rng, ends):
    """Returns a spelling of a unit with one of these ends."""
    letter = rng.choice(["", *LETTERS, *LETTERS.lower()])
    return letter + (rng.choice(["", "", "i", "I"]) if letter else "") + rng.choice(ends)


def some_line(rng):
    """Returns a random line, as bytes without a line ending."""
    make = rng.random()
    if make < 0.05:
        return rng.choice(BROKEN)
    if make < 0.1:
        return rng.choice(ODD).encode()
    number = str(rng.randrange(10 ** rng.choice(DIGITS)))
    if rng.random() < 0.5:
        places = rng.choice(PLACES)
        number += "." + "".join(rng.choices("0123456789", k=places))
    if rng.random() < 0.03:
        number = "0" * rng.randrange(40) + number
    text = number + " " * rng.choice([0, 0, 1, 1, 1, 2, 9]) + some_unit(rng, WORDS)
    if rng.random() < 0.05:
        at = rng.randrange(len(text) + 1)
        text = text[:at] + rng.choice("bikKx. \t0é\u3000\u212a") + text[at:]
    if rng.random() < 0.03:
        text = rng.choice([" ", "\u3000", "\u2028\v"]) + text + rng.choice([" ", "\u00a0", "\r", "\u200b"])
    return text.encode()
