"""Answers the test vectors by the exact model. The head of crates/byte_unit_vectors/stdin has the forms of calls and
answers; a function for a call takes its words, as they are, and its text."""

import json
import re
from decimal import ROUND_HALF_EVEN, ROUND_HALF_UP, Decimal
from fractions import Fraction
from math import ceil

from .exact import (BASE, BITS, FRACTION_PLACES, SCALE, SIZE_LIMIT, UNITS, WHITE_SPACE, WHOLE_LIMIT, Rejected,
                    bad_unit, best_unit, read, size_of, unit_of, value_of)  # fmt: skip
from .words import hint, read_words

# A format string of the Rust crate, and how each type of units has the letter `i`.
SPEC = re.compile(r"\{(?::([<^>]?)([+-]?)(#?)(\d*)(?:\.(\d+))?)?\}")
TYPES = {"binary": [True], "decimal": [False], "both": [True, False]}
# The longest beginning of a unit, and of a size but for the length of its whole part, which has at most 34 digits.
UNIT_PREFIX = "(?:[KMGTPEZYRkmgtpezyr][Ii]?)?(?:[Bb](?:[Ii](?:[Tt][Ss]?)?)?)?"
SIZE_PREFIX = rf"(?:[0-9]+(?:\.(?:[0-9]{{1,{FRACTION_PLACES}}} *{UNIT_PREFIX})?| *{UNIT_PREFIX}))?"
WHOLE_DIGITS = len(str(WHOLE_LIMIT))


def quoted(text):
    return f'"{text}"'


def shown(number):
    """Returns the digits of a number, without zeros at the end of a fraction."""
    return f"{Decimal(number).normalize():f}"


def size_in(kind, case, text, binary=False):
    """Returns the size that a text represents, or why it represents none."""
    return size_of(text.encode(), kind, case == "uncased", binary)


def parse(kind, case, text, binary=False):
    size = size_in(kind, case, text, binary)
    return getattr(size, "answer", str(size))


def in_words(kind, prefixes, case, text):
    size = size_of(text.encode(), kind, case == "uncased", prefixes == "binary", read_words)
    return getattr(size, "answer", str(size))


def hinted(text):
    found = hint(text.strip(WHITE_SPACE))
    return quoted(found) if found else "none"


def unit(case, prefer, text):
    text, kind, ignore_case = text.strip(WHITE_SPACE), prefer.removesuffix("s"), case == "uncased"
    return unit_of(text, kind, ignore_case) or bad_unit(text, kind, ignore_case).answer


def number_and_unit(case, prefer, text):
    found = read(text.strip(WHITE_SPACE), prefer.removesuffix("s"), case == "uncased")
    return found.answer if isinstance(found, Rejected) else f"{shown(Decimal(found[0]).scaleb(-28))} {found[1]}"


def position(what, text):
    """Returns the index in bytes of the first wrong character of a text that is no size, or no unit."""
    trimmed, start = text.strip(WHITE_SPACE), len(text.encode()) - len(text.lstrip(WHITE_SPACE).encode())
    if what == "unit":
        return "none" if unit_of(trimmed, "byte") else str(start + re.match(UNIT_PREFIX, trimmed).end())
    size = size_in(what, "cased", text)
    if not isinstance(size, Rejected) or size.name == "out of range":
        return "none"
    number = re.match("0*([0-9]*)", trimmed)
    if int(number[1][: WHOLE_DIGITS + 1] or 0) >= WHOLE_LIMIT:
        return str(start + number.start(1) + WHOLE_DIGITS - (int(number[1][:WHOLE_DIGITS]) >= WHOLE_LIMIT))
    return str(start + re.match(SIZE_PREFIX, trimmed).end())


def located(data, size):
    """Returns the message for bytes that are no size, with the number of the first wrong character, or that the text is
    wrong at its end, if it is wrong at a place."""
    if size.name in ("out of range", "not text"):
        return size.message
    at = int(position("byte", data.decode()))
    if data.decode().rstrip(WHITE_SPACE) in ("", data[:at].decode()):
        return f"{size.message} (at the end of the text)"
    return f"{size.message} (character {len(data[:at].decode()) + 1})"


def digits(number, spec):
    """Returns a whole number as digits. If it is centred, the fewer spaces are on the left."""
    align, sign, _, width, _ = SPEC.fullmatch(spec).groups("")
    text = "+" * (sign == "+") + str(number)
    return quoted(f"{text:{align or '>'}{int(width or 0)}}")


def with_unit(number, name, spec):
    """Returns a number and a unit, with as many spaces between them as the sign says. The number alone is padded."""
    align, sign, _, width, _ = SPEC.fullmatch(spec).groups("")
    name = " " * {"": 1, "+": 4 - len(name), "-": 0}[sign] + name
    return quoted(f"{number:{'>' if align == '>' else '<'}{max(int(width or 0) - len(name), 0)}}{name}")


def in_unit(kind, size, name, spec):
    """Returns the text of a size in a unit."""
    _, _, alternate, _, places = SPEC.fullmatch(spec).groups()
    value = value_of(size, kind, name)
    if places is None or name in "bB" and not alternate:
        text = shown(value)
    elif alternate:
        text = shown(value.quantize(Decimal(1).scaleb(-min(int(places), 16)), ROUND_HALF_UP))
    else:
        kept = min(int(places), 100)  # no size has more
        text = f"{value.quantize(Decimal(1).scaleb(-kept), ROUND_HALF_EVEN):f}" + "0" * (int(places) - kept)
    return with_unit(text, name, spec)


def text_of(kind, size, *how):
    """Returns the text of a size: as digits or with a unit, in a unit, or in the largest unit of a type."""
    size, spec = int(size), how[-1]
    if how[0] == "in":
        return in_unit(kind, size, how[1], spec)
    if how[0] == "by":
        name = largest(size, f"{kind}s", how[1], SCALE[kind])
        return in_unit(kind, size, BASE[kind] if name == "none" else name, spec)
    _, _, alternate, _, places = SPEC.fullmatch(spec).groups()
    if not alternate:
        return digits(size, spec)
    name = best_unit(size, kind, precision=3 if places is None else int(places))
    return with_unit(shown(value_of(size, kind, name)), name, spec)


def of_set(name):
    """Returns the units with a prefix of a set: `all`, `bytes` or `bits`."""
    return [one for one in UNITS[2:] if name == "all" or (one[-1] == "B") == (name == "bytes")]


def largest(size, units, kind, bits):
    """Returns the largest unit of a set and a type that is not above a size."""
    scaled = int(size) * int(bits)
    return max((one for one in of_set(units) if ("i" in one) in TYPES[kind] and BITS[one] <= scaled),
               key=BITS.get, default="none")  # fmt: skip


def choose(size, units, bits, places):
    """Returns the largest unit of a set, not above a size, in which it is exact within the places, after its number."""
    scaled, power = int(size) * int(bits), 10 ** min(int(places), FRACTION_PLACES)
    names = [one for one in of_set(units) if BITS[one] <= scaled and scaled * power % BITS[one] == 0]
    return f"{shown(Decimal(scaled) / BITS[names[-1]])} {names[-1]}" if names else "none"


def recoverable(kind, allowed, places, size):
    name = best_unit(int(size), kind, allowed == "any", int(places))
    return f"{shown(value_of(int(size), kind, name))} {name}"


def factors(size):
    """Returns how often two and how often five divide a size, and how many divisions show it."""
    counts = [next(count for count in range(200) if size % prime ** (count + 1)) for prime in (2, 5)]
    return *counts, sum(counts) + 2


def steps(kind, allowed, places, size):
    number = recoverable(kind, allowed, places, size).split(" ")[0]
    return str(len(number.partition(".")[2]) + (factors(int(size))[2] if int(size) else 0))


def quotient(size, per, places):
    """Returns an exact quotient, or none, and the least number of places that were enough, or all of them."""
    places = min(int(places), FRACTION_PLACES)
    tried = next((count for count in range(places) if int(size) * 10**count % int(per) == 0), places)
    is_exact = int(size) * 10**tried % int(per) == 0
    return f"{shown(Decimal(int(size)) / int(per)) if is_exact else 'none'} {tried}"


def least(number, per, limit):
    size = ceil(Fraction(number) * Fraction(per))
    return str(size) if size < int(limit) else "none"


def made(kind, number, name):
    """Returns a number of a unit as a size, rounded up."""
    return least(number, Fraction(BITS[name], SCALE[kind]), SIZE_LIMIT)


def constant(kind, name):
    prefix, word = re.fullmatch("(.*?)(BIT|BYTE|MIN|MAX)", name).groups()
    if word in ("MIN", "MAX"):
        return str(SIZE_LIMIT - 1 if word == "MAX" else 0)
    letters = prefix[:1] + "i" * prefix.endswith("BI")  # as in KIBI
    return made(kind, 1, letters + {"BIT": "b", "BYTE": "B"}[word])


def properties(name):
    """Returns the bits of a unit, its kind, the type of its prefix, and the exponents of two and of five."""
    is_binary = "i" in name or name == "B"
    return "{} {} {} 2^{} 5^{}".format(BITS[name], "bytes" if name[-1] == "B" else "bits",
                                       "binary" if is_binary else "decimal", *factors(BITS[name]))  # fmt: skip


def compute(_, size, operation, number):
    size, number = int(size), int(number)
    if operation == "divide":
        return str(size // number) if number else "none"
    result = {"add": size + number, "subtract": size - number, "multiply": size * number}[operation]
    return str(result) if 0 <= result < SIZE_LIMIT else "none"


def in_64_bits(_, size):
    if int(size) >= SIZE_LIMIT:
        return "none"
    return f"{min(int(size), 2**64 - 1)} {size if int(size) < 2**64 else 'none'}"


def decimal(mantissa, scale):
    number = Decimal(mantissa).scaleb(-int(scale))
    return shown(number) if int(scale) <= FRACTION_PLACES and number < WHOLE_LIMIT else "none"


def expansion(numerator, twos, fives):
    return Decimal(numerator) / (2 ** int(twos) * 5 ** int(fives))


def rounded(numerator, twos, fives, places, ties):
    value, how = expansion(numerator, twos, fives), {"even": ROUND_HALF_EVEN, "up": ROUND_HALF_UP}[ties]
    return shown(value.quantize(Decimal(1).scaleb(-min(int(places), 100)), how))


def layout(numerator, twos, fives, places, name, spec):
    """Returns the text of a number with a unit, of which the digits past the places are left out."""
    whole, _, decimals = f"{expansion(numerator, twos, fives):f}".partition(".")
    return with_unit(f"{whole}.{decimals[:int(places)]:0<{int(places)}}".rstrip("."), name, spec)


def json_of(kind, size, _=None, name=None):
    """Returns the JSON string of a size. In a unit it is the exact expansion, but of the largest size."""
    in_best_unit = name is None or int(size) == SIZE_LIMIT - 1
    return text_of(kind, size, *[] if in_best_unit else ["in", name], "{:#}")


def of_json(text, answer, *words):
    """Returns the answer to the string that a JSON text is, if it is one."""
    value = json.loads(text)
    return answer(*words, value) if isinstance(value, str) else "NotString"


CALLS = {
    "parse": parse, "parse_binary": lambda *words: parse(*words, binary=True), "unit": unit, "read": number_and_unit,
    "words": in_words, "hint": hinted,
    "says": lambda *words: quoted(size_in(*words).message), "position": position, "text": text_of,
    "plain": digits, "value": lambda kind, size, _, name: f"{int(size) * SCALE[kind]}/{BITS[name]}",
    "exact": lambda kind, allowed, size: recoverable(kind, allowed, 0, size), "recoverable": recoverable,
    "steps": steps, "largest": largest, "choose": choose, "make_in": made, "make_decimal": made, "decimal": decimal,
    "expansion": lambda *words: shown(expansion(*words)), "rounded": rounded, "layout": layout, "least": least,
    "quotient": quotient, "powers": lambda size: "2^{} 5^{} {}".format(*factors(int(size))), "compute": compute,
    "as_u64": in_64_bits, "json": json_of, "from_json": lambda kind, text: of_json(text, parse, kind, "cased"),
    "unit_json": quoted, "unit_from_json": lambda text: of_json(text, unit, "cased", "bytes"), "properties": properties,
    "binary_unit": lambda name: f"{name[0]}i{name[1]}" if len(name) == 2 else name, "constant": constant,
}  # fmt: skip


def answer(words, text=None):
    """Returns the answer to a call, of which the text, if it has one, is the last word."""
    return CALLS[words[0]](*words[1:], *[text] * (text is not None))
