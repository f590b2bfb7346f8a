"""The words and rows by which byte_unit_bit is rendered from byte_unit_byte."""

import functools
import re
import tomllib

from ..common import Failure, files, read

CRATE = "byte_unit_bit"
SOURCE, TARGET, MOST_COLUMNS = "crates/byte_unit_byte", f"crates/{CRATE}", 120
HEAD = "// Rendered from {} by `tools/dev render bits`. Do not edit.\n".format
# The differences beside words: the file says what it has.
ROWS = f"{SOURCE}/bits.toml"
# The longest `field: value` that `rt fmt` leaves on one line with its struct.
MOST_FIELD_COLUMNS = 18
# The prefixes of units, with the beginnings of the constants' names.
PREFIXES = {
    "K": "KILO", "M": "MEGA", "G": "GIGA", "T": "TERA", "P": "PETA", "E": "EXA", "Z": "ZETTA", "Y": "YOTTA",
    "R": "RONNA", "Ki": "KIBI", "Mi": "MEBI", "Gi": "GIBI", "Ti": "TEBI", "Pi": "PEBI", "Ei": "EXBI", "Zi": "ZEBI",
    "Yi": "YOBI", "Ri": "ROBI",
}


def both_ways(pairs):
    return {**pairs, **{bits: byte for byte, bits in pairs.items()}}


# Words of code: names of the two crates, and symbols of units in texts.
WORDS = {
    "Byte": "Bit", "AdjustedByte": "AdjustedBit", "InBytes": "InBits", "byte": "bit", "get_byte": "get_bit",
    "byte_constant": "bit_constant", "byte_bounds": "bit_bounds", "B": "b",
    **{f"{prefix}B": f"{prefix}b" for prefix in PREFIXES},
    **both_ways({
        "Kind::Byte": "Kind::Bit", "ParseSpec::BYTES": "ParseSpec::BITS",
        "ParseSpec::BINARY_BYTES": "ParseSpec::BINARY_BITS", "allow_in_bits": "allow_in_bytes", "Unit::B": "Unit::Bit", "Unit.B": "Unit.Bit",
        **{f"Unit::{prefix}B": f"Unit::{prefix}bit" for prefix in PREFIXES},
        "BYTE": "BIT", **{f"{name}BYTE": f"{name}BIT" for name in PREFIXES.values()},
    }),
}
# Words of comments. In code `bits` is a function, and `bytes` a parameter.
WORDS_OF_COMMENTS = {**WORDS, **both_ways({"bytes": "bits", "byte": "bit"})}
# Words of the comments of constants, which name units as `Unit` does.
CONSTANTS = "src/byte/constants.rt"
WORDS_OF_CONSTANTS = {**WORDS_OF_COMMENTS, **both_ways({f"{prefix}B": f"{prefix}bit" for prefix in PREFIXES})}
# Words of the names of files and of mutants.
WORDS_OF_NAMES = {**WORDS, **both_ways({f"{name}byte".lower(): f"{name}bit".lower() for name in PREFIXES.values()})}


def named(name):
    """Returns the name of the file or mutant that is rendered from this one."""
    return "".join(WORDS_OF_NAMES.get(part, part) for part in re.split(r"([/.])", name))


@functools.lru_cache(maxsize=None)
def differences():
    return tomllib.loads(read(ROWS))


def in_bits(name, text, is_whole=True):
    """Replaces what ROWS has for a file, and the words in all that is left, in one pass."""
    comments = WORDS_OF_CONSTANTS if name == CONSTANTS else WORDS_OF_COMMENTS
    rows, seen = differences().get(name, {}), []
    words = "|".join(map(re.escape, sorted(comments, key=len, reverse=True)))

    def replaced(found):
        seen.append(found[0])
        is_comment = "//" in text[text.rfind("\n", 0, found.start()) + 1:found.start()]
        return {**(comments if is_comment else WORDS), **rows}.get(found[0], found[0])

    made_text = re.sub("|".join([*map(re.escape, rows), rf"(?<![A-Za-z_])(?:{words})(?!\w)"]), replaced, text)
    for old in rows if is_whole else []:
        if text.count(old) != 1 or old not in seen:
            raise Failure(f"{SOURCE}/{name}: not once, or not apart from other rows of {ROWS}: {old!r}")
    return made_text


def constants(text):
    """Replaces the numbers of the constants that are named after units of bits, by those of units of bytes: in bytes
    1 Kbit is 1000 / 8, and in bits 1 KB is 1000 * 8, so the number is 64 times as large."""
    def row(found):
        value = found[3]
        number = 64 * int(re.search(r"\d[\d_]*", value)[0])
        power = f"8 * 10^{len(str(number)) - 1}" if number & (number - 1) else f"2^{number.bit_length() - 1}"
        field = f"size: {number:_}"
        if "{" in value:
            value = f"Byte {{ {field} }}" if len(field) <= MOST_FIELD_COLUMNS else f"Byte {{\n        {field},\n    }}"
        return found[1] + power + found[2] + re.sub(r"\d[\d_]*", f"{number:_}", value)

    rows = r"(/// 1 \w+bit \S+ )[\d^* ]+( bytes\.\n +pub const \w+BIT: Byte = )([^;]*)(?=;)"
    changed, count = re.subn(rows, row, text)
    if count != len(PREFIXES):
        raise Failure(f"{SOURCE}/{CONSTANTS}: {count} constants of multiples of bits, not {len(PREFIXES)}")
    return changed


def mutant(title, text):
    """Returns the title and text of the mutant of byte_unit_bit that is rendered from one of byte_unit_byte."""
    first, _, pairs = text.partition("\n")
    name = first.removeprefix("file: ")
    return named(title), f"file: {named(name)}\n{in_bits(name, pairs, is_whole=False)}"


def made():
    """Yields the name and the text of each file of byte_unit_bit, those of byte_unit_byte but its mutants and ROWS."""
    texts = {found.removeprefix(f"{SOURCE}/"): read(found) for found in files() if found.startswith(f"{SOURCE}/")
             and found != ROWS and not found.endswith((".edit", ".edits"))}  # fmt: skip
    made_texts = {named(name): HEAD(f"{SOURCE}/{name}") + in_bits(
        name, constants(text) if name == CONSTANTS else text) for name, text in texts.items()}
    unknown = [name for name in texts if not name.endswith(".rt")] + [*differences().keys() - texts.keys()]
    if unknown or len(made_texts) != len(texts):
        raise Failure(f"{SOURCE}: no source, or two are rendered by one name, or {ROWS} has rows for none: {unknown}")
    there = [name.removeprefix(f"{TARGET}/") for name in files() if name.startswith(f"{TARGET}/")]
    for name in sorted({*made_texts, *there}):
        yield f"{TARGET}/{name}", made_texts.get(name, "")
    wrong = [f"{TARGET}/{name}:{number}: more than {MOST_COLUMNS} columns: {line}" for name, text in made_texts.items()
             for number, line in enumerate(text.splitlines(), 1) if len(line) > MOST_COLUMNS]
    if wrong:
        raise Failure("\n".join(wrong))
