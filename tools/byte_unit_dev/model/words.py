"""The exact model of sizes in words and of hints, by regular expressions. Follows docs/DEFINITIONS.md."""

import re

from .exact import LETTERS, WHITE_SPACE, Rejected, read

NAMES = [("kilo", "kibi"), ("mega", "mebi"), ("giga", "gibi"), ("tera", "tebi"), ("peta", "pebi"), ("exa", "exbi"),
         ("zetta", "zebi"), ("yotta", "yobi"), ("ronna", "robi")]  # fmt: skip
PREFIXES = {name: letter + "i" * binary for letter, names in zip(LETTERS, NAMES) for binary, name in enumerate(names)}
WORD = re.compile(rf"(?ai)({'|'.join(PREFIXES)}|[{LETTERS}]i?)?(byte|octet|bit)s?")
RATE = re.compile(r"(?i)(.*)ps|([^/]*)/.*", re.S)
# What follows a number that has another form: an exponent, a power, a product, a percentage.
OTHER_FORM = re.compile(r"[Ee][0-9+-]|[\^*%]")


def unit_of_word(word):
    """Returns the unit that a word means, or `None`."""
    found = WORD.fullmatch(word)
    if not found:
        return None
    prefix, counted = found[1] or "", found[2].lower()
    prefix = PREFIXES.get(prefix.lower()) or prefix[:1].upper() + prefix[1:].lower()
    return prefix + ("b" if counted == "bit" else "B")


def parted(text):
    """Returns a text before the letters at its end, and these letters."""
    word = re.search("[A-Za-z]*$", text)[0]
    return text[: len(text) - len(word)], word


def read_words(text, kind, ignore_case=False):
    """Returns what `read` does of a text in which a word may stand for a unit."""
    found = read(text, kind, ignore_case)
    if isinstance(found, Rejected) and text.isascii():
        before, word = parted(text)
        number, unit = read(before, kind, ignore_case), unit_of_word(word)
        if unit and not isinstance(number, Rejected):
            return number[0], unit
    return found


def meant_unit(word):
    """Returns the name of the unit of a word, or of the beginning of a prefix's name, of three letters at least."""
    short = re.sub("(?i)s$", "", word).lower()
    return unit_of_word(word) or next((letter + "B" for letter, names in zip(LETTERS, NAMES)
                                       if len(short) >= 3 and names[0].startswith(short)), None)  # fmt: skip


def is_size(text, reader):
    return not isinstance(reader(text, "byte"), Rejected)


def hint(text):
    """Returns the hint for a text without white space at its ends, or `None`."""
    if not text.isascii() or is_size(text, read):
        return None
    if text.startswith("-"):
        return "a size is not negative"
    number = re.match("[0-9.]*", text)[0]
    rest = text[len(number) :]
    if not re.match("[0-9]", text) or number.endswith(".") or OTHER_FORM.match(rest) or re.match("0[xX]", text):
        return "a size begins with a number as in '12' or '1.5'"
    if re.match("[, _'][0-9]", rest):
        return "digits are not grouped, and the point is '.'"
    rate = RATE.fullmatch(text)
    if rate and is_size(rate[1] or rate[2] or "", read_words):
        return "a size has no rate: leave out what it is per second"
    before, word = parted(text)
    unit = meant_unit(word) if is_size(before.removesuffix("-"), read) else None
    words = ", or read it with the option 'words'" * is_size(text, read_words)
    return unit and f"write '{unit}'{words}"


def told_hint(data):
    """Returns what a message has at its end for bytes that are no size: the hint, if there is one."""
    found = hint(data.decode(errors="replace").strip(WHITE_SPACE))
    return f"; hint: {found}" if found else ""
