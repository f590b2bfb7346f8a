"""A reference model of byte-unit: all that a call writes, and its exit status, by the exact model of sizes.

Follows command/byte-unit.1 and docs/DEFINITIONS.md, and shares no code with the crates.
"""

import contextlib
import functools
import getopt
import re
import unicodedata
from collections import namedtuple
from dataclasses import replace
from types import SimpleNamespace

from byte_unit_dev.model.answers import located
from byte_unit_dev.model.exact import (BASE, FORM_PLACES, SIZE_LIMIT, UNITS, WHITE_SPACE, Rejected, bad_unit, best_unit,
                                       largest, size_of, unit_of, value_of)
from byte_unit_dev.model.exact import read as number_and_unit
from byte_unit_dev.model.words import read_words, told_hint
from program import Result

# The most bytes of a text that a message quotes, and Unicode's categories of the characters that it escapes; the
# greatest number of 64 bits; and the words that are forms.
QUOTED = 80
ESCAPED = ("Cc", "Cf", "Zs", "Zl", "Zp")
BITS_64 = (1 << 64) - 1
FORMS = ("exact", "plain", "si", "iec", "auto")
# What is said of operands such as `5 KB`.
SPLIT = b"byte-unit: a number and its unit were two operands; quote them as one, as in '5 KB'\n"


class Wrong(Exception):
    """Why the value of an option is wrong, and whether the message quotes the value."""

    def __init__(self, why, quotes=True):
        super().__init__(why)
        self.quotes = quotes


def quoted(data):
    """Returns bytes in quotes: all, or 77 to 80 of them, so that no character is cut, with two dots after them."""
    ends = range(QUOTED, QUOTED - 4, -1)
    end = len(data) if len(data) <= QUOTED else next((at for at in ends if data[at] & 0xC0 != 0x80), QUOTED)
    try:
        text = data[:end].decode()
        text = "".join(f"\\u{{{ord(c):x}}}" if c != " " and unicodedata.category(c) in ESCAPED else c for c in text)
    except UnicodeDecodeError:
        text = "".join(chr(byte) if 0x20 <= byte < 0x7F else f"\\x{byte:02x}" for byte in data[:end])
    return f"'{text}{'..' if end < len(data) else ''}'"


@functools.lru_cache(maxsize=1 << 10)
def text_of(size, kind, ignore_case, to, precision, binary):
    """Returns the text of a size. The precision is that of a number of a unit with a prefix; for `exact` it chooses the
    unit, in which all digits are shown; if `binary`, only a unit by 1024 is shown."""
    if to == "plain":
        return str(size)
    if to == "exact":
        unit = best_unit(size, kind, precision=FORM_PLACES if precision is None else precision)
        if binary and "i" not in unit:
            return str(size)
    elif to in FORMS:
        unit = largest(size, kind, [unit for unit in UNITS[2:] if unit[-1] == BASE[kind]
                                    and to in ("auto", "iec" if "i" in unit else "si")])  # fmt: skip
    else:
        unit = unit_of(to.strip(WHITE_SPACE), kind, ignore_case)
    places = "" if precision is None or to == "exact" or unit in BASE.values() else f".{precision}"
    return f"{value_of(size, kind, unit):{places}f} {unit}"


def checked(value, holds, why, quotes=True):
    """Returns the value of an option. Raises `Wrong` with the reason if it does not hold."""
    if not holds:
        raise Wrong(why, quotes)
    return value


def form(text, options):
    """Returns the text of `--to`, which has to be a form or a unit."""
    unit, words = text.strip(WHITE_SPACE), (options.kind, options.ignore_case)
    if text not in FORMS and (not unit or not unit_of(unit, *words)):
        raise Wrong("not a form or a unit" + (f": {bad_unit(unit, *words).message}" if unit else ""))
    return text


def is_binary(options):
    """Returns whether `K` is 1024."""
    return getattr(options, "from") == "iec"


def read(data, options):
    """Returns the size that bytes represent under the options, or why they represent none."""
    reader = read_words if options.words else number_and_unit
    return size_of(data, options.kind, options.ignore_case, is_binary(options), reader)


def why_not(data, size):
    """Returns why bytes are no size, and where."""
    return located(data, size).removeprefix("the text is ")


def limit(text, options):
    """Returns the size of `--max` or `--min`."""
    size = read(text.encode(), options)  # Without a suffix.
    if isinstance(size, Rejected):
        raise Wrong(why_not(text.encode(), size))
    return size


def ranges(text, options):
    """Returns the first and the last field of each range of a list."""
    separated = options.blanks or "delimiter" in options.texts
    checked(text, separated, "needs -d or --blanks, by which fields are separated")
    pairs = []
    for part in text.split(","):
        first, dash, last = part.partition("-")
        last = (last or BITS_64) if dash else first
        holds = re.fullmatch("[0-9]+|[0-9]*-[0-9]*", part) and 1 <= int(first or 1) <= int(last) <= BITS_64
        pairs.append(checked((first, last), holds, "not a list of fields"))
    return [(int(first or 1), int(last)) for first, last in pairs]


# An option: its letter; its value in a call without it, or what returns that, of the options in the rows before; what
# returns its value, of its text and the options in the rows before; and the text that it has if none is given, or
# `None` if the next word is its text.
Option = namedtuple("Option", "letter default value alone", defaults=["", False, lambda text, options: True, ""])
OPTIONS = {
    "bits": Option(),
    "ignore-case": Option("i"),
    "human-readable": Option("H"),
    "words": Option(),
    "from": Option("", "auto", lambda text, options: checked(
        text, text in ("auto", "si", "iec", "iec-i"), "not auto, si, iec or iec-i"), None),
    "to": Option("", lambda options: "iec" if options.human_readable else "exact", form, None),
    "precision": Option("p", lambda options: 1 if options.human_readable else None, lambda text, options: checked(
        int(text), int(text) <= 28 or options.to != "exact", "above 28 in the form exact", False), None),
    "no-unit": Option("", False, lambda text, options: checked(
        True, options.to == "plain" or options.to not in FORMS,
        "needs --to=plain or --to with a unit, such as --to=MiB", False)),
    "suffix": Option("", "", lambda text, options: text, None),
    "delimiter": Option("d", None, lambda text, options: checked(
        text.replace("\\t", "\t").encode() or None, text == "\\t" or len(text.encode()) <= 1,
        "not one character of one byte"), None),
    "blanks": Option(),
    "field": Option("", [(1, 1)], ranges, None),
    "header": Option("", 0, lambda text, options: int(text), "1"),
    "padding": Option("", 0, lambda text, options: checked(
        text, re.fullmatch("-?[0-9]+", text) and 1 <= abs(int(text)) < 1 << 16,
        "not a number from 1 to 65535, or its negative") and int(text), None),
    "invalid": Option("", "abort", lambda text, options: checked(
        text, text in ("abort", "fail", "warn", "ignore"), "not abort, fail, warn or ignore"), None),
    "total": Option(),
    "max": Option("", None, limit, None),
    "min": Option("", None, limit, None),
    "no-hints": Option(),
    "zero-terminated": Option("z"),
}
BY_LETTER = {option.letter: name for name, option in OPTIONS.items() if option.letter}


def parsed(words):
    """Returns the texts of the options, by name, and the operands. Words that clap rejects are not modelled."""
    end = words.index("--") if "--" in words else len(words)
    words = [f"{word}={OPTIONS['header'].alone}" if word == "--header" else word for word in words[:end]] + words[end:]
    takes_text = {name: name == "header" or option.alone is None for name, option in OPTIONS.items()}
    letters = "".join(letter + ":" * takes_text[name] for letter, name in BY_LETTER.items())
    given, operands = getopt.gnu_getopt(words, letters, [name + "=" * takes_text[name] for name in OPTIONS])
    return {BY_LETTER.get(name[1:]) or name[2:]: text if name[:2] == "--" else text.removeprefix("=") or text
            for name, text in given}, operands  # fmt: skip


def options_of(texts):
    """Returns the values of the options, with `_` in their names for `-`. Raises `Wrong` with a message."""
    options = SimpleNamespace(texts=texts)
    for name, option in OPTIONS.items():
        try:
            default = option.default(options) if callable(option.default) else option.default
            value = option.value(texts[name], options) if name in texts else default
        except Wrong as why:
            value = f"{quoted(texts[name].encode())}: " * why.quotes
            raise Wrong(f"byte-unit: --{name}: {value}{why}\n") from None
        setattr(options, name.replace("-", "_"), value)
        options.kind = "bit" if options.bits else "byte"
    options.end = b"\0" if options.zero_terminated else b"\n"
    return options


def without_suffix(data, suffix):
    """Returns bytes without the suffix at their end, after which there may be white space."""
    texts = [data]
    with contextlib.suppress(UnicodeDecodeError):
        texts.append(data.decode().rstrip(WHITE_SPACE).encode())
    return next((text.removesuffix(suffix) for text in texts if text.endswith(suffix)), data)


class Aborted(Exception):
    """A field is not a size, and the run ends before its record."""


class Run:
    """A run: its messages, the sum of the sizes, and the exit statuses that apply."""

    def __init__(self, options, word):
        self.options, self.word, self.messages, self.total, self.statuses = options, word, [], 0, {0}

    def tell(self, message, status):
        """Adds a message, and the exit status for what it says."""
        self.messages.append(f"byte-unit: {message}\n".encode())
        self.statuses.add(status)

    def shown(self, size, columns=0):
        """Returns what is written for a size, in the width of `--padding` or else of these columns."""
        options = self.options
        text = text_of(size, options.kind, options.ignore_case, options.to, options.precision, is_binary(options))
        text = ((text.split(" ")[0] if options.no_unit else text) + options.suffix).encode()
        width = options.padding or columns
        return text.ljust(-width) if width < 0 else text.rjust(width)

    def convert(self, place, data, gap=b"", columns=0):
        """Returns what is written for a field, after the gap, and tells what is wrong with it. A field that is not a
        size is copied."""
        options, named = self.options, f"{place}: {quoted(data)}"
        text = without_suffix(data, options.suffix.encode())
        size = read(text, options)
        if isinstance(size, Rejected):
            if options.invalid != "ignore":
                hint = "" if options.no_hints or size.name == "out of range" else told_hint(text)
                self.tell(f"{named}: {why_not(text, size)}{hint}", 0 if options.invalid == "warn" else 2)
            if options.invalid == "abort":
                raise Aborted
            return data
        if options.max is not None and size > options.max:
            self.tell(f"{named}: above the maximum", 3)
        if options.min is not None and size < options.min:
            self.tell(f"{named}: below the minimum", 3)
        self.total += size
        return gap + self.shown(size, columns)

    def convert_between_blanks(self, place, data, number):
        """Returns what is written for a field with the blanks before it, of which the first separates it."""
        gap = data[:1] if number > 1 else b""
        columns = len(data) - len(gap) if data[:1] in (b" ", b"\t") else 0
        return self.convert(place, data, gap, columns)

    def record(self, record, data):
        """Returns what is written for a record, without its end byte."""
        mark, place, blanks = self.options.delimiter or b"", f"{self.word} {record}", self.options.blanks
        parts = re.split(rb"(?<=[^ \t])(?=[ \t])", data) if blanks else data.split(mark) if mark else [data]
        convert = self.convert_between_blanks if blanks else lambda place, data, number: self.convert(place, data)
        return mark.join(
            convert(f"{place}: field {number}" if mark or blanks else place, part, number)
            if any(first <= number <= last for first, last in self.options.field) else part
            for number, part in enumerate(parts, 1))

    def result(self, records, header, unread):
        """Returns the result for records, of which the first, the header, are copied."""
        written = []
        try:
            for at, data in enumerate(records, 1):
                written.append(data if at <= header else self.record(at, data))
            if self.options.total and self.total >= SIZE_LIMIT:
                self.tell("the total is 10^30 or more", 2)
            elif self.options.total:
                written.append(self.shown(self.total))
        except Aborted:
            pass
        status = next(status for status in (2, 3, 0) if status in self.statuses)
        return Result(b"".join(text + self.options.end for text in written), b"".join(self.messages), status, unread)


def has_split_size(words):
    """Returns whether a word is a number and the next one a unit."""
    units = [word.strip(WHITE_SPACE) for word in words[1:]]
    return any(re.fullmatch("[0-9.]+", number) and unit and unit_of(unit, "byte", True)
               for number, unit in zip(words, units))  # fmt: skip


def converted(options, operands, data):
    """Returns the result for operands, or for this standard input if there are none."""
    if operands:
        got = Run(options, "operand").result([word.encode() for word in operands], 0, data != b"")
        return replace(got, messages=got.messages + SPLIT * (got.status == 2 and has_split_size(operands)))
    records = data.split(options.end)
    word = "record" if options.zero_terminated else "line"
    return Run(options, word).result(records if records[-1] else records[:-1], options.header, False)


def result_of(call):
    """Returns the result of a call whose words clap accepts."""
    texts, operands = parsed(call.words)
    try:
        options = options_of(texts)
    except Wrong as why:
        return Result(b"", str(why).encode(), 2, call.data != b"")
    return converted(options, operands, call.data)
