"""Draws random calls of byte-unit. What is drawn shrinks: zeros make a call of few words on a short input."""

import random
from collections import namedtuple

from byte_unit_dev.model.exact import SIZE_LIMIT, Rejected, some_line, some_unit
from byte_unit_dev.model.words import PREFIXES
from model import BITS_64, BY_LETTER, FORMS, OPTIONS, Wrong, options_of, read
from program import Call

# The greatest number of 16 bits, as of a precision or a width.
BITS_16 = (1 << 16) - 1
# The options by which a limit is read.
READ_BY = ("bits", "ignore-case", "words", "from")
# Numbers at and beside limits: those of 8, 16, 32 and 64 bits, 28 digits of the form exact, and those at which a wrong
# program of test_wrong.py does otherwise.
PRECISIONS = [0, 1, 2, 3, 7, 8, 27, 28, 29, 92, 93, 94, 255, 256, 999, 1000, 1001, BITS_16]
WIDTHS = [1, 4, 8, 9, 36, 37, 38, 127, 128, 255, 256, 999, 1000, 1001, 32767, 32768, BITS_16]
COUNTS = [0, 1, 1, 2, 3, 5, 19, 20, 255, 256, BITS_16, BITS_16 + 1, 1 << 32, BITS_64 - 1, BITS_64]
LIMITS = [0, 1, 8, 999, 1000, 1001, 1024, 1500, 8000, 10**6, 10**9, 2**64, 10**20, SIZE_LIMIT // 8, SIZE_LIMIT - 1]
ENDS = [31, 255, 256, BITS_16, BITS_16 + 1, 1 << 32, 1 << 63, BITS_64]
# The ends of units.
SUFFIXES = ["", "B", "b", "bit", "bits", "BIT", "bItS"]
# One byte each, and the tab as it is also written.
DELIMITERS = [*",;:\t .Bb1|-=\\'\x01\x1b\x7f", "\\t"]
# Of one to four bytes, with those that messages escape, or that print with no width or from the right.
ODD = [*"x/:@[`{'\"\\,-+_%\0\a\b\t\v\f\r\x1b\x1f\x7f\x80\x85\x9b\x9f\xa0\xad\xb5\xe9\u0131\u0301\u0308",
       *"\u05d0\u0661\u1680\u17b5",
       *"\u200b\u200d\u200e\u2028\u202e\u2066\u20dd\u212a\u3000\u4e2d\ue000\ufeff\uff11\uff2b\uff9e\ufffd",
       *"\U0001d7cf\U0001f600\U000e0001\U000e0100\U0010ffff"]
# Characters at the 80 bytes after which a quoted text is cut, and bytes that are not UTF-8.
CUT = ["a", "\x1b", "\x7f", "\x9b", "\xe9", "\u0301", "\u20ac", "\ufeff", "\U0001f600", "\U0001d7cf"]
# Texts that have a hint, or almost.
MEANT = ["5 bytes", "2 gigs", "2 gig s", "1 Mbps", "1 Mbps/s", "3 kibibits/s", "1/s", "1,5", "1_0", "1 0", "1'0 KB",
         "1e3", "1E+3", "1 e3", "0x1F", "1^2", "5%", "-1", ".5", "5.", "1.2.3", "9 octet", "9 KOctets", "9 xoctets"]
BROKEN = [b"\xff", b"\x80", b"\xc3", b"\xe2\x82", b"\xf0\x9f\x98", b"\xed\xa0\x80", b"\xc0\xaf", b"\xf4\x90\x80\x80"]


def happens(rng, percent):
    """Returns true in this percentage of the cases: for the highest numbers, so that a draw is false if it shrinks."""
    return rng.randrange(100) >= 100 - percent


def near(rng, values, most, least=0):
    """Returns one of these values, or a number beside it, or any number of a random length."""
    value = rng.getrandbits(rng.randrange(1, most.bit_length() + 1)) if happens(rng, 20) else rng.choice(values)
    return min(most, max(least, value + rng.choice([0, 0, 0, -1, 1])))


def some_to(rng, texts):
    """Returns a form, or a unit with or without white space at its ends."""
    if happens(rng, 40):
        return rng.choice(FORMS)
    unit = some_unit(rng, SUFFIXES) or "B"
    return rng.choice(["", "", "", " ", "\t", "\u3000"]) + unit + rng.choice(["", "", "", " "])


def some_precision(rng, texts):
    """Returns a number of digits: for the exact form at most 28."""
    most = 28 if texts.get("to", "" if "human-readable" in texts else "exact") == "exact" else BITS_16
    return some_number(rng, near(rng, PRECISIONS, most) if happens(rng, 50) else rng.randrange(5))


def some_number(rng, number):
    """Returns a number with or without a sign or zeros before it."""
    return rng.choice(["", "", "", "", "+", "0", "00"]) + str(number)


def some_range(rng, first, last):
    """Returns a range of fields in one of its spellings."""
    first, last = sorted([first, last])
    zero = rng.choice(["", "", "", "0", "000"])
    return rng.choice([f"{zero}{first}", f"{zero}{first}", f"{first}-", f"{first}-{zero}{last}", f"{first}-{last}",
                       f"-{zero}{last}", "-"])


def some_fields(rng, texts):
    """Returns a list of fields: a few ranges of any form, or up to twenty single fields."""
    if happens(rng, 30):
        numbers = rng.sample(range(1, 31), rng.choice([2, 5, 8, 9, 10, 15, 16, 17, 18, 19, 20]))
        numbers = rng.choice([numbers, sorted(numbers), sorted(numbers, reverse=True)])
        last = [some_range(rng, number, number + 2) for number in rng.choice([[], [], [rng.randrange(20, 32)]])]
        return ",".join([some_range(rng, number, number) for number in numbers] + last)
    ranges = []
    for _ in range(rng.choice([1, 1, 1, 2, 3, 7, 20])):
        most = rng.choice([3, 6, 12, 30])
        last = near(rng, ENDS, BITS_64, 1) if happens(rng, 10) else rng.randrange(1, most)
        ranges.append(some_range(rng, rng.randrange(1, most), last))
    return ",".join(ranges)


def some_name(rng, options):
    """Returns a unit, or, where words are read or rarely else, a word for one."""
    if not happens(rng, 50 if options.words else 3):
        return some_unit(rng, SUFFIXES)
    word = rng.choice(["", "k", "Mi", *PREFIXES]) + rng.choice(["byte", "bytes", "octets", "bit", "bits"])
    return rng.choice([str.lower, str.upper, str.title])(word)


def some_limit(rng, texts):
    """Returns a text that is a size under the other options."""
    options = options_of({name: value for name, value in texts.items() if name in READ_BY})
    while True:
        if happens(rng, 50):
            text = f"{near(rng, LIMITS, SIZE_LIMIT - 1)}{rng.choice(['', 'b', 'B', 'bit'])}"
        else:
            text = f"{rng.choice([1, 1, 0.125, 0.5, 1.5, 8, 12, 999])}{' ' * rng.randrange(2)}{some_name(rng, options)}"
        text = rng.choice(["", "", "", " "]) + text + rng.choice(["", "", "", "\t"])
        size = read(text.encode(), options)
        if not isinstance(size, Rejected):
            return text


# How often an option is drawn, what draws its value, how its wrong values begin (the first is wrong alone), the
# options of which it needs one, and the option that it cannot be with.
Drawn = namedtuple("Drawn", "percent text wrong needs without", defaults=[lambda rng, texts: "", (), (), ""])
DRAWN = {
    "bits": Drawn(30),
    "ignore-case": Drawn(43, without="bits"),
    "human-readable": Drawn(15),
    "words": Drawn(25),
    "from": Drawn(40, lambda rng, texts: rng.choice(["auto", "si", "iec", "iec", "iec", "iec-i"]), ("", "IEC", "iec")),
    "to": Drawn(70, some_to, ("", " ", "K", "mi", "kb", "bi", "BIT", "bits")),
    "no-unit": Drawn(15, needs="to"),
    "suffix": Drawn(15, lambda rng, texts: rng.choice(["/s", "ps", "B", " ", "", "-", "=", "\u00e9", "5", "x" * 90])),
    "precision": Drawn(50, some_precision),
    "delimiter": Drawn(50, lambda rng, texts: rng.choice([*DELIMITERS * 4, "", *map(chr, range(1, 128))]),
                       (",,", "\\n"), without="blanks"),
    "blanks": Drawn(25, without="delimiter"),
    "field": Drawn(85, some_fields, ("0", "", "3-2", "1,,2", "-0", "1-", "18446744073709551616"),
                   ("delimiter", "blanks")),
    "header": Drawn(25, lambda rng, texts: some_number(rng, near(rng, COUNTS, BITS_64))),
    "padding": Drawn(30, lambda rng, texts: str(near(rng, WIDTHS, BITS_16, 1) * rng.choice([1, -1])),
                     ("0", "-0", "-", "65536", "-65536", "+6", "-+6", "--6", "6", "")),
    "invalid": Drawn(80, lambda rng, texts: rng.choice(["abort", "fail", "fail", "warn", "warn", "ignore"]),
                     ("Abort", "abort ", "failed", "")),
    "total": Drawn(25),
    "max": Drawn(20, some_limit, ("", "1", "1.5 ", "9" * 31, "1 kbi", "1 K")),
    "min": Drawn(20, some_limit, ("", "1", "1.", "9" * 40, "1 bits")),
    "no-hints": Drawn(15),
    "zero-terminated": Drawn(25),
}


def is_possible(drawn, texts):
    """Returns whether an option can be beside these."""
    return drawn.without not in texts and (not drawn.needs or any(name in texts for name in drawn.needs))


def some_wrong_value(rng, texts):
    """Returns the name of an option, and a text that is wrong as its value."""
    while True:
        name = rng.choice([name for name, drawn in DRAWN.items() if drawn.wrong and is_possible(drawn, texts)])
        odd = rng.choice(["", "x", " ", *ODD, "a" * 79 + "\xe9", "1\U0001f600" * 30]).replace("\0", "")
        text = rng.choice(DRAWN[name].wrong) + odd
        try:
            options_of({**texts, name: text})
        except Wrong:
            return name, text


def words_of(rng, name, text):
    """Returns the words of an option in one of its spellings."""
    option = OPTIONS[name]
    if text == option.alone and (text == "" or happens(rng, 70)):
        return [f"-{option.letter}" if option.letter and happens(rng, 70) else f"--{name}"]
    if text == "":
        return rng.choice([[f"--{name}="], [f"--{name}", ""], [f"-{option.letter}" if option.letter else f"--{name}", ""]])
    apart = option.alone is None and text and (text[0] != "-" or name in ("padding", "field", "suffix")) and happens(rng, 40)
    if not option.letter or happens(rng, 50):
        return [f"--{name}", text] if apart else [f"--{name}={text}"]
    if apart:
        return [f"-{option.letter}", text]
    return [f"-{option.letter}{'=' if text[:1] == '=' or happens(rng, 20) else ''}{text}"]


def in_some_order(rng, groups):
    """Returns the words of the options in a random order. Flags of one letter may be joined, or precede an option."""
    flags = {letter for letter, name in BY_LETTER.items() if OPTIONS[name].alone == ""}
    short = [group for group in groups if group[0][1] != "-"]
    rng.shuffle(short)
    for flag, other in zip(short, short[1:]):
        if len(flag) == 1 and set(flag[0][1:]) <= flags and happens(rng, 50):
            other[0] = flag[0] + other[0][1:]
            groups = [group for group in groups if group is not flag]
    rng.shuffle(groups)
    return groups


def with_operands(rng, groups, operands):
    """Returns the words of a call: its operands among its options, or after two dashes."""
    if any(operand[:1] == "-" for operand in operands) or happens(rng, 40):
        return [word for group in groups for word in group] + ["--", *operands]
    slots = sorted(rng.randrange(len(groups) + 1) for _ in operands)
    words = []
    for at, group in enumerate([*groups, []]):
        words += [operand for slot, operand in zip(slots, operands) if slot == at] + group
    return words


def long_field(rng):
    """Returns a field around 80 bytes and past them, with a character of one to four bytes at each place of the cut."""
    head = (rng.choice(CUT) * 40).encode()[: rng.randrange(70, 84)].decode(errors="ignore")
    tail = "".join(rng.choice(CUT) for _ in range(rng.randrange(12)))
    text = (head.ljust(rng.randrange(74, 82), "a") + tail).encode()
    at = rng.choice([rng.randrange(len(text)), *range(76, 82)]) if happens(rng, 20) else len(text)
    return text[:at] + (rng.choice(BROKEN) if at < len(text) else b"") + text[at:]


def odd_field(rng):
    """Returns a field that is rarely a size: with an odd character, too long to quote, not UTF-8, or a random line."""
    make = rng.randrange(10)
    if make < 4:
        return some_line(rng) if happens(rng, 70) else rng.choice(MEANT).encode()
    if make < 7:
        starts = ["", "1", "1.", "1.5", "1 ", "1K", "1 Mi", "1 b", "1 kbi", "1 bit", "1 bits", "1 Gib", "1\t", "\ufeff"]
        return (rng.choice(starts) + rng.choice(ODD) + rng.choice(["", "", "B", " "])).encode()
    if make < 8:
        return rng.choice(["1", "1 K", "x", ""]).encode() + rng.choice(BROKEN) + rng.choice([b"", b"B", b"\x1b"])
    return long_field(rng)


def good_field(rng, options):
    """Returns a field that is mostly a size, often beside a limit of the options."""
    limits = [limit for limit in (options.max, options.min) if limit is not None]
    if limits and happens(rng, 50):
        return f"{max(0, rng.choice(limits) + rng.choice([-8, -1, 0, 0, 1, 8]))}{'b' if options.bits else 'B'}".encode()
    if happens(rng, 3):
        return f"{near(rng, LIMITS, SIZE_LIMIT)}{rng.choice(['', 'B'])}".encode()
    if happens(rng, 3):
        return (" " * rng.choice([0, 1, 40, 90]) + "0" * rng.choice([0, 1, 70, 300]) + "1.5 KB").encode()
    number = str(rng.randrange(10 ** rng.choice([1, 3, 5, 9]))) + rng.choice(["", ".5", ".25", ".125"])
    suffix = options.suffix * (happens(rng, 90) if options.suffix else 0)
    return (number + " " * rng.randrange(2) + some_name(rng, options) + suffix).encode()


def some_records(rng, options, number, odd):
    """Returns at most this number of records, whose output is at most 8 MB; `odd` percent of their fields are odd."""
    most = rng.choice([2, 3, 6, 32]) if options.blanks or options.delimiter is not None else 1
    number = min(number, 15_000 // most, 8_000_000 // (most * max(16, abs(options.padding), options.precision or 0)))
    size = min(rng.choice([2, 10, 60, 60]), most * max(1, number))
    pool = [odd_field(rng) if happens(rng, odd) else good_field(rng, options) for _ in range(size)]
    order = random.Random(rng.getrandbits(32))
    counts = [0, 1, most, most] if most > 1 else [1]
    marks = [b" ", b" ", b"   ", b"\t", b" \t ", b" " * 20] if options.blanks else [options.delimiter or b""]
    heads = [b"", b"", b"  ", b"\t"] if options.blanks else [b""]
    return [order.choice(heads) + order.choice(marks).join(order.choices(pool, k=order.choice(counts)))
            for _ in range(number)]


def some_input(rng, options):
    """Returns an input: a few records, or more than one read takes."""
    odd = rng.choice([0, 0, 2, 30])
    number = rng.choice([3_000, 9_000]) if happens(rng, 4) else rng.choice([0, 1, 2, 5, 20, 60, 60, 60])
    records = [record.replace(options.end, b"") for record in some_records(rng, options, number, odd)]
    if records and happens(rng, 2):
        long = rng.choice([b" ", b"0"]) * rng.choice([65_530, 65_536, 131_070, 200_000])
        records[rng.randrange(len(records))] = long + rng.choice([b"1 KB", b"1KiB", b"x"])
    return options.end.join(records) + rng.choice([options.end, b""])


def some_cuts(rng, options, data):
    """Returns where the reads of an input end, or `None` if the program gets it as a file."""
    if not data or abs(options.padding) > 130 or (options.precision or 0) > 93 or not happens(rng, 40):
        return None
    if len(data) < 3_000 and happens(rng, 30):
        return list(range(len(data)))
    places = [rng.randrange(len(data)) for _ in range(rng.choice([1, 2, 5, 20]))]
    return sorted(rng.choice([65_535, 65_536, 65_537, 131_072]) if happens(rng, 20) else place for place in places)


def some_call(rng):
    """Returns a random call: of twenty one has a wrong value, and four have operands."""
    make, texts, wrong = rng.randrange(20), {}, []
    for name, drawn in DRAWN.items():
        if is_possible(drawn, texts) and happens(rng, drawn.percent):
            if name != "no-unit" or texts["to"] not in set(FORMS) - {"plain"}:
                texts[name] = drawn.text(rng, texts)
    options = options_of(texts)
    if make == 19:
        name, text = some_wrong_value(rng, texts)
        wrong = [[f"--{name}={text}"]]
        texts.pop(name, None)
    groups = in_some_order(rng, [words_of(rng, name, text) for name, text in texts.items()] + wrong)
    if texts and happens(rng, 20):  # The last of an option holds.
        name = rng.choice(sorted(texts))
        groups.insert(0, words_of(rng, name, DRAWN[name].text(rng, {**texts, "to": "plain"})))
    if make > 14:
        fields = some_records(rng, options, rng.choice([1, 1, 2, 5, 12]), rng.choice([0, 5, 30]))
        operands = [rng.choice(["1KB\n", "\n", "1\n2"]) * happens(rng, 10) + field.decode(errors="replace")
                    for field in fields]  # fmt: skip
        return Call(with_operands(rng, groups, [word.replace("\0", "") for word in operands]), b"1 KB\nx\n")
    data = some_input(rng, options)
    return Call(with_operands(rng, groups, []), data, some_cuts(rng, options, data))
